"""A second reading of the rules of docs 01, sentence after sentence, to be held against the published Rust.

It is written from 01 and, where they amend it, from requests A3 and A7 of 02. The comments are 01's sentences,
some of them shortened; what 02 has changed is marked "A3" or "A7". A lent output is here the number of rows that
it has room for (13). Left to reading_words.py: the checks of a table (refusals 1, 2 and 3: a table handed in here
keeps the rules) and of states that are handed in (20), and what A7 says of rows that omit a field.
"""
import math
from typing import NamedTuple, Optional

INFINITE = math.inf

# "256 active messages, 64 jobs in one processor, batcher or stopwatch, 64 parked messages in one Coupled,
# 256 messages out of one internal event."
MOST_ACTIVE = 256
MOST_HELD = 64
MOST_PARKED = 64
MOST_OUT = 256

# "queue_capacity is any u64"; omitted, by A7: "Rows that omit `queue_capacity` now get 32, so the 33rd job is
# dropped where it was kept."
OMITTED_CAPACITY = 32
# A7: "Stored tables that relied on the old reading, ours and the desk's, get 2^64 - 1 written out". No queue is as
# long: such a processor drops nothing, and refuses with 7.
UNLIMITED_CAPACITY = 2 ** 64 - 1


class Refused(Exception):
    """A refusal, with its number."""

    def __init__(self, number):
        super().__init__(number)
        self.number = number


def is_time(value):
    """A time is an f64 with its sign bit clear and a value of at most 2^60."""
    return math.copysign(1.0, value) > 0 and value <= 2.0 ** 60


class Message(NamedTuple):
    """A message is source id, source port, target id, target port, time, content."""
    source: int
    source_port: int
    target: int
    target_port: int
    time: float
    content: int


class Out(NamedTuple):
    """What an internal event puts out: the port that it leaves by, and its content."""
    port: int
    content: int


class Parked(NamedTuple):
    """A message parked in a Coupled."""
    component: int
    port: int
    content: int


class ProcessorRow(NamedTuple):
    """A processor's row. The parent is None where there is none, here and below."""
    id: int
    parent: Optional[int]
    input: int
    output: int
    capacity: int


class BatcherRow(NamedTuple):
    """A batcher's row: its maximum is max_batch_size, its batch time max_batch_time."""
    id: int
    parent: Optional[int]
    input: int
    output: int
    maximum: int
    batch_time: float


class StopwatchRow(NamedTuple):
    """A stopwatch's row: three input ports, the port out, and which duration is asked for."""
    id: int
    parent: Optional[int]
    start: int
    stop: int
    metric: int
    output: int
    least: bool


class CoupledRow(NamedTuple):
    """A Coupled's row; its components' rows name it as their parent."""
    id: int
    parent: Optional[int]


class Connector(NamedTuple):
    """From a parentless model's port out to another's port."""
    source: int
    source_port: int
    target: int
    target_port: int


class Coupling(NamedTuple):
    """A coupling of a Coupled (owner). An external input has no source, an external output no target."""
    owner: int
    kind: str  # 'input', 'internal' or 'output'
    source: Optional[int]
    source_port: int
    target: Optional[int]
    target_port: int


class Table(NamedTuple):
    """What post and put take."""
    rows: list
    connectors: list
    couplings: list


class Ran(NamedTuple):
    """The answer of step, step_n and step_until: its end is Done, Reached, Spent or Refused."""
    end: str
    steps: int
    rows: list
    refusal: Optional[int] = None


# ---- The four models


class Model:
    """What a processor, a batcher and a stopwatch share.

    Each has a timer, kept as an f64 beside its phase, infinite at first, phase Passive, nothing held.
    """

    def __init__(self, row):
        self.row = row
        self.id = row.id
        self.phase = 'Passive'
        self.timer = INFINITE
        self.held = []

    def saved(self):
        """What a step may change."""
        return self.phase, self.timer, self.held[:]

    def restore(self, saved):
        """As it was."""
        self.phase, self.timer, self.held = saved

    def advance(self, by):
        """Every model keeps the timer less the step's advance, rounded once."""
        self.timer -= by

    def keep(self, job):
        """7: a job would be kept, and 64 are."""
        if len(self.held) == MOST_HELD:
            raise Refused(7)
        self.held.append(job)

    def status(self):
        """Status: phase for processor and batcher."""
        return self.phase


class Processor(Model):
    """The queue (held) includes the job in work."""

    def external(self, simulation, port, job):
        """A job comes."""
        # A job on another port: 5.
        if port != self.row.input:
            raise Refused(5)
        # Queue at capacity: empty gives 6, otherwise the job is dropped and the event succeeds.
        if len(self.held) == self.row.capacity:
            if not self.held:
                raise Refused(6)
        # Below capacity, empty queue: keep the job, turn Active, timer is the next service time.
        elif not self.held:
            self.keep(job)
            self.phase = 'Active'
            self.timer = simulation.next_service_time()
        # Below capacity, otherwise: keep it (7 if 64 are held).
        else:
            self.keep(job)

    def internal(self, simulation):
        """The timer has run out."""
        # Active puts out the first job, turns Passive, timer 0.
        if self.phase == 'Active':
            first = self.held.pop(0)
            self.phase = 'Passive'
            self.timer = 0.0
            return [Out(self.row.output, first)]
        # Passive with jobs turns Active with the next service time.
        if self.held:
            self.phase = 'Active'
            self.timer = simulation.next_service_time()
        # Passive without: timer infinite.
        else:
            self.timer = INFINITE
        return []


class Batcher(Model):
    """With h held and maximum m."""

    def external(self, simulation, port, job):
        """A job comes. The port isn't looked at."""
        # If h + 1 < m, Passive starts a batch (Batching, timer is the batch time), Batching adds with its
        # timer unchanged, and Release gives 6;
        if len(self.held) + 1 < self.row.maximum:
            if self.phase == 'Passive':
                self.phase = 'Batching'
                self.timer = self.row.batch_time
            elif self.phase == 'Release':
                raise Refused(6)
        # otherwise Release, timer 0.
        else:
            self.phase = 'Release'
            self.timer = 0.0
        # The job is kept (7 if 64 are held).
        self.keep(job)

    def internal(self, simulation):
        """The timer has run out."""
        held, maximum = len(self.held), self.row.maximum
        # h at most m puts out all, Passive, infinite.
        if held <= maximum:
            self.phase = 'Passive'
            self.timer = INFINITE
            return self.put_out(held)
        # h at least 2m puts out m, Release, timer 0.
        if held >= 2 * maximum:
            self.phase = 'Release'
            self.timer = 0.0
        # Between, m go out, Batching, timer is the batch time.
        else:
            self.phase = 'Batching'
            self.timer = self.row.batch_time
        return self.put_out(maximum)

    def put_out(self, count):
        """The first jobs held, that many of them, go out."""
        going, self.held = self.held[:count], self.held[count:]
        return [Out(self.row.output, job) for job in going]


class Mark(NamedTuple):
    """A job of a stopwatch: its name, and the clock at its start and at its stop (None before)."""
    name: int
    start: Optional[float] = None
    stop: Optional[float] = None


class Stopwatch(Model):
    """It holds the marks of its jobs, in the order in which they were made."""

    def external(self, simulation, port, job):
        """A message comes."""
        # Start and stop set the clock on the job of that name, making it if new (7 if 64 names).
        if port == self.row.start:
            self.set_mark(job, start=simulation.clock)
        elif port == self.row.stop:
            self.set_mark(job, stop=simulation.clock)
        # Metric: JobFetch, timer 0.
        elif port == self.row.metric:
            self.phase = 'JobFetch'
            self.timer = 0.0
        # 5: processor or stopwatch, unknown port.
        else:
            raise Refused(5)

    def set_mark(self, name, **times):
        """Sets a time of the job of that name, which is made if new."""
        for place, mark in enumerate(self.held):
            if mark.name == name:
                self.held[place] = mark._replace(**times)
                return
        self.keep(Mark(name, **times))

    def complete(self):
        """The complete jobs, each with its duration: stop less start, rounded once."""
        return [(mark.stop - mark.start, mark.name) for mark in self.held
                if mark.start is not None and mark.stop is not None]

    def internal(self, simulation):
        """The timer has run out."""
        # Internal in JobFetch puts out the complete job of least (or greatest) duration, the first made
        # among equals; nothing if none is complete. Internal in Passive: nothing.
        out = []
        durations = self.complete()
        if self.phase == 'JobFetch' and durations:
            choose = min if self.row.least else max
            asked_for = choose(duration for duration, _ in durations)
            names = [name for duration, name in durations if duration == asked_for]
            out = [Out(self.row.output, names[0])]
        # Then Passive, infinite.
        self.phase = 'Passive'
        self.timer = INFINITE
        return out

    def status(self):
        """The mean of complete durations (summed in order from 0, then divided by their number), or none."""
        durations = self.complete()
        if not durations:
            return None
        total = 0.0
        for duration, _ in durations:
            total += duration
        return total / len(durations)


class Coupled:
    """A Coupled has components, couplings and parked messages; its timer is not kept, but follows from these."""

    def __init__(self, row, couplings):
        self.row = row
        self.id = row.id
        self.components = []
        self.parked = []
        self.couplings = {kind: [coupling for coupling in couplings
                                 if coupling.owner == row.id and coupling.kind == kind]
                          for kind in ('input', 'internal', 'output')}

    @property
    def timer(self):
        """Timer: 0 with any parked message (A3), else the least of its components', infinite with none."""
        # A3: "From now on a Coupled with any parked message has timer 0." A component that is a Coupled has its
        # timer by the same sentence, so one parked message makes every Coupled around it due.
        if self.parked:
            return 0.0
        return min((component.timer for component in self.components), default=INFINITE)

    def saved(self):
        """What a step may change."""
        return self.parked[:], [component.saved() for component in self.components]

    def restore(self, saved):
        """As it was."""
        self.parked, inside = saved
        for component, was in zip(self.components, inside):
            component.restore(was)

    def advance(self, by):
        """Every model keeps the timer less the step's advance: so does each component."""
        for component in self.components:
            component.advance(by)

    def external(self, simulation, port, job):
        """A message comes."""
        # A message goes at once along every matching external input coupling to the component; none
        # matching, it is ignored.
        for coupling in self.couplings['input']:
            if coupling.source_port == port:
                for component in self.components:
                    if component.id == coupling.target:
                        simulation.deliver(component, coupling.target_port, job)

    def internal(self, simulation):
        """The timer has run out."""
        # Parked messages go to their components in component order, then parked order,
        for component in self.components:
            for message in self.parked:
                if message.component == component.id:
                    simulation.deliver(component, message.port, message.content)
        # and the list is emptied (those for no component are lost).
        self.parked = []
        # Then each component with timer 0 has its internal event, in order.
        out = []
        for component in self.components:
            if component.timer == 0:
                for message in simulation.wake(component):
                    self.hand_on(component, message, out)
        return out

    def hand_on(self, component, message, out):
        """Each message out is first parked along internal couplings, then put out along external ones."""
        leaves_by = (component.id, message.port)
        for coupling in self.couplings['internal']:
            if (coupling.source, coupling.source_port) == leaves_by:
                # 8: a message would be the 65th parked.
                if len(self.parked) == MOST_PARKED:
                    raise Refused(8)
                self.parked.append(Parked(coupling.target, coupling.target_port, message.content))
        for coupling in self.couplings['output']:
            if (coupling.source, coupling.source_port) == leaves_by:
                # 8: a message would be the 257th put out.
                if len(out) == MOST_OUT:
                    raise Refused(8)
                out.append(Out(coupling.target_port, message.content))

    def status(self):
        """For a Coupled its parked count."""
        return len(self.parked)


KINDS = {ProcessorRow: Processor, BatcherRow: Batcher, StopwatchRow: Stopwatch}


def fresh_models(table):
    """The parentless models of a table, in row order, with their components in them."""
    parentless, coupleds = [], {}
    for row in table.rows:
        if isinstance(row, CoupledRow):
            model = coupleds[row.id] = Coupled(row, table.couplings)
        else:
            model = KINDS[type(row)](row)
        siblings = parentless if row.parent is None else coupleds[row.parent].components
        siblings.append(model)
    return parentless


# ---- The step and the calls


class Simulation:
    """The models, the active messages, the clock, the lent service times and the place in their list."""

    def __init__(self, services):
        self.services = services
        self.post(Table([], [], []))

    def post(self, table):
        """A new simulation of the table."""
        self.put(table)
        self.active = []
        self.clock = 0.0
        self.place = 0

    def put(self, table):
        """It brings fresh default models and keeps messages, clock and place."""
        self.models = fresh_models(table)
        self.connectors = table.connectors

    def inject_input(self, message):
        """It checks 10, then 8."""
        if not is_time(message.time):
            raise Refused(10)
        if len(self.active) == MOST_ACTIVE:
            raise Refused(8)
        self.active = self.active + [message]

    def reset(self):
        """It clears messages and clock only."""
        self.reset_messages()
        self.reset_global_time()

    def reset_messages(self):
        """The one half."""
        self.active = []

    def reset_global_time(self):
        """The other half."""
        self.clock = 0.0

    def model(self, identity):
        """The model of this id. 4: status of an id not among the models without parent."""
        for model in self.models:
            if model.id == identity:
                return model
        raise Refused(4)

    def status(self, identity):
        """The status of a parentless model."""
        return self.model(identity).status()

    def next_service_time(self):
        """The next entry of the list."""
        # 9: a service time is needed past the end of the list.
        if self.place >= len(self.services):
            raise Refused(9)
        time = self.services[self.place]
        # 10: a service time read is no time.
        if not is_time(time):
            raise Refused(10)
        self.place += 1
        return time

    def deliver(self, model, port, job):
        """An external event of a model or component. All pass here, so that a subclass can watch them."""
        model.external(self, port, job)

    def wake(self, model):
        """An internal event of a model or component: its messages out. All pass here too."""
        return model.internal(self)

    def least_timer(self):
        """The least timer; infinite with no model."""
        return min((model.timer for model in self.models), default=INFINITE)

    def take_step(self, room, until=INFINITE):
        """One step. Refused, it changes nothing (the place in the service list included)."""
        kept = [model.saved() for model in self.models], self.active, self.clock, self.place
        try:
            self.apply_step()
            # 13: a step's rows must be collected, and they don't fit. It comes last.
            if self.clock < until and len(self.active) > room:
                raise Refused(13)
        except Refused:
            saved, self.active, self.clock, self.place = kept
            for model, was in zip(self.models, saved):
                model.restore(was)
            raise

    def apply_step(self):
        """The five sentences of the step."""
        # 1. If messages are active: each parentless model in row order takes, in list order, those whose
        # target is its id.
        for model in self.models:
            for message in self.active:
                if message.target == model.id:
                    self.deliver(model, message.target_port, message.content)
        # 2. The advance is 0 if messages were active, else the least timer. Infinite: refusal 12, "which now also
        # needs every parked list empty" (A3): with one that is not, the least timer is 0.
        advance = 0.0 if self.active else self.least_timer()
        if advance == INFINITE:
            raise Refused(12)
        # 3. Every model keeps the timer less the step's advance, rounded once. The clock gains the advance,
        # rounded once; refusal 11 is decided here.
        for model in self.models:
            model.advance(advance)
        self.clock += advance
        if not is_time(self.clock):
            raise Refused(11)
        # 4. Each parentless model in row order whose timer equals 0 has its internal event.
        out = []
        for model in self.models:
            if model.timer == 0:
                for message in self.wake(model):
                    self.send(model, message, out)
        # 5. These messages replace the active ones.
        self.active = out

    def send(self, model, message, out):
        """Each outgoing message goes along every connector, in order, that matches source id and port."""
        for connector in self.connectors:
            if (connector.source, connector.source_port) == (model.id, message.port):
                # 8: a message would be the 257th active.
                if len(out) == MOST_ACTIVE:
                    raise Refused(8)
                # stamped with the new clock.
                out.append(Message(*connector, self.clock, message.content))

    def get_messages(self, room):
        """The active messages. 13: they are listed, and don't fit."""
        if len(self.active) > room:
            raise Refused(13)
        return self.active

    def step(self, room=INFINITE):
        """step is step_n for one step."""
        return self.step_n(1, room)

    def step_n(self, count, room=INFINITE):
        """It collects the messages of all its steps, and ends Done or by a refusal."""
        rows = []
        for steps in range(count):
            try:
                self.take_step(room - len(rows))
            except Refused as refusal:
                # It stops at the refused step: it keeps earlier steps and rows.
                return Ran('Refused', steps, rows, refusal.number)
            rows += self.active
        return Ran('Done', count, rows)

    def step_until(self, until, allowance, room=INFINITE):
        """It ends Reached, Spent (allowance used up before that) or by a refusal."""
        # A bad until is refused before any step.
        if not is_time(until):
            return Ran('Refused', 0, [], 10)
        rows = []
        for steps in range(allowance):
            # It steps first and then looks:
            try:
                self.take_step(room - len(rows), until)
            except Refused as refusal:
                return Ran('Refused', steps, rows, refusal.number)
            # below until it collects and goes on, else it ends and does not collect.
            if not self.clock < until:
                return Ran('Reached', steps + 1, rows)
            rows += self.active
        # Allowance 0 gives Spent and 0 steps.
        return Ran('Spent', allowance, rows)
