"""Random scripts: service times, a table, and calls. The reading plays along and says where a script ends.

A script ends at its first refusal. An idle step (refusal 12) is never asked for, as the Rust does not refuse
it: a call that would meet one ends before it. So does a call that would meet a step in which a Coupled has an
internal event by A3 alone, which it has not in the Rust; there the script ends.
"""
import random
from typing import NamedTuple, Optional

from reading import INFINITE, OMITTED_CAPACITY, Message, ProcessorRow, Ran, Refused, Stopwatch, StopwatchRow
from tables import Tables, parentless
from watching import PARTS, Watched

RUNS = ('step', 'step_n', 'step_until')
WIDE_CONTENTS = [0, 7, 2 ** 31, 2 ** 32 - 1]
NO_TARGET = 97
NO_STATUS = 96


class Sizes(NamedTuple):
    """How large the scripts are, and what may be in them."""
    rows: int             # model rows of a table, at most (deep tables may have a few more)
    trap_share: float     # tables with something in them that refuses
    few_share: float      # scripts with few service times
    few: int              # how many these have at most
    services: int         # how many the others have
    steps: range          # steps of a script, at most
    jobs: list            # injections of a script, at most
    names: int            # different contents
    means: bool           # whether status is asked of a stopwatch that has a mean
    crowd_share: float = 0.0  # scripts in which most jobs go to one processor that omits its capacity (A7)


class Call(NamedTuple):
    """A call: the name of a method of Simulation, its arguments, and the answer if it is a run."""
    name: str
    arguments: tuple = ()
    ran: Optional[Ran] = None


class Messages:
    """Chooses messages to inject: for random calls on `tables`, made so far as `calls` and `steps` say."""

    random = maker = simulation = tables = contents = None
    calls = steps = None

    def some_message(self):
        """A message to a parentless model, a few to nobody."""
        row = self.some_target()
        port, content = self.port_and_content(row)
        source = (0, 0) if self.random.random() < 0.9 else (self.random.choice([5, 65535]), 3)
        time = 0.0 if self.random.random() < 0.8 else self.maker.time()
        return Message(*source, row.id if row else NO_TARGET, port, time, content)

    def some_target(self):
        """The row of a parentless model, often of a stopwatch with something to tell; or None."""
        tops = parentless(self.tables[-1].rows)
        ready = [row for row in tops if self.has_mean(row.id)]
        if ready and self.random.random() < 0.5:
            return self.random.choice(ready)
        return self.random.choice(tops) if self.random.random() < 0.97 else None

    def has_mean(self, identity):
        """Whether this is a parentless stopwatch with a complete job."""
        return any(model.id == identity and isinstance(model, Stopwatch) and model.complete()
                   for model in self.simulation.models)

    def port_and_content(self, row):
        """Port and content of a message to this row; to a stopwatch often what goes on with a job there."""
        port = self.maker.port_into(row, may_be_wrong=self.steps > 0)
        content = self.random.choice(self.contents)
        if not isinstance(row, StopwatchRow):
            return port, content
        marks = self.simulation.model(row.id).held
        if marks and self.random.random() < 0.8:
            return self.next_for_mark(row, self.random.choice(marks))
        before = self.calls[-1] if self.calls else None
        same = before and before.name == 'inject_input' and before.arguments[0].target == row.id
        if same and self.random.random() < 0.7:
            message = before.arguments[0]
            goes_on = {row.start: row.stop, row.stop: self.random.choice([row.start, row.metric])}
            return goes_on.get(message.target_port, port), message.content
        return port, content

    def next_for_mark(self, row, mark):
        """Sets the mark that a job lacks, or asks, or stops it again."""
        if mark.start is None:
            return row.start, mark.name
        if mark.stop is None:
            return row.stop, mark.name
        return self.random.choice([row.metric, row.metric, row.stop]), mark.name


class Script(Messages):
    """A random script, planned from its seed."""

    def __init__(self, seed, sizes):
        self.seed = seed
        self.random = random.Random(seed)
        self.sizes = sizes
        self.maker = Tables(self.random, sizes.rows, sizes.trap_share)
        few = self.random.random() < sizes.few_share
        count = self.random.randint(0, sizes.few) if few else sizes.services
        self.services = [self.maker.time() for _ in range(count)]
        wide = self.random.random() < 0.2
        self.contents = WIDE_CONTENTS if wide else list(range(1, sizes.names + 1))
        self.most_jobs = self.random.choice(sizes.jobs)
        self.most_steps = self.random.choice(sizes.steps)
        self.simulation = Watched(self.services)
        self.simulation.stops_where_parted = True
        self.table = self.maker.table()
        self.tables = [self.table]
        self.crowded = self.crowd() if sizes.crowd_share and self.random.random() < sizes.crowd_share else None
        self.simulation.post(self.table)
        self.calls = []
        self.jobs = 0
        self.steps = 0
        self.idle_ends = 0
        self.refusal = None
        self.parts = False
        self.plan()

    @property
    def swallowed(self):
        """Whether the script ends with an error that the Rust swallows."""
        return self.refusal is not None and self.simulation.refused_inside()

    def ends(self):
        """How the script ends, in words."""
        if self.refusal is not None:
            return f'refusal {self.refusal}'
        return 'where A3 shows' if self.parts else 'none refused'

    def crowd(self):
        """Has a processor omit its capacity, if there is one; the id, its own or its Coupled's, to which its jobs go."""
        rows = self.table.rows
        tops = [row.id for row in parentless(rows)]
        ways = [(row.id, row.id) for row in rows]
        ways += [(coupling.target, coupling.owner) for coupling in self.table.couplings if coupling.kind == 'input']
        found = [(place, by) for place, row in enumerate(rows) if isinstance(row, ProcessorRow)
                 for to, by in ways if to == row.id and by in tops]
        if not found:
            return None
        place, by = self.random.choice(found)
        rows[place] = rows[place]._replace(capacity=OMITTED_CAPACITY)
        self.most_jobs = max(self.most_jobs, OMITTED_CAPACITY + 8)
        return by

    def some_target(self):
        """Where one row is crowded, most often that."""
        if self.crowded is not None and self.random.random() < 0.9:
            for row in parentless(self.tables[-1].rows):
                if row.id == self.crowded:
                    return row
        return super().some_target()

    def plan(self):
        """Makes the calls, up to the most steps, to a refusal, to where A3 shows, or to the end of all events."""
        try:
            least = 1 if self.crowded is None else OMITTED_CAPACITY
            self.inject(self.random.randint(least, max(least, 2 * self.most_jobs // 3)))
            while self.steps < self.most_steps and self.refusal is None and not self.parts:
                if self.is_idle() and self.jobs == self.most_jobs:
                    break
                # Messages can get an idle simulation going, and make a Coupled due in the Rust too.
                if self.is_idle() or self.simulation.is_about_to_part():
                    self.inject(self.random.randint(1, 2))
                self.make_some_call()
        except Refused as refusal:
            self.refusal = refusal.number
        if not self.calls or self.calls[-1].ran is None:
            self.run('step_n', 0)
        if self.refusal != 9:
            self.services = self.services[:self.simulation.furthest + self.random.randint(0, 1)]

    def is_idle(self):
        """Whether a step would be refused with 12."""
        return not self.simulation.active and self.simulation.least_timer() == INFINITE

    def make_some_call(self):
        """One of the calls, or a few injections."""
        choices = {self.inject_some: 18, self.ask_status: 4, self.reset_something: 5, self.put_table: 2,
                   self.run_step: 35, self.run_step_n: 18, self.run_step_until: 18}
        self.random.choices(list(choices), weights=list(choices.values()))[0]()

    def make(self, name, *arguments):
        """Makes a call that is no run."""
        getattr(self.simulation, name)(*arguments)
        self.calls.append(Call(name, arguments))

    # ---- injections

    def inject_some(self):
        """One to three injections."""
        self.inject(self.random.randint(1, 3))

    def inject(self, count):
        """So many injections, as far as the script may have them."""
        for _ in range(min(count, self.most_jobs - self.jobs)):
            self.make('inject_input', self.some_message())
            self.jobs += 1

    # ---- other calls that are no runs

    def ask_status(self):
        """Status of a row, or of nobody; of a stopwatch with a mean only where the sizes allow it."""
        known = self.random.random() < 0.9
        identity = self.random.choice(self.tables[-1].rows).id if known else NO_STATUS
        if self.sizes.means or not self.has_mean(identity):
            self.calls.append(Call('status', (identity,)))

    def reset_something(self):
        """One of the three resets."""
        self.make(self.random.choice(['reset', 'reset_messages', 'reset_global_time', 'reset_global_time']))

    def put_table(self):
        """Another table."""
        self.tables.append(self.maker.table())
        self.make('put', self.tables[-1])

    # ---- runs

    def run_step(self):
        """One step."""
        self.run('step')

    def run_step_n(self):
        """A few steps."""
        self.run('step_n', self.random.choice([0, 1, 2, 2, 3, 3, 4]))

    def run_step_until(self):
        """Steps until a time near the clock, or until the script's steps are used up."""
        near = self.random.choice([-1.0, 0.0, 0.1, 1.0, 2.5, 4.0, 7.0, 10.0])
        allowance = self.most_steps - self.steps if self.random.random() < 0.97 else 0
        self.run('step_until', max(0.0, self.simulation.clock + near), allowance)

    def run(self, name, *arguments):
        """Makes a run and writes it down, with another allowance by which it ends the same way."""
        ran = getattr(self.simulation, name)(*arguments)
        self.steps += ran.steps
        if ran.refusal in (12, PARTS):
            self.idle_ends += ran.refusal == 12
            self.parts = ran.refusal == PARTS
            self.end_before(name, arguments, ran)
            return
        if ran.end == 'Reached':
            arguments = (arguments[0], ran.steps + self.random.choice([0, 1, 500]))
        if ran.end == 'Refused':
            self.refusal = ran.refusal
            if name == 'step_until':
                arguments = (arguments[0], ran.steps + self.random.choice([1, 2, 500]))
        self.calls.append(Call(name, arguments, ran))

    def end_before(self, name, arguments, ran):
        """Writes a run down that takes only the steps before the one that the Rust takes otherwise."""
        if ran.steps == 0:
            return
        if name == 'step_until' and self.random.random() < 0.5:
            spent = Ran('Spent', ran.steps, ran.rows)
            self.calls.append(Call(name, (arguments[0], ran.steps), spent))
        else:
            self.calls.append(Call('step_n', (ran.steps,), Ran('Done', ran.steps, ran.rows)))
