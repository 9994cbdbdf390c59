"""The second reading of tables and states as words: which are refused with 1, 2, 3 and 20, and what the others say.

Written from 01, request A7 of 02, docs/LAYOUT.md and, for the depth of a row that is no Coupled, docs/DECISIONS.md. The comments
are their sentences, some of them shortened. Also, from A7: what intake reports, and how stored tables are written out.
"""
import struct

from reading import (INFINITE, MOST_ACTIVE, MOST_HELD, OMITTED_CAPACITY, UNLIMITED_CAPACITY, Batcher, BatcherRow, Connector,
                     Coupled, CoupledRow, Coupling, Mark, Message, Parked, Processor, ProcessorRow, Refused, Stopwatch,
                     StopwatchRow, Table, is_time)

MODEL_WORDS, CONNECTOR_WORDS, COUPLING_WORDS, MESSAGE_WORDS, HEAD_WORDS = 10, 4, 6, 6, 4
MOST_MODELS, MOST_CONNECTORS, MOST_COUPLINGS = 64, 256, 256
DEEPEST_COUPLED = 4
PROCESSOR, BATCHER, STOPWATCH, COUPLED = 1, 2, 3, 4
PARENT_GIVEN, CAPACITY_GIVEN, METRIC_GIVEN = 1, 2, 4
MOST_GIVEN = 7
# Where a bad row stands, as intake reports it.
NOWHERE, IN_MODELS, IN_CONNECTORS, IN_COUPLINGS = range(4)
COUPLING_KINDS = {1: 'input', 2: 'output', 3: 'internal'}
PHASES = {Processor: ['Passive', 'Active'], Batcher: ['Passive', 'Batching', 'Release'], Stopwatch: ['Passive', 'JobFetch']}
KIND_OF_ROW = {ProcessorRow: PROCESSOR, BatcherRow: BATCHER, StopwatchRow: STOPWATCH, CoupledRow: COUPLED}


def float_of(word):
    """The f64 of these bits."""
    return struct.unpack('<d', struct.pack('<Q', word))[0]


def word_of(value):
    """The bits of an f64."""
    return struct.unpack('<Q', struct.pack('<d', value))[0]


def narrow(words):
    """Ids and ports are 16-bit numbers."""
    return all(word < 2 ** 16 for word in words)


def rows_in(words, width):
    """Rows stand one after the other; the last may be cut short."""
    return [words[start:start + width] for start in range(0, len(words), width)]


# ---- intake


class BadRow(Refused):
    """A refusal of intake with its place: where the first bad row stands, and which it is there, counted from 0."""

    def __init__(self, number, place):
        super().__init__(number)
        self.place = place


def table_in(models, connectors, couplings):
    """The table of three lent slices. Intake checks 1, then 2 in row order, then 3."""
    slices = [rows_in(models, MODEL_WORDS), rows_in(connectors, CONNECTOR_WORDS), rows_in(couplings, COUPLING_WORDS)]
    # 1: a table has too many rows, one cut short counted.
    if any(len(rows) > most for rows, most in zip(slices, (MOST_MODELS, MOST_CONNECTORS, MOST_COUPLINGS))):
        raise Refused(1)
    rows = read_rows(IN_MODELS, slices[0], model_row)
    links = read_rows(IN_CONNECTORS, slices[1], lambda words, _: connector_row(words))
    return Table(rows, links, read_rows(IN_COUPLINGS, slices[2], lambda words, _: coupling_row(words, rows)))


def read_rows(where, slice_rows, read):
    """The rows of a slice, each read after those before it. The first that breaks is the bad one."""
    rows = []
    for place, words in enumerate(slice_rows):
        try:
            rows.append(read(words, rows))
        except Refused as refused:
            raise BadRow(refused.number, (where, place)) from None
    return rows


def model_row(words, before):
    """A model row, after the rows before it. 2: it breaks a rule."""
    # A row cut short breaks; every id and port cell is below 2^16, unused ones too; word 2 above 7 breaks the row.
    if len(words) < MODEL_WORDS or not narrow(words[:1] + words[4:8]) or words[2] > MOST_GIVEN:
        raise Refused(2)
    # Ids are unique over the whole table.
    if any(row.id == words[0] for row in before):
        raise Refused(2)
    parent = words[3] if words[2] & PARENT_GIVEN else None
    depth = depth_under(parent, before)
    # A Coupled may hold another Coupled, to depth 4 (a row without parent has depth 1).
    if words[1] == COUPLED and depth > DEEPEST_COUPLED:
        raise Refused(2)
    return row_of_kind(words, parent)


def depth_under(parent, before):
    """The depth of a row of this parent, which is an earlier row and a Coupled."""
    depth = 1
    while parent is not None:
        holder = next((row for row in before if row.id == parent and isinstance(row, CoupledRow)), None)
        if holder is None:
            raise Refused(2)
        parent = holder.parent
        depth += 1
    return depth


def row_of_kind(words, parent):
    """The row by its kind."""
    kind, given, setting = words[1], words[2], words[8]
    if kind == PROCESSOR:
        # queue_capacity omitted is 32 (A7).
        return ProcessorRow(words[0], parent, words[4], words[7], setting if given & CAPACITY_GIVEN else OMITTED_CAPACITY)
    if kind == BATCHER:
        # max_batch_size is 1 to 2^62; 2: its batch time is no time.
        if not 1 <= setting <= 2 ** 62 or not is_time(float_of(words[9])):
            raise Refused(2)
        return BatcherRow(words[0], parent, words[4], words[7], setting, float_of(words[9]))
    if kind == STOPWATCH:
        # metric: 0 Minimum, 1 Maximum; omitted is Minimum. 2: its metric is neither of the two.
        metric = setting if given & METRIC_GIVEN else 0
        # A stopwatch's three input ports differ.
        if metric > 1 or len(set(words[4:7])) < 3:
            raise Refused(2)
        return StopwatchRow(words[0], parent, *words[4:8], least=metric == 0)
    # 2: its kind is none of the four.
    if kind != COUPLED:
        raise Refused(2)
    return CoupledRow(words[0], parent)


def connector_row(words):
    """3: a connector is cut short or has a field beyond its width."""
    if len(words) < CONNECTOR_WORDS or not narrow(words):
        raise Refused(3)
    return Connector(*words)


def coupling_row(words, rows):
    """3: a coupling is cut short or has a field beyond its width (a kind that is none of the three too)."""
    if len(words) < COUPLING_WORDS or not narrow(words) or words[1] not in COUPLING_KINDS:
        raise Refused(3)
    owner, kind, source, source_port, target, target_port = words
    kind = COUPLING_KINDS[kind]
    # 3: a coupling's owner is no Coupled,
    if not any(row.id == owner and isinstance(row, CoupledRow) for row in rows):
        raise Refused(3)
    # an external input coupling's target is not its component.
    if kind == 'input' and not any(row.id == target and row.parent == owner for row in rows):
        raise Refused(3)
    return Coupling(owner, kind, None if kind == 'input' else source, source_port,
                    None if kind == 'output' else target, target_port)


# ---- rows that omit the capacity (A7)


def omits_capacity(words):
    """Whether these are a whole Processor row that omits the field. With word 2 above 7 they are no row to read."""
    return (len(words) == MODEL_WORDS and words[1] == PROCESSOR and words[2] <= MOST_GIVEN
            and not words[2] & CAPACITY_GIVEN)


def intake(models, connectors, couplings):
    """What intake answers and reports of any words: refusal; where the bad row stands, which it is, how many rows omit."""
    try:
        table_in(models, connectors, couplings)
    except BadRow as bad:
        return bad.number, [*bad.place, 0]
    # 1 names no row.
    except Refused as refused:
        return refused.number, [NOWHERE, 0, 0]
    # "the intake reports how many rows omitted the field": where the table passes.
    return 0, [NOWHERE, 0, sum(map(omits_capacity, rows_in(models, MODEL_WORDS)))]


def written_out(models):
    """The migration of any words: stored tables "get 2^64 - 1 written out". The words after it, and how many rows it wrote."""
    words, count = list(models), 0
    for start in range(0, len(words), MODEL_WORDS):
        if omits_capacity(words[start:start + MODEL_WORDS]):
            words[start + 2] += CAPACITY_GIVEN
            words[start + 8] = UNLIMITED_CAPACITY
            count += 1
    return words, count


def state_written_out(words):
    """The same of the table that a stored state holds: its words 3 to 3 + 10n, n being word 0."""
    models = words[3:3 + MODEL_WORDS * words[0]]
    written, count = written_out(models)
    return words[:3] + written + words[3 + len(models):], count


# ---- the length of a state buffer


def row_count(words, width):
    """A row cut short counts."""
    return -(-words // width)


def words_needed(models_len, connectors_len, couplings_len):
    """At least 1542 + 206n + 4c + 6k words; 0 where the table is too large."""
    rows = row_count(models_len, MODEL_WORDS)
    connectors = row_count(connectors_len, CONNECTOR_WORDS)
    couplings = row_count(couplings_len, COUPLING_WORDS)
    if rows > MOST_MODELS or connectors > MOST_CONNECTORS or couplings > MOST_COUPLINGS:
        return 0
    return 1542 + 206 * rows + 4 * connectors + 6 * couplings


# ---- a state from its words


class State:
    """A state that was handed in: the table, the clock, the place, the active messages and each row's model."""

    def __init__(self, words):
        """20 where it is cut short or breaks a rule."""
        # Fewer words cannot say how long it must be.
        if len(words) < 3:
            raise Refused(20)
        rows, connectors, couplings = words[:3]
        # The table passes intake. (The counts come first: the others can't be read without them.)
        if rows > MOST_MODELS or connectors > MOST_CONNECTORS or couplings > MOST_COUPLINGS:
            raise Refused(20)
        lengths = [MODEL_WORDS * rows, CONNECTOR_WORDS * connectors, COUPLING_WORDS * couplings]
        # A shorter buffer is refusal 20 in every call.
        if len(words) < words_needed(*lengths):
            raise Refused(20)
        ends = [3 + sum(lengths[:count]) for count in range(4)]
        self.slices = [words[start:end] for start, end in zip(ends, ends[1:])]
        try:
            self.table = table_in(*self.slices)
        except Refused:
            raise Refused(20) from None
        self.read_changing(words[ends[3]:])

    def read_changing(self, words):
        """The changing part, counted from its own start."""
        count, clock, self.place = words[:3]
        self.clock = time_in(clock)
        # At most 256 active messages.
        if count > MOST_ACTIVE:
            raise Refused(20)
        begin = 3 + HEAD_WORDS * len(self.table.rows)
        self.models = {}
        for index, row in enumerate(self.table.rows):
            head = words[3 + HEAD_WORDS * index:][:HEAD_WORDS]
            own = words[begin:begin + own_words(row)]
            # Where its own words begin, as the rows before it make it.
            if head[3] != begin:
                raise Refused(20)
            self.models[row.id] = contents_in(row, head[:3], own)
            begin += own_words(row)
        self.active = [message_in(row) for row in rows_in(words[begin:begin + MESSAGE_WORDS * count], MESSAGE_WORDS)]

    def lay_into(self, simulation):
        """Makes a simulation this one. Its service times stay."""
        simulation.post(self.table)
        simulation.active, simulation.clock, simulation.place = self.active, self.clock, self.place
        for model in all_models(simulation.models):
            if isinstance(model, Coupled):
                model.parked = self.models[model.id]
            else:
                model.phase, model.timer, model.held = self.models[model.id]


def all_models(models):
    """Models with their components."""
    for model in models:
        yield model
        if isinstance(model, Coupled):
            yield from all_models(model.components)


def own_words(row):
    """64 for a Processor, a Batcher or a Coupled, 192 for a Stopwatch."""
    return 3 * MOST_HELD if isinstance(row, StopwatchRow) else MOST_HELD


def time_in(word):
    """Clock, message times and stopwatch marks are times."""
    if not is_time(float_of(word)):
        raise Refused(20)
    return float_of(word)


def time_or_infinite(word):
    """Each timer is a time or infinite."""
    return INFINITE if float_of(word) == INFINITE else time_in(word)


def queue_in(own, held):
    """A queue stands in the first words that are lent for it. The places after them hold 0."""
    # At most 64 jobs in one processor, batcher or stopwatch, 64 parked messages in one Coupled.
    if held > MOST_HELD or any(own[held:MOST_HELD]):
        raise Refused(20)
    return own[:held]


def contents_in(row, head, own):
    """Phase, timer and what is held; of a Coupled only what is parked."""
    phase, timer, held = head
    queue = queue_in(own, held)
    if isinstance(row, CoupledRow):
        # A Coupled's phase and timer are 0.
        if phase or timer:
            raise Refused(20)
        # Component's id times 2^48, plus port times 2^32, plus content.
        return [Parked(word >> 48, word >> 32 & 0xffff, word & 0xffffffff) for word in queue]
    names = PHASES[{ProcessorRow: Processor, BatcherRow: Batcher, StopwatchRow: Stopwatch}[type(row)]]
    # Phases are named ones; contents are 32-bit numbers.
    if phase >= len(names) or any(job >= 2 ** 32 for job in queue):
        raise Refused(20)
    timer = time_or_infinite(timer)
    if isinstance(row, ProcessorRow):
        # A processor holds at most its capacity, and at least one job if Active.
        if held > row.capacity or (names[phase] == 'Active' and not held):
            raise Refused(20)
    if isinstance(row, StopwatchRow):
        queue = marks_in(queue, own)
    return names[phase], timer, queue


def marks_in(names, own):
    """A stopwatch's jobs. Its names differ."""
    if len(set(names)) < len(names):
        raise Refused(20)
    # "In all three, the places after the jobs hold 0"
    if any(any(own[part + len(names):part + MOST_HELD]) for part in (MOST_HELD, 2 * MOST_HELD)):
        raise Refused(20)
    return [Mark(name, mark_in(own[MOST_HELD + place]), mark_in(own[2 * MOST_HELD + place]))
            for place, name in enumerate(names)]


def mark_in(word):
    """The bits of a time, or of +infinity where it was not made; any other word is 20."""
    time = time_or_infinite(word)
    return None if time == INFINITE else time


def message_in(words):
    """Ids and ports are 16-bit numbers and contents 32-bit ones."""
    if not narrow(words[:4]) or words[5] >= 2 ** 32:
        raise Refused(20)
    return Message(*words[:4], time_in(words[4]), words[5])


# ---- words of a table and of a state


def table_words(table, random=None):
    """The three slices of a table; with `random`, cells that nothing looks at hold anything that they may."""
    filler = Filler(random)
    return ([word for row in table.rows for word in model_words(row, filler)],
            [word for connector in table.connectors for word in connector],
            [word for coupling in table.couplings for word in coupling_words(coupling, filler)])


class Filler:
    """What stands in cells that nothing looks at: 0, or anything that they may hold."""

    def __init__(self, random):
        self.random = random

    def cell(self):
        """An unused id or port."""
        return self.random.choice([0, 1, 2, 65535]) if self.random else 0

    def word(self):
        """A cell that is not looked at."""
        return self.random.choice([0, 1, 65536, 2 ** 64 - 1]) if self.random else 0

    def given(self, given, fields):
        """Word 2: of the fields that the kind does not have, any."""
        return given | (self.random.randrange(8) & ~fields if self.random else 0)

    def omit(self):
        """Whether a field that has its default is left out."""
        return not self.random or self.random.random() < 0.5


def model_words(row, filler):
    """A model row: 10 words."""
    kind = KIND_OF_ROW[type(row)]
    fields = PARENT_GIVEN | {PROCESSOR: CAPACITY_GIVEN, STOPWATCH: METRIC_GIVEN}.get(kind, 0)
    given = 0 if row.parent is None else PARENT_GIVEN
    parent = filler.word() if row.parent is None else row.parent
    ports = [filler.cell() for _ in range(4)]
    setting, bits = filler.word(), filler.word()
    if kind == PROCESSOR:
        ports[0], ports[3] = row.input, row.output
        if row.capacity != OMITTED_CAPACITY or not filler.omit():
            given, setting = given | CAPACITY_GIVEN, row.capacity
    elif kind == BATCHER:
        ports[0], ports[3] = row.input, row.output
        setting, bits = row.maximum, word_of(row.batch_time)
    elif kind == STOPWATCH:
        ports = [row.start, row.stop, row.metric, row.output]
        if not row.least or not filler.omit():
            given, setting = given | METRIC_GIVEN, int(not row.least)
    return [row.id, kind, filler.given(given, fields), parent, *ports, setting, bits]


def coupling_words(coupling, filler):
    """A coupling row: 6 words."""
    kind = next(number for number, name in COUPLING_KINDS.items() if name == coupling.kind)
    source = filler.cell() if coupling.source is None else coupling.source
    target = filler.cell() if coupling.target is None else coupling.target
    return [coupling.owner, kind, source, coupling.source_port, target, coupling.target_port]


def state_words(simulation, rows, slices):
    """The words of a simulation's state, up to its end."""
    models = {model.id: model for model in all_models(simulation.models)}
    heads, owns = [], []
    begin = 3 + HEAD_WORDS * len(rows)
    for row in rows:
        head, own = model_contents(models[row.id])
        heads += head + [begin]
        owns += own
        begin += own_words(row)
    words = [len(slices[0]) // MODEL_WORDS, len(slices[1]) // CONNECTOR_WORDS, len(slices[2]) // COUPLING_WORDS]
    words += slices[0] + slices[1] + slices[2]
    words += [len(simulation.active), word_of(simulation.clock), simulation.place] + heads + owns
    for message in simulation.active:
        words += [*message[:4], word_of(message.time), message.content]
    return words


def model_contents(model):
    """The first three words of a model's head, and its own words."""
    if isinstance(model, Coupled):
        parked = [(component << 48) + (port << 32) + content for component, port, content in model.parked]
        return [0, 0, len(parked)], filled(parked)
    head = [PHASES[type(model)].index(model.phase), word_of(model.timer), len(model.held)]
    if not isinstance(model, Stopwatch):
        return head, filled(model.held)
    marks = [[word_of(INFINITE if time is None else time) for time in times]
             for times in ([mark.start for mark in model.held], [mark.stop for mark in model.held])]
    return head, filled([mark.name for mark in model.held]) + filled(marks[0]) + filled(marks[1])


def filled(words):
    """64 places, 0 in those after the words."""
    return words + [0] * (MOST_HELD - len(words))
