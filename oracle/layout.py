"""Tables and states as the words of docs/LAYOUT.md. Written from that page, and not from the Rattle code.

A table is the reading's (reading.Table); a state is what the oracle printed of a simulation (antt_text.Told).
"""
import struct

from reading import OMITTED_CAPACITY, BatcherRow, CoupledRow, ProcessorRow, StopwatchRow

KINDS = {ProcessorRow: 1, BatcherRow: 2, StopwatchRow: 3, CoupledRow: 4}
COUPLING_KINDS = {'input': 1, 'output': 2, 'internal': 3}
PHASES = {'Passive': 0, 'Active': 1, 'Batching': 1, 'JobFetch': 1, 'Release': 2}
PARENT, CAPACITY, METRIC = 1, 2, 4
PLACES = 64
NO_MARK = 0x7ff0000000000000


def word(value):
    """The bits of an f64."""
    return struct.unpack('<Q', struct.pack('<d', value))[0]


# ---- tables


class Unused:
    """What stands in the cells of a table that its kinds do not use: 0 everywhere."""

    def port(self):
        """An unused id or port: below 2^16."""
        return 0

    def word(self):
        """A word that is not looked at."""
        return 0

    def happens(self):
        """Whether a field is marked as given where that changes nothing."""
        return False


class Scattered(Unused):
    """The same, with anything that a rule allows in these cells."""

    def __init__(self, random):
        self.random = random

    def port(self):
        return self.random.choice([0, 0, 1, 7, 65535])

    def word(self):
        return self.random.choice([0, 1, 9, 65536, 2 ** 63, 2 ** 64 - 1])

    def happens(self):
        return self.random.random() < 0.3


def model_words(row, unused):
    """A model row: 10 words."""
    ports = [unused.port() for _ in range(4)]
    setting, time, own, given = unused.word(), unused.word(), 0, False
    if isinstance(row, ProcessorRow):
        ports[0], ports[3], own = row.input, row.output, CAPACITY
        given = row.capacity != OMITTED_CAPACITY or unused.happens()
        setting = row.capacity if given else setting
    elif isinstance(row, BatcherRow):
        ports[0], ports[3], setting, time = row.input, row.output, row.maximum, word(row.batch_time)
    elif isinstance(row, StopwatchRow):
        ports, own = [row.start, row.stop, row.metric, row.output], METRIC
        given = not row.least or unused.happens()
        setting = int(not row.least) if given else setting
    marked = own * given + sum(field for field in (CAPACITY, METRIC) if field != own and unused.happens())
    parent = [marked, unused.word()] if row.parent is None else [marked + PARENT, row.parent]
    return [row.id, KINDS[type(row)], *parent, *ports, setting, time]


def coupling_words(coupling, unused):
    """A coupling row: 6 words."""
    ends = (unused.port() if end is None else end for end in coupling[2:])
    return [coupling.owner, COUPLING_KINDS[coupling.kind], *ends]


def table_words(table, unused):
    """How a state begins: three counts, and the table as it is lent."""
    words = [len(table.rows), len(table.connectors), len(table.couplings)]
    for row in table.rows:
        words += model_words(row, unused)
    for connector in table.connectors:
        words += connector
    for coupling in table.couplings:
        words += coupling_words(coupling, unused)
    return words


def least_length(table):
    """How many words a state buffer must have."""
    return 1542 + 206 * len(table.rows) + 4 * len(table.connectors) + 6 * len(table.couplings)


# ---- states


def message_words(messages):
    """Messages, written out one straight after the other; their times are bits in hex."""
    return [number for message in messages for number in (*message[:4], int(message[4], 16), message[5])]


def filled(words):
    """A queue of words in its places."""
    return words + [0] * (PLACES - len(words))


def mark_word(mark):
    """A mark: bits in hex, or 'none'."""
    return NO_MARK if mark == 'none' else int(mark, 16)


def own_words(model):
    """A row's own words. Unused places are 0, those of a stopwatch's marks too."""
    if model.kind == 'Coupled':
        return filled([(component << 48) + (port << 32) + content for component, port, content in model.held])
    if model.kind != 'Stopwatch':
        return filled(model.held)
    names = [name for name, _, _ in model.held]
    starts = [mark_word(start) for _, start, _ in model.held]
    stops = [mark_word(stop) for _, _, stop in model.held]
    return filled(names) + filled(starts) + filled(stops)


def changing_words(rows, told):
    """The changing part of a state."""
    heads, owns = [], []
    for row in rows:
        model = told.models[row.id]
        phase, timer = (0, 0) if model.kind == 'Coupled' else (PHASES[model.phase], int(model.timer, 16))
        heads += [phase, timer, len(model.held), 3 + 4 * len(rows) + len(owns)]
        owns += own_words(model)
    return [len(told.active), int(told.clock, 16), told.place] + heads + owns + message_words(told.active)
