"""The short inputs of the differential runs that can be listed: every one of a kind, up to a size, as cases of many calls.

One row with small and odd fields; two and three rows by their ids, parents and kinds; every length of the three slices up to a few
rows, and around the largest; rows that omit their capacity or not, also written out (A7); every length of the state buffer; every
length of the output; every word of a state, made odd; states stored before A7; every short sequence of calls on the smallest
tables, and on the smallest in which messages are parked (A3).
"""
import itertools
import random

from calling import Case
from reading import (OMITTED_CAPACITY, UNLIMITED_CAPACITY, BatcherRow, Connector, CoupledRow, Coupling, Message, ProcessorRow,
                     StopwatchRow, Table)
from reading_words import CAPACITY_GIVEN, MESSAGE_WORDS, MODEL_WORDS, table_words, words_needed
from trials import ODD_WORDS

# Calls of a case, about.
MANY = 400
LARGEST = 17286
BAD_BITS = [0, 1, 0x3ff0000000000000, 0x43b0000000000000, 0x43b0000000000001, 0x7ff0000000000000, 0x7ff8000000000000, 2 ** 63]
ALL_KINDS = Table([ProcessorRow(1, None, 1, 2, 3), BatcherRow(2, None, 1, 2, 2, 1.0), StopwatchRow(3, None, 1, 2, 3, 2, True),
                   CoupledRow(4, None), BatcherRow(5, 4, 1, 2, 1, 0.0), ProcessorRow(6, 4, 1, 2, OMITTED_CAPACITY)],
                  [Connector(1, 2, 2, 1), Connector(2, 2, 4, 1), Connector(4, 2, 99, 1)],
                  [Coupling(4, 'input', None, 1, 5, 1), Coupling(4, 'internal', 5, 2, 6, 1), Coupling(4, 'internal', 5, 2, 98, 1),
                   Coupling(4, 'output', 6, 2, None, 2)])


class Lister:
    """Makes cases, each with its kind, and starts another where one has many calls."""

    def __init__(self):
        self.made = 0

    def case(self):
        """A case of its own."""
        self.made += 1
        return Case(f'listed-{self.made}', random.Random(self.made))

    def cases_of(self, makes):
        """Cases of many calls each; `makes` are functions that make a few calls on a case with a buffer as long as any."""
        makes = iter(makes)
        while True:
            part = list(itertools.islice(makes, MANY))
            if not part:
                return
            case = self.case()
            case.buffer(LARGEST)
            for make in part:
                make(case)
            yield case


def poster(*slices):
    """A post of three slices."""
    return lambda case: case.table('post', slices)


# ---- tables


def one_row():
    """One row: kinds, fields given and settings; ports; ids and parents."""
    settings = [0, 1, 2, 2 ** 62, 2 ** 62 + 1, 2 ** 64 - 1]
    for kind, given, setting, bits in itertools.product(range(6), range(10), settings, BAD_BITS):
        yield poster([7, kind, given, 7, 1, 2, 3, 4, setting, bits], [], [])
    cells = [0, 1, 65535, 65536]
    for kind, *ports in itertools.product(range(1, 5), cells, cells, cells, [0, 65535, 65536]):
        yield poster([7, kind, 0, 0, *ports, 1, 0], [], [])
    for kind, identity, given, parent in itertools.product(range(1, 5), cells + [2 ** 32, 2 ** 64 - 1], [0, 1], cells + [7]):
        yield poster([identity, kind, given, parent, 1, 2, 3, 4, 1, 0], [], [])


def few_rows():
    """Two and three rows: every way of ids, kinds and parents; chains of Coupleds, also longer than may be, with a row in them."""
    for kinds in itertools.product([1, 4], repeat=3):
        for ids in ([1, 2, 3], [1, 1, 3], [1, 2, 1], [1, 2, 2]):
            for parents in itertools.product([None, 1, 2, 3], repeat=3):
                rows = [[identity, kind, parent is not None, parent or 0, 1, 2, 3, 4, 1, 0]
                        for identity, kind, parent in zip(ids, kinds, parents)]
                yield poster([int(word) for row in rows for word in row], [], [])
    for depth, kind in itertools.product(range(1, 7), range(1, 5)):
        rows = [[place, 4, int(place > 1), place - 1, 0, 0, 0, 0, 0, 0] for place in range(1, depth + 1)]
        rows.append([50, kind, 1, depth, 1, 2, 3, 4, 1, 0])
        yield poster([word for row in rows for word in row], [], [])


def links():
    """One connector and one coupling: every way of small and odd fields."""
    models = [1, 4, 0, 0, 0, 0, 0, 0, 0, 0, 2, 1, 1, 1, 1, 0, 0, 2, 0, 0, 3, 1, 0, 0, 1, 0, 0, 2, 0, 0]
    for row in itertools.product([0, 1, 65535, 65536, 2 ** 64 - 1], repeat=4):
        yield poster(models, list(row), [])
    for row in itertools.product([0, 1, 2, 3, 65536], range(6), [0, 2, 65536], [1, 65536], [0, 1, 2, 3, 9, 65536], [1, 65536]):
        yield poster(models, [], list(row))


def lengths():
    """Every length of the three slices, up to a few rows; and around the largest."""
    models, connectors, couplings = table_words(ALL_KINDS)
    order = models[30:] + models[:30]
    for lens in itertools.product(range(0, 33), range(0, 10), range(0, 14)):
        yield poster(order[:lens[0]], connectors[:lens[1]], couplings[:lens[2]])
    parts = [[word for place in range(70) for word in [place, 1, 0, 0, 1, 0, 0, 2, 0, 0]], [0, 1, 2, 3] * 260,
             [5, 2, 1, 1, 1, 1] * 260]
    for place, (width, most) in enumerate(((10, 64), (4, 256), (6, 256))):
        for length in range(width * (most - 1), width * (most + 2)):
            slices = [[], [], []]
            slices[place] = parts[place][:length]
            yield poster(*slices)
            yield lambda case, lens=tuple(map(len, slices)): case.ask_words(*lens)
    around = [0, 1, 9, 10, 11, 639, 640, 641, 2 ** 60], [0, 1, 1023, 1024, 1025, 2 ** 63], [0, 5, 6, 1536, 1537]
    for lens in itertools.product(*around):
        yield lambda case, lens=lens: case.ask_words(*lens)


# ---- omitted capacities (A7)


def processors(count, given=0):
    """The words of so many Processor rows, of ids 1 and on, with this word 2."""
    return [word for place in range(1, count + 1) for word in [place, 1, given, 0, 1, 0, 0, 2, 5, 6]]


def in_both_ways(*slices):
    """A post of three slices, as they are and written out."""
    yield poster(*slices)
    yield lambda case: case.table('post', slices, write_out=len(slices[0]))


def omitted():
    """Rows by kind and word 2; every length of a few rows; one of two that omits; components; as many rows as there may be."""
    largest = 2 ** 64 - 1
    kinds, givens = [*range(6), largest], [*range(10), 2 ** 63, largest]
    for kind, given, other in itertools.product(kinds, givens, [1, OMITTED_CAPACITY, largest]):
        yield from in_both_ways([other, kind, given] + [other] * 7, [], [])
        yield from in_both_ways([7, kind, given, 7, 1, 2, 3, 4, other, 0], [], [])
    for length in range(32):
        yield from in_both_ways(processors(4)[:length], [], [])
        yield lambda case, length=length: case.table('post', [processors(4), [], []], write_out=length)
    for first, second in itertools.product(range(9), repeat=2):
        coupled, beside = [1, 4, 0, 0, 1, 2, 3, 4, 0, 0], [3, 1, second, 1, 1, 0, 0, 2, 5, 6]
        yield from in_both_ways(coupled + [2, 1, first, 1, 1, 0, 0, 2, 5, 6] + beside, [], [])
    for count, given in itertools.product([62, 63, 64, 65, 66, 130], [0, 2, 4]):
        yield from in_both_ways(processors(count, given), [], [])
    yield from in_both_ways(processors(3) + processors(1), [], [])


def omitted_beside_bad_links():
    """Rows that omit, and a connector or coupling that is bad, at each place: nothing is reported of the rows."""
    models = processors(3) + [9, 4, 0, 0, 0, 0, 0, 0, 0, 0] + [10, 1, 1, 9, 1, 0, 0, 2, 0, 0]
    connectors, couplings = [1, 2, 2, 1] * 4, [9, 1, 0, 1, 10, 1] * 4
    for place, bad in itertools.product(range(16), [65535, 65536, 2 ** 64 - 1]):
        yield from in_both_ways(models, connectors[:place] + [bad] + connectors[place + 1:], couplings)
    for place, bad in itertools.product(range(24), [0, 2, 4, 65536]):
        yield from in_both_ways(models, connectors, couplings[:place] + [bad] + couplings[place + 1:])
    for lens in itertools.product(range(8, 13), range(12, 19)):
        yield from in_both_ways(models, connectors[:lens[0]], couplings[:lens[1]])
    yield from in_both_ways(models, [1, 2, 65536, 1], [9, 1, 0, 1, 1, 1])
    yield from in_both_ways(models[:-1], [1, 2, 65536, 1], [9, 1, 0, 1, 1, 1])


def old_states(lister):
    """States stored before A7, with jobs at an omitted capacity: with more than 32 refused in every call, until written out."""
    for depth, held, setting in itertools.product(range(3), [0, 1, 31, 32, 33, 34, 40, 63, 64], [0, UNLIMITED_CAPACITY]):
        case, image = old_state(lister, depth, held, setting)
        case.state(image)
        case.run('step_n', 0)
        if case.slices is None:
            case.lend(case.length)
            every_call(case)
            case.write_out_state(image)
        else:
            feed(case)
            case.write_out_state()
        case.run('step_n', 0)
        feed(case)
        case.lend(case.length)
        every_call(case)
        yield case


def old_state(lister, depth, held, setting):
    """A case, and the words of a state in which a processor, in so many Coupleds, holds so many jobs and omits its capacity."""
    rows = [CoupledRow(place, place - 1 or None) for place in range(1, depth + 1)]
    rows.append(ProcessorRow(depth + 1, depth or None, 1, 2, UNLIMITED_CAPACITY))
    couplings = [Coupling(place, 'input', None, 1, place + 1, 1) for place in range(1, depth + 1)]
    slices = table_words(Table(rows, [], couplings))
    case = lister.case()
    case.services([4.0, 5.0, 6.0])
    case.buffer(words_needed(*map(len, slices)) + 5)
    case.table('post', slices)
    for content in range(1, held + 1):
        case.inject(Message(0, 0, 1, 1, 0.0, content))
    case.run('step')
    case.asks = False
    image = case.image()
    image += [0] * (case.length - len(image))
    image[3 + MODEL_WORDS * depth + 2] -= CAPACITY_GIVEN
    image[3 + MODEL_WORDS * depth + 8] = setting
    return case, image


def feed(case):
    """One job more, and a step."""
    case.inject(Message(0, 0, 1, 1, 0.0, 99))
    case.run('step')
    case.reset('reset_messages')


# ---- lengths of buffers


def every_call(case):
    """Each call once, with the state as it is lent."""
    slices = table_words(Table([], [], []))
    length = case.lent
    for make in (case.time, case.messages, lambda: case.status(1), lambda: case.inject(Message(0, 0, 9, 1, 0.0, 1)),
                 lambda: case.run('step'), lambda: case.run('step_n', 0), lambda: case.run('step_until', 1.0, 0),
                 lambda: case.reset('reset'), lambda: case.reset('reset_messages'), lambda: case.reset('reset_global_time'),
                 lambda: case.table('put', slices)):
        case.lend(length)
        make()


def buffers(lister):
    """Each call, with every length of the state buffer up to what it needs, and some more."""
    table = Table(ALL_KINDS.rows[:1], [], [])
    slices = table_words(table)
    needed = words_needed(*map(len, slices))
    for start in range(0, needed, 100):
        case = lister.case()
        case.buffer(needed + 3)
        case.table('post', slices)
        for length in range(start, min(start + 100, needed)):
            case.lend(length)
            case.table('post', slices)
            case.lend(length)
            every_call(case)
        yield case
    for length in range(needed - 2, needed + 4):
        case = lister.case()
        case.buffer(needed + 3)
        case.table('post', slices)
        case.lend(length)
        every_call(case)
        yield case


def outputs(lister):
    """Runs and lists of 0 to 5 messages, with every length of the output."""
    table = Table([BatcherRow(1, None, 1, 2, 8, 0.0)], [Connector(1, 2, 99, 1)], [])
    for count in range(6):
        case = lister.case()
        case.buffer(words_needed(10, 4, 0))
        for length in range(MESSAGE_WORDS * (count + 1) + 1):
            case.table('post', table_words(table))
            for content in range(count):
                case.inject(Message(0, 0, 1, 1, 0.0, content))
            case.rows(length)
            case.messages()
            for run in (('step',), ('step_n', 3), ('step_until', 0.0, 1), ('step_until', 1.0, 3)):
                case.run(*run)
        yield case


# ---- states


def busy_case(lister):
    """A case whose state has something of each kind in it."""
    case = lister.case()
    case.services([4.0, 5.0, 6.0])
    slices = table_words(ALL_KINDS)
    case.buffer(words_needed(*map(len, slices)))
    case.table('post', slices)
    for target, port, content in ((1, 1, 11), (1, 1, 12), (2, 1, 21), (3, 1, 31), (3, 2, 32), (3, 1, 33), (3, 2, 33), (4, 1, 41)):
        case.inject(Message(0, 0, target, port, 0.0, content))
    case.run('step')
    case.inject(Message(5, 6, 3, 3, 2.5, 34))
    case.inject(Message(0, 0, 99, 65535, 0.0, 2 ** 32 - 1))
    return case


def words(lister):
    """Every word of a busy state, made odd: a call that refuses it or not."""
    case = busy_case(lister)
    image = case.image()
    changes = [(place, word) for place, kept in enumerate(image) for word in sorted({*ODD_WORDS, kept + 1, abs(kept - 1)})
               if word != kept and word < 2 ** 64]
    for start in range(0, len(changes), MANY):
        case = busy_case(lister)
        case.asks = False
        image = case.image()
        image += [0] * (case.length - len(image))
        case.state(image)
        for place, word in changes[start:start + MANY]:
            kept = image[place]
            case.word(image, place, word)
            case.time()
            if case.slices is not None:
                case.messages()
                case.status(3)
            case.word(image, place, kept)
        yield case


# ---- sequences


def sequences(lister):
    """Every sequence of five calls on the smallest tables."""
    tables = [[ProcessorRow(1, None, 1, 2, capacity)] for capacity in (0, 1, 2)]
    tables += [[BatcherRow(1, None, 1, 2, maximum, time)] for maximum, time in ((1, 1.0), (2, 0.0), (2, 1.0), (3, 1.0))]
    tables += [[StopwatchRow(1, None, 1, 3, 2, 2, least)] for least in (True, False)]
    makes = [lambda case: case.inject(Message(0, 0, 1, 1, 0.0, 1)), lambda case: case.inject(Message(0, 0, 1, 2, 0.0, 2)),
             lambda case: case.run('step'), lambda case: case.run('step_until', case.simulation.clock + 1.0, 3),
             lambda case: case.reset('reset')]
    for rows in tables:
        slices = table_words(Table(rows, [Connector(1, 2, 1, 1)], []))
        for first in itertools.product(makes, repeat=2):
            case = lister.case()
            case.services([1.0, 0.0, 2.0])
            case.buffer(words_needed(*map(len, slices)))
            for rest in itertools.product(makes, repeat=3):
                case.table('post', slices)
                for make in first + rest:
                    make(case)
                case.status(1)
            yield case


def parking_tables():
    """C11 of 01 at every depth: a batcher in one to four Coupleds parks for a processor, for a batcher, for nobody, for both."""
    processor, batcher = ProcessorRow(11, None, 1, 2, 1), BatcherRow(11, None, 1, 2, 2, 1.0)
    ways = [([processor], [11]), ([batcher], [11]), ([], [98]), ([processor], [98]), ([processor], [98, 11])]
    for depth, (beside, parks_for) in itertools.product(range(1, 5), ways):
        rows = [CoupledRow(place, place - 1 or None) for place in range(1, depth + 1)]
        rows += [BatcherRow(10, depth, 1, 2, 1, 0.0)] + [row._replace(parent=depth) for row in beside]
        couplings = [Coupling(place, 'input', None, 1, place + 1 if place < depth else 10, 1) for place in range(1, depth + 1)]
        couplings += [Coupling(depth, 'internal', 10, 2, target, 1) for target in parks_for]
        couplings += [Coupling(place, 'output', place + 1 if place < depth else 11, 2, None, 2) for place in range(1, depth + 1)]
        yield Table(rows, [Connector(1, 2, 99, 1)], couplings)


def parkings(lister):
    """Every sequence of four calls on these, each a case of its own: the Rust is asked up to where it parts."""
    makes = [lambda case: case.inject(Message(0, 0, 1, 1, 0.0, 1)), lambda case: case.run('step'),
             lambda case: case.run('step_until', case.simulation.clock + 1.0, 3)]
    for table in parking_tables():
        slices = table_words(table)
        for calls in itertools.product(makes, repeat=4):
            case = lister.case()
            case.services([1.0, 0.0])
            case.buffer(words_needed(*map(len, slices)))
            case.table('post', slices)
            case.inject(Message(0, 0, 1, 1, 0.0, 7))
            for make in calls:
                make(case)
            case.status(1)
            yield case


def listed():
    """All of them, with their kinds."""
    lister = Lister()
    for makes in (one_row, few_rows, links, lengths, omitted, omitted_beside_bad_links):
        for case in lister.cases_of(makes()):
            yield makes.__name__, case
    # Those that lend no service times come first: the oracle keeps a list from case to case.
    for make in (buffers, outputs, old_states, words, sequences, parkings):
        for case in make(lister):
            yield make.__name__, case
