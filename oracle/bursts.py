"""Tables for the differential runs that random ones seldom are: they multiply messages, fill queues, park, run on or are large."""
from reading import (OMITTED_CAPACITY, UNLIMITED_CAPACITY, BatcherRow, Connector, CoupledRow, Coupling, ProcessorRow, StopwatchRow,
                     Table)
from tables import depths

# How many jobs come where the capacity may be an omitted one (A7): the last of these are dropped there.
AROUND_OMITTED = list(range(OMITTED_CAPACITY - 1, OMITTED_CAPACITY + 3))
# How many messages a burst makes: at the limits, one below and one above them.
GOALS = AROUND_OMITTED + [63, 64, 65, 66, 127, 128, 129, 255, 256, 257, 258]


def split(random):
    """A goal as so many times so many and some more, which 256 connectors or couplings can make."""
    goal = random.choice(GOALS)
    first = random.choice([first for first in range(1, 65) if first + goal // first + goal % first < 250])
    return first, goal // first, goal % first


def keeper(random, identity, parent, jobs=0):
    """A row that keeps what comes on port 1; where `jobs` are about as many, often one of the omitted capacity."""
    if jobs in AROUND_OMITTED and random.random() < 0.6:
        return ProcessorRow(identity, parent, 1, 2, OMITTED_CAPACITY)
    kind = random.choice(['processor', 'batcher', 'stopwatch'])
    if kind == 'processor':
        return ProcessorRow(identity, parent, 1, 2, random.choice([62, 63, 64, 65, UNLIMITED_CAPACITY, OMITTED_CAPACITY]))
    if kind == 'batcher':
        return BatcherRow(identity, parent, 1, 2, random.choice([1, 2, 63, 64, 65, 66, 2 ** 62]), random.choice([0.0, 1.0, 4.0]))
    return StopwatchRow(identity, parent, *random.choice([(1, 2, 3), (2, 1, 3)]), 2, random.random() < 0.5)


def chain(random, deepest):
    """Coupleds, each inside the one before, the first of id 1; the couplings by which port 1 leads into the next."""
    rows = [CoupledRow(1, None)]
    couplings = []
    for identity in range(2, random.randint(1, deepest) + 1):
        rows.append(CoupledRow(identity, identity - 1))
        couplings.append(Coupling(identity - 1, 'input', None, 1, identity, 1))
    return rows, couplings


def burst_table(random):
    """A message to the first row becomes as many as a goal."""
    return burst_in_coupleds(random) if random.random() < 0.6 else burst_on_connectors(random)


def burst_on_connectors(random):
    """A batcher feeds two others along many connectors, and these a third model, in one step."""
    first, second, more = split(random)
    rows = [BatcherRow(1, None, 1, 2, 1, 0.0), BatcherRow(2, None, 1, 2, first, 1.0), BatcherRow(3, None, 1, 2, 1, 1.0),
            keeper(random, 4, None, first * second + more)]
    target = random.choice([4, 4, 99])
    connectors = [Connector(1, 2, 2, 1)] * first + [Connector(1, 2, 3, 1)]
    connectors += [Connector(2, 2, target, 1)] * second + [Connector(3, 2, target, 1)] * more
    return Table(rows, connectors, [])


def burst_in_coupleds(random):
    """Two batchers in the innermost Coupled take each message, one of them many times; they park or put out many for each."""
    rows, couplings = chain(random, 4)
    inner = rows[-1].id
    first, second, more = split(random)
    rows += [BatcherRow(10, inner, 1, 2, random.choice([first, first, first, 1]), random.choice([0.0, 1.0])),
             BatcherRow(11, inner, 1, 2, 1, 0.0), keeper(random, 12, inner, first * second + more),
             keeper(random, 50, None, first * second + more)]
    couplings += [Coupling(identity, 'output', identity + 1, 2, None, 2) for identity in range(1, inner)]
    couplings += [Coupling(inner, 'input', None, 1, 11, 1)] + [Coupling(inner, 'input', None, 1, 10, 1)] * first
    ways = [Coupling(inner, 'output', 10, 2, None, 2), Coupling(inner, 'internal', 10, 2, random.choice([12, 12, 98]), 1)]
    way, other = random.sample(ways, 2)
    couplings += [way] * second + [way._replace(source=11)] * more + [other] * random.choice([0, 0, 1])
    connectors = [Connector(1, 2, random.choice([1, 50, 99]), 1)] * random.choice([0, 1, 1, 2])
    return Table(rows, connectors, couplings[:256])


def full_table(random, jobs=0):
    """One model that keeps what comes, by itself or inside Coupleds, and another that it feeds."""
    if random.random() < 0.5:
        rows = [keeper(random, 1, None, jobs), keeper(random, 2, None)]
        return Table(rows, [Connector(1, 2, 2, 1)] * random.choice([0, 1, 1, 4, 5]), [])
    rows, couplings = chain(random, 4)
    inner = rows[-1].id
    rows += [keeper(random, 10, inner, jobs), keeper(random, 11, inner)]
    couplings.append(Coupling(inner, 'input', None, 1, 10, 1))
    couplings += [Coupling(inner, 'internal', 10, 2, 11, 1)] * random.choice([0, 1, 1, 2])
    couplings += [Coupling(identity, 'output', identity + 1 if identity < inner else 10, 2, None, 2)
                  for identity in range(1, inner + 1)]
    return Table(rows, [Connector(1, 2, 99, 1)] * random.choice([0, 1, 4, 5]), couplings)


def parked_table(random):
    """Coupleds in one another; in each a batcher parks what it takes for a row beside it, for the next Coupled or for nobody."""
    rows, couplings = chain(random, 4)
    inner = rows[-1].id
    for coupled in range(1, inner + 1):
        feeder, taker = 10 * coupled, 10 * coupled + 1
        rows += [BatcherRow(feeder, coupled, 1, 2, random.choice([1, 1, 1, 2]), random.choice([0.0, 1.0])),
                 parked_taker(random, taker, coupled)]
        inside = [coupled + 1] if coupled < inner else []
        target, port = random.choice([taker, taker, taker, 98] + inside), random.choice([1] * 9 + [9])
        ways = [Coupling(coupled, 'input', None, 1, feeder, 1), Coupling(coupled, 'internal', feeder, 2, target, port),
                Coupling(coupled, 'internal', taker, 2, random.choice([feeder, 98]), 1),
                Coupling(coupled, 'output', random.choice([feeder, taker] + inside), 2, None, 2)]
        ways += [Coupling(coupled, 'internal', component, 2, taker, 1) for component in inside]
        shares = [1.0 if coupled == inner else 0.5, 0.9, 0.15, 0.5, 0.4]
        couplings += [way for way, share in zip(ways, shares) if random.random() < share]
    rows.append(keeper(random, 50, None))
    return Table(rows, [Connector(1, 2, random.choice([1, 50, 99]), 1)] * random.choice([0, 1]), couplings)


def parked_taker(random, identity, parent):
    """A row for which messages are parked."""
    kind = random.random()
    if kind < 0.5:
        return ProcessorRow(identity, parent, 1, 2, random.choice([0, 1, 2, OMITTED_CAPACITY, UNLIMITED_CAPACITY]))
    if kind < 0.8:
        return BatcherRow(identity, parent, 1, 2, random.choice([1, 2, 3]), random.choice([0.0, 1.0]))
    return StopwatchRow(identity, parent, *random.choice([(1, 2, 3), (3, 1, 2), (2, 3, 1)]), 2, random.random() < 0.5)


def ring_row(random, identity, parent):
    """A row that hands on what it takes. In a Coupled most are processors: what a batcher parks, the Rust may leave there (A3)."""
    if random.random() < (0.65 if parent is None else 0.93):
        return ProcessorRow(identity, parent, 1, 2, random.choice([1, 2, 5, OMITTED_CAPACITY]))
    return BatcherRow(identity, parent, 1, 2, random.choice([1, 2, 3]), random.choice([0.1, 0.3, 1.0, 2.5]))


def ring_table(random):
    """Models that feed one another in a ring, on connectors or inside Coupleds."""
    count = random.randint(1, 4)
    if random.random() < 0.5:
        rows = [ring_row(random, identity, None) for identity in range(1, count + 1)]
        connectors = [Connector(identity, 2, identity % count + 1, 1) for identity in range(1, count + 1)]
        if random.random() < 0.3:
            rows.append(StopwatchRow(20, None, 1, 2, 3, 2, True))
            connectors += [Connector(1, 2, 20, random.choice([1, 2, 3])), Connector(count, 2, 20, random.choice([1, 2, 3]))]
        return Table(rows, connectors, [])
    rows, couplings = chain(random, 4)
    inner = rows[-1].id
    rows += [ring_row(random, 10 + place, inner) for place in range(count)]
    couplings.append(Coupling(inner, 'input', None, 1, 10, 1))
    couplings += [Coupling(inner, 'internal', 10 + place, 2, 10 + (place + 1) % count, 1) for place in range(count)]
    if random.random() < 0.4:
        couplings += [Coupling(identity, 'output', identity + 1 if identity < inner else 10, 2, None, 2)
                      for identity in range(1, inner + 1)]
    return Table(rows, [Connector(1, 2, 99, 1)], couplings)


def large_row(random, identity, rows, stopwatches):
    """A row of any kind, in one of the Coupleds before it or without parent."""
    coupleds = [row for row in rows if isinstance(row, CoupledRow)]
    parent = random.choice(coupleds).id if coupleds and random.random() < 0.6 else None
    kind = random.random()
    if kind < 0.15 and depths(rows)[parent] < 4:
        return CoupledRow(identity, parent)
    if kind < 0.55:
        return ProcessorRow(identity, parent, 1, 2, random.choice([1, 2, 64, OMITTED_CAPACITY, UNLIMITED_CAPACITY]))
    if stopwatches and kind < 0.55 + stopwatches:
        return StopwatchRow(identity, parent, 1, 3, 4, 2, random.random() < 0.5)
    return BatcherRow(identity, parent, 1, 2, random.choice([1, 1, 2, 3]), random.choice([0.0, 0.1, 1.0]))


def large_table(random):
    """Many rows, with connectors and couplings at random; its rows take words at and around what one local array holds."""
    if random.random() < 0.3:
        count, stopwatches = random.choice([7, 8, 9, 23, 24, 25, 64]), 1.0
    else:
        count, stopwatches = random.choice([22, 23, 24, 25, 40, 63, 64]), random.choice([0.0, 0.0, 0.2])
    rows = []
    for identity in random.sample(range(1, 400), count):
        rows.append(large_row(random, identity, rows, stopwatches))
    rows[:] = [row._replace(parent=None) for row in rows] if stopwatches == 1.0 and random.random() < 0.5 else rows
    tops = [row.id for row in rows if row.parent is None]
    connectors = [Connector(random.choice(tops), 2, random.choice(tops), random.choice([1, 1, 1, 3]))
                  for _ in range(random.choice([0, count, 2 * count, 255, 256]))]
    couplings = [coupling for row in rows if row.parent is not None for coupling in large_couplings(random, rows, row)]
    return Table(rows, connectors, couplings[:256])


def large_couplings(random, rows, row):
    """The couplings that lead to a component and from it."""
    others = [other.id for other in rows if other.parent == row.parent]
    ways = [Coupling(row.parent, 'input', None, 1, row.id, 1), Coupling(row.parent, 'output', row.id, 2, None, 2),
            Coupling(row.parent, 'internal', row.id, 2, random.choice(others), 1)]
    return random.sample(ways, random.choice([1, 2, 2, 3]))
