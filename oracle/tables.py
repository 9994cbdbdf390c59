"""Random tables: model rows, connectors and couplings that keep 01's rules, in four styles.

flat: no Coupled. mixed: Coupleds anywhere. deep: Coupleds in one another, to depth 4. fan: a component that
feeds several processors of its Coupled.
"""
from reading import (OMITTED_CAPACITY, UNLIMITED_CAPACITY, BatcherRow, Connector, CoupledRow, Coupling, ProcessorRow,
                     StopwatchRow, Table)

TIMES = [0.0, 0.0, 0.1, 0.1, 1.0, 1.0, 2.5, 2.5, 4.0, 4.0, 7.0, 7.0, 0.3, 0.7, 1 / 3, 2 / 7, 12.345, 1e-9]
ODD_TIMES = [5e-324, 2.5e-308, 2.0 ** 53, 1e15 + 0.5]
LATE_TIMES = [2.0 ** 60, 2.0 ** 60, 2.0 ** 60 - 128, 2.0 ** 59, 2.0 ** 59, 2.0 ** 58, 2.0 ** 53, 256.0, 128.0, 64.0, 2.5, 0.0]
CAPACITIES = [1, 1, 2, UNLIMITED_CAPACITY, 3, 8, OMITTED_CAPACITY]
MAXIMA = [1, 1, 2, 2, 2, 3, 3, 4, 2 ** 62]
PLAIN_IDS = list(range(1, 10))
ODD_IDS = [1, 2, 255, 256, 257, 4096, 32768, 65534, 65535]
PLAIN_PORTS = [1, 2, 3, 4]
ODD_PORTS = [0, 1, 255, 256, 1000, 32768, 65534, 65535]
WRONG_PORTS = [9, 17, 65000]
# Ids that no row has: for messages that reach nobody.
NO_COMPONENT = 98
NO_MODEL = 99
DEEPEST_COUPLED = 4


def depths(rows):
    """The depth of each row, by its id: a row without parent has depth 1."""
    depth = {None: 0}
    for row in rows:
        depth[row.id] = depth[row.parent] + 1
    return depth


def parentless(rows):
    """The rows without parent."""
    return [row for row in rows if row.parent is None]


class Tables:
    """Makes the tables of one script, all with ids and ports of the same width and with the same traps."""

    def __init__(self, random, most_rows, trap_share):
        self.random = random
        self.most_rows = most_rows
        self.times, self.odd_times = TIMES, ODD_TIMES
        self.trap = random.random() < trap_share
        self.wrong_share = random.choice([0.0, 0.0, 0.1])
        self.ids = PLAIN_IDS if self.happens(0.85) else ODD_IDS
        self.ports = PLAIN_PORTS if self.happens(0.85) else random.sample(ODD_PORTS, 4)
        # By a Coupled's id: the ports that its external input and output couplings name.
        self.entries = {}
        self.exits = {}

    def happens(self, share):
        """True in that share of the times."""
        return self.random.random() < share

    def time(self):
        """A batch time or a service time."""
        return self.random.choice(self.times if self.happens(0.97) else self.odd_times)

    def table(self):
        """A random table."""
        rows = self.in_another_order(self.rows())
        self.entries, self.exits = {}, {}
        couplings = []
        # Inner Coupleds come first, so that their ports are known to the outer ones.
        for row in reversed(rows):
            components = [other for other in rows if other.parent == row.id]
            if components:
                couplings += self.couplings_of(row, components)
        table = Table(rows, self.connectors(rows), couplings)
        if self.trap:
            self.set_trap(table)
        self.random.shuffle(table.connectors)
        self.random.shuffle(table.couplings)
        return table

    # ---- rows

    def rows(self):
        """The rows, each parent before its components."""
        style = self.random.choice(['flat', 'mixed', 'mixed', 'deep', 'deep', 'fan'])
        ids = iter(self.random.sample(self.ids, len(self.ids)))
        rows = []
        for _ in range(self.chain_length(style)):
            rows.append(CoupledRow(next(ids), rows[-1].id if rows else None))
        least = len(rows) + 2 if style == 'deep' else 1
        if style == 'fan':
            innermost = rows[-1].id
            for kinds in (['processor', 'processor', 'batcher'], ['processor'], ['processor']):
                rows.append(self.row(next(ids), innermost, self.random.choice(kinds)))
        count = max(self.random.randint(1, self.most_rows), least)
        while len(rows) < count:
            parent = self.parent_among(rows)
            may_nest = style == 'mixed' and depths(rows)[parent] < DEEPEST_COUPLED
            kinds = ['processor'] * 4 + ['batcher'] * 3 + ['stopwatch'] * 2 + ['coupled'] * 2 * may_nest
            rows.append(self.row(next(ids), parent, self.random.choice(kinds)))
        return rows

    def chain_length(self, style):
        """How many Coupleds, each inside the one before, a table starts with."""
        if style == 'deep':
            return self.random.choice([2, 3, 4])
        if style == 'fan':
            return self.random.choice([1, 1, 2])
        return 0

    def parent_among(self, rows):
        """The id of a parent, most often the last Coupled, or None."""
        coupleds = [row.id for row in rows if isinstance(row, CoupledRow)]
        if not coupleds or not self.happens(0.9):
            return None
        return self.random.choice([None, coupleds[-1], coupleds[-1]] + coupleds)

    def row(self, identity, parent, kind):
        """A row of this kind."""
        choice, ports = self.random.choice, self.ports
        if kind == 'processor':
            return ProcessorRow(identity, parent, ports[0], choice(ports[:2]), choice(CAPACITIES))
        if kind == 'batcher':
            return BatcherRow(identity, parent, ports[0], choice(ports[:2]), choice(MAXIMA), self.time())
        if kind == 'stopwatch':
            start, stop, metric = self.random.sample(ports, 3)
            return StopwatchRow(identity, parent, start, stop, metric, choice(ports[:2]), self.happens(0.5))
        return CoupledRow(identity, parent)

    def in_another_order(self, rows):
        """The same rows in another order, each parent still before its components."""
        waiting, ordered, placed = list(rows), [], {None}
        while waiting:
            free = [row for row in waiting if row.parent in placed]
            row = free[0] if self.happens(0.6) else self.random.choice(free)
            waiting.remove(row)
            ordered.append(row)
            placed.add(row.id)
        return ordered

    # ---- ports

    def port_into(self, row, may_be_wrong=False):
        """A port for a message to this row (None: to nobody); a wrong one now and then, where that may be."""
        choice = self.random.choice
        if row is None:
            return choice(self.ports)
        if isinstance(row, BatcherRow):
            return choice(self.ports)
        if isinstance(row, CoupledRow):
            return choice(self.entries.get(row.id, self.ports) * 8 + self.ports)
        if may_be_wrong and self.happens(self.wrong_share):
            return choice(WRONG_PORTS + self.ports)
        if isinstance(row, ProcessorRow):
            return row.input
        return choice([row.start] * 4 + [row.stop] * 4 + [row.metric] * 3)

    def port_out_of(self, row):
        """A port that messages out of this row may have."""
        if isinstance(row, CoupledRow):
            return self.random.choice(self.exits.get(row.id, self.ports) * 8 + self.ports[:2])
        return row.output

    # ---- couplings and connectors

    def couplings_of(self, coupled, components):
        """The couplings of a Coupled that has components."""
        inputs = self.inputs_of(coupled, components)
        outputs = []
        for source in self.random.choices(components, k=self.random.choice([0, 1, 1, 2, 3])):
            outputs.append(Coupling(coupled.id, 'output', source.id, self.port_out_of(source),
                                    None, self.random.choice(self.ports[:2])))
        internals = self.internals_of(coupled, components)
        self.entries[coupled.id] = [coupling.source_port for coupling in inputs]
        self.exits[coupled.id] = [coupling.target_port for coupling in outputs] or self.ports
        return inputs + internals + outputs

    def inputs_of(self, coupled, components):
        """External input couplings; often those by which a stopwatch is started, stopped and asked."""
        inputs = []
        for target in self.random.choices(components, k=self.random.choice([1, 2, 2, 3])):
            port = self.random.choice([self.ports[0], self.ports[0], self.ports[1]])
            inputs.append(Coupling(coupled.id, 'input', None, port, target.id, self.port_into(target)))
        for target in components:
            if isinstance(target, StopwatchRow) and self.happens(0.7):
                for port, target_port in zip(self.ports, (target.start, target.stop, target.metric)):
                    inputs.append(Coupling(coupled.id, 'input', None, port, target.id, target_port))
        return inputs

    def internals_of(self, coupled, components):
        """Internal couplings, a few of them to nobody; often one component feeds all the processors."""
        internals = []
        for source in self.random.choices(components, k=self.random.randint(0, 4)):
            target = self.random.choice(components * 5 + [None])
            internals.append(Coupling(coupled.id, 'internal', source.id, self.port_out_of(source),
                                      target.id if target else NO_COMPONENT, self.port_into(target)))
        processors = [row for row in components if isinstance(row, ProcessorRow)]
        if len(processors) > 1 and len(components) > 2 and self.happens(0.8):
            source = self.random.choice(components)
            port = self.port_out_of(source)
            internals += [Coupling(coupled.id, 'internal', source.id, port, target.id, target.input)
                          for target in processors if target != source]
        return internals

    def connectors(self, rows):
        """Connectors between the parentless models, a few of them to nobody or from a component."""
        tops = parentless(rows)
        connectors = []
        for source in tops + self.random.choices(tops, k=2) + [self.random.choice(rows)]:
            others = [row for row in tops if row != source]
            target = self.random.choice(others * 2 + tops + [None])
            if self.happens(0.75):
                connectors.append(Connector(source.id, self.port_out_of(source),
                                            target.id if target else NO_MODEL, self.port_into(target)))
        for target in tops:
            if isinstance(target, StopwatchRow) and self.happens(0.8):
                for port in (target.start, target.stop, target.metric):
                    source = self.random.choice(tops)
                    connectors.append(Connector(source.id, self.port_out_of(source), target.id, port))
        return connectors

    # ---- traps

    def set_trap(self, table):
        """Puts one thing into the table that refuses, once something comes there."""
        processors = [place for place, row in enumerate(table.rows) if isinstance(row, ProcessorRow)]
        if processors and self.happens(0.3):
            place = self.random.choice(processors)
            table.rows[place] = table.rows[place]._replace(capacity=0)
            return
        choosy = {row.id for row in table.rows if isinstance(row, (ProcessorRow, StopwatchRow))}
        ways = []
        for links in (table.connectors, table.couplings):
            for place, link in enumerate(links):
                if link.target in choosy:
                    ways += [(links, place)] * self.trap_weight(link)
        if ways:
            links, place = self.random.choice(ways)
            links[place] = links[place]._replace(target_port=self.random.choice(WRONG_PORTS))

    @staticmethod
    def trap_weight(link):
        """Fewer messages come along couplings than along connectors, and fewest along internal ones."""
        if isinstance(link, Connector):
            return 1
        return 8 if link.kind == 'internal' else 2
