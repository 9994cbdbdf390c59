"""A simulation that is watched: what happens in it is counted, and nothing in it changes by that.

It also sees where the published Rust parts from A3 of 02, and can stop there.
"""
import collections

from reading import INFINITE, OMITTED_CAPACITY, Batcher, Coupled, CoupledRow, Processor, Refused, Simulation, Stopwatch
from reading_words import all_models
from tables import depths

# With this in place of a number a step is refused in which the rules and the Rust part, where that is asked for.
PARTS = 'parts'
# What A7 drops, where the capacity was omitted.
DROPPED_BY_A7 = f'jobs dropped with {OMITTED_CAPACITY} held'


def timer_in_rust(model):
    """The timer that the Rust has, and 01 had before A3: a Coupled's is the least of its components', whatever is parked."""
    if isinstance(model, Coupled):
        return min(map(timer_in_rust, model.components), default=INFINITE)
    return model.timer


class Watched(Simulation):
    """The reading, with counters at the two methods that every event passes."""

    def __init__(self, services):
        self.seen = collections.Counter()
        self.depth = {}
        self.table = None
        # The depth of the deepest row that took a message.
        self.deepest = 0
        # How many service times were read at most, refused steps included.
        self.furthest = 0
        # The events that go on, the outermost first, each with its model's depth. After a refused step:
        # the events in which it was refused.
        self.path = []
        # Whether any table had a Coupled.
        self.has_coupled = False
        # Whether a Coupled had its internal event that has none in the Rust; and whether a step with such an
        # event is refused instead, with PARTS.
        self.parted = False
        self.stops_where_parted = False
        # What was parked in these Coupleds, refused steps included: their depths, and for whom it was.
        self.freed = collections.Counter()
        super().__init__(services)

    def put(self, table):
        """The table and the depths of its rows are kept."""
        super().put(table)
        self.table = table
        self.depth = depths(table.rows)
        self.has_coupled |= any(isinstance(row, CoupledRow) for row in table.rows)

    def kept(self):
        """All that a run may change, to go back to."""
        return ([model.saved() for model in self.models], self.active, self.clock, self.place, self.seen.copy(),
                self.freed.copy(), self.deepest, self.furthest, self.parted)

    def go_back(self, kept):
        """As it was, what was counted too. Once only: the lists that were kept are then used."""
        (saved, self.active, self.clock, self.place, self.seen, self.freed, self.deepest, self.furthest,
         self.parted) = kept
        for model, was in zip(self.models, saved):
            model.restore(was)

    def apply_step(self):
        """No event goes on at first."""
        self.path = []
        super().apply_step()

    def next_service_time(self):
        """How far the list is read is kept."""
        time = super().next_service_time()
        self.furthest = max(self.furthest, self.place)
        return time

    def deliver(self, model, port, job):
        """Counts dropped jobs and messages that were parked."""
        was_parked = bool(self.path) and self.path[-1][0] == 'internal'
        held = len(model.held) if isinstance(model, Processor) else None
        self.path.append(('external', self.depth[model.id]))
        self.deepest = max(self.deepest, self.depth[model.id])
        super().deliver(model, port, job)
        self.path.pop()
        self.seen['parked messages handed over'] += was_parked
        dropped = isinstance(model, Processor) and len(model.held) == held
        self.seen['dropped jobs'] += dropped
        self.seen[DROPPED_BY_A7] += dropped and held == OMITTED_CAPACITY

    def is_about_to_part(self):
        """Whether a Coupled is due by A3 alone, as things are: a message that comes may change that."""
        return any(model.timer == 0 != timer_in_rust(model) for model in all_models(self.models))

    def part(self, coupled):
        """A Coupled that is due by A3 alone: the Rust gives it no internal event."""
        self.parted = True
        if self.stops_where_parted:
            raise Refused(PARTS)
        components = {component.id for component in coupled.components}
        for message in coupled.parked:
            whom = 'a component' if message.component in components else 'no component'
            self.freed.update([f'at depth {self.depth[coupled.id]}', f'for {whom}'])

    def wake(self, model):
        """Counts batches and what stopwatches answer; sees where the Rust parts."""
        if isinstance(model, Coupled) and timer_in_rust(model) != 0:
            self.part(model)
        self.path.append(('internal', self.depth[model.id]))
        out = super().wake(model)
        self.path.pop()
        if isinstance(model, Batcher):
            self.seen['batches of one' if len(out) == 1 else 'batches of two or more'] += 1
        if isinstance(model, Stopwatch):
            self.seen['metrics with a job' if out else 'metrics with none'] += 1
        return out

    def refused_inside(self):
        """Whether the step was refused inside a component's internal event: the Rust swallows that."""
        return any(event == 'internal' and depth > 1 for event, depth in self.path)
