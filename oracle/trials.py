"""Random cases of the differential runs, each planned from its seed along the reading. They go on past refusals.

short and plain: random calls on random tables. late: times near the largest. burst: connectors and couplings that multiply
messages, to 32, 64 and 256 and one more. fill: queues filled to 32 and 64, 256 injections. parked: messages parked at every depth,
often with nothing due beside them (A3). long: rings that run for thousands of steps. large: tables of up to 64 rows. tables:
damaged copies of good tables, and any words. states: damaged copies of good states, and some as they were stored before A7.
"""
import math
import random

from asking import table_lines
from bursts import AROUND_OMITTED, burst_table, full_table, large_table, parked_table, ring_table
from calling import ALL_ROWS, Case
from reading import INFINITE, MOST_HELD, UNLIMITED_CAPACITY, BatcherRow, Message, ProcessorRow
from reading_words import (CAPACITY_GIVEN, CONNECTOR_WORDS, COUPLING_WORDS, HEAD_WORDS, MESSAGE_WORDS, MODEL_WORDS, filled,
                           table_words, word_of, words_needed)
from scripts import NO_STATUS, WIDE_CONTENTS, Call, Messages
from tables import LATE_TIMES, TIMES, Tables, parentless

KINDS = {'short': 36, 'plain': 13, 'late': 7, 'burst': 8, 'fill': 4, 'parked': 4, 'long': 1, 'large': 2, 'tables': 10,
         'states': 15}
BAD_TIMES = [math.nan, -math.nan, -1.0, -0.0, math.inf, -math.inf, 2.0 ** 60 + 256, 1e300, -5e-324]
ODD_WORDS = [0, 1, 2, 3, 4, 5, 6, 7, 8, 63, 64, 65, 255, 256, 257, 2 ** 16 - 1, 2 ** 16, 2 ** 31, 2 ** 32 - 1, 2 ** 32, 2 ** 48,
             2 ** 62, 2 ** 62 + 1, 2 ** 63, 2 ** 64 - 1, 0x3ff0000000000000, 0x43b0000000000000, 0x43b0000000000001,
             0x7ff0000000000000, 0x7ff0000000000001, 0x7ff8000000000000, 0xbff0000000000000, 0xfff0000000000000]
WIDTHS = (MODEL_WORDS, CONNECTOR_WORDS, COUPLING_WORDS)
RESETS = ['reset', 'reset_messages', 'reset_global_time', 'reset_global_time']
LARGEST_COUNT = 2 ** 64 - 1
LARGEST_ALLOWANCE = 2 ** 32 - 1
# Steps after which a run is taken to have no end.
FAR = 150


class Trial(Messages):
    """A random case."""

    def __init__(self, seed):
        self.random = random.Random(seed)
        self.case = Case(seed, self.random)
        self.simulation = self.case.simulation
        self.calls = []
        self.kind = self.random.choices(list(KINDS), weights=list(KINDS.values()))[0]
        self.maker = Tables(self.random, 9 if self.kind == 'plain' else 5, 0.3)
        wide = self.random.random() < 0.2
        self.contents = WIDE_CONTENTS if wide else list(range(1, 7))
        self.tables = []
        self.choices = {self.inject_some: 24, self.run_step: 22, self.run_step_n: 14, self.run_step_until: 14, self.ask_status: 5,
                        self.ask_messages: 4, self.ask_time: 2, self.reset: 5, self.put: 3, self.post: 1, self.lend_services: 4,
                        self.lend_less: 2, self.inject_badly: 1}
        getattr(self, 'plan_' + self.kind)()

    @property
    def steps(self):
        """The steps so far."""
        return self.case.steps

    def happens(self, share):
        """True in that share of the times."""
        return self.random.random() < share

    # ---- plans

    def plan_short(self):
        """A few calls."""
        self.start_with_jobs()
        self.make_calls(self.random.randint(3, 14))

    def plan_plain(self):
        """More calls, on larger tables."""
        self.start_with_jobs()
        self.make_calls(self.random.randint(15, 60))

    def plan_large(self):
        """A table of many rows."""
        self.start_with_jobs(large_table(self.random))
        self.make_calls(self.random.randint(4, 16))

    def plan_late(self):
        """Batch and service times near the largest time."""
        self.maker.times = self.maker.odd_times = LATE_TIMES
        self.start_with_jobs()
        self.make_calls(self.random.randint(6, 20))

    def plan_burst(self):
        """One message becomes many."""
        self.start(burst_table(self.random))
        for _ in range(self.random.randint(1, 4)):
            self.inject(Message(0, 0, self.tables[-1].rows[0].id, 1, 0.0, self.random.choice(self.contents)))
            for _ in range(self.random.randint(2, 6)):
                self.run_step()
        self.make_calls(self.random.randint(0, 5))

    def plan_fill(self):
        """Many injections, of contents that differ."""
        self.contents = list(range(1, 400))
        count = self.random.choice(AROUND_OMITTED + [62, 63, 64, 65, 66, 128, 255, 256, 257, 258])
        self.start(full_table(self.random, count))
        target = self.tables[-1].rows[0].id if self.happens(0.8) else NO_STATUS
        for content in range(1, count + 1):
            self.inject(Message(0, 0, target, 1, 0.0, content))
            if count < 200 and self.happens(0.02):
                self.run_step()
        self.ask_messages()
        self.make_calls(self.random.randint(2, 10))

    def plan_parked(self):
        """A few jobs, which are parked, and steps."""
        self.start(parked_table(self.random))
        for _ in range(self.random.randint(1, 3)):
            for _ in range(self.random.choice([1, 1, 2, 3])):
                self.inject(Message(0, 0, 1, 1, 0.0, self.random.choice(self.contents)))
            self.run_step()
            self.make_calls(self.random.randint(0, 3))
        self.run_step_n()
        self.make_calls(self.random.randint(0, 5))

    def plan_long(self):
        """Thousands of steps in one run."""
        table = ring_table(self.random)
        self.maker.odd_times = self.maker.times
        self.start(table)
        steps = self.random.randint(1000, 5000)
        self.case.services([self.maker.time() for _ in range(int(steps * self.random.choice([0.2, 0.6, 0.6, 0.6])))])
        for content in range(1, self.random.randint(1, 4) + 1):
            self.inject(Message(0, 0, self.random.choice(parentless(table.rows)).id, 1, 0.0, content))
        self.case.rows(MESSAGE_WORDS * self.random.choice([500, 2000, 20000, 20000, 20000, 20000]))
        if self.happens(0.7):
            self.case.run('step_n', steps)
        else:
            self.case.run('step_until', self.random.choice([500.0, 2000.0, 1e6, 1e9]), steps)
        self.make_calls(self.random.randint(0, 6))

    def plan_tables(self):
        """Damaged tables, posted and put."""
        self.start_with_jobs()
        for _ in range(self.random.randint(3, 9)):
            slices = self.damaged_slices(table_words(self.maker.table(), self.random))
            if self.happens(0.15):
                slices[0] = self.any_models()
            self.case.buffer(max(words_needed(*map(len, slices)), self.case.length) + self.random.choice([0, 0, 0, 3]))
            if self.happens(0.1):
                self.case.ask_words(*map(len, slices))
            if not self.case.table(self.random.choice(['post', 'put']), slices, write_out=self.some_length(slices[0], 0.3)):
                self.tables.append(self.simulation.table)
                self.inject_some()
                self.make_calls(2)

    def plan_states(self):
        """Damaged states."""
        self.start_with_jobs(self.random.choice([None] * 6 + [full_table, burst_table, ring_table, parked_table]))
        self.make_calls(self.random.randint(1, 8))
        for _ in range(self.random.randint(4, 10)):
            if self.case.slices is not None:
                self.random.choice([self.damage_state] * 8 + [self.release_early, self.hand_in_old])()

    def start_with_jobs(self, table=None):
        """A table, then injections and steps in most cases."""
        self.start(table(self.random) if callable(table) else table)
        if self.happens(0.9):
            for _ in range(self.random.randint(1, 6)):
                self.inject_one()
                if self.happens(0.25):
                    self.run_step()

    # ---- the table

    def start(self, table=None):
        """Service times and a table; before it, now and then, a call on a buffer that has no state in it."""
        self.lend_services()
        if self.happens(0.03):
            self.case.buffer(self.random.choice([0, 1, 2, 3, 1541, 1542, 1800]))
            self.random.choice([self.case.time, self.case.messages, lambda: self.case.run('step'), lambda: self.case.status(1),
                                lambda: self.case.reset('reset')])()
        self.lend_table('post', table or self.maker.table())

    def put(self):
        """Another table, with fresh models."""
        self.lend_table('put', self.maker.table())

    def post(self):
        """Another table, and all anew."""
        self.lend_table('post', self.maker.table())

    def lend_table(self, name, table):
        """post or put of a good table; now and then first with a buffer that is too short for it."""
        in_lines = self.happens(0.3)
        slices = table_words(table, None if in_lines else self.random)
        lines = table_lines(table, omits=True) if in_lines else None
        needed = words_needed(*map(len, slices))
        self.case.buffer(max(needed, self.case.length) + self.random.choice([0, 0, 0, 0, 0, 0, 1, 7, 300]))
        if self.happens(0.05):
            self.case.lend(max(0, needed - self.random.choice([1, 1, 1, 6, 206, needed, needed - 1])))
            self.case.table(name, slices, lines)
        if self.happens(0.03):
            self.case.ask_words(*map(len, slices))
        if not self.case.table(name, slices, lines, self.some_length(slices[0], 0.1)):
            self.tables.append(self.simulation.table)

    def some_length(self, models, share):
        """In that share of the times, how many words of the models are written out: all of them, at times fewer."""
        if not self.happens(share):
            return None
        return len(models) if self.happens(0.7) else self.random.randint(0, len(models))

    def any_models(self):
        """Words that may be model rows, or not; many of them say that they are a Processor's."""
        words = []
        for _ in range(self.random.choice([1, 2, 3, 5, 20, 64, 65, 70])):
            row = [self.random.choice(ODD_WORDS) for _ in range(MODEL_WORDS)]
            row[1] = self.random.choice([1, 1, 1, 1, 2, 3, 4, row[1]])
            row[2] = self.random.choice([*range(10), row[2]])
            words += row
        return words[:len(words) - self.random.choice([0, 0, 1, 2, 5, 7, 8, 9])]

    def damaged_slices(self, slices):
        """Three slices of words with something changed."""
        slices = [list(words) for words in slices]
        place = self.random.choices(range(3), weights=[6, 2, 3])[0]
        words, width = slices[place], WIDTHS[place]
        way = self.random.random()
        if way < 0.7 and words:
            self.change_word(words, self.random.randrange(len(words)))
        elif way < 0.85:
            words += [self.random.choice(ODD_WORDS[:6] + words) for _ in range(self.random.randint(1, width))]
        elif way < 0.95:
            del words[max(0, len(words) - self.random.randint(1, width)):]
        else:
            most = 64 if place == 0 else 256
            many = width * most + self.random.choice([-width, -1, 0, 0, 1, width - 1, width, width + 1])
            words += (words[-width:] or [0] * width) * most
            del words[many:]
        return slices

    def change_word(self, words, place):
        """Another word at that place."""
        before = words[place]
        way = self.random.random()
        if way < 0.6:
            words[place] = self.random.choice(ODD_WORDS)
        elif way < 0.75:
            words[place] = self.random.choice(words)
        elif way < 0.85:
            words[place] = before ^ 1 << self.random.randrange(64)
        else:
            words[place] = (before + self.random.choice([1, -1])) % 2 ** 64

    # ---- states

    def damage_state(self):
        """Hands the state in with one word changed. Refused, the word is put back; else calls go on with it."""
        case = self.case
        image, end = self.hand_in()
        place = self.place_in_state(image, end)
        kept = image[place]
        changed = list(image)
        self.change_word(changed, place)
        word = changed[place]
        head = place - 3 - sum(map(len, case.slices)) - 3
        if 0 <= head < HEAD_WORDS * image[0] and self.happens(0.5):
            word = self.likely_in_head(head % HEAD_WORDS, kept)
        case.word(image, place, word)
        if case.slices is None:
            self.make_any_call()
            case.word(image, place, kept)
        else:
            self.tables.append(self.simulation.table)
            self.make_calls(self.random.randint(1, 4))

    def hand_in(self):
        """Hands the state in as it is, with anything beyond its end. Its words, and where it ends."""
        image = self.case.image()
        end = len(image)
        image += [self.random.choice([0, 0, 1, 2 ** 64 - 1])] * (self.case.length - end)
        self.case.state(image)
        self.case.asks = False
        return image, end

    def hand_in_old(self):
        """A state stored before A7, which omits what then had no end: with more than 32 held refused, until it is written out."""
        case = self.case
        image, _ = self.hand_in()
        for place, row in enumerate(self.simulation.table.rows):
            if isinstance(row, ProcessorRow) and (row.capacity == UNLIMITED_CAPACITY or self.happens(0.5)):
                self.fill_old_row(image, place)
        case.state(image)
        if case.slices is None:
            self.make_any_call()
            case.write_out_state(image)
        else:
            self.make_calls(self.random.randint(0, 3))
            case.write_out_state()
        if case.slices is not None:
            self.tables.append(self.simulation.table)
            self.make_calls(self.random.randint(1, 4))

    def fill_old_row(self, image, place):
        """Omits a row's capacity, and has it hold some jobs, often about 32."""
        row = 3 + MODEL_WORDS * place
        changing = 3 + sum(map(len, self.case.slices))
        head = changing + 3 + HEAD_WORDS * place
        own = changing + image[head + 3]
        image[row + 2] &= ~CAPACITY_GIVEN
        held = self.random.choice([image[head + 2], *AROUND_OMITTED, 40, 63, 64])
        image[head + 2] = held
        image[own:own + MOST_HELD] = filled(list(range(1, held + 1)))

    def release_early(self):
        """A batcher in Release with room, which no run leads to: the next job there is refused with 6."""
        rows = self.simulation.table.rows
        ready = [place for place, row in enumerate(rows) if row.parent is None and isinstance(row, BatcherRow)
                 and len(self.simulation.model(row.id).held) + 1 < row.maximum]
        if ready:
            place = self.random.choice(ready)
            image, _ = self.hand_in()
            self.case.word(image, 3 + sum(map(len, self.case.slices)) + 3 + HEAD_WORDS * place, 2)
            self.inject(Message(0, 0, rows[place].id, 1, 0.0, 5))
            self.run_step()

    def likely_in_head(self, which, kept):
        """A word that a head may have at this place: a phase, a timer, a number held; where its own words begin stays."""
        timers = [word_of(time) for time in TIMES + [INFINITE]]
        return self.random.choice([[0, 1, 2, 3], timers, [0, 1, kept + 1, max(kept, 1) - 1, 64], [kept, kept + 64]][which])

    def place_in_state(self, image, end):
        """A place in a state: its counts, table, heads, own words, messages; a few beyond its end."""
        rows, connectors, couplings = image[:3]
        changing = 3 + MODEL_WORDS * rows + CONNECTOR_WORDS * connectors + COUPLING_WORDS * couplings
        own = changing + 3 + HEAD_WORDS * rows
        active = end - MESSAGE_WORDS * len(self.simulation.active)
        used = [place for place in range(own, active) if image[place]]
        places = [(range(3), 3), (range(3, changing), 15), (range(changing, changing + 3), 10), (range(changing + 3, own), 40),
                  (used, 15), ([min(place + 1, end - 1) for place in used], 5), (range(own, active), 7), (range(active, end), 15),
                  (range(end, len(image)), 2)]
        filled = [(part, weight) for part, weight in places if len(part)]
        part = self.random.choices([part for part, _ in filled], weights=[weight for _, weight in filled])[0]
        return self.random.choice(part)

    # ---- calls

    def make_calls(self, count):
        """So many calls."""
        for _ in range(count):
            self.random.choices(list(self.choices), weights=list(self.choices.values()))[0]()

    def make_any_call(self):
        """One call on the state, each kind as often as the others."""
        self.random.choice([self.inject_one, self.run_step, self.run_step_n, self.run_step_until, self.ask_status,
                            self.ask_messages, self.ask_time, self.reset, self.put])()

    def lend_less(self):
        """A call that is lent too little of the state, or just enough."""
        needed = words_needed(*map(len, self.case.slices)) if self.case.slices is not None else self.case.length
        self.case.lend(self.random.choice([0, 1, 2, 3, needed // 2, needed - 1, needed - 1, needed, needed]))
        self.make_any_call()

    def lend_services(self):
        """Service times, at times one among them that is no time."""
        times = [self.maker.time() for _ in range(self.random.choice([0, 1, 3, 8, 20, 40]))]
        if times and self.happens(0.1):
            times[self.random.randrange(len(times))] = self.random.choice(BAD_TIMES)
        self.case.services(times)

    def some_target(self):
        """The row of a parentless model, if there is one."""
        return super().some_target() if parentless(self.tables[-1].rows) else None

    def inject(self, message):
        """An injection."""
        self.calls.append(Call('inject_input', (message,)))
        self.case.inject(message)

    def inject_one(self):
        """A message."""
        self.inject(self.some_message())

    def inject_some(self):
        """A few messages."""
        for _ in range(self.random.choice([1, 1, 2, 3])):
            self.inject_one()

    def inject_badly(self):
        """A message with a time that is none."""
        self.inject(self.some_message()._replace(time=self.random.choice(BAD_TIMES)))

    def ask_status(self):
        """Status of a row, or of nobody."""
        rows = self.tables[-1].rows
        known = rows and self.happens(0.9)
        self.case.status(self.random.choice(rows).id if known else NO_STATUS)

    def ask_messages(self):
        """The active messages, with room around what they need."""
        if self.happens(0.6):
            needed = MESSAGE_WORDS * len(self.simulation.active)
            self.case.rows(max(0, needed + self.random.choice([-6, -1, 0, 1, 5, 6])))
        self.case.messages()

    def ask_time(self):
        """The clock."""
        self.case.time()

    def reset(self):
        """One of the three resets."""
        self.case.reset(self.random.choice(RESETS))

    # ---- runs

    def run_step(self):
        """One step."""
        self.run('step')

    def run_step_n(self):
        """A few steps, or as many as there can be where the run ends."""
        count = self.random.choice([0, 1, 2, 2, 3, 3, 4, 6, 20])
        if self.happens(0.1) and self.case.foresee('step_n', FAR).end == 'Refused':
            count = self.random.choice([FAR, 2 ** 32, LARGEST_COUNT])
        self.run('step_n', count)

    def run_step_until(self):
        """Steps until a time near the clock."""
        until = max(0.0, self.simulation.clock + self.random.choice([-1.0, 0.0, 0.1, 1.0, 2.5, 4.0, 7.0, 10.0, 100.0]))
        if self.happens(0.05):
            until = self.random.choice(BAD_TIMES)
        elif self.happens(0.1):
            until = self.random.choice(LATE_TIMES)
        allowance = self.random.choice([0, 1, 2, 5, 30, 30, 30])
        if self.happens(0.3):
            ran = self.case.foresee('step_until', until, FAR)
            if ran.end != 'Spent':
                allowance = self.random.choice([max(0, ran.steps - 1), ran.steps, ran.steps + 1, LARGEST_ALLOWANCE])
        self.run('step_until', until, allowance)

    def run(self, name, *arguments):
        """A run, with more room than it needs, about as much, or any."""
        way = self.random.random()
        if way < 0.6:
            self.case.rows(ALL_ROWS)
        elif way < 0.85:
            seen = [min(word, FAR) if isinstance(word, int) else word for word in arguments]
            needed = MESSAGE_WORDS * len(self.case.foresee(name, *seen).rows)
            self.case.rows(max(0, needed + self.random.choice([-6, -6, -1, 0, 0, 1, 5, 6])))
        else:
            self.case.rows(self.random.choice([0, 1, 5, 6, 7, 11, 12, 13, 18, 30, 60]))
        ran = self.case.run(name, *arguments)
        if ran and ran.refusal and self.happens(0.5):
            self.go_on_after(ran.refusal)

    def go_on_after(self, refusal):
        """What lets the steps go on: other messages, or more service times."""
        if refusal in (5, 6, 7, 8):
            self.case.reset('reset_messages')
        elif refusal in (9, 10):
            count = min(self.simulation.place, 5000) + self.random.choice([1, 2, 5, 20])
            self.case.services([self.maker.time() for _ in range(count)])
        elif refusal == 11:
            self.case.reset('reset_global_time')
        elif refusal == 12:
            self.inject_some()
