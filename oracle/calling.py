"""One case of the differential runs: its calls, made on the reading, and written down for the C calls and for the oracle.

The C calls (calls.c) must answer as the reading does, always. The Rust is asked for what it has: not for a table, a message or
a time that is refused, and of a refused run for the steps before the refused one. A step refused with 5 or 6 is asked too, one
with 9 in half of the cases; the Rust keeps such a step's work, so it is then asked no more. Where the refusal is met inside a
component's internal event, the Rust swallows it (docs/DIFFERENCES.md, item 20), and what it answers is counted and not compared.
From the first step in which a Coupled has an internal event by A3 alone (docs/DIFFERENCES.md, item 38) it is asked no more either.
"""
import collections
import itertools

from asking import ERRORS, bits, in_words, message_lines, simulation_lines, status_lines, table_lines
from reading import Batcher, Coupled, Processor, Refused
from reading_words import (MESSAGE_WORDS, PHASES, State, all_models, intake, state_words, state_written_out, table_in, words_needed,
                           written_out)
from watching import Watched

ENDS = {'Done': 0, 'Reached': 1, 'Spent': 2, 'Refused': 3}
ALL_ROWS = 256 * MESSAGE_WORDS
# The share of the steps refused with these that the Rust is asked for; at the others it goes on as if they had not been.
ASK_REFUSED = {5: 1.0, 6: 1.0, 9: 0.5}


def text_of(lines):
    """Lines as a text."""
    return ''.join(line + '\n' for line in lines)


def changes_text(before, after):
    """The words that are changed, each with its place."""
    return text_of(f'  {place}: {word}' for place, (kept, word) in enumerate(zip(before, after)) if word != kept)


def words_text(words):
    """Words as a line has them, with W*N for N times W."""
    texts = []
    for word, run in itertools.groupby(words):
        count = len(list(run))
        texts.append(hex(word) if count == 1 else f'{hex(word)}*{count}')
    return ' '.join(texts)


class Case:
    """A case, call after call."""

    def __init__(self, name, random):
        self.name = name
        self.random = random
        self.simulation = Watched([])
        self.lines = [f'case {name}']       # for the C calls
        self.told = [f'case {name}\n']      # what they must answer, call by call
        self.ends = [1]                     # how many lines there are up to each of these
        self.asked = [f'# case {name}']     # for the oracle
        self.answers = [f'> # case {name}\n']
        self.asks = True                    # whether the oracle can still be asked
        self.refused_step = None            # the refusal of the step with which its part ends
        self.swallowed = False              # whether the Rust swallows that one
        self.cut = False                    # whether its part ends where A3 shows
        self.steps_asked = self.answers_asked = 0
        self.slices = None                  # the table's words in the state; None if there is no state in the buffer
        self.length = 0                     # of the state buffer
        self.lent = None                    # of what the next call is lent of it, where that is less
        self.room = ALL_ROWS                # of the lent output, in words
        self.calls = collections.Counter()
        self.refusals = []
        self.intakes = collections.Counter()  # what intake answered
        self.most_omitted = self.rows_written = 0
        self.steps = self.longest = self.fullest = self.most_active = self.most_parked = 0

    # ---- what is lent

    def services(self, times):
        """Lends a list of service times; the place stays."""
        line = in_words(['services'] + ['0x' + bits(time) for time in times])
        self.simulation.services = times
        self.lines.append(line)
        self.ask(line, '')

    def buffer(self, length):
        """A state buffer of another length; one that has a state in it only grows."""
        if self.slices is None or length > self.length:
            self.lines.append(f'buffer {length}')
            self.length = length

    def lend(self, length):
        """The next call is lent only so much of the state buffer."""
        self.lines.append(f'lend {length}')
        self.lent = min(length, self.length)

    def rows(self, words):
        """The length of the lent output, from now on."""
        if words != self.room:
            self.lines.append(f'rows {words}')
            self.room = words

    def state(self, words):
        """Hands a state in. It fills the buffer."""
        self.lines.append('state ' + words_text(words))
        self.judge(words)

    def word(self, words, place, word):
        """Changes one word of a state that was handed in."""
        self.lines.append(f'word {place} {hex(word)}')
        words[place] = word
        self.judge(words)

    def judge(self, words):
        """The simulation that the words hold; none where they are refused."""
        try:
            state = State(words)
        except Refused:
            self.slices = None
            return
        self.slices = state.slices
        state.lay_into(self.simulation)

    def image(self):
        """The words of the state as it is, up to its end."""
        return state_words(self.simulation, self.simulation.table.rows, self.slices)

    # ---- writing down

    def ask(self, line, answer):
        """A line for the oracle, and its answer."""
        if self.asks:
            self.asked.append(line)
            self.answers.append(f'> {line}\n{answer}')
            self.answers_asked += answer != ''

    def call(self, line, name, refusal, head, body):
        """A call and what the C calls must answer."""
        self.lines.append(line)
        self.told.append(f'= {refusal}{head}\n{body}')
        self.ends.append(len(self.lines))
        self.calls[name] += 1
        if refusal:
            self.refusals.append(refusal)
        self.lent = None

    def shown(self):
        """What is printed of the simulation."""
        for model in all_models(self.simulation.models):
            if isinstance(model, Coupled):
                self.most_parked = max(self.most_parked, len(model.parked))
            else:
                self.fullest = max(self.fullest, len(model.held))
        self.most_active = max(self.most_active, len(self.simulation.active))
        return text_of(simulation_lines(self.simulation))

    def lent_length(self):
        """How long the lent state is."""
        return self.length if self.lent is None else self.lent

    def check_state(self):
        """20 comes first, in every call."""
        if self.slices is None or self.lent_length() < words_needed(*map(len, self.slices)):
            raise Refused(20)

    def refused_by(self, check, *arguments):
        """The number with which a call is refused, or 0."""
        try:
            check(*arguments)
        except Refused as refusal:
            return refusal.number
        return 0

    # ---- tables

    def table(self, name, slices, lines=None, write_out=None):
        """post or put, of three slices of words; the C calls may be handed the oracle's lines that say the same.

        Intake is asked before it. `write_out`: how many words of the models are written out first.
        """
        self.add_table(slices, lines)
        if write_out is not None:
            slices = self.write_out(slices, write_out)
        self.intake(slices)
        table = None
        refusal = 0
        try:
            if name == 'put':
                self.check_state()
            # Of the state buffer post asks only the length; put asks for the room of the new table too.
            if self.lent_length() < words_needed(*map(len, slices)):
                raise Refused(20)
            table = table_in(*slices)
            getattr(self.simulation, name)(table)
            self.slices = [list(words) for words in slices]
        except Refused as refused:
            refusal = refused.number
        shown = 'same\n' if refusal else self.shown()
        self.call(name, name, refusal, '', shown)
        if not refusal and self.asks:
            for line in table_lines(table):
                self.ask(line, '')
            self.ask(name, shown)
        return refusal

    def add_table(self, slices, lines=None):
        """The table of the next post or put, as words or as lines that say the same."""
        if lines:
            self.lines += lines
        else:
            self.lines += [f'{part} {words_text(words)}' for part, words in zip(('models', 'connectors', 'couplings'), slices)
                           if words]

    def intake(self, slices):
        """What intake says of the table that was added; it stays."""
        answer, report = intake(*slices)
        self.call_stateless('intake', 'intake', f'= {answer} report {in_words(report)}\n')
        self.intakes[answer] += 1
        self.most_omitted = max(self.most_omitted, report[2])

    def write_out(self, slices, length):
        """The migration of so many words of the models that were added. The slices after it."""
        models = list(slices[0])
        written, count = written_out(models[:length])
        written += models[length:]
        line = 'write_out' if length == len(models) else f'write_out {length}'
        self.call_stateless(line, 'write_out_capacity', f'= 0 count {count}\n{changes_text(models, written)}')
        self.rows_written += count
        return [written, *slices[1:]]

    def write_out_state(self, words=None):
        """The migration of the table in the state: in the one that the buffer has, or in these words, which were handed in."""
        if words is None:
            words = self.image()
            words += [0] * (self.length - len(words))
        before = list(words)
        words[:], count = state_written_out(before)
        self.call_stateless('write_out_state', 'write_out_capacity', f'= 0 count {count}\n{changes_text(before, words)}')
        self.rows_written += count
        # The Rust's models have the capacities that they were made with.
        self.asks = self.asks and not count
        self.judge(words)

    def call_stateless(self, line, name, told):
        """A call that is lent no state, and what the C calls must answer. It refuses nothing that a case counts."""
        self.lines.append(line)
        self.told.append(told)
        self.ends.append(len(self.lines))
        self.calls[name] += 1

    def ask_words(self, *lengths):
        """How long a state buffer must be for slices of these lengths."""
        self.call_stateless(in_words(('state_words',) + lengths), 'state_words', f'= {words_needed(*lengths)}\n')

    # ---- calls that are no runs

    def inject(self, message):
        """One more message."""
        refusal = self.refused_by(self.check_state) or self.refused_by(self.simulation.inject_input, message)
        line = in_words(('inject',) + message._replace(time='0x' + bits(message.time)))
        answer = f'active {len(self.simulation.active)}\n'
        self.call(line, 'inject_input', refusal, '', 'same\n' if refusal else answer)
        if not refusal:
            self.ask(line, answer)

    def reset(self, name):
        """reset or one of its halves."""
        refusal = self.refused_by(self.check_state) or self.refused_by(getattr(self.simulation, name))
        shown = 'same\n' if refusal else self.shown()
        self.call(name, name, refusal, '', shown)
        if not refusal:
            self.ask(name, shown)

    def status(self, identity):
        """The status of a model."""
        refusal = self.refused_by(self.check_state)
        if not refusal:
            self.ask(f'status {identity}', text_of(status_lines(self.simulation, identity)))
            refusal = self.refused_by(self.simulation.status, identity)
        head = '' if refusal else status_text(self.simulation.model(identity))
        self.call(f'status {identity}', 'get_status', refusal, head, '')

    def messages(self):
        """The active messages, listed."""
        active = self.simulation.active
        refusal = (self.refused_by(self.check_state)
                   or self.refused_by(self.simulation.get_messages, self.room // MESSAGE_WORDS))
        if refusal:
            self.call('messages', 'get_messages', refusal, '', '')
        else:
            self.call('messages', 'get_messages', 0, f' count {len(active)}', text_of(message_lines(active)))

    def time(self):
        """The clock."""
        refusal = self.refused_by(self.check_state)
        self.call('time', 'get_global_time', refusal, '' if refusal else f' time {bits(self.simulation.clock)}', '')

    # ---- runs

    def run(self, name, *arguments):
        """step, step_n or step_until. The run, or None where the state is refused."""
        line = in_words([name] + ['0x' + bits(word) if isinstance(word, float) else word for word in arguments])
        if self.refused_by(self.check_state):
            self.call(line, name, 20, ' steps 0 rows 0 end 3', 'same\n')
            return None
        before = self.simulation.kept()
        ran = getattr(self.simulation, name)(*arguments, self.room // MESSAGE_WORDS)
        self.steps += ran.steps
        self.longest = max(self.longest, ran.steps)
        head = f' steps {ran.steps} rows {len(ran.rows)} end {ENDS[ran.end]}'
        rows = text_of(message_lines(ran.rows))
        shown = rows + self.shown() if ran.steps or not ran.refusal else 'same\n'
        self.call(line, name, ran.refusal or 0, head, shown)
        if self.asks and self.simulation.parted:
            self.ask_up_to_parting(before, name, arguments)
        elif self.asks:
            self.ask_run(name, arguments, ran, shown)
        return ran

    def ask_up_to_parting(self, before, name, arguments):
        """The oracle's part of a run in which A3 shows: the steps before. It is then asked no more."""
        simulation = self.simulation
        after = simulation.kept()
        simulation.go_back(before)
        simulation.stops_where_parted = True
        ran = getattr(simulation, name)(*arguments)
        if ran.steps:
            shown = message_lines(ran.rows) + simulation_lines(simulation)
            self.ask(f'step_n {ran.steps}', f'returned {len(ran.rows)} messages\n{text_of(shown)}')
            self.steps_asked += ran.steps
        simulation.stops_where_parted = False
        simulation.go_back(after)
        self.cut = True
        self.asks = False

    def ask_run(self, name, arguments, ran, shown):
        """The oracle's part of a run: its completed steps, then often the step that is refused."""
        if ran.end in ('Refused', 'Spent'):
            line = f'step_n {ran.steps}'
        elif name == 'step_until':
            line = 'step_until 0x' + bits(arguments[0])
        else:
            line = in_words((name,) + arguments)
        if ran.steps or ran.end != 'Refused':
            self.ask(line, f'returned {len(ran.rows)} messages\n{shown}')
            self.steps_asked += ran.steps
        if ran.refusal in ASK_REFUSED and self.random.random() < ASK_REFUSED[ran.refusal]:
            self.refused_step = ran.refusal
            self.swallowed = self.simulation.refused_inside()
            self.ask('step', 'returned ' if self.swallowed else f'returned error {ERRORS[ran.refusal]}\n')
            self.asks = False

    def foresee(self, name, *arguments):
        """What a run would answer with any room. Nothing is changed by it."""
        kept = self.simulation.kept()
        ran = getattr(self.simulation, name)(*arguments)
        self.simulation.go_back(kept)
        return ran


def status_text(model):
    """The two numbers of a status."""
    status = model.status()
    if isinstance(model, Coupled):
        return f' status 4 {status:016x}'
    if isinstance(model, (Processor, Batcher)):
        kind = 0 if isinstance(model, Processor) else 1
        return f' status {kind} {PHASES[type(model)].index(status):016x}'
    return ' status 3 ' + '0' * 16 if status is None else f' status 2 {bits(status)}'
