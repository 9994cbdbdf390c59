"""A script and the oracle's answers to it as a computed case in antt, in the words of Common.antt.

Every expected value is read from the oracle's output. Only how a run ended and how many steps it took, which
the Rust does not tell, come from the reading; the run in single steps confirms them.
"""
import random
import re

from asking import bits
from reading import INFINITE, UNLIMITED_CAPACITY, BatcherRow, ProcessorRow, StopwatchRow
from scripts import RUNS

NAMES = ('inf, full, proc, bat, least, most, coup, link, into, out, inner, job, inject, step, steps, until, '
         'reset, reset-messages, reset-global-time, put_in, status, look, p_passive, p_active, b_passive, '
         'b_batching, b_release, s_passive, s_job_fetch, parks, p0, b0, s0, c0, ran, reached, spent, stopped, '
         'refuses, says, holds, seen, play')
HEAD = '''\
-- Answers of the oracle, computed over the rules: cases {first} to {last}. \
The number above a case is its script's (--show). Written by oracle/write_cases.py. Assumes nothing.
use Rattle.std.specs.Prelude.{{ℕ, ◌≡◌, refl, List, [], ◌∷◌}}
use Rattle.std.proofs.Math.Option.{{Option, none, some}}
use Rattle.rules.specs.declared.ProcessorPhase.TheVariants as working
use Rattle.rules.specs.declared.BatcherPhase.TheVariants as batching
use Rattle.rules.specs.Calls.{{OfProcessor, OfBatcher, Mean, ParkedCount}}
use Rattle.oracle_cases.specs.Common.{{{names}}}
'''
STATUSES = {
    'error ModelNotFound': 'refuses 4',
    '"Measuring durations"': 'says (Mean none)',
    '"Average NaN"': 'says (Mean none)',
    '"Processing"': 'says (OfProcessor working.Active)',
    '"Creating batch"': 'says (OfBatcher batching.Batching)',
    '"Releasing batch"': 'says (OfBatcher batching.Release)',
}
MESSAGE = re.compile(r'  (\d+):(\d+) -> (\d+):(\d+) at ([0-9a-f]{16}): (\d+)')
MODEL = re.compile(r' +(\d+) (\w+): (.*)')
PARKED = re.compile(r'\{componentId (\d+), port (\d+), content (\d+)\}')
MARK = re.compile(r'\{name (\d+), start (\w+), stop (\w+)\}')


# ---- what the oracle printed


class ModelTold:
    """A model as the oracle printed it. Times are bits in hex, a mark that is not set is 'none'."""

    def __init__(self, kind, rest):
        self.kind = kind
        self.phase, self.timer = None, None
        inside = rest[rest.index('[') + 1:rest.rindex(']')]
        if kind == 'Coupled':
            self.held = [tuple(map(int, parked)) for parked in PARKED.findall(inside)]
            return
        self.phase, self.timer = re.match(r'phase (\w+), untilNextEvent ([0-9a-f]{16}),', rest).groups()
        if kind == 'Stopwatch':
            self.held = [(int(name), start, stop) for name, start, stop in MARK.findall(inside)]
        else:
            self.held = [int(job) for job in inside.split(', ') if job]


class Told:
    """The oracle's answer to one line: what it returned, messages, clock, place and models by id."""

    def __init__(self, lines):
        self.returned, self.clock, self.place = None, None, None
        self.rows, self.active, self.models = [], [], {}
        messages = self.rows
        for line in lines:
            word, _, rest = line.partition(' ')
            message = MESSAGE.fullmatch(line)
            if message:
                *ends, time, content = message.groups()
                messages.append((*map(int, ends), time, int(content)))
            elif word == 'returned':
                self.returned = rest
            elif word == 'clock':
                self.clock = rest
            elif word == 'active':
                messages = self.active
            elif word == 'services':
                self.place = int(rest.split()[1])
            else:
                identity, kind, state = MODEL.fullmatch(line).groups()
                self.models[int(identity)] = ModelTold(kind, state)


# ---- small parts of the text


def number_text(value):
    """A number, or a time given by its bits in hex."""
    if isinstance(value, int):
        return str(value)
    if value == bits(INFINITE):
        return 'inf'
    return '0' if int(value, 16) == 0 else '0x' + value


def list_text(texts):
    """A list."""
    return ' ∷ '.join(list(texts) + ['[]'])


def argument(texts):
    """A list as an argument."""
    text = list_text(texts)
    return text if text == '[]' else f'({text})'


def tuple_text(values):
    """A tuple of numbers."""
    return '(' + ', '.join(map(number_text, values)) + ')'


def applied(name, *values):
    """A name and its arguments, which are numbers."""
    return ' '.join([name] + [number_text(value) for value in values])


# ---- tables and calls


def row_text(row):
    """A model row."""
    head = (row.id, row.parent or 0)
    if isinstance(row, ProcessorRow):
        capacity = 'full' if row.capacity == UNLIMITED_CAPACITY else str(row.capacity)
        return applied('proc', *head, row.input, row.output) + ' ' + capacity
    if isinstance(row, BatcherRow):
        return applied('bat', *head, row.input, row.output, row.maximum, bits(row.batch_time))
    if isinstance(row, StopwatchRow):
        name = 'least' if row.least else 'most'
        return applied(name, *head, row.start, row.stop, row.metric, row.output)
    return applied('coup', *head)


def coupling_text(coupling):
    """A coupling: each kind has its own name, and only its own fields."""
    name = {'input': 'into', 'internal': 'inner', 'output': 'out'}[coupling.kind]
    fields = coupling.owner, coupling.source, coupling.source_port, coupling.target, coupling.target_port
    return applied(name, *(field for field in fields if field is not None))


def table_text(table):
    """The three lists of a table."""
    return ' '.join([argument(map(row_text, table.rows)),
                     argument(applied('link', *connector) for connector in table.connectors),
                     argument(map(coupling_text, table.couplings))])


def call_text(call):
    """A call."""
    if call.name == 'inject_input':
        message = call.arguments[0]
        if (message.source, message.source_port, message.time) == (0, 0, 0.0):
            return applied('job', message.target, message.target_port, message.content)
        return applied('inject', *message._replace(time=bits(message.time)))
    if call.name == 'step_n':
        return applied('steps', *call.arguments)
    if call.name == 'step_until':
        return applied('until', bits(call.arguments[0]), call.arguments[1])
    if call.name == 'status':
        return applied('status', *call.arguments)
    if call.name == 'put':
        return 'put_in ' + table_text(call.arguments[0])
    return call.name.replace('_', '-')


# ---- answers


def mark_text(name, start, stop):
    """A stopwatch's job."""
    start, stop = ('none' if time == 'none' else 'some ' + number_text(time) for time in (start, stop))
    return f'({name}, {start}, {stop})'


def model_text(model):
    """A model's state."""
    letter = model.kind[0].lower()
    if model.kind == 'Coupled':
        return 'parks ' + argument(map(tuple_text, model.held)) if model.held else 'c0'
    if model.phase == 'Passive' and model.timer == bits(INFINITE) and not model.held:
        return letter + '0'
    if model.kind == 'Stopwatch':
        held = [mark_text(*mark) for mark in model.held]
    else:
        held = map(str, model.held)
    phase = re.sub(r'(?<=[a-z])(?=[A-Z])', '_', model.phase).lower()
    return f'{letter}_{phase} {number_text(model.timer)} {argument(held)}'


def state_text(told, rows):
    """Every model in row order, and the active messages."""
    models = argument(model_text(told.models[row.id]) for row in rows)
    return models + ' ' + argument(map(tuple_text, told.active))


def run_text(ran, told):
    """The answer of a run."""
    names = {'Done': 'ran', 'Reached': 'reached', 'Spent': 'spent', 'Refused': f'stopped {ran.refusal}'}
    rows = argument(map(tuple_text, told.rows))
    return f'{names[ran.end]} {ran.steps} {rows} {number_text(told.clock)} {told.place}'


def status_text(told, model):
    """The answer of status; `model` is what the oracle last printed of it, if it is there."""
    if told.returned in STATUSES:
        return STATUSES[told.returned]
    if model.kind == 'Coupled':
        return f'says (ParkedCount {len(model.held)})'
    if told.returned != '"Passive"':
        raise ValueError('a status that a case does not ask for: ' + told.returned)
    return f'says (Of{model.kind} {"working" if model.kind == "Processor" else "batching"}.Passive)'


# ---- a case


def case_text(name, script, answers, looks):
    """A case. `looks`: the share of runs after which every model and message is compared, the last apart."""
    chance = random.Random(script.seed)
    told_of = {asked.call: Told(answer) for asked, answer in answers if not asked.refused}
    latest = next(Told(answer) for asked, answer in answers if asked.line == 'post')
    rows = script.table.rows
    calls, said = [], []
    for place, call in enumerate(script.calls):
        told = told_of[place]
        calls.append(call_text(call))
        if call.name == 'put':
            rows = call.arguments[0].rows
        if call.name == 'status':
            said.append(status_text(told, latest.models.get(call.arguments[0])))
        if call.name in RUNS:
            said.append(run_text(call.ran, told))
            if place + 1 < len(script.calls) and chance.random() < looks:
                calls.append('look')
                said.append('holds ' + state_text(told, rows))
        if told.clock is not None:
            latest = told
    services = argument(number_text(bits(time)) for time in script.services)
    return '\n'.join([f'-- {script.seed}', f'pub {name} :', f'    play {table_text(script.table)}',
                      f'    {services}', f'    {argument(calls)}', '    ≡ seen', f'    ({list_text(said)})',
                      f'    {state_text(latest, rows)}', 'unfolding play', f'{name} = refl', ''])


def file_text(first, cases):
    """A file of cases (script, answers, looks); their names count on from `first`."""
    head = HEAD.format(first=first, last=first + len(cases) - 1, names=NAMES)
    texts = [case_text(f'case-{number:03}', *case) for number, case in enumerate(cases, first)]
    return '\n'.join([head] + texts)
