"""Asks the oracle: a script as its lines, what the reading expects as its answer, and the two compared.

Each script can be asked in two ways: with every run as single steps, or call by call. (Single steps first: a
step_until of the Rust may never end, where it differs.) The Rust has no allowance, so a step_until that ends
Spent is asked as step_n. It keeps a failed step's work, so of a refused run the steps before are asked as
step_n, and then the one step that is refused; there only the error is compared.
"""
import re
import struct
import subprocess
from typing import NamedTuple, Optional

from reading import (OMITTED_CAPACITY, Batcher, BatcherRow, Coupled, Processor, ProcessorRow, Refused,
                     Simulation, Stopwatch, StopwatchRow)
from scripts import RUNS

# The refusals that the Rust has in a step; the oracle gives the third past the end of its list.
ERRORS = {5: 'InvalidMessage', 6: 'InvalidModelState', 9: 'PrerequisiteCalcError'}
PHASE_TEXTS = {Processor: {'Passive': 'Passive', 'Active': 'Processing'},
               Batcher: {'Passive': 'Passive', 'Batching': 'Creating batch', 'Release': 'Releasing batch'}}


class Differs(Exception):
    """The oracle answers otherwise than the reading."""


class Asked(NamedTuple):
    """A line of a script."""
    line: str
    expected: Optional[list] = ()   # the lines of the answer; None if they are not compared
    call: Optional[int] = None      # which call it makes
    refused: bool = False           # a refused step: only the first line of the answer is compared


def bits(value):
    """The bits of an f64, as sixteen hex digits."""
    return struct.pack('>d', value).hex()


# ---- lines of a script


def row_line(row, omits=False):
    """A model's line; `omits`: a capacity that is the omitted one's is left out."""
    if isinstance(row, ProcessorRow):
        capacity = None if omits and row.capacity == OMITTED_CAPACITY else row.capacity
        words = ['processor', row.id, row.parent, row.input, row.output, capacity]
    elif isinstance(row, BatcherRow):
        time = '0x' + bits(row.batch_time)
        words = ['batcher', row.id, row.parent, row.input, row.output, row.maximum, time]
    elif isinstance(row, StopwatchRow):
        words = ['stopwatch', row.id, row.parent, row.start, row.stop, row.metric, row.output,
                 'min' if row.least else 'max']
    else:
        words = ['coupled', row.id, row.parent]
    return in_words(words)


def in_words(values):
    """Values with spaces between them; what is not there is a dash."""
    return ' '.join('-' if value is None else str(value) for value in values)


def table_lines(table, omits=False):
    """The lines of a table. For the Rust no capacity is omitted: what that means to it is not what A7 says."""
    lines = [row_line(row, omits) for row in table.rows]
    lines += ['connector ' + in_words(connector) for connector in table.connectors]
    return lines + ['coupling ' + in_words(coupling) for coupling in table.couplings]


# ---- what the oracle prints of a simulation


def message_lines(messages):
    """The lines of messages."""
    lines = []
    for source, source_port, target, target_port, time, content in messages:
        lines.append(f'  {source}:{source_port} -> {target}:{target_port} at {bits(time)}: {content}')
    return lines


def mark_text(mark):
    """A stopwatch's job."""
    start, stop = ('none' if time is None else bits(time) for time in (mark.start, mark.stop))
    return f'{{name {mark.name}, start {start}, stop {stop}}}'


def model_lines(model, indent):
    """The lines of a model and its components."""
    head = f'{" " * indent}{model.id} {type(model).__name__}: '
    if isinstance(model, Coupled):
        parked = ', '.join(f'{{componentId {component}, port {port}, content {content}}}'
                           for component, port, content in model.parked)
        lines = [f'{head}parkedMessages [{parked}]']
        for component in model.components:
            lines += model_lines(component, indent + 2)
        return lines
    name = 'queue' if isinstance(model, Processor) else 'jobs'
    texts = [mark_text(held) if isinstance(model, Stopwatch) else str(held) for held in model.held]
    return [f'{head}phase {model.phase}, untilNextEvent {bits(model.timer)}, {name} [{", ".join(texts)}]']


def simulation_lines(simulation):
    """What is printed after a call."""
    lines = [f'clock {bits(simulation.clock)}', f'active {len(simulation.active)}']
    lines += message_lines(simulation.active)
    lines.append(f'services taken {simulation.place} of {len(simulation.services)}')
    for model in simulation.models:
        lines += model_lines(model, 2)
    return lines


def run_lines(ran, simulation):
    """What is printed after a run."""
    returned = [f'returned {len(ran.rows)} messages'] + message_lines(ran.rows)
    return returned + simulation_lines(simulation)


def status_lines(simulation, identity):
    """The Rust's text of a status. Those of a Coupled are the wrong way round."""
    try:
        model = simulation.model(identity)
    except Refused:
        return ['returned error ModelNotFound']
    status = model.status()
    if isinstance(model, Coupled):
        text = 'Processing no messages' if status else 'Processing 0 messages'
    elif not isinstance(model, Stopwatch):
        text = PHASE_TEXTS[type(model)][status]
    elif not model.held:
        text = 'Measuring durations'
    else:
        text = 'Average NaN' if status is None else f'Average {status:.3f}'
    return [f'returned "{text}"']


# ---- a script, played on the reading


def play(script, single):
    """The lines of a script with what the reading expects; `single`: every run as single steps."""
    simulation = Simulation(script.services)
    yield Asked(in_words(['services'] + ['0x' + bits(time) for time in script.services]))
    for line in table_lines(script.table):
        yield Asked(line)
    simulation.post(script.table)
    yield Asked('post', simulation_lines(simulation))
    for number, call in enumerate(script.calls):
        if call.name in RUNS:
            yield from play_run(simulation, call, number, single)
            if call.ran.refusal in ERRORS:
                error = ['returned error ' + ERRORS[call.ran.refusal]]
                yield Asked('step', None if script.swallowed else error, number, refused=True)
        else:
            yield from play_call(simulation, call, number)


def play_run(simulation, call, number, single):
    """The lines of a run, up to its refused step."""
    if single:
        for _ in range(call.ran.steps):
            ran = simulation.step()
            yield Asked('step', run_lines(ran, simulation), number)
        return
    ran = getattr(simulation, call.name)(*call.arguments)
    if ran.end in ('Refused', 'Spent'):
        line = f'step_n {ran.steps}'
    elif call.name == 'step_until':
        line = 'step_until 0x' + bits(call.arguments[0])
    else:
        line = in_words((call.name,) + call.arguments)
    yield Asked(line, run_lines(ran, simulation), number)


def play_call(simulation, call, number):
    """The lines of a call that is no run."""
    if call.name == 'status':
        yield Asked(f'status {call.arguments[0]}', status_lines(simulation, *call.arguments), number)
        return
    getattr(simulation, call.name)(*call.arguments)
    if call.name == 'inject_input':
        message = call.arguments[0]
        line = in_words(('inject',) + message._replace(time='0x' + bits(message.time)))
        yield Asked(line, [f'active {len(simulation.active)}'], number)
        return
    if call.name == 'put':
        for line in table_lines(call.arguments[0]):
            yield Asked(line)
    yield Asked(call.name, simulation_lines(simulation), number)


# ---- the oracle


def ask(oracle, lines):
    """The oracle's answer to each line, as lines. Of an f64 only the bits are kept."""
    script = '\n'.join(lines) + '\n'
    try:
        run = subprocess.run([oracle], input=script, capture_output=True, text=True, timeout=20, check=True)
    except subprocess.TimeoutExpired:
        raise Differs('the oracle does not end') from None
    text = re.sub(r'([0-9a-f]{16}) \([^)]*\)', r'\1', run.stdout)
    answers = [answer.splitlines() for answer in re.split(r'^> .*\n', text, flags=re.MULTILINE)[1:]]
    if len(answers) != len(lines):
        raise Differs(f'the oracle answers {len(answers)} of {len(lines)} lines')
    return answers


def compare(script, oracle, single):
    """The lines of a script with the oracle's answers; Differs where the reading expects another."""
    played = list(play(script, single))
    answers = ask(oracle, [asked.line for asked in played])
    for place, (asked, answer) in enumerate(zip(played, answers)):
        if asked.expected is None:
            continue
        told = answer[:1] if asked.refused else answer
        if told != list(asked.expected):
            raise Differs(difference(script, place, asked, told))
    return list(zip(played, answers))


def difference(script, place, asked, told):
    """The first line in which an answer is not the expected one, in words."""
    expected = list(asked.expected)
    length = max(len(told), len(expected))
    pairs = zip(told + [None] * (length - len(told)), expected + [None] * (length - len(expected)))
    oracle, reading = next(pair for pair in pairs if pair[0] != pair[1])
    return (f'script {script.seed} differs at its line {place + 1}: {asked.line}\n'
            f'  oracle:  {oracle}\n  reading: {reading}')


def show(script, oracle):
    """Prints a script, every run as single steps, with the oracle's answers."""
    lines = [asked.line for asked in play(script, single=True)]
    for line, answer in zip(lines, ask(oracle, lines)):
        print('\n'.join(['> ' + line] + answer))
