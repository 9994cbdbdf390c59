#!/usr/bin/env python3
"""Runs random scripts on the oracle and writes its answers as the list that the crate oracle_list replays.

    write_list.py ORACLE [--seed N] [--cases N] [--out FILE]
    write_list.py ORACLE --show NUMBER      the script of one case, and what the oracle answers

The scripts have the numbers seed * 100000 and on; a case has its script's number. A second reading of 01 plans
them. Where it and the oracle differ, nothing is written: every answer is the oracle's. A case ends with its
first refusal where the Rust has it too (5, 6; 9 by the list that stands in for random_variate), and before it
where the Rust has not, or swallows it (DIFFERENCES.md, item 20). An idle step (12) is never asked for. It ends too
before a step in which A3 shows (README.md says where that is): the Rust has it not.

A case is lines of numbers up to an empty one, decimal or `0x` and 16 digits; times are bits. The first has the case's
number, how many words are lent for the state, and the service times. Then come for each call a line that says which
it is and its arguments, and, behind a blank, its answer. Calls are counted in the order of include/jambthrush.h
(CALLS); their arguments stand there too, the lent buffers left out. But post and put have the table as a state begins
with it, and a call that gives rows has first how many words are lent for them.
An answer is the number returned, and where nothing was refused
    of post and put      where the state ends
    of a run             steps, rows, how it ended, the rows; also of a refused run
    of get_status        what it is, and its value; of a mean the least and the greatest that is told so
    of get_messages      how many, the rows
    of get_global_time   the clock
and then each word of the state that the call changes, its place and the new word; all other words stay. After post
and put these are the words that are not 0, the table's left out. Before post every lent word is BEFORE.
"""
import argparse
import collections
import fractions
import os
import random
import re
import sys

from antt_text import Told
from asking import ERRORS, Differs, compare, show
from layout import Scattered, Unused, changing_words, least_length, message_words, table_words, word
from reading import Ran
from scripts import RUNS, Call, Script, Sizes
from write_cases import count_script

SHORT = Sizes(rows=7, trap_share=0.45, few_share=0.12, few=4, services=200, steps=range(3, 13),
              jobs=[0] + list(range(1, 13)) * 4, names=4, means=True)
# Half of these fill an omitted capacity (A7), where the table has a processor to which jobs can be sent.
LONG = Sizes(rows=9, trap_share=0.2, few_share=0.2, few=40, services=300, steps=range(20, 60),
             jobs=range(5, 80), names=12, means=True, crowd_share=0.5)
LONG_EVERY = 40
# What the program has room for: bytes of a case, numbers of a line, service times.
MOST_BYTES = 65535
MOST_NUMBERS = 4090
MOST_SERVICES = 512
CALLS = ['post', 'put', 'inject_input', 'step', 'step_n', 'step_until', 'reset', 'reset_messages',
         'reset_global_time', 'get_status', 'get_messages', 'get_global_time']
STATUSES = {'"Passive"': 0, '"Processing"': 1, '"Creating batch"': 1, '"Releasing batch"': 2}
ENDS = {'Done': 0, 'Reached': 1, 'Spent': 2, 'Refused': 3}
# What the lent words hold before the first call: the program has the same.
BEFORE = 0xa5a5a5a5a5a5a5a5
# Shows the simulation and changes nothing; asked of the oracle and not written.
LOOK = Call('step_n', (0,), Ran('Done', 0, []))


# ---- scripts


def sizes_of(number):
    """Every fortieth script is a long one."""
    return SHORT if number % LONG_EVERY else LONG


def script_of(number):
    """The script of a case: it ends where the Rust and the rules part, and shows more of itself."""
    script = Script(number, sizes_of(number))
    if script.swallowed or script.refusal not in (None, *ERRORS):
        end_before_refusal(script)
    chance = random.Random(number)
    calls, rows = [], script.table.rows
    for call in script.calls:
        calls.append(call)
        if call.name == 'put':
            rows = call.arguments[0].rows
        if call.name == 'inject_input':
            calls.append(LOOK)
        elif call.name in RUNS and call.ran.end != 'Refused' and chance.random() < 0.3:
            calls.append(Call('status', (chance.choice(rows).id,)))
    script.calls = calls
    return script


def end_before_refusal(script):
    """Of a run that is refused only the steps before are asked."""
    script.refusal = None
    ran = script.calls[-1].ran
    if ran is not None and ran.end == 'Refused':
        script.calls[-1] = Call('step_n', (ran.steps,), Ran('Done', ran.steps, ran.rows))


def is_too_small(script):
    """Whether a script does too little for a case."""
    return script.steps < 3 and (script.refusal is None or script.seed % 3 != 0)


# ---- what the oracle told


def told_by_call(answers):
    """What the oracle told of each call, by the call's place; what it told of an injection is the look after it."""
    return {asked.call: Told(answer) for asked, answer in answers if asked.call is not None and not asked.refused}


def confirm_steps(script, answers):
    """The steps of each run, and how it ended, by the oracle's clocks after single steps. Differs if not so."""
    clocks = collections.defaultdict(list)
    for asked, answer in answers:
        if asked.line == 'step' and not asked.refused:
            clocks[asked.call].append(int(Told(answer).clock, 16))
    for place, call in enumerate(script.calls):
        if call.name in RUNS and not is_confirmed(call, clocks[place]):
            raise Differs(f'script {script.seed}: the clocks of call {place} are not those of its end')


def is_confirmed(call, clocks):
    """Whether a run with these clocks, as bits, takes so many steps and ends so. Bits of times are in their order."""
    if len(clocks) != call.ran.steps:
        return False
    if call.name != 'step_until':
        return call.ran.end == 'Refused' or call.ran.steps == (call.arguments + (1,))[0]
    until, allowance = word(call.arguments[0]), call.arguments[1]
    before = clocks[:-1] if call.ran.end == 'Reached' else clocks
    reached = clocks[-1:] if call.ran.end == 'Reached' else []
    spent = call.ran.end != 'Spent' or len(clocks) == allowance
    return spent and all(clock < until for clock in before) and all(until <= clock for clock in reached)


def status_numbers(told, model):
    """The answer of get_status; `model` is what the oracle last printed of it, if it is there."""
    if told.returned == 'error ModelNotFound':
        return [4]
    if told.returned in ('"Measuring durations"', '"Average NaN"'):
        return [0, 3, 0]
    mean = re.fullmatch(r'"Average (.*)"', told.returned)
    if mean:
        return [0, 2, *mean_ends(mean.group(1))]
    if model.kind == 'Coupled':
        return [0, 4, len(model.held)]
    return [0, ('Processor', 'Batcher').index(model.kind), STATUSES[told.returned]]


def mean_ends(text):
    """The bits of the least and the greatest f64 that may be told so, with three digits."""
    mean, half = fractions.Fraction(text), fractions.Fraction(1, 2000)
    return word(float(mean - half)), word(float(mean + half))


def run_numbers(call, told):
    """The answer of a run."""
    number = call.ran.refusal or 0
    return [number, call.ran.steps, len(told.rows), ENDS[call.ran.end]] + message_words(told.rows)


# ---- a case as lines


class Case:
    """The lines of one case. It keeps the lent words as the oracle's answers leave them."""

    def __init__(self, script, answers):
        self.random = random.Random(script.seed)
        self.unused = Scattered(self.random) if self.random.random() < 0.5 else Unused()
        self.words = [BEFORE] * self.lent(script)
        self.rows, self.start, self.told = None, None, None
        self.calls = 0
        self.lines = [line([script.seed, len(self.words), *map(word, script.services)])]
        self.begin_anew('post', script.table, next(Told(answer) for asked, answer in answers if asked.line == 'post'))
        told_of = told_by_call(answers)
        for place, call in enumerate(script.calls):
            if call is not LOOK:
                ahead = place + (call.name == 'inject_input')
                self.take(call, told_of[ahead])
                if call.ran is None or call.ran.end != 'Refused':
                    self.ask()

    def lent(self, script):
        """How many words are lent: as many as the largest table needs, at times a few more."""
        return max(map(least_length, script.tables)) + self.random.choice([0, 0, 1, 40])

    def take(self, call, told):
        """A call of the script."""
        if call.name == 'put':
            self.begin_anew('put', call.arguments[0], told)
        elif call.name == 'status':
            model = self.told.models.get(call.arguments[0])
            self.write('get_status', call.arguments, status_numbers(told, model), self.told)
        elif call.name in RUNS:
            self.write(call.name, [self.room(told.rows), *run_arguments(call)], run_numbers(call, told), told)
        elif call.name == 'inject_input':
            message = call.arguments[0]
            self.write(call.name, message._replace(time=word(message.time)), [0], told)
        else:
            self.write(call.name, [], [0], told)

    def ask(self):
        """Now and then the messages and the clock, which the oracle shows after every call."""
        if self.random.random() < 0.08:
            active = self.told.active
            self.write('get_messages', [self.room(active)], [0, len(active)] + message_words(active), self.told)
        if self.random.random() < 0.08:
            self.write('get_global_time', [], [0, int(self.told.clock, 16)], self.told)

    def room(self, rows):
        """How many words are lent for rows: as many as they need, at times a few more."""
        return 6 * len(rows) + self.random.choice([0, 0, 0, 1, 5, 6, 13])

    def begin_anew(self, name, table, told):
        """post or put: of the state's words those are written that are not 0, behind the table's."""
        self.rows, self.start = table.rows, table_words(table, self.unused)
        end = len(self.start) + len(changing_words(self.rows, told))
        self.words[:end] = self.start + [0] * (end - len(self.start))
        self.write(name, self.start, [0, end], told)

    def write(self, name, arguments, numbers, told):
        """A call, its answer, and the words that it changes."""
        state = self.start + changing_words(self.rows, told)
        changes = []
        for place, new in enumerate(state):
            if new != self.words[place]:
                changes += [place, new]
        self.words[:len(state)] = state
        self.lines += [line([1 + CALLS.index(name), *arguments]), ' ' + line(numbers + changes)]
        self.told = told
        self.calls += 1

    def text(self):
        """The case, with the empty line behind it."""
        return '\n'.join(self.lines) + '\n\n'


def run_arguments(call):
    """What a run is asked for: how many steps, or until when and at most how many."""
    if call.name == 'step_until':
        return word(call.arguments[0]), call.arguments[1]
    return call.arguments


def line(numbers):
    """Numbers as a line."""
    return ' '.join(map(number_text, numbers))


def number_text(number):
    """Decimal below 2^53, else 0x and 16 digits."""
    return str(number) if number < 2 ** 53 else f'0x{number:016x}'


# ---- the list


def make_cases(oracle, seed, wanted):
    """The scripts and cases. Differs where the oracle and the reading do."""
    made, number = [], seed * 100000
    while len(made) < wanted:
        script = script_of(number)
        number += 1
        if is_too_small(script):
            continue
        confirm_steps(script, compare(script, oracle, single=True))
        case = Case(script, compare(script, oracle, single=False))
        script.calls = [call for call in script.calls if call is not LOOK]
        if fits(script, case):
            made.append((script, case))
    return made


def fits(script, case):
    """Whether the program has room for a case."""
    return (len(case.text()) <= MOST_BYTES and len(script.services) <= MOST_SERVICES
            and all(text.count(' ') < MOST_NUMBERS for text in case.lines))


def write_list(path, words, made):
    """Writes the list, with a head that says how it was made."""
    head = (f'# Answers of the oracle to {len(made)} random scripts. Written by oracle/write_list.py '
            f'--seed {words.seed} --cases {words.cases}; the format is said there.\n\n')
    with open(path, 'w', encoding='ascii') as file:
        file.write(head + ''.join(case.text() for _, case in made))


def arguments():
    """The command's words."""
    parser = argparse.ArgumentParser(description=__doc__, formatter_class=argparse.RawDescriptionHelpFormatter)
    parser.add_argument('oracle')
    parser.add_argument('--seed', type=int, default=2)
    parser.add_argument('--cases', type=int, default=2400)
    parser.add_argument('--out')
    parser.add_argument('--show', type=int)
    words = parser.parse_args()
    if not os.access(words.oracle, os.X_OK):
        parser.error(f'{words.oracle} is no oracle that can be run; ./build.sh makes one')
    if words.seed < 0 or words.cases < 1:
        parser.error('a seed is at least 0, and there is at least one case')
    if words.out and not os.path.isdir(os.path.dirname(words.out) or '.'):
        parser.error(f'there is no folder for {words.out}')
    return words


def main():
    """Makes the cases, writes them, and prints what they are made of."""
    words = arguments()
    if words.show is not None:
        show(script_of(words.show), words.oracle)
        return
    try:
        made = make_cases(words.oracle, words.seed, words.cases)
    except Differs as difference:
        sys.exit(str(difference))
    if words.out:
        write_list(words.out, words, made)
    total = collections.Counter()
    for script, case in made:
        count_script(total, script)
        total['calls'] += case.calls
    for what in sorted(total):
        print(f'{what}: {total[what]}')
    print(f'{len(made)} cases, {total["calls"]} calls, 0 differ')


if __name__ == '__main__':
    main()
