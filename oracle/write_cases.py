#!/usr/bin/env python3
"""Runs random scripts on the oracle and writes them as computed cases of the crate oracle_cases.

    write_cases.py ORACLE [--seed N] [--cases N] [--per-file N] [--looks SHARE] [--out FOLDER]
    write_cases.py ORACLE --show NUMBER      the script of one case, and what the oracle answers

FOLDER is the crate's specs/: Lib.antt and the files of cases are written anew, Common.antt stays. The
scripts have the numbers seed * 100000 and on. A case compares the answer of each call, the clock and the
place; after the last call and a SHARE (1: all) of the other runs every model and message too.

A second reading of 01 plans the scripts. Where it and the oracle differ, nothing is written. Left out, with
the next number tried: refusals that the Rust does not have, errors that it swallows (DIFFERENCES.md, item
20), and scripts that do too little. No case has an idle step (12) or asks for a stopwatch's mean, which the
Rust prints with three digits. A case ends before a step in which A3 shows (README.md says where that is): the
Rust has it not.
"""
import argparse
import collections
import os
import re
import sys

from antt_text import file_text
from asking import ERRORS, Differs, compare, show
from reading import BatcherRow, CoupledRow, ProcessorRow, StopwatchRow
from scripts import RUNS, Script, Sizes
from tables import depths

SIZES = Sizes(rows=7, trap_share=0.45, few_share=0.12, few=3, services=200, steps=range(3, 13),
              jobs=[0] + list(range(1, 13)) * 4, names=3, means=False)
KIND_NAMES = {ProcessorRow: 'processor', BatcherRow: 'batcher', StopwatchRow: 'stopwatch',
              CoupledRow: 'Coupled'}


# ---- the cases


def why_left_out(script):
    """Why a script is no case, or None."""
    if script.refusal is not None and script.refusal not in ERRORS:
        return f'refusal {script.refusal}'
    if script.swallowed:
        return f'refusal {script.refusal}, swallowed'
    if script.refusal is None and script.steps < 3 and script.jobs:
        return 'too few steps'
    if script.refusal is not None and not script.steps and script.seed % 3:
        return 'too few steps'
    return None


def make_cases(oracle, seed, wanted):
    """Scripts with the oracle's answers, and how many were left out for what."""
    cases, left_out = [], collections.Counter()
    number = seed * 100000
    while len(cases) < wanted:
        script = Script(number, SIZES)
        number += 1
        why = why_left_out(script)
        if why:
            left_out[why] += 1
            continue
        compare(script, oracle, single=True)
        cases.append((script, compare(script, oracle, single=False)))
    return cases, left_out


def write_files(folder, cases, per_file, looks):
    """Writes the files of cases and Lib.antt, and removes older files of cases."""
    for name in os.listdir(folder):
        if re.fullmatch(r'Oracle\d+\.antt', name):
            os.remove(os.path.join(folder, name))
    modules = ['Common']
    for start in range(0, len(cases), per_file):
        part = [(script, answers, looks) for script, answers in cases[start:start + per_file]]
        modules.append(f'Oracle{len(modules):02}')
        write(folder, modules[-1], file_text(start + 1, part))
    write(folder, 'Lib', ''.join(f'pub mod {module}\n' for module in modules))


def write(folder, module, text):
    """Writes one file."""
    with open(os.path.join(folder, module + '.antt'), 'w', encoding='utf-8') as file:
        file.write(text)


# ---- what the cases are made of


def count_script(total, script):
    """Counts what one script has in it."""
    total['jobs'] += script.jobs
    total['steps'] += script.steps
    total[f'steps in a case: {steps_group(script.steps)}'] += 1
    total[f'deepest row that took a message: {script.simulation.deepest}'] += 1
    count_end(total, script)
    count_tables(total, script)
    count_calls(total, script)
    for what, times in script.simulation.seen.items():
        total[f'cases with {what}'] += times > 0
        total[f'in all: {what}'] += times


def steps_group(steps):
    """The group that a number of steps is counted in."""
    for first, last in ((0, 0), (1, 2), (3, 6), (7, 12)):
        if steps <= last:
            return f'{first} to {last}' if last else '0'
    return '13 or more'


def count_end(total, script):
    """Counts how the script ended."""
    total[f'ends: {script.ends()}'] += 1
    if script.refusal is None:
        return
    total['refused after ' + ('some steps' if script.steps else 'no step')] += 1
    path = script.simulation.path
    total[f'refused in an {path[0][0]} event, at depth {path[-1][1]}'] += 1


def count_tables(total, script):
    """Counts the kinds of models and the depth of the Coupleds."""
    deepest = 0
    kinds = set()
    for table in script.tables:
        depth = depths(table.rows)
        for row in table.rows:
            kinds.add(KIND_NAMES[type(row)])
            if isinstance(row, CoupledRow):
                deepest = max(deepest, depth[row.id])
    for kind in kinds:
        total[f'with a {kind}'] += 1
    total[f'Coupleds to depth {deepest}'] += 1


def count_calls(total, script):
    """Counts the calls."""
    ran_before = False
    injected_later = False
    for call in script.calls:
        ran_before = ran_before or call.name in RUNS
        injected_later = injected_later or (ran_before and call.name == 'inject_input')
        total['answers'] += call.name == 'status' or call.name in RUNS
        if call.name == 'step_until':
            total[f'step_until ends {call.ran.end}'] += 1
    for name in {call.name for call in script.calls}:
        total[f'with {name}'] += 1
    total['with a later injection'] += injected_later


# ---- the command


def arguments():
    """The command's words."""
    parser = argparse.ArgumentParser(description=__doc__,
                                     formatter_class=argparse.RawDescriptionHelpFormatter)
    parser.add_argument('oracle')
    parser.add_argument('--seed', type=int, default=1)
    parser.add_argument('--cases', type=int, default=300)
    parser.add_argument('--per-file', type=int, default=25)
    parser.add_argument('--looks', type=float, default=1.0)
    parser.add_argument('--out')
    parser.add_argument('--show', type=int)
    return parser.parse_args()


def main():
    """Makes the cases, writes them, and prints what they are made of."""
    words = arguments()
    if words.show is not None:
        show(Script(words.show, SIZES), words.oracle)
        return
    try:
        cases, left_out = make_cases(words.oracle, words.seed, words.cases)
    except Differs as difference:
        sys.exit(str(difference))
    if words.out:
        write_files(words.out, cases, words.per_file, words.looks)
    total = collections.Counter()
    for script, _ in cases:
        count_script(total, script)
    for what in sorted(total):
        print(f'{what}: {total[what]}')
    print('left out:', ', '.join(f'{why}: {times}' for why, times in sorted(left_out.items())) or 'none')


if __name__ == '__main__':
    main()
