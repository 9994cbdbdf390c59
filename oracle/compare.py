#!/usr/bin/env python3
"""Runs random scripts on the oracle and compares it, after every call, with a second reading of 01.

    compare.py ORACLE [FIRST] [COUNT]      the scripts FIRST and on, COUNT of them (0 and 300 if left out)

Compared, bit for bit: what a call returned, clock, place, active messages and every model. Each script runs
twice, with every run as single steps and then call by call, up to its first refusal, with the refusal's error
for 5, 6 and 9; or up to the step in which A3 shows, which the Rust does not have (README.md says where that is).
With COUNT 1 the script and the oracle's answers are printed too. Ends with 1 if any differs.
"""
import collections
import sys

from asking import Differs, compare, show
from scripts import Script, Sizes

SIZES = Sizes(rows=9, trap_share=0.2, few_share=0.25, few=60, services=300, steps=range(10, 140),
              jobs=range(5, 150), names=9, means=True)


def count_script(count, script):
    """Counts what a script has in it, and how it ends."""
    count['scripts'] += 1
    count['calls'] += len(script.calls)
    count['calls that end before an idle step'] += script.idle_ends
    count['scripts with a Coupled'] += script.simulation.has_coupled
    count['steps'] += script.steps
    count[f'deepest row that took a message: {script.simulation.deepest}'] += 1
    count[f'ends: {script.ends()}'] += 1
    for what, times in script.simulation.seen.items():
        count[f'in all: {what}'] += times


def compare_script(script, oracle, count):
    """Compares one script. True if the oracle swallows the error with which the reading ends."""
    compare(script, oracle, single=True)
    asked, answer = compare(script, oracle, single=False)[-1]
    if not asked.refused:
        return False
    if asked.expected is not None:
        gives = 'the same error'
    elif answer[0].startswith('returned error '):
        gives = 'an error of another model'
    else:
        gives = 'no error'
    count[f'refusal {script.refusal}, and the oracle gives {gives}'] += 1
    return gives == 'no error'


def main():
    """Compares the scripts and prints the counts."""
    if not 2 <= len(sys.argv) <= 4:
        sys.exit(__doc__)
    oracle = sys.argv[1]
    first = int(sys.argv[2]) if len(sys.argv) > 2 else 0
    total = int(sys.argv[3]) if len(sys.argv) > 3 else 300
    count = collections.Counter({'scripts that differ': 0})
    swallowed = []
    for seed in range(first, first + total):
        script = Script(seed, SIZES)
        count_script(count, script)
        if total == 1:
            show(script, oracle)
        try:
            if compare_script(script, oracle, count):
                swallowed.append((seed, script.refusal))
        except Differs as difference:
            count['scripts that differ'] += 1
            print(difference)
    for what in sorted(count):
        print(f'{what}: {count[what]}')
    print('swallowed (docs/DIFFERENCES.md, item 20; script and refusal):', swallowed)
    sys.exit(1 if count['scripts that differ'] else 0)


if __name__ == '__main__':
    main()
