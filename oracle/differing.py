"""Runs the cases of the differential runs on the C calls and on the oracle, in batches, and compares; see differential."""
import collections
import re
import resource
import subprocess
import sys

from calling import text_of
from listed import listed
from trials import Trial
from watching import DROPPED_BY_A7

# The size of a batch: so many cases or lines of them.
BATCH, BATCH_LINES = 250, 40000
# Seconds for a batch, and for one case; bytes. Where it differs, a step_until of the Rust may never end, and collect for ever.
PATIENCE, PATIENCE_FOR_ONE = 120, 10
MOST_MEMORY = 2 ** 30
GROUPS = {'steps': (0, 1, 3, 10, 30, 100, 1000), 'longest run': (0, 1, 10, 100, 1000, 3000),
          'fullest queue': (0, 1, 8, 32, 33, 63, 64), 'most messages': (0, 1, 16, 64, 255, 256), 'most parked': (0, 1, 8, 63, 64),
          'most rows that omit a capacity': (0, 1, 2, 8, 63, 64)}


class Differs(Exception):
    """A case in which two answers differ, and the lines up to there."""

    def __init__(self, text, lines):
        super().__init__(text)
        self.lines = lines


class Broken(Exception):
    """A command does not end, or not as it should."""


def limit_memory():
    """For a command that may never end. (Not for the C calls: a sanitizer sets more aside.)"""
    resource.setrlimit(resource.RLIMIT_DATA, (MOST_MEMORY, MOST_MEMORY))


def run(command, lines, limit=None):
    """What a command prints for lines."""
    patience = PATIENCE if len(lines) > 2000 else PATIENCE_FOR_ONE
    try:
        ended = subprocess.run(command, input=text_of(lines), capture_output=True, text=True, timeout=patience, check=False,
                               preexec_fn=limit)
    except subprocess.TimeoutExpired:
        raise Broken('does not end') from None
    # 1: a check of the driver's own failed, which its lines tell.
    if ended.returncode not in (0, 1) or ended.stderr:
        raise Broken(f'ends with {ended.returncode}: {ended.stderr}')
    return ended.stdout


def parts_of(text, mark):
    """The text cut before each line that begins with the mark, by the name that follows it."""
    parts = re.split(rf'^(?={re.escape(mark)})', text, flags=re.MULTILINE)[1:]
    return {part[len(mark):part.index('\n')]: part for part in parts}


def first_wrong(told, pieces):
    """The first of the pieces that a text does not go on with, and where it would be; None where all do and no more is there."""
    at = 0
    for place, piece in enumerate(pieces):
        if not told.startswith(piece, at):
            return place, at
        at += len(piece)
    return None if at == len(told) else (len(pieces), at)


def differing_lines(told, piece):
    """The first line in which a text is not as the piece, of both."""
    pairs = zip(told.split('\n') + [''], piece.split('\n') + [''])
    return next(pair for pair in pairs if pair[0] != pair[1])


# ---- the two that are asked


class Callee:
    """The C calls."""
    name = 'C calls'
    mark = 'case '

    def __init__(self, command):
        self.command = command

    def lines(self, case):
        """What is asked."""
        return case.lines

    def pieces(self, case):
        """What must be answered, piece after piece."""
        return case.told

    def lines_to(self, case, place):
        """The lines up to the one that has this piece for its answer."""
        return case.lines[:case.ends[min(place, len(case.ends) - 1)]]

    def answer(self, lines):
        """What is answered, by the case's name."""
        text = run(self.command, lines)
        return parts_of(re.sub(r'^calls: \d+ checks, \d+ failed\n', '', text, flags=re.MULTILINE), self.mark)

    def judge(self, case, told, count):
        """Differs where the answer is not what it must be."""
        pieces = self.pieces(case)
        wrong = first_wrong(told, pieces)
        if wrong:
            place, at = wrong
            one, other = differing_lines(told[at:], pieces[place] if place < len(pieces) else '')
            lines = self.lines_to(case, place)
            raise Differs(f'case {case.name} differs at its line {len(lines)}, {lines[-1][:60]}:\n'
                          f'  {self.name}: {one}\n  reading: {other}', lines)
        count[f'cases on the {self.name}'] += 1


class Oracle(Callee):
    """The published Rust."""
    name = 'oracle'
    mark = '> # case '

    def lines(self, case):
        """What is asked."""
        return case.asked

    def pieces(self, case):
        """What must be answered, piece after piece."""
        return case.answers

    def lines_to(self, case, place):
        """Each line has its answer."""
        return case.asked[:place + 1]

    def answer(self, lines):
        """What is answered, by the case's name; of an f64 only the bits."""
        return parts_of(re.sub(r'([0-9a-f]{16}) \([^)]*\)', r'\1', run(self.command, lines, limit_memory)), self.mark)

    def judge(self, case, told, count):
        """As above; after a refused step nothing more is compared."""
        if case.refused_step:
            expected = ''.join(case.answers)
            if told.startswith(expected):
                gives = self.swallowed(told[len(expected):]) if case.swallowed else 'the same error'
                count[f'refused steps asked of the oracle, {gives} for {case.refused_step}'] += 1
            told = told[:len(expected)]
        super().judge(case, told, count)

    @staticmethod
    def swallowed(told):
        """What the Rust answers where it swallows the refusal."""
        return 'inside a Coupled: ' + ('an error of another model' if told.startswith('error ') else 'no error')


def compare(cases, callee, count):
    """Compares a batch. The differences, as texts."""
    lines = [line for case in cases for line in callee.lines(case)]
    try:
        answers = callee.answer(lines)
    except Broken as broken:
        if len(cases) == 1:
            return [f'case {cases[0].name}: the {callee.name} {broken}']
        return [text for case in cases for text in compare([case], callee, count)]
    found = []
    for case in cases:
        try:
            callee.judge(case, answers.get(str(case.name), ''), count)
        except Differs as difference:
            found.append(str(difference))
    return found


# ---- what the cases were


def group(value, bounds):
    """The group that a number is counted in."""
    for bound, following in zip(bounds, bounds[1:]):
        if value < following:
            return f'{bound}' if following == bound + 1 else f'{bound} to {following - 1}'
    return f'{bounds[-1]} or more'


class Counts:
    """What the cases were and how they ended."""

    def __init__(self):
        self.by = collections.defaultdict(collections.Counter)
        self.total = collections.Counter()

    def add(self, kind, case):
        """Counts one case."""
        self.by['kind'][kind] += 1
        self.by['calls'].update(case.calls)
        self.by['refusals'].update(case.refusals)
        self.by['cases with refusal'].update(set(case.refusals) or ['none'])
        self.by['last refusal'][case.refusals[-1] if case.refusals else 'none'] += 1
        self.by['deepest level that took a message'][case.simulation.deepest] += 1
        self.add_parting(case)
        self.add_omitted(case)
        numbers = (case.steps, case.longest, case.fullest, case.most_active, case.most_parked, case.most_omitted)
        for (name, bounds), value in zip(GROUPS.items(), numbers):
            self.by[name][bounds[-1] if value >= bounds[-1] else max(bound for bound in bounds if bound <= value)] += 1
        self.total['cases'] += 1
        self.total['calls'] += sum(case.calls.values())
        self.total['steps'] += case.steps
        self.total['longest run'] = max(self.total['longest run'], case.longest)
        self.total['steps asked of the oracle'] += case.steps_asked
        self.total['answers of the oracle'] += case.answers_asked

    def add_omitted(self, case):
        """Counts what A7 has brought: what intake answered, rows written out, jobs that are dropped at 32."""
        self.by['intake answers'].update(case.intakes)
        self.total['rows written out'] += case.rows_written
        self.total[f'cases with {DROPPED_BY_A7}'] += case.simulation.seen[DROPPED_BY_A7] > 0
        self.total[DROPPED_BY_A7] += case.simulation.seen[DROPPED_BY_A7]

    def add_parting(self, case):
        """Counts whether the case leaves the Rust where A3 shows, and what was parked there."""
        if case.cut:
            where = 'cut where A3 shows'
            self.total['steps asked of the oracle in cases that are cut'] += case.steps_asked
            self.total['answers of the oracle in cases that are cut'] += case.answers_asked
        elif case.simulation.parted:
            where = 'A3 shows after the oracle\'s part'
        else:
            where = 'A3 does not show'
        if case.simulation.has_coupled:
            self.by['cases with a Coupled'][where] += 1
        self.by['cases with messages parked that A3 alone hands on'].update(case.simulation.freed.keys())

    def tell(self):
        """Prints all."""
        for name, counter in self.by.items():
            if name in GROUPS:
                texts = [f'{group(bound, GROUPS[name])}: {counter[bound]}' for bound in sorted(counter)]
            else:
                texts = [f'{what}: {counter[what]}' for what in sorted(counter, key=lambda what: (isinstance(what, str), what))]
            print(f'{name}: ' + ', '.join(texts))
        for what, number in self.total.items():
            print(f'{what}: {number}')


# ---- the command


def trials(seed, count):
    """The random cases, with their kinds."""
    for number in range(seed, seed + count):
        trial = Trial(number)
        yield trial.kind, trial.case


def batches(cases):
    """The cases in batches."""
    batch, lines = [], 0
    for kind, case in cases:
        batch.append((kind, case))
        lines += len(case.lines)
        if len(batch) == BATCH or lines > BATCH_LINES:
            yield batch
            batch, lines = [], 0
    if batch:
        yield batch


def named(name):
    """The case of this name, with its kind."""
    if name.isdigit():
        return next(trials(int(name), 1))
    return next(((kind, case) for kind, case in listed() if case.name == name), None)


def show(name, callees):
    """Prints one case with all answers. Whether some differ."""
    found = named(name)
    if found is None:
        print(f'no case {name}', file=sys.stderr)
        sys.exit(2)
    kind, case = found
    print(f'# {kind}')
    return any([show_callee(case, callee) for callee in callees])


def show_callee(case, callee):
    """Prints a case as one callee is asked, with its answers; up to where it differs. Whether it does."""
    lines, why = callee.lines(case), None
    try:
        answers = callee.answer(lines)
        callee.judge(case, answers.get(str(case.name), ''), collections.Counter())
    except Broken as broken:
        answers, why = {}, f'the {callee.name} {broken}'
    except Differs as difference:
        lines, why = difference.lines, str(difference)
        answers = callee.answer(lines)
    print(f'# ---- for the {callee.name}')
    print(text_of(lines), end='')
    print(f'# ---- the {callee.name} answers')
    print(''.join(answers.values()), end='')
    print(why or f'# ---- the {callee.name} does not differ')
    return why is not None


def compare_all(title, cases, callees):
    """Runs the cases in batches and prints what they were. Whether some differ."""
    counts = Counts()
    differing = []
    for number, batch in enumerate(batches(cases), 1):
        for kind, case in batch:
            counts.add(kind, case)
        for callee in callees:
            for difference in compare([case for _, case in batch], callee, counts.total):
                differing.append(difference.split()[1].rstrip(':'))
                print(difference, flush=True)
        if number % 40 == 0:
            print(f'{counts.total["cases"]} {title}, {len(set(differing))} differ', file=sys.stderr, flush=True)
    counts.tell()
    for name in list(dict.fromkeys(differing))[:10]:
        print(f'to see it: oracle/differential --show {name}')
    print(f'{counts.total["cases"]} {title}, {len(set(differing))} differ', flush=True)
    return bool(differing)


def main():
    """The command's words are checked by `differential`."""
    driver, oracle, *words = sys.argv[1:]
    callees = [Callee(driver.split()), Oracle([oracle])]
    if words[:1] == ['--show']:
        sys.exit(show(words[1], callees))
    differ = False
    if not words or words[0] == '--listed':
        differ = compare_all('listed cases', listed(), callees)
    if words[:1] != ['--listed']:
        seed = int(words[0]) if words else 0
        count = int(words[1]) if len(words) > 1 else 1000
        differ = compare_all('cases', trials(seed, count), callees) or differ
    sys.exit(differ)


if __name__ == '__main__':
    main()
