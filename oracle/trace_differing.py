"""Puts random trace files to the C calls and to the second reading (trace.py), and compares; see trace-differential."""
import collections
import random
import struct
import subprocess
import sys
from typing import NamedTuple

from trace import BAD_BLOCK, FIELDS, MOST_ROWS, SIZE, TEN, Refused, read, trace_bytes, write
from trace_files import FAR, field, made, random_rows

BATCH, PATIENCE, SHOWN = 200, 120, 10
BYTES, WRITE, READ = range(3)
NAMES = 'jt_trace_bytes', 'jt_write_trace', 'jt_read_trace'
# What stands before and behind all that is lent, and in what is lent to be written: no two parts of it are alike.
MARGIN = 64
BEFORE, BEHIND = bytes(range(64, 64 + MARGIN)), bytes(range(160, 160 + MARGIN))
PATTERN = bytes(range(1, 252)) * 64
REPORT = struct.unpack('<3Q', PATTERN[100:124])
# Past the end of every file; times 512, or times 10 and some rows, they are small or 0 in 64 or 32 bits.
WILD = (2 ** 23, 2 ** 23 + 1, 2 ** 31, 2 ** 32 - 1, 2 ** 32, 2 ** 54, 2 ** 55, 2 ** 55 + 1, 2 ** 56, 2 ** 63, 2 ** 63 + 1,
        2 ** 64 - 2 ** 9, 2 ** 64 - 1, 2 ** 64 // 10, 2 ** 64 // 10 + 1, 2 ** 64 // 5 + 1, 2 ** 33 // 5 + 1)


class LeftOut:
    """Data, or rows, of which the first part is zeros and not there."""

    def __init__(self, size, rest=b''):
        self.size, self.rest = size, rest

    def __len__(self):
        return self.size + len(self.rest)

    def __getitem__(self, part):
        if part.stop <= self.size:
            return bytes(part.stop - part.start)
        return self.rest[part.start - self.size:part.stop - self.size]


class Call(NamedTuple):
    """A call and what it is lent: words and bytes as they stand, or the last of them where the lengths are greater."""
    which: int
    start: int = 0
    rows: bytes = b''
    data: bytes = b''
    rows_len: int = 0
    file_len: int = 0
    shift: int = 0
    null: int = 0

    def request(self):
        """As trace_driver.c reads it."""
        lengths = self.rows_len, self.file_len, len(self.rows), len(self.data)
        head = struct.pack('<8Q', self.which, self.start, *lengths, self.shift, self.null)
        body = head + memories(REPORT, self.rows, self.data)
        return struct.pack('<Q', len(body)) + body

    def expected(self):
        """What must come back, and what kind of answer that is."""
        if self.which == BYTES:
            size = trace_bytes(self.rows_len)
            return back(size, REPORT, self.rows, self.data), 'some' if size else 'none'
        try:
            report, rows, data = self.written() if self.which == WRITE else self.read()
            return back(0, report, rows, data), '0'
        except Refused as refused:
            report = REPORT if self.which == WRITE else (0, refused.block if refused.number == BAD_BLOCK else 0, 0)
            return back(refused.number, report, self.rows, self.data), f'{refused.number} {refused.cause}'

    def written(self):
        """Report, words and bytes after jt_write_trace."""
        if len(self.rows) < 8 * self.rows_len:
            rows = LeftOut(self.rows_len // FIELDS)
        else:
            rows = list(struct.iter_unpack('<6Q', self.rows[:len(self.rows) // 48 * 48]))
        blocks = write(rows, self.start, self.file_len)
        return (len(blocks), *REPORT[1:]), self.rows, blocks + self.data[len(blocks):]

    def read(self):
        """Report, words and bytes after jt_read_trace."""
        rows = read(LeftOut(self.file_len - len(self.data), self.data), self.start, self.rows_len // FIELDS)
        words = b''.join(struct.pack('<6Q', *row) for row in rows)
        return (len(rows), 0, 0), words + self.rows[len(words):], self.data

    def told(self):
        """For people."""
        text = f'{NAMES[self.which]}: start {self.start}, rows_len {self.rows_len}, file_len {self.file_len}'
        return text + f', shift {self.shift}, null {self.null}\n  rows {self.rows.hex()}\n  file {self.data.hex()}'


def memories(report, rows, data):
    """What is lent, with the margins."""
    return b''.join(BEFORE + part + BEHIND for part in (struct.pack('<3Q', *report), rows, data))


def back(answer, report, rows, data):
    """As trace_driver.c prints it."""
    return struct.pack('<Q', answer) + memories(report, rows, data)


# ---- the calls that are made of a file


def reading(dice, file, start):
    """A call that reads a file, with room for all rows that are sought, one less, none, some words more than whole rows."""
    length = SIZE * file.first + len(file.data)
    try:
        rows = len(read(LeftOut(SIZE * file.first, file.data), start))
    except Refused as refused:
        rows = TEN * (refused.block - start)
    kind = dice.randrange(8)
    more = (0, 0, -1, -1, 1, dice.randrange(30), -dice.randrange(12), -rows)[kind]
    room = FIELDS * max(0, rows + more) + (dice.randrange(FIELDS) if dice.randrange(2) else 0)
    return Call(READ, start, PATTERN[:8 * room], file.data, room, length, dice.randrange(16), dice.randrange(2))


def readings(dice, file):
    """Reads a file from its start, from blocks in it, from its end, and from past it."""
    blocks = file.first + len(file.data) // SIZE
    starts = [file.first, dice.randrange(file.first, blocks + 1)]
    starts.append(dice.choice((blocks, blocks + 1, blocks + 2, max(0, file.first - 1), dice.choice(WILD), dice.getrandbits(64))))
    if file.bad is not None:
        starts.append(max(file.first, file.bad + dice.choice((-1, 0, 1))))
    # rows are lent for a start in the part left out too, and so not too many
    return [reading(dice, file, start) for start in starts if start >= file.first - 1]


def writing(dice, rows, start, room):
    """A call that writes rows at a start; at times with words behind them that make no row."""
    words = b''.join(struct.pack('<6Q', *row) for row in rows)
    words += b''.join(struct.pack('<Q', field(dice)) for _ in range(dice.randrange(FIELDS) if dice.randrange(2) else 0))
    return Call(WRITE, start, words, PATTERN[:room], len(words) // 8, room, dice.randrange(16), dice.randrange(2))


def writings(dice, rows):
    """Writes rows as a file, as blocks of a file at other starts, and in two parts; into all rooms that there may be."""
    size = trace_bytes(FIELDS * len(rows))
    room = max(0, size + dice.choice((0, 0, -1, 1, -SIZE, dice.randrange(1000), -size, -dice.randrange(1000))))
    yield writing(dice, rows, 0, room)
    start = dice.choice((1, dice.randrange(1000), dice.choice(FAR[:3]), dice.choice(WILD + FAR), dice.getrandbits(64)))
    yield writing(dice, rows, start, size + dice.choice((0, 0, 0, -1, 7)) if size else dice.randrange(2))
    # 2^32 rows are the most, those of the blocks before counted
    yield writing(dice, rows[:dice.choice((5, 6, 7))], 429496729, SIZE)
    cut = dice.randrange(len(rows) // TEN + 1)
    yield writing(dice, rows[:TEN * cut], 0, SIZE * cut)
    yield writing(dice, rows[TEN * cut:], cut, size - SIZE * cut)


def asking(dice, rows):
    """Asks for the bytes of rows, and of lengths at which something ends."""
    yield Call(BYTES, rows_len=FIELDS * len(rows) + dice.randrange(FIELDS))
    edge = dice.choice((6 * 2 ** 32, 2 ** 32, 6 * 429496729, 2 ** 64, 2 ** 63, 60 * dice.getrandbits(20)))
    yield Call(BYTES, rows_len=min(2 ** 64 - 1, max(0, edge + dice.randrange(-12, 13))))
    yield Call(BYTES, rows_len=dice.getrandbits(dice.randrange(65)))


def too_many(dice):
    """More than 2^32 rows, or with those of the blocks before, and room for the blocks: none of it can be written to."""
    start = dice.randrange(3)
    rows = MOST_ROWS - TEN * start + dice.choice((1, 2, 10, 2 ** 20))
    return Call(WRITE, start, b'', b'', FIELDS * rows + dice.randrange(FIELDS), SIZE * (rows // TEN + 2))


def calls_of(dice, file):
    """All calls that are made of a file."""
    calls = list(readings(dice, file))
    if file.kind == 'right':
        calls += [*asking(dice, file.rows), *writings(dice, file.rows)]
    if file.kind == 'far':
        calls.append(too_many(dice))
        calls.append(writing(dice, random_rows(dice), file.first, 7 * SIZE))
    return calls


def unkept(file):
    """What the second reading itself must keep of a file, known from how the file was made, and does not; '' if all is kept."""
    data = LeftOut(SIZE * file.first, file.data)
    try:
        rows = read(data, file.first)
    except Refused as refused:
        kept = file.rows is None and file.bad in (None, refused.block)
        return '' if kept else f'the reading says {refused}, not block {file.bad}'
    if file.bad is not None or file.rows not in (None, rows):
        return 'the reading finds nothing wrong, or other rows'
    if file.first == 0 and write(rows) != file.data:
        return 'writing what was read gives other bytes'
    blocks = len(file.data) // SIZE
    parts = all(read(data, file.first + at) == rows[TEN * at:] for at in range(blocks + 1))
    return '' if parts else 'other rows from a later block on'


# ---- running and comparing


def answers(driver, calls):
    """What the driver prints for calls, one after the other; fewer where it breaks, and then how."""
    requests = b''.join(call.request() for call in calls)
    ended = subprocess.run(driver, input=requests, capture_output=True, timeout=PATIENCE, check=False)
    told, at = [], 0
    while at + 8 <= len(ended.stdout):
        size = struct.unpack_from('<Q', ended.stdout, at)[0]
        if at + 8 + size > len(ended.stdout):
            break
        told.append(ended.stdout[at + 8:at + 8 + size])
        at += 8 + size
    return told, '' if ended.returncode == 0 else f'the driver ends with {ended.returncode}: {ended.stderr.decode()[:500]}'


def difference(call, expected, told):
    """In words, the first place where two answers differ."""
    if expected[:8] != told[:8]:
        return 'answer {}, not {}'.format(*(struct.unpack('<Q', text[:8])[0] for text in (told, expected)))
    at = next((at for at, pair in enumerate(zip(expected, told)) if pair[0] != pair[1]), min(len(expected), len(told)))
    past = at - 8
    for name, size in (('report', 24), ('rows', len(call.rows)), ('file', len(call.data))):
        if past < size + 2 * MARGIN:
            break
        past -= size + 2 * MARGIN
    return f'{name}, byte {past - MARGIN} of {size}: {told[at:at + 8].hex()}, not {expected[at:at + 8].hex()}'


class Tally:
    """What was asked, told and found to differ."""

    def __init__(self, seed):
        self.seed = seed
        self.files, self.told = collections.Counter(), collections.Counter()
        self.differ = 0

    def differs(self, number, text):
        """One more that differs."""
        self.differ += 1
        if self.differ <= SHOWN:
            print(f'differs: seed {self.seed}, file {number}: {text}')

    def ask(self, driver, asked):
        """Puts calls, each with the number and kind of its file, to the driver. Gives whether it could answer them all."""
        told, broken = answers(driver, [call for _, _, call in asked])
        for (number, kind, call), text in zip(asked, told):
            expected, answer = call.expected()
            self.told[f'{NAMES[call.which]} {answer}'] += 1
            if text != expected:
                self.differs(number, f'{kind}, {NAMES[call.which]} from {call.start}: {difference(call, expected, text)}')
        if broken:
            number, kind, call = asked[min(len(told), len(asked) - 1)]
            self.differs(number, f'{kind}, {NAMES[call.which]} from {call.start}: {broken}')
        return not broken

    def tell(self):
        """The counts; in the last line those of the answers by their numbers."""
        print('files: ' + ', '.join(f'{kind} {count}' for kind, count in sorted(self.files.items())))
        print('answers: ' + ', '.join(f'{kind} {count}' for kind, count in sorted(self.told.items())))
        short = collections.Counter()
        for kind, count in self.told.items():
            short[' '.join(kind.split()[:2])] += count
        counts = f'{sum(self.files.values())} files ({self.files["right"]} right), {sum(short.values())} calls'
        kinds = ', '.join(f'{kind}: {short[kind]}' for kind in sorted(short))
        print(f'trace-differential: seed {self.seed}, {counts}: {kinds}; {self.differ} differ')


def file_of(seed, number):
    """The file of this number, and what is thrown for its calls."""
    dice = random.Random(f'{seed}:{number}')
    return made(dice), dice


def run(driver, seed, count):
    """Compares on so many files. Gives whether none differs."""
    tally = Tally(seed)
    for batch in range(0, count, BATCH):
        asked = []
        for number in range(batch, min(count, batch + BATCH)):
            file, dice = file_of(seed, number)
            tally.files[file.kind] += 1
            if unkept(file):
                tally.differs(number, f'{file.kind}: {unkept(file)}')
            asked += [(number, file.kind, call) for call in calls_of(dice, file)]
        if not tally.ask(driver, asked):
            break
    tally.tell()
    return tally.differ == 0


def show(seed, number):
    """Prints a file and its calls."""
    file, dice = file_of(seed, number)
    print(f'{file.kind}: blocks before {file.first}, bad block {file.bad}')
    for call in calls_of(dice, file):
        print(call.told())
        print(f'  expected: {call.expected()[1]}')


def main(words):
    """DRIVER SEED FILES, or --show SEED NUMBER."""
    if words[0] == '--show':
        show(int(words[1]), int(words[2]))
        return 0
    return 0 if run(words[0].split(), int(words[1]), int(words[2])) else 1


if __name__ == '__main__':
    sys.exit(main(sys.argv[1:]))
