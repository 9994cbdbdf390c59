#!/usr/bin/env python3
"""A second reading of request A1 of 02, the trace on disk: written from its words, the readings of them that were decided on,
and the header, and from no Rattle code.

A row is six numbers below 2^64. Run by itself, it tries cases that were computed by hand."""
import struct

NO_OUT_ROOM, BAD_BLOCK = 13, 14
FIELDS, TEN = 6, 10
BLOCK = struct.Struct('<128I')              # "blocks of 512 bytes, 128 little-endian words of 32 bits"
SIZE = BLOCK.size
WORD = 2 ** 32
MOST_ROWS = 2 ** 32
CHECK = 127


class Refused(Exception):
    """A refusal's number; with 14 the bad block's, and what is wrong with it."""

    def __init__(self, number, block=0, cause=''):
        super().__init__(number, block, cause)
        self.number, self.block, self.cause = number, block, cause


def mended(words):
    """The words of a block with the check word that belongs to the others."""
    # "127 makes the sum of all 128 words, modulo 2^32, equal to 2^32 - 1"
    return [*words[:CHECK], (-1 - sum(words[:CHECK])) % WORD]


def block_of(number, rows):
    """The bytes of one block."""
    words = [0] * 128                       # "unused ones zero; 122 to 126 are zero"
    words[0:2] = number, len(rows)          # "Word 0 is the block number from 0, word 1 the rows (1 to 10)"
    halves = [half for row in rows for field in row for half in (field % WORD, field // WORD)]
    words[2:2 + len(halves)] = halves       # "words 2 to 121 ten rows of twelve words, low word first"
    return BLOCK.pack(*mended(words))


def write(rows, start=0, room=None):
    """The blocks of these rows, numbered from start on. Refused: 13."""
    if TEN * start + len(rows) > MOST_ROWS:
        raise Refused(NO_OUT_ROOM, cause='rows')            # "or there are more than 2^32 rows", those of the blocks before counted
    tens = [rows[at:at + TEN] for at in range(0, len(rows), TEN)]   # "All blocks but the last are full"
    if room is not None and SIZE * len(tens) > room:
        raise Refused(NO_OUT_ROOM, cause='room')            # "where the blocks don't fit"
    return b''.join(block_of(start + at, ten) for at, ten in enumerate(tens))   # "no rows make a file of no bytes"


def trace_bytes(rows_len):
    """The bytes of the blocks for so many words of rows: 0 for no whole row, and for more than 2^32."""
    rows = rows_len // FIELDS
    return SIZE * -(-rows // TEN) if rows <= MOST_ROWS else 0


def wrong_in(words, place, is_last):
    """What is wrong with the block that stands at a place: "number, count, zero word or check"; nothing: ''."""
    number, count = words[:2]
    if number != place:
        return 'number'
    if not 1 <= count <= TEN or not (is_last or count == TEN):
        return 'count'
    if any(words[2 + 2 * FIELDS * count:CHECK]):
        return 'zero word'
    if sum(words) % WORD != WORD - 1:
        return 'check'
    return ''


def rows_in(words):
    """The rows of a block in which nothing is wrong."""
    used = iter(words[2:2 + 2 * FIELDS * words[1]])
    fields = [low + high * WORD for low, high in zip(used, used)]
    return [tuple(fields[at:at + FIELDS]) for at in range(0, len(fields), FIELDS)]


def read(data, start=0, room=None):
    """The rows of the blocks from number start on. Refused: 14 with the first bad block's number, or 13 where room, so many
    rows, is too little. Of the data its length is asked for, and the parts from the start on."""
    if start * SIZE > len(data):
        raise Refused(BAD_BLOCK, start, 'start')            # "a start past the end"
    rows = []                                               # "a reader may start at any block"
    for place in range(start, -(-len(data) // SIZE)):
        end = (place + 1) * SIZE
        if end > len(data):
            raise Refused(BAD_BLOCK, place, 'length')       # "a wrong length"
        words = BLOCK.unpack(data[place * SIZE:end])
        cause = wrong_in(words, place, end == len(data))
        if cause:
            raise Refused(BAD_BLOCK, place, cause)          # "at each block before 13"
        rows += rows_in(words)
        if room is not None and len(rows) > room:
            raise Refused(NO_OUT_ROOM, cause='room')        # "given where the rows read don't fit"
    return rows


# ---- cases computed by hand


def hexed(text, zero_words, check):
    """A block: its first words in hex as they stand in the file, so many words of 0, the check word."""
    return bytes.fromhex(text) + bytes(4 * zero_words) + bytes.fromhex(check)


def refusal(call, *given):
    """The number and the block that a call is refused with; None where it is not."""
    try:
        call(*given)
    except Refused as refused:
        return refused.number, refused.block
    return None


def written():
    """What was expected, and what is written."""
    one = [(1, 2, 3, 4, 5, 6)]
    halves = ' '.join(f'{k:02x}000000 00000000' for k in range(1, 7))
    # 0 + 1 + 21 = 22, and 0xffffffff - 22 = 0xffffffe9
    yield hexed('00000000 01000000 ' + halves, 113, 'e9ffffff'), write(one)
    # block 0x102; 7:1 -> 3:2 at 1.5, job 0x12345678; 0x102 + 1 + 7 + 1 + 3 + 2 + 0x3ff80000 + 0x12345678 = 0x522c5788
    yield hexed('02010000 01000000 0700000000000000 0100000000000000 0300000000000000 0200000000000000 000000000000f83f '
                '7856341200000000', 113, '77a8d3ad'), write([(7, 1, 3, 2, 0x3ff8000000000000, 0x12345678)], 0x102)
    # contents 1 to 10: 0 + 10 + 55 = 65; the eleventh: 1 + 1 + 11 = 13
    rows = [(0, 0, 0, 0, 0, k) for k in range(1, 12)]
    ten = '00000000 0a000000' + ''.join(f'{0:080x}{k:02x}00000000000000' for k in range(1, 11))
    full = hexed(ten, 5, 'beffffff')
    yield full, write(rows[:10])
    yield full + hexed('01000000 01000000' + f'{0:080x}' + '0b000000 00000000', 113, 'f2ffffff'), write(rows)
    yield b'', write([])
    # twelve words of 0xffffffff: 1 - 12 modulo 2^32, so 10; 120 of them: 10 - 120, so 109
    yield hexed('00000000 01000000' + 'ff' * 48, 113, '0a000000'), write([(2 ** 64 - 1,) * 6])
    yield hexed('00000000 0a000000' + 'ff' * 480, 5, '6d000000'), write([(2 ** 64 - 1,) * 6] * 10)
    # 1 + 0xfffffffe is 2^32 - 1: the check word is 0; 1 + 0xffffffff is 2^32: it is 2^32 - 1
    yield hexed('00000000 01000000 feffffff', 124, '00000000'), write([(2 ** 32 - 2, 0, 0, 0, 0, 0)])
    yield hexed('00000000 01000000 ffffffff', 124, 'ffffffff'), write([(2 ** 32 - 1, 0, 0, 0, 0, 0)])
    # high words: 1 + 0x80000000 + 0x80000000 is 2^32 + 1
    yield hexed('00000000 01000000' + '00000000 00000080' * 2, 121, 'feffffff'), write([(2 ** 63, 2 ** 63, 0, 0, 0, 0)])


def refused():
    """Refusals, and what was expected of them."""
    rows = [(k,) * 6 for k in range(25)]
    data = write(rows)
    yield (13, 0), refusal(write, rows, 0, 3 * SIZE - 1)
    yield None, refusal(write, rows, 0, 3 * SIZE)
    yield None, refusal(write, rows[:6], 429496729)
    yield (13, 0), refusal(write, rows[:7], 429496729)
    yield (13, 0), refusal(write, [], 429496730)
    yield (13, 0), refusal(write, range(2 ** 32 + 1))
    yield (14, 4), refusal(read, data, 4)
    yield None, refusal(read, data, 3)
    yield (14, 2), refusal(read, data[:-1], 2)
    yield (14, 3), refusal(read, data[:-1], 3)
    yield (14, 2), refusal(read, data + b'\0')              # 5 rows, and it does not end the file
    yield (14, 2), refusal(read, write(rows[:20]) + b'\0')
    yield (14, 1), refusal(read, data[:SIZE] + data[2 * SIZE:])
    yield (14, 0), refusal(read, data[SIZE:])
    yield (14, 1), refusal(read, data[:SIZE] + block_of(1, rows[:9]) + data[2 * SIZE:])
    yield (13, 0), refusal(read, data, 0, 24)
    yield (13, 0), refusal(read, data[:-1], 0, 19)          # the bad block is behind the one that does not fit
    yield (14, 2), refusal(read, data[:-1], 0, 20)
    yield (14, 0), refusal(read, bytes(SIZE))
    yield (14, 0), refusal(read, block_of(0, []))
    yield (14, 1), refusal(read, data[:600] + b'\xff' + data[601:])
    yield (14, 0), refusal(read, b'\0')
    yield None, refusal(read, b'', 0, 0)
    for place, word in ((1, 0), (1, 11), (1, 2 ** 32 - 1), (62, 1), (121, 1), (122, 1), (126, 1), (0, 3), (0, 2 ** 31)):
        words = list(BLOCK.unpack(data[2 * SIZE:]))
        words[place] = word
        yield (14, 2), refusal(read, data[:2 * SIZE] + BLOCK.pack(*mended(words)))


def reread():
    """Rows, and what is read of what was written, from every block on; and lengths."""
    for count in (0, 1, 9, 10, 11, 20, 25):
        rows = [(k, 2 ** 64 - 1 - k, k << 32, 0, 2 ** 32 - 1, 2 ** 63 + k) for k in range(count)]
        for start in range((count + 9) // 10 + 1):
            yield rows[10 * start:], read(write(rows), start, count - min(count, 10 * start))
        yield len(write(rows)), trace_bytes(6 * count)
    for words, size in ((0, 0), (5, 0), (6, 512), (65, 512), (66, 1024), (6 * 2 ** 32 + 5, 512 * 429496730),
                        (6 * 2 ** 32 + 6, 0), (2 ** 64 - 1, 0)):
        yield size, trace_bytes(words)


def main():
    """Tries the cases."""
    cases = [*written(), *refused(), *reread()]
    bad = [at for at, (expected, told) in enumerate(cases) if expected != told]
    for at in bad:
        print(f'case {at}: expected {cases[at][0]!r}, told {cases[at][1]!r}')
    print(f'trace.py: {len(cases)} cases, {len(bad)} wrong')
    return 1 if bad else 0


if __name__ == '__main__':
    raise SystemExit(main())
