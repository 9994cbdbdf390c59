"""Random trace files for trace-differential: right ones, and damaged ones in many kinds."""
from typing import NamedTuple, Optional

from trace import BLOCK, CHECK, FIELDS, SIZE, TEN, WORD, block_of, mended, write

FIELD_EDGES = (0, 0, 1, 2 ** 32 - 2, 2 ** 32 - 1, 2 ** 32, 2 ** 32 + 1, 2 ** 63, 2 ** 64 - 2 ** 32, 2 ** 64 - 1, 2 ** 64 - 1)
WORD_EDGES = (0, 1, 2, 10, 2 ** 16, 2 ** 31, 2 ** 32 - 2, 2 ** 32 - 1)
PLACES = (0, 1, 2, 13, 14, 61, 62, 121, 122, 125, 126, 127)
# Numbers of blocks about which something ends: 2^32 rows, 2^31 and 2^32 bytes, 2^31 and 2^32 blocks.
FAR = (429496728, 429496729, 429496730, 2 ** 22, 2 ** 23, 2 ** 31, 2 ** 32 - 2, 2 ** 32 - 1, 2 ** 32, 2 ** 32 + 1)


class Made(NamedTuple):
    """A file. `bad` is the block that must be told where reading begins at the first one, if that is known from how it was made;
    before the data `first` blocks of zeros are left out."""
    kind: str
    data: bytes
    rows: Optional[list]
    bad: Optional[int]
    first: int = 0


# ---- rows


def field(dice):
    """Any number below 2^64."""
    kind = dice.randrange(4)
    if kind == 0:
        return dice.choice(FIELD_EDGES)
    if kind == 1:
        return dice.randrange(1000)
    return dice.getrandbits(64) if kind == 2 else word(dice) * WORD + word(dice)


def word(dice):
    """Any number below 2^32."""
    return dice.choice(WORD_EDGES) if dice.randrange(2) else dice.getrandbits(32)


def steer(dice, rows):
    """Changes a field of the file's rows so that the check word of its block is one of the edges."""
    at, place = dice.randrange(len(rows)), dice.randrange(FIELDS)
    block = at // TEN
    row = list(rows[at])
    row[place] -= row[place] % WORD
    rows[at] = tuple(row)
    check = BLOCK.unpack(block_of(block, rows[TEN * block:TEN * (block + 1)]))[CHECK]
    row[place] += (check - dice.choice(WORD_EDGES)) % WORD
    rows[at] = tuple(row)


def random_rows(dice, least=0):
    """Rows, at least so many."""
    count = max(least, dice.choice((0, 1, 2, 9, 10, 11, 19, 20, 21, 30, 40, dice.randrange(61), dice.randrange(61))))
    if dice.randrange(8) == 0:
        return [(dice.choice((0, 2 ** 64 - 1)),) * FIELDS] * count
    rows = [tuple(field(dice) for _ in range(FIELDS)) for _ in range(count)]
    if rows and dice.randrange(3) == 0:
        steer(dice, rows)
    return rows


# ---- damage: each is handed the words of the blocks of a right file, and gives the bytes and the block that is bad by it, if known


def joined(blocks):
    """The bytes of blocks."""
    return b''.join(BLOCK.pack(*words) for words in blocks)


def some_place(dice):
    """The place of a word in a block."""
    return dice.choice(PLACES) if dice.randrange(2) else dice.randrange(128)


def put(blocks, at, place, value, mend=True):
    """The bytes of the blocks with another word in one, its check word mended; and that block."""
    blocks[at][place] = value
    if mend:
        blocks[at] = mended(blocks[at])
    return joined(blocks), at


def bit(dice, blocks):
    """One bit is another."""
    at, place = dice.randrange(len(blocks)), some_place(dice)
    return put(blocks, at, place, blocks[at][place] ^ 1 << dice.randrange(32), False)


def byte(dice, blocks):
    """One byte is another."""
    at, place = dice.randrange(len(blocks)), some_place(dice)
    return put(blocks, at, place, blocks[at][place] ^ dice.randrange(1, 256) << 8 * dice.randrange(4), False)


def one_word(dice, blocks):
    """One word is another."""
    at, place = dice.randrange(len(blocks)), some_place(dice)
    return put(blocks, at, place, (blocks[at][place] + (word(dice) or 1)) % WORD, False)


def number(dice, blocks):
    """A wrong number."""
    at = dice.randrange(len(blocks))
    others = (at + 1, at - 1, at + 256, at + 2 ** 16, at + 2 ** 31, at << 24, len(blocks), 0, dice.getrandbits(32))
    return put(blocks, at, 0, dice.choice([other % WORD for other in others if other % WORD != at]))


def count(dice, blocks):
    """A count that no block has."""
    at = dice.randrange(len(blocks))
    # some are right in their low byte or half
    told = dice.choice((0, 11, WORD - 1, 12, 256, 266, 2 ** 16 + 10, 2 ** 31 + 10, 2 ** 24, dice.randrange(11, WORD)))
    return put(blocks, at, 1, told)


def another_count(dice, blocks):
    """A count that a block may have. With fewer the words behind may not be 0; with more in the last, there are rows of zeros."""
    at = dice.randrange(len(blocks))
    told = blocks[at][1]
    data, _ = put(blocks, at, 1, dice.choice([other for other in range(1, 11) if other != told]))
    return data, at if at < len(blocks) - 1 else None


def zero_word(dice, blocks):
    """A word that is to be 0 is not."""
    at = dice.randrange(len(blocks))
    unused = range(2 + 2 * FIELDS * blocks[at][1], CHECK)
    place = dice.choice((unused[0], unused[-1], 122, 126, dice.choice(unused)))
    return put(blocks, at, place, word(dice) or 1)


def mark(dice, blocks):
    """A block of a kind that is not there yet."""
    return put(blocks, dice.randrange(len(blocks)), 126, 1)


def not_full(dice, blocks):
    """A block that is not the last has fewer rows, and zeros in their place."""
    at, told = dice.randrange(len(blocks) - 1), dice.randrange(1, TEN)
    used = 2 + 2 * FIELDS * told
    blocks[at][used:CHECK] = [0] * (CHECK - used)
    return put(blocks, at, 1, told)


def no_rows(dice, blocks):
    """A block of no rows and a right sum, in the place of another or behind the last."""
    at = dice.randrange(len(blocks) + 1)
    last_is_full = blocks[-1][1] == TEN
    bad = at if at < len(blocks) or last_is_full else at - 1
    blocks[at:at + 1] = [list(BLOCK.unpack(block_of(at, [])))]
    return joined(blocks), bad


def same_sum(dice, blocks):
    """Two words of the rows are others, and the sum is what it was: a right file of other rows."""
    at = dice.randrange(len(blocks))
    first, second = dice.sample(range(2, 2 + 2 * FIELDS * blocks[at][1]), 2)
    more = word(dice)
    blocks[at][first] = (blocks[at][first] + more) % WORD
    return put(blocks, at, second, (blocks[at][second] - more) % WORD, False)[0], None


def exchanged(dice, blocks):
    """Two words of a block have changed places, which the sum does not see."""
    at = dice.randrange(len(blocks))
    first, second = some_place(dice), some_place(dice)
    blocks[at][first], blocks[at][second] = blocks[at][second], blocks[at][first]
    return joined(blocks), None


def big_endian(_, blocks):
    """All words the other way round."""
    data = joined(blocks)
    return b''.join(data[at:at + 4][::-1] for at in range(0, len(data), 4)), None


def left_out(dice, blocks):
    """A block is left out. Where that is the last, it is a right file of fewer rows."""
    at = dice.randrange(len(blocks))
    del blocks[at]
    return joined(blocks), at if at < len(blocks) else None


def doubled(dice, blocks):
    """A block stands twice: straight after itself, or anywhere."""
    which = dice.randrange(len(blocks))
    at = which + 1 if dice.randrange(2) else dice.randrange(len(blocks) + 1)
    last_is_full = blocks[-1][1] == TEN
    blocks.insert(at, list(blocks[which]))
    if at == which:
        at += 1
    # a block with fewer rows that was the last is bad itself where it no longer is
    return joined(blocks), at - 1 if at == len(blocks) - 1 and not last_is_full else at


def swapped(dice, blocks):
    """Two blocks have changed places."""
    first, second = sorted(dice.sample(range(len(blocks)), 2))
    blocks[first], blocks[second] = blocks[second], blocks[first]
    return joined(blocks), first


def cut(dice, blocks):
    """The file ends early, at any byte or beside a block's end. Between two blocks, it is a right file of fewer rows."""
    size = SIZE * len(blocks)
    near = SIZE * dice.randrange(len(blocks)) + dice.choice((-1, 0, 1, 4, 508))
    end = dice.randrange(size) if dice.randrange(2) else max(0, near)
    return joined(blocks)[:end], end // SIZE if end % SIZE else None


def appended(dice, blocks):
    """Something stands behind the file that is no block."""
    more = dice.choice((1, 4, 511, SIZE, SIZE + 1, dice.randrange(1, 600)))
    end = bytes(more) if dice.randrange(2) else dice.randbytes(more)
    return joined(blocks) + end, len(blocks) - (blocks[-1][1] < TEN)


# by how many blocks they need
DAMAGES = {1: (bit, byte, one_word, number, count, another_count, zero_word, mark, no_rows, same_sum, exchanged, big_endian,
               left_out, doubled, cut, appended), 2: (not_full, swapped)}


def damaged(dice):
    """A right file with one damage."""
    blocks_needed = dice.choice((1, 1, 1, 1, 2))
    damage = dice.choice(DAMAGES[blocks_needed])
    rows = random_rows(dice, least=TEN * (blocks_needed - 1) + 1)
    data, bad = damage(dice, [list(words) for words in BLOCK.iter_unpack(write(rows))])
    return Made(damage.__name__, data, None, bad)


def several(dice):
    """A right file with two or three damages."""
    data = write(random_rows(dice, least=1))
    for _ in range(dice.randrange(2, 4)):
        whole = len(data) // SIZE * SIZE
        if whole:
            damage = dice.choice(DAMAGES[1])
            blocks = [list(words) for words in BLOCK.iter_unpack(data[:whole])]
            # a damage may ask for what a count of the one before no longer allows
            if damage not in (zero_word, same_sum) or all(1 <= words[1] <= TEN for words in blocks):
                data = damage(dice, blocks)[0] + data[whole:]
    return Made('several', data, None, None)


def raw(dice):
    """Bytes that were never a file."""
    size = dice.choice((SIZE, 2 * SIZE, dice.randrange(1101), dice.randrange(1101)))
    kind = dice.randrange(3)
    return Made('raw', dice.randbytes(size) if kind == 0 else bytes([0 if kind == 1 else 255]) * size, None, None)


def far(dice):
    """The end of a long file, of which the blocks before are left out. A number from 2^32 on fits no word."""
    first, rows = max(0, dice.choice(FAR) - dice.randrange(3)), random_rows(dice)
    tens = [rows[at:at + TEN] for at in range(0, len(rows), TEN)]
    data = b''.join(block_of((first + at) % WORD, ten) for at, ten in enumerate(tens))
    bad = max(WORD, first) if tens and first + len(tens) > WORD else None
    if data and bad is None and dice.randrange(3) == 0:
        place = dice.randrange(len(data))
        bad = first + place // SIZE
        data = data[:place] + bytes([data[place] ^ 1 << dice.randrange(8)]) + data[place + 1:]
    return Made('far', data, None if bad else rows, bad, first)


def made(dice):
    """A file of any kind."""
    kind = dice.randrange(100)
    if kind < 38:
        rows = random_rows(dice)
        return Made('right', write(rows), rows, None)
    if kind < 88:
        return damaged(dice)
    return several(dice) if kind < 94 else raw(dice) if kind < 97 else far(dice)
