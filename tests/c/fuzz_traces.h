/* Traces: their codec in plain C, by 02 and the header; files that are right, nearly right and junk; and the three calls, each compared
 * with the codec in all that it answers, writes and leaves. */
#ifndef FUZZ_TRACES_H
#define FUZZ_TRACES_H

#include "blocks.h"
#include "fuzz_calls.h"

enum { TRACE_BLOCKS = 5, TRACE_ROWS = TRACE_BLOCKS * JT_BLOCK_ROWS, MOST_LENGTH = 1100, TRACE_SPARE = 700 };
enum { TRACE_WORDS = JT_MESSAGE_WORDS * TRACE_ROWS + 5, FILE_ROOM = (TRACE_BLOCKS + 1) * JT_BLOCK_BYTES + TRACE_SPARE };
enum { SWEEP_IN = 1000 }; /* of so many reads, one goes on to every bit of a block, and one to every length */
#define MOST_TRACE_ROWS (UINT64_C(1) << 32)

/* ---- how many there were */
static struct {
    uint64_t calls;         /* to compare with */
    uint64_t blocks, rows;  /* written; read */
    uint64_t other, passed; /* files changed or junk; those of them that can be read */
    uint64_t bits, lengths; /* flipped in a right block; that a file was cut to */
} traced;

/* ---- the codec */
static size_t model_bytes(size_t rows_len) {
    uint64_t rows = rows_len / JT_MESSAGE_WORDS;
    return rows > MOST_TRACE_ROWS ? 0 : (size_t)((rows + JT_BLOCK_ROWS - 1) / JT_BLOCK_ROWS * JT_BLOCK_BYTES);
}

static void model_block(uint8_t *block, const uint64_t *rows, size_t count, uint64_t number) {
    memset(block, 0, JT_BLOCK_BYTES);
    block_set(block, BLOCK_NUMBER, (uint32_t)number);
    block_set(block, BLOCK_COUNT, (uint32_t)count);
    for (size_t i = 0; i < JT_MESSAGE_WORDS * count; i++) {
        block_set(block, BLOCK_FIRST + 2 * i, (uint32_t)rows[i]);
        block_set(block, BLOCK_FIRST + 2 * i + 1, (uint32_t)(rows[i] >> 32));
    }
    block_mend(block);
}

static uint32_t model_write(const uint64_t *rows, size_t rows_len, uint64_t start, uint8_t *file, size_t file_len,
                            uint64_t *written) {
    size_t count = rows_len / JT_MESSAGE_WORDS;
    if (count > MOST_TRACE_ROWS || start > (MOST_TRACE_ROWS - count) / JT_BLOCK_ROWS || file_len < model_bytes(rows_len))
        return JT_NO_OUT_ROOM;
    for (size_t at = 0; at < count; at += JT_BLOCK_ROWS) {
        size_t left = count - at;
        model_block(file + at / JT_BLOCK_ROWS * JT_BLOCK_BYTES, rows + JT_MESSAGE_WORDS * at,
                    left < JT_BLOCK_ROWS ? left : JT_BLOCK_ROWS, start + at / JT_BLOCK_ROWS);
    }
    *written = model_bytes(rows_len);
    return JT_OK;
}

static int model_good(const uint8_t *block, uint64_t number, int last) {
    uint32_t count = block_word(block, BLOCK_COUNT);
    if (block_word(block, BLOCK_NUMBER) != number || count < 1 || count > JT_BLOCK_ROWS || (!last && count < JT_BLOCK_ROWS))
        return 0;
    for (size_t k = BLOCK_FIRST + BLOCK_ROW_WORDS * count; k < BLOCK_CHECK; k++)
        if (block_word(block, k) != 0)
            return 0;
    return block_sum(block) == UINT32_MAX;
}

/* The rows go to `rows` also where it is refused in the end: who calls it does not take them then. */
static uint32_t model_read(const uint8_t *file, size_t file_len, uint64_t start, uint64_t *rows, size_t rows_len,
                           uint64_t report[3]) {
    size_t read = 0;
    report[0] = 0;
    report[1] = start;
    report[2] = JT_TRACE_SIX;
    if (start > file_len / JT_BLOCK_BYTES)
        return JT_BAD_BLOCK;
    for (size_t at = JT_BLOCK_BYTES * (size_t)start; at < file_len; at += JT_BLOCK_BYTES, report[1]++) {
        const uint8_t *block = file + at;
        if (file_len - at < JT_BLOCK_BYTES || !model_good(block, report[1], file_len - at == JT_BLOCK_BYTES))
            return JT_BAD_BLOCK;
        size_t count = block_word(block, BLOCK_COUNT);
        if (count > rows_len / JT_MESSAGE_WORDS - read) {
            report[1] = 0;
            return JT_NO_OUT_ROOM;
        }
        for (size_t i = 0; i < JT_MESSAGE_WORDS * count; i++)
            rows[JT_MESSAGE_WORDS * read + i] =
                block_word(block, BLOCK_FIRST + 2 * i) | (uint64_t)block_word(block, BLOCK_FIRST + 2 * i + 1) << 32;
        read += count;
    }
    report[0] = read;
    report[1] = 0;
    return JT_OK;
}

/* ---- a call made and compared with it */
static struct edged lent_file, lent_trace, lent_told; /* the file, the rows, and `written` or the report */

struct trace {
    uint8_t file[FILE_ROOM];
    size_t file_len;
    uint64_t rows[TRACE_WORDS];
    size_t rows_len; /* words of them that are lent */
    uint64_t start;
};

static struct trace asked, again, changed; /* of this call, of one to compare with, of one of many */

static void lend_anywhere(struct edged *b, const void *bytes, size_t len, size_t align) {
    enum place place = one_in(4) ? AT_START : one_in(4) ? BEHIND_START : AT_END;
    edged_lend(b, bytes, len, place, align * (1 + (size_t)below(9)));
}

static void *pointer_to(const struct edged *b) {
    return b->len == 0 && one_in(2) ? NULL : b->bytes;
}

static uint64_t *words_in(const struct edged *b) {
    return (uint64_t *)(void *)b->bytes;
}

/* Writes t's rows into noise of the file's length; what it holds then is t's file. */
static uint32_t make_write(struct trace *t) {
    uint64_t written = junk[0];
    lend_anywhere(&lent_trace, t->rows, t->rows_len * sizeof(uint64_t), sizeof(uint64_t));
    lend_anywhere(&lent_file, junk, t->file_len, 1);
    lend_anywhere(&lent_told, &written, sizeof written, sizeof written);
    memcpy(t->file, junk, t->file_len);
    uint32_t number = jt_write_trace(pointer_to(&lent_trace), t->rows_len, t->start, pointer_to(&lent_file), t->file_len,
                                     words_in(&lent_told));
    CHECK_NUMBER(model_write(t->rows, t->rows_len, t->start, t->file, t->file_len, &written), number);
    edged_holds(&lent_trace, t->rows);
    edged_holds(&lent_file, t->file);
    edged_holds(&lent_told, &written);
    return number;
}

/* Reads t's file into noise; what that holds then is t's rows. */
static uint32_t make_read(struct trace *t) {
    static uint64_t rows[TRACE_WORDS];
    uint64_t report[3];
    lend_anywhere(&lent_file, t->file, t->file_len, 1);
    lend_anywhere(&lent_trace, junk, t->rows_len * sizeof(uint64_t), sizeof(uint64_t));
    lend_anywhere(&lent_told, junk, sizeof report, sizeof *report);
    memcpy(t->rows, junk, t->rows_len * sizeof(uint64_t));
    uint32_t number = jt_read_trace(pointer_to(&lent_file), t->file_len, t->start, pointer_to(&lent_trace), t->rows_len,
                                    words_in(&lent_told));
    CHECK_NUMBER(model_read(t->file, t->file_len, t->start, rows, t->rows_len, report), number);
    if (number == JT_OK && report[0] <= t->rows_len / JT_MESSAGE_WORDS)
        memcpy(t->rows, rows, (size_t)(JT_MESSAGE_WORDS * report[0]) * sizeof(uint64_t));
    edged_holds(&lent_file, t->file);
    edged_holds(&lent_trace, t->rows);
    edged_holds(&lent_told, report);
    return number;
}

/* ---- rows, starts and lengths */
static void some_trace_rows(struct trace *t) {
    size_t rows = (size_t)(one_in(3) ? JT_BLOCK_ROWS * below(TRACE_BLOCKS) + below(3) : below(TRACE_ROWS));
    t->rows_len = JT_MESSAGE_WORDS * rows + (one_in(2) ? 0 : (size_t)below(JT_MESSAGE_WORDS));
    if (one_in(8))
        memset(t->rows, one_in(2) ? 0xff : 0, sizeof t->rows);
    else
        any_words(t->rows, t->rows_len);
}

/* Near 2^32 / 10 rows, and near where ten times it is cut to 64 bits. */
static uint64_t some_write_start(void) {
    switch (below(8)) {
    case 0:
        return below(100);
    case 1:
        return MOST_TRACE_ROWS / JT_BLOCK_ROWS + 2 - below(2 + TRACE_BLOCKS);
    case 2:
        return UINT64_MAX / JT_BLOCK_ROWS * (1 + below(JT_BLOCK_ROWS)) + below(4);
    case 3:
        return any_word();
    default:
        return 0;
    }
}

static uint64_t some_read_start(size_t file_len) {
    switch (below(8)) {
    case 0:
        return below(TRACE_BLOCKS + 3);
    case 1:
        return file_len / JT_BLOCK_BYTES + below(3);
    case 2:
        return UINT64_MAX / JT_BLOCK_BYTES * below(JT_BLOCK_BYTES) + below(TRACE_BLOCKS);
    case 3:
        return any_word();
    default:
        return 0;
    }
}

/* About as much as is needed, or anything up to the room. */
static size_t some_length_for(size_t needed, size_t room) {
    size_t len = one_in(2) ? needed : needed + (size_t)below(3);
    if (one_in(4))
        return (size_t)below(room + 1);
    if (one_in(4) && len > 0)
        len--;
    return len < room ? len : room;
}

/* ---- files */
static uint8_t *block_in(struct trace *t, size_t block) {
    return t->file + JT_BLOCK_BYTES * block;
}

/* The file of some rows, from block 0 on. */
static void right_file(struct trace *t) {
    uint64_t written = 0;
    some_trace_rows(t);
    t->file_len = model_bytes(t->rows_len);
    model_write(t->rows, t->rows_len, 0, t->file, t->file_len, &written);
}

static void change_words(uint8_t *block) {
    uint32_t count = block_word(block, BLOCK_COUNT) % (JT_BLOCK_ROWS + 1);
    size_t unused = BLOCK_FIRST + BLOCK_ROW_WORDS * count;
    size_t word = (size_t)below(BLOCK_CHECK + 1);
    uint32_t mask = one_in(2) ? UINT32_C(1) << below(32) : (uint32_t)random_word();
    switch (below(5)) {
    case 0:
        block_set(block, BLOCK_NUMBER, (uint32_t)changed_word(block_word(block, BLOCK_NUMBER)));
        break;
    case 1:
        block_set(block, BLOCK_COUNT, (uint32_t)changed_word(count));
        break;
    case 2: /* a row fewer, and no trace of it */
        block_set(block, BLOCK_COUNT, count > 0 ? count - 1 : 0);
        memset(block + 4 * (count > 0 ? unused - BLOCK_ROW_WORDS : unused), 0, 4 * BLOCK_ROW_WORDS);
        break;
    case 3:
        word = unused + (size_t)below(BLOCK_CHECK - unused);
        break;
    default:
        break;
    }
    if (one_in(2))
        block_set(block, word, block_word(block, word) ^ mask);
    if (!one_in(4))
        block_mend(block);
}

/* A block left out, doubled or swapped. */
static void move_blocks(struct trace *t) {
    size_t blocks = t->file_len / JT_BLOCK_BYTES;
    size_t a = (size_t)below(blocks);
    size_t b = (size_t)below(blocks);
    size_t behind = t->file_len - JT_BLOCK_BYTES * (a + 1);
    uint8_t block[JT_BLOCK_BYTES];
    switch (below(3)) {
    case 0:
        memmove(block_in(t, a), block_in(t, a + 1), behind);
        t->file_len -= JT_BLOCK_BYTES;
        break;
    case 1:
        if (t->file_len + JT_BLOCK_BYTES > FILE_ROOM)
            return;
        memmove(block_in(t, a + 1), block_in(t, a), behind + JT_BLOCK_BYTES);
        t->file_len += JT_BLOCK_BYTES;
        break;
    default:
        memcpy(block, block_in(t, a), JT_BLOCK_BYTES);
        memmove(block_in(t, a), block_in(t, b), JT_BLOCK_BYTES);
        memcpy(block_in(t, b), block, JT_BLOCK_BYTES);
    }
}

/* Another length: a few bytes off, any up to MOST_LENGTH, or noise behind. */
static void change_length(struct trace *t) {
    size_t len = one_in(2) ? (size_t)below(MOST_LENGTH + 1) : t->file_len + (size_t)below(one_in(2) ? 3 : TRACE_SPARE);
    if (len > FILE_ROOM)
        len = FILE_ROOM;
    if (one_in(4) && t->file_len > 0)
        len = t->file_len - 1;
    if (len > t->file_len)
        memcpy(t->file + t->file_len, junk, len - t->file_len);
    t->file_len = len;
}

/* Blocks of noise with the right number and check, and with a count. */
static void junk_file(struct trace *t) {
    t->file_len = one_in(2) ? (size_t)below(MOST_LENGTH + 1) : JT_BLOCK_BYTES * (size_t)below(TRACE_BLOCKS);
    for (size_t i = 0; i < t->file_len; i++)
        t->file[i] = (uint8_t)random_word();
    for (size_t b = 0; b < t->file_len / JT_BLOCK_BYTES; b++) {
        if (one_in(8))
            continue;
        block_set(block_in(t, b), BLOCK_NUMBER, (uint32_t)b);
        block_set(block_in(t, b), BLOCK_COUNT, one_in(4) ? (uint32_t)below(12) : JT_BLOCK_ROWS);
        memset(block_in(t, b) + 4 * BLOCK_BEHIND, 0, 4 * (BLOCK_CHECK - BLOCK_BEHIND));
        block_mend(block_in(t, b));
    }
}

static void change_file(struct trace *t) {
    size_t blocks = t->file_len / JT_BLOCK_BYTES;
    if (blocks == 0 || one_in(6))
        change_length(t);
    else if (one_in(4))
        move_blocks(t);
    else if (one_in(3))
        t->file[below(t->file_len)] ^= (uint8_t)(1u << below(8));
    else
        change_words(block_in(t, (size_t)below(blocks)));
}

static void some_file(struct trace *t) {
    uint64_t pick = below(8);
    right_file(t);
    for (uint64_t changes = pick < 2 ? 0 : pick < 6 ? 1 : below(4); changes > 0; changes--)
        change_file(t);
    if (pick == 7)
        junk_file(t);
    traced.other += pick >= 2;
}

/* ---- writing */
/* In two parts, the first of whole blocks, the file is the same. */
static void check_parts(const struct trace *t) {
    static struct trace part;
    size_t rows = t->rows_len / JT_MESSAGE_WORDS;
    size_t blocks = (size_t)below(rows / JT_BLOCK_ROWS + 1);
    size_t words = JT_MESSAGE_WORDS * JT_BLOCK_ROWS * blocks;
    traced.calls += 2;
    part.start = t->start;
    part.rows_len = words;
    part.file_len = JT_BLOCK_BYTES * blocks;
    memcpy(part.rows, t->rows, words * sizeof(uint64_t));
    CHECK_NUMBER(JT_OK, make_write(&part));
    CHECK(memcmp(part.file, t->file, part.file_len) == 0);
    part.start = t->start + blocks;
    part.rows_len = t->rows_len - words;
    part.file_len = model_bytes(t->rows_len) - JT_BLOCK_BYTES * blocks;
    memcpy(part.rows, t->rows + words, part.rows_len * sizeof(uint64_t));
    CHECK_NUMBER(JT_OK, make_write(&part));
    CHECK(memcmp(part.file, t->file + JT_BLOCK_BYTES * blocks, part.file_len) == 0);
}

/* What was written from block 0 on gives its rows, from any block on. */
static void check_read_back(const struct trace *t) {
    size_t rows = t->rows_len / JT_MESSAGE_WORDS;
    size_t first;
    traced.calls++;
    again.file_len = model_bytes(t->rows_len);
    memcpy(again.file, t->file, again.file_len);
    again.start = below(again.file_len / JT_BLOCK_BYTES + 1);
    first = (size_t)again.start * JT_BLOCK_ROWS < rows ? (size_t)again.start * JT_BLOCK_ROWS : rows;
    again.rows_len = JT_MESSAGE_WORDS * (rows - first);
    CHECK_NUMBER(JT_OK, make_read(&again));
    CHECK(same(again.rows, t->rows + JT_MESSAGE_WORDS * first, again.rows_len));
}

static uint32_t one_write(void) {
    some_trace_rows(&asked);
    asked.start = some_write_start();
    asked.file_len = some_length_for(model_bytes(asked.rows_len), FILE_ROOM);
    uint32_t number = make_write(&asked);
    if (number != JT_OK)
        return number;
    traced.blocks += model_bytes(asked.rows_len) / JT_BLOCK_BYTES;
    if (one_in(2))
        check_parts(&asked);
    if (asked.start == 0)
        check_read_back(&asked);
    return number;
}

/* ---- reading */
/* Rows that were read from block 0 on give the file's bytes. */
static void check_written_back(const struct trace *t) {
    size_t words = (size_t)(JT_MESSAGE_WORDS * words_in(&lent_told)[0]);
    traced.calls++;
    memcpy(again.rows, t->rows, words * sizeof(uint64_t));
    again.rows_len = words;
    again.start = 0;
    again.file_len = t->file_len;
    CHECK_NUMBER(JT_OK, make_write(&again));
    CHECK(memcmp(again.file, t->file, t->file_len) == 0);
    CHECK_NUMBER(t->file_len, words_in(&lent_told)[0]);
}

/* Each bit of a block of a right file, flipped: 14 with its number. */
static void check_every_bit(void) {
    right_file(&changed);
    if (changed.file_len == 0)
        return;
    size_t block = (size_t)below(changed.file_len / JT_BLOCK_BYTES);
    for (size_t bit = 0; bit < 8 * JT_BLOCK_BYTES && failures == 0; bit++) {
        uint8_t *byte = block_in(&changed, block) + bit / 8;
        *byte ^= (uint8_t)(1u << bit % 8);
        changed.start = one_in(2) ? block : below(block + 1);
        changed.rows_len = TRACE_WORDS;
        CHECK_NUMBER(JT_BAD_BLOCK, make_read(&changed));
        CHECK_NUMBER(block, words_in(&lent_told)[1]);
        *byte ^= (uint8_t)(1u << bit % 8);
        traced.bits++;
    }
}

/* The first so many bytes of a file. */
static void check_every_length(void) {
    some_file(&changed);
    if (changed.file_len < MOST_LENGTH)
        memcpy(changed.file + changed.file_len, junk, MOST_LENGTH - changed.file_len);
    for (size_t len = 0; len <= MOST_LENGTH && failures == 0; len++) {
        changed.file_len = len;
        changed.start = some_read_start(len);
        changed.rows_len = some_length_for(2 * JT_BLOCK_ROWS * JT_MESSAGE_WORDS, TRACE_WORDS);
        make_read(&changed);
        traced.lengths++;
    }
}

static uint32_t one_read(void) {
    uint64_t other = traced.other;
    some_file(&asked);
    other = traced.other - other;
    asked.start = some_read_start(asked.file_len);
    asked.rows_len = some_length_for(asked.file_len / JT_BLOCK_BYTES * JT_BLOCK_ROWS * JT_MESSAGE_WORDS, TRACE_WORDS);
    uint32_t number = make_read(&asked);
    if (number == JT_OK) {
        traced.rows += words_in(&lent_told)[0];
        traced.passed += other;
    }
    if (number == JT_OK && asked.start == 0)
        check_written_back(&asked);
    if (one_in(SWEEP_IN))
        check_every_bit();
    if (one_in(SWEEP_IN))
        check_every_length();
    return number;
}

/* ---- how many bytes */
static void one_trace_bytes(void) {
    uint64_t rows_len = one_in(2) ? below(JT_MESSAGE_WORDS * TRACE_ROWS) : any_word();
    if (one_in(4))
        rows_len = JT_MESSAGE_WORDS * MOST_TRACE_ROWS + below(100) - below(100);
    CHECK_NUMBER(model_bytes((size_t)rows_len), jt_trace_bytes((size_t)rows_len));
}

static uint32_t one_trace(enum kind kind) {
    if (kind == WRITE_TRACE)
        return one_write();
    if (kind == READ_TRACE)
        return one_read();
    one_trace_bytes();
    return JT_OK;
}

static void tell_traces(void) {
    printf("%" PRIu64 " blocks written, %" PRIu64 " rows read from blocks; %" PRIu64 " files changed or junk, %" PRIu64
           " of these could be read\n", traced.blocks, traced.rows, traced.other, traced.passed);
    printf("%" PRIu64 " bits flipped in a right block, %" PRIu64 " lengths of 0 to %d bytes\n", traced.bits, traced.lengths,
           MOST_LENGTH);
}

static void lend_traces(void) {
    lent_file = edged_new(FILE_ROOM);
    lent_trace = edged_new(TRACE_WORDS * sizeof(uint64_t));
    lent_told = edged_new(3 * sizeof(uint64_t));
}

#endif
