/* jt_trace_bytes, jt_write_trace and jt_read_trace, by numbers worked out by hand. Each call is made with what it is lent at both edges of
 * memory that traps, and at an odd place. */
#define _GNU_SOURCE
#include "blocks.h"
#include "guard_pages.h"

enum { ROW = JT_MESSAGE_WORDS, BLOCK = JT_BLOCK_BYTES, FULL = JT_BLOCK_ROWS };
enum { MOST_ROWS = 60, MOST_BLOCKS = 8, MOST_FILE = BLOCK * MOST_BLOCKS, ODD = 3 };
#define MOST_TRACE_ROWS (UINT64_C(1) << 32)
#define LAST_START UINT64_C(429496729) /* ten times this and 6 are 2^32 */

static struct edged lent_rows, lent_file, lent_answer;
static uint8_t noise[MOST_FILE + BLOCK];     /* what a file holds before a call */
static uint64_t row_noise[ROW * MOST_ROWS + 5]; /* what rows do */
static const enum place places[] = {AT_END, AT_START, BEHIND_START};

/* A case that fails is told by its line. */
#define CASE(call)                                                  \
    do {                                                            \
        long before = failures;                                     \
        call;                                                       \
        if (failures > before)                                      \
            printf("%s:%d: in this case\n", __FILE__, __LINE__);    \
    } while (0)

static uint64_t *words_of(const struct edged *b) {
    return (uint64_t *)(void *)b->bytes;
}

/* Where nothing is lent, the call gets NULL at one of the places. */
static void *pointer_of(const struct edged *b, enum place place) {
    return b->len == 0 && place == AT_START ? NULL : b->bytes;
}

/* These rows, numbered from `start` on, in a file of so many bytes: the answer, and the bytes where it is JT_OK. */
static void writes(uint32_t wanted, const uint64_t *rows, size_t rows_len, uint64_t start, size_t file_len, const uint8_t *blocks,
                   size_t bytes) {
    uint8_t left[MOST_FILE + BLOCK];
    uint64_t written = wanted == JT_OK ? bytes : CANARY;
    const uint64_t before = CANARY;
    memcpy(left, noise, sizeof left);
    if (wanted == JT_OK && bytes > 0)
        memcpy(left, blocks, bytes);
    for (size_t i = 0; i < sizeof places / sizeof *places; i++) {
        edged_lend(&lent_rows, rows, rows_len * sizeof *rows, places[i], sizeof *rows);
        edged_lend(&lent_file, noise, file_len, places[i], ODD);
        edged_lend(&lent_answer, &before, sizeof before, places[i], sizeof before);
        CHECK_NUMBER(wanted, jt_write_trace(pointer_of(&lent_rows, places[i]), rows_len, start, pointer_of(&lent_file, places[i]),
                                            file_len, words_of(&lent_answer)));
        edged_holds(&lent_rows, rows);
        edged_holds(&lent_file, left);
        edged_holds(&lent_answer, &written);
    }
}

/* This file from `start` on, with room for so many words: the answer, and its rows where it is JT_OK, or the bad block. */
static void reads(uint32_t wanted, uint64_t bad, const uint8_t *file, size_t file_len, uint64_t start, size_t room,
                  const uint64_t *rows, size_t count) {
    uint64_t left[sizeof row_noise / sizeof *row_noise];
    const uint64_t report[3] = {wanted == JT_OK ? count : 0, wanted == JT_BAD_BLOCK ? bad : 0, JT_TRACE_SIX};
    memcpy(left, row_noise, sizeof left);
    if (wanted == JT_OK && count > 0)
        memcpy(left, rows, count * ROW * sizeof *rows);
    for (size_t i = 0; i < sizeof places / sizeof *places; i++) {
        edged_lend(&lent_file, file, file_len, places[i], ODD);
        edged_lend(&lent_rows, row_noise, room * sizeof *rows, places[i], sizeof *rows);
        edged_lend(&lent_answer, row_noise, sizeof report, places[i], sizeof *report);
        CHECK_NUMBER(wanted, jt_read_trace(pointer_of(&lent_file, places[i]), file_len, start, pointer_of(&lent_rows, places[i]),
                                           room, words_of(&lent_answer)));
        edged_holds(&lent_file, file);
        edged_holds(&lent_rows, left);
        edged_holds(&lent_answer, report);
    }
}

/* ---- rows and files that the cases share */
/* Each word of row i is i + 1. So the rows i to j of a block add up to six times the sum from i + 1 to j + 1. */
static uint64_t plain[ROW * MOST_ROWS];

struct file {
    uint8_t bytes[MOST_FILE];
    size_t len;
};

static uint8_t *block_of(struct file *f, size_t block) {
    return f->bytes + BLOCK * block;
}

/* A block of plain rows with its check, which was worked out by hand. */
static void add_block(struct file *f, uint32_t number, size_t first, uint32_t count, uint32_t check) {
    uint8_t *block = f->bytes + f->len;
    memset(block, 0, BLOCK);
    block_set(block, BLOCK_NUMBER, number);
    block_set(block, BLOCK_COUNT, count);
    for (size_t i = 0; i < ROW * count; i++)
        block_set(block, BLOCK_FIRST + 2 * i, (uint32_t)(first + i / ROW + 1));
    block_set(block, BLOCK_CHECK, check);
    f->len += BLOCK;
}

/* The file of so many plain rows: 1, 9, 10, 11, 20 or 21. */
static struct file file_of(size_t rows) {
    struct file f = {{0}, 0};
    if (rows == 1)
        add_block(&f, 0, 0, 1, 0xfffffff8);  /* 0 + 1 + 6 * 1 = 7 */
    if (rows == 9)
        add_block(&f, 0, 0, 9, 0xfffffee8);  /* 0 + 9 + 6 * 45 = 279 */
    if (rows >= 10)
        add_block(&f, 0, 0, 10, 0xfffffeab); /* 0 + 10 + 6 * 55 = 340 */
    if (rows == 11)
        add_block(&f, 1, 10, 1, 0xffffffbb); /* 1 + 1 + 6 * 11 = 68 */
    if (rows >= 20)
        add_block(&f, 1, 10, 10, 0xfffffc52); /* 1 + 10 + 6 * 155 = 941 */
    if (rows == 21)
        add_block(&f, 2, 20, 1, 0xffffff7e); /* 2 + 1 + 6 * 21 = 129 */
    return f;
}

static const size_t sizes[] = {0, 1, 9, 10, 11, 20, 21};
enum { SIZES = sizeof sizes / sizeof *sizes };

/* Five blocks, the last with one row: these are only damaged. */
static struct file five_blocks(void) {
    struct file f = {{0}, 0};
    for (uint32_t b = 0; b < 5; b++) {
        add_block(&f, b, 10 * b, b < 4 ? 10 : 1, 0);
        block_mend(block_of(&f, b));
    }
    return f;
}

/* ---- how many bytes */
static void test_bytes(void) {
    static const struct {
        size_t rows_len, bytes;
    } cases[] = {{0, 0}, {1, 0}, {5, 0}, {6, 512}, {7, 512}, {11, 512}, {12, 512}, {59, 512}, {60, 512}, {61, 512}, {65, 512},
                 {66, 1024}, {120, 1024}, {125, 1024}, {126, 1536}};
    const uint64_t most = ROW * MOST_TRACE_ROWS;
    for (size_t i = 0; i < sizeof cases / sizeof *cases; i++)
        CHECK_NUMBER(cases[i].bytes, jt_trace_bytes(cases[i].rows_len));
    /* 2^32 rows are 429496729 full blocks and one of 6 rows; ten rows fewer are a block fewer */
    CHECK_NUMBER(UINT64_C(219902325760), jt_trace_bytes(most));
    CHECK_NUMBER(UINT64_C(219902325760), jt_trace_bytes(most + ROW - 1));
    CHECK_NUMBER(UINT64_C(219902325760), jt_trace_bytes(most - 5 * ROW));
    CHECK_NUMBER(UINT64_C(219902325248), jt_trace_bytes(most - 6 * ROW));
    CHECK_NUMBER(0, jt_trace_bytes(most + ROW));
    CHECK_NUMBER(0, jt_trace_bytes(2 * most));
    CHECK_NUMBER(0, jt_trace_bytes(SIZE_MAX / 2));
    CHECK_NUMBER(0, jt_trace_bytes(SIZE_MAX - ROW));
    CHECK_NUMBER(0, jt_trace_bytes(SIZE_MAX));
}

/* ---- writing */
static void test_no_rows(void) {
    for (size_t len = 0; len < ROW; len++) {
        CASE(writes(JT_OK, plain, len, 0, 0, NULL, 0));
        CASE(writes(JT_OK, plain, len, LAST_START, 0, NULL, 0));
        CASE(writes(JT_OK, plain, len, 1, 2 * BLOCK, NULL, 0));
        CASE(writes(JT_NO_OUT_ROOM, plain, len, LAST_START + 1, 2 * BLOCK, NULL, 0));
    }
    CASE(reads(JT_OK, 0, NULL, 0, 0, 0, NULL, 0));
    CASE(reads(JT_OK, 0, NULL, 0, 0, ROW, NULL, 0));
}

/* So many rows, with up to five words more; a file one byte short, exactly full, longer. */
static void test_sizes(void) {
    for (size_t i = 1; i < SIZES; i++) {
        struct file f = file_of(sizes[i]);
        for (size_t more = 0; more < ROW; more++) {
            size_t len = ROW * sizes[i] + more;
            CASE(writes(JT_NO_OUT_ROOM, plain, len, 0, 0, NULL, 0));
            CASE(writes(JT_NO_OUT_ROOM, plain, len, 0, f.len - 1, NULL, 0));
            CASE(writes(JT_OK, plain, len, 0, f.len, f.bytes, f.len));
            CASE(writes(JT_OK, plain, len, 0, f.len + 1, f.bytes, f.len));
            CASE(writes(JT_OK, plain, len, 0, f.len + BLOCK, f.bytes, f.len));
        }
        CHECK_NUMBER(f.len, jt_trace_bytes(ROW * sizes[i]));
    }
    struct file f = file_of(11);
    for (size_t len = 0; len <= 1100; len++)
        CASE(writes(len < 1024 ? JT_NO_OUT_ROOM : JT_OK, plain, ROW * 11, 0, len, f.bytes, f.len));
}

/* Words past the last whole row are not read: they stand in memory that traps. */
static void test_ragged_words(void) {
    struct file f = file_of(11);
    uint64_t written = 0;
    for (size_t more = 1; more < ROW; more++) {
        edged_lend(&lent_rows, plain, ROW * 11 * sizeof *plain, AT_END, 0);
        edged_lend(&lent_file, noise, f.len, AT_END, 0);
        CHECK_NUMBER(JT_OK, jt_write_trace(words_of(&lent_rows), ROW * 11 + more, 0, lent_file.bytes, f.len, &written));
        edged_holds(&lent_file, f.bytes);
    }
}

/* Two rows whose bytes are 0, 1, .. 0x5f in block 3, byte by byte. Word k of theirs is 0x03020100 + k * 0x04040404, so the 24 add up to
 * 24 * 0x03020100 + 276 * 0x04040404 = 0x9c846c50 modulo 2^32, and with the number and the count to 0x9c846c55. */
static void test_exact_bytes(void) {
    static const uint64_t rows[2 * ROW] = {
        0x0706050403020100, 0x0f0e0d0c0b0a0908, 0x1716151413121110, 0x1f1e1d1c1b1a1918, 0x2726252423222120, 0x2f2e2d2c2b2a2928,
        0x3736353433323130, 0x3f3e3d3c3b3a3938, 0x4746454443424140, 0x4f4e4d4c4b4a4948, 0x5756555453525150, 0x5f5e5d5c5b5a5958};
    static const uint8_t head[8] = {3, 0, 0, 0, 2, 0, 0, 0};
    static const uint8_t check[4] = {0xaa, 0x93, 0x7b, 0x63};
    struct file f = {{0}, 4 * BLOCK};
    uint8_t *block = block_of(&f, 3);
    memcpy(block, head, sizeof head);
    for (uint8_t i = 0; i < 0x60; i++)
        block[8 + i] = i;
    memcpy(block + 508, check, sizeof check);
    CASE(writes(JT_OK, rows, 2 * ROW, 3, BLOCK, block, BLOCK));
    CASE(reads(JT_OK, 0, f.bytes, f.len, 3, 2 * ROW, rows, 2));
}

/* One row of a run: 1, 2, 3, 4, the bits of 5.0 and 11. The words add up to 0x40140016. */
static void test_row_of_a_run(void) {
    const uint64_t row[ROW] = {1, 2, 3, 4, bits_of(5.0), 11};
    static const uint8_t first[56] = {0, 0, 0, 0, 1, 0, 0, 0, 1, 0, 0, 0, 0, 0, 0, 0, 2, 0, 0, 0, 0, 0, 0, 0, 3, 0, 0, 0,
                                      0, 0, 0, 0, 4, 0, 0, 0, 0, 0, 0, 0, 0, 0, 0, 0, 0, 0, 0x14, 0x40, 11, 0, 0, 0, 0, 0, 0, 0};
    struct file f = {{0}, BLOCK};
    memcpy(f.bytes, first, sizeof first);
    block_set(f.bytes, BLOCK_CHECK, 0xbfebffe9);
    CASE(writes(JT_OK, row, ROW, 0, BLOCK, f.bytes, BLOCK));
    CASE(reads(JT_OK, 0, f.bytes, BLOCK, 0, ROW, row, 1));
}

/* Words of 2^32 - 1, each of which is -1 in the sum. */
static void test_check_wraps(void) {
    static const struct {
        uint32_t rows, start, check;
    } cases[] = {
        {1, 0, 10},           /* 0 + 1 - 12 = -11 */
        {10, 0, 109},         /* 0 + 10 - 120 = -110 */
        {10, 5, 104},         /* 5 + 10 - 120 = -105 */
        {9, 98, 0},           /* 98 + 9 - 108 = -1 */
        {9, 99, 0xffffffff},  /* 99 + 9 - 108 = 0 */
        {9, 100, 0xfffffffe}, /* 100 + 9 - 108 = 1 */
    };
    uint64_t rows[ROW * FULL];
    memset(rows, 0xff, sizeof rows);
    for (size_t i = 0; i < sizeof cases / sizeof *cases; i++) {
        uint8_t block[BLOCK] = {0};
        block_set(block, BLOCK_NUMBER, cases[i].start);
        block_set(block, BLOCK_COUNT, cases[i].rows);
        memset(block + 8, 0xff, 48 * cases[i].rows);
        block_set(block, BLOCK_CHECK, cases[i].check);
        CASE(writes(JT_OK, rows, ROW * cases[i].rows, cases[i].start, BLOCK, block, BLOCK));
        if (cases[i].start == 0)
            CASE(reads(JT_OK, 0, block, BLOCK, 0, ROW * FULL, rows, cases[i].rows));
    }
}

/* From another start on, each number is larger by so much, and each check smaller. */
static void test_start_numbers(void) {
    static const uint64_t starts[] = {1, 2, 7, 255, 256, 65536, LAST_START - 2};
    for (size_t i = 0; i < sizeof starts / sizeof *starts; i++) {
        struct file f = file_of(11);
        for (size_t b = 0; b < 2; b++) {
            block_set(block_of(&f, b), BLOCK_NUMBER, (uint32_t)(starts[i] + b));
            block_set(block_of(&f, b), BLOCK_CHECK, (b == 0 ? 0xfffffeab : 0xffffffbb) - (uint32_t)starts[i]);
        }
        CASE(writes(JT_OK, plain, ROW * 11, starts[i], f.len, f.bytes, f.len));
    }
}

/* 10 * start and the rows at 2^32, and one above. */
static void test_most_rows(void) {
    struct file f = {{0}, 0};
    add_block(&f, 0x19999999, 0, 6, 0xe66665e2); /* 0x19999999 + 6 + 6 * 21 = 0x19999a1d */
    CASE(writes(JT_OK, plain, ROW * 6, LAST_START, BLOCK, f.bytes, BLOCK));
    CASE(writes(JT_OK, plain, ROW * 7 - 1, LAST_START, BLOCK, f.bytes, BLOCK));
    CASE(writes(JT_NO_OUT_ROOM, plain, ROW * 7, LAST_START, BLOCK, NULL, 0));
    f.len = 0;
    add_block(&f, 0x19999998, 0, 10, 0xe6666513); /* 0x19999998 + 10 + 6 * 55 = 0x19999aec */
    add_block(&f, 0x19999999, 10, 6, 0xe666647a); /* 0x19999999 + 6 + 6 * 81 = 0x19999b85 */
    CASE(writes(JT_OK, plain, ROW * 16, LAST_START - 1, f.len, f.bytes, f.len));
    CASE(writes(JT_NO_OUT_ROOM, plain, ROW * 17, LAST_START - 1, f.len, NULL, 0));
}

/* Starts that are too far, by themselves or where ten times them is cut to 64 or to 32 bits: 0, 4 and the like. */
static void test_far_starts(void) {
    static const uint64_t starts[] = {LAST_START + 1, 429496731, UINT64_C(1) << 31, UINT64_C(1) << 32, (UINT64_C(1) << 32) + 1,
                                      UINT64_C(1844674407370955161), UINT64_C(1844674407370955162), UINT64_C(3689348814741910324),
                                      UINT64_C(1) << 60, UINT64_C(1) << 63, (UINT64_C(1) << 63) + 1, UINT64_MAX - 1, UINT64_MAX};
    static const size_t rows[] = {0, 1, 6, 10, 21};
    for (size_t i = 0; i < sizeof starts / sizeof *starts; i++)
        for (size_t k = 0; k < sizeof rows / sizeof *rows; k++)
            CASE(writes(JT_NO_OUT_ROOM, plain, ROW * rows[k], starts[i], MOST_FILE, NULL, 0));
}

/* More than 2^32 rows, and a file that is long enough for them: both in memory that traps, since nothing of them is touched. */
static void test_too_many_rows(void) {
    const size_t rows_len = (size_t)(ROW * (MOST_TRACE_ROWS + 1));
    const size_t file_len = (size_t)(BLOCK * (MOST_TRACE_ROWS / FULL + 2));
    const int flags = MAP_PRIVATE | MAP_ANONYMOUS | MAP_NORESERVE;
    uint64_t *rows = mmap(NULL, rows_len * sizeof *rows, PROT_NONE, flags, -1, 0);
    uint8_t *file = mmap(NULL, file_len, PROT_NONE, flags, -1, 0);
    uint64_t written = CANARY;
    if (rows == MAP_FAILED || file == MAP_FAILED) {
        printf("trace: not tried: more than 2^32 rows, for which there are no addresses\n");
        return;
    }
    CHECK_NUMBER(JT_NO_OUT_ROOM, jt_write_trace(rows, rows_len, 0, file, file_len, &written));
    CHECK_NUMBER(JT_NO_OUT_ROOM, jt_write_trace(rows, rows_len - ROW, 1, file, file_len, &written));
    CHECK_NUMBER(JT_NO_OUT_ROOM, jt_write_trace(rows, rows_len - ROW, 0, file, jt_trace_bytes(rows_len - ROW) - 1, &written));
    CHECK_NUMBER(CANARY, written);
    munmap(rows, rows_len * sizeof *rows);
    munmap(file, file_len);
}

/* 41 rows in three parts, cut at every two multiples of ten, make the file that one call makes. */
static void test_parts(void) {
    struct file whole = five_blocks();
    CASE(writes(JT_OK, plain, ROW * 41, 0, whole.len, whole.bytes, whole.len));
    for (size_t a = 0; a <= 4; a++)
        for (size_t b = a; b <= 4; b++) {
            const size_t cuts[4] = {0, a, b, 5};
            uint8_t file[MOST_FILE];
            size_t len = 0;
            for (size_t i = 0; i < 3; i++) {
                size_t rows = cuts[i + 1] == 5 ? 41 - FULL * cuts[i] : FULL * (cuts[i + 1] - cuts[i]);
                uint64_t written = CANARY;
                CHECK_NUMBER(JT_OK, jt_write_trace(plain + ROW * FULL * cuts[i], ROW * rows, cuts[i], file + len,
                                                   whole.len - len, &written));
                len += (size_t)written;
            }
            CHECK_NUMBER(whole.len, len);
            CHECK(len == whole.len && memcmp(file, whole.bytes, len) == 0);
        }
}

/* ---- reading */
/* Each size from each block on: no room, a row short, a word short, exactly full, and longer by a ragged row. */
static void test_rooms(void) {
    for (size_t i = 0; i < SIZES; i++) {
        struct file f = file_of(sizes[i]);
        for (size_t start = 0; BLOCK * start <= f.len; start++) {
            size_t count = start * FULL < sizes[i] ? sizes[i] - start * FULL : 0;
            const uint64_t *rows = plain + ROW * FULL * start;
            for (size_t more = 0; more < ROW; more++)
                CASE(reads(JT_OK, 0, f.bytes, f.len, start, ROW * count + more, rows, count));
            CASE(reads(JT_OK, 0, f.bytes, f.len, start, ROW * MOST_ROWS, rows, count));
            if (count == 0)
                continue;
            CASE(reads(JT_NO_OUT_ROOM, 0, f.bytes, f.len, start, ROW * count - 1, NULL, 0));
            CASE(reads(JT_NO_OUT_ROOM, 0, f.bytes, f.len, start, ROW * (count - 1), NULL, 0));
            CASE(reads(JT_NO_OUT_ROOM, 0, f.bytes, f.len, start, 0, NULL, 0));
        }
    }
}

/* Starts past the end, near it and so far that 512 times them is cut to 64 bits. */
static void test_past_the_end(void) {
    static const uint64_t far[] = {1,
                                   2,
                                   255,
                                   UINT64_C(1) << 23,
                                   UINT64_C(1) << 32,
                                   (UINT64_C(1) << 55) - 1,
                                   UINT64_C(1) << 55,
                                   (UINT64_C(1) << 55) + 1,
                                   (UINT64_C(1) << 55) + 3,
                                   UINT64_C(1) << 63,
                                   UINT64_MAX};
    for (size_t i = 0; i < SIZES; i++) {
        struct file f = file_of(sizes[i]);
        for (size_t k = 0; k < sizeof far / sizeof *far; k++) {
            uint64_t start = k < 3 ? f.len / BLOCK + far[k] : far[k];
            CASE(reads(JT_BAD_BLOCK, start, f.bytes, f.len, start, ROW * MOST_ROWS, NULL, 0));
            CASE(reads(JT_BAD_BLOCK, start, f.bytes, f.len, start, 0, NULL, 0));
        }
    }
}

/* Of 21 rows, the first so many bytes: whole blocks are a file, what is left of another is a bad block. */
static void test_lengths(void) {
    struct file f = file_of(21);
    for (size_t len = 0; len <= 1100; len++) {
        const uint32_t answer = len % BLOCK == 0 ? JT_OK : JT_BAD_BLOCK;
        const size_t blocks = len / BLOCK;
        CASE(reads(answer, blocks, f.bytes, len, 0, ROW * MOST_ROWS, plain, FULL * blocks));
        CASE(reads(answer, blocks, f.bytes, len, blocks, ROW * MOST_ROWS, plain, 0));
        CASE(reads(JT_BAD_BLOCK, blocks + 1, f.bytes, len, blocks + 1, ROW * MOST_ROWS, NULL, 0));
        CASE(reads(blocks > 0 ? JT_NO_OUT_ROOM : answer, 0, f.bytes, len, 0, ROW * FULL - 1, NULL, 0));
    }
}

/* A block that is not full does not end the file where bytes follow that make no block. */
static void test_short_block_and_bytes(void) {
    struct file f = file_of(1);
    for (size_t more = 1; more <= BLOCK; more++) {
        CASE(reads(JT_BAD_BLOCK, 0, f.bytes, BLOCK + more, 0, ROW * MOST_ROWS, NULL, 0));
        CASE(reads(JT_BAD_BLOCK, 0, f.bytes, BLOCK + more, 0, 0, NULL, 0));
    }
}

/* Every bit of each of three blocks, flipped: the block is bad, and those behind it are not touched by that. */
static void test_every_bit(void) {
    struct file f = file_of(21);
    for (size_t bit = 0; bit < 8 * f.len; bit++) {
        const size_t block = bit / (8 * BLOCK);
        f.bytes[bit / 8] ^= (uint8_t)(1u << bit % 8);
        CASE(reads(JT_BAD_BLOCK, block, f.bytes, f.len, 0, ROW * 21, NULL, 0));
        CASE(reads(JT_BAD_BLOCK, block, f.bytes, f.len, block, 0, NULL, 0));
        if (block < 2)
            CASE(reads(JT_OK, 0, f.bytes, f.len, block + 1, ROW * 21, plain + ROW * FULL * (block + 1), 11 - FULL * block));
        f.bytes[bit / 8] ^= (uint8_t)(1u << bit % 8);
    }
}

/* The word of a block of this file is another, and the check is mended: from each block up to it on, it is the bad one. */
static void bad_with(struct file f, size_t block, size_t word, uint32_t value) {
    block_set(block_of(&f, block), word, value);
    block_mend(block_of(&f, block));
    for (size_t start = 0; start <= block; start++)
        reads(JT_BAD_BLOCK, block, f.bytes, f.len, start, ROW * MOST_ROWS, NULL, 0);
}

/* A right block has the right number; any other one is bad, and is told by its place. */
static void test_numbers(void) {
    struct file f = file_of(21);
    for (uint32_t block = 0; block < 3; block++) {
        for (uint32_t bit = 0; bit < 32; bit++)
            CASE(bad_with(f, block, BLOCK_NUMBER, block ^ UINT32_C(1) << bit));
        CASE(bad_with(f, block, BLOCK_NUMBER, block + 1));
        CASE(bad_with(f, block, BLOCK_NUMBER, block - 1));
        CASE(bad_with(f, block, BLOCK_NUMBER, UINT32_MAX));
    }
}

/* Of a file of 20 rows, the last block with fewer: these must be there, and no more; a count of none or above 10 is none. */
static void test_counts(void) {
    struct file f = file_of(20);
    static const uint32_t none[] = {0, 11, 12, 127, 128, 256, 266, 0x000a0000, 0x0a000000, 0x80000000, 0x8000000a, UINT32_MAX};
    for (size_t i = 0; i < sizeof none / sizeof *none; i++) {
        CASE(bad_with(f, 0, BLOCK_COUNT, none[i]));
        CASE(bad_with(f, 1, BLOCK_COUNT, none[i]));
        CASE(bad_with(file_of(1), 0, BLOCK_COUNT, none[i]));
    }
    for (uint32_t count = 0; count <= 10; count++) {
        if (count < 10)
            CASE(bad_with(f, 1, BLOCK_COUNT, count));
        struct file cut = file_of(20);
        uint8_t *last = block_of(&cut, 1);
        memset(last + 8 + 48 * count, 0, 48 * (10 - count));
        block_set(last, BLOCK_COUNT, count);
        block_mend(last);
        CASE(reads(count == 0 ? JT_BAD_BLOCK : JT_OK, 1, cut.bytes, cut.len, 0, ROW * MOST_ROWS, plain, 10 + count));
        CASE(reads(count == 0 ? JT_BAD_BLOCK : JT_OK, 1, cut.bytes, cut.len, 1, ROW * MOST_ROWS, plain + ROW * FULL, count));
    }
    /* rows of zeros are rows */
    f = file_of(1);
    const uint64_t rows[ROW * FULL] = {1, 1, 1, 1, 1, 1};
    block_set(f.bytes, BLOCK_COUNT, 10);
    block_mend(f.bytes);
    CASE(reads(JT_OK, 0, f.bytes, f.len, 0, ROW * FULL, rows, 10));
}

/* A block before the last must be full, though its unused words are zero and its check is right. */
static void test_not_full_before_the_last(void) {
    for (uint32_t count = 0; count <= 9; count++)
        for (size_t block = 0; block < 2; block++) {
            struct file f = file_of(21);
            memset(block_of(&f, block) + 8 + 48 * count, 0, 48 * (10 - count));
            CASE(bad_with(f, block, BLOCK_COUNT, count));
        }
}

/* Each unused word of a block, one at a time. Word 126 is the mark of a kind that is not there yet. */
static void test_unused_words(void) {
    static const uint32_t values[] = {1, 0x100, 0x10000, 0x1000000, 0x80000000, UINT32_MAX};
    for (size_t i = 0; i < sizeof values / sizeof *values; i++) {
        for (size_t word = BLOCK_FIRST + BLOCK_ROW_WORDS; word < BLOCK_CHECK; word++) {
            CASE(bad_with(file_of(1), 0, word, values[i]));
            CASE(bad_with(file_of(11), 1, word, values[i]));
        }
        for (size_t word = BLOCK_BEHIND; word < BLOCK_CHECK; word++) {
            CASE(bad_with(file_of(10), 0, word, values[i]));
            CASE(bad_with(file_of(21), 1, word, values[i]));
        }
    }
}

/* Two unused words that add up to 0, and a check that stands in another word. */
static void test_check(void) {
    struct file f = file_of(1);
    block_set(f.bytes, 20, 5);
    CASE(bad_with(f, 0, 21, 0u - 5u));
    f = file_of(1);
    block_set(f.bytes, 126, block_word(f.bytes, BLOCK_CHECK));
    block_set(f.bytes, BLOCK_CHECK, 0);
    CHECK_NUMBER(UINT32_MAX, block_sum(f.bytes));
    CASE(reads(JT_BAD_BLOCK, 0, f.bytes, f.len, 0, ROW, NULL, 0));
    /* sums of 0 and of 2^32 - 2 are none */
    f = file_of(1);
    block_set(f.bytes, BLOCK_CHECK, block_word(f.bytes, BLOCK_CHECK) + 1);
    CASE(reads(JT_BAD_BLOCK, 0, f.bytes, f.len, 0, ROW, NULL, 0));
    block_set(f.bytes, BLOCK_CHECK, block_word(f.bytes, BLOCK_CHECK) - 2);
    CASE(reads(JT_BAD_BLOCK, 0, f.bytes, f.len, 0, ROW, NULL, 0));
}

/* At one block 14 comes before 13; 13 comes before a bad block behind it. */
static void test_which_first(void) {
    for (size_t bad = 0; bad < 3; bad++) {
        struct file f = file_of(21);
        block_of(&f, bad)[100] ^= 1;
        for (size_t room = 0; room <= 22; room++) {
            const uint32_t answer = room < FULL * bad ? JT_NO_OUT_ROOM : JT_BAD_BLOCK;
            CASE(reads(answer, bad, f.bytes, f.len, 0, ROW * room, NULL, 0));
            CASE(reads(answer, bad, f.bytes, f.len, 0, ROW * room + 5, NULL, 0));
        }
        CASE(reads(JT_BAD_BLOCK, bad, f.bytes, f.len, bad, 0, NULL, 0));
    }
    struct file f = file_of(21);
    for (size_t room = 0; room <= 22; room++) {
        CASE(reads(room < 10 ? JT_NO_OUT_ROOM : JT_BAD_BLOCK, 1, f.bytes, BLOCK + 100, 0, ROW * room, NULL, 0));
        CASE(reads(room < 20 ? JT_NO_OUT_ROOM : JT_BAD_BLOCK, 2, f.bytes, 3 * BLOCK - 1, 0, ROW * room, NULL, 0));
    }
}

/* Blocks before the start are not looked at: they are damaged, or stand in memory that traps. */
static void test_before_the_start(void) {
    struct file f = file_of(21);
    memset(f.bytes, 0xff, BLOCK);
    CASE(reads(JT_OK, 0, f.bytes, f.len, 1, ROW * 11, plain + ROW * FULL, 11));
    CASE(reads(JT_OK, 0, f.bytes, f.len, 2, ROW * 11, plain + ROW * FULL * 2, 1));
    CASE(reads(JT_OK, 0, f.bytes, f.len, 3, 0, NULL, 0));
    const size_t before = GUARD_BYTES / BLOCK;
    f.len = 0;
    add_block(&f, (uint32_t)before, 0, 10, 0);
    add_block(&f, (uint32_t)before + 1, 10, 4, 0);
    block_mend(block_of(&f, 0));
    block_mend(block_of(&f, 1));
    uint64_t rows[ROW * 14];
    uint64_t report[3] = {7, 7, 7};
    edged_lend(&lent_file, f.bytes, f.len, AT_START, 0);
    const uint8_t *file = lent_file.first - GUARD_BYTES;
    CHECK_NUMBER(JT_OK, jt_read_trace(file, GUARD_BYTES + f.len, before, rows, ROW * 14, report));
    CHECK(report[0] == 14 && report[1] == 0 && report[2] == JT_TRACE_SIX && same(rows, plain, ROW * 14));
    CHECK_NUMBER(JT_BAD_BLOCK, jt_read_trace(file, GUARD_BYTES + f.len + 1, before, rows, ROW * 14, report));
    CHECK(report[0] == 0 && report[1] == before + 1 && report[2] == JT_TRACE_SIX);
    CHECK_NUMBER(JT_OK, jt_read_trace(file, GUARD_BYTES, before, rows, ROW * 14, report));
    CHECK(report[0] == 0 && report[1] == 0 && report[2] == JT_TRACE_SIX);
}

/* A block left out, doubled or swapped with another is found where it no longer stands in its place. The last one left out is
 * another file. */
static void test_moved_blocks(void) {
    const struct file whole = five_blocks();
    for (size_t a = 0; a < 5; a++) {
        struct file f = whole;
        memmove(block_of(&f, a), block_of(&f, a + 1), BLOCK * (4 - a));
        f.len -= BLOCK;
        CASE(reads(a < 4 ? JT_BAD_BLOCK : JT_OK, a, f.bytes, f.len, 0, ROW * MOST_ROWS, plain, 40));
        f = whole;
        memmove(block_of(&f, a + 1), block_of(&f, a), BLOCK * (5 - a));
        f.len += BLOCK;
        /* the last one, which is not full, is then not the last */
        CASE(reads(JT_BAD_BLOCK, a < 4 ? a + 1 : 4, f.bytes, f.len, 0, ROW * MOST_ROWS, NULL, 0));
        for (size_t b = a + 1; b < 5; b++) {
            f = whole;
            memcpy(block_of(&f, a), whole.bytes + BLOCK * b, BLOCK);
            memcpy(block_of(&f, b), whole.bytes + BLOCK * a, BLOCK);
            CASE(reads(JT_BAD_BLOCK, a, f.bytes, f.len, 0, ROW * MOST_ROWS, NULL, 0));
            CASE(reads(JT_BAD_BLOCK, b, f.bytes, f.len, a + 1, ROW * MOST_ROWS, NULL, 0));
        }
    }
}

/* Fields are any words: what is written is read, and what is read is written. */
static void test_there_and_back(void) {
    uint64_t rows[ROW * 37];
    uint8_t file[BLOCK * 4];
    uint64_t written = 0;
    for (size_t i = 0; i < sizeof rows / sizeof *rows; i++)
        rows[i] = i % 7 == 0 ? UINT64_MAX : i % 7 == 1 ? UINT64_C(1) << i % 64 : (i + 1) * UINT64_C(0x9e3779b97f4a7c15);
    CHECK_NUMBER(JT_OK, jt_write_trace(rows, ROW * 37, 0, file, sizeof file, &written));
    CHECK_NUMBER(sizeof file, written);
    for (size_t start = 0; start < 4; start++)
        CASE(reads(JT_OK, 0, file, sizeof file, start, ROW * 37, rows + ROW * FULL * start, 37 - FULL * start));
    CASE(writes(JT_OK, rows, ROW * 37, 0, sizeof file, file, sizeof file));
}

static void fill_all(void) {
    lent_rows = edged_new(sizeof row_noise);
    lent_file = edged_new(sizeof noise);
    lent_answer = edged_new(3 * sizeof(uint64_t));
    for (size_t i = 0; i < sizeof noise; i++)
        noise[i] = (uint8_t)(1 + 37 * i + i / 256);
    for (size_t i = 0; i < sizeof row_noise / sizeof *row_noise; i++)
        row_noise[i] = CANARY + i;
    for (size_t i = 0; i < sizeof plain / sizeof *plain; i++)
        plain[i] = i / ROW + 1;
}

/* With an argument: in an emulator, which keeps a list of all pages, so that many addresses cost it time and memory. */
int main(int argc, char **argv) {
    (void)argv;
    fill_all();
    test_bytes();
    test_no_rows();
    test_sizes();
    test_ragged_words();
    test_exact_bytes();
    test_row_of_a_run();
    test_check_wraps();
    test_start_numbers();
    test_most_rows();
    test_far_starts();
    if (argc < 2) test_too_many_rows();
    test_parts();
    test_rooms();
    test_past_the_end();
    test_lengths();
    test_short_block_and_bytes();
    test_every_bit();
    test_numbers();
    test_counts();
    test_not_full_before_the_last();
    test_unused_words();
    test_check();
    test_which_first();
    test_before_the_start();
    test_moved_blocks();
    test_there_and_back();
    return tell("trace");
}
