/* The C calls, as a C program makes them: the bench's run, every refusal, buffers of every awkward length. */
#include "bench_tables.h"
#include "layout.h"

/* ---- the bench's own run, step by step */
static void test_bench_listing(void) {
    static const uint64_t clocks[10] = {0, 0, 0x4010000000000000, 0x4010000000000000, 0x4022000000000000, 0x4022000000000000,
                                        0x4024000000000000, 0x4024000000000000, 0x4030000000000000, 0x4030000000000000};
    static const uint64_t messages[10] = {2, 0, 0, 0, 0, 0, 1, 0, 0, 0};
    struct bench b;
    struct guarded rows = guarded_new(2 * 6);
    uint64_t report[3];
    double clock;
    bench_run(&b);
    for (int i = 0; i < 10; i++) {
        CHECK_NUMBER(JT_OK, jt_step(b.state.words, b.state.len, services, 3, rows.words, rows.len, report));
        CHECK_NUMBER(1, report[0]);
        CHECK_NUMBER(messages[i], report[1]);
        CHECK_NUMBER(JT_END_DONE, report[2]);
        CHECK_NUMBER(JT_OK, jt_get_global_time(b.state.words, b.state.len, &clock));
        CHECK_NUMBER(clocks[i], bits_of(clock));
        if (i == 0) {
            static const uint64_t first[12] = {1, 2, 2, 1, 0, 11, 1, 2, 2, 1, 0, 12};
            CHECK(same(rows.words, first, 12));
        }
        if (i == 6) {
            static const uint64_t last[6] = {1, 2, 2, 1, 0x4024000000000000, 13};
            CHECK(same(rows.words, last, 6));
        }
    }
    uint64_t *before = copy_of(b.state.words, b.state.len);
    CHECK_NUMBER(JT_IDLE, jt_step(b.state.words, b.state.len, services, 3, rows.words, rows.len, report));
    CHECK_NUMBER(0, report[0]);
    CHECK_NUMBER(0, report[1]);
    CHECK_NUMBER(JT_END_REFUSED, report[2]);
    CHECK(same(before, b.state.words, b.state.len));
    free(before);
    guarded_free(rows);
    guarded_free(b.state);
}

/* "From the same start `step_until` 10 completes 7 steps and collects 2 rows." */
static void test_step_until(void) {
    struct bench b;
    struct guarded rows = guarded_new(2 * 6 + 5);
    uint64_t report[3];
    uint64_t count = 99;
    bench_run(&b);
    CHECK_NUMBER(JT_OK, jt_step_until(b.state.words, b.state.len, services, 3, 10, 1000, rows.words, rows.len, report));
    CHECK_NUMBER(7, report[0]);
    CHECK_NUMBER(2, report[1]);
    CHECK_NUMBER(JT_END_REACHED, report[2]);
    for (size_t i = 12; i < rows.len; i++)
        CHECK(rows.words[i] == CANARY);
    CHECK_NUMBER(JT_OK, jt_get_messages(b.state.words, b.state.len, rows.words, rows.len, &count));
    CHECK_NUMBER(1, count);
    CHECK_NUMBER(13, rows.words[5]);
    guarded_free(b.state);

    bench_run(&b);
    CHECK_NUMBER(JT_OK, jt_step_until(b.state.words, b.state.len, services, 3, 10, 3, rows.words, rows.len, report));
    CHECK_NUMBER(3, report[0]);
    CHECK_NUMBER(JT_END_SPENT, report[2]);
    CHECK_NUMBER(JT_OK, jt_step_until(b.state.words, b.state.len, services, 3, 10, 0, NULL, 0, report));
    CHECK_NUMBER(0, report[0]);
    CHECK_NUMBER(JT_END_SPENT, report[2]);
    CHECK_NUMBER(JT_BAD_TIME, jt_step_until(b.state.words, b.state.len, services, 3, -1, 5, NULL, 0, report));
    CHECK_NUMBER(JT_END_REFUSED, report[2]);
    guarded_free(rows);
    guarded_free(b.state);
}

/* A run keeps the steps before the refused one, and their rows. */
static void test_kept_steps(void) {
    struct bench b;
    struct guarded rows = guarded_new(3 * 6);
    uint64_t report[3];
    double clock;
    bench_run(&b);
    CHECK_NUMBER(JT_IDLE, jt_step_n(b.state.words, b.state.len, services, 3, 100, rows.words, rows.len, report));
    CHECK_NUMBER(10, report[0]);
    CHECK_NUMBER(3, report[1]);
    CHECK_NUMBER(JT_END_REFUSED, report[2]);
    CHECK_NUMBER(JT_OK, jt_get_global_time(b.state.words, b.state.len, &clock));
    CHECK(clock == 16);
    guarded_free(b.state);

    bench_run(&b);
    CHECK_NUMBER(JT_NO_SERVICE_TIME, jt_step_n(b.state.words, b.state.len, services, 1, 100, rows.words, rows.len, report));
    CHECK_NUMBER(3, report[0]);
    guarded_free(b.state);

    bench_run(&b);
    CHECK_NUMBER(JT_NO_OUT_ROOM, jt_step_n(b.state.words, b.state.len, services, 3, 100, rows.words, 17, report));
    CHECK_NUMBER(6, report[0]);
    CHECK_NUMBER(2, report[1]);
    CHECK_NUMBER(JT_OK, jt_step_n(b.state.words, b.state.len, services, 3, 1, rows.words, 6, report));
    CHECK_NUMBER(1, report[1]);
    guarded_free(rows);
    guarded_free(b.state);
}

/* ---- every refusal, and that it changes nothing */
static uint32_t step(struct bench *b, const double *times, size_t len) {
    struct guarded rows = guarded_new(256 * 6);
    uint64_t report[3] = {7, 7, 7};
    uint64_t *before = copy_of(b->state.words, b->state.len);
    uint32_t answer = jt_step(b->state.words, b->state.len, times, len, rows.words, rows.len, report);
    if (answer != JT_OK) {
        CHECK(same(before, b->state.words, b->state.len));
        for (size_t i = 0; i < rows.len; i++)
            CHECK(rows.words[i] == CANARY);
        CHECK_NUMBER(0, report[0]);
        CHECK_NUMBER(0, report[1]);
        CHECK_NUMBER(JT_END_REFUSED, report[2]);
    }
    free(before);
    guarded_free(rows);
    guarded_check(b->state);
    return answer;
}

static void test_table_refusals(void) {
    static uint64_t rows[650];
    struct guarded state = guarded_new(17286);
    CHECK_NUMBER(JT_TOO_LARGE, jt_post(rows, 641, NULL, 0, NULL, 0, state.words, state.len));
    CHECK_NUMBER(0, jt_state_words(641, 0, 0));
    CHECK_NUMBER(0, jt_state_words(0, 1025, 0));
    CHECK_NUMBER(0, jt_state_words(0, 0, 1537));
    CHECK_NUMBER(17286, jt_state_words(640, 1024, 1536));
    CHECK_NUMBER(JT_BAD_ROW, jt_post(rows, 10, NULL, 0, NULL, 0, state.words, state.len));
    rows[1] = PROCESSOR;
    CHECK_NUMBER(JT_BAD_ROW, jt_post(rows, 9, NULL, 0, NULL, 0, state.words, state.len));
    CHECK_NUMBER(JT_BAD_COUPLING, jt_post(rows, 10, rows, 3, NULL, 0, state.words, state.len));
    CHECK_NUMBER(JT_BAD_COUPLING, jt_post(rows, 10, NULL, 0, rows, 6, state.words, state.len));
    for (size_t i = 0; i < state.len; i++)
        CHECK(state.words[i] == CANARY);
    CHECK_NUMBER(JT_OK, jt_post(rows, 10, NULL, 0, NULL, 0, state.words, state.len));
    guarded_free(state);
}

static void test_model_refusals(void) {
    struct bench b;
    uint64_t report[2] = {7, 7};
    bench_run(&b);
    CHECK_NUMBER(JT_MODEL_NOT_FOUND, jt_get_status(b.state.words, b.state.len, 3, report));
    CHECK(report[0] == 7 && report[1] == 7);
    CHECK_NUMBER(JT_OK, inject(&b, 2, 9, 1));
    CHECK_NUMBER(JT_INVALID_MESSAGE, step(&b, services, 3));
    guarded_free(b.state);

    memset(&b, 0, sizeof b);
    processor(&b, 1, 0);
    post(&b);
    CHECK_NUMBER(JT_OK, inject(&b, 1, 1, 1));
    CHECK_NUMBER(JT_INVALID_MODEL_STATE, step(&b, services, 3));
    guarded_free(b.state);

    memset(&b, 0, sizeof b);
    batcher(&b, 1, 1000, BATCH);
    post(&b);
    for (uint32_t job = 0; job < 65; job++)
        CHECK_NUMBER(JT_OK, inject(&b, 1, 1, job));
    CHECK_NUMBER(JT_NO_QUEUE_ROOM, step(&b, services, 3));
    guarded_free(b.state);
}

static void test_message_refusals(void) {
    struct bench b;
    memset(&b, 0, sizeof b);
    processor(&b, 1, 300);
    post(&b);
    CHECK_NUMBER(JT_BAD_TIME, jt_inject_input(b.state.words, b.state.len, 0, 0, 9, 1, -0.0, 0));
    for (uint32_t job = 0; job < 256; job++)
        CHECK_NUMBER(JT_OK, inject(&b, 9, 1, job));
    uint64_t *before = copy_of(b.state.words, b.state.len);
    CHECK_NUMBER(JT_NO_MESSAGE_ROOM, inject(&b, 9, 1, 0));
    CHECK_NUMBER(JT_BAD_TIME, jt_inject_input(b.state.words, b.state.len, 0, 0, 9, 1, of_bits(0x7ff8000000000000), 0));
    CHECK(same(before, b.state.words, b.state.len));
    free(before);
    guarded_free(b.state);
}

static void test_time_refusals(void) {
    const double bad[1] = {-1};
    const double late[2] = {1152921504606846976.0, 1152921504606846976.0};
    struct bench b;
    memset(&b, 0, sizeof b);
    processor(&b, 1, 8);
    post(&b);
    CHECK_NUMBER(JT_IDLE, step(&b, NULL, 0));
    CHECK_NUMBER(JT_OK, inject(&b, 1, 1, 1));
    CHECK_NUMBER(JT_OK, inject(&b, 1, 1, 2));
    CHECK_NUMBER(JT_NO_SERVICE_TIME, step(&b, NULL, 0));
    CHECK_NUMBER(JT_BAD_TIME, step(&b, bad, 1));
    CHECK_NUMBER(JT_OK, step(&b, late, 2));
    CHECK_NUMBER(JT_OK, step(&b, late, 2));
    CHECK_NUMBER(JT_OK, step(&b, late, 2));
    CHECK_NUMBER(JT_CLOCK_OVERFLOW, step(&b, late, 2));
    guarded_free(b.state);
}

/* ---- a stopwatch and a Coupled, asked for their status */
static void test_status(void) {
    static const uint64_t inner[10] = {21, BATCHER, PARENT_GIVEN, 20, 1, 0, 0, 2, 1, 0};
    static const uint64_t other[10] = {22, PROCESSOR, PARENT_GIVEN, 20, 1, 0, 0, 2, 0, 0};
    static const uint64_t in[6] = {20, 1, 0, 1, 21, 1};
    static const uint64_t between[6] = {20, 3, 21, 2, 22, 1};
    struct bench b;
    uint64_t report[2];
    memset(&b, 0, sizeof b);
    stopwatch(&b, 10);
    coupled(&b, 20, 0, 0);
    model(&b, inner);
    model(&b, other);
    coupling(&b, in);
    coupling(&b, between);
    post(&b);
    CHECK_NUMBER(JT_OK, jt_get_status(b.state.words, b.state.len, 10, report));
    CHECK(report[0] == JT_STATUS_NO_MEAN && report[1] == 0);
    CHECK_NUMBER(JT_OK, inject(&b, 10, 1, 5));
    CHECK_NUMBER(JT_OK, inject(&b, 10, 2, 5));
    CHECK_NUMBER(JT_OK, inject(&b, 20, 1, 5));
    CHECK_NUMBER(JT_OK, step(&b, services, 3));
    CHECK_NUMBER(JT_OK, jt_get_status(b.state.words, b.state.len, 10, report));
    CHECK(report[0] == JT_STATUS_MEAN && report[1] == 0);
    CHECK_NUMBER(JT_OK, jt_get_status(b.state.words, b.state.len, 20, report));
    CHECK(report[0] == JT_STATUS_PARKED && report[1] == 1);
    CHECK_NUMBER(JT_MODEL_NOT_FOUND, jt_get_status(b.state.words, b.state.len, 21, report));
    CHECK_NUMBER(JT_OK, step(&b, services, 3));
    CHECK_NUMBER(JT_OK, jt_get_status(b.state.words, b.state.len, 20, report));
    CHECK(report[0] == JT_STATUS_PARKED && report[1] == 0);
    guarded_free(b.state);

    bench_run(&b);
    CHECK_NUMBER(JT_OK, step(&b, services, 3));
    CHECK_NUMBER(JT_OK, jt_get_status(b.state.words, b.state.len, 1, report));
    CHECK(report[0] == JT_STATUS_BATCHER && report[1] == 1);
    CHECK_NUMBER(JT_OK, step(&b, services, 3));
    CHECK_NUMBER(JT_OK, jt_get_status(b.state.words, b.state.len, 2, report));
    CHECK(report[0] == JT_STATUS_PROCESSOR && report[1] == 1);
    guarded_free(b.state);
}

/* ---- reset and its halves, put */
static void test_reset_and_put(void) {
    struct bench b;
    struct guarded rows = guarded_new(256 * 6);
    uint64_t report[3];
    uint64_t count;
    double clock;
    bench_run(&b);
    CHECK_NUMBER(JT_OK, jt_step_until(b.state.words, b.state.len, services, 3, 10, 1000, rows.words, rows.len, report));
    CHECK_NUMBER(JT_OK, jt_put(b.state.words, b.state.len, b.models, b.models_len, b.connectors, b.connectors_len, NULL, 0));
    CHECK_NUMBER(JT_OK, jt_get_messages(b.state.words, b.state.len, rows.words, rows.len, &count));
    CHECK_NUMBER(1, count);
    CHECK_NUMBER(JT_OK, jt_get_global_time(b.state.words, b.state.len, &clock));
    CHECK(clock == 10);
    CHECK_NUMBER(JT_BAD_STATE, jt_put(b.state.words, b.state.len, b.models, b.models_len, b.connectors, b.connectors_len,
                                      b.couplings, 6));
    CHECK_NUMBER(JT_TOO_LARGE, jt_put(b.state.words, b.state.len, b.models, 640, b.connectors, 1024, b.couplings, 1537));
    CHECK_NUMBER(JT_BAD_ROW, jt_put(b.state.words, b.state.len, b.couplings, 10, NULL, 0, NULL, 0));
    CHECK_NUMBER(JT_OK, jt_reset_messages(b.state.words, b.state.len));
    CHECK_NUMBER(JT_OK, jt_get_messages(b.state.words, b.state.len, NULL, 0, &count));
    CHECK_NUMBER(0, count);
    CHECK_NUMBER(JT_OK, jt_get_global_time(b.state.words, b.state.len, &clock));
    CHECK(clock == 10);
    CHECK_NUMBER(JT_OK, jt_reset_global_time(b.state.words, b.state.len));
    CHECK_NUMBER(JT_OK, jt_get_global_time(b.state.words, b.state.len, &clock));
    CHECK_NUMBER(0, bits_of(clock));
    CHECK_NUMBER(JT_OK, inject(&b, 1, 1, 5));
    CHECK_NUMBER(JT_OK, jt_reset(b.state.words, b.state.len));
    CHECK_NUMBER(JT_OK, jt_get_messages(b.state.words, b.state.len, NULL, 0, &count));
    CHECK_NUMBER(0, count);
    guarded_free(rows);
    guarded_free(b.state);
}

/* ---- 20: every call on one buffer, which is no state or cut short */
static void all_refuse(uint64_t *state, size_t len, const uint64_t *table, size_t table_len) {
    uint64_t *before = copy_of(state, len);
    uint64_t report[3] = {9, 9, 9};
    uint64_t status[2] = {9, 9};
    uint64_t rows[6] = {CANARY, CANARY, CANARY, CANARY, CANARY, CANARY};
    uint64_t count = 9;
    double time = 9;
    CHECK_NUMBER(JT_BAD_STATE, jt_put(state, len, table, table_len, NULL, 0, NULL, 0));
    CHECK_NUMBER(JT_BAD_STATE, jt_inject_input(state, len, 0, 0, 1, 1, 0, 1));
    CHECK_NUMBER(JT_BAD_STATE, jt_step(state, len, services, 3, rows, 6, report));
    CHECK(report[0] == 0 && report[1] == 0 && report[2] == JT_END_REFUSED);
    CHECK_NUMBER(JT_BAD_STATE, jt_step_n(state, len, services, 3, 0, rows, 6, report));
    CHECK_NUMBER(JT_BAD_STATE, jt_step_until(state, len, services, 3, -1, 0, rows, 6, report));
    CHECK_NUMBER(JT_BAD_STATE, jt_reset(state, len));
    CHECK_NUMBER(JT_BAD_STATE, jt_reset_messages(state, len));
    CHECK_NUMBER(JT_BAD_STATE, jt_reset_global_time(state, len));
    CHECK_NUMBER(JT_BAD_STATE, jt_get_status(state, len, 1, status));
    CHECK_NUMBER(JT_BAD_STATE, jt_get_messages(state, len, rows, 6, &count));
    CHECK_NUMBER(JT_BAD_STATE, jt_get_global_time(state, len, &time));
    CHECK(status[0] == 9 && status[1] == 9 && count == 9 && time == 9);
    for (int i = 0; i < 6; i++)
        CHECK(rows[i] == CANARY);
    CHECK(same(before, state, len));
    free(before);
}

static void test_cut_short(void) {
    struct bench b;
    bench_run(&b);
    for (size_t len = 0; len < b.state.len; len++) {
        struct guarded cut = guarded_new(len);
        if (len > 0)
            memcpy(cut.words, b.state.words, len * sizeof(uint64_t));
        all_refuse(cut.words, len, b.models, b.models_len);
        CHECK_NUMBER(JT_BAD_STATE, jt_post(b.models, b.models_len, b.connectors, b.connectors_len, NULL, 0, cut.words, len));
        guarded_free(cut);
    }
    all_refuse(NULL, 0, NULL, 0);
    guarded_free(b.state);
}

/* Each word of a state, changed to something that it may not be. */
static void refuses_word(struct bench *b, size_t at, uint64_t value) {
    uint64_t kept = b->state.words[at];
    b->state.words[at] = value;
    all_refuse(b->state.words, b->state.len, b->models, b->models_len);
    b->state.words[at] = kept;
}

static void test_bad_words(void) {
    struct bench b;
    bench_run(&b);
    const size_t tail = 3 + 20 + 4;
    const size_t own = 3 + 2 * 4;
    refuses_word(&b, 0, 3);
    refuses_word(&b, 0, UINT64_MAX);
    refuses_word(&b, 1, UINT64_MAX / 4 + 1);
    refuses_word(&b, 2, 257);
    refuses_word(&b, 3 + 1, 5);
    refuses_word(&b, 3 + 10, 1);
    refuses_word(&b, 3 + 20, 65536);
    refuses_word(&b, tail, 257);
    refuses_word(&b, tail, 4);
    refuses_word(&b, tail + 1, 0x8000000000000000);
    refuses_word(&b, tail + 1, 0x7ff0000000000000);
    refuses_word(&b, tail + 3, 3);
    refuses_word(&b, tail + 7, 2);
    refuses_word(&b, tail + 7, 1);
    refuses_word(&b, tail + 4, 0x7ff8000000000000);
    refuses_word(&b, tail + 5, 65);
    refuses_word(&b, tail + 9, 9);
    refuses_word(&b, tail + 6, own + 1);
    refuses_word(&b, tail + own, 1);
    refuses_word(&b, tail + own + 127, 1);
    refuses_word(&b, tail + own + 128, 65536);
    refuses_word(&b, tail + own + 128 + 4, 0xfff0000000000000);
    refuses_word(&b, tail + own + 128 + 5, 0x100000000);
    CHECK_NUMBER(JT_OK, step(&b, services, 3));
    guarded_free(b.state);
}

/* The same of a stopwatch's names and marks, and of a Coupled, which keeps neither phase nor timer. */
static void test_bad_marks(void) {
    struct bench b;
    memset(&b, 0, sizeof b);
    stopwatch(&b, 10);
    coupled(&b, 20, 0, 0);
    post(&b);
    CHECK_NUMBER(JT_OK, inject(&b, 10, 1, 5));
    CHECK_NUMBER(JT_OK, inject(&b, 10, 1, 6));
    CHECK_NUMBER(JT_OK, step(&b, NULL, 0));
    const size_t tail = 3 + 20;
    const size_t names = tail + 3 + 2 * 4;
    const size_t starts = names + 64;
    const size_t stops = names + 128;
    CHECK_NUMBER(5, b.state.words[names]);
    CHECK_NUMBER(0x7ff0000000000000, b.state.words[stops]);
    refuses_word(&b, names, 6);
    refuses_word(&b, names, 0x100000000);
    refuses_word(&b, names + 2, 1);
    refuses_word(&b, starts, 0x8000000000000000);
    refuses_word(&b, starts + 1, 0x7ff8000000000000);
    refuses_word(&b, starts + 2, 0x7ff0000000000000);
    refuses_word(&b, stops, 0x43b0000000000001);
    refuses_word(&b, stops + 63, 1);
    refuses_word(&b, tail + 3, 2);
    refuses_word(&b, tail + 5, 1);
    refuses_word(&b, tail + 5, 65);
    refuses_word(&b, tail + 7, 1);
    refuses_word(&b, tail + 8, 0x7ff0000000000000);
    refuses_word(&b, tail + 9, 65);
    refuses_word(&b, names + 192, 1);
    CHECK_NUMBER(JT_IDLE, step(&b, NULL, 0));
    guarded_free(b.state);
}

/* Words beyond the state's end are neither read nor written. */
static void test_beyond(void) {
    struct bench b;
    uint64_t report[3];
    bench_run(&b);
    const size_t end = 3 + 20 + 4 + 3 + 8 + 128 + 18;
    for (size_t i = end; i < b.state.len; i++)
        b.state.words[i] = CANARY + i;
    CHECK_NUMBER(JT_NO_OUT_ROOM, jt_step_n(b.state.words, b.state.len, services, 3, 100, NULL, 0, report));
    CHECK_NUMBER(0, report[0]);
    CHECK_NUMBER(JT_OK, step(&b, services, 3));
    for (size_t i = end; i < b.state.len; i++)
        CHECK(b.state.words[i] == CANARY + i);
    guarded_free(b.state);
}

/* ---- nothing at all: no rows, no words, null pointers */
static void test_nothing(void) {
    struct guarded state = guarded_new(jt_state_words(0, 0, 0));
    uint64_t report[3];
    uint64_t count = 9;
    double clock = 9;
    CHECK_NUMBER(1542, state.len);
    CHECK_NUMBER(JT_BAD_STATE, jt_post(NULL, 0, NULL, 0, NULL, 0, NULL, 0));
    CHECK_NUMBER(JT_BAD_STATE, jt_post(NULL, 0, NULL, 0, NULL, 0, state.words, state.len - 1));
    CHECK_NUMBER(JT_OK, jt_post(NULL, 0, NULL, 0, NULL, 0, state.words, state.len));
    CHECK_NUMBER(JT_IDLE, jt_step(state.words, state.len, NULL, 0, NULL, 0, report));
    CHECK_NUMBER(JT_OK, jt_step_n(state.words, state.len, NULL, 0, 0, NULL, 0, report));
    CHECK(report[0] == 0 && report[1] == 0 && report[2] == JT_END_DONE);
    CHECK_NUMBER(JT_OK, jt_get_messages(state.words, state.len, NULL, 0, &count));
    CHECK_NUMBER(0, count);
    CHECK_NUMBER(JT_OK, jt_get_global_time(state.words, state.len, &clock));
    CHECK_NUMBER(0, bits_of(clock));
    CHECK_NUMBER(JT_OK, jt_inject_input(state.words, state.len, 1, 2, 3, 4, 5, 6));
    CHECK_NUMBER(JT_NO_OUT_ROOM, jt_get_messages(state.words, state.len, NULL, 0, &count));
    guarded_free(state);
}

/* ---- what the header says of refusals beyond their numbers */
static void test_said_of_refusals(void) {
    static uint64_t rows[650];
    static uint64_t zeros[1542];
    const double minus_zero[1] = {-0.0};
    struct bench b;
    uint64_t report[3] = {7, 7, 7};
    uint64_t count = 7;
    double clock = 7;
    /* a table that is too large needs no words */
    CHECK_NUMBER(JT_TOO_LARGE, jt_post(rows, 641, NULL, 0, NULL, 0, NULL, 0));
    CHECK_NUMBER(JT_TOO_LARGE, jt_put(zeros, 1542, rows, 641, NULL, 0, NULL, 0));
    CHECK_NUMBER(JT_BAD_STATE, jt_put(zeros, 1541, rows, 641, NULL, 0, NULL, 0));
    /* zeros are the empty table, and a run that is refused at once still reports */
    CHECK_NUMBER(JT_BAD_STATE, jt_step(zeros, 1541, NULL, 0, NULL, 0, report));
    CHECK(report[0] == 0 && report[1] == 0 && report[2] == JT_END_REFUSED);
    report[2] = 7;
    CHECK_NUMBER(JT_IDLE, jt_step(zeros, 1542, NULL, 0, NULL, 0, report));
    CHECK(report[0] == 0 && report[1] == 0 && report[2] == JT_END_REFUSED);
    report[2] = 7;
    CHECK_NUMBER(JT_BAD_TIME, jt_step_until(zeros, 1542, NULL, 0, -0.0, 1, NULL, 0, report));
    CHECK(report[0] == 0 && report[1] == 0 && report[2] == JT_END_REFUSED);
    CHECK_NUMBER(JT_BAD_STATE, jt_get_messages(zeros, 1541, NULL, 0, &count));
    CHECK_NUMBER(JT_BAD_STATE, jt_get_global_time(zeros, 1541, &clock));
    CHECK(count == 7 && clock == 7);
    bench_run(&b);
    CHECK_NUMBER(JT_BAD_TIME, jt_step_n(b.state.words, b.state.len, minus_zero, 1, 9, rows, 650, report));
    CHECK(report[0] == 1 && report[1] == 2 && report[2] == JT_END_REFUSED);
    guarded_free(b.state);
    /* at its capacity a processor drops; with room by its capacity the 65th job is refused */
    for (uint64_t capacity = 64; capacity <= 65; capacity++) {
        memset(&b, 0, sizeof b);
        processor(&b, 1, capacity);
        post(&b);
        for (uint32_t job = 0; job < 65; job++)
            CHECK_NUMBER(JT_OK, inject(&b, 1, 1, job));
        CHECK_NUMBER(capacity == 64 ? JT_OK : JT_NO_QUEUE_ROOM, step(&b, services, 3));
        guarded_free(b.state);
    }
    /* what is only read may be lent twice */
    memset(&b, 0, sizeof b);
    coupled(&b, 1, 0, 0);
    b.state = guarded_new(jt_state_words(10, 8, 0));
    CHECK_NUMBER(JT_OK, jt_post(b.models, 10, b.models, 8, NULL, 0, b.state.words, b.state.len));
    CHECK(same(b.models, b.state.words + 3, 10) && same(b.models, b.state.words + 13, 8));
    guarded_free(b.state);
}

/* ---- parked messages: four Coupleds 1 to 4, each in the one before, and a processor 5 in the last */
enum { DEEPEST = 4 };

static void nested_bench(struct bench *b) {
    static const uint64_t inner[10] = {DEEPEST + 1, PROCESSOR, PARENT_GIVEN | CAPACITY_GIVEN, DEEPEST, 1, 0, 0, 2, UINT64_MAX, 0};
    memset(b, 0, sizeof *b);
    for (uint64_t id = 1; id <= DEEPEST; id++) {
        const uint64_t in[6] = {id, 1, 0, 1, id + 1, 1};
        coupled(b, id, id == 1 ? 0 : PARENT_GIVEN, id - 1);
        coupling(b, in);
    }
    model(b, inner);
    post(b);
}

/* So many messages are parked in a Coupled's words, all for the same id, at port 1. */
static void park(struct bench *b, size_t row, uint64_t id, uint64_t count) {
    uint64_t *head = b->state.words + head_at(b->state.words, row);
    uint64_t *own = b->state.words + tail_at(b->state.words) + head[3];
    head[2] = count;
    for (uint64_t i = 0; i < count; i++)
        own[i] = id << 48 | (uint64_t)1 << 32 | (i + 1);
}

/* At each depth a parked message is handed over in the next step, with no time passing; then the processor has it. */
static void test_parked(void) {
    static const uint64_t counts[] = {1, 2, 63, 64};
    struct bench b;
    double clock;
    for (size_t row = 0; row < DEEPEST; row++)
        for (size_t i = 0; i < sizeof counts / sizeof *counts; i++) {
            nested_bench(&b);
            const uint64_t *processor = b.state.words + head_at(b.state.words, DEEPEST);
            park(&b, row, row + 2, counts[i]);
            CHECK_NUMBER(JT_OK, step(&b, services, 3));
            CHECK_NUMBER(0, b.state.words[head_at(b.state.words, row) + 2]);
            CHECK(processor[0] == 1 && processor[1] == bits_of(services[0]) && processor[2] == counts[i]);
            CHECK_NUMBER(JT_OK, jt_get_global_time(b.state.words, b.state.len, &clock));
            CHECK(clock == 0);
            guarded_free(b.state);
        }
    nested_bench(&b);
    park(&b, 0, 2, 65);
    CHECK_NUMBER(JT_BAD_STATE, step(&b, services, 3));
    guarded_free(b.state);
}

/* Parked for nobody: due once, lost, and then there is nothing left. What the component refuses, it refuses in every step. */
static void test_parked_in_vain(void) {
    static const uint64_t ids[] = {0, 1, 3, 9, 65535};
    struct bench b;
    for (size_t row = 0; row < DEEPEST; row++)
        for (size_t i = 0; i < sizeof ids / sizeof *ids; i++) {
            if (ids[i] == row + 2)
                continue;
            nested_bench(&b);
            park(&b, row, ids[i], 64);
            CHECK_NUMBER(JT_OK, step(&b, services, 3));
            CHECK_NUMBER(0, b.state.words[head_at(b.state.words, row) + 2]);
            CHECK_NUMBER(JT_IDLE, step(&b, services, 3));
            guarded_free(b.state);
        }
    nested_bench(&b);
    park(&b, DEEPEST - 1, DEEPEST + 1, 1);
    uint64_t *before = copy_of(b.state.words, b.state.len);
    CHECK_NUMBER(JT_NO_SERVICE_TIME, step(&b, services, 0));
    CHECK_NUMBER(JT_NO_SERVICE_TIME, step(&b, services, 0));
    CHECK(same(before, b.state.words, b.state.len));
    CHECK_NUMBER(JT_OK, step(&b, services, 1));
    free(before);
    guarded_free(b.state);
}

int main(void) {
    test_bench_listing();
    test_step_until();
    test_kept_steps();
    test_table_refusals();
    test_model_refusals();
    test_message_refusals();
    test_time_refusals();
    test_status();
    test_parked();
    test_parked_in_vain();
    test_reset_and_put();
    test_cut_short();
    test_bad_words();
    test_bad_marks();
    test_beyond();
    test_nothing();
    test_said_of_refusals();
    return tell("calls");
}
