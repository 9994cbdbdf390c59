/* jt_intake, an omitted queue_capacity, and the migration of tables and states that were written when it meant 2^64 - 1. */
#include "bench_tables.h"
#include "layout.h"

enum { MOST_FIELDS = 7 };

static const double times[1] = {4};

/* A processor with these optional fields; where its capacity is omitted, the setting is not looked at. */
static void processor_saying(uint64_t row[10], uint64_t id, uint64_t fields, uint64_t setting) {
    const uint64_t words[10] = {id, PROCESSOR, fields, 0, 1, 0, 0, 2, setting, 0};
    memcpy(row, words, sizeof words);
}

/* What intake answers and reports. Nothing that it only reads is changed, and jt_post answers the same. */
static void intake_is(uint32_t wanted, uint64_t part, uint64_t row, uint64_t omitted, const struct bench *b) {
    struct guarded models = guarded_of(b->models, b->models_len);
    struct guarded connectors = guarded_of(b->connectors, b->connectors_len);
    struct guarded couplings = guarded_of(b->couplings, b->couplings_len);
    struct guarded report = guarded_new(3);
    struct guarded state = guarded_new(17286);
    CHECK_NUMBER(wanted, jt_intake(models.words, models.len, connectors.words, connectors.len, couplings.words, couplings.len,
                                   report.words));
    CHECK_NUMBER(part, report.words[0]);
    CHECK_NUMBER(row, report.words[1]);
    CHECK_NUMBER(omitted, report.words[2]);
    CHECK(same(b->models, models.words, models.len));
    CHECK(same(b->connectors, connectors.words, connectors.len));
    CHECK(same(b->couplings, couplings.words, couplings.len));
    CHECK_NUMBER(wanted, jt_post(models.words, models.len, connectors.words, connectors.len, couplings.words, couplings.len,
                                 state.words, state.len));
    guarded_free(models);
    guarded_free(connectors);
    guarded_free(couplings);
    guarded_free(report);
    guarded_free(state);
}

/* ---- intake: nothing, each kind, and where the first bad row stands */
static void test_intake_of_nothing(void) {
    uint64_t report[3] = {7, 7, 7};
    CHECK_NUMBER(JT_OK, jt_intake(NULL, 0, NULL, 0, NULL, 0, report));
    CHECK(report[0] == JT_NOWHERE && report[1] == 0 && report[2] == 0);
}

static void test_who_omits(void) {
    struct bench b;
    memset(&b, 0, sizeof b);
    batcher(&b, 1, 1, BATCH);
    stopwatch(&b, 2);
    coupled(&b, 3, 0, 0);
    intake_is(JT_OK, JT_NOWHERE, 0, 0, &b);
    processor(&b, 4, 8);
    intake_is(JT_OK, JT_NOWHERE, 0, 0, &b);
    for (uint64_t fields = 0; fields <= MOST_FIELDS; fields++) {
        processor_saying(b.models + b.models_len, 10 + fields, fields, 8);
        b.models[b.models_len + 3] = 3;
        b.models_len += 10;
    }
    /* of the eight, those without 2: a parent and a metric say nothing of it */
    intake_is(JT_OK, JT_NOWHERE, 0, 4, &b);
}

static void test_64_omit(void) {
    struct bench b;
    memset(&b, 0, sizeof b);
    for (uint64_t row = 0; row < 64; row++)
        processor_saying(b.models + 10 * row, row, 0, UINT64_MAX);
    b.models_len = 640;
    intake_is(JT_OK, JT_NOWHERE, 0, 64, &b);
    b.models[639 - 5] = 65536;
    intake_is(JT_BAD_ROW, JT_MODELS, 63, 0, &b);
}

static void test_where_it_is_bad(void) {
    static const uint64_t input[6] = {1, EXTERNAL_INPUT, 0, 1, 2, 1};
    static uint64_t words[1537];
    uint64_t report[3] = {7, 7, 7};
    struct bench b;
    memset(&b, 0, sizeof b);
    coupled(&b, 1, 0, 0);
    processor_saying(b.models + 10, 2, 0, 0);
    b.models_len = 20;
    for (int i = 0; i < 3; i++)
        connector(&b, 2, 2, 2, 1);
    coupling(&b, input);
    intake_is(JT_BAD_COUPLING, JT_COUPLINGS, 0, 0, &b);
    b.connectors[8] = 65536;
    intake_is(JT_BAD_COUPLING, JT_CONNECTORS, 2, 0, &b);
    b.connectors_len = 5;
    intake_is(JT_BAD_COUPLING, JT_CONNECTORS, 1, 0, &b);
    b.models_len = 19;
    intake_is(JT_BAD_ROW, JT_MODELS, 1, 0, &b);
    b.models[0] = 65536;
    intake_is(JT_BAD_ROW, JT_MODELS, 0, 0, &b);
    b.models_len = 1;
    intake_is(JT_BAD_ROW, JT_MODELS, 0, 0, &b);
    CHECK_NUMBER(JT_TOO_LARGE, jt_intake(words, 641, words, 1, words, 1, report));
    CHECK(report[0] == JT_NOWHERE && report[1] == 0 && report[2] == 0);
    report[0] = 7;
    CHECK_NUMBER(JT_TOO_LARGE, jt_intake(words, 640, words, 1025, NULL, 0, report));
    CHECK_NUMBER(JT_TOO_LARGE, jt_intake(NULL, 0, NULL, 0, words, 1537, report));
    CHECK(report[0] == JT_NOWHERE && report[1] == 0 && report[2] == 0);
}

/* ---- 32 jobs are kept, and the 33rd is dropped */
static uint64_t held_after(uint64_t fields, uint64_t setting, uint32_t jobs) {
    struct bench b;
    uint64_t rows[6];
    uint64_t report[3];
    memset(&b, 0, sizeof b);
    processor_saying(b.models, 1, fields, setting);
    b.models_len = 10;
    post(&b);
    for (uint32_t job = 1; job <= jobs; job++)
        CHECK_NUMBER(JT_OK, inject(&b, 1, 1, job));
    CHECK_NUMBER(JT_OK, jt_step(b.state.words, b.state.len, times, 1, rows, 6, report));
    const uint64_t held = b.state.words[head_at(b.state.words, 0) + 2];
    const uint64_t *own = b.state.words + head_at(b.state.words, 1);
    for (uint64_t job = 0; job < 64; job++)
        CHECK_NUMBER(job < held ? job + 1 : 0, own[job]);
    guarded_free(b.state);
    return held;
}

static void test_33rd_is_dropped(void) {
    CHECK_NUMBER(1, held_after(0, 0, 1));
    CHECK_NUMBER(31, held_after(0, 0, 31));
    CHECK_NUMBER(32, held_after(0, 0, 32));
    CHECK_NUMBER(JT_OMITTED_CAPACITY, held_after(0, 0, 33));
    CHECK_NUMBER(32, held_after(0, UINT64_MAX, 256));
    CHECK_NUMBER(32, held_after(METRIC_GIVEN, 1, 64));
    /* written out, any number is what it says */
    CHECK_NUMBER(1, held_after(CAPACITY_GIVEN, 1, 33));
    CHECK_NUMBER(32, held_after(CAPACITY_GIVEN, 32, 33));
    CHECK_NUMBER(33, held_after(CAPACITY_GIVEN, 33, 33));
    CHECK_NUMBER(64, held_after(CAPACITY_GIVEN, UINT64_MAX, 64));
}

/* ---- the migration: these words become those, and so many rows were written */
static void migrates(const uint64_t *before, const uint64_t *after, size_t len, uint64_t wanted) {
    struct guarded models = guarded_of(before, len);
    struct guarded count = guarded_new(1);
    CHECK_NUMBER(0, jt_write_out_capacity(models.words, len, count.words));
    CHECK_NUMBER(wanted, count.words[0]);
    CHECK(same(after, models.words, len));
    CHECK_NUMBER(0, jt_write_out_capacity(models.words, len, count.words));
    CHECK_NUMBER(0, count.words[0]);
    CHECK(same(after, models.words, len));
    guarded_free(models);
    guarded_free(count);
}

static void test_migration(void) {
    uint64_t count = 7;
    CHECK_NUMBER(0, jt_write_out_capacity(NULL, 0, &count));
    CHECK_NUMBER(0, count);
    for (uint64_t kind = 0; kind <= 5; kind++)
        for (uint64_t fields = 0; fields <= MOST_FIELDS + 2; fields++) {
            const int omits = kind == PROCESSOR && fields <= MOST_FIELDS && (fields & CAPACITY_GIVEN) == 0;
            const uint64_t before[20] = {70000, kind, fields, 5, 6, 70001, 8, 9, 40, 11, 1, kind, fields, 0, 0, 0, 0, 0, 0};
            uint64_t after[20];
            memcpy(after, before, sizeof after);
            if (omits) {
                after[2] += CAPACITY_GIVEN;
                after[8] = UINT64_MAX;
            }
            for (size_t len = 0; len < 10; len++)
                migrates(before, before, len, 0);
            for (size_t len = 10; len < 20; len++)
                migrates(before, after, len, omits ? 1 : 0);
        }
    const uint64_t far[10] = {1, PROCESSOR, UINT64_MAX - 2, 0, 0, 0, 0, 0, 0, 0};
    migrates(far, far, 10, 0);
}

/* More rows than a table may have: any words may be lent. */
static void test_long_migration(void) {
    enum { ROWS = 100 };
    uint64_t before[10 * ROWS + 9];
    uint64_t after[10 * ROWS + 9];
    memset(before, 0, sizeof before);
    for (uint64_t row = 0; row < ROWS; row++)
        processor_saying(before + 10 * row, row, row % 2 == 0 ? 0 : CAPACITY_GIVEN, 5);
    memcpy(after, before, sizeof after);
    for (uint64_t row = 0; row < ROWS; row += 2) {
        after[10 * row + 2] = CAPACITY_GIVEN;
        after[10 * row + 8] = UINT64_MAX;
    }
    migrates(before, after, 10 * ROWS + 9, ROWS / 2);
}

/* ---- a state stored before: 40 jobs under an omitted capacity */
static struct bench stored(uint64_t fields, uint32_t jobs) {
    struct bench b;
    uint64_t rows[6];
    uint64_t report[3];
    memset(&b, 0, sizeof b);
    batcher(&b, 7, 2, BATCH);
    processor(&b, 1, UINT64_MAX);
    connector(&b, 7, 2, 1, 1);
    post(&b);
    for (uint32_t job = 1; job <= jobs; job++)
        CHECK_NUMBER(JT_OK, inject(&b, 1, 1, job));
    CHECK_NUMBER(JT_OK, jt_step(b.state.words, b.state.len, times, 1, rows, 6, report));
    CHECK_NUMBER(jobs, b.state.words[head_at(b.state.words, 1) + 2]);
    b.state.words[3 + 10 + 2] = fields;
    b.state.words[3 + 10 + 8] = 0;
    return b;
}

/* One job more is kept, as it was then; the 65th is refused. */
static void goes_on(struct bench *b, uint64_t held) {
    uint64_t rows[6];
    uint64_t report[3];
    CHECK_NUMBER(JT_OK, inject(b, 1, 1, 99));
    CHECK_NUMBER(held < 64 ? JT_OK : JT_NO_QUEUE_ROOM, jt_step(b->state.words, b->state.len, times, 1, rows, 6, report));
    CHECK_NUMBER(held < 64 ? held + 1 : 64, b->state.words[head_at(b->state.words, 1) + 2]);
}

static void test_stored_state(void) {
    static const uint32_t jobs[] = {1, 32, 33, 40, 64};
    for (size_t i = 0; i < sizeof jobs / sizeof *jobs; i++) {
        struct bench b = stored(0, jobs[i]);
        uint64_t *state = b.state.words;
        uint64_t *before = copy_of(state, b.state.len);
        double clock;
        uint64_t count;
        uint64_t status[2];
        CHECK_NUMBER(jobs[i] <= 32 ? JT_OK : JT_BAD_STATE, jt_get_global_time(state, b.state.len, &clock));
        CHECK(same(before, state, b.state.len));
        CHECK(state[0] <= 64 && 3 + 10 * state[0] <= b.state.len);
        CHECK_NUMBER(0, jt_write_out_capacity(state + 3, (size_t)(10 * state[0]), &count));
        CHECK_NUMBER(1, count);
        CHECK_NUMBER(JT_OK, jt_get_status(state, b.state.len, 1, status));
        /* the same jobs, and all other words */
        before[3 + 10 + 2] = CAPACITY_GIVEN;
        before[3 + 10 + 8] = UINT64_MAX;
        CHECK(same(before, state, b.state.len));
        CHECK_NUMBER(jobs[i], state[head_at(state, 1) + 2]);
        goes_on(&b, jobs[i]);
        free(before);
        guarded_free(b.state);
    }
}

int main(void) {
    test_intake_of_nothing();
    test_who_omits();
    test_64_omit();
    test_where_it_is_bad();
    test_33rd_is_dropped();
    test_migration();
    test_long_migration();
    test_stored_state();
    return tell("intake");
}
