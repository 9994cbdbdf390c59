/* The header's constants: tables written by their names alone, and what the library makes of them. With another number in a
 * constant the table is refused, or the run differs. Every port has a number of its own. */
#include "checks.h"
#include "jambthrush.h"
#include "words.h"

enum { STATE_WORDS = 17286, ROWS = 64 }; /* of the largest table; for any run here */
enum { PROCESSOR = 101, BATCHER, STOPWATCH, COUPLED, SECOND, OUTSIDE }; /* ids */
enum { JOB = 11, DONE, START, STOP, ASK, ANSWER, ENTRY, EXIT, NEXT, NEXT_DONE, ELSEWHERE }; /* ports */

static struct {
    uint64_t models[(JT_MOST_MODELS + 1) * JT_MODEL_WORDS];
    uint64_t connectors[(JT_MOST_CONNECTORS + 1) * JT_CONNECTOR_WORDS];
    uint64_t couplings[(JT_MOST_COUPLINGS + 1) * JT_COUPLING_WORDS];
    size_t models_len, connectors_len, couplings_len;
    uint64_t state[STATE_WORDS], rows[ROWS * JT_MESSAGE_WORDS], report[3];
} t;
static double services[ROWS];

static void fresh(void) {
    memset(&t, 0, sizeof t);
}

static uint64_t *model(uint64_t id, uint64_t kind) {
    uint64_t *row = t.models + t.models_len;
    t.models_len += JT_MODEL_WORDS;
    row[JT_MODEL_ID] = id;
    row[JT_MODEL_KIND] = kind;
    return row;
}

static uint64_t *processor(uint64_t id, uint64_t in, uint64_t out) {
    uint64_t *row = model(id, JT_PROCESSOR);
    row[JT_PROCESSOR_IN] = in;
    row[JT_PROCESSOR_OUT] = out;
    return row;
}

static uint64_t *batcher(uint64_t size, double time) {
    uint64_t *row = model(BATCHER, JT_BATCHER);
    row[JT_BATCHER_IN] = JOB;
    row[JT_BATCHER_OUT] = DONE;
    row[JT_BATCHER_MAX_BATCH_SIZE] = size;
    row[JT_BATCHER_MAX_BATCH_TIME] = bits_of(time);
    return row;
}

static void component_of(uint64_t *row, uint64_t parent) {
    row[JT_MODEL_GIVEN] += JT_GIVEN_PARENT;
    row[JT_MODEL_PARENT] = parent;
}

static void connector(uint64_t source, uint64_t port, uint64_t target, uint64_t target_port) {
    uint64_t *row = t.connectors + t.connectors_len;
    t.connectors_len += JT_CONNECTOR_WORDS;
    row[JT_CONNECTOR_SOURCE_ID] = source;
    row[JT_CONNECTOR_SOURCE_PORT] = port;
    row[JT_CONNECTOR_TARGET_ID] = target;
    row[JT_CONNECTOR_TARGET_PORT] = target_port;
}

static void coupling(uint64_t kind, uint64_t source, uint64_t port, uint64_t target, uint64_t target_port) {
    uint64_t *row = t.couplings + t.couplings_len;
    t.couplings_len += JT_COUPLING_WORDS;
    row[JT_COUPLING_OWNER_ID] = COUPLED;
    row[JT_COUPLING_KIND] = kind;
    row[JT_COUPLING_SOURCE_ID] = source;
    row[JT_COUPLING_SOURCE_PORT] = port;
    row[JT_COUPLING_TARGET_ID] = target;
    row[JT_COUPLING_TARGET_PORT] = target_port;
}

static uint32_t post(void) {
    return jt_post(t.models, t.models_len, t.connectors, t.connectors_len, t.couplings, t.couplings_len, t.state, STATE_WORDS);
}

static uint32_t inject(uint16_t id, uint16_t port, uint32_t first, uint32_t last) {
    uint32_t refusal = JT_OK;
    for (uint32_t job = first; refusal == JT_OK && job <= last; job++)
        refusal = jt_inject_input(t.state, STATE_WORDS, OUTSIDE, ELSEWHERE, id, port, 0.0, job);
    return refusal;
}

/* Until there is nothing left to do: the rows are those of the whole run. */
static void run_to_idle(uint64_t rows) {
    CHECK_NUMBER(JT_IDLE, jt_step_n(t.state, STATE_WORDS, services, ROWS, 1000, t.rows, ROWS * JT_MESSAGE_WORDS, t.report));
    CHECK_NUMBER(rows, t.report[1]);
}

static uint32_t step(void) {
    return jt_step(t.state, STATE_WORDS, services, ROWS, t.rows, ROWS * JT_MESSAGE_WORDS, t.report);
}

/* The row i of the run: a message to the outside. */
static void row_is(size_t i, uint64_t source, uint64_t port, double time, uint64_t content) {
    const uint64_t *row = t.rows + i * JT_MESSAGE_WORDS;
    CHECK_NUMBER(source, row[JT_MESSAGE_SOURCE_ID]);
    CHECK_NUMBER(port, row[JT_MESSAGE_SOURCE_PORT]);
    CHECK_NUMBER(OUTSIDE, row[JT_MESSAGE_TARGET_ID]);
    CHECK_NUMBER(ELSEWHERE, row[JT_MESSAGE_TARGET_PORT]);
    CHECK_NUMBER(bits_of(time), row[JT_MESSAGE_TIME]);
    CHECK_NUMBER(content, row[JT_MESSAGE_CONTENT]);
}

static void status_is(uint16_t id, uint64_t kind, uint64_t value) {
    CHECK_NUMBER(JT_OK, jt_get_status(t.state, STATE_WORDS, id, t.report));
    CHECK_NUMBER(kind, t.report[0]);
    CHECK_NUMBER(value, t.report[1]);
}

/* ---- the words of each kind */

/* Two jobs of three are held where 2 is given; where it is not given the same word is not looked at. */
static void test_processor(void) {
    for (int given = 0; given <= 1; given++) {
        fresh();
        uint64_t *row = processor(PROCESSOR, JOB, DONE);
        row[JT_PROCESSOR_QUEUE_CAPACITY] = 2;
        if (given)
            row[JT_MODEL_GIVEN] = JT_GIVEN_QUEUE_CAPACITY;
        connector(PROCESSOR, DONE, OUTSIDE, ELSEWHERE);
        CHECK_NUMBER(JT_OK, post());
        CHECK_NUMBER(JT_OK, inject(PROCESSOR, JOB, 1, JT_OMITTED_CAPACITY + 1));
        run_to_idle(given ? 2 : JT_OMITTED_CAPACITY);
        row_is(0, PROCESSOR, DONE, 4, 1);
        row_is(1, PROCESSOR, DONE, 9, 2);
        status_is(PROCESSOR, JT_STATUS_PROCESSOR, 0);
        CHECK_NUMBER(JT_OK, inject(PROCESSOR, ASK, 1, 1));
        CHECK_NUMBER(JT_INVALID_MESSAGE, step());
    }
}

/* Two jobs wait for the batch time, a third one would have made the batch. */
static void test_batcher(void) {
    for (uint32_t jobs = 2; jobs <= 3; jobs++) {
        fresh();
        batcher(3, 5);
        connector(BATCHER, DONE, OUTSIDE, ELSEWHERE);
        CHECK_NUMBER(JT_OK, post());
        CHECK_NUMBER(JT_OK, inject(BATCHER, JOB, 1, jobs));
        run_to_idle(jobs);
        row_is(0, BATCHER, DONE, jobs == 2 ? 5 : 0, 1);
        status_is(BATCHER, JT_STATUS_BATCHER, 0);
    }
    CHECK_NUMBER(JT_PROCESSOR_IN, JT_BATCHER_IN); /* a batcher's port is not looked at: no run shows where it stands */
}

/* Job 1 takes 4, job 2 takes 9. */
static void watch(uint64_t given, uint64_t metric, uint64_t answer) {
    fresh();
    processor(PROCESSOR, JOB, DONE);
    uint64_t *row = model(STOPWATCH, JT_STOPWATCH);
    row[JT_MODEL_GIVEN] = given;
    row[JT_STOPWATCH_START] = START;
    row[JT_STOPWATCH_STOP] = STOP;
    row[JT_STOPWATCH_ASK] = ASK;
    row[JT_STOPWATCH_OUT] = ANSWER;
    row[JT_STOPWATCH_METRIC] = metric;
    connector(PROCESSOR, DONE, STOPWATCH, STOP);
    connector(STOPWATCH, ANSWER, OUTSIDE, ELSEWHERE);
    CHECK_NUMBER(JT_OK, post());
    status_is(STOPWATCH, JT_STATUS_NO_MEAN, 0);
    CHECK_NUMBER(JT_OK, inject(STOPWATCH, START, 1, 2));
    CHECK_NUMBER(JT_OK, inject(PROCESSOR, JOB, 1, 2));
    run_to_idle(2);
    status_is(STOPWATCH, JT_STATUS_MEAN, bits_of(6.5));
    CHECK_NUMBER(JT_OK, inject(STOPWATCH, ASK, 3, 3));
    run_to_idle(1);
    row_is(0, STOPWATCH, ANSWER, 9, answer);
}

static void test_stopwatch(void) {
    watch(0, JT_MAXIMUM, 1);
    watch(JT_GIVEN_METRIC, JT_MINIMUM, 1);
    watch(JT_GIVEN_METRIC, JT_MAXIMUM, 2);
}

/* In by one port, through two components, out by another. */
static void test_coupled(void) {
    fresh();
    model(COUPLED, JT_COUPLED);
    component_of(processor(PROCESSOR, JOB, DONE), COUPLED);
    component_of(processor(SECOND, NEXT, NEXT_DONE), COUPLED);
    coupling(JT_EXTERNAL_INPUT, 0, ENTRY, PROCESSOR, JOB);
    coupling(JT_INTERNAL, PROCESSOR, DONE, SECOND, NEXT);
    coupling(JT_EXTERNAL_OUTPUT, SECOND, NEXT_DONE, 0, EXIT);
    connector(COUPLED, EXIT, OUTSIDE, ELSEWHERE);
    CHECK_NUMBER(JT_OK, post());
    CHECK_NUMBER(JT_MODEL_NOT_FOUND, jt_get_status(t.state, STATE_WORDS, PROCESSOR, t.report));
    CHECK_NUMBER(JT_OK, inject(COUPLED, ENTRY, 1, 1));
    CHECK_NUMBER(JT_OK, step());
    CHECK_NUMBER(JT_OK, step());
    status_is(COUPLED, JT_STATUS_PARKED, 1);
    run_to_idle(1);
    row_is(0, COUPLED, EXIT, 9, 1);
}

/* ---- the most there may be, and one more */

static void test_rows(void) {
    for (int more = 0; more <= 1; more++) {
        fresh();
        for (uint64_t id = 1; id <= JT_MOST_MODELS + (uint64_t)more; id++)
            processor(id, JOB, DONE);
        CHECK_NUMBER(more ? JT_TOO_LARGE : JT_OK, post());
        fresh();
        for (int i = 0; i < JT_MOST_CONNECTORS + more; i++)
            connector(1, 1, 2, 2);
        CHECK_NUMBER(more ? JT_TOO_LARGE : JT_OK, post());
        fresh();
        model(COUPLED, JT_COUPLED);
        for (int i = 0; i < JT_MOST_COUPLINGS + more; i++)
            coupling(JT_INTERNAL, 1, 1, 2, 2);
        CHECK_NUMBER(more ? JT_TOO_LARGE : JT_OK, post());
        fresh();
        model(1, JT_COUPLED);
        for (uint64_t id = 2; id <= JT_MOST_DEPTH + (uint64_t)more; id++)
            component_of(model(id, JT_COUPLED), id - 1);
        component_of(processor(OUTSIDE, JOB, DONE), JT_MOST_DEPTH);
        CHECK_NUMBER(more ? JT_BAD_ROW : JT_OK, post());
    }
}

static void test_messages(void) {
    fresh();
    batcher(1000, 5);
    CHECK_NUMBER(JT_OK, post());
    CHECK_NUMBER(JT_OK, inject(BATCHER, JOB, 1, JT_MOST_JOBS));
    CHECK_NUMBER(JT_OK, step());
    CHECK_NUMBER(JT_OK, inject(BATCHER, JOB, 1, 1));
    CHECK_NUMBER(JT_NO_QUEUE_ROOM, step());
    CHECK_NUMBER(JT_OK, jt_reset_messages(t.state, STATE_WORDS));
    CHECK_NUMBER(JT_OK, inject(OUTSIDE, JOB, 1, JT_MOST_MESSAGES));
    CHECK_NUMBER(JT_NO_MESSAGE_ROOM, inject(OUTSIDE, JOB, 1, 1));
}

/* 16 jobs, each parked along 4 couplings, are 64; 13 along 5 are one more. */
static void test_parked(void) {
    for (int more = 0; more <= 1; more++) {
        fresh();
        model(COUPLED, JT_COUPLED);
        component_of(batcher(JT_MOST_PARKED, 5), COUPLED);
        coupling(JT_EXTERNAL_INPUT, 0, ENTRY, BATCHER, JOB);
        for (int i = 0; i < (more ? 5 : 4); i++)
            coupling(JT_INTERNAL, BATCHER, DONE, SECOND, NEXT);
        CHECK_NUMBER(JT_OK, post());
        CHECK_NUMBER(JT_OK, inject(COUPLED, ENTRY, 1, more ? JT_MOST_PARKED / 5 + 1 : JT_MOST_PARKED / 4));
        CHECK_NUMBER(JT_OK, step());
        CHECK_NUMBER(more ? JT_NO_MESSAGE_ROOM : JT_OK, step());
        status_is(COUPLED, JT_STATUS_PARKED, more ? 0 : JT_MOST_PARKED);
    }
}

/* ---- traces: a block, and one row more than it holds */
static void test_traces(void) {
    uint8_t file[2 * JT_BLOCK_BYTES];
    const size_t full = JT_BLOCK_ROWS * JT_MESSAGE_WORDS;
    uint64_t written = 0;
    fresh();
    CHECK_NUMBER(JT_BLOCK_BYTES, jt_trace_bytes(JT_MESSAGE_WORDS));
    CHECK_NUMBER(JT_BLOCK_BYTES, jt_trace_bytes(full));
    CHECK_NUMBER(2 * JT_BLOCK_BYTES, jt_trace_bytes(full + JT_MESSAGE_WORDS));
    CHECK_NUMBER(JT_NO_OUT_ROOM, jt_write_trace(t.rows, full, 0, file, JT_BLOCK_BYTES - 1, &written));
    CHECK_NUMBER(JT_OK, jt_write_trace(t.rows, full, 0, file, JT_BLOCK_BYTES, &written));
    CHECK_NUMBER(JT_BLOCK_BYTES, written);
    CHECK_NUMBER(JT_OK, jt_write_trace(t.rows, full + JT_MESSAGE_WORDS, 0, file, sizeof file, &written));
    CHECK_NUMBER(JT_OK, jt_read_trace(file, sizeof file, 0, t.rows, full + JT_MESSAGE_WORDS, t.report));
    CHECK_NUMBER(JT_BLOCK_ROWS + 1, t.report[0]);
    CHECK_NUMBER(JT_TRACE_SIX, t.report[2]);
    CHECK_NUMBER(JT_OK, jt_read_trace(file, sizeof file, 1, t.rows, JT_MESSAGE_WORDS, t.report));
    CHECK_NUMBER(JT_NO_OUT_ROOM, jt_read_trace(file, sizeof file, 0, t.rows, full, t.report));
    CHECK_NUMBER(JT_BAD_BLOCK, jt_read_trace(file, sizeof file - 1, 0, t.rows, full, t.report));
    CHECK_NUMBER(JT_TRACE_SIX, t.report[2]);
}

int main(void) {
    for (int i = 0; i < ROWS; i++)
        services[i] = i == 0 ? 4 : 5;
    test_processor();
    test_batcher();
    test_stopwatch();
    test_coupled();
    test_rows();
    test_messages();
    test_parked();
    test_traces();
    return tell("constants");
}
