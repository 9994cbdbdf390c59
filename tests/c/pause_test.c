/* A run that is paused and goes on, against the same run in one go: a steps and then b, against a + b. */
#include "paused.h"

static const double late = 1152921504606846976.0; /* 2^60, the latest time there is */

/* ---- where runs begin */
static void start_with(struct start *s, const double *times, size_t times_len) {
    memset(s, 0, sizeof *s);
    s->times = times;
    s->times_len = times_len;
    s->rows_len = ROOM;
}

static void post_with_jobs(struct start *s, uint32_t jobs) {
    post(&s->bench);
    for (uint32_t job = 1; job <= jobs; job++)
        CHECK_NUMBER(JT_OK, inject(&s->bench, 1, 1, job));
}

/* Batcher and processor with three jobs: ten steps, then idle. */
static void bench_start(struct start *s) {
    start_with(s, services, 3);
    bench_run(&s->bench);
}

/* A batcher whose jobs come back to it, so many times each. */
static void feeding_itself(struct start *s, uint64_t size, double time, size_t ways, uint32_t jobs) {
    start_with(s, NULL, 0);
    batcher(&s->bench, 1, size, time);
    for (size_t i = 0; i < ways; i++)
        connector(&s->bench, 1, 2, 1, 1);
    post_with_jobs(s, jobs);
}

/* Three batchers in a ring: the clock moves, and it never goes idle. */
static void ring_start(struct start *s) {
    start_with(s, NULL, 0);
    batcher(&s->bench, 1, 2, 1.5);
    batcher(&s->bench, 2, 3, 0.25);
    batcher(&s->bench, 3, 1, 0);
    for (uint64_t id = 1; id <= 3; id++)
        connector(&s->bench, id, 2, id % 3 + 1, 1);
    post_with_jobs(s, 3);
}

/* A stopwatch beside batcher and processor: marks at both ends of a job's way, and its metric asked for after each job. */
static void stopwatch_start(struct start *s) {
    start_with(s, services, 3);
    batcher(&s->bench, 1, 2, BATCH);
    processor(&s->bench, 2, 8);
    stopwatch(&s->bench, 3);
    connector(&s->bench, 1, 2, 2, 1);
    connector(&s->bench, 1, 2, 3, 1);
    connector(&s->bench, 2, 2, 3, 2);
    connector(&s->bench, 2, 2, 3, 3);
    connector(&s->bench, 3, 4, 9, 1);
    post_with_jobs(s, 3);
}

/* Coupled 1 holds Coupled 2, which holds a batcher and a processor. Jobs that come out go in again, and to nobody (9). */
static void nested_start(struct start *s) {
    static const double times[8] = {1, 0, 2, 0.5, 3, 0, 0, 1};
    static const uint64_t inner[10] = {3, BATCHER, PARENT_GIVEN, 2, 1, 0, 0, 2, 2, 0x3ff8000000000000};
    static const uint64_t other[10] = {4, PROCESSOR, PARENT_GIVEN, 2, 1, 0, 0, 2, 0, 0};
    static const uint64_t couplings[5][6] = {{1, EXTERNAL_INPUT, 0, 1, 2, 1}, {2, EXTERNAL_INPUT, 0, 1, 3, 1},
                                             {2, INTERNAL, 3, 2, 4, 1}, {2, EXTERNAL_OUTPUT, 4, 2, 0, 2},
                                             {1, EXTERNAL_OUTPUT, 2, 2, 0, 2}};
    start_with(s, times, 8);
    coupled(&s->bench, 1, 0, 0);
    coupled(&s->bench, 2, PARENT_GIVEN, 1);
    model(&s->bench, inner);
    model(&s->bench, other);
    for (size_t i = 0; i < 5; i++)
        coupling(&s->bench, couplings[i]);
    connector(&s->bench, 1, 2, 1, 1);
    connector(&s->bench, 1, 2, 9, 1);
    post_with_jobs(s, 3);
}

static void start_free(struct start *s) {
    guarded_free(s->bench.state);
}

/* ---- runs cut at every place */
static void test_every_cut(void) {
    static void (*const makes[])(struct start *) = {bench_start, stopwatch_start, nested_start, ring_start};
    for (size_t i = 0; i < sizeof makes / sizeof makes[0]; i++) {
        struct start s;
        makes[i](&s);
        cut_up_to(&s, 24);
        start_free(&s);
    }
    CHECK(refused.first > 0 && refused.second > 0 && refused.never > 0);
}

static void cut_long(struct start *s) {
    struct run whole = in_one_go(s, 150);
    CHECK_NUMBER(JT_OK, whole.number);
    run_free(whole);
    cut_everywhere(s, 150);
    cut_small(s, 150, 1);
    start_free(s);
}

/* One that stands still at clock 0 with a row a step, one whose clock moves, one of three batchers. */
static void test_never_idle(void) {
    struct start s;
    feeding_itself(&s, 1, 0, 1, 1);
    cut_long(&s);
    feeding_itself(&s, 2, 1.5, 1, 1);
    cut_long(&s);
    ring_start(&s);
    cut_long(&s);
}

/* 13 in the first part, in the second, or in none; also where words stand past the last whole row. */
static void test_outputs(void) {
    struct start s;
    memset(&refused, 0, sizeof refused);
    feeding_itself(&s, 1, 0, 1, 1);
    cut_outputs(&s, 5);
    CHECK(refused.first > 0 && refused.second > 0 && refused.never > 0);
    start_free(&s);
    bench_start(&s);
    cut_outputs(&s, 13);
    start_free(&s);
    nested_start(&s);
    cut_outputs(&s, 12);
    start_free(&s);
}

/* a + b = 2^64 - 1: the most that one call can be asked for. */
static void test_largest_sum(void) {
    static const uint64_t firsts[] = {0, 1, 9, 10, 11, (uint64_t)1 << 63, UINT64_MAX - 1, UINT64_MAX};
    struct start s;
    bench_start(&s);
    struct run whole = in_one_go(&s, UINT64_MAX);
    CHECK_NUMBER(JT_IDLE, whole.number);
    CHECK_NUMBER(10, whole.report[0]);
    for (size_t i = 0; i < sizeof firsts / sizeof firsts[0]; i++)
        cut_at(&s, &whole, firsts[i], UINT64_MAX);
    run_free(whole);
    start_free(&s);
}

/* ---- a first part that is refused, by each number that a run gives */
/* 5: a processor's job comes back to it at a port that it does not have. */
static void unknown_port(struct start *s) {
    static const double at_once[1] = {0};
    start_with(s, at_once, 1);
    processor(&s->bench, 1, 8);
    connector(&s->bench, 1, 2, 1, 9);
    post_with_jobs(s, 1);
}

/* 6: a batcher hands its job to a processor of capacity 0. */
static void no_capacity(struct start *s) {
    start_with(s, NULL, 0);
    batcher(&s->bench, 1, 1, 0);
    processor(&s->bench, 2, 0);
    connector(&s->bench, 1, 2, 2, 1);
    post_with_jobs(s, 1);
}

/* 7: one job comes back 65 times. */
static void queue_overflow(struct start *s) {
    feeding_itself(s, 1, 0, 65, 1);
}

/* 8: one job comes back 17 times, and then 17 of them 17 times each. */
static void too_many_messages(struct start *s) {
    feeding_itself(s, 17, 0, 17, 1);
}

/* 8 from inside a Coupled: the 65th message parked, after a batch time. */
static void too_many_parked(struct start *s) {
    static const uint64_t inner[10] = {2, BATCHER, PARENT_GIVEN, 1, 1, 0, 0, 2, 2, 0x3ff0000000000000};
    static const uint64_t in[6] = {1, EXTERNAL_INPUT, 0, 1, 2, 1};
    static const uint64_t again[6] = {1, INTERNAL, 2, 2, 2, 1};
    start_with(s, NULL, 0);
    coupled(&s->bench, 1, 0, 0);
    model(&s->bench, inner);
    coupling(&s->bench, in);
    for (size_t i = 0; i < 65; i++)
        coupling(&s->bench, again);
    post_with_jobs(s, 1);
}

/* A processor with two jobs, that finishes the first at once and starts the second in the next step. */
static void two_jobs(struct start *s, const double *times, size_t times_len) {
    start_with(s, times, times_len);
    processor(&s->bench, 1, 8);
    post_with_jobs(s, 2);
}

/* 9 */
static void no_service_left(struct start *s) {
    static const double one[1] = {0};
    two_jobs(s, one, 1);
}

/* 10 */
static void no_time(struct start *s) {
    static const double minus_one[2] = {0, -1};
    two_jobs(s, minus_one, 2);
}

/* 11: two batch times of three quarters of the latest time. */
static void past_the_latest(struct start *s) {
    feeding_itself(s, 2, 0.75 * late, 1, 1);
}

/* 12: the empty table with a message for nobody. */
static void nothing_left(struct start *s) {
    start_with(s, NULL, 0);
    post_with_jobs(s, 1);
}

/* 13: a row a step, and room for one with words to spare. */
static void no_room_left(struct start *s) {
    feeding_itself(s, 1, 0, 1, 1);
    s->rows_len = 2 * JT_MESSAGE_WORDS - 1;
}

static const struct {
    void (*make)(struct start *);
    uint32_t number;
    uint64_t steps; /* completed before */
} refusals[] = {
    {unknown_port, JT_INVALID_MESSAGE, 1},
    {no_capacity, JT_INVALID_MODEL_STATE, 1},
    {queue_overflow, JT_NO_QUEUE_ROOM, 1},
    {too_many_messages, JT_NO_MESSAGE_ROOM, 1},
    {too_many_parked, JT_NO_MESSAGE_ROOM, 1},
    {no_service_left, JT_NO_SERVICE_TIME, 1},
    {no_time, JT_BAD_TIME, 1},
    {past_the_latest, JT_CLOCK_OVERFLOW, 3},
    {nothing_left, JT_IDLE, 1},
    {no_room_left, JT_NO_OUT_ROOM, 1},
};

/* The whole is refused as its first part is; what the second part answers, refused_again checks. */
static void cut_refused(const struct start *s, uint32_t number, uint64_t steps, uint64_t first, uint64_t second) {
    struct run whole = in_one_go(s, first + second);
    struct run alone = in_one_go(s, first);
    CHECK_NUMBER(number, alone.number);
    CHECK_NUMBER(steps, alone.report[0]);
    CHECK_NUMBER(JT_END_REFUSED, alone.report[2]);
    check_same(s, &whole, &alone);
    cut_at(s, &whole, first, first + second);
    run_free(whole);
    run_free(alone);
}

static void cut_all_refused(const struct start *s, uint32_t number, uint64_t steps) {
    for (uint64_t first = steps + 1; first <= steps + 3; first++) {
        cut_refused(s, number, steps, first, 0);
        cut_refused(s, number, steps, first, 1);
        cut_refused(s, number, steps, first, 2);
        cut_refused(s, number, steps, first, most_steps(s) - first);
    }
    cut_up_to(s, steps + 4);
}

/* What a refused run left, with what is left of the output, is where the next run begins: it is refused at once. */
static void begin_there(struct start *s) {
    struct run r = in_one_go(s, most_steps(s));
    memcpy(s->bench.state.words, r.state.words, s->bench.state.len * sizeof(uint64_t));
    s->rows_len -= (size_t)(JT_MESSAGE_WORDS * r.report[1]);
    run_free(r);
}

/* By jt_step_n, and by jt_step_until with an `until` that no clock here reaches. */
static void try_refusal(size_t i, int timed) {
    struct start s;
    refusals[i].make(&s);
    s.timed = timed;
    s.until = late;
    cut_all_refused(&s, refusals[i].number, refusals[i].steps);
    begin_there(&s);
    cut_all_refused(&s, refusals[i].number, 0);
    start_free(&s);
}

static void test_refused_first(void) {
    for (size_t i = 0; i < sizeof refusals / sizeof refusals[0]; i++) {
        try_refusal(i, 0);
        try_refusal(i, 1);
    }
}

/* 20 comes at once or never: no step leaves a state that is none. It comes first in every call, so a second part of no steps is
 * refused with it too, and is not Done as after every other refusal. */
static void check_no_state(struct start *s, uint64_t count) {
    struct run r = run_new(s);
    uint64_t report[3] = {7, 7, 7};
    CHECK_NUMBER(JT_BAD_STATE, part(s, &r, count, report));
    CHECK(report[0] == 0 && report[1] == 0 && report[2] == JT_END_REFUSED);
    CHECK(same(s->bench.state.words, r.state.words, s->bench.state.len));
    CHECK(untouched(r.rows.words, r.rows.len) && untouched(r.state.words + s->bench.state.len, SPARE));
    run_free(r);
}

static void test_no_state(void) {
    struct start s;
    bench_start(&s);
    s.until = late;
    s.bench.state.words[0] = UINT64_MAX;
    for (s.timed = 0; s.timed <= 1; s.timed++) {
        check_no_state(&s, 0);
        check_no_state(&s, 1);
        check_no_state(&s, most_steps(&s));
    }
    start_free(&s);
}

/* ---- jt_step_until, its allowance cut in two */
/* By the clocks of the bench's run: at its first step, between two, at one, at its last, and never. */
static void test_until(void) {
    static const double untils[] = {0, 1, 4, 9, 9.5, 10, 16, 17};
    struct start s;
    bench_start(&s);
    s.timed = 1;
    for (size_t i = 0; i < sizeof untils / sizeof untils[0]; i++) {
        s.until = untils[i];
        cut_outputs(&s, 12);
        struct run whole = in_one_go(&s, UINT32_MAX);
        CHECK_NUMBER(untils[i] <= 16 ? JT_END_REACHED : JT_END_REFUSED, whole.report[2]);
        cut_at(&s, &whole, 1, UINT32_MAX);
        cut_at(&s, &whole, 11, UINT32_MAX);
        cut_at(&s, &whole, UINT32_MAX - 1, UINT32_MAX);
        run_free(whole);
    }
    start_free(&s);
}

/* After a part that reached `until` the run is over, and another part is not its second: it steps on. The smallest input is the
 * empty table with a message for nobody: one step reaches 0, the next is refused with 12. */
static void test_after_reached(void) {
    struct start s;
    uint64_t report[3];
    nothing_left(&s);
    s.timed = 1;
    struct run whole = in_one_go(&s, 2);
    CHECK_NUMBER(JT_OK, whole.number);
    CHECK_NUMBER(1, whole.report[0]);
    CHECK_NUMBER(JT_END_REACHED, whole.report[2]);
    struct run paused = run_new(&s);
    CHECK_NUMBER(JT_OK, part(&s, &paused, 1, report));
    CHECK(report[0] == 1 && report[1] == 0 && report[2] == JT_END_REACHED);
    CHECK_NUMBER(JT_IDLE, part(&s, &paused, 1, report));
    CHECK(report[0] == 0 && report[1] == 0 && report[2] == JT_END_REFUSED);
    run_free(whole);
    run_free(paused);
    start_free(&s);
}

/* And it can complete steps: every clock of the bench's run reaches 0, so each of its ten steps does, and no row is collected. */
static void test_steps_after_reached(void) {
    struct start s;
    bench_start(&s);
    s.timed = 1;
    struct run r = run_new(&s);
    uint64_t report[3];
    for (int i = 0; i < 10; i++) {
        CHECK_NUMBER(JT_OK, part(&s, &r, 1, report));
        CHECK(report[0] == 1 && report[1] == 0 && report[2] == JT_END_REACHED);
    }
    CHECK_NUMBER(JT_IDLE, part(&s, &r, 1, report));
    CHECK(untouched(r.rows.words, r.rows.len));
    run_free(r);
    start_free(&s);
}

/* An `until` that is no time is refused before any step, also where none is asked for: 10 in both parts. */
static void test_bad_until(void) {
    struct start s;
    uint64_t report[3];
    bench_start(&s);
    s.timed = 1;
    s.until = -1;
    struct run r = run_new(&s);
    for (uint64_t count = 0; count <= 2; count++) {
        CHECK_NUMBER(JT_BAD_TIME, part(&s, &r, count, report));
        CHECK(report[0] == 0 && report[1] == 0 && report[2] == JT_END_REFUSED);
    }
    CHECK(same(s.bench.state.words, r.state.words, s.bench.state.len) && untouched(r.rows.words, r.rows.len));
    run_free(r);
    start_free(&s);
}

/* ---- jt_step_until, paused at an earlier clock */
/* How many pauses had reached the earlier clock and had messages to fetch, and how many had not reached it. */
static struct {
    uint64_t fetched, before;
} pauses;

/* The messages that a run which has reached its `until` left active, put behind its rows. 0 where they do not fit. */
static int fetch(struct run *r) {
    size_t used = (size_t)(JT_MESSAGE_WORDS * r->report[1]);
    uint64_t count = 0;
    if (jt_get_messages(r->state.words, r->state.len, r->rows.words + used, r->rows.len - used, &count) != JT_OK)
        return 0;
    r->report[1] += count;
    pauses.fetched += count > 0;
    return 1;
}

/* Whether a run until `s->until` can go on until `later`: it has not reached that too, and its messages are fetched. */
static int made_ready(struct run *r, double later) {
    double clock;
    if (r->report[2] != JT_END_REACHED) {
        pauses.before++;
        return 1;
    }
    CHECK_NUMBER(JT_OK, jt_get_global_time(r->state.words, r->state.len, &clock));
    r->report[2] = JT_END_SPENT;
    return clock < later && fetch(r);
}

static void pause_at(const struct start *s, double later, uint64_t allowance, uint64_t more) {
    struct start after = *s;
    struct run paused = in_one_go(s, allowance);
    uint64_t before = paused.report[2] == JT_END_REACHED ? paused.report[0] : allowance;
    after.until = later;
    if (made_ready(&paused, later)) {
        struct run whole = in_one_go(&after, before + more);
        go_on(&after, &paused, more);
        check_same(&after, &whole, &paused);
        run_free(whole);
    }
    run_free(paused);
}

/* Allowances from 0 to 11 before the pause and after it. */
static void pause_between(struct start *s, double early, double later) {
    s->until = early;
    for (uint64_t steps = 0; steps < 12 * 12; steps++)
        pause_at(s, later, steps / 12, steps % 12);
}

static void pause_at_each(struct start *s, const double *clocks, size_t len) {
    s->timed = 1;
    for (size_t i = 0; i < len * len; i++)
        if (i / len <= i % len)
            pause_between(s, clocks[i / len], clocks[i % len]);
}

/* With room for all rows, and with room for two: 13 before the pause, at it and after it. */
static void test_pause_at_a_clock(void) {
    static void (*const makes[])(struct start *) = {bench_start, stopwatch_start, nested_start, ring_start};
    static const double clocks[] = {0, 0.25, 1.5, 4, 9.5, 10, 16, 20};
    memset(&pauses, 0, sizeof pauses);
    for (size_t i = 0; i < sizeof makes / sizeof makes[0]; i++) {
        struct start s;
        makes[i](&s);
        pause_at_each(&s, clocks, 8);
        s.rows_len = 3 * JT_MESSAGE_WORDS - 1;
        pause_at_each(&s, clocks, 8);
        start_free(&s);
    }
    CHECK(pauses.fetched > 0 && pauses.before > 0);
}

/* Not fetched, they are lost: one job out of a batcher in the first step, paused at 0. */
static void test_not_fetched(void) {
    struct start s;
    uint64_t report[3];
    start_with(&s, NULL, 0);
    batcher(&s.bench, 1, 1, 0);
    connector(&s.bench, 1, 2, 9, 1);
    post_with_jobs(&s, 1);
    s.timed = 1;
    struct run paused = in_one_go(&s, 1);
    CHECK_NUMBER(JT_END_REACHED, paused.report[2]);
    s.until = 10;
    CHECK_NUMBER(JT_OK, part(&s, &paused, 1, report));
    CHECK(paused.report[1] == 0 && report[1] == 0 && untouched(paused.rows.words, paused.rows.len));
    struct run whole = in_one_go(&s, 2);
    CHECK_NUMBER(1, whole.report[1]);
    run_free(whole);
    run_free(paused);
    start_free(&s);
}

/* ---- what is no second part of the same run */
/* With what it lacked a refused run goes on: another run, of which nothing is said here but that it does. */
static void check_goes_on(struct start *s, uint32_t number, const double *times, size_t times_len, size_t rows_len) {
    struct run r = in_one_go(s, UINT64_MAX);
    uint64_t *rows = copy_of(r.rows.words, r.rows.len);
    uint64_t report[3];
    CHECK_NUMBER(number, r.number);
    CHECK_NUMBER(JT_OK, jt_step_n(r.state.words, r.state.len, times, times_len, 1, rows, rows_len, report));
    CHECK_NUMBER(1, report[0]);
    free(rows);
    run_free(r);
    start_free(s);
}

static void test_another_run(void) {
    static const double more[2] = {0, 0};
    struct start s;
    no_service_left(&s);
    check_goes_on(&s, JT_NO_SERVICE_TIME, more, 2, 0);
    no_time(&s);
    check_goes_on(&s, JT_BAD_TIME, more, 2, 0);
    no_room_left(&s);
    check_goes_on(&s, JT_NO_OUT_ROOM, NULL, 0, JT_MESSAGE_WORDS);
}

/* The service list is lent whole each time. The rest of it alone is another list: the state's place in it skips one. */
static void test_rest_of_services(void) {
    struct start s;
    uint64_t report[3];
    double clock;
    bench_start(&s);
    struct run r = in_one_go(&s, 3);
    CHECK_NUMBER(JT_OK, jt_step_n(r.state.words, r.state.len, services + 1, 2, 2, r.rows.words, r.rows.len, report));
    CHECK_NUMBER(JT_OK, jt_get_global_time(r.state.words, r.state.len, &clock));
    CHECK(clock == 4 + 6);
    run_free(r);
    struct run whole = in_one_go(&s, 5);
    CHECK_NUMBER(JT_OK, jt_get_global_time(whole.state.words, whole.state.len, &clock));
    CHECK(clock == 4 + 5);
    run_free(whole);
    start_free(&s);
}

/* ---- why the words past the end are not compared */
/* A pause while a message is active writes it into the state. Delivered, it is no part of the state any more, but its words
 * stand where they stood. The run in one go never wrote them: there the injected message's stand. */
static void test_past_the_end(void) {
    static const uint64_t active[6] = {1, 2, 9, 1, 0, 1};
    static const uint64_t injected[6] = {0, 0, 1, 1, 0, 1};
    struct start s;
    start_with(&s, NULL, 0);
    batcher(&s.bench, 1, 1, 0);
    connector(&s.bench, 1, 2, 9, 1);
    post_with_jobs(&s, 1);
    struct run whole = in_one_go(&s, 2);
    struct run paused = run_new(&s);
    go_on(&s, &paused, 1);
    CHECK_NUMBER(1, active_in(paused.state.words));
    go_on(&s, &paused, 1);
    check_same(&s, &whole, &paused);
    size_t end = state_end(whole.state.words);
    CHECK(same(paused.state.words + end, active, 6));
    CHECK(same(whole.state.words + end, injected, 6));
    run_free(whole);
    run_free(paused);
    start_free(&s);
}

int main(void) {
    test_every_cut();
    test_never_idle();
    test_outputs();
    test_largest_sum();
    test_refused_first();
    test_no_state();
    test_until();
    test_after_reached();
    test_steps_after_reached();
    test_bad_until();
    test_pause_at_a_clock();
    test_not_fetched();
    test_another_run();
    test_rest_of_services();
    test_past_the_end();
    return tell("pause");
}
