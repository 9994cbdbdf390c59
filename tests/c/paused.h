/* Runs in parts: where one begins, how it goes on, and the comparison with the same run in one go. */
#ifndef PAUSED_H
#define PAUSED_H

#include "bench_tables.h"
#include "layout.h"

enum { SPARE = 8, ROOM = 1000 * JT_MESSAGE_WORDS };

/* Where a run begins: a state that is copied and never lent, the service times, and how many words of output are lent. */
struct start {
    struct bench bench;
    const double *times;
    size_t times_len;
    size_t rows_len;
    int timed; /* run by jt_step_until, and not by jt_step_n */
    double until;
};

/* A run in one part or more, on one state and one output, with the answers of its parts put together. */
struct run {
    struct guarded state;
    struct guarded rows;
    uint32_t number;
    uint64_t report[3];
};

/* ---- runs */
static struct run run_new(const struct start *s) {
    struct run r;
    r.state = guarded_new(s->bench.state.len + SPARE);
    r.rows = guarded_new(s->rows_len);
    memcpy(r.state.words, s->bench.state.words, s->bench.state.len * sizeof(uint64_t));
    r.number = JT_OK;
    r.report[0] = r.report[1] = 0;
    r.report[2] = s->timed ? JT_END_SPENT : JT_END_DONE;
    return r;
}

static void run_free(struct run r) {
    guarded_free(r.state);
    guarded_free(r.rows);
}

static uint64_t most_steps(const struct start *s) {
    return s->timed ? UINT32_MAX : UINT64_MAX;
}

/* One part: so many steps, and what is left of the output behind the rows of the parts before. */
static uint32_t part(const struct start *s, struct run *r, uint64_t count, uint64_t report[3]) {
    size_t used = (size_t)(JT_MESSAGE_WORDS * r->report[1]);
    size_t left = r->rows.len - used;
    uint64_t *rows = r->rows.len == 0 ? NULL : r->rows.words + used;
    if (s->timed)
        return jt_step_until(r->state.words, r->state.len, s->times, s->times_len, s->until, (uint32_t)count, rows, left, report);
    return jt_step_n(r->state.words, r->state.len, s->times, s->times_len, count, rows, left, report);
}

/* After a refused part: refused again at once with the same number, or nothing asked and nothing refused. No word changes. */
static void refused_again(const struct start *s, struct run *r, uint64_t count) {
    uint64_t *state = copy_of(r->state.words, r->state.len);
    uint64_t *rows = copy_of(r->rows.words, r->rows.len);
    uint64_t report[3] = {7, 7, 7};
    CHECK_NUMBER(count == 0 ? JT_OK : r->number, part(s, r, count, report));
    CHECK_NUMBER(0, report[0]);
    CHECK_NUMBER(0, report[1]);
    CHECK_NUMBER(count > 0 ? JT_END_REFUSED : s->timed ? JT_END_SPENT : JT_END_DONE, report[2]);
    CHECK(same(state, r->state.words, r->state.len));
    CHECK(same(rows, r->rows.words, r->rows.len));
    free(state);
    free(rows);
}

/* The whole is refused where a part is, and reached where a part reaches: there is nothing to go on with then. */
static void go_on(const struct start *s, struct run *r, uint64_t count) {
    uint64_t report[3] = {7, 7, 7};
    if (r->number != JT_OK) {
        refused_again(s, r, count);
        return;
    }
    if (r->report[2] == JT_END_REACHED)
        return;
    r->number = part(s, r, count, report);
    r->report[0] += report[0];
    r->report[1] += report[1];
    r->report[2] = report[2];
}

static struct run in_one_go(const struct start *s, uint64_t count) {
    struct run r = run_new(s);
    go_on(s, &r, count);
    return r;
}

/* ---- the comparison */
static int untouched(const uint64_t *words, size_t len) {
    for (size_t i = 0; i < len; i++)
        if (words[i] != CANARY)
            return 0;
    return 1;
}

/* All of the output, but of the state only the words up to its end: those beyond can differ (pause_test.c shows how). */
static void check_same(const struct start *s, const struct run *whole, const struct run *paused) {
    size_t end = state_end(whole->state.words);
    size_t written = (size_t)(JT_MESSAGE_WORDS * whole->report[1]);
    CHECK_NUMBER(whole->number, paused->number);
    CHECK_NUMBER(whole->report[0], paused->report[0]);
    CHECK_NUMBER(whole->report[1], paused->report[1]);
    CHECK_NUMBER(whole->report[2], paused->report[2]);
    CHECK(same(whole->rows.words, paused->rows.words, s->rows_len));
    CHECK(untouched(paused->rows.words + written, s->rows_len - written));
    CHECK_NUMBER(end, state_end(paused->state.words));
    CHECK(same(whole->state.words, paused->state.words, end));
    CHECK(untouched(paused->state.words + s->bench.state.len, SPARE));
}

/* How many cut runs were refused in their first part, in their second, or not. */
static struct {
    uint64_t first, second, never;
} refused;

/* The whole run of `total` steps against the same in two parts, of which the first has `first` steps. */
static void cut_at(const struct start *s, const struct run *whole, uint64_t first, uint64_t total) {
    struct run paused = run_new(s);
    go_on(s, &paused, first);
    uint64_t *told = paused.number == JT_OK ? &refused.second : &refused.first;
    go_on(s, &paused, total - first);
    check_same(s, whole, &paused);
    *(paused.number == JT_OK ? &refused.never : told) += 1;
    run_free(paused);
}

static void cut_everywhere(const struct start *s, uint64_t total) {
    struct run whole = in_one_go(s, total);
    for (uint64_t first = 0; first <= total; first++)
        cut_at(s, &whole, first, total);
    run_free(whole);
}

/* In as many parts as it takes, with a part of no steps after each. */
static void cut_small(const struct start *s, uint64_t total, uint64_t size) {
    struct run whole = in_one_go(s, total);
    struct run paused = run_new(s);
    for (uint64_t left = total; left > 0; left -= left < size ? left : size) {
        go_on(s, &paused, left < size ? left : size);
        go_on(s, &paused, 0);
    }
    check_same(s, &whole, &paused);
    run_free(whole);
    run_free(paused);
}

/* All a and b with a + b up to `most`, and parts of one step, of two and of three. */
static void cut_up_to(const struct start *s, uint64_t most) {
    for (uint64_t total = 0; total <= most; total++)
        cut_everywhere(s, total);
    for (uint64_t size = 1; size <= 3; size++)
        cut_small(s, most, size);
}

/* Every length of the output from nothing to six words more than the run of `most` steps writes. */
static void cut_outputs(struct start *s, uint64_t most) {
    struct run whole = in_one_go(s, most);
    size_t enough = (size_t)(JT_MESSAGE_WORDS * (whole.report[1] + 1));
    size_t lent = s->rows_len;
    run_free(whole);
    for (s->rows_len = 0; s->rows_len <= enough; s->rows_len++)
        cut_up_to(s, most);
    s->rows_len = lent;
}

#endif
