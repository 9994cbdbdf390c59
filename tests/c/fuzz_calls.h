/* The calls, what each is handed, and how: every buffer as fuzz_lent.h lends it. */
#ifndef FUZZ_CALLS_H
#define FUZZ_CALLS_H

#include "fuzz_lent.h"
#include "fuzz_states.h"
#include "jambthrush.h"

enum { ROWS_ROOM = 6 * 2500, SERVICES_ROOM = 1000 };

enum kind {
    STATE_WORDS, INTAKE, WRITE_OUT, POST, PUT, INJECT_INPUT, STEP, STEP_N, STEP_UNTIL, RESET, RESET_MESSAGES, RESET_GLOBAL_TIME,
    GET_STATUS, GET_MESSAGES, GET_GLOBAL_TIME, TRACE_BYTES, WRITE_TRACE, READ_TRACE, KINDS
};

enum { MOST_NUMBER = JT_BAD_STATE, UNKNOWN = 99 };

/* The numbers that a call can answer with, as bits. */
#define N(number) (UINT32_C(1) << (number))
#define OF_TABLE (N(JT_TOO_LARGE) | N(JT_BAD_ROW) | N(JT_BAD_COUPLING))
#define OF_RUN (N(JT_INVALID_MESSAGE) | N(JT_INVALID_MODEL_STATE) | N(JT_NO_QUEUE_ROOM) | N(JT_NO_MESSAGE_ROOM) | \
                N(JT_NO_SERVICE_TIME) | N(JT_BAD_TIME) | N(JT_CLOCK_OVERFLOW) | N(JT_IDLE) | N(JT_NO_OUT_ROOM))
#define OF_ANY (N(JT_OK) | N(JT_BAD_STATE))

static const struct {
    const char *name;
    uint64_t weight; /* of a hundred calls */
    uint32_t numbers;
    size_t answer_len; /* words of report, count or time */
} kinds[KINDS] = {
    [STATE_WORDS] = {"jt_state_words", 2, N(JT_OK), 0},
    [INTAKE] = {"jt_intake", 5, N(JT_OK) | OF_TABLE, 3},
    [WRITE_OUT] = {"jt_write_out_capacity", 4, N(JT_OK), 1},
    [POST] = {"jt_post", 7, OF_ANY | OF_TABLE, 0},
    [PUT] = {"jt_put", 6, OF_ANY | OF_TABLE, 0},
    [INJECT_INPUT] = {"jt_inject_input", 18, OF_ANY | N(JT_BAD_TIME) | N(JT_NO_MESSAGE_ROOM), 0},
    [STEP] = {"jt_step", 9, OF_ANY | OF_RUN, 3},
    [STEP_N] = {"jt_step_n", 11, OF_ANY | OF_RUN, 3},
    [STEP_UNTIL] = {"jt_step_until", 9, OF_ANY | OF_RUN, 3},
    [RESET] = {"jt_reset", 2, OF_ANY, 0},
    [RESET_MESSAGES] = {"jt_reset_messages", 2, OF_ANY, 0},
    [RESET_GLOBAL_TIME] = {"jt_reset_global_time", 2, OF_ANY, 0},
    [GET_STATUS] = {"jt_get_status", 5, OF_ANY | N(JT_MODEL_NOT_FOUND), 2},
    [GET_MESSAGES] = {"jt_get_messages", 4, OF_ANY | N(JT_NO_OUT_ROOM), 1},
    [GET_GLOBAL_TIME] = {"jt_get_global_time", 4, OF_ANY, 1},
    [TRACE_BYTES] = {"jt_trace_bytes", 1, N(JT_OK), 0},
    [WRITE_TRACE] = {"jt_write_trace", 4, N(JT_OK) | N(JT_NO_OUT_ROOM), 1},
    [READ_TRACE] = {"jt_read_trace", 5, N(JT_OK) | N(JT_NO_OUT_ROOM) | N(JT_BAD_BLOCK), 3},
};

/* What a call is handed, in memory that no call sees. */
struct given {
    enum kind kind;
    const uint64_t *state;
    size_t state_len;
    int sound; /* it holds a simulation */
    const struct table *table;
    int inside; /* what is written out is the models inside the state, and not the table's */
    uint16_t source_id, source_port, target_id, target_port;
    uint32_t content;
    uint64_t time;  /* the bits of an injected time, or of `until` */
    uint64_t steps; /* so many are asked for: 1, `count` or `allowance` */
    const uint64_t *services;
    size_t services_len;
    size_t rows_len;
};

static struct lent lent_state, lent_models, lent_connectors, lent_couplings, lent_services, lent_rows, lent_answer;

static uint64_t junk[STATE_ROOM]; /* noise: what stands in rows, answers and new states before a call */
static const uint64_t zeros[MOST_MODELS * 192];

/* ---- the call itself */
static int is_run(enum kind kind) {
    return kind == STEP || kind == STEP_N || kind == STEP_UNTIL;
}

static int takes_table(enum kind kind) {
    return kind == INTAKE || kind == POST || kind == PUT;
}

static int takes_rows(enum kind kind) {
    return is_run(kind) || kind == GET_MESSAGES;
}

static int is_trace(enum kind kind) {
    return kind == TRACE_BYTES || kind == WRITE_TRACE || kind == READ_TRACE;
}

static int only_asks(enum kind kind) {
    return kind == INTAKE || kind == GET_STATUS || kind == GET_MESSAGES || kind == GET_GLOBAL_TIME;
}

static void lend(const struct given *g) {
    lent_fill(&lent_state, g->state, g->state_len);
    lent_fill(&lent_answer, junk, kinds[g->kind].answer_len);
    if (takes_table(g->kind)) {
        lent_fill(&lent_models, g->table->models.words, g->table->models.len);
        lent_fill(&lent_connectors, g->table->connectors.words, g->table->connectors.len);
        lent_fill(&lent_couplings, g->table->couplings.words, g->table->couplings.len);
    }
    if (g->kind == WRITE_OUT && !g->inside)
        lent_fill(&lent_models, g->table->models.words, g->table->models.len);
    if (is_run(g->kind))
        lent_fill(&lent_services, g->services, g->services_len);
    if (takes_rows(g->kind))
        lent_fill(&lent_rows, junk, g->rows_len);
}

static uint32_t invoke_run(const struct given *g) {
    const double *times = (const double *)(void *)lent_services.pointer;
    uint64_t *state = lent_state.pointer;
    uint64_t *rows = lent_rows.pointer;
    uint64_t *report = lent_answer.words;
    if (g->kind == STEP)
        return jt_step(state, g->state_len, times, g->services_len, rows, g->rows_len, report);
    if (g->kind == STEP_N)
        return jt_step_n(state, g->state_len, times, g->services_len, g->steps, rows, g->rows_len, report);
    return jt_step_until(state, g->state_len, times, g->services_len, of_bits(g->time), (uint32_t)g->steps, rows, g->rows_len,
                         report);
}

static uint32_t invoke_write_out(const struct given *g) {
    if (g->inside)
        return jt_write_out_capacity(lent_state.pointer + 3, (size_t)(JT_MODEL_WORDS * g->state[0]), lent_answer.words);
    return jt_write_out_capacity(lent_models.pointer, g->table->models.len, lent_answer.words);
}

static uint32_t invoke_table(const struct given *g) {
    const struct table *t = g->table;
    if (g->kind == INTAKE)
        return jt_intake(lent_models.pointer, t->models.len, lent_connectors.pointer, t->connectors.len,
                         lent_couplings.pointer, t->couplings.len, lent_answer.words);
    if (g->kind == POST)
        return jt_post(lent_models.pointer, t->models.len, lent_connectors.pointer, t->connectors.len, lent_couplings.pointer,
                       t->couplings.len, lent_state.pointer, g->state_len);
    return jt_put(lent_state.pointer, g->state_len, lent_models.pointer, t->models.len, lent_connectors.pointer,
                  t->connectors.len, lent_couplings.pointer, t->couplings.len);
}

static uint32_t invoke(const struct given *g) {
    uint64_t *state = lent_state.pointer;
    switch (g->kind) {
    case INTAKE:
    case POST:
    case PUT:
        return invoke_table(g);
    case WRITE_OUT:
        return invoke_write_out(g);
    case INJECT_INPUT:
        return jt_inject_input(state, g->state_len, g->source_id, g->source_port, g->target_id, g->target_port,
                               of_bits(g->time), g->content);
    case RESET:
        return jt_reset(state, g->state_len);
    case RESET_MESSAGES:
        return jt_reset_messages(state, g->state_len);
    case RESET_GLOBAL_TIME:
        return jt_reset_global_time(state, g->state_len);
    case GET_STATUS:
        return jt_get_status(state, g->state_len, g->target_id, lent_answer.words);
    case GET_MESSAGES:
        return jt_get_messages(state, g->state_len, lent_rows.pointer, g->rows_len, lent_answer.words);
    case GET_GLOBAL_TIME:
        return jt_get_global_time(state, g->state_len, (double *)(void *)lent_answer.words);
    default:
        return invoke_run(g);
    }
}

#endif
