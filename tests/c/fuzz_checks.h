/* What holds of any call, whatever it was handed. */
#ifndef FUZZ_CHECKS_H
#define FUZZ_CHECKS_H

#include "fuzz_calls.h"

/* ---- what the answer must be */
/* The row of a model without parent, or the number of rows. */
static size_t top_of(const uint64_t *state, uint64_t id) {
    size_t i = 0;
    while (i < state[0] && (id_of(state, i) != id || has_parent(state, i)))
        i++;
    return i;
}

static uint32_t wanted_of_table(const struct given *g) {
    if (g->kind != INTAKE && g->state_len < table_needs(g->table))
        return JT_BAD_STATE;
    if (table_needs(g->table) == 0)
        return JT_TOO_LARGE;
    return g->table->good ? JT_OK : UNKNOWN;
}

/* The number that can be told from the words alone, or UNKNOWN: then it is neither 1 nor 20. */
static uint32_t wanted(const struct given *g) {
    if (g->kind == INTAKE || g->kind == POST)
        return wanted_of_table(g);
    if (g->kind == WRITE_OUT)
        return JT_OK;
    if (!g->sound)
        return JT_BAD_STATE;
    switch (g->kind) {
    case PUT:
        return wanted_of_table(g);
    case INJECT_INPUT:
        return !is_time(g->time) ? JT_BAD_TIME : active_in(g->state) == MOST_ACTIVE ? JT_NO_MESSAGE_ROOM : JT_OK;
    case STEP_UNTIL:
        return !is_time(g->time) ? JT_BAD_TIME : g->steps == 0 ? JT_OK : UNKNOWN;
    case STEP:
    case STEP_N:
        return g->steps == 0 ? JT_OK : UNKNOWN;
    case GET_STATUS:
        return top_of(g->state, g->target_id) == g->state[0] ? JT_MODEL_NOT_FOUND : JT_OK;
    case GET_MESSAGES:
        return g->rows_len / JT_MESSAGE_WORDS < active_in(g->state) ? JT_NO_OUT_ROOM : JT_OK;
    default:
        return JT_OK;
    }
}

/* ---- what every call leaves alone: what it only reads, and what stands around its buffers */
static void check_inputs(const struct given *g) {
    lent_check(&lent_state);
    lent_check(&lent_answer);
    if (only_asks(g->kind) || (g->kind == WRITE_OUT && !g->inside))
        lent_check_same(&lent_state, g->state);
    if (g->kind == WRITE_OUT && !g->inside)
        lent_check(&lent_models);
    if (is_run(g->kind)) {
        lent_check(&lent_services);
        lent_check_same(&lent_services, g->services);
    }
    if (takes_rows(g->kind))
        lent_check(&lent_rows);
}

static void check_table(const struct table *t) {
    lent_check(&lent_models);
    lent_check(&lent_connectors);
    lent_check(&lent_couplings);
    lent_check_same(&lent_models, t->models.words);
    lent_check_same(&lent_connectors, t->connectors.words);
    lent_check_same(&lent_couplings, t->couplings.words);
}

static void check_refused(const struct given *g) {
    lent_check_same(&lent_state, g->state);
    lent_check_same(&lent_answer, junk);
    if (takes_rows(g->kind))
        lent_check_same(&lent_rows, junk);
}

/* From this word on the state is as it was. */
static void check_beyond(const struct given *g, size_t end) {
    CHECK(end <= g->state_len);
    if (end <= g->state_len)
        CHECK(same(lent_state.words + end, g->state + end, g->state_len - end));
}

/* ---- what a call leaves that was not refused */
static void check_new_rows(const uint64_t *state, size_t tail) {
    size_t begin = 3 + 4 * (size_t)state[0];
    for (size_t i = 0; i < state[0]; i++) {
        const uint64_t head[4] = {0, kind_of(state, i) == COUPLED ? 0 : NEVER, 0, begin};
        CHECK(same(state + head_at(state, i), head, 4));
        begin += own_words(kind_of(state, i));
    }
    CHECK(same(state + tail + 3 + 4 * state[0], zeros, begin - 3 - 4 * (size_t)state[0]));
}

/* The table as it was lent, new rows, and the messages, clock and place of before where there were some. */
static void check_laid(const struct given *g) {
    const struct table *t = g->table;
    const uint64_t *state = lent_state.words;
    const uint64_t counts[3] = {t->models.len / JT_MODEL_WORDS, t->connectors.len / JT_CONNECTOR_WORDS,
                                t->couplings.len / JT_COUPLING_WORDS};
    size_t tail = 3 + t->models.len + t->connectors.len + t->couplings.len;
    CHECK(same(state, counts, 3));
    CHECK(same(state + 3, t->models.words, t->models.len));
    CHECK(same(state + 3 + t->models.len, t->connectors.words, t->connectors.len));
    CHECK(same(state + tail - t->couplings.len, t->couplings.words, t->couplings.len));
    CHECK(same(state + tail, g->kind == POST ? zeros : g->state + tail_at(g->state), 3));
    if (failures > 0)
        return;
    check_new_rows(state, tail);
    if (g->kind == PUT)
        CHECK(same(state + messages_at(state), g->state + messages_at(g->state),
                   (size_t)(JT_MESSAGE_WORDS * active_in(g->state))));
    check_beyond(g, state_end(state));
}

static void check_injected(const struct given *g) {
    const uint64_t message[JT_MESSAGE_WORDS] = {g->source_id,   g->source_port, g->target_id,
                                                g->target_port, g->time,        g->content};
    size_t tail = tail_at(g->state);
    size_t end = state_end(g->state);
    CHECK(same(lent_state.words, g->state, tail));
    CHECK_NUMBER(g->state[tail] + 1, lent_state.words[tail]);
    CHECK(same(lent_state.words + tail + 1, g->state + tail + 1, end - tail - 1));
    CHECK(same(lent_state.words + end, message, JT_MESSAGE_WORDS));
    check_beyond(g, end + JT_MESSAGE_WORDS);
}

static void check_reset(const struct given *g) {
    size_t tail = tail_at(g->state);
    CHECK(same(lent_state.words, g->state, tail));
    CHECK_NUMBER(g->kind == RESET_GLOBAL_TIME ? g->state[tail] : 0, lent_state.words[tail]);
    CHECK_NUMBER(g->kind == RESET_MESSAGES ? g->state[tail + 1] : 0, lent_state.words[tail + 1]);
    check_beyond(g, tail + 2);
}

/* A stopwatch's status, and whether there is one. */
static int mean_of(const uint64_t *own, uint64_t held, double *mean) {
    uint64_t complete = 0;
    double sum = 0;
    for (size_t i = 0; i < held; i++)
        if (own[MOST_HELD + i] != NEVER && own[2 * MOST_HELD + i] != NEVER) {
            sum += of_bits(own[2 * MOST_HELD + i]) - of_bits(own[MOST_HELD + i]);
            complete++;
        }
    *mean = complete == 0 ? 0 : sum / (double)complete;
    return complete > 0;
}

static void check_status(const struct given *g) {
    static const uint64_t by_kind[] = {
        [PROCESSOR] = JT_STATUS_PROCESSOR, [BATCHER] = JT_STATUS_BATCHER, [COUPLED] = JT_STATUS_PARKED};
    size_t i = top_of(g->state, g->target_id);
    uint64_t kind = kind_of(g->state, i);
    const uint64_t *head = g->state + head_at(g->state, i);
    if (kind == STOPWATCH) {
        double mean;
        int some = mean_of(g->state + tail_at(g->state) + head[3], head[2], &mean);
        CHECK_NUMBER(some ? JT_STATUS_MEAN : JT_STATUS_NO_MEAN, lent_answer.words[0]);
        CHECK_NUMBER(bits_of(mean), lent_answer.words[1]);
    } else {
        CHECK_NUMBER(by_kind[kind], lent_answer.words[0]);
        CHECK_NUMBER(kind == COUPLED ? head[2] : head[0], lent_answer.words[1]);
    }
}

static void check_messages(const struct given *g) {
    size_t words = (size_t)(JT_MESSAGE_WORDS * active_in(g->state));
    CHECK_NUMBER(active_in(g->state), lent_answer.words[0]);
    CHECK(same(lent_rows.words, g->state + messages_at(g->state), words));
    CHECK(same(lent_rows.words + words, junk + words, g->rows_len - words));
}

/* Just the rows that omit the capacity are written, and so many are counted; of a state, nothing but its models. */
static void check_written_out(const struct given *g) {
    static uint64_t wanted_words[STATE_ROOM];
    const struct lent *left = g->inside ? &lent_state : &lent_models;
    uint64_t *models = g->inside ? wanted_words + 3 : wanted_words;
    size_t len = g->inside ? (size_t)(JT_MODEL_WORDS * g->state[0]) : g->table->models.len;
    if (left->len > 0)
        memcpy(wanted_words, g->inside ? g->state : g->table->models.words, left->len * sizeof(uint64_t));
    CHECK_NUMBER(omitting(models, len), lent_answer.words[0]);
    give_capacity(models, len, UINT64_MAX);
    CHECK(same(wanted_words, left->words, left->len));
}

static void check_done(const struct given *g) {
    switch (g->kind) {
    case WRITE_OUT:
        check_written_out(g);
        break;
    case POST:
    case PUT:
        check_laid(g);
        break;
    case INJECT_INPUT:
        check_injected(g);
        break;
    case GET_STATUS:
        check_status(g);
        break;
    case GET_MESSAGES:
        check_messages(g);
        break;
    case GET_GLOBAL_TIME:
        CHECK_NUMBER(g->state[tail_at(g->state) + 1], lent_answer.words[0]);
        break;
    default:
        check_reset(g);
    }
}

/* ---- what intake reports, refused or not */
/* How many rows a part has, one that is cut short among them. */
static size_t rows_of_part(const struct table *t, uint64_t part) {
    if (part == JT_MODELS)
        return rows_of(t->models.len, JT_MODEL_WORDS);
    if (part == JT_CONNECTORS)
        return rows_of(t->connectors.len, JT_CONNECTOR_WORDS);
    return rows_of(t->couplings.len, JT_COUPLING_WORDS);
}

static void check_intake(const struct given *g, uint32_t number) {
    const uint64_t *report = lent_answer.words;
    const struct slice *models = &g->table->models;
    if (number == JT_BAD_ROW)
        CHECK_NUMBER(JT_MODELS, report[0]);
    else if (number == JT_BAD_COUPLING)
        CHECK(report[0] == JT_CONNECTORS || report[0] == JT_COUPLINGS);
    else
        CHECK(report[0] == JT_NOWHERE && report[1] == 0);
    CHECK(report[0] == JT_NOWHERE || report[1] < rows_of_part(g->table, report[0]));
    CHECK_NUMBER(number == JT_OK ? omitting(models->words, models->len) : 0, report[2]);
}

/* ---- what a run leaves */
/* No processor holds more than its capacity, which is 32 where it is omitted. */
static void check_capacities(const uint64_t *state) {
    for (size_t i = 0; i < state[0]; i++)
        CHECK(kind_of(state, i) != PROCESSOR || state[head_at(state, i) + 2] <= capacity_of(row_in(state, i)));
}

/* After some steps. The messages of the last one are the last rows, but for a step that reached `until`. */
static void check_stepped(const struct given *g, uint64_t written, int reached) {
    const uint64_t *state = lent_state.words;
    size_t tail = tail_at(g->state);
    CHECK(same(state, g->state, tail));
    CHECK(state[tail] <= MOST_ACTIVE && is_time(state[tail + 1]) && state[tail + 1] >= g->state[tail + 1]);
    if (failures > 0)
        return;
    check_beyond(g, state_end(state));
    check_capacities(state);
    if (g->kind == STEP_UNTIL)
        CHECK((state[tail + 1] >= g->time) == reached);
    if (!reached) {
        CHECK(state[tail] <= written);
        if (state[tail] <= written)
            CHECK(same(lent_rows.words + JT_MESSAGE_WORDS * (written - state[tail]), state + messages_at(state),
                       (size_t)(JT_MESSAGE_WORDS * state[tail])));
    }
}

static void check_report(const struct given *g, uint32_t number) {
    const uint64_t *report = lent_answer.words;
    CHECK(report[0] <= g->steps);
    CHECK(report[1] <= g->rows_len / JT_MESSAGE_WORDS);
    CHECK(report[0] > 0 || report[1] == 0);
    CHECK((number != JT_OK) == (report[2] == JT_END_REFUSED));
    if (number != JT_OK)
        CHECK(report[0] < g->steps || g->steps == 0);
    else if (g->kind != STEP_UNTIL)
        CHECK(report[2] == JT_END_DONE && report[0] == g->steps);
    else
        CHECK((report[2] == JT_END_SPENT && report[0] == g->steps) || (report[2] == JT_END_REACHED && report[0] > 0));
}

/* A run that ends because nothing is left has nothing parked. */
static void check_idle(void) {
    const uint64_t *state = lent_state.words;
    CHECK_NUMBER(0, active_in(state));
    for (size_t i = 0; i < state[0]; i++)
        CHECK(kind_of(state, i) != COUPLED || state[head_at(state, i) + 2] == 0);
}

static void check_run(const struct given *g, uint32_t number) {
    check_report(g, number);
    if (failures > 0)
        return;
    uint64_t written = lent_answer.words[1];
    size_t words = (size_t)(JT_MESSAGE_WORDS * written);
    CHECK(same(lent_rows.words + words, junk + words, g->rows_len - words));
    if (lent_answer.words[0] == 0)
        lent_check_same(&lent_state, g->state);
    else
        check_stepped(g, written, lent_answer.words[2] == JT_END_REACHED);
    if (number == JT_IDLE && failures == 0)
        check_idle();
}

/* ---- all of it */
static void check_call(const struct given *g, uint32_t number) {
    uint32_t want = wanted(g);
    CHECK(number <= MOST_NUMBER && (kinds[g->kind].numbers >> number & 1) != 0);
    if (want != UNKNOWN)
        CHECK_NUMBER(want, number);
    else
        CHECK(number != JT_BAD_STATE && number != JT_TOO_LARGE);
    if (failures > 0)
        return;
    check_inputs(g);
    if (takes_table(g->kind))
        check_table(g->table);
    if (is_run(g->kind))
        check_run(g, number);
    else if (g->kind == INTAKE)
        check_intake(g, number);
    else if (number != JT_OK)
        check_refused(g);
    else
        check_done(g);
}

#endif
