/* States with something changed. Where their parts stand is in layout.h. */
#ifndef FUZZ_STATES_H
#define FUZZ_STATES_H

#include "fuzz_tables.h"
#include "layout.h"

enum { MOST_ACTIVE = 256, MOST_HELD = 64, STATE_ROOM = 17286 + 300 };

/* ---- how long it must be, and its rows */
static size_t state_needs(const uint64_t *state) {
    return words_needed((size_t)(JT_MODEL_WORDS * state[0]), (size_t)(JT_CONNECTOR_WORDS * state[1]),
                        (size_t)(JT_COUPLING_WORDS * state[2]));
}

static int has_parent(const uint64_t *state, size_t i) {
    return (state[3 + JT_MODEL_WORDS * i + 2] & PARENT_GIVEN) != 0;
}

static uint64_t id_of(const uint64_t *state, size_t i) {
    return state[3 + JT_MODEL_WORDS * i];
}

static const uint64_t *row_in(const uint64_t *state, size_t i) {
    return state + 3 + JT_MODEL_WORDS * i;
}

/* The table inside a state. */
static void table_inside(struct table *t, const uint64_t *state) {
    t->models.len = (size_t)(JT_MODEL_WORDS * state[0]);
    t->connectors.len = (size_t)(JT_CONNECTOR_WORDS * state[1]);
    t->couplings.len = (size_t)(JT_COUPLING_WORDS * state[2]);
    memcpy(t->models.words, state + 3, t->models.len * sizeof(uint64_t));
    memcpy(t->connectors.words, state + 3 + t->models.len, t->connectors.len * sizeof(uint64_t));
    memcpy(t->couplings.words, state + tail_at(state) - t->couplings.len, t->couplings.len * sizeof(uint64_t));
    t->good = 1;
}

/* A row, rather one without parent. */
static size_t some_row(const uint64_t *state) {
    size_t i = (size_t)below(state[0]);
    return has_parent(state, i) ? (size_t)below(state[0]) : i;
}

/* A processor that omits its capacity, or the number of rows. */
static size_t some_omitting(const uint64_t *state) {
    size_t rows = (size_t)state[0];
    size_t begin = rows == 0 ? 0 : (size_t)below(rows);
    for (size_t i = begin; i < begin + rows; i++)
        if (omits_capacity(row_in(state, i % rows)))
            return i % rows;
    return rows;
}

static uint64_t some_id(const uint64_t *state) {
    return state[0] == 0 || one_in(32) ? below(0x10000) : id_of(state, some_row(state));
}

/* ---- one to three words changed: anywhere up to its end and a little beyond, half of them in the changing part's front */
static size_t some_place(const uint64_t *state, size_t len) {
    size_t tail = tail_at(state);
    size_t end = state_end(state) + 3;
    switch (below(4)) {
    case 0:
        return (size_t)below(tail);
    case 1:
        return (size_t)below(end < len ? end : len);
    default:
        return tail + (size_t)below(3 + 4 * state[0]);
    }
}

static void change_state(uint64_t *state, size_t len) {
    size_t places[3];
    uint64_t changes = 1 + below(3);
    for (size_t i = 0; i < 3; i++)
        places[i] = some_place(state, len);
    for (size_t i = 0; i < changes; i++)
        state[places[i]] = one_in(6) ? state[places[(i + 1) % 3]] : changed_word(state[places[i]]);
}

/* ---- states that took long to come by: many messages, long queues */
static void stuff_messages(uint64_t *state, size_t len) {
    static const uint64_t counts[] = {0, 1, 2, 5, 8, 30, 64, 65, 100, 255, 256, 256, 257};
    uint64_t count = counts[below(sizeof counts / sizeof counts[0])];
    size_t at = messages_at(state);
    uint64_t target = some_id(state);
    if (at + JT_MESSAGE_WORDS * count > len)
        count = MOST_ACTIVE;
    state[tail_at(state)] = count;
    for (; count > 0; count--, at += JT_MESSAGE_WORDS) {
        const uint64_t message[JT_MESSAGE_WORDS] = {0, 0, target, 1, 0, count};
        memcpy(state + at, message, sizeof message);
        if (one_in(4))
            target = some_id(state);
    }
}

static uint64_t some_mark(void) {
    return one_in(3) ? NEVER : good_time();
}

/* A row that holds so many, with a phase and a timer that go with it or not. */
static void stuff_row(uint64_t *state, size_t i) {
    static const uint64_t counts[] = {0, 1, 2, 3, 8, 31, 32, 32, 33, 62, 63, 64, 64, 65};
    uint64_t kind = kind_of(state, i);
    uint64_t held = counts[below(sizeof counts / sizeof counts[0])];
    uint64_t *head = state + head_at(state, i);
    uint64_t *own = state + tail_at(state) + head[3];
    memset(own, 0, own_words(kind) * sizeof(uint64_t));
    head[0] = kind == COUPLED ? 0 : below(kind == BATCHER ? 3 : 2);
    head[1] = kind == COUPLED ? 0 : one_in(4) ? NEVER : one_in(2) ? 0 : good_time();
    head[2] = held;
    for (size_t job = 0; job < held && job < MOST_HELD; job++) {
        own[job] = kind == COUPLED ? some_id(state) << 48 | (uint64_t)1 << 32 | job : job + 1;
        if (kind == STOPWATCH) {
            own[MOST_HELD + job] = some_mark();
            own[2 * MOST_HELD + job] = some_mark();
        }
    }
}

static void stuff_state(uint64_t *state, size_t len) {
    uint64_t rows = state[0] == 0 ? 0 : below(4);
    if (rows == 0 || one_in(2))
        stuff_messages(state, len);
    for (; rows > 0; rows--)
        stuff_row(state, (size_t)below(state[0]));
}

/* A processor at work with so many jobs: the state stays one just where that many may be held. */
static void crowd_row(uint64_t *state, size_t i, uint64_t held) {
    uint64_t *head = state + head_at(state, i);
    uint64_t *own = state + tail_at(state) + head[3];
    head[0] = held > 0;
    head[1] = held > 0 ? 0 : NEVER;
    head[2] = held;
    for (size_t job = 0; job < MOST_HELD; job++)
        own[job] = job < held ? job + 1 : 0;
}

/* ---- words that are no state, but for a few: noise, or any at the front and then zeros, small words or what stood there */
static void junk_state(uint64_t *state, size_t len) {
    size_t front = (size_t)below(one_in(2) ? 4 : 200);
    uint64_t pick = below(4);
    for (size_t i = 0; i < len && pick < 3; i++)
        state[i] = pick == 0 ? random_word() : pick == 1 ? random_word() % 3 : 0;
    any_words(state, front < len ? front : len);
}

#endif
