/* Where things stand in a state that holds a simulation (docs/LAYOUT.md). */
#ifndef LAYOUT_H
#define LAYOUT_H

#include "jambthrush.h"
#include "kinds.h"

static inline size_t tail_at(const uint64_t *state) {
    return (size_t)(3 + JT_MODEL_WORDS * state[0] + JT_CONNECTOR_WORDS * state[1] + JT_COUPLING_WORDS * state[2]);
}

static inline uint64_t kind_of(const uint64_t *state, size_t i) {
    return state[3 + JT_MODEL_WORDS * i + 1];
}

/* Phase, timer, how many it holds, where its own words begin. */
static inline size_t head_at(const uint64_t *state, size_t i) {
    return tail_at(state) + 3 + 4 * i;
}

static inline size_t own_words(uint64_t kind) {
    return kind == STOPWATCH ? 192 : 64;
}

static inline size_t messages_at(const uint64_t *state) {
    size_t at = head_at(state, (size_t)state[0]);
    for (size_t i = 0; i < state[0]; i++)
        at += own_words(kind_of(state, i));
    return at;
}

static inline uint64_t active_in(const uint64_t *state) {
    return state[tail_at(state)];
}

/* The words up to here are the state; what stands beyond is not part of it. */
static inline size_t state_end(const uint64_t *state) {
    return messages_at(state) + (size_t)(JT_MESSAGE_WORDS * active_in(state));
}

#endif
