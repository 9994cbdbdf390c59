/* Tables made row by row, posted into a state buffer of their own, and the bench's table. */
#ifndef BENCH_TABLES_H
#define BENCH_TABLES_H

#include "guarded.h"
#include "jambthrush.h"
#include "kinds.h"

enum { BATCH = 10 };

/* A table, and a state buffer of exactly the length that it needs. */
struct bench {
    uint64_t models[640];
    size_t models_len;
    uint64_t connectors[1024];
    size_t connectors_len;
    uint64_t couplings[1537];
    size_t couplings_len;
    struct guarded state;
};

static inline void model(struct bench *b, const uint64_t row[10]) {
    memcpy(b->models + b->models_len, row, 10 * sizeof(uint64_t));
    b->models_len += 10;
}

static inline void processor(struct bench *b, uint64_t id, uint64_t capacity) {
    const uint64_t row[10] = {id, PROCESSOR, CAPACITY_GIVEN, 0, 1, 0, 0, 2, capacity, 0};
    model(b, row);
}

static inline void batcher(struct bench *b, uint64_t id, uint64_t size, double time) {
    const uint64_t row[10] = {id, BATCHER, 0, 0, 1, 0, 0, 2, size, bits_of(time)};
    model(b, row);
}

static inline void stopwatch(struct bench *b, uint64_t id) {
    const uint64_t row[10] = {id, STOPWATCH, 0, 0, 1, 2, 3, 4, 0, 0};
    model(b, row);
}

static inline void coupled(struct bench *b, uint64_t id, uint64_t given, uint64_t parent) {
    const uint64_t row[10] = {id, COUPLED, given, parent, 0, 0, 0, 0, 0, 0};
    model(b, row);
}

static inline void connector(struct bench *b, uint64_t source, uint64_t port, uint64_t target, uint64_t target_port) {
    const uint64_t row[4] = {source, port, target, target_port};
    memcpy(b->connectors + b->connectors_len, row, sizeof row);
    b->connectors_len += 4;
}

static inline void coupling(struct bench *b, const uint64_t row[6]) {
    memcpy(b->couplings + b->couplings_len, row, 6 * sizeof(uint64_t));
    b->couplings_len += 6;
}

static inline void post(struct bench *b) {
    b->state = guarded_new(jt_state_words(b->models_len, b->connectors_len, b->couplings_len));
    CHECK_NUMBER(JT_OK, jt_post(b->models, b->models_len, b->connectors, b->connectors_len, b->couplings, b->couplings_len,
                                b->state.words, b->state.len));
    guarded_check(b->state);
}

static inline uint32_t inject(struct bench *b, uint16_t target, uint16_t port, uint32_t content) {
    return jt_inject_input(b->state.words, b->state.len, 0, 0, target, port, 0.0, content);
}

/* id 1 a batcher (m = 2, batch time 10), id 2 a processor (capacity 8), jobs 11, 12, 13 injected at 1:1. */
static inline void bench_run(struct bench *b) {
    memset(b, 0, sizeof *b);
    batcher(b, 1, 2, BATCH);
    processor(b, 2, 8);
    connector(b, 1, 2, 2, 1);
    post(b);
    for (uint32_t job = 11; job <= 13; job++)
        CHECK_NUMBER(JT_OK, inject(b, 1, 1, job));
}

static const double services[3] = {4, 5, 6};

#endif
