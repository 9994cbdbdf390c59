/* How long one step can take, and that it can come again with the clock standing still. Four Coupleds, each inside the one before, with k
 * external input couplings each, all from one port to the same port of the next; a stopwatch in the last. A message to the first Coupled
 * makes k^4 marks. Seconds are the processor's. */
#include <inttypes.h>
#include <stdio.h>
#include <stdlib.h>
#include <string.h>
#include <time.h>

#include "jambthrush.h"
#include "kinds.h"

enum { LEVELS = 4, MOST_ROWS = 64, MOST_LINKS = 256, MOST_MESSAGES = 256, MOST_NAMES = 64, PORT = 1 };

#define NEVER 0x7ff0000000000000u

/* The ids of a table are its rows, counted from 1. */
struct table {
    uint64_t models[MOST_ROWS * JT_MODEL_WORDS];
    uint64_t connectors[MOST_LINKS * JT_CONNECTOR_WORDS];
    uint64_t couplings[MOST_LINKS * JT_COUPLING_WORDS];
    size_t rows;
    size_t connectors_count;
    size_t couplings_count;
    uint64_t *state;
    size_t state_len;
};

static void done(const char *what, uint32_t refusal) {
    if (refusal != JT_OK) {
        fprintf(stderr, "longest_step: %s is refused with %" PRIu32 "\n", what, refusal);
        exit(1);
    }
}

static uint64_t model(struct table *t, uint64_t kind, uint64_t parent, uint64_t setting) {
    uint64_t id = t->rows + 1;
    const uint64_t row[JT_MODEL_WORDS] = {id, kind, parent > 0 ? PARENT_GIVEN : 0, parent, PORT, 2, 3, 4, setting, 0};
    memcpy(t->models + t->rows * JT_MODEL_WORDS, row, sizeof row);
    t->rows++;
    return id;
}

static void connector(struct table *t, uint64_t source, uint64_t target) {
    const uint64_t row[JT_CONNECTOR_WORDS] = {source, 4, target, PORT};
    memcpy(t->connectors + t->connectors_count * JT_CONNECTOR_WORDS, row, sizeof row);
    t->connectors_count++;
}

static void coupling(struct table *t, uint64_t owner, uint64_t component) {
    const uint64_t row[JT_COUPLING_WORDS] = {owner, EXTERNAL_INPUT, 0, PORT, component, PORT};
    memcpy(t->couplings + t->couplings_count * JT_COUPLING_WORDS, row, sizeof row);
    t->couplings_count++;
}

/* The four Coupleds and the stopwatch; the id of the first Coupled. */
static uint64_t nest(struct table *t, size_t k) {
    uint64_t first = model(t, COUPLED, 0, 0);
    uint64_t owner = first;
    for (size_t level = 1; level <= LEVELS; level++) {
        uint64_t component = model(t, level < LEVELS ? COUPLED : STOPWATCH, owner, 0);
        for (size_t i = 0; i < k; i++)
            coupling(t, owner, component);
        owner = component;
    }
    return first;
}

static void post(struct table *t) {
    size_t models_len = t->rows * JT_MODEL_WORDS;
    size_t connectors_len = t->connectors_count * JT_CONNECTOR_WORDS;
    size_t couplings_len = t->couplings_count * JT_COUPLING_WORDS;
    t->state_len = jt_state_words(models_len, connectors_len, couplings_len);
    t->state = calloc(t->state_len, sizeof *t->state);
    if (t->state == NULL) {
        fprintf(stderr, "longest_step: no memory\n");
        exit(1);
    }
    done("post", jt_post(t->models, models_len, t->connectors, connectors_len, t->couplings, couplings_len, t->state, t->state_len));
}

static void inject(struct table *t, uint64_t target, size_t messages, uint32_t content) {
    for (size_t i = 0; i < messages; i++)
        done("inject_input", jt_inject_input(t->state, t->state_len, 0, 0, (uint16_t)target, PORT, 0, content));
}

/* The last row's stopwatch has as many names as it can, laid into the state as docs/LAYOUT.md has it; neither mark is made. */
static void name_all(struct table *t) {
    size_t tail = 3 + t->rows * JT_MODEL_WORDS + t->connectors_count * JT_CONNECTOR_WORDS + t->couplings_count * JT_COUPLING_WORDS;
    uint64_t *head = t->state + tail + 3 + 4 * (t->rows - 1);
    uint64_t *own = t->state + tail + head[3];
    head[2] = MOST_NAMES;
    for (uint64_t i = 0; i < MOST_NAMES; i++) {
        own[i] = i;
        own[MOST_NAMES + i] = NEVER;
        own[2 * MOST_NAMES + i] = NEVER;
    }
}

/* One step; how many seconds it took. */
static double step(struct table *t) {
    static uint64_t out[MOST_MESSAGES * JT_MESSAGE_WORDS];
    uint64_t report[3];
    clock_t start = clock();
    done("step", jt_step(t->state, t->state_len, NULL, 0, out, MOST_MESSAGES * JT_MESSAGE_WORDS, report));
    return (double)(clock() - start) / CLOCKS_PER_SEC;
}

static void tell(const struct table *t, size_t names, size_t k, size_t messages, double seconds) {
    double marks = (double)(k * k * k * k * messages);
    printf("%4zu %5zu %9zu %8zu %10.0f %9.3f %12.1f\n", t->rows, names, k, messages, marks, seconds, seconds * 1e9 / marks);
    fflush(stdout);
}

/* Many messages at once. The rows before the five take part in nothing; each mark searches past them, and past the names before its own. */
static void measure(size_t before, size_t names, size_t k, size_t messages) {
    static struct table t;
    memset(&t, 0, sizeof t);
    for (size_t i = 0; i < before; i++)
        model(&t, PROCESSOR, 0, 0);
    uint64_t first = nest(&t, k);
    post(&t);
    if (names == MOST_NAMES)
        name_all(&t);
    inject(&t, first, messages, (uint32_t)(names - 1));
    tell(&t, names, k, messages, step(&t));
    free(t.state);
}

/* A batcher that releases each job at once, to itself and 255 times to the first Coupled: every step makes the marks again. */
static void go_round(size_t k, size_t steps) {
    static struct table t;
    memset(&t, 0, sizeof t);
    uint64_t first = nest(&t, k);
    uint64_t source = model(&t, BATCHER, 0, 1);
    connector(&t, source, source);
    while (t.connectors_count < MOST_LINKS)
        connector(&t, source, first);
    post(&t);
    inject(&t, source, 1, 0);
    step(&t);
    for (size_t i = 0; i < steps; i++) {
        double time;
        tell(&t, 1, k, MOST_MESSAGES - 1, step(&t));
        done("get_global_time", jt_get_global_time(t.state, t.state_len, &time));
        printf("# the clock after it: %g\n", time);
    }
    free(t.state);
}

int main(void) {
    printf("# rows names couplings messages      marks   seconds  ns for each\n");
    printf("# one step, five rows\n");
    for (size_t k = 4; k <= 64; k *= 2)
        measure(0, 1, k, MOST_MESSAGES);
    printf("# one step, by messages\n");
    for (size_t messages = 1; messages < MOST_MESSAGES; messages *= 4)
        measure(0, 1, 64, messages);
    printf("# three steps one after the other, six rows, 256 connectors\n");
    go_round(32, 3);
    printf("# one step, the five rows last of 64, and the last of 64 names marked\n");
    for (size_t k = 4; k <= 64; k *= 2)
        measure(MOST_ROWS - LEVELS - 1, MOST_NAMES, k, MOST_MESSAGES);
    return 0;
}
