/* How much stack the calls use: each is made on a thread whose stack was painted, and what is no longer paint was used. */
#define _GNU_SOURCE
#include <pthread.h>
#include <stdlib.h>
#include <string.h>
#include <sys/mman.h>

#include "checks.h"
#include "jambthrush.h"

enum { STACK = 1 << 20, PAINT = 0xa5, ROWS_LEN = 256 * 6 };

/* The widest rows there are: stopwatches, and Coupleds to depth 4 with a batcher in the last. */
struct table {
    uint64_t models[640];
    uint64_t connectors[1024];
    uint64_t couplings[1536];
    size_t rows;
    uint64_t *state;
    size_t state_len;
    uint64_t out[ROWS_LEN];
    uint8_t file[26 * JT_BLOCK_BYTES]; /* the trace of `out` */
    double services[64];
};

static void table_of(struct table *t, size_t rows) {
    memset(t, 0, sizeof *t);
    t->rows = rows;
    for (size_t i = 0; i < rows; i++) {
        uint64_t *row = t->models + 10 * i;
        row[0] = i + 1;
        if (i < 4) {
            row[1] = 4;
            row[2] = i > 0;
            row[3] = i;
        } else if (i == 4) {
            const uint64_t batcher[9] = {5, 2, 1, 4, 1, 0, 0, 2, 3};
            memcpy(row, batcher, sizeof batcher);
        } else {
            const uint64_t watch[9] = {i + 1, 3, 0, 0, 1, 2, 3, 4, 0};
            memcpy(row, watch, sizeof watch);
        }
    }
    for (size_t i = 0; i < 4; i++) {
        const uint64_t in[6] = {i + 1, 1, 0, 1, i + 2, 1};
        const uint64_t out[6] = {i + 1, 2, i + 2, 2, 0, 2};
        memcpy(t->couplings + 12 * i, in, sizeof in);
        memcpy(t->couplings + 12 * i + 6, out, sizeof out);
    }
    t->state_len = jt_state_words(10 * rows, 1024, 48);
    t->state = calloc(t->state_len, sizeof(uint64_t));
    if (t->state == NULL)
        exit(2);
}

/* Every call once, and a run that goes down all Coupleds. */
static void *all_calls(void *given) {
    struct table *t = given;
    uint64_t report[3];
    uint64_t count;
    uint64_t written;
    double time;
    CHECK_NUMBER(JT_OK, jt_intake(t->models, 10 * t->rows, t->connectors, 1024, t->couplings, 48, report));
    CHECK_NUMBER(JT_OK, jt_write_out_capacity(t->models, 10 * t->rows, &count));
    CHECK_NUMBER(JT_OK, jt_post(t->models, 10 * t->rows, t->connectors, 1024, t->couplings, 48, t->state, t->state_len));
    CHECK_NUMBER(JT_OK, jt_put(t->state, t->state_len, t->models, 10 * t->rows, t->connectors, 1024, t->couplings, 48));
    for (uint32_t job = 0; job < 7; job++)
        CHECK_NUMBER(JT_OK, jt_inject_input(t->state, t->state_len, 0, 0, 1, 1, 0, job));
    for (uint16_t port = 1; port <= 3; port++)
        CHECK_NUMBER(JT_OK, jt_inject_input(t->state, t->state_len, 0, 0, 6, port, 0, 1));
    CHECK_NUMBER(JT_OK, jt_step(t->state, t->state_len, t->services, 64, t->out, ROWS_LEN, report));
    CHECK_NUMBER(JT_OK, jt_step_n(t->state, t->state_len, t->services, 64, 1, t->out, ROWS_LEN, report));
    CHECK_NUMBER(JT_IDLE, jt_step_until(t->state, t->state_len, t->services, 64, 9, 9, t->out, ROWS_LEN, report));
    CHECK_NUMBER(JT_OK, jt_get_status(t->state, t->state_len, 6, report));
    CHECK_NUMBER(JT_OK, jt_get_messages(t->state, t->state_len, t->out, ROWS_LEN, &count));
    CHECK_NUMBER(JT_OK, jt_get_global_time(t->state, t->state_len, &time));
    CHECK_NUMBER(JT_OK, jt_reset(t->state, t->state_len));
    CHECK_NUMBER(JT_OK, jt_write_trace(t->out, ROWS_LEN, 0, t->file, jt_trace_bytes(ROWS_LEN), &written));
    CHECK_NUMBER(JT_OK, jt_read_trace(t->file, (size_t)written, 0, t->out, ROWS_LEN, report));
    return NULL;
}

/* The same thread with nothing to do: what it costs by itself. */
static void *no_call(void *given) {
    return given;
}

static size_t used_by(void *(*work)(void *), struct table *t) {
    unsigned char *stack = mmap(NULL, STACK, PROT_READ | PROT_WRITE, MAP_PRIVATE | MAP_ANONYMOUS, -1, 0);
    pthread_attr_t attributes;
    pthread_t thread;
    size_t clean = 0;
    if (stack == MAP_FAILED)
        exit(2);
    memset(stack, PAINT, STACK);
    if (pthread_attr_init(&attributes) != 0 || pthread_attr_setstack(&attributes, stack, STACK) != 0 ||
        pthread_create(&thread, &attributes, work, t) != 0 || pthread_join(thread, NULL) != 0)
        exit(2);
    while (clean < STACK && stack[clean] == PAINT)
        clean++;
    munmap(stack, STACK);
    return STACK - clean;
}

static void measure(size_t rows, size_t limit) {
    static struct table t;
    table_of(&t, rows);
    size_t thread = used_by(no_call, &t);
    size_t used = used_by(all_calls, &t) - thread;
    printf("stack: %zu rows use %zu bytes\n", rows, used);
    CHECK(used < limit);
    free(t.state);
}

int main(void) {
    measure(8, 64 * 1024);
    measure(24, 256 * 1024);
    measure(64, 256 * 1024);
    return tell("stack");
}
