/* A run that is paused in one process and goes on in another, by way of a file. Build and use: docs/PAUSING.md.
 *
 *     pause through COUNT            COUNT steps in one go
 *     pause first COUNT FILE         COUNT steps, and the paused run into FILE
 *     pause on COUNT FILE [NEXT]     COUNT steps more of the run in FILE; paused again into NEXT, where that is given
 *
 * `through` and `on` print the rows of all steps so far and how the run stands. Exit status: 0, also where the run itself was
 * refused, which is printed; 1 bad input or a file that cannot be read or written; 2 wrong use. NEXT may be FILE, but then a write
 * that fails loses the run. */
#include <errno.h>
#include <inttypes.h>
#include <stdio.h>
#include <stdlib.h>
#include <string.h>

#include "jambthrush.h"

/* The table of examples/bench.c: a batcher feeds a processor. The service times are the same list in every part. */
static const uint64_t models[][JT_MODEL_WORDS] = {
    {[JT_MODEL_ID] = 1, [JT_MODEL_KIND] = JT_BATCHER, [JT_BATCHER_IN] = 1, [JT_BATCHER_OUT] = 2,
     [JT_BATCHER_MAX_BATCH_SIZE] = 2, [JT_BATCHER_MAX_BATCH_TIME] = 0x4024000000000000 /* the bits of 10.0 */},
    {[JT_MODEL_ID] = 2, [JT_MODEL_KIND] = JT_PROCESSOR, [JT_PROCESSOR_IN] = 1, [JT_PROCESSOR_OUT] = 2,
     [JT_MODEL_GIVEN] = JT_GIVEN_QUEUE_CAPACITY, [JT_PROCESSOR_QUEUE_CAPACITY] = 8},
};
static const uint64_t connectors[][JT_CONNECTOR_WORDS] = {
    {[JT_CONNECTOR_SOURCE_ID] = 1, [JT_CONNECTOR_SOURCE_PORT] = 2, [JT_CONNECTOR_TARGET_ID] = 2, [JT_CONNECTOR_TARGET_PORT] = 1},
};
static const double services[] = {4, 5, 6};

#define LEN(array) (sizeof(array) / sizeof(array)[0])
#define WORDS(rows) (sizeof(rows) / sizeof(uint64_t))

/* What jt_state_words says of this table, what stands before the changing part (docs/LAYOUT.md), rows for all of its run. */
enum { STATE_WORDS = 1542 + 206 * 2 + 4 * 1, TABLE_WORDS = 3 + WORDS(models) + WORDS(connectors), MOST_ROWS = 8 };

/* A run so far, and all that it takes to go on. The file holds these words with the bytes as this machine has them, so it is
 * for machines of the same byte order. `load` checks what could lead astray, the library with 20 that the state is one. That
 * nobody made another run of this table of it is not checked. */
struct run {
    uint64_t number; /* the refusal that the run ended with, or 0 */
    uint64_t steps, row_count;
    uint64_t rows[MOST_ROWS * JT_MESSAGE_WORDS];
    uint64_t state[STATE_WORDS];
};

static struct run run;

/* Says what is wrong with what, and ends. */
static void fail(const char *what, const char *why) {
    fprintf(stderr, "pause: %s: %s\n", what, why);
    exit(1);
}

static void begin(void) {
    uint32_t refusal = jt_post(models[0], WORDS(models), connectors[0], WORDS(connectors), NULL, 0, run.state,
                               STATE_WORDS);
    for (uint32_t job = 11; refusal == JT_OK && job <= 13; job++)
        refusal = jt_inject_input(run.state, STATE_WORDS, 0, 0, 1, 1, 0.0, job);
    if (refusal != JT_OK)
        fail("the bench's table", "refused");
}

/* The next part: the rest of the rows is lent, and what it reports is added. A refusal stays that of the whole run: asked for no
 * steps, the next part would answer 0. */
static void go_on(uint64_t count) {
    uint64_t used = run.row_count * JT_MESSAGE_WORDS;
    uint64_t report[3];
    uint32_t number = jt_step_n(run.state, STATE_WORDS, services, LEN(services), count, run.rows + used,
                                LEN(run.rows) - used, report);
    if (run.number == JT_OK)
        run.number = number;
    run.steps += report[0];
    run.row_count += report[1];
}

/* In the place of the run just begun, whose table it must have: `print` knows where things stand in this one only. */
static void load(const char *path) {
    uint64_t table[TABLE_WORDS];
    double clock;
    FILE *file = fopen(path, "rb");
    if (file == NULL)
        fail(path, strerror(errno));
    memcpy(table, run.state, sizeof table);
    if (fread(&run, sizeof run, 1, file) != 1)
        fail(path, "too short for a paused run");
    if (fgetc(file) != EOF)
        fail(path, "too long for a paused run");
    fclose(file);
    if (jt_get_global_time(run.state, STATE_WORDS, &clock) != JT_OK)
        fail(path, "refused with 20: it holds no simulation");
    if (memcmp(table, run.state, sizeof table) != 0 || run.row_count > MOST_ROWS)
        fail(path, "a run of something else");
}

/* What is wrong with a disk may come out only when the file is closed. */
static void save(const char *path) {
    FILE *file = fopen(path, "wb");
    if (file == NULL)
        fail(path, strerror(errno));
    size_t written = fwrite(&run, sizeof run, 1, file);
    if (fclose(file) != 0 || written != 1)
        fail(path, strerror(errno));
}

/* The words up to the state's end, in one number (FNV-1a, a word at a time). Those beyond are no part of it, and may differ. */
static uint64_t sum_of(size_t end) {
    uint64_t sum = 0xcbf29ce484222325;
    for (size_t i = 0; i < end; i++)
        sum = (sum ^ run.state[i]) * 0x100000001b3;
    return sum;
}

static void print(void) {
    const uint64_t *changing = run.state + TABLE_WORDS; /* how many messages, the clock, the place, two rows, the messages */
    size_t end = TABLE_WORDS + 3 + 2 * (4 + 64) + (size_t)changing[0] * JT_MESSAGE_WORDS;
    for (uint64_t i = 0; i < run.row_count; i++) {
        const uint64_t *m = run.rows + i * JT_MESSAGE_WORDS;
        printf("%" PRIu64 ":%" PRIu64 " to %" PRIu64 ":%" PRIu64 " time %016" PRIx64 " content %" PRIu64 "\n",
               m[JT_MESSAGE_SOURCE_ID], m[JT_MESSAGE_SOURCE_PORT], m[JT_MESSAGE_TARGET_ID], m[JT_MESSAGE_TARGET_PORT],
               m[JT_MESSAGE_TIME], m[JT_MESSAGE_CONTENT]);
    }
    printf("%" PRIu64 " steps, %" PRIu64 " rows, answer %" PRIu64 ", clock %016" PRIx64 "\n",
           run.steps, run.row_count, run.number, changing[1]);
    printf("state of %zu words, sum %016" PRIx64 "\n", end, sum_of(end));
    if (fflush(stdout) != 0)
        fail("standard output", strerror(errno));
}

/* A whole number below 2^64. strtoull by itself would take " 1", "-1" and "". */
static uint64_t count_of(const char *text) {
    char *end;
    errno = 0;
    unsigned long long count = strtoull(text, &end, 10);
    if (text[0] < '0' || text[0] > '9' || *end != '\0' || errno != 0)
        fail(text, "not a number of steps");
    return count;
}

int main(int argc, char **argv) {
    int through = argc == 3 && strcmp(argv[1], "through") == 0;
    int first = argc == 4 && strcmp(argv[1], "first") == 0;
    int on = (argc == 4 || argc == 5) && strcmp(argv[1], "on") == 0;
    if (!through && !first && !on) {
        fprintf(stderr, "usage: pause through COUNT | pause first COUNT FILE | pause on COUNT FILE [NEXT]\n");
        return 2;
    }
    uint64_t count = count_of(argv[2]);
    begin();
    if (on)
        load(argv[3]);
    go_on(count);
    if (first || argc == 5)
        save(argv[argc - 1]);
    if (!first)
        print();
    return 0;
}
