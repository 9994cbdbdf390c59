/* The bench's run from C: a batcher feeds a processor, three jobs come at once. Build: see README.md. */
#include <inttypes.h>
#include <stdio.h>
#include <stdlib.h>

#include "jambthrush.h"

/* The header names the words of each row. What is not named here is 0. */
static const uint64_t models[][JT_MODEL_WORDS] = {
    {[JT_MODEL_ID] = 1, [JT_MODEL_KIND] = JT_BATCHER, [JT_BATCHER_IN] = 1, [JT_BATCHER_OUT] = 2,
     [JT_BATCHER_MAX_BATCH_SIZE] = 2, [JT_BATCHER_MAX_BATCH_TIME] = 0x4024000000000000 /* the bits of 10.0 */},
    {[JT_MODEL_ID] = 2, [JT_MODEL_KIND] = JT_PROCESSOR, [JT_PROCESSOR_IN] = 1, [JT_PROCESSOR_OUT] = 2,
     [JT_MODEL_GIVEN] = JT_GIVEN_QUEUE_CAPACITY, [JT_PROCESSOR_QUEUE_CAPACITY] = 8},
};
static const uint64_t connectors[][JT_CONNECTOR_WORDS] = {
    {[JT_CONNECTOR_SOURCE_ID] = 1, [JT_CONNECTOR_SOURCE_PORT] = 2, [JT_CONNECTOR_TARGET_ID] = 2, [JT_CONNECTOR_TARGET_PORT] = 1},
};
static const double services[] = {4, 5, 6};

#define LEN(array) (sizeof(array) / sizeof(array)[0])

/* The library is lent words: all of a slice's, and not its rows. */
#define WORDS(rows) (sizeof(rows) / sizeof(uint64_t))

int main(void) {
    size_t state_len = jt_state_words(WORDS(models), WORDS(connectors), 0);
    uint64_t *state = calloc(state_len, sizeof *state);
    uint64_t rows[8 * JT_MESSAGE_WORDS];
    uint64_t report[3];
    uint32_t refusal;

    if (state == NULL)
        return 1;
    refusal = jt_post(models[0], WORDS(models), connectors[0], WORDS(connectors), NULL, 0, state, state_len);
    for (uint32_t job = 11; refusal == JT_OK && job <= 13; job++)
        refusal = jt_inject_input(state, state_len, 0, 0, 1, 1, 0.0, job);
    if (refusal == JT_OK)
        refusal = jt_step_until(state, state_len, services, LEN(services), 10.0, 1000, rows, LEN(rows), report);
    if (refusal != JT_OK) {
        fprintf(stderr, "refused with %" PRIu32 "\n", refusal);
        return 1;
    }
    printf("%" PRIu64 " steps, %" PRIu64 " rows\n", report[0], report[1]);
    for (uint64_t i = 0; i < report[1]; i++) {
        const uint64_t *m = rows + i * JT_MESSAGE_WORDS;
        printf("%" PRIu64 ":%" PRIu64 " to %" PRIu64 ":%" PRIu64 " time %016" PRIx64 " content %" PRIu64 "\n",
               m[JT_MESSAGE_SOURCE_ID], m[JT_MESSAGE_SOURCE_PORT], m[JT_MESSAGE_TARGET_ID], m[JT_MESSAGE_TARGET_PORT],
               m[JT_MESSAGE_TIME], m[JT_MESSAGE_CONTENT]);
    }
    free(state);
    return 0;
}
