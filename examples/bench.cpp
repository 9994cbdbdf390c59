// The run of examples/bench.c from C++: the same table, the same jobs, the same lines. Build: see README.md.
#include <cinttypes>
#include <cstdio>
#include <cstring>
#include <initializer_list>
#include <vector>

#include "jambthrush.h"

using Words = std::vector<std::uint64_t>;

struct Cell {
    int word;
    std::uint64_t value;
};

static std::uint64_t bits_of(double x) {
    std::uint64_t bits;
    std::memcpy(&bits, &x, sizeof bits);
    return bits;
}

// One more row of so many words. What is not named is 0.
static void add(Words &rows, std::size_t words, std::initializer_list<Cell> cells) {
    std::size_t start = rows.size();
    rows.resize(start + words);
    for (const Cell &cell : cells)
        rows[start + static_cast<std::size_t>(cell.word)] = cell.value;
}

int main() {
    Words models, connectors;
    add(models, JT_MODEL_WORDS,
        {{JT_MODEL_ID, 1},
         {JT_MODEL_KIND, JT_BATCHER},
         {JT_BATCHER_IN, 1},
         {JT_BATCHER_OUT, 2},
         {JT_BATCHER_MAX_BATCH_SIZE, 2},
         {JT_BATCHER_MAX_BATCH_TIME, bits_of(10.0)}});
    add(models, JT_MODEL_WORDS,
        {{JT_MODEL_ID, 2},
         {JT_MODEL_KIND, JT_PROCESSOR},
         {JT_PROCESSOR_IN, 1},
         {JT_PROCESSOR_OUT, 2},
         {JT_MODEL_GIVEN, JT_GIVEN_QUEUE_CAPACITY},
         {JT_PROCESSOR_QUEUE_CAPACITY, 8}});
    add(connectors, JT_CONNECTOR_WORDS,
        {{JT_CONNECTOR_SOURCE_ID, 1},
         {JT_CONNECTOR_SOURCE_PORT, 2},
         {JT_CONNECTOR_TARGET_ID, 2},
         {JT_CONNECTOR_TARGET_PORT, 1}});
    const std::vector<double> services = {4, 5, 6};

    Words state(jt_state_words(models.size(), connectors.size(), 0));
    Words rows(8 * JT_MESSAGE_WORDS);
    std::uint64_t report[3];
    std::uint32_t refusal = jt_post(models.data(), models.size(), connectors.data(), connectors.size(), nullptr, 0,
                                    state.data(), state.size());
    for (std::uint32_t job = 11; refusal == JT_OK && job <= 13; job++)
        refusal = jt_inject_input(state.data(), state.size(), 0, 0, 1, 1, 0.0, job);
    if (refusal == JT_OK)
        refusal = jt_step_until(state.data(), state.size(), services.data(), services.size(), 10.0, 1000, rows.data(),
                                rows.size(), report);
    if (refusal != JT_OK) {
        std::fprintf(stderr, "refused with %" PRIu32 "\n", refusal);
        return 1;
    }
    std::printf("%" PRIu64 " steps, %" PRIu64 " rows\n", report[0], report[1]);
    for (std::size_t i = 0; i < report[1]; i++) {
        const std::uint64_t *m = rows.data() + i * JT_MESSAGE_WORDS;
        std::printf("%" PRIu64 ":%" PRIu64 " to %" PRIu64 ":%" PRIu64 " time %016" PRIx64 " content %" PRIu64 "\n",
                    m[JT_MESSAGE_SOURCE_ID], m[JT_MESSAGE_SOURCE_PORT], m[JT_MESSAGE_TARGET_ID], m[JT_MESSAGE_TARGET_PORT],
                    m[JT_MESSAGE_TIME], m[JT_MESSAGE_CONTENT]);
    }
}
