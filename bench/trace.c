/* How fast traces are written and read: gigabytes of blocks a second, beside memcpy of the same bytes and, with WITH_ZLIB, zlib's crc32 over
 * them; for a file that stays in the processor's cache, and for one that does not.
 * Exit status: 0; 1 a call answers or leaves something else than it should. */
#define _POSIX_C_SOURCE 200809L
#include <inttypes.h>
#include <stdio.h>
#include <stdlib.h>
#include <string.h>
#include <time.h>
#ifdef WITH_ZLIB
#include <zlib.h>
#endif

#include "jambthrush.h"

enum { SMALL_BLOCKS = 400, LARGE_BLOCKS = 200000, ROUNDS = 15, SAMPLE_BLOCKS = 40000 };
#ifdef WITH_ZLIB
enum { WITH_CRC = 1 };
#else
enum { WITH_CRC = 0 };
#endif

struct work {
    size_t blocks, bytes, words;
    uint8_t *file, *copy;
    uint64_t *rows, *read;
};

/* What is measured, by turns. */
enum subject { COPY, CRC, WRITE, READ, SUBJECTS };
static const char *const names[SUBJECTS] = {"memcpy", "zlib's crc32", "jt_write_trace", "jt_read_trace"};

static volatile unsigned long kept; /* so that no compiler leaves out what nobody looks at */

static void *room(size_t bytes) {
    void *memory = malloc(bytes);
    if (memory == NULL) {
        fprintf(stderr, "trace: no memory\n");
        exit(1);
    }
    memset(memory, 1, bytes); /* its pages are there before anything is timed */
    return memory;
}

static void must(int holds, const char *what) {
    if (holds)
        return;
    fprintf(stderr, "trace: %s\n", what);
    exit(1);
}

static void make(const struct work *w, enum subject subject) {
    uint64_t written = 0;
    uint64_t report[3] = {0, 0, 0};
    switch (subject) {
    case COPY:
        memcpy(w->copy, w->file, w->bytes);
        kept += w->copy[w->bytes - 1];
        break;
    case CRC:
#ifdef WITH_ZLIB
        kept += crc32(0, w->file, (uInt)w->bytes);
#endif
        break;
    case WRITE:
        must(jt_write_trace(w->rows, w->words, 0, w->copy, w->bytes, &written) == JT_OK && written == w->bytes,
             "a file is not written");
        break;
    default:
        must(jt_read_trace(w->file, w->bytes, 0, w->read, w->words, report) == JT_OK && report[0] == w->words / JT_MESSAGE_WORDS,
             "a file is not read");
    }
}

static double seconds(void) {
    struct timespec t;
    clock_gettime(CLOCK_MONOTONIC, &t);
    return (double)t.tv_sec + (double)t.tv_nsec * 1e-9;
}

/* Rows of noise, full blocks of them, and what is read of these, which must be the rows. */
static struct work work_of(size_t blocks) {
    struct work w;
    uint64_t place = 1;
    w.blocks = blocks;
    w.bytes = JT_BLOCK_BYTES * blocks;
    w.words = JT_MESSAGE_WORDS * JT_BLOCK_ROWS * blocks;
    w.file = room(w.bytes);
    w.copy = room(w.bytes);
    w.rows = room(w.words * sizeof(uint64_t));
    w.read = room(w.words * sizeof(uint64_t));
    for (size_t i = 0; i < w.words; i++) {
        place = place * UINT64_C(6364136223846793005) + UINT64_C(1442695040888963407);
        w.rows[i] = place ^ place >> 29;
    }
    make(&w, WRITE);
    memcpy(w.file, w.copy, w.bytes);
    make(&w, READ);
    must(memcmp(w.rows, w.read, w.words * sizeof(uint64_t)) == 0, "what is read is not what was written");
    return w;
}

/* The best seconds for one file of each subject, of ROUNDS. */
static void measure(const struct work *w, double best[SUBJECTS]) {
    size_t times = w->blocks < SAMPLE_BLOCKS ? SAMPLE_BLOCKS / w->blocks : 1;
    for (size_t round = 0; round < ROUNDS; round++)
        for (enum subject s = COPY; s < SUBJECTS; s++) {
            double began = seconds();
            for (size_t i = 0; i < times; i++)
                make(w, s);
            double took = (seconds() - began) / (double)times;
            if (round == 0 || took < best[s])
                best[s] = took;
        }
}

static const char *verdict(int holds) {
    return holds ? "met" : "MISSED";
}

static void tell(const struct work *w, const double best[SUBJECTS]) {
    printf("# %zu blocks, %zu bytes\n# %-16s %8s %15s%s\n", w->blocks, w->bytes, "what", "GB/s", "times memcpy's",
           WITH_CRC ? "   times crc32's" : "");
    for (enum subject s = COPY; s < SUBJECTS; s++) {
        double speed = (double)w->bytes / best[s] * 1e-9;
        if (s == CRC && !WITH_CRC)
            continue;
        printf("%-18s %8.2f %15.2f", names[s], speed, best[s] / best[COPY]);
        if (WITH_CRC)
            printf(" %15.2f", best[s] / best[CRC]);
        if (s >= WRITE)
            printf("  1 GB/s: %s; 4 times memcpy's: %s", verdict(speed >= 1), verdict(best[s] <= 4 * best[COPY]));
        printf("\n");
    }
}

int main(void) {
    static const size_t sizes[] = {SMALL_BLOCKS, LARGE_BLOCKS};
    printf("# gigabytes (10^9 bytes) of blocks a second, the best of %d rounds; how many times the time of memcpy and of crc32\n", ROUNDS);
    if (!WITH_CRC)
        printf("# zlib's header is not there (Debian's zlib1g-dev): without crc32\n");
    for (size_t i = 0; i < sizeof sizes / sizeof *sizes; i++) {
        struct work w = work_of(sizes[i]);
        double best[SUBJECTS];
        measure(&w, best);
        tell(&w, best);
        free(w.file);
        free(w.copy);
        free(w.rows);
        free(w.read);
    }
    return 0;
}
