/* Buffers with canaries on both sides, and copies of words. */
#ifndef GUARDED_H
#define GUARDED_H

#include <stdio.h>
#include <stdlib.h>

#include "checks.h"
#include "words.h"

/* `words` has len words, with MARGIN canaries before and after them. */
struct guarded {
    uint64_t *block;
    uint64_t *words;
    size_t len;
};

static struct guarded guarded_new(size_t len) {
    struct guarded g;
    g.block = malloc((len + 2 * MARGIN) * sizeof(uint64_t));
    if (g.block == NULL) {
        printf("no memory\n");
        exit(2);
    }
    g.words = g.block + MARGIN;
    g.len = len;
    for (size_t i = 0; i < len + 2 * MARGIN; i++)
        g.block[i] = CANARY;
    return g;
}

static inline struct guarded guarded_of(const uint64_t *words, size_t len) {
    struct guarded g = guarded_new(len);
    if (len > 0)
        memcpy(g.words, words, len * sizeof(uint64_t));
    return g;
}

static void guarded_check(struct guarded g) {
    for (size_t i = 0; i < MARGIN; i++) {
        CHECK(g.block[i] == CANARY);
        CHECK(g.words[g.len + i] == CANARY);
    }
}

static void guarded_free(struct guarded g) {
    guarded_check(g);
    free(g.block);
}

/* A copy of the words, to see that a call changed nothing. */
static uint64_t *copy_of(const uint64_t *words, size_t len) {
    uint64_t *copy = malloc((len == 0 ? 1 : len) * sizeof(uint64_t));
    if (copy == NULL) {
        printf("no memory\n");
        exit(2);
    }
    if (len > 0)
        memcpy(copy, words, len * sizeof(uint64_t));
    return copy;
}

#endif
