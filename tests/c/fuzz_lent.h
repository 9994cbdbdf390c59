/* A buffer as it is lent to a call: its last word stands straight before memory that traps, or its first straight after some.
 * On the other side stand canaries. */
#ifndef FUZZ_LENT_H
#define FUZZ_LENT_H

#include "fuzz_random.h"
#include "guard_pages.h"

enum { GUARD_WORDS = GUARD_BYTES / 8 };

struct lent {
    const char *name;
    uint64_t *first; /* the words between the two guards */
    size_t room;
    uint64_t *words; /* what is lent of them */
    size_t len;
    uint64_t *pointer; /* what the call is handed: words, or NULL where there are none */
    uint64_t *canaries;
};

/* A buffer for up to `most` words. */
static struct lent lent_new(const char *name, size_t most) {
    struct lent b;
    memset(&b, 0, sizeof b);
    b.name = name;
    b.room = (most + MARGIN + GUARD_WORDS - 1) / GUARD_WORDS * GUARD_WORDS;
    b.first = (uint64_t *)(void *)between_guards(b.room * sizeof(uint64_t));
    return b;
}

/* These words, at either end of the room. */
static void lent_fill(struct lent *b, const uint64_t *words, size_t len) {
    b->len = len;
    b->words = b->first + (b->room - len);
    b->canaries = b->words - MARGIN;
    if (one_in(4)) {
        b->words = b->first;
        b->canaries = b->words + len;
    }
    b->pointer = len == 0 && one_in(2) ? NULL : b->words;
    if (len > 0)
        memcpy(b->words, words, len * sizeof(uint64_t));
    for (size_t i = 0; i < MARGIN; i++)
        b->canaries[i] = CANARY;
}

/* Nothing around the words has changed. */
static void lent_check(const struct lent *b) {
    uint64_t wrong = 0;
    for (size_t i = 0; i < MARGIN; i++)
        wrong |= b->canaries[i] ^ CANARY;
    CHECK(wrong == 0);
    if (wrong != 0)
        printf("the words around %s have changed\n", b->name);
}

/* Nor have the words that were lent. */
static void lent_check_same(const struct lent *b, const uint64_t *words) {
    int unchanged = same(b->words, words, b->len);
    CHECK(unchanged);
    if (!unchanged)
        printf("the words of %s have changed\n", b->name);
}

#endif
