/* Memory between pages that trap, and bytes lent at its edges. The library is not instrumented, so this is what sees it leave a
 * buffer. For _GNU_SOURCE. */
#ifndef GUARD_PAGES_H
#define GUARD_PAGES_H

#include <stdlib.h>
#include <sys/mman.h>

#include "checks.h"
#include "words.h"

/* A multiple of every page size in use. */
enum { GUARD_BYTES = 65536 };

/* So many bytes, a multiple of GUARD_BYTES, with GUARD_BYTES that trap before and after them. */
static uint8_t *between_guards(size_t bytes) {
    uint8_t *block = mmap(NULL, bytes + 2 * GUARD_BYTES, PROT_NONE, MAP_PRIVATE | MAP_ANONYMOUS, -1, 0);
    if (block == MAP_FAILED || mprotect(block + GUARD_BYTES, bytes, PROT_READ | PROT_WRITE) != 0) {
        printf("no memory\n");
        exit(2);
    }
    return block + GUARD_BYTES;
}

/* ---- bytes lent: at the end of the room, at its start, or a few bytes behind that, with canaries where nothing traps */
enum { EDGE_CANARY = 0xc7, EDGE_MARGIN = 64 };
enum place { AT_END, AT_START, BEHIND_START };

struct edged {
    uint8_t *first; /* the bytes between the guards */
    size_t room;
    uint8_t *bytes; /* what is lent of them */
    size_t len;
};

/* A buffer for up to `most` bytes. */
static inline struct edged edged_new(size_t most) {
    struct edged b;
    b.room = (most + 2 * EDGE_MARGIN + GUARD_BYTES - 1) / GUARD_BYTES * GUARD_BYTES;
    b.first = between_guards(b.room);
    b.bytes = b.first;
    b.len = 0;
    return b;
}

static inline size_t edged_before(const struct edged *b) {
    size_t space = (size_t)(b->bytes - b->first);
    return space < EDGE_MARGIN ? space : EDGE_MARGIN;
}

static inline size_t edged_after(const struct edged *b) {
    size_t space = b->room - (size_t)(b->bytes - b->first) - b->len;
    return space < EDGE_MARGIN ? space : EDGE_MARGIN;
}

/* Copies of these bytes, for a call to be handed b->bytes; `behind` of them after the start, where that is the place. */
static inline void edged_lend(struct edged *b, const void *bytes, size_t len, enum place place, size_t behind) {
    b->bytes = place == AT_END ? b->first + (b->room - len) : place == AT_START ? b->first : b->first + behind;
    b->len = len;
    memset(b->bytes - edged_before(b), EDGE_CANARY, edged_before(b));
    memset(b->bytes + len, EDGE_CANARY, edged_after(b));
    if (len > 0)
        memcpy(b->bytes, bytes, len);
}

/* It holds these bytes, and nothing around them has changed. */
static inline void edged_holds(const struct edged *b, const void *bytes) {
    int around = 1;
    for (size_t i = 0; i < edged_before(b); i++)
        around &= b->bytes[-1 - (ptrdiff_t)i] == EDGE_CANARY;
    for (size_t i = 0; i < edged_after(b); i++)
        around &= b->bytes[b->len + i] == EDGE_CANARY;
    CHECK(around);
    CHECK(b->len == 0 || memcmp(b->bytes, bytes, b->len) == 0);
}

#endif
