/* Makes the calls for traces, as trace_differing.py asks for them, and hands back all that they leave.
 *
 * A request is its length in bytes (8 bytes, little-endian as all words here) and as many bytes: the words of struct request;
 * the memory of `report`; that of `rows`; that of `file`. Each memory is what is lent with a margin before and behind it, and all
 * of it goes back as the call has left it, behind the call's answer (a word), again with the length before. What must stand there
 * is for the asker to say: nothing is judged here.
 * Of `rows` and `file` a first part may be left out of the request: it is zeros that can only be read, and does not go back. So
 * lengths can be lent that no machine has memory for. Exit status: 2 for a request that is none, or no memory.
 */
#define _DEFAULT_SOURCE
#include <stdio.h>
#include <stdlib.h>
#include <string.h>
#include <sys/mman.h>
#include <unistd.h>

#include "jambthrush.h"

enum { MARGIN = 64, REPORT = 3 * 8 };
enum call { TRACE_BYTES = 0, WRITE_TRACE = 1, READ_TRACE = 2 };

struct request {
    uint64_t call, start;
    uint64_t rows_len, file_len;   /* as they are lent: words, bytes */
    uint64_t rows_sent, file_sent; /* what the request has of them, in bytes */
    uint64_t shift;                /* `file` is so many bytes past a multiple of 16 */
    uint64_t null;                 /* NULL is handed where a length is 0 */
};

/* A margin, the part left out, the part sent, a margin. */
struct memory {
    unsigned char *block;
    size_t block_len, left_out, sent;
    size_t shift;
};

static void fail(const char *what) {
    fflush(stdout);
    fprintf(stderr, "trace_driver: %s\n", what);
    exit(2);
}

static unsigned char *lent(const struct memory *memory) {
    return memory->block + memory->shift + MARGIN;
}

/* Lets the pages of these bytes be written. */
static void open_pages(unsigned char *from, size_t len) {
    size_t past = (uintptr_t)from % (size_t)sysconf(_SC_PAGESIZE);
    if (mprotect(from - past, len + past, PROT_READ | PROT_WRITE) != 0)
        fail("mprotect");
}

/* Takes a memory out of the request. */
static struct memory lay(const unsigned char **at, size_t left_out, size_t sent, size_t shift) {
    struct memory memory = {NULL, shift + MARGIN + left_out + sent + MARGIN, left_out, sent, shift};
    if (left_out == 0) {
        memory.block = malloc(memory.block_len);
        if (memory.block == NULL)
            fail("no memory");
    } else {
        void *map = mmap(NULL, memory.block_len, PROT_READ, MAP_PRIVATE | MAP_ANONYMOUS | MAP_NORESERVE, -1, 0);
        if (map == MAP_FAILED)
            fail("no memory for a long file");
        memory.block = map;
        open_pages(memory.block + shift, MARGIN);
        open_pages(lent(&memory) + left_out, sent + MARGIN);
    }
    memcpy(memory.block + shift, *at, MARGIN);
    memcpy(lent(&memory) + left_out, *at + MARGIN, sent + MARGIN);
    *at += MARGIN + sent + MARGIN;
    return memory;
}

static void give_back(struct memory memory) {
    fwrite(memory.block + memory.shift, 1, MARGIN, stdout);
    fwrite(lent(&memory) + memory.left_out, 1, memory.sent + MARGIN, stdout);
    if (memory.left_out == 0)
        free(memory.block);
    else
        munmap(memory.block, memory.block_len);
}

static uint64_t call(const struct request *asked, uint64_t *rows, uint8_t *file, uint64_t *report) {
    size_t rows_len = (size_t)asked->rows_len, file_len = (size_t)asked->file_len;
    if (asked->null && rows_len == 0)
        rows = NULL;
    if (asked->null && file_len == 0)
        file = NULL;
    if (asked->call == TRACE_BYTES)
        return jt_trace_bytes(rows_len);
    if (asked->call == WRITE_TRACE)
        return jt_write_trace(rows, rows_len, asked->start, file, file_len, report);
    return jt_read_trace(file, file_len, asked->start, rows, rows_len, report);
}

static void answer(const unsigned char *body, size_t len) {
    struct request asked;
    const unsigned char *at = body + sizeof asked;
    if (len < sizeof asked)
        fail("a request is too short");
    memcpy(&asked, body, sizeof asked);
    if (asked.call > READ_TRACE || len != sizeof asked + REPORT + asked.rows_sent + asked.file_sent + 6 * MARGIN)
        fail("a request is none");
    /* jt_trace_bytes is lent nothing: its length is a number only */
    int lends = asked.call != TRACE_BYTES;
    struct memory report = lay(&at, 0, REPORT, 0);
    size_t rows_out = lends ? (size_t)(8 * asked.rows_len - asked.rows_sent) : 0;
    size_t file_out = lends ? (size_t)(asked.file_len - asked.file_sent) : 0;
    struct memory rows = lay(&at, rows_out, (size_t)asked.rows_sent, 0);
    struct memory file = lay(&at, file_out, (size_t)asked.file_sent, (size_t)asked.shift);
    uint64_t told = call(&asked, (uint64_t *)(void *)lent(&rows), lent(&file), (uint64_t *)(void *)lent(&report));
    uint64_t back = sizeof told + REPORT + asked.rows_sent + asked.file_sent + 6 * MARGIN;
    fwrite(&back, sizeof back, 1, stdout);
    fwrite(&told, sizeof told, 1, stdout);
    give_back(report);
    give_back(rows);
    give_back(file);
    fflush(stdout); /* so that what a request breaks is known to be that one */
}

int main(void) {
    uint64_t len;
    while (fread(&len, sizeof len, 1, stdin) == 1) {
        unsigned char *body = malloc((size_t)len + 1);
        if (body == NULL)
            fail("no memory");
        if (fread(body, 1, (size_t)len, stdin) != len)
            fail("a request is cut short");
        answer(body, (size_t)len);
        free(body);
    }
    return 0;
}
