/* Random numbers from a seed, and the words that are worth trying: small ones, those at a boundary, any. */
#ifndef FUZZ_RANDOM_H
#define FUZZ_RANDOM_H

#include "words.h"

#define MOST_TIME 0x43b0000000000000u /* the bits of 2^60 */
#define NEVER 0x7ff0000000000000u     /* of +infinity */

static uint64_t random_place;

static void random_from(uint64_t seed) {
    random_place = seed;
}

/* splitmix64: seeds that stand side by side give sequences that have nothing in common. */
static uint64_t random_word(void) {
    random_place += 0x9e3779b97f4a7c15u;
    uint64_t word = random_place;
    word = (word ^ (word >> 30)) * 0xbf58476d1ce4e5b9u;
    word = (word ^ (word >> 27)) * 0x94d049bb133111ebu;
    return word ^ (word >> 31);
}

static uint64_t below(uint64_t n) {
    return random_word() % n;
}

static int one_in(uint64_t n) {
    return below(n) == 0;
}

static uint64_t boundary_word(void) {
    static const uint64_t boundaries[] = {
        0, 1, 2, 3, 4, 5, 7, 8, 63, 64, 65, 255, 256, 257, 1542, 17286, 0xffff, 0x10000, 0xffffffff, 0x100000000,
        0x0001000000000000, 0x4000000000000000, 0x4000000000000001, MOST_TIME, MOST_TIME + 1, 0x3ff0000000000000,
        NEVER - 1, NEVER, NEVER + 1, 0x7ff8000000000000, 0x7fffffffffffffff, 0x8000000000000000, 0x8000000000000001,
        0xbff0000000000000, 0xfff0000000000000, 0xfffffffffffffffe, 0xffffffffffffffff};
    return boundaries[below(sizeof boundaries / sizeof boundaries[0])];
}

static uint64_t any_word(void) {
    switch (below(4)) {
    case 0:
        return random_word();
    case 1:
        return below(8);
    default:
        return boundary_word();
    }
}

/* A word that stands near another, or anywhere. */
static uint64_t changed_word(uint64_t word) {
    switch (below(5)) {
    case 0:
        return word ^ ((uint64_t)1 << below(64));
    case 1:
        return word + 1;
    case 2:
        return word - 1;
    default:
        return any_word();
    }
}

static int is_time(uint64_t bits) {
    return bits <= MOST_TIME;
}

/* The bits of a time, mostly of a small one. */
static uint64_t good_time(void) {
    switch (below(64)) {
    case 0:
        return below(MOST_TIME + 1);
    case 1:
        return MOST_TIME - below(3);
    case 2:
        return below(3);
    default:
        return bits_of((double)below(40) / 4);
    }
}

static uint64_t any_time(void) {
    return one_in(8) ? any_word() : good_time();
}

static void any_words(uint64_t *words, size_t len) {
    for (size_t i = 0; i < len; i++)
        words[i] = any_word();
}

#endif
