/* What a test says when something is not as it should be. */
#ifndef CHECKS_H
#define CHECKS_H

#include <stdio.h>

static long checks = 0;
static long failures = 0;

#define CHECK(condition)                                                                  \
    do {                                                                                  \
        checks++;                                                                         \
        if (!(condition)) {                                                               \
            failures++;                                                                   \
            printf("%s:%d: not so: %s\n", __FILE__, __LINE__, #condition);                \
        }                                                                                 \
    } while (0)

#define CHECK_NUMBER(wanted, got)                                                         \
    do {                                                                                  \
        unsigned long long wanted_ = (unsigned long long)(wanted);                        \
        unsigned long long got_ = (unsigned long long)(got);                              \
        checks++;                                                                         \
        if (wanted_ != got_) {                                                            \
            failures++;                                                                   \
            printf("%s:%d: %s is %llu, not %llu\n", __FILE__, __LINE__, #got, got_, wanted_); \
        }                                                                                 \
    } while (0)

static inline int tell(const char *name) {
    printf("%s: %ld checks, %ld failed\n", name, checks, failures);
    return failures == 0 ? 0 : 1;
}

#endif
