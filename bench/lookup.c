/* The time of a step by the connectors in use, where its one outgoing message matches none of them, the first, the last or all.
 * A batcher of max_batch_size 1 holds 64 jobs and puts one out in each step, at one clock; a processor would in every second step only.
 * The connectors that match lead to an id that no row has: what goes along them is active for a step and reaches nobody.
 * With WITH_BEFORE an earlier build is linked too, its calls named before_jt_..: both are compared word by word, then measured by turns.
 * Exit status: 0; 1 a call answers or leaves something else than it should. */
#define _POSIX_C_SOURCE 200809L
#include <inttypes.h>
#include <stdio.h>
#include <stdlib.h>
#include <string.h>
#include <time.h>

#include "jambthrush.h"
#include "kinds.h"
#include "layout.h"
#include "words.h"

enum { SOURCE = 1, OTHER_SOURCE = 2, NOBODY = 3 };
enum { PORT_IN = 1, PORT_OUT = 2, OTHER_PORT = 3 };
enum { JOBS = 64, STEPS = 60, REPEATS = 10, MOST_CONNECTORS = 256, MOST_WORDS = 17286 };
enum { ROWS_WORDS = STEPS * MOST_CONNECTORS * JT_MESSAGE_WORDS };

/* All figures are gone through several times, so that a while in which the machine is slow does not spoil some of them. */
enum { PASSES = 10 };
#define SECONDS_A_PASS 0.05 /* of samples, for each subject of a figure */
#define NOT_YET 1e9         /* more seconds than any sample takes */

/* ---- the builds that are measured */
typedef size_t state_words_call(size_t, size_t, size_t);
typedef uint32_t post_call(const uint64_t *, size_t, const uint64_t *, size_t, const uint64_t *, size_t, uint64_t *, size_t);
typedef uint32_t inject_call(uint64_t *, size_t, uint16_t, uint16_t, uint16_t, uint16_t, double, uint32_t);
typedef uint32_t step_call(uint64_t *, size_t, const double *, size_t, uint64_t *, size_t, uint64_t *);
typedef uint32_t step_n_call(uint64_t *, size_t, const double *, size_t, uint64_t, uint64_t *, size_t, uint64_t *);

struct library {
    const char *name;
    state_words_call *state_words;
    post_call *post;
    inject_call *inject;
    step_call *step;
    step_n_call *step_n;
};

#ifdef WITH_BEFORE
state_words_call before_jt_state_words;
post_call before_jt_post;
inject_call before_jt_inject_input;
step_call before_jt_step;
step_n_call before_jt_step_n;
#endif

/* The last is the library as it stands in the tree. */
static const struct library libraries[] = {
#ifdef WITH_BEFORE
    {"before", before_jt_state_words, before_jt_post, before_jt_inject_input, before_jt_step, before_jt_step_n},
#endif
    {"after", jt_state_words, jt_post, jt_inject_input, jt_step, jt_step_n},
};
enum { LIBRARIES = sizeof libraries / sizeof *libraries, AFTER = LIBRARIES - 1, MOST_SUBJECTS = 2 };

/* ---- the workloads */
enum match { NONE, NONE_OTHER_PORT, FIRST, LAST, ALL, MATCHES };
static const char *const match_names[MATCHES] = {"none", "none-other-port", "first", "last", "all"};

static const size_t counts[] = {1, 12, 64, 256};
enum { ONE, TWELVE, SIXTY_FOUR, LARGEST, COUNTS };

struct workload {
    size_t connectors;
    enum match match;
};

/* Of one connector the first is the last and all: that is run once. */
static int is_run(struct workload w) {
    return w.connectors > 1 || w.match <= FIRST;
}

static const char *match_name(struct workload w) {
    return w.connectors == 1 && w.match == FIRST ? "first=last=all" : match_names[w.match];
}

static size_t messages_a_step(struct workload w) {
    return w.match < FIRST ? 0 : w.match == ALL ? w.connectors : 1;
}

static int matches(struct workload w, size_t place) {
    return w.match == ALL || (w.match == FIRST && place == 0) || (w.match == LAST && place == w.connectors - 1);
}

static void lay_connectors(struct workload w, uint64_t *connectors) {
    for (size_t i = 0; i < w.connectors; i++) {
        uint64_t source = matches(w, i) || w.match == NONE_OTHER_PORT ? SOURCE : OTHER_SOURCE;
        uint64_t port = w.match == NONE_OTHER_PORT ? OTHER_PORT : PORT_OUT;
        const uint64_t row[JT_CONNECTOR_WORDS] = {source, port, NOBODY, PORT_IN};
        memcpy(connectors + i * JT_CONNECTOR_WORDS, row, sizeof row);
    }
}

/* How a workload's steps are asked for, all of them from the same state on. */
struct way {
    const char *name;
    size_t calls;
    uint64_t steps; /* in each call */
};
static const struct way by_step_n = {"jt_step_n", 1, STEPS};
static const struct way by_step = {"jt_step", STEPS, 1};
static const struct way no_steps = {"jt_step_n of no steps", STEPS, 0};

/* What is compared and measured by turns: a build, and how many words of the state buffer are lent to it. */
struct subject {
    const char *name;
    const struct library *library;
    size_t state_len;
};

/* Subjects on one workload, and the best seconds of each so far; no subjects where the section does not have the workload. */
struct figure {
    struct workload workload;
    const struct way *way;
    struct subject subjects[MOST_SUBJECTS];
    size_t count;
    double putting_back;
    double best[MOST_SUBJECTS];
};

/* What a call works on, and what it answered. */
struct run {
    uint32_t refusal;
    uint64_t report[3];
    uint64_t state[MOST_WORDS];
    uint64_t rows[ROWS_WORDS];
};

/* ---- what must be the same */
struct place {
    struct workload workload;
    const char *way;
    size_t call; /* counted from 1 */
};

static void same_number(struct place p, const char *what, const char *name_a, uint64_t a, const char *name_b, uint64_t b) {
    if (a == b)
        return;
    fprintf(stderr, "lookup: %zu connectors, %s, %s, call %zu: %s: %" PRIu64 " (%s), %" PRIu64 " (%s)\n", p.workload.connectors,
            match_name(p.workload), p.way, p.call, what, a, name_a, b, name_b);
    exit(1);
}

static void same_words(struct place p, const char *what, const char *name_a, const uint64_t *a, const char *name_b, const uint64_t *b,
                       size_t len) {
    if (same(a, b, len))
        return;
    for (size_t i = 0; i < len; i++) {
        char word[64];
        snprintf(word, sizeof word, "word %zu of the %s", i, what);
        same_number(p, word, name_a, a[i], name_b, b[i]);
    }
}

static void same_runs(struct place p, const struct subject *subjects, const struct run *a, const struct run *b) {
    const char *name_a = subjects[0].name;
    const char *name_b = subjects[1].name;
    same_number(p, "the return value", name_a, a->refusal, name_b, b->refusal);
    same_words(p, "report", name_a, a->report, name_b, b->report, 3);
    same_words(p, "output", name_a, a->rows, name_b, b->rows, ROWS_WORDS);
    same_words(p, "state", name_a, a->state, name_b, b->state, MOST_WORDS);
}

/* Each of the steps so far has put out one job, and the others are still held: so none was without a message to look up. */
static void as_expected(struct place p, const char *name, const struct run *r, uint64_t call_steps, uint64_t steps_so_far) {
    uint64_t held = r->state[head_at(r->state, 0) + 2];
    same_number(p, "the return value", "expected", JT_OK, name, r->refusal);
    same_number(p, "steps", "expected", call_steps, name, r->report[0]);
    same_number(p, "rows", "expected", call_steps * messages_a_step(p.workload), name, r->report[1]);
    same_number(p, "the end", "expected", JT_END_DONE, name, r->report[2]);
    same_number(p, "jobs held", "expected", JOBS - steps_so_far, name, held);
}

/* ---- calls */
static void call(const struct subject *s, const struct way *w, struct run *r) {
    if (w->steps == 1)
        r->refusal = s->library->step(r->state, s->state_len, NULL, 0, r->rows, ROWS_WORDS, r->report);
    else
        r->refusal = s->library->step_n(r->state, s->state_len, NULL, 0, w->steps, r->rows, ROWS_WORDS, r->report);
}

static size_t words_needed(const struct library *library, size_t connectors) {
    return library->state_words(JT_MODEL_WORDS, connectors * JT_CONNECTOR_WORDS, 0);
}

/* A new run, up to the step that takes all the jobs and puts out the first of them. */
static void begin(struct workload w, const struct subject *s, struct run *r) {
    const uint64_t source[JT_MODEL_WORDS] = {SOURCE, BATCHER, 0, 0, PORT_IN, 0, 0, PORT_OUT, 1, bits_of(1.0)};
    uint64_t connectors[MOST_CONNECTORS * JT_CONNECTOR_WORDS];
    struct place p = {w, "jt_post", 1};
    memset(r, 0, sizeof *r);
    lay_connectors(w, connectors);
    uint32_t refusal =
        s->library->post(source, JT_MODEL_WORDS, connectors, w.connectors * JT_CONNECTOR_WORDS, NULL, 0, r->state, s->state_len);
    same_number(p, "the return value", "expected", JT_OK, s->name, refusal);
    p.way = "jt_inject_input";
    for (uint32_t job = 0; job < JOBS; job++, p.call++) {
        refusal = s->library->inject(r->state, s->state_len, 0, 0, SOURCE, PORT_IN, 0, job);
        same_number(p, "the return value", "expected", JT_OK, s->name, refusal);
    }
    p.way = "the first step";
    p.call = 1;
    call(s, &by_step, r);
    as_expected(p, s->name, r, 1, 1);
}

/* Every call of a figure by each of its subjects, from a post of its own on; where there are two subjects, every word of theirs. */
static void compare(const struct figure *f) {
    static struct run runs[MOST_SUBJECTS];
    struct place p = {f->workload, "the first step", 1};
    for (size_t i = 0; i < f->count; i++)
        begin(f->workload, &f->subjects[i], &runs[i]);
    if (f->count > 1)
        same_runs(p, f->subjects, &runs[0], &runs[1]);
    p.way = f->way->name;
    for (p.call = 1; p.call <= f->way->calls; p.call++) {
        for (size_t i = 0; i < f->count; i++) {
            call(&f->subjects[i], f->way, &runs[i]);
            as_expected(p, f->subjects[i].name, &runs[i], f->way->steps, 1 + p.call * f->way->steps);
        }
        if (f->count > 1)
            same_runs(p, f->subjects, &runs[0], &runs[1]);
    }
}

/* ---- the time */
/* Not the thread's own clock: on a virtual machine that was seen to skip a part of a sample now and then, which then was the best. */
static double seconds(void) {
    struct timespec t;
    clock_gettime(CLOCK_MONOTONIC, &t);
    return (double)t.tv_sec + (double)t.tv_nsec * 1e-9;
}

/* Seconds for so many calls, REPEATS times, each time from the words of `start` on; for no calls, what putting these back takes.
 * All subjects work in the same memory, so that where it lies makes no difference between them. */
static double sample(const struct run *start, const struct subject *s, const struct way *w, size_t calls, struct run *r) {
    size_t bytes = state_end(start->state) * sizeof *start->state;
    double began = seconds();
    for (size_t i = 0; i < REPEATS; i++) {
        memcpy(r->state, start->state, bytes);
        for (size_t k = 0; k < calls; k++)
            call(s, w, r);
    }
    return seconds() - began;
}

static double least(double a, double b) {
    return a < b ? a : b;
}

/* ---- figures */
enum section { MANY_STEPS, ONE_STEP, NO_STEPS, LENT_MANY_STEPS, LENT_ONE_STEP, SECTIONS };

static struct figure figures[SECTIONS * COUNTS * MATCHES];
enum { FIGURES = sizeof figures / sizeof *figures };

static struct figure *figure_at(size_t section, size_t count, size_t match) {
    return &figures[(section * COUNTS + count) * MATCHES + match];
}

static struct figure *add(size_t section, const struct way *way, size_t count, size_t match) {
    struct figure *f = figure_at(section, count, match);
    f->workload.connectors = counts[count];
    f->workload.match = (enum match)match;
    f->way = way;
    f->putting_back = f->best[0] = f->best[1] = NOT_YET;
    return f;
}

/* The builds against each other, each lent as many words as the table needs. */
static void add_builds(size_t section, const struct way *way, size_t count, size_t match) {
    struct figure *f = add(section, way, count, match);
    struct place p = {f->workload, "jt_state_words", 1};
    if (!is_run(f->workload))
        return;
    for (size_t i = 0; i < LIBRARIES; i++) {
        struct subject s = {libraries[i].name, &libraries[i], words_needed(&libraries[i], counts[count])};
        f->subjects[f->count++] = s;
        same_number(p, "the return value", f->subjects[0].name, f->subjects[0].state_len, s.name, s.state_len);
    }
}

/* The library as it stands on 12 connectors: lent what these need, and what 256 need. */
static void add_lent(size_t section, const struct way *way, size_t match) {
    const struct library *library = &libraries[AFTER];
    struct subject exact = {"made for 12", library, words_needed(library, counts[TWELVE])};
    struct subject wide = {"made for 256", library, words_needed(library, counts[LARGEST])};
    struct figure *f = add(section, way, TWELVE, match);
    f->subjects[f->count++] = exact;
    f->subjects[f->count++] = wide;
}

static void add_all(void) {
    for (size_t match = NONE; match < MATCHES; match++) {
        for (size_t count = ONE; count < COUNTS; count++) {
            add_builds(MANY_STEPS, &by_step_n, count, match);
            add_builds(ONE_STEP, &by_step, count, match);
        }
        add_lent(LENT_MANY_STEPS, &by_step_n, match);
        add_lent(LENT_ONE_STEP, &by_step, match);
    }
    for (size_t count = ONE; count < COUNTS; count++)
        add_builds(NO_STEPS, &no_steps, count, NONE);
}

/* The best samples of each subject, by turns, together with those of earlier passes. */
static void measure(struct figure *f) {
    static struct run start, r;
    const struct way *way = f->way;
    struct place p = {f->workload, way->name, way->calls};
    begin(f->workload, &f->subjects[0], &start);
    for (double end = seconds() + SECONDS_A_PASS * (double)f->count; seconds() < end;) {
        f->putting_back = least(f->putting_back, sample(&start, &f->subjects[0], way, 0, &r));
        for (size_t i = 0; i < f->count; i++) {
            f->best[i] = least(f->best[i], sample(&start, &f->subjects[i], way, way->calls, &r));
            as_expected(p, f->subjects[i].name, &r, way->steps, 1 + way->calls * way->steps);
        }
    }
}

static void measure_all(void) {
    for (size_t pass = 0; pass < PASSES; pass++)
        for (size_t i = 0; i < FIGURES; i++)
            if (figures[i].count > 0)
                measure(&figures[i]);
}

static void compare_all(void) {
    for (size_t i = 0; i < FIGURES; i++)
        if (figures[i].count > 0)
            compare(&figures[i]);
    printf("# steps, rows and jobs are as expected");
    printf(LIBRARIES > 1 ? "; answers, output and state are the same before and after, word by word\n" : "\n");
    fflush(stdout);
}

/* Nanoseconds a step, or a call where it has no steps. */
static double time_of(const struct figure *f, size_t subject) {
    double steps = (double)f->way->calls * (f->way->steps > 0 ? (double)f->way->steps : 1.0);
    return (f->best[subject] - f->putting_back) / REPEATS / steps * 1e9;
}

/* ---- what is printed */
static void tell_builds(size_t section, const char *what) {
    printf("# %s\n# connectors match            messages", what);
    for (size_t i = 0; i < LIBRARIES; i++)
        printf(" %10s", LIBRARIES > 1 ? libraries[i].name : "ns");
    printf(LIBRARIES > 1 ? " before / after\n" : "\n");
    for (const struct figure *f = figure_at(section, 0, 0); f < figure_at(section, 0, 0) + COUNTS * MATCHES; f++) {
        if (f->count == 0)
            continue;
        printf("%12zu %-16s %8zu", f->workload.connectors, match_name(f->workload), messages_a_step(f->workload));
        for (size_t i = 0; i < LIBRARIES; i++)
            printf(" %10.2f", time_of(f, i));
        if (LIBRARIES > 1)
            printf(" %14.2f", time_of(f, 0) / time_of(f, AFTER));
        printf("\n");
    }
}

static void tell_lent(void) {
    printf("# 12 connectors, the state buffer lent with the words that 12 need and that 256 need: nanoseconds a step%s\n",
           LIBRARIES > 1 ? ", after" : "");
    printf("# call     match            messages made for 12 made for 256 256's / 12's\n");
    for (size_t section = LENT_MANY_STEPS; section <= LENT_ONE_STEP; section++)
        for (size_t match = NONE; match < MATCHES; match++) {
            const struct figure *f = figure_at(section, TWELVE, match);
            printf("%-10s %-16s %8zu %11.2f %12.2f %12.2f\n", f->way->name, match_name(f->workload), messages_a_step(f->workload),
                   time_of(f, 0), time_of(f, 1), time_of(f, 1) / time_of(f, 0));
        }
}

static void tell_costs(const char *what, const double *costs, int percent) {
    printf("%-58s", what);
    for (size_t i = 0; i < LIBRARIES; i++)
        printf(percent ? " %9.1f%%" : " %10.3f", costs[i]);
    printf("\n");
}

/* How much each connector adds: to a step, and to what a call pays before its first step, which no index takes away. */
static void tell_connector(void) {
    double step[LIBRARIES], call_alone[LIBRARIES], search[LIBRARIES];
    double more = (double)(counts[LARGEST] - counts[ONE]);
    for (size_t i = 0; i < LIBRARIES; i++) {
        step[i] = (time_of(figure_at(MANY_STEPS, LARGEST, NONE), i) - time_of(figure_at(MANY_STEPS, ONE, NONE), i)) / more;
        call_alone[i] = (time_of(figure_at(NO_STEPS, LARGEST, NONE), i) - time_of(figure_at(NO_STEPS, ONE, NONE), i)) / more;
        search[i] = step[i] - call_alone[i] / STEPS;
    }
    tell_costs("ns a connector and step, (t(256) - t(1)) / 255", step, 0);
    tell_costs("ns a connector and call of no steps, (c(256) - c(1)) / 255", call_alone, 0);
    tell_costs("ns a connector and step without a step's share of the call", search, 0);
}

static void tell_parts(void) {
    for (size_t count = TWELVE; count < COUNTS; count++) {
        double part[LIBRARIES];
        char what[64];
        for (size_t i = 0; i < LIBRARIES; i++) {
            double whole = time_of(figure_at(MANY_STEPS, count, NONE), i);
            part[i] = (whole - time_of(figure_at(MANY_STEPS, ONE, NONE), i)) / whole * 100;
        }
        snprintf(what, sizeof what, "part of a step, (t(%zu) - t(1)) / t(%zu)", counts[count], counts[count]);
        tell_costs(what, part, 1);
    }
}

static void tell_index(void) {
    printf("# what the connectors in use cost where none matches, and so the most that an index could give;\n");
    printf("# t(n): jt_step_n, none, n connectors; c(n): the call of no steps\n");
    printf("# %-56s", "what");
    for (size_t i = 0; i < LIBRARIES; i++)
        printf(" %10s", LIBRARIES > 1 ? libraries[i].name : "figure");
    printf("\n");
    tell_connector();
    tell_parts();
}

/* One workload by its places in `counts` and `match_names`, each build once: for a tool that counts instructions. */
static int run_once(const char *count, const char *match) {
    size_t n = strtoul(count, NULL, 10);
    size_t m = strtoul(match, NULL, 10);
    if (n >= COUNTS || m >= MATCHES)
        return 2;
    add_builds(MANY_STEPS, &by_step_n, n, m);
    const struct figure *f = figure_at(MANY_STEPS, n, m);
    if (f->count > 0) {
        compare(f);
        printf("%12zu %-16s %8zu", f->workload.connectors, match_name(f->workload), messages_a_step(f->workload));
    }
    return 0;
}

int main(int argc, char **argv) {
    if (argc == 3)
        return run_once(argv[1], argv[2]);
    add_all();
    compare_all();
    measure_all();
    tell_builds(MANY_STEPS, "jt_step_n, 60 steps a call: nanoseconds a step");
    tell_builds(ONE_STEP, "jt_step, one step a call: nanoseconds a step");
    tell_builds(NO_STEPS, "jt_step_n, no steps: nanoseconds a call, which checks the state and loads it");
    tell_lent();
    tell_index();
    return 0;
}
