/* Random calls with random words in every buffer, each checked for what holds of any call. `fuzz COUNT SEED`.
 *
 * Calls come in rounds. A round posts a good table and makes a chain of calls on that state; most stay valid, so the state
 * grows deep, and in between calls are handed what is cut, changed, stuffed or junk. Round r of a seed is the first round of
 * seed + r, so what fails can be seen again at once. */
#define _GNU_SOURCE
#include <errno.h>
#include <inttypes.h>
#include <signal.h>
#include <stdio.h>
#include <stdlib.h>
#include <unistd.h>

#include "fuzz_checks.h"
#include "fuzz_traces.h"

/* A run that does not end by itself is stopped after MOST_STEPS: more would be what was asked for, and no hang. */
enum { MOST_STEPS = 2000, SPARE = 8, HANG_SECONDS = 60, HANG_CALLS = 1000 };

/* The state of this round, how deep it has come, and the call that would help where its steps are refused (else KINDS). */
static struct {
    uint64_t words[STATE_ROOM];
    size_t len;
    uint64_t steps, rows, messages;
    enum kind cure;
} chain;

static uint64_t tried[STATE_ROOM]; /* the chain's state with something changed */
static uint64_t compared[STATE_ROOM]; /* a state that another call is made on, to compare */
static struct table first, second, other, compared_table;
static uint64_t services[SERVICES_ROOM], other_services[SERVICES_ROOM];
static size_t services_len;

/* What the call left, while another is made to compare. */
static struct {
    uint64_t state[STATE_ROOM], rows[ROWS_ROOM], models[TABLE_ROOM], answer[3];
    uint32_t number;
} kept;

/* ---- how many there were */
static uint64_t asked_calls, made, checking_calls, rounds, answers[KINDS][MOST_NUMBER + 1];
static uint64_t long_runs, ended_runs; /* asked for more than MOST_STEPS; those of them that ended before, by themselves */
static uint64_t other_states, other_sound; /* changed, stuffed or junk; those of them that hold a simulation */
static uint64_t written_rows, written_inside; /* by jt_write_out_capacity; those of them that stood inside a state */

/* How deep the states of the rounds came: the deepest, and how many came so far and farther. */
static struct depth {
    const char *what;
    uint64_t limits[3], over[3], most;
} depths[] = {
    {"steps completed", {10, 100, 1000}, {0, 0, 0}, 0},
    {"rows laid down", {10, 100, 1000}, {0, 0, 0}, 0},
    {"messages active at once", {16, 128, 256}, {0, 0, 0}, 0},
    {"model rows", {8, 24, 64}, {0, 0, 0}, 0},
};

static uint64_t all_steps, all_rows;

static void depth_add(struct depth *d, uint64_t value) {
    if (value > d->most)
        d->most = value;
    for (size_t i = 0; i < 3; i++)
        d->over[i] += value >= d->limits[i];
}

static void round_add(void) {
    rounds++;
    all_steps += chain.steps;
    all_rows += chain.rows;
    depth_add(&depths[0], chain.steps);
    depth_add(&depths[1], chain.rows);
    depth_add(&depths[2], chain.messages);
    depth_add(&depths[3], chain.words[0]);
}

static void tell_kind(enum kind kind) {
    uint64_t total = 0;
    for (size_t number = 0; number <= MOST_NUMBER; number++)
        total += answers[kind][number];
    printf("%-21s %9" PRIu64, kinds[kind].name, total);
    for (size_t number = 0; number <= MOST_NUMBER; number++)
        if (answers[kind][number] > 0)
            printf("  %zu: %" PRIu64, number, answers[kind][number]);
    printf("\n");
}

static void tell_number(size_t number) {
    uint64_t total = 0;
    for (size_t kind = 0; kind < KINDS; kind++)
        total += answers[kind][number];
    if (total > 0)
        printf("answered %-2zu %19" PRIu64 "\n", number, total);
}

static void tell_depth(const struct depth *d) {
    printf("%s: at most %" PRIu64 ";", d->what, d->most);
    for (size_t i = 0; i < 3; i++)
        printf(" %" PRIu64 " or more in %" PRIu64 " states%s", d->limits[i], d->over[i], i < 2 ? "," : "\n");
}

static void tell_all(void) {
    for (enum kind kind = 0; kind < KINDS; kind++)
        tell_kind(kind);
    for (size_t number = 0; number <= MOST_NUMBER; number++)
        tell_number(number);
    printf("%" PRIu64 " states with %" PRIu64 " steps and %" PRIu64 " rows\n", rounds, all_steps, all_rows);
    for (size_t i = 0; i < sizeof depths / sizeof depths[0]; i++)
        tell_depth(&depths[i]);
    printf("%" PRIu64 " times a state changed, stuffed or junk; %" PRIu64 " of these held a simulation\n", other_states,
           other_sound);
    printf("%" PRIu64 " rows had their capacity written out; %" PRIu64 " of these inside a state\n", written_rows,
           written_inside);
    printf("%" PRIu64 " runs of more than %d steps; %" PRIu64 " of these ended before, by themselves\n", long_runs, MOST_STEPS,
           ended_runs);
    tell_traces();
    printf("%" PRIu64 " more calls to compare with, %ld checks\n", checking_calls + traced.calls, checks);
}

/* ---- where it is, for when something is wrong */
static uint64_t round_seed, round_calls;
static enum kind making;

static void say_where(const char *why) {
    char text[300];
    int len = snprintf(text, sizeof text,
                       "fuzz: FAILED, %s: call %" PRIu64 ", in %s. Again: scripts/fuzz %" PRIu64 " %" PRIu64 "\n", why, made,
                       kinds[making].name, round_calls, round_seed);
    if (len > 0 && write(STDOUT_FILENO, text, (size_t)len) < 0)
        _exit(1);
}

static void on_signal(int number) {
    say_where(number == SIGALRM ? "a call hangs" : number == SIGABRT ? "a sanitizer stopped it" : "a call trapped");
    _exit(1);
}

static void watch_signals(void) {
    static const int watched[] = {SIGALRM, SIGSEGV, SIGBUS, SIGILL, SIGFPE, SIGTRAP, SIGABRT};
    static char stack[65536];
    struct sigaction action;
    stack_t other_stack;
    memset(&action, 0, sizeof action);
    memset(&other_stack, 0, sizeof other_stack);
    other_stack.ss_sp = stack;
    other_stack.ss_size = sizeof stack;
    action.sa_handler = on_signal;
    action.sa_flags = SA_ONSTACK;
    sigaltstack(&other_stack, NULL);
    for (size_t i = 0; i < sizeof watched / sizeof watched[0]; i++)
        sigaction(watched[i], &action, NULL);
}

static void stop_if_wrong(void) {
    if (failures == 0)
        return;
    fflush(stdout);
    say_where("not so");
    exit(1);
}

/* What was found by other calls is told of the one that they are compared with. */
static void stop_in(const struct given *g) {
    making = g->kind;
    stop_if_wrong();
}

/* ---- a call made and checked */
static uint32_t make(const struct given *g) {
    making = g->kind;
    lend(g);
    uint32_t number = invoke(g);
    check_call(g, number);
    stop_if_wrong();
    return number;
}

/* Whether a state is one: 20 comes first, in every call on a state, so all of them must say the same as this one. */
static int is_state(const uint64_t *state, size_t len) {
    making = GET_GLOBAL_TIME;
    checking_calls++;
    lent_fill(&lent_state, state, len);
    lent_fill(&lent_answer, junk, 1);
    uint32_t number = jt_get_global_time(lent_state.pointer, len, (double *)(void *)lent_answer.words);
    CHECK(number == JT_OK || number == JT_BAD_STATE);
    lent_check(&lent_state);
    lent_check(&lent_answer);
    lent_check_same(&lent_state, state);
    stop_if_wrong();
    return number == JT_OK;
}

/* ---- another call, that must leave the same */
static void keep(const struct given *g, uint32_t number) {
    kept.number = number;
    if (g->state_len > 0)
        memcpy(kept.state, lent_state.words, g->state_len * sizeof(uint64_t));
    memcpy(kept.answer, lent_answer.words, lent_answer.len * sizeof(uint64_t));
    if (g->kind == WRITE_OUT && !g->inside && lent_models.len > 0)
        memcpy(kept.models, lent_models.words, lent_models.len * sizeof(uint64_t));
    if (takes_rows(g->kind) && g->rows_len > 0)
        memcpy(kept.rows, lent_rows.words, g->rows_len * sizeof(uint64_t));
}

/* As far as this call has room for them. */
static void check_same_rows(const struct given *g) {
    if (takes_rows(g->kind))
        CHECK(same(kept.rows, lent_rows.words, g->rows_len));
}

static void check_same_left(const struct given *g) {
    CHECK(same(kept.state, lent_state.words, g->state_len));
    CHECK(same(kept.answer, lent_answer.words, lent_answer.len));
    if (g->kind == WRITE_OUT && !g->inside)
        CHECK(same(kept.models, lent_models.words, lent_models.len));
    check_same_rows(g);
}

/* The same call on a copy. */
static void check_twice(const struct given *g) {
    checking_calls++;
    CHECK_NUMBER(kept.number, make(g));
    check_same_left(g);
}

/* A run that was refused at a step has kept those before it: a run of only these ends well and leaves the same. */
static void check_kept_steps(const struct given *g) {
    struct given before = *g;
    before.steps = kept.answer[0];
    checking_calls++;
    CHECK_NUMBER(JT_OK, make(&before));
    kept.answer[2] = g->kind == STEP_UNTIL ? JT_END_SPENT : JT_END_DONE;
    check_same_left(g);
    kept.answer[2] = JT_END_REFUSED;
}

/* A run that reached `until` has not collected its last step, and had not reached it before. */
static void check_reached(const struct given *g) {
    struct given before = *g;
    before.steps = kept.answer[0] - 1;
    checking_calls++;
    CHECK_NUMBER(JT_OK, make(&before));
    CHECK_NUMBER(JT_END_SPENT, lent_answer.words[2]);
    CHECK_NUMBER(kept.answer[1], lent_answer.words[1]);
    check_same_rows(g);
}

/* Just the room that the rows took leaves the same; with a word less the run ends earlier, by 13. */
static void check_exact_room(const struct given *g) {
    struct given exact = *g;
    exact.rows_len = (size_t)(JT_MESSAGE_WORDS * kept.answer[1]);
    checking_calls += 2;
    CHECK_NUMBER(kept.number, make(&exact));
    check_same_left(&exact);
    exact.rows_len--;
    CHECK_NUMBER(JT_NO_OUT_ROOM, make(&exact));
    CHECK(lent_answer.words[0] < kept.answer[0]);
}

/* Just the service times that a run read leave the same; with one less it ends earlier, by 9. */
static void check_exact_services(const struct given *g) {
    struct given exact = *g;
    size_t place = tail_at(g->state) + 2;
    if (kept.state[place] == g->state[place])
        return;
    exact.services_len = (size_t)kept.state[place];
    checking_calls += 2;
    CHECK_NUMBER(JT_OK, make(&exact));
    check_same_left(&exact);
    exact.services_len--;
    CHECK_NUMBER(JT_NO_SERVICE_TIME, make(&exact));
    CHECK(lent_answer.words[0] < kept.answer[0]);
}

/* A run in two parts, the second lent what the first left of state and rows, and what they answer together. A run that reached
 * `until` has no second part. After a refusal it is refused at once with the same number, or, where it has no steps, not. */
static uint32_t invoke_cut(const struct given *g, uint64_t first, uint64_t total[3]) {
    struct given part = *g;
    part.kind = g->kind == STEP ? STEP_N : g->kind;
    part.steps = first;
    uint32_t number = invoke_run(&part);
    memcpy(total, lent_answer.words, 3 * sizeof(uint64_t));
    if (total[2] == JT_END_REACHED)
        return number;
    part.steps = g->steps - first;
    part.rows_len = g->rows_len - (size_t)(JT_MESSAGE_WORDS * total[1]);
    lent_rows.pointer = lent_rows.words + JT_MESSAGE_WORDS * total[1];
    uint32_t then = invoke_run(&part);
    total[0] += lent_answer.words[0];
    total[1] += lent_answer.words[1];
    if (number == JT_OK)
        total[2] = lent_answer.words[2];
    else
        CHECK(then == (part.steps == 0 ? JT_OK : number) && lent_answer.words[0] == 0 && lent_answer.words[1] == 0);
    return number == JT_OK ? then : number;
}

/* Paused after any of its steps, or by its refusal, a run ends the same. The random numbers are put back after it: a seed makes
 * the calls that it would make without. */
static void check_cut(const struct given *g) {
    uint64_t place = random_place;
    uint64_t total[3];
    uint64_t first = below(kept.answer[0] + 2);
    checking_calls += 2;
    lend(g);
    CHECK_NUMBER(kept.number, invoke_cut(g, first < g->steps ? first : g->steps, total));
    CHECK(same(kept.answer, total, 3));
    check_inputs(g);
    check_same_rows(g);
    CHECK_NUMBER(state_end(kept.state), state_end(lent_state.words));
    CHECK(same(kept.state, lent_state.words, state_end(kept.state)));
    random_place = place;
}

/* With 32 written out where the capacity is omitted, a run ends the same in all but these rows. */
static void check_omitted_is_32(const struct given *g) {
    struct given written = *g;
    size_t tail = tail_at(g->state);
    size_t models_len = (size_t)(JT_MODEL_WORDS * g->state[0]);
    if (omitting(g->state + 3, models_len) == 0)
        return;
    memcpy(compared, g->state, g->state_len * sizeof(uint64_t));
    give_capacity(compared + 3, models_len, JT_OMITTED_CAPACITY);
    written.state = compared;
    checking_calls++;
    CHECK_NUMBER(kept.number, make(&written));
    CHECK(same(kept.answer, lent_answer.words, 3));
    CHECK(same(kept.state + tail, lent_state.words + tail, g->state_len - tail));
    check_same_rows(g);
}

static void compare_run(const struct given *g) {
    if (g->sound && (g->kind != STEP_UNTIL || is_time(g->time)))
        check_cut(g);
    if (g->sound && one_in(4))
        check_omitted_is_32(g);
    if (kept.answer[2] == JT_END_REFUSED && kept.answer[0] > 0)
        check_kept_steps(g);
    if (kept.answer[2] == JT_END_REACHED && one_in(4))
        check_reached(g);
    if (kept.answer[1] > 0 && one_in(8))
        check_exact_room(g);
    if (kept.number == JT_OK && kept.answer[0] > 0 && one_in(8))
        check_exact_services(g);
}

/* ---- intake: it answers as jt_post does, and the first bad row is the first */
/* What intake says of another table. */
static uint32_t make_intake(const struct table *t) {
    struct given asked;
    memset(&asked, 0, sizeof asked);
    asked.kind = INTAKE;
    asked.state = junk;
    asked.table = t;
    checking_calls++;
    return make(&asked);
}

static void check_as_post(const struct given *g) {
    struct given posted = *g;
    posted.kind = POST;
    posted.state = junk;
    posted.state_len = table_needs(g->table);
    checking_calls++;
    CHECK_NUMBER(kept.number, make(&posted));
}

static void cut_slice(struct slice *s, size_t len) {
    s->len = len < s->len ? len : s->len;
}

/* The table up to so many rows of the part that the first bad one stands in. */
static void cut_table(const struct table *t, uint64_t part, size_t rows) {
    copy_table(&compared_table, t);
    if (part == JT_MODELS)
        cut_slice(&compared_table.models, JT_MODEL_WORDS * rows);
    if (part <= JT_CONNECTORS)
        cut_slice(&compared_table.connectors, part == JT_CONNECTORS ? JT_CONNECTOR_WORDS * rows : 0);
    cut_slice(&compared_table.couplings, part == JT_COUPLINGS ? JT_COUPLING_WORDS * rows : 0);
}

/* The rows before the first bad one pass; with it they do not, whatever stands behind it. */
static void check_first_bad(const struct given *g) {
    size_t row = (size_t)kept.answer[1];
    cut_table(g->table, kept.answer[0], row);
    compared_table.good = 1;
    CHECK_NUMBER(JT_OK, make_intake(&compared_table));
    cut_table(g->table, kept.answer[0], row + 1);
    CHECK_NUMBER(kept.number, make_intake(&compared_table));
    CHECK(same(kept.answer, lent_answer.words, 3));
}

static void compare_intake(const struct given *g) {
    check_as_post(g);
    if (kept.answer[0] != JT_NOWHERE)
        check_first_bad(g);
}

/* ---- capacities written out: once and for all, and no table or state is any worse for it */
/* A second time changes nothing and counts no row. */
static void check_written_again(const struct given *g) {
    struct given again = *g;
    if (g->inside) {
        memcpy(compared, kept.state, g->state_len * sizeof(uint64_t));
        again.state = compared;
    } else {
        copy_slice(&compared_table.models, &g->table->models);
        memcpy(compared_table.models.words, kept.models, g->table->models.len * sizeof(uint64_t));
        again.table = &compared_table;
    }
    checking_calls++;
    make(&again);
    CHECK_NUMBER(0, lent_answer.words[0]);
    if (g->inside)
        CHECK(same(kept.state, lent_state.words, g->state_len));
    else
        CHECK(same(kept.models, lent_models.words, g->table->models.len));
}

/* Intake says the same of the table after it, but that no row omits the capacity. */
static void check_written_passes(const struct given *g) {
    uint64_t before[3];
    if (g->inside)
        table_inside(&compared_table, g->state);
    else
        copy_table(&compared_table, g->table);
    uint32_t number = make_intake(&compared_table);
    memcpy(before, lent_answer.words, sizeof before);
    CHECK(number != JT_OK || before[2] == kept.answer[0]);
    memcpy(compared_table.models.words, g->inside ? kept.state + 3 : kept.models,
           compared_table.models.len * sizeof(uint64_t));
    CHECK_NUMBER(number, make_intake(&compared_table));
    CHECK(same(before, lent_answer.words, 2));
    CHECK_NUMBER(0, lent_answer.words[2]);
}

/* A processor that omits its capacity may hold 32, and 64 once it is written out: so a state that was stored when an omitted
 * one was 2^64 - 1 is one again. */
static void check_written_state(const struct given *g) {
    struct given old = *g;
    uint64_t held = below(MOST_HELD + 2);
    size_t i = some_omitting(g->state);
    if (i == g->state[0])
        return;
    memcpy(compared, g->state, g->state_len * sizeof(uint64_t));
    crowd_row(compared, i, held);
    CHECK_NUMBER(held <= JT_OMITTED_CAPACITY, is_state(compared, g->state_len));
    old.state = compared;
    checking_calls++;
    make(&old);
    memcpy(compared, lent_state.words, g->state_len * sizeof(uint64_t));
    CHECK_NUMBER(held <= MOST_HELD, is_state(compared, g->state_len));
}

static void compare_written(const struct given *g) {
    written_rows += kept.answer[0];
    written_inside += g->inside ? kept.answer[0] : 0;
    check_written_again(g);
    stop_in(g);
    if (!g->inside || g->sound)
        check_written_passes(g);
    stop_in(g);
    if (g->inside && g->sound)
        check_written_state(g);
}

static void compare(const struct given *g) {
    if (is_run(g->kind))
        compare_run(g);
    if (g->kind == INTAKE)
        compare_intake(g);
    if (g->kind == WRITE_OUT)
        compare_written(g);
    stop_in(g);
    if (one_in(8))
        check_twice(g);
    stop_if_wrong();
}

/* ---- what a call is handed */
static enum kind some_kind(void) {
    uint64_t left = below(100);
    enum kind kind = 0;
    if (chain.cure != KINDS && one_in(2))
        return chain.cure;
    while (left >= kinds[kind].weight)
        left -= kinds[kind++].weight;
    return kind;
}

/* A length of the state buffer: none, one short, exact, one over, or any. */
static size_t some_length(void) {
    size_t needed = state_needs(chain.words);
    switch (below(8)) {
    case 0:
        return (size_t)below(4);
    case 1:
        return (size_t)below(needed);
    case 2:
        return state_end(chain.words) - (size_t)below(2);
    case 3:
        return chain.len + (size_t)below(SPARE);
    default:
        return needed - 1 + (size_t)below(3);
    }
}

static void choose_state(struct given *g) {
    uint64_t pick = below(100);
    g->state = chain.words;
    g->state_len = chain.len;
    g->sound = 1;
    if (pick < 64)
        return;
    if (pick < 72) {
        g->state_len = some_length();
        g->sound = g->state_len >= state_needs(chain.words);
        return;
    }
    memcpy(tried, chain.words, (chain.len + SPARE) * sizeof(uint64_t));
    g->state = tried;
    if (pick < 87)
        change_state(tried, chain.len);
    else if (pick < 96)
        stuff_state(tried, chain.len);
    else {
        g->state_len = some_length();
        junk_state(tried, g->state_len);
    }
    g->sound = is_state(g->state, g->state_len);
    other_states++;
    other_sound += g->sound != 0;
}

static void choose_table(struct given *g) {
    uint64_t pick = below(20);
    const struct table *good = one_in(2) ? &first : &second;
    g->table = pick < 8 ? good : &other;
    if (pick >= 8 && pick < 17) {
        copy_table(&other, good);
        change_table(&other);
    } else if (pick >= 17)
        junk_table(&other);
}

/* A table's models, any words, or the models inside a state: also of one that holds no simulation, where it is long enough. */
static void choose_written(struct given *g) {
    choose_table(g);
    if (one_in(2) && g->state_len >= 3 && g->state[0] <= MOST_MODELS && g->state_len >= 3 + JT_MODEL_WORDS * g->state[0])
        g->inside = 1;
    else if (one_in(2)) {
        if (g->table != &other)
            copy_table(&other, g->table);
        loose_models(&other);
        g->table = &other;
    }
}

static void choose_message(struct given *g) {
    size_t row = chain.words[0] == 0 ? 0 : some_row(chain.words);
    int known = chain.words[0] > 0 && !one_in(32);
    g->source_id = (uint16_t)below(4);
    g->source_port = (uint16_t)(one_in(16) ? random_word() : below(4));
    g->target_id = (uint16_t)(known ? id_of(chain.words, row) : random_word());
    g->target_port =
        (uint16_t)(one_in(64) ? random_word() : known && kind_of(chain.words, row) == STOPWATCH ? 1 + below(3) : 1);
    g->content = (uint32_t)(one_in(8) ? any_word() : below(20));
    g->time = any_time();
}

/* The round's list; at times a part of it, or with a word changed. */
static void choose_services(struct given *g) {
    g->services = services;
    g->services_len = services_len;
    if (!one_in(6))
        return;
    if (services_len > 0 && one_in(2)) {
        memcpy(other_services, services, services_len * sizeof(uint64_t));
        other_services[below(services_len)] = any_word();
        g->services = other_services;
    } else
        g->services_len = (size_t)below(services_len + 1);
}

static size_t some_rows_len(void) {
    uint64_t pick = below(16);
    if (pick < 2)
        return (size_t)below(13);
    if (pick < 4)
        return (size_t)(JT_MESSAGE_WORDS * active_in(chain.words) + (active_in(chain.words) > 0 ? below(8) - 1 : 0));
    if (pick < 5)
        return (size_t)below(ROWS_ROOM);
    return pick < 11 ? 120 + (size_t)below(7) : JT_MESSAGE_WORDS * MOST_ACTIVE + (size_t)below(7) - 1;
}

static uint64_t some_steps(void) {
    uint64_t pick = below(256);
    if (pick < 200)
        return below(8);
    if (pick < 252)
        return below(pick < 250 ? 60 : 300);
    return one_in(2) ? UINT64_MAX - below(3) : random_word() >> below(50);
}

static void choose_run(struct given *g) {
    uint64_t clock = chain.words[tail_at(chain.words) + 1];
    choose_services(g);
    g->steps = g->kind == STEP ? 1 : some_steps();
    if (g->kind == STEP_UNTIL) {
        g->steps = (uint32_t)g->steps;
        g->time = one_in(8) ? any_word() : bits_of(of_bits(clock) + (double)below(200) / 8);
    }
}

/* A run that is asked for more steps than MOST_STEPS is first made with these, and with all where it ended by itself. */
static void bound_steps(struct given *g) {
    uint64_t asked = g->steps;
    if (asked <= MOST_STEPS)
        return;
    checking_calls++;
    g->steps = MOST_STEPS;
    make(g);
    long_runs++;
    if (lent_answer.words[2] == JT_END_REFUSED || lent_answer.words[2] == JT_END_REACHED) {
        ended_runs++;
        g->steps = asked;
    }
}

static void choose(struct given *g) {
    memset(g, 0, sizeof *g);
    g->kind = some_kind();
    if (is_trace(g->kind))
        return;
    choose_state(g);
    choose_message(g);
    g->rows_len = some_rows_len();
    if (takes_table(g->kind))
        choose_table(g);
    if (g->kind == WRITE_OUT)
        choose_written(g);
    if (is_run(g->kind)) {
        choose_run(g);
        bound_steps(g);
    }
}

/* ---- the chain */
/* Whether a call left a state that another can be handed. */
static int leaves_state(const struct given *g, uint32_t number) {
    if (is_run(g->kind) && kept.answer[0] > 0)
        return 1;
    return number == JT_OK && !only_asks(g->kind) && (g->kind != WRITE_OUT || (g->inside && g->sound));
}

/* A new state begins anew, so it takes the chain's place seldom. So does one with its capacities written out: no processor of
 * the round would omit it any more. */
static int goes_on(const struct given *g) {
    if (g->state_len != chain.len)
        return 0;
    if (g->kind == POST)
        return one_in(32);
    if (g->kind == WRITE_OUT)
        return one_in(8);
    if (g->kind == PUT)
        return one_in(6);
    if (g->kind == RESET || g->kind == RESET_MESSAGES)
        return (chain.cure == RESET && g->state == chain.words) || one_in(3);
    return g->state == chain.words || one_in(3);
}

/* The state that a call left is the next call's; if not, it is asked whether it could be. */
static void go_on(const struct given *g) {
    if (!goes_on(g)) {
        CHECK(is_state(kept.state, g->state_len));
        stop_if_wrong();
        return;
    }
    memcpy(chain.words, kept.state, chain.len * sizeof(uint64_t));
    chain.cure = KINDS;
    if (is_run(g->kind)) {
        chain.steps += kept.answer[0];
        chain.rows += kept.answer[1];
    }
    if (active_in(chain.words) > chain.messages)
        chain.messages = active_in(chain.words);
}

/* A list of times; at times of any words. */
static void choose_round_services(void) {
    int wild = one_in(12);
    services_len = (size_t)(one_in(8) ? below(3) : one_in(4) ? below(SERVICES_ROOM) : below(100));
    for (size_t i = 0; i < services_len; i++)
        services[i] = wild ? any_time() : good_time();
}

/* A chain whose steps are refused would stand still: it gets another service list, soon a message, or soon none. */
static void find_cure(const struct given *g, uint32_t number) {
    if (!is_run(g->kind) || g->state != chain.words || number == JT_OK || number == JT_BAD_STATE)
        return;
    if (number == JT_NO_SERVICE_TIME || number == JT_BAD_TIME)
        choose_round_services();
    else if (number != JT_NO_OUT_ROOM)
        chain.cure = number == JT_IDLE ? INJECT_INPUT : RESET;
}

static void one_state_words(void) {
    size_t models = (size_t)(one_in(2) ? below(700) : any_word());
    size_t connectors = (size_t)(one_in(2) ? below(1100) : any_word());
    size_t couplings = (size_t)(one_in(2) ? below(1600) : any_word());
    making = STATE_WORDS;
    CHECK_NUMBER(words_needed(models, connectors, couplings), jt_state_words(models, connectors, couplings));
    stop_if_wrong();
}

/* A trace has no state: what it is handed, and what it is compared with, is in fuzz_traces.h. */
static uint32_t one_trace_call(enum kind kind) {
    making = kind;
    uint32_t number = one_trace(kind);
    CHECK(number <= MOST_NUMBER && (kinds[kind].numbers >> number & 1) != 0);
    stop_if_wrong();
    return number;
}

static void one_call(void) {
    struct given g;
    uint32_t number = JT_OK;
    choose(&g);
    if (g.kind == STATE_WORDS)
        one_state_words();
    else if (is_trace(g.kind))
        number = one_trace_call(g.kind);
    else {
        number = make(&g);
        keep(&g, number);
        compare(&g);
        if (leaves_state(&g, number))
            go_on(&g);
        find_cure(&g, number);
    }
    answers[g.kind][number]++;
}

/* Two tables, and the first posted into noise. The buffer has room for both in half the rounds. */
static void begin_round(void) {
    struct given g;
    good_table(&first);
    good_table(&second);
    choose_round_services();
    size_t needed = table_needs(&first);
    if (one_in(2) && table_needs(&second) > needed)
        needed = table_needs(&second);
    memset(&g, 0, sizeof g);
    g.kind = POST;
    g.state = junk;
    g.state_len = needed + (one_in(2) ? 0 : (size_t)below(200));
    g.table = &first;
    make(&g);
    chain.len = g.state_len;
    chain.steps = chain.rows = chain.messages = 0;
    chain.cure = KINDS;
    memcpy(chain.words, lent_state.words, chain.len * sizeof(uint64_t));
    memcpy(chain.words + chain.len, junk + chain.len, SPARE * sizeof(uint64_t));
}

static void count_call(void) {
    made++;
    round_calls++;
    if (made % HANG_CALLS == 1)
        alarm(HANG_SECONDS);
}

static void one_round(uint64_t seed) {
    random_from(seed);
    round_seed = seed;
    round_calls = 0;
    uint64_t calls = one_in(100) ? below(3000) : 20 + below(80);
    count_call();
    begin_round();
    answers[POST][JT_OK]++;
    for (; calls > 0 && made < asked_calls; calls--) {
        count_call();
        one_call();
    }
    round_add();
}

static void lend_memory(void) {
    lent_state = lent_new("state", STATE_ROOM);
    lent_models = lent_new("models", TABLE_ROOM);
    lent_connectors = lent_new("connectors", TABLE_ROOM);
    lent_couplings = lent_new("couplings", TABLE_ROOM);
    lent_services = lent_new("services", SERVICES_ROOM);
    lent_rows = lent_new("rows", ROWS_ROOM);
    lent_answer = lent_new("answer", 3);
    lend_traces();
    for (size_t i = 0; i < STATE_ROOM; i++)
        junk[i] = random_word();
}

static uint64_t number_of(const char *text) {
    char *end;
    errno = 0;
    uint64_t number = strtoull(text, &end, 10);
    if (*text < '0' || *text > '9' || *end != '\0' || errno != 0) {
        fprintf(stderr, "fuzz: %s is no whole number below 2^64\n", text);
        exit(2);
    }
    return number;
}

int main(int count, char **arguments) {
    if (count != 3) {
        fprintf(stderr, "usage: fuzz COUNT SEED\n");
        return 2;
    }
    asked_calls = number_of(arguments[1]);
    uint64_t seed = number_of(arguments[2]);
    watch_signals();
    lend_memory();
    while (made < asked_calls)
        one_round(seed++);
    tell_all();
    printf("fuzz: %" PRIu64 " calls, %ld failed\n", made, failures);
    return 0;
}
