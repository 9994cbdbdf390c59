/* Reads scripts and makes their calls through the C header; oracle/README.md says which lines there are.
 *
 * After each call it prints what was returned and the simulation that the state's words then hold, in the form in which the
 * oracle prints its own. The words are decoded by docs/LAYOUT.md. It checks by itself that a refused call changed nothing that
 * was lent, that an accepted one changed nothing beyond the state's end and the rows written, and that the words which the
 * layout fixes are so; where one is not, a line says it (tests/c/checks.h). Exit status: 1 then, 2 for a line that is none.
 */
#include "../tests/c/guarded.h"
#include "jambthrush.h"

enum { PROCESSOR = 1, BATCHER = 2, STOPWATCH = 3, COUPLED = 4, PARENT_GIVEN = 1, CAPACITY_GIVEN = 2, METRIC_GIVEN = 4 };
enum { HEAD = 4, PLACES = 64, LEVELS = 5 };
#define WHOLE SIZE_MAX
#define UNTOUCHED 99u

/* A list of words that grows. */
struct list {
    uint64_t *words;
    size_t len;
    size_t room;
};

/* What the lines so far have laid down. */
static struct {
    struct list models, connectors, couplings;  /* the table since the last post or put */
    struct list services;                       /* bits; `times` has the same as doubles */
    double *times;
    struct list state;                          /* its length is what is lent */
    size_t lend;                                /* how much of it the next call is lent */
    size_t rows_len;
} now;

/* ---- lists and lines */

static void fail(const char *what, const char *which) {
    fflush(stdout);
    fprintf(stderr, "calls: %s: %s\n", what, which);
    exit(2);
}

static void reserve(struct list *list, size_t room) {
    if (room <= list->room)
        return;
    list->room = room < 2 * list->room ? 2 * list->room : room;
    list->words = realloc(list->words, list->room * sizeof(uint64_t));
    if (list->words == NULL)
        fail("no memory", "a list");
}

static void append(struct list *list, uint64_t word) {
    reserve(list, list->len + 1);
    list->words[list->len++] = word;
}

static void append_all(struct list *list, const uint64_t *words, size_t len) {
    for (size_t i = 0; i < len; i++)
        append(list, words[i]);
}

/* The next word of the line, or NULL. A # begins a comment. */
static char *rest;

static char *next_text(void) {
    while (*rest == ' ')
        rest++;
    if (*rest == '\0' || *rest == '#')
        return NULL;
    char *text = rest;
    while (*rest != ' ' && *rest != '\0')
        rest++;
    if (*rest != '\0')
        *rest++ = '\0';
    return text;
}

static char *text_of_line(void) {
    char *text = next_text();
    if (text == NULL)
        fail("a word is lacking in a line", "at its end");
    return text;
}

static uint64_t number_in(const char *text) {
    char *end;
    uint64_t number = strtoull(text, &end, 0);
    if (end == text || *end != '\0')
        fail("no number", text);
    return number;
}

static uint64_t number(void) {
    return number_in(text_of_line());
}

static uint64_t number_below(uint64_t end) {
    uint64_t value = number();
    if (value >= end)
        fail("a number is too wide", "for a call");
    return value;
}

/* The bits of an f64: 0x and bits, or decimal, inf, NaN. */
static uint64_t bits_in(const char *text) {
    char *end;
    if (text[0] == '0' && text[1] == 'x')
        return number_in(text);
    double value = strtod(text, &end);
    if (end == text || *end != '\0')
        fail("no f64", text);
    return bits_of(value);
}

/* ---- printing: numbers are written by hand, which is much of what a script costs */

static void tell_text(const char *text) {
    fputs(text, stdout);
}

static void tell_number(uint64_t value) {
    char digits[20];
    size_t at = sizeof digits;
    do {
        digits[--at] = (char)('0' + value % 10);
        value /= 10;
    } while (value > 0);
    fwrite(digits + at, 1, sizeof digits - at, stdout);
}

static void tell_bits(uint64_t bits) {
    char digits[16];
    for (size_t i = sizeof digits; i-- > 0; bits >>= 4)
        digits[i] = "0123456789abcdef"[bits & 15];
    fwrite(digits, 1, sizeof digits, stdout);
}

static void tell_named(const char *name, uint64_t value) {
    tell_text(name);
    tell_number(value);
}

static void tell_messages(const uint64_t *row, uint64_t count) {
    for (uint64_t i = 0; i < count; i++, row += JT_MESSAGE_WORDS) {
        tell_named("  ", row[0]);
        tell_named(":", row[1]);
        tell_named(" -> ", row[2]);
        tell_named(":", row[3]);
        tell_text(" at ");
        tell_bits(row[4]);
        tell_named(": ", row[5]);
        tell_text("\n");
    }
}

/* ---- the state, by docs/LAYOUT.md */

/* Where things stand in a state: its numbers of rows, where the changing part begins, and where the state ends. */
struct layout {
    size_t rows, changing, end;
    uint64_t active;
};

static size_t own_words(const uint64_t *row) {
    return row[1] == STOPWATCH ? 3 * PLACES : PLACES;
}

static const uint64_t *row_at(const uint64_t *state, size_t index) {
    return state + 3 + JT_MODEL_WORDS * index;
}

/* Whether the words can be a state of this length; where its parts are. */
static int find_layout(const uint64_t *state, size_t len, struct layout *found) {
    if (len < 3 || state[0] > 64 || state[1] > 256 || state[2] > 256)
        return 0;
    found->rows = (size_t)state[0];
    found->changing = 3 + JT_MODEL_WORDS * found->rows + JT_CONNECTOR_WORDS * (size_t)state[1];
    found->changing += JT_COUPLING_WORDS * (size_t)state[2];
    found->end = found->changing + 3 + HEAD * found->rows;
    if (found->end > len || state[found->changing] > 256)
        return 0;
    for (size_t i = 0; i < found->rows; i++)
        found->end += own_words(row_at(state, i));
    found->active = state[found->changing];
    found->end += JT_MESSAGE_WORDS * (size_t)found->active;
    return found->end <= len;
}

static int all_are(const uint64_t *words, size_t len, uint64_t value) {
    for (size_t i = 0; i < len; i++)
        if (words[i] != value)
            return 0;
    return 1;
}

/* "The places after them hold 0." */
static void check_queue(const uint64_t *own, uint64_t held, size_t places) {
    CHECK(held <= places);
    if (held <= places)
        CHECK(all_are(own + held, places - (size_t)held, 0));
}

static const char *phase_name(uint64_t kind, uint64_t phase) {
    static const char *const names[3][3] = {
        {"Passive", "Active", "?"}, {"Passive", "Batching", "Release"}, {"Passive", "JobFetch", "?"}};
    return phase < 3 ? names[kind - PROCESSOR][phase] : "?";
}

static void tell_mark(const char *name, uint64_t bits) {
    tell_text(name);
    if (bits == 0x7ff0000000000000u)
        tell_text("none");
    else
        tell_bits(bits);
}

static void tell_held(uint64_t kind, const uint64_t *own, uint64_t held) {
    for (size_t i = 0; i < held && i < PLACES; i++) {
        tell_text(i > 0 ? ", " : "");
        if (kind == STOPWATCH) {
            tell_named("{name ", own[i]);
            tell_mark(", start ", own[PLACES + i]);
            tell_mark(", stop ", own[2 * PLACES + i]);
            tell_text("}");
        } else if (kind == COUPLED) {
            tell_named("{componentId ", own[i] >> 48);
            tell_named(", port ", own[i] >> 32 & 0xffff);
            tell_named(", content ", own[i] & 0xffffffff);
            tell_text("}");
        } else {
            tell_number(own[i]);
        }
    }
    tell_text("]\n");
}

/* A row with its head and its own words. */
static void tell_row(const uint64_t *row, const uint64_t *head, const uint64_t *own, int indent) {
    static const char *const kinds[4] = {" Processor: ", " Batcher: ", " Stopwatch: ", " Coupled: "};
    for (int i = 0; i < indent; i++)
        tell_text(" ");
    tell_number(row[0]);
    tell_text(kinds[row[1] - PROCESSOR]);
    check_queue(own, head[2], PLACES);
    if (row[1] == COUPLED) {
        CHECK(head[0] == 0 && head[1] == 0);
        tell_text("parkedMessages [");
    } else {
        tell_text("phase ");
        tell_text(phase_name(row[1], head[0]));
        tell_text(", untilNextEvent ");
        tell_bits(head[1]);
        tell_text(row[1] == PROCESSOR ? ", queue [" : ", jobs [");
    }
    tell_held(row[1], own, head[2]);
}

/* The rows of one parent (parentless ones: NULL), each followed by its components. Checks where each row's own words begin. */
static void tell_rows(const uint64_t *state, const struct layout *layout, const uint64_t *parent, int level) {
    const uint64_t *changing = state + layout->changing;
    size_t begin = 3 + HEAD * layout->rows;
    for (size_t i = 0; i < layout->rows; i++) {
        const uint64_t *row = row_at(state, i);
        const uint64_t *head = changing + 3 + HEAD * i;
        int given = (row[2] & PARENT_GIVEN) != 0;
        if (parent == NULL ? !given : given && row[3] == parent[0]) {
            CHECK(head[3] == begin);
            CHECK(row[1] >= PROCESSOR && row[1] <= COUPLED);
            tell_row(row, head, changing + begin, 2 * level);
            if (row[1] == COUPLED && level < LEVELS)
                tell_rows(state, layout, row, level + 1);
        }
        begin += own_words(row);
    }
}

static void tell_state(const uint64_t *state, const struct layout *layout) {
    const uint64_t *changing = state + layout->changing;
    tell_text("clock ");
    tell_bits(changing[1]);
    tell_named("\nactive ", layout->active);
    tell_text("\n");
    tell_messages(state + layout->end - JT_MESSAGE_WORDS * layout->active, layout->active);
    tell_named("services taken ", changing[2]);
    tell_named(" of ", now.services.len);
    tell_text("\n");
    tell_rows(state, layout, NULL, 1);
}

/* ---- lending, and what must be so afterwards */

/* Words as they are lent: a block of their own, so that what lies beyond is seen to be untouched. */
static struct guarded lent(const struct list *list, size_t len) {
    struct guarded block = guarded_new(len);
    if (len > 0)
        memcpy(block.words, list->words, len * sizeof(uint64_t));
    return block;
}

static struct guarded lent_state(void) {
    return lent(&now.state, now.lend == WHOLE || now.lend > now.state.len ? now.state.len : now.lend);
}

/* NULL where nothing is lent, as it may be. */
static uint64_t *begin_of(struct guarded block) {
    return block.len == 0 ? NULL : block.words;
}

static void tell_answer(uint64_t answer) {
    tell_named("= ", answer);
}

static void check_same(struct guarded state) {
    CHECK(same(now.state.words, state.words, state.len));
    guarded_free(state);
    now.lend = WHOLE;
}

/* The state after a call that was refused, or one that may change nothing. */
static void keep_state(struct guarded state) {
    check_same(state);
    tell_text("same\n");
}

/* The state after a call that changed it: nothing beyond its end did, nor the table but by post and put. */
static void take_state(struct guarded state, int new_table) {
    struct layout layout;
    int is_state = find_layout(state.words, state.len, &layout);
    CHECK(is_state);
    if (is_state) {
        CHECK(same(now.state.words + layout.end, state.words + layout.end, state.len - layout.end));
        if (!new_table)
            CHECK(same(now.state.words, state.words, layout.changing));
        memcpy(now.state.words, state.words, state.len * sizeof(uint64_t));
        tell_state(now.state.words, &layout);
    }
    guarded_free(state);
    now.lend = WHOLE;
}

/* ---- table, lists and buffers */

static uint64_t parent_of_line(uint64_t *given) {
    const char *text = text_of_line();
    if (strcmp(text, "-") == 0)
        return 0;
    *given |= PARENT_GIVEN;
    return number_in(text);
}

static void take_processor(void) {
    uint64_t row[JT_MODEL_WORDS] = {number(), PROCESSOR, 0, 0, 0, 0, 0, 0, 0, 0};
    row[3] = parent_of_line(&row[2]);
    row[4] = number();
    row[7] = number();
    const char *capacity = text_of_line();
    if (strcmp(capacity, "-") != 0) {
        row[2] |= CAPACITY_GIVEN;
        row[8] = number_in(capacity);
    }
    append_all(&now.models, row, JT_MODEL_WORDS);
}

static void take_batcher(void) {
    uint64_t row[JT_MODEL_WORDS] = {number(), BATCHER, 0, 0, 0, 0, 0, 0, 0, 0};
    row[3] = parent_of_line(&row[2]);
    row[4] = number();
    row[7] = number();
    row[8] = number();
    row[9] = bits_in(text_of_line());
    append_all(&now.models, row, JT_MODEL_WORDS);
}

static void take_stopwatch(void) {
    uint64_t row[JT_MODEL_WORDS] = {number(), STOPWATCH, 0, 0, 0, 0, 0, 0, 0, 0};
    row[3] = parent_of_line(&row[2]);
    for (size_t i = 4; i <= 7; i++)
        row[i] = number();
    const char *metric = text_of_line();
    if (strcmp(metric, "-") != 0) {
        row[2] |= METRIC_GIVEN;
        row[8] = strcmp(metric, "max") == 0;
    }
    append_all(&now.models, row, JT_MODEL_WORDS);
}

static void take_coupled(void) {
    uint64_t row[JT_MODEL_WORDS] = {number(), COUPLED, 0, 0, 0, 0, 0, 0, 0, 0};
    row[3] = parent_of_line(&row[2]);
    append_all(&now.models, row, JT_MODEL_WORDS);
}

static void take_connector(void) {
    for (int i = 0; i < JT_CONNECTOR_WORDS; i++)
        append(&now.connectors, number());
}

static void take_coupling(void) {
    append(&now.couplings, number());
    const char *kind = text_of_line();
    append(&now.couplings, strcmp(kind, "input") == 0 ? 1 : strcmp(kind, "output") == 0 ? 2 : 3);
    for (int i = 2; i < JT_COUPLING_WORDS; i++) {
        const char *text = text_of_line();
        append(&now.couplings, strcmp(text, "-") == 0 ? 0 : number_in(text));
    }
}

/* Words as they stand; W*N is N times W. */
static void take_words(struct list *list) {
    for (char *text = next_text(); text != NULL; text = next_text()) {
        char *star = strchr(text, '*');
        uint64_t count = star == NULL ? 1 : number_in(star + 1);
        if (star != NULL)
            *star = '\0';
        uint64_t word = number_in(text);
        for (uint64_t i = 0; i < count; i++)
            append(list, word);
    }
}

static void take_models(void) {
    take_words(&now.models);
}

static void take_connectors(void) {
    take_words(&now.connectors);
}

static void take_couplings(void) {
    take_words(&now.couplings);
}

static void take_services(void) {
    now.services.len = 0;
    for (const char *text = next_text(); text != NULL; text = next_text())
        append(&now.services, bits_in(text));
    free(now.times);
    now.times = NULL;
    if (now.services.len == 0)
        return;
    now.times = malloc(now.services.len * sizeof(double));
    if (now.times == NULL)
        fail("no memory", "service times");
    for (size_t i = 0; i < now.services.len; i++)
        now.times[i] = of_bits(now.services.words[i]);
}

/* How long the lent state is from now on. What is new in it is no state. */
static void set_buffer(size_t len) {
    size_t before = now.state.len;
    now.state.len = 0;
    reserve(&now.state, len);
    now.state.len = len;
    for (size_t i = before; i < len; i++)
        now.state.words[i] = CANARY;
}

static void take_buffer(void) {
    set_buffer((size_t)number());
}

static void take_lend(void) {
    now.lend = (size_t)number();
}

static void take_rows(void) {
    now.rows_len = (size_t)number();
}

/* The first words of the state, as they stand; the buffer keeps its length, which they must not pass. */
static void take_state_words(void) {
    size_t len = now.state.len;
    now.state.len = 0;
    take_words(&now.state);
    if (now.state.len > len)
        fail("too many words", "for the buffer");
    now.state.len = len;
}

static void take_word(void) {
    uint64_t place = number_below(now.state.len);
    now.state.words[place] = number();
}

static void take_case(void) {
    tell_text("case ");
    tell_text(text_of_line());
    tell_text("\n");
    now.models.len = now.connectors.len = now.couplings.len = 0;
    now.state.len = 0;
    now.lend = WHOLE;
    now.rows_len = 256 * JT_MESSAGE_WORDS;
    take_services();
}

/* ---- the calls */

typedef uint32_t table_call(struct guarded state, struct guarded models, struct guarded connectors, struct guarded couplings);

static uint32_t call_post(struct guarded state, struct guarded models, struct guarded connectors, struct guarded couplings) {
    return jt_post(begin_of(models), models.len, begin_of(connectors), connectors.len, begin_of(couplings), couplings.len,
                   begin_of(state), state.len);
}

static uint32_t call_put(struct guarded state, struct guarded models, struct guarded connectors, struct guarded couplings) {
    return jt_put(begin_of(state), state.len, begin_of(models), models.len, begin_of(connectors), connectors.len,
                  begin_of(couplings), couplings.len);
}

/* The lent slice is as it was. */
static void check_slice(struct guarded slice, const struct list *list) {
    CHECK(same(list->words, slice.words, slice.len));
    guarded_free(slice);
}

/* And the next table begins anew. */
static void end_slice(struct guarded slice, struct list *list) {
    check_slice(slice, list);
    list->len = 0;
}

/* "The table as it was lent" is in the state. */
static void check_table(const uint64_t *state, struct guarded models, struct guarded connectors, struct guarded couplings) {
    CHECK(state[0] * JT_MODEL_WORDS == models.len);
    CHECK(state[1] * JT_CONNECTOR_WORDS == connectors.len);
    CHECK(state[2] * JT_COUPLING_WORDS == couplings.len);
    CHECK(same(state + 3, models.words, models.len));
    CHECK(same(state + 3 + models.len, connectors.words, connectors.len));
    CHECK(same(state + 3 + models.len + connectors.len, couplings.words, couplings.len));
}

static void lend_table(table_call *call) {
    struct guarded models = lent(&now.models, now.models.len);
    struct guarded connectors = lent(&now.connectors, now.connectors.len);
    struct guarded couplings = lent(&now.couplings, now.couplings.len);
    size_t needed = jt_state_words(models.len, connectors.len, couplings.len);
    if (now.state.len == 0 && now.lend == WHOLE)
        set_buffer(needed);
    struct guarded state = lent_state();
    uint32_t answer = call(state, models, connectors, couplings);
    tell_answer(answer);
    tell_text("\n");
    if (answer == JT_OK) {
        check_table(state.words, models, connectors, couplings);
        take_state(state, 1);
    } else {
        keep_state(state);
    }
    end_slice(models, &now.models);
    end_slice(connectors, &now.connectors);
    end_slice(couplings, &now.couplings);
}

static void make_post(void) {
    lend_table(call_post);
}

static void make_put(void) {
    lend_table(call_put);
}

/* The table is asked about as it stands so far, and stays for the next post or put. No state is lent. */
static void make_intake(void) {
    struct guarded models = lent(&now.models, now.models.len);
    struct guarded connectors = lent(&now.connectors, now.connectors.len);
    struct guarded couplings = lent(&now.couplings, now.couplings.len);
    struct guarded report = guarded_new(3);
    tell_answer(jt_intake(begin_of(models), models.len, begin_of(connectors), connectors.len, begin_of(couplings), couplings.len,
                          report.words));
    tell_named(" report ", report.words[0]);
    tell_named(" ", report.words[1]);
    tell_named(" ", report.words[2]);
    tell_text("\n");
    guarded_free(report);
    check_slice(models, &now.models);
    check_slice(connectors, &now.connectors);
    check_slice(couplings, &now.couplings);
}

/* The migration of `len` words of a list, from `at` on. It is lent these alone, in a block that holds the whole list: each word
 * that is changed is told with its place in the list, which takes it over, and must be one of those that were lent. */
static void write_out(struct list *list, size_t at, size_t len) {
    struct guarded block = lent(list, list->len);
    struct guarded count = guarded_new(1);
    tell_answer(jt_write_out_capacity(len == 0 ? NULL : block.words + at, len, count.words));
    tell_named(" count ", count.words[0]);
    tell_text("\n");
    for (size_t i = 0; i < block.len; i++) {
        if (block.words[i] == list->words[i])
            continue;
        CHECK(i >= at && i - at < len);
        tell_named("  ", i);
        tell_named(": ", block.words[i]);
        tell_text("\n");
        list->words[i] = block.words[i];
    }
    guarded_free(count);
    guarded_free(block);
}

/* The models of the table as it stands so far: all of their words, or the first LENGTH. */
static void make_write_out(void) {
    const char *text = next_text();
    uint64_t len = text == NULL ? now.models.len : number_in(text);
    if (len > now.models.len)
        fail("more than there is", "of models");
    write_out(&now.models, 0, (size_t)len);
}

/* The models of the table in the state: words 3 to 3 + 10n, n being word 0; as many as the buffer has, where that is no state. */
static void make_write_out_state(void) {
    if (now.state.len < 3)
        fail("too short", "the buffer");
    size_t most = now.state.len - 3;
    uint64_t rows = now.state.words[0];
    write_out(&now.state, 3, rows > most / JT_MODEL_WORDS ? most : JT_MODEL_WORDS * (size_t)rows);
}

/* An accepted injection changes the number of messages and the six words after the last of them. */
static void take_injected(struct guarded state, const uint64_t row[JT_MESSAGE_WORDS]) {
    struct layout before;
    int was_state = find_layout(now.state.words, state.len, &before) && before.end + JT_MESSAGE_WORDS <= state.len;
    CHECK(was_state);
    if (was_state) {
        uint64_t *wanted = copy_of(now.state.words, state.len);
        wanted[before.changing]++;
        memcpy(wanted + before.end, row, JT_MESSAGE_WORDS * sizeof(uint64_t));
        CHECK(same(wanted, state.words, state.len));
        free(wanted);
        memcpy(now.state.words, state.words, state.len * sizeof(uint64_t));
        tell_named("active ", state.words[before.changing]);
        tell_text("\n");
    }
    check_same(state);
}

static void make_inject(void) {
    uint64_t row[JT_MESSAGE_WORDS];
    for (size_t i = 0; i < 4; i++)
        row[i] = number_below(1u << 16);
    row[4] = bits_in(text_of_line());
    row[5] = number_below((uint64_t)1 << 32);
    struct guarded state = lent_state();
    uint32_t answer = jt_inject_input(begin_of(state), state.len, (uint16_t)row[0], (uint16_t)row[1], (uint16_t)row[2],
                                      (uint16_t)row[3], of_bits(row[4]), (uint32_t)row[5]);
    tell_answer(answer);
    tell_text("\n");
    if (answer == JT_OK)
        take_injected(state, row);
    else
        keep_state(state);
}

/* What a run was lent and answered. */
struct run {
    struct guarded state, rows;
    uint64_t report[3];
};

static struct run lend_run(void) {
    struct run run = {lent_state(), guarded_new(now.rows_len), {UNTOUCHED, UNTOUCHED, UNTOUCHED}};
    return run;
}

static void end_run(struct run run, uint32_t answer) {
    uint64_t written = JT_MESSAGE_WORDS * run.report[1];
    tell_answer(answer);
    tell_named(" steps ", run.report[0]);
    tell_named(" rows ", run.report[1]);
    tell_named(" end ", run.report[2]);
    tell_text("\n");
    CHECK(run.report[1] <= run.rows.len / JT_MESSAGE_WORDS);
    if (run.report[1] <= run.rows.len / JT_MESSAGE_WORDS) {
        tell_messages(run.rows.words, run.report[1]);
        CHECK(all_are(run.rows.words + written, run.rows.len - (size_t)written, CANARY));
    }
    guarded_free(run.rows);
    CHECK(now.services.len == 0 || memcmp(now.times, now.services.words, now.services.len * sizeof(double)) == 0);
    if (answer != JT_OK && run.report[0] == 0)
        keep_state(run.state);
    else
        take_state(run.state, 0);
}

static void make_step(void) {
    struct run run = lend_run();
    end_run(run, jt_step(begin_of(run.state), run.state.len, now.times, now.services.len, begin_of(run.rows), run.rows.len,
                         run.report));
}

static void make_step_n(void) {
    uint64_t count = number();
    struct run run = lend_run();
    end_run(run, jt_step_n(begin_of(run.state), run.state.len, now.times, now.services.len, count, begin_of(run.rows),
                           run.rows.len, run.report));
}

/* The allowance is all of 32 bits where the line has none. */
static void make_step_until(void) {
    double until = of_bits(bits_in(text_of_line()));
    const char *text = next_text();
    uint64_t allowance = text == NULL ? UINT32_MAX : number_in(text);
    struct run run = lend_run();
    end_run(run, jt_step_until(begin_of(run.state), run.state.len, now.times, now.services.len, until, (uint32_t)allowance,
                               begin_of(run.rows), run.rows.len, run.report));
}

typedef uint32_t reset_call(uint64_t *state, size_t state_len);

static void make_reset_of(reset_call *call) {
    struct guarded state = lent_state();
    uint32_t answer = call(begin_of(state), state.len);
    tell_answer(answer);
    tell_text("\n");
    if (answer == JT_OK)
        take_state(state, 0);
    else
        keep_state(state);
}

static void make_reset(void) {
    make_reset_of(jt_reset);
}

static void make_reset_messages(void) {
    make_reset_of(jt_reset_messages);
}

static void make_reset_global_time(void) {
    make_reset_of(jt_reset_global_time);
}

static void make_status(void) {
    uint64_t report[2] = {UNTOUCHED, UNTOUCHED};
    struct guarded state = lent_state();
    uint32_t answer = jt_get_status(begin_of(state), state.len, (uint16_t)number_below(1u << 16), report);
    tell_answer(answer);
    if (answer == JT_OK) {
        tell_named(" status ", report[0]);
        tell_text(" ");
        tell_bits(report[1]);
    } else {
        CHECK(report[0] == UNTOUCHED && report[1] == UNTOUCHED);
    }
    tell_text("\n");
    check_same(state);
}

static void make_messages(void) {
    uint64_t count = UNTOUCHED;
    struct guarded state = lent_state();
    struct guarded rows = guarded_new(now.rows_len);
    uint32_t answer = jt_get_messages(begin_of(state), state.len, begin_of(rows), rows.len, &count);
    size_t written = 0;
    tell_answer(answer);
    if (answer == JT_OK) {
        tell_named(" count ", count);
        CHECK(count <= rows.len / JT_MESSAGE_WORDS);
        written = count <= rows.len / JT_MESSAGE_WORDS ? JT_MESSAGE_WORDS * (size_t)count : 0;
    } else {
        CHECK(count == UNTOUCHED);
    }
    tell_text("\n");
    tell_messages(rows.words, written / JT_MESSAGE_WORDS);
    CHECK(all_are(rows.words + written, rows.len - written, CANARY));
    guarded_free(rows);
    check_same(state);
}

static void make_time(void) {
    double time = UNTOUCHED;
    struct guarded state = lent_state();
    uint32_t answer = jt_get_global_time(begin_of(state), state.len, &time);
    tell_answer(answer);
    if (answer == JT_OK) {
        tell_text(" time ");
        tell_bits(bits_of(time));
    } else {
        CHECK(bits_of(time) == bits_of(UNTOUCHED));
    }
    tell_text("\n");
    check_same(state);
}

static void make_state_words(void) {
    size_t models_len = (size_t)number();
    size_t connectors_len = (size_t)number();
    size_t couplings_len = (size_t)number();
    tell_answer(jt_state_words(models_len, connectors_len, couplings_len));
    tell_text("\n");
}

/* ---- the lines */

static const struct {
    const char *name;
    void (*take)(void);
} lines[] = {
    {"inject", make_inject}, {"step", make_step}, {"step_n", make_step_n}, {"step_until", make_step_until},
    {"case", take_case}, {"models", take_models}, {"connectors", take_connectors}, {"couplings", take_couplings},
    {"services", take_services}, {"buffer", take_buffer}, {"rows", take_rows}, {"post", make_post}, {"put", make_put},
    {"status", make_status}, {"messages", make_messages}, {"time", make_time}, {"reset", make_reset},
    {"reset_messages", make_reset_messages}, {"reset_global_time", make_reset_global_time}, {"lend", take_lend},
    {"state", take_state_words}, {"word", take_word}, {"state_words", make_state_words}, {"processor", take_processor},
    {"batcher", take_batcher}, {"stopwatch", take_stopwatch}, {"coupled", take_coupled}, {"connector", take_connector},
    {"coupling", take_coupling}, {"intake", make_intake}, {"write_out", make_write_out},
    {"write_out_state", make_write_out_state},
};

static void take_line(char *line) {
    rest = line;
    const char *name = next_text();
    if (name == NULL)
        return;
    for (size_t i = 0; i < sizeof lines / sizeof lines[0]; i++) {
        if (strcmp(name, lines[i].name) == 0) {
            lines[i].take();
            if (next_text() != NULL)
                fail("a line is too long", name);
            return;
        }
    }
    fail("no such line", name);
}

/* The next line without its end, in memory that stays the reader's; NULL after the last. */
static char *read_line(void) {
    static char *line = NULL;
    static size_t room = 0;
    size_t len = 0;
    do {
        if (room - len < 2) {
            room = 2 * room + 4096;
            line = realloc(line, room);
            if (line == NULL)
                fail("no memory", "a line");
        }
        if (fgets(line + len, (int)(room - len > 65536 ? 65536 : room - len), stdin) == NULL)
            return len > 0 ? line : NULL;
        len += strlen(line + len);
    } while (line[len - 1] != '\n');
    line[len - 1] = '\0';
    return line;
}

int main(void) {
    setvbuf(stdout, NULL, _IOFBF, 1 << 16);
    now.lend = WHOLE;
    now.rows_len = 256 * JT_MESSAGE_WORDS;
    for (char *line = read_line(); line != NULL; line = read_line())
        take_line(line);
    return tell("calls");
}
