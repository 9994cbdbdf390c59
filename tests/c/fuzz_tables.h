/* Tables: good ones along which messages flow, good ones with something changed, and words that are no table. */
#ifndef FUZZ_TABLES_H
#define FUZZ_TABLES_H

#include "fuzz_random.h"
#include "jambthrush.h"
#include "kinds.h"

enum { MOST_MODELS = 64, MOST_CONNECTORS = 256, MOST_COUPLINGS = 256, MOST_DEPTH = 4, NO_ROW = 64, TABLE_ROOM = 1700 };
enum { MOST_FIELDS = PARENT_GIVEN + CAPACITY_GIVEN + METRIC_GIVEN };

struct slice {
    uint64_t words[TABLE_ROOM];
    size_t len;
};

struct table {
    struct slice models, connectors, couplings;
    int good; /* it passes intake */
    /* of a good one: the row of each row's parent or NO_ROW, and the depth of each Coupled */
    size_t parent[MOST_MODELS];
    int depth[MOST_MODELS];
};

/* ---- sizes */
static size_t rows_of(size_t len, size_t width) {
    return len / width + (len % width != 0);
}

/* How long a state must be, by docs/LAYOUT.md; 0 for a table that is too large. */
static size_t words_needed(size_t models_len, size_t connectors_len, size_t couplings_len) {
    size_t models = rows_of(models_len, JT_MODEL_WORDS);
    size_t connectors = rows_of(connectors_len, JT_CONNECTOR_WORDS);
    size_t couplings = rows_of(couplings_len, JT_COUPLING_WORDS);
    if (models > MOST_MODELS || connectors > MOST_CONNECTORS || couplings > MOST_COUPLINGS)
        return 0;
    return 1542 + 206 * models + 4 * connectors + 6 * couplings;
}

static size_t table_needs(const struct table *t) {
    return words_needed(t->models.len, t->connectors.len, t->couplings.len);
}

/* ---- model rows */
static size_t model_count(const struct table *t) {
    return t->models.len / JT_MODEL_WORDS;
}

static uint64_t *model_at(struct table *t, size_t i) {
    return t->models.words + JT_MODEL_WORDS * i;
}

/* Where its capacity is omitted, the setting is any all the same: it is not looked at. */
static void processor_row(uint64_t *row) {
    static const uint64_t capacities[] = {0, 1, 1, 2, 3, 8, 8, 8, 32, 33, 40, 40, 63, 64, 64, 65, 65, UINT64_MAX};
    row[2] = one_in(3) ? 0 : CAPACITY_GIVEN;
    if (one_in(8))
        row[2] += METRIC_GIVEN;
    row[4] = 1;
    row[7] = 2;
    row[8] = capacities[below(sizeof capacities / sizeof capacities[0])];
}

static void batcher_row(uint64_t *row) {
    static const uint64_t sizes[] = {1, 1, 1, 2, 2, 3, 5, 63, 64, 65, 0x4000000000000000};
    row[4] = 1;
    row[7] = 2;
    row[8] = sizes[below(sizeof sizes / sizeof sizes[0])];
    row[9] = good_time();
}

static void stopwatch_row(uint64_t *row) {
    row[2] = one_in(2) ? 0 : METRIC_GIVEN;
    row[4] = 1;
    row[5] = 2;
    row[6] = 3;
    row[7] = 4;
    row[8] = below(2);
}

static void kind_row(uint64_t *row) {
    uint64_t pick = below(20);
    memset(row + 1, 0, 9 * sizeof(uint64_t));
    row[1] = pick < 6 ? PROCESSOR : pick < 12 ? BATCHER : pick < 15 ? STOPWATCH : COUPLED;
    if (row[1] == PROCESSOR)
        processor_row(row);
    else if (row[1] == BATCHER)
        batcher_row(row);
    else if (row[1] == STOPWATCH)
        stopwatch_row(row);
}

/* One of the rows before it as the parent, where that is a Coupled that may hold it. */
static void give_parent(struct table *t, size_t i) {
    uint64_t *row = model_at(t, i);
    size_t parent = i == 0 ? 0 : (size_t)below(i);
    int is_coupled = row[1] == COUPLED;
    t->parent[i] = NO_ROW;
    t->depth[i] = is_coupled ? 1 : 0;
    if (i == 0 || t->depth[parent] == 0 || (is_coupled && t->depth[parent] == MOST_DEPTH))
        return;
    row[2] += PARENT_GIVEN;
    row[3] = model_at(t, parent)[0];
    t->parent[i] = parent;
    if (is_coupled)
        t->depth[i] = t->depth[parent] + 1;
}

static size_t some_row_count(void) {
    uint64_t pick = below(200);
    return (size_t)(pick < 140 ? 1 + below(4) : pick < 180 ? below(9) : pick < 197 ? 8 + below(17) : 64 - below(2) * below(40));
}

/* Ids are 1, 2, .. or strewn over all 16 bits: an odd factor keeps them different. */
static void good_models(struct table *t, size_t rows) {
    uint64_t factor = one_in(4) ? random_word() | 1 : 1;
    uint64_t first = factor == 1 ? 1 : random_word();
    t->models.len = rows * JT_MODEL_WORDS;
    for (size_t i = 0; i < rows; i++) {
        kind_row(model_at(t, i));
        model_at(t, i)[0] = (first + factor * i) & 0xffff;
        give_parent(t, i);
    }
}

/* ---- a processor's capacity, as jambthrush.h says it */
static int omits_capacity(const uint64_t *row) {
    return row[1] == PROCESSOR && row[2] <= MOST_FIELDS && (row[2] & CAPACITY_GIVEN) == 0;
}

static uint64_t capacity_of(const uint64_t *row) {
    return omits_capacity(row) ? JT_OMITTED_CAPACITY : row[8];
}

/* How many whole rows omit it. */
static uint64_t omitting(const uint64_t *models, size_t len) {
    uint64_t count = 0;
    for (; len >= JT_MODEL_WORDS; models += JT_MODEL_WORDS, len -= JT_MODEL_WORDS)
        count += omits_capacity(models) != 0;
    return count;
}

/* These rows with this number written into them. */
static void give_capacity(uint64_t *models, size_t len, uint64_t capacity) {
    for (; len >= JT_MODEL_WORDS; models += JT_MODEL_WORDS, len -= JT_MODEL_WORDS)
        if (omits_capacity(models)) {
            models[2] |= CAPACITY_GIVEN;
            models[8] = capacity;
        }
}

/* ---- connectors and couplings */
static uint64_t in_port(struct table *t, size_t i) {
    return model_at(t, i)[1] == STOPWATCH ? 1 + below(3) : 1;
}

static uint64_t out_port(struct table *t, size_t i) {
    return model_at(t, i)[1] == STOPWATCH ? 4 : 2;
}

/* A row without parent: any row, and from it upwards. */
static size_t some_top(struct table *t) {
    size_t i = (size_t)below(model_count(t));
    while (t->parent[i] != NO_ROW)
        i = t->parent[i];
    return i;
}

static void connector_row(struct table *t, uint64_t *row, size_t source, size_t target) {
    row[0] = model_at(t, source)[0];
    row[1] = out_port(t, source);
    row[2] = model_at(t, target)[0];
    row[3] = in_port(t, target);
    if (one_in(64))
        row[below(4)] = below(0x10000);
}

/* In half the tables each goes on from where the one before it ends, and the last closes the ring: jobs go round and round. */
static void good_connectors(struct table *t) {
    size_t rows = model_count(t);
    size_t most = rows == 0 ? 0 : rows > 30 ? MOST_CONNECTORS : one_in(8) ? 40 : 2 * rows;
    size_t count = (size_t)below(most + 1);
    int ring = one_in(2);
    size_t begin = rows == 0 ? 0 : some_top(t);
    size_t source = begin;
    t->connectors.len = count * JT_CONNECTOR_WORDS;
    for (size_t i = 0; i < count; i++) {
        size_t target = ring && i + 1 == count ? begin : some_top(t);
        connector_row(t, t->connectors.words + JT_CONNECTOR_WORDS * i, source, target);
        source = ring ? target : some_top(t);
    }
}

/* A component of the same Coupled as row i: the next one round the table, which may be i itself. */
static size_t other_component(const struct table *t, size_t i) {
    size_t rows = model_count(t);
    size_t other = (i + (size_t)below(rows)) % rows;
    while (t->parent[other] != t->parent[i])
        other = (other + 1) % rows;
    return other;
}

static void coupling_row(struct table *t, uint64_t *row, size_t component) {
    size_t target = other_component(t, component);
    row[0] = model_at(t, t->parent[component])[0];
    row[1] = 1 + below(3);
    row[2] = row[1] == EXTERNAL_INPUT ? 0 : model_at(t, component)[0];
    row[3] = row[1] == EXTERNAL_INPUT ? 1 : out_port(t, component);
    row[4] = row[1] == EXTERNAL_OUTPUT ? 0 : model_at(t, target)[0];
    row[5] = row[1] == EXTERNAL_OUTPUT ? 2 : in_port(t, target);
}

static void good_couplings(struct table *t) {
    size_t rows = model_count(t);
    size_t count = rows == 0 ? 0 : (size_t)below(rows > 30 ? MOST_COUPLINGS + 1 : 6 * rows + 1);
    t->couplings.len = 0;
    for (size_t i = 0; i < count; i++) {
        size_t component = (size_t)below(rows);
        if (t->parent[component] == NO_ROW)
            continue;
        coupling_row(t, t->couplings.words + t->couplings.len, component);
        t->couplings.len += JT_COUPLING_WORDS;
    }
}

static void good_table(struct table *t) {
    good_models(t, some_row_count());
    good_connectors(t);
    good_couplings(t);
    t->good = 1;
}

/* ---- changed tables */
static void copy_slice(struct slice *to, const struct slice *from) {
    to->len = from->len;
    memcpy(to->words, from->words, from->len * sizeof(uint64_t));
}

static void copy_table(struct table *to, const struct table *from) {
    copy_slice(&to->models, &from->models);
    copy_slice(&to->connectors, &from->connectors);
    copy_slice(&to->couplings, &from->couplings);
    to->good = from->good;
}

static void swap_words(struct slice *s) {
    size_t i = (size_t)below(s->len);
    size_t j = (size_t)below(s->len);
    uint64_t word = s->words[i];
    s->words[i] = s->words[j];
    s->words[j] = word;
}

/* To this length: cut short, or its own words again and again. */
static void stretch(struct slice *s, size_t len) {
    if (s->len == 0)
        s->words[s->len++] = any_word();
    for (size_t i = s->len; i < len; i++)
        s->words[i] = s->words[i - s->len];
    s->len = len;
}

/* One thing about one slice, whose rows have so many words and of which so many are allowed. */
static void change_slice(struct slice *s, size_t width, size_t most) {
    size_t row = s->len < width ? 0 : (size_t)below(s->len / width) * width;
    uint64_t pick = below(16);
    if (pick == 0)
        stretch(s, width * most + (size_t)below(3) - 1);
    else if (pick == 1)
        stretch(s, s->len + 1 + (size_t)below(width));
    else if (s->len == 0)
        return;
    else if (pick == 2)
        s->len -= 1 + (size_t)below(s->len < width ? s->len : width);
    else if (pick == 3 && s->len + width <= TABLE_ROOM && s->len >= width) {
        memcpy(s->words + s->len, s->words + row, width * sizeof(uint64_t));
        s->len += width;
    } else if (pick < 6)
        swap_words(s);
    else {
        uint64_t *word = s->words + below(s->len);
        *word = changed_word(*word);
    }
}

/* One to four changes. */
static void change_table(struct table *t) {
    t->good = 0;
    for (uint64_t left = 1 + below(4); left > 0; left--)
        switch (below(4)) {
        case 0:
            change_slice(&t->connectors, JT_CONNECTOR_WORDS, MOST_CONNECTORS);
            break;
        case 1:
            change_slice(&t->couplings, JT_COUPLING_WORDS, MOST_COUPLINGS);
            break;
        default:
            change_slice(&t->models, JT_MODEL_WORDS, MOST_MODELS);
        }
}

/* ---- words that are no table: any, small ones, or pure noise */
static void junk_slice(struct slice *s, size_t width) {
    uint64_t pick = below(3);
    s->len = one_in(3) ? 0 : (size_t)below(4) * width + (one_in(4) ? (size_t)below(width) : 0);
    for (size_t i = 0; i < s->len; i++)
        s->words[i] = pick == 0 ? any_word() : pick == 1 ? below(6) : random_word();
}

static void junk_table(struct table *t) {
    t->good = 0;
    junk_slice(&t->models, JT_MODEL_WORDS);
    junk_slice(&t->connectors, JT_CONNECTOR_WORDS);
    junk_slice(&t->couplings, JT_COUPLING_WORDS);
}

/* Any words of any length, but most rows near a processor's that omits its capacity. */
static void loose_models(struct table *t) {
    struct slice *s = &t->models;
    uint64_t pick = below(3);
    t->good = 0;
    s->len = (size_t)below(one_in(4) ? 30 : 700);
    for (size_t i = 0; i < s->len; i++)
        s->words[i] = pick == 0 ? random_word() : pick == 1 ? any_word() : below(10);
    if (one_in(4))
        return;
    for (size_t row = 0; row < s->len; row += JT_MODEL_WORDS) {
        s->words[row + 1] = one_in(4) ? changed_word(PROCESSOR) : PROCESSOR;
        s->words[row + 2] = one_in(4) ? changed_word(below(8)) : below(9);
    }
}

#endif
