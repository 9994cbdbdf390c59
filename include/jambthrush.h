/* Jambthrush: a proved discrete event simulator, called from C.
 *
 * A simulation lives in a buffer of 64-bit words that the caller lends to each call (docs/LAYOUT.md). There is no hidden
 * state and no allocation: a buffer can be copied, stored in a file and handed in again, and two buffers are two simulations.
 *
 * Refusals. Every call but jt_state_words and jt_trace_bytes returns 0 or the number of a refusal (enum jt_refusal). What a
 * refused call leaves:
 * - jt_step, jt_step_n, jt_step_until: the steps completed before the refused one stand, in the state and in `rows`, as if
 *   just so many had been asked for; where none was completed, both are as they were. `report` is written by each of these
 *   calls, refused or not: it is a part of the answer. Refused with JT_BAD_STATE, or for `until`, it is 0, 0, JT_END_REFUSED.
 * - jt_intake and jt_read_trace write `report`, refused or not; a refused one writes nothing else.
 * - every other call: all that was lent is as it was, `report` of jt_get_status, `count`, `time` and `written` among it.
 * Where a step is refused after others were completed, these are run a second time to leave them standing, so the call costs
 * them twice; not with JT_IDLE and JT_CLOCK_OVERFLOW, which are decided before a step changes anything.
 *
 * Each call checks all that it is handed, the state buffer first if it has one, and no table, message, time or word in a
 * buffer traps it or makes it write elsewhere. That is proved; what the proof rests on, and what it leaves to the caller, is
 * in docs/TRUST.md.
 *
 * Time. Every call ends, but not every call ends soon. One message to a Coupled makes an event for each way along matching
 * external input couplings, and ways multiply level by level: 64 such couplings in each of four nested Coupleds, and 256
 * messages, make 2^32 events in one step. Measured on x86-64: some 75 s on the five rows that this takes, 270 to 320 s where
 * they are the last of 64 (bench/longest-step). It can come again in each step, with the clock standing still. And jt_step_n
 * goes on for as many steps as it was asked for, also on a table that goes round at one clock, such as a batcher of
 * max_batch_size 1 that feeds itself: the allowance of jt_step_until is the way out. Nothing ends a step halfway.
 * docs/PROMISES.md, "How long a step can take".
 *
 * Parked messages. What a component of a Coupled puts out for another one is parked in the Coupled, which is due while it holds
 * any: the next step hands it over, at the same clock. JT_IDLE says that nothing is parked. A message that its component refuses
 * refuses every step from then on, until `services` holds what it needs (JT_NO_SERVICE_TIME, JT_BAD_TIME) or another table is
 * posted or put.
 *
 * Running on. A run may be cut in parts: a steps and then b more, with the same `services` and with `rows` lent from behind
 * the first part's rows on, are one call with a + b, in state, rows, steps and answer. The answer of the whole is the first
 * part's where that is a refusal, else the second's: asked for no steps, a second part answers 0, but for JT_BAD_STATE,
 * which comes first. docs/PAUSING.md has this for jt_step_until too, and a run that is stored in a file and goes on in
 * another process.
 *
 * Memory. A slice is a pointer and a length in elements, aligned as its type asks. A pointer may be NULL where the length is
 * 0. `report`, `count`, `time` and `written` point to memory of the size shown. What a call writes (all that is not const: a
 * state, `rows`, models, `file`, `report`, `count`, `time`, `written`) overlaps nothing else that it is handed; what is only
 * read may be lent twice.
 * One buffer is used by one call at a time, unless all of them only read it; calls on different buffers may run on different
 * threads. The processor's floating-point mode is as C starts it: to nearest, subnormal numbers kept (not so after gcc
 * -ffast-math).
 *
 * Stack: under 64 KiB for tables of up to 8 rows, under 256 KiB for any (measured: docs/LAYOUT.md).
 */
#ifndef JAMBTHRUSH_H
#define JAMBTHRUSH_H

#include <stddef.h>
#include <stdint.h>

#ifdef __cplusplus
extern "C" {
#endif

/* What a call answers. */
enum jt_refusal {
    JT_OK = 0,
    JT_TOO_LARGE = 1,            /* more than 64 model rows, 256 connectors or 256 couplings */
    JT_BAD_ROW = 2,              /* a model row breaks a rule */
    JT_BAD_COUPLING = 3,         /* a connector or coupling breaks a rule */
    JT_MODEL_NOT_FOUND = 4,      /* status of an id that no model without parent has */
    JT_INVALID_MESSAGE = 5,      /* processor or stopwatch: unknown port */
    JT_INVALID_MODEL_STATE = 6,  /* a job at an empty processor of capacity 0, or at a batcher in Release with room */
    JT_NO_QUEUE_ROOM = 7,        /* a job would be kept, and 64 are */
    JT_NO_MESSAGE_ROOM = 8,      /* the 257th message active or put out, or the 65th parked */
    JT_NO_SERVICE_TIME = 9,      /* the list of service times is used up */
    JT_BAD_TIME = 10,            /* a service time, an injected time or `until` is below 0, -0.0, above 2^60 or no number */
    JT_CLOCK_OVERFLOW = 11,      /* the new clock is above 2^60 */
    JT_IDLE = 12,                /* nothing left to do: no active or parked message, every timer infinite */
    JT_NO_OUT_ROOM = 13,         /* the rows, or a trace's blocks, do not fit the output; or there would be more than 2^32 rows */
    JT_BAD_BLOCK = 14,           /* a trace: a start past the end, or a block of a wrong length, number, count, zero word or check */
    JT_BAD_STATE = 20            /* the state buffer is too short, or does not hold a simulation as docs/LAYOUT.md lays it */
};

/* report[2] of a run */
enum jt_end { JT_END_DONE = 0, JT_END_REACHED = 1, JT_END_SPENT = 2, JT_END_REFUSED = 3 };

/* report[0] of a status, and what report[1] then is */
enum jt_status {
    JT_STATUS_PROCESSOR = 0,     /* 0 Passive, 1 Active */
    JT_STATUS_BATCHER = 1,       /* 0 Passive, 1 Batching, 2 Release */
    JT_STATUS_MEAN = 2,          /* a stopwatch's mean duration, the bits of a double */
    JT_STATUS_NO_MEAN = 3,       /* a stopwatch with no complete job: 0 */
    JT_STATUS_PARKED = 4         /* how many messages a Coupled has parked */
};

/* report[0] of jt_intake: the part of the table that the first bad row stands in */
enum jt_part { JT_NOWHERE = 0, JT_MODELS = 1, JT_CONNECTORS = 2, JT_COUPLINGS = 3 };

/* What queue_capacity is in a processor's row that omits it: the 33rd job is dropped. */
enum { JT_OMITTED_CAPACITY = 32 };

/* A table is three slices of words: models, connectors, couplings. In each, row stands after row, and each row has so many
 * words: word JT_MODEL_KIND of the model row k is models[k * JT_MODEL_WORDS + JT_MODEL_KIND]. Each id and port is below 2^16.
 * So must the words 4 to 7 of a model row be that its kind does not name, and those of a coupling: write 0 there. The bits of
 * a double x are the word that memcpy(&word, &x, sizeof word) makes. */
enum { JT_MODEL_WORDS = 10, JT_CONNECTOR_WORDS = 4, JT_COUPLING_WORDS = 6, JT_MESSAGE_WORDS = 6 };

/* The most there may be. */
enum jt_most {
    JT_MOST_MODELS = 64,         /* model rows, components counted */
    JT_MOST_CONNECTORS = 256,    /* connector rows */
    JT_MOST_COUPLINGS = 256,     /* coupling rows, of all three kinds together */
    JT_MOST_DEPTH = 4,           /* Coupleds in one another; the innermost may hold other models */
    JT_MOST_JOBS = 64,           /* in one processor, batcher or stopwatch */
    JT_MOST_PARKED = 64,         /* messages parked in one Coupled */
    JT_MOST_MESSAGES = 256       /* active at a time, or out of one internal event */
};

/* Word JT_MODEL_KIND of a model row */
enum jt_model_kind { JT_PROCESSOR = 1, JT_BATCHER = 2, JT_STOPWATCH = 3, JT_COUPLED = 4 };

/* Word JT_MODEL_GIVEN of a model row: of the fields that may be omitted, those that are given, added up */
enum jt_given {
    JT_GIVEN_PARENT = 1,         /* of any kind; omitted: the model is no component */
    JT_GIVEN_QUEUE_CAPACITY = 2, /* of a processor; omitted: JT_OMITTED_CAPACITY */
    JT_GIVEN_METRIC = 4          /* of a stopwatch; omitted: JT_MINIMUM */
};

/* Word JT_STOPWATCH_METRIC of a stopwatch's row: which job it names when it is asked */
enum jt_metric { JT_MINIMUM = 0, JT_MAXIMUM = 1 };

/* The words of a model row: those of every kind, then those of each */
enum jt_model_word {
    JT_MODEL_ID = 0,             /* unlike every other id of the table */
    JT_MODEL_KIND = 1,           /* enum jt_model_kind */
    JT_MODEL_GIVEN = 2,          /* enum jt_given, added up */
    JT_MODEL_PARENT = 3,         /* if given: the id of the Coupled that it is a component of, whose row is an earlier one */

    JT_PROCESSOR_IN = 4,         /* the port at which jobs come */
    JT_PROCESSOR_OUT = 7,        /* the port at which they leave */
    JT_PROCESSOR_QUEUE_CAPACITY = 8, /* if given: how many jobs it holds at most, the one in work counted */

    JT_BATCHER_IN = 4,           /* the port at which jobs come; it is not looked at: they may come at any */
    JT_BATCHER_OUT = 7,          /* the port at which they leave */
    JT_BATCHER_MAX_BATCH_SIZE = 8, /* jobs a batch, 1 to 2^62 */
    JT_BATCHER_MAX_BATCH_TIME = 9, /* how long a batch waits for more: the bits of a double, 0 to 2^60 */

    JT_STOPWATCH_START = 4,      /* the port at which a job that begins is told; the three are three different ports */
    JT_STOPWATCH_STOP = 5,       /* the port at which a job that ends is told */
    JT_STOPWATCH_ASK = 6,        /* the port at which it is asked for a job */
    JT_STOPWATCH_OUT = 7,        /* the port at which it answers */
    JT_STOPWATCH_METRIC = 8      /* if given: enum jt_metric */
};

/* The words of a connector row: what leaves a model without parent by a port goes to another's port. An id that no model has
 * is no fault: a message to it stands in `rows`, and nobody takes it. */
enum jt_connector_word {
    JT_CONNECTOR_SOURCE_ID = 0,
    JT_CONNECTOR_SOURCE_PORT = 1,
    JT_CONNECTOR_TARGET_ID = 2,
    JT_CONNECTOR_TARGET_PORT = 3
};

/* Word JT_COUPLING_KIND of a coupling row */
enum jt_coupling_kind {
    JT_EXTERNAL_INPUT = 1,       /* from a port of the Coupled to a component; names no source id */
    JT_EXTERNAL_OUTPUT = 2,      /* from a component to a port of the Coupled; names no target id */
    JT_INTERNAL = 3              /* from a component to a component */
};

/* The words of a coupling row */
enum jt_coupling_word {
    JT_COUPLING_OWNER_ID = 0,    /* the Coupled */
    JT_COUPLING_KIND = 1,        /* enum jt_coupling_kind */
    JT_COUPLING_SOURCE_ID = 2,   /* a component of it; 0 in an external input */
    JT_COUPLING_SOURCE_PORT = 3,
    JT_COUPLING_TARGET_ID = 4,   /* a component of it; 0 in an external output */
    JT_COUPLING_TARGET_PORT = 5
};

/* The words of a message, as `rows` has them */
enum jt_message_word {
    JT_MESSAGE_SOURCE_ID = 0,
    JT_MESSAGE_SOURCE_PORT = 1,
    JT_MESSAGE_TARGET_ID = 2,
    JT_MESSAGE_TARGET_PORT = 3,
    JT_MESSAGE_TIME = 4,         /* the bits of a double */
    JT_MESSAGE_CONTENT = 5       /* below 2^32: the job's number */
};

/* How many words a state buffer must have for any state of a table of these lengths (in words), at least 1542 and at most
 * 17286. Every call on a state refuses a shorter buffer with JT_BAD_STATE, and leaves longer ones alone beyond the state's end.
 * 0 where the table is too large: no buffer is too short for it, and jt_post and jt_put refuse it with JT_TOO_LARGE. */
size_t jt_state_words(size_t models_len, size_t connectors_len, size_t couplings_len);

/* What intake says of a table, with no state at hand: 0, JT_TOO_LARGE, JT_BAD_ROW or JT_BAD_COUPLING, as jt_post says it where
 * the state buffer is long enough. `report` is written by every call:
 * report[0]: where the first bad row stands (enum jt_part); JT_NOWHERE with 0 and with JT_TOO_LARGE
 * report[1]: that row, counted from 0 in its own slice, a row cut short counted; 0 where report[0] is JT_NOWHERE
 * report[2]: how many processor rows omit queue_capacity, where the table passes; 0 where it does not. */
uint32_t jt_intake(const uint64_t *models, size_t models_len, const uint64_t *connectors, size_t connectors_len,
                   const uint64_t *couplings, size_t couplings_len, uint64_t report[3]);

/* For tables from the time when an omitted queue_capacity meant 2^64 - 1, and for no others: each whole processor row that
 * omits it (word 1 is 1, word 2 is at most 7 and lacks 2) gets 2 more in word 2 and 2^64 - 1 in word 8, and so means what it
 * meant. No other word changes, *count is how many rows were written, and the answer is 0. Any words, of any length, may be
 * lent. A stored state has its table inside: jt_write_out_capacity(state + 3, 10 * state[0], &count), after a look that
 * state[0] is at most 64 and the buffer at least 3 + 10 * state[0] words long. Do that before any other call: an old state
 * with more than 32 jobs in such a processor is JT_BAD_STATE until then, and one with at most 32 would go on and drop the
 * 33rd (docs/LAYOUT.md). */
uint32_t jt_write_out_capacity(uint64_t *models, size_t models_len, uint64_t *count);

/* A new simulation of a table, written into the state buffer, of which only the length is looked at.
 * JT_BAD_STATE where it is shorter than jt_state_words says; else JT_TOO_LARGE, JT_BAD_ROW or JT_BAD_COUPLING.
 * A buffer of zeros, 1542 or more, holds the simulation of the empty table. So where a post into zeroed memory is refused and
 * nobody looks, the next calls answer for that: a step with JT_IDLE, not with JT_BAD_STATE. */
uint32_t jt_post(const uint64_t *models, size_t models_len, const uint64_t *connectors, size_t connectors_len,
                 const uint64_t *couplings, size_t couplings_len, uint64_t *state, size_t state_len);

/* Fresh models of another table; active messages, clock and place in the service list stay. The buffer must hold a simulation
 * and be long enough for the new table too (JT_BAD_STATE); then as jt_post. */
uint32_t jt_put(uint64_t *state, size_t state_len, const uint64_t *models, size_t models_len,
                const uint64_t *connectors, size_t connectors_len, const uint64_t *couplings, size_t couplings_len);

/* One more active message. JT_BAD_TIME, then JT_NO_MESSAGE_ROOM. */
uint32_t jt_inject_input(uint64_t *state, size_t state_len, uint16_t source_id, uint16_t source_port,
                         uint16_t target_id, uint16_t target_port, double time, uint32_t content);

/* One step, so many steps, or steps until the clock is no longer below `until` (at most `allowance`). `services` is the list
 * of service times that processors read, one after the other, across calls: the state keeps its place in it. The messages of
 * each completed step go into `rows`, six words each, one straight after the other; jt_step_until does not collect those of
 * the step that reaches `until`, which stay active.
 * report[0]: steps completed; report[1]: rows written; report[2]: how it ended (enum jt_end). What a refusal leaves, and how
 * long a call can take: at the top. */
uint32_t jt_step(uint64_t *state, size_t state_len, const double *services, size_t services_len,
                 uint64_t *rows, size_t rows_len, uint64_t report[3]);
uint32_t jt_step_n(uint64_t *state, size_t state_len, const double *services, size_t services_len, uint64_t count,
                   uint64_t *rows, size_t rows_len, uint64_t report[3]);
uint32_t jt_step_until(uint64_t *state, size_t state_len, const double *services, size_t services_len, double until,
                       uint32_t allowance, uint64_t *rows, size_t rows_len, uint64_t report[3]);

/* Messages and clock cleared, and nothing else; or one of the two. */
uint32_t jt_reset(uint64_t *state, size_t state_len);
uint32_t jt_reset_messages(uint64_t *state, size_t state_len);
uint32_t jt_reset_global_time(uint64_t *state, size_t state_len);

/* The status of a model without parent (enum jt_status). `report` is written only where nothing is refused. */
uint32_t jt_get_status(const uint64_t *state, size_t state_len, uint16_t id, uint64_t report[2]);

/* The active messages, six words each, and how many there are. JT_NO_OUT_ROOM where they do not fit. */
uint32_t jt_get_messages(const uint64_t *state, size_t state_len, uint64_t *rows, size_t rows_len, uint64_t *count);

/* Traces: rows on disk, in blocks of JT_BLOCK_BYTES bytes with JT_BLOCK_ROWS rows each, the last one with 1 to so many. A file
 * of n rows has (n + 9) / 10 blocks, and of no rows no bytes. docs/TRACE.md has the format. Each field of a row is any u64. */
enum { JT_BLOCK_BYTES = 512, JT_BLOCK_ROWS = 10 };

/* report[2] of jt_read_trace: what a file's rows are */
enum jt_trace_kind { JT_TRACE_SIX = 0 /* rows of six words, as jt_step writes them */ };

/* How many bytes the blocks of so many words of rows have; words past the last whole row are not counted. 0 where there is no
 * whole row, and where there are more than 2^32 rows. */
size_t jt_trace_bytes(size_t rows_len);

/* The blocks of these rows, numbered from `start` on, written at the start of `file`; *written is how many bytes that is. What
 * is behind them stays, and words past the last whole row are not read. So a long run is written as it goes: a multiple of
 * JT_BLOCK_ROWS rows at a time, but for the last time, each with `start` = the number of blocks before, makes the file that one
 * call makes of all the rows. Write into an empty file: blocks of an older trace that are left behind the last one may fit.
 * JT_NO_OUT_ROOM where the blocks do not fit, or where JT_BLOCK_ROWS * start and the rows are above 2^32 together (also with no
 * rows): then nothing is written, *written included. */
uint32_t jt_write_trace(const uint64_t *rows, size_t rows_len, uint64_t start, uint8_t *file, size_t file_len,
                        uint64_t *written);

/* The rows of the blocks from number `start` on, six words each, at the start of `rows`; what is behind them stays. `file` is the
 * whole file, from block 0 on; blocks before `start` are not looked at, and where 512 * start is file_len there are no rows.
 * JT_BAD_BLOCK where 512 * start is above file_len, and at the first block that is not as docs/TRACE.md has it. JT_NO_OUT_ROOM at
 * the first block whose rows do not fit behind those before; at each block JT_BAD_BLOCK comes first, and a bad block behind one
 * that does not fit is not told. A refused call writes no row; the rows before a bad block are those of file_len = 512 times its
 * number. `report` is written by every call:
 * report[0]: rows read, 0 where refused; report[1]: with JT_BAD_BLOCK the bad block's number, counted from 0 (or `start`, where
 * that is past the end), else 0; report[2]: enum jt_trace_kind. */
uint32_t jt_read_trace(const uint8_t *file, size_t file_len, uint64_t start, uint64_t *rows, size_t rows_len,
                       uint64_t report[3]);

/* The clock. */
uint32_t jt_get_global_time(const uint64_t *state, size_t state_len, double *time);

#ifdef __cplusplus
}
#endif

#endif
