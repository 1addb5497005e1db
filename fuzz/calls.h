/*
 * calls.h: a call of the library as data: what is lent and passed, and what came back.
 */
#ifndef FUZZ_CALLS_H
#define FUZZ_CALLS_H

#include <stdbool.h>
#include <stddef.h>
#include <stdint.h>

#include "pl022.h"

enum call {
    CALL_RESET, CALL_RESET_EDITION, CALL_READ, CALL_WRITE,
    CALL_RUN, CALL_RUN_TO_IDLE, CALL_PAIR_RUN,
    CALL_WRITE_TEXT, CALL_READ_TEXT,
    CALL_JUDGE, CALL_DIFFERENCE,
    CALLS
};

/*
 * The buffers that a call may be lent. Places are numbers, those of a reading its line starts;
 * words are the eight places of a judge.
 */
enum role {
    ROLE_RECORD, ROLE_SECOND, ROLE_INPUT, ROLE_OUTPUT, ROLE_LINES, ROLE_PLACES, ROLE_TEXT,
    ROLE_RECORDING, ROLE_RECORDING_2, ROLE_WORDS,
    ROLES
};

/* The longest buffers that are lent; only recordings need more than the first. */
enum { LENT_LIMIT = 20480, BYTES_LIMIT = PL022_JUDGE_CYCLES + 256 };

enum { REFUSALS = PL022_TOO_LONG + 1 };

/* The roles below this are those of records. */
enum { RECORD_ROLES = ROLE_SECOND + 1 };

/* A place and a word as they lie in the bytes that are lent. */
enum { PLACE_SIZE = sizeof(uint32_t), WORD_SIZE = sizeof(uint16_t) };
enum { WORDS_LENGTH = PL022_QUEUE_WORDS * WORD_SIZE };

struct bytes {
    size_t length;
    uint8_t data[BYTES_LIMIT];
};

/*
 * The answer that a text was made for, if the buffers for its cycles and line starts are
 * long enough; or that a recording was made for, if it is short enough to be judged and the
 * settings can be enabled: cycles is the count then.
 */
struct due {
    bool known;
    uint64_t refusal;
    size_t cycles;
    size_t starts;
    size_t least; /* known or not: so many cycles are leading at least */
};

struct request {
    enum call call;
    uint32_t offset;
    uint32_t value; /* of a write; the edition of a reset */
    uint64_t cycles;
    uint32_t cr0;   /* of a judge */
    uint32_t cpsr;
    struct due due; /* of a reading or a judge */
    /* Every lent record was served once, and only calls have changed it since. */
    bool served_before;
    struct bytes lent[ROLES];
};

/*
 * result is the word of a read, the count of a run, of a written text or of a judge, the cycles
 * of a text that was read, and 0 for the others; starts is 0 for all but the last. lost is what
 * a run handed up for each record, part what a comparison gave, and 0 for the others.
 */
struct outcome {
    uint64_t refusal;
    uint64_t result;
    uint64_t starts;
    struct pl022_lost lost[RECORD_ROLES];
    struct pl022_part part;
    struct bytes after[ROLES];
};

const char *call_name(enum call call);
const char *role_name(enum role role);
bool call_lends(enum call call, enum role role);

/* Whether the call writes into the buffer, which is no record. */
bool call_fills(enum call call, enum role role);

/* Whether the header lists this refusal number for the call. */
bool call_may_answer(enum call call, uint64_t refusal);

/* Whether the call makes a device, whatever the record held. */
bool call_resets(enum call call);

/* Whether the call runs cycles from an input to an output buffer. */
bool call_runs_lines(enum call call);

/* Whether the call runs cycles. */
bool call_runs(enum call call);

/* Makes the call on buffers placed at random; fails if a byte around them changed. */
void call_make(const struct request *request, struct outcome *outcome);

/* How many cycles a done call ran. */
uint64_t call_ran(const struct request *request, const struct outcome *outcome);

/* How many bytes a done call wrote into a buffer that it fills; 0 for others. */
size_t call_wrote(const struct request *request, const struct outcome *outcome, enum role role);

void bytes_set(struct bytes *bytes, const uint8_t *data, size_t length);
bool bytes_equal(const struct bytes *one, const struct bytes *other);

/* Number n among the places. */
uint32_t place_get(const struct bytes *places, size_t n);
void place_set(struct bytes *places, size_t n, uint32_t place);

/* Number n among the words. */
uint16_t word_get(const struct bytes *words, size_t n);

/* Copies only what is lent; a request is too large to be copied whole each time. */
void request_copy(struct request *to, const struct request *from);

#endif
