#include "calls.h"

#include <string.h>

#include "arena.h"
#include "report.h"

#define ROLE(role) (1U << (role))
#define LINES (ROLE(ROLE_INPUT) | ROLE(ROLE_OUTPUT))
#define TEXTS (ROLE(ROLE_LINES) | ROLE(ROLE_PLACES) | ROLE(ROLE_TEXT))
#define RECORDINGS (ROLE(ROLE_RECORDING) | ROLE(ROLE_RECORDING_2))
#define NUMBERS(low, high) ((1U << ((high) + 1)) - (1U << (low)))
#define NUMBER(n) NUMBERS(n, n)

static const struct {
    const char *name;
    unsigned roles;
    unsigned fills;
    unsigned refusals;
} facts[CALLS] = {
    [CALL_RESET] = {"reset", ROLE(ROLE_RECORD), 0, NUMBER(PL022_DONE) | NUMBER(PL022_WRONG_LENGTH)},
    [CALL_RESET_EDITION] = {"reset_edition", ROLE(ROLE_RECORD), 0,
                            NUMBER(PL022_DONE) | NUMBER(PL022_WRONG_LENGTH)
                                | NUMBER(PL022_NO_EDITION)},
    [CALL_READ] = {"read", ROLE(ROLE_RECORD), 0,
                   NUMBERS(PL022_DONE, PL022_WRONG_ACCESS)
                       | NUMBERS(PL022_QUEUE_EMPTY, PL022_WRONG_LENGTH)},
    [CALL_WRITE] = {"write", ROLE(ROLE_RECORD), 0,
                    NUMBERS(PL022_DONE, PL022_QUEUE_FULL)
                        | NUMBERS(PL022_UNSOUND, PL022_WRONG_LENGTH)},
    [CALL_RUN] = {"run", ROLE(ROLE_RECORD) | LINES, ROLE(ROLE_OUTPUT),
                  NUMBER(PL022_DONE) | NUMBERS(PL022_UNSOUND, PL022_BAD_INPUT)},
    [CALL_RUN_TO_IDLE] = {"run_to_idle", ROLE(ROLE_RECORD) | LINES, ROLE(ROLE_OUTPUT),
                          NUMBER(PL022_DONE) | NUMBERS(PL022_UNSOUND, PL022_BAD_INPUT)},
    [CALL_PAIR_RUN] = {"pair_run", ROLE(ROLE_RECORD) | ROLE(ROLE_SECOND), 0,
                       NUMBER(PL022_DONE) | NUMBERS(PL022_UNSOUND, PL022_WRONG_LENGTH)},
    [CALL_WRITE_TEXT] = {"write_text", TEXTS, ROLE(ROLE_TEXT),
                         NUMBER(PL022_DONE) | NUMBERS(PL022_TOO_MANY_CYCLES, PL022_TOO_SHORT)},
    [CALL_READ_TEXT] = {"read_text", TEXTS, ROLE(ROLE_LINES) | ROLE(ROLE_PLACES),
                        NUMBER(PL022_DONE) | NUMBER(PL022_TOO_MANY_CYCLES)
                            | NUMBERS(PL022_TOO_SHORT, PL022_NO_LINE_FEED)},
    [CALL_JUDGE] = {"judge", ROLE(ROLE_RECORDING) | ROLE(ROLE_WORDS), ROLE(ROLE_WORDS),
                    NUMBER(PL022_DONE) | NUMBER(PL022_NOT_PERMITTED)
                        | NUMBERS(PL022_NO_MATCH, PL022_TOO_LONG)},
    [CALL_DIFFERENCE] = {"difference", RECORDINGS, 0, NUMBER(PL022_DONE)},
};

const char *call_name(enum call call)
{
    return facts[call].name;
}

const char *role_name(enum role role)
{
    static const char *const names[ROLES] = {
        "record", "second", "input", "output", "lines", "places", "text", "recording",
        "recording 2", "words"
    };
    return names[role];
}

bool call_lends(enum call call, enum role role)
{
    return (facts[call].roles & ROLE(role)) != 0;
}

bool call_fills(enum call call, enum role role)
{
    return (facts[call].fills & ROLE(role)) != 0;
}

bool call_may_answer(enum call call, uint64_t refusal)
{
    return refusal < REFUSALS && (facts[call].refusals >> refusal & 1) != 0;
}

bool call_resets(enum call call)
{
    return call == CALL_RESET || call == CALL_RESET_EDITION;
}

bool call_runs_lines(enum call call)
{
    return call_lends(call, ROLE_INPUT);
}

bool call_runs(enum call call)
{
    return call_runs_lines(call) || call == CALL_PAIR_RUN;
}

static void pass_text(const struct request *request, const struct loan loans[ROLES],
                      struct outcome *outcome)
{
    const struct loan *lines = &loans[ROLE_LINES];
    const struct loan *text = &loans[ROLE_TEXT];
    uint32_t *places = (uint32_t *)(void *)loans[ROLE_PLACES].bytes;
    size_t count = loans[ROLE_PLACES].length / PLACE_SIZE;

    if (request->call == CALL_WRITE_TEXT) {
        struct pl022_count written = pl022_write_text(lines->bytes, lines->length, places, count,
                                                      text->bytes, text->length);
        outcome->refusal = written.refusal;
        outcome->result = written.count;
    } else {
        struct pl022_text read = pl022_read_text(text->bytes, text->length,
                                                 lines->bytes, lines->length, places, count);
        outcome->refusal = read.refusal;
        outcome->result = read.cycles;
        outcome->starts = read.starts;
    }
}

static void pass_recording(const struct request *request, const struct loan loans[ROLES],
                           struct outcome *outcome)
{
    const struct loan *recording = &loans[ROLE_RECORDING];
    const struct loan *other = &loans[ROLE_RECORDING_2];
    uint16_t *words = (uint16_t *)(void *)loans[ROLE_WORDS].bytes;

    if (request->call == CALL_JUDGE) {
        struct pl022_count judged = pl022_judge(request->cr0, request->cpsr, recording->bytes,
                                                recording->length, words);
        outcome->refusal = judged.refusal;
        outcome->result = judged.count;
    } else {
        outcome->refusal = PL022_DONE;
        outcome->part = pl022_difference(recording->bytes, recording->length,
                                         other->bytes, other->length);
    }
}

static void pass_run(const struct request *request, const struct loan loans[ROLES],
                     struct outcome *outcome)
{
    const struct loan *record = &loans[ROLE_RECORD];
    const struct loan *second = &loans[ROLE_SECOND];
    const struct loan *input = &loans[ROLE_INPUT];
    const struct loan *output = &loans[ROLE_OUTPUT];

    if (request->call == CALL_PAIR_RUN) {
        struct pl022_pair_ran ran = pl022_pair_run(record->bytes, record->length,
                                                   second->bytes, second->length, request->cycles);
        outcome->refusal = ran.refusal;
        outcome->lost[ROLE_RECORD] = ran.first;
        outcome->lost[ROLE_SECOND] = ran.second;
    } else {
        struct pl022_ran ran = (request->call == CALL_RUN ? pl022_run : pl022_run_to_idle)(
            record->bytes, record->length, input->bytes, input->length,
            output->bytes, output->length);
        outcome->refusal = ran.refusal;
        outcome->result = ran.count;
        outcome->lost[ROLE_RECORD] = ran.lost;
    }
}

static void pass_access(const struct request *request, const struct loan loans[ROLES],
                        struct outcome *outcome)
{
    const struct loan *record = &loans[ROLE_RECORD];
    struct pl022_word word = {0, 0};

    switch (request->call) {
    case CALL_RESET:
        word.refusal = pl022_reset(record->bytes, record->length);
        break;
    case CALL_RESET_EDITION:
        word.refusal = pl022_reset_edition(record->bytes, record->length, request->value);
        break;
    case CALL_READ:
        word = pl022_read(record->bytes, record->length, request->offset);
        break;
    default:
        word.refusal = pl022_write(record->bytes, record->length, request->offset, request->value);
        break;
    }
    outcome->refusal = word.refusal;
    outcome->result = word.word;
}

/* What a call does not answer is 0. */
static void pass(const struct request *request, const struct loan loans[ROLES],
                 struct outcome *outcome)
{
    outcome->result = 0;
    outcome->starts = 0;
    memset(outcome->lost, 0, sizeof outcome->lost);
    memset(&outcome->part, 0, sizeof outcome->part);
    if (call_runs(request->call)) {
        pass_run(request, loans, outcome);
    } else if (call_lends(request->call, ROLE_TEXT)) {
        pass_text(request, loans, outcome);
    } else if (call_lends(request->call, ROLE_RECORDING)) {
        pass_recording(request, loans, outcome);
    } else {
        pass_access(request, loans, outcome);
    }
}

void call_make(const struct request *request, struct outcome *outcome)
{
    _Alignas(uint32_t) uint8_t stack[ROLES][STACK_LIMIT];
    struct loan loans[ROLES];

    memset(loans, 0, sizeof loans);
    report_call(request);
    for (unsigned role = 0; role < ROLES; role++) {
        if (call_lends(request->call, role)) {
            arena_lend(&loans[role], role, &request->lent[role], stack[role]);
        }
    }
    pass(request, loans, outcome);
    for (unsigned role = 0; role < ROLES; role++) {
        bytes_set(&outcome->after[role], loans[role].bytes, loans[role].length);
    }
    report_answer(outcome);
    for (unsigned role = 0; role < ROLES; role++) {
        if (call_lends(request->call, role)) {
            report_unless(arena_intact(&loans[role]), "a byte beside a lent buffer changed");
            arena_take_back(&loans[role]);
        }
    }
}

size_t call_wrote(const struct request *request, const struct outcome *outcome, enum role role)
{
    if (!call_fills(request->call, role)) {
        return 0;
    }
    if (request->call == CALL_RUN) {
        return request->lent[ROLE_INPUT].length;
    }
    if (request->call == CALL_JUDGE) {
        return WORDS_LENGTH;
    }
    return role == ROLE_PLACES ? (size_t)outcome->starts * PLACE_SIZE : (size_t)outcome->result;
}

uint64_t call_ran(const struct request *request, const struct outcome *outcome)
{
    return request->call == CALL_PAIR_RUN ? request->cycles
         : call_runs_lines(request->call) ? call_wrote(request, outcome, ROLE_OUTPUT) : 0;
}

uint32_t place_get(const struct bytes *places, size_t n)
{
    uint32_t place;
    memcpy(&place, places->data + n * PLACE_SIZE, PLACE_SIZE);
    return place;
}

void place_set(struct bytes *places, size_t n, uint32_t place)
{
    memcpy(places->data + n * PLACE_SIZE, &place, PLACE_SIZE);
}

uint16_t word_get(const struct bytes *words, size_t n)
{
    uint16_t word;
    memcpy(&word, words->data + n * WORD_SIZE, WORD_SIZE);
    return word;
}

void bytes_set(struct bytes *bytes, const uint8_t *data, size_t length)
{
    bytes->length = length;
    /* With length 0 the data may stand where nothing may be touched, or nowhere. */
    if (length > 0) {
        memcpy(bytes->data, data, length);
    }
}

bool bytes_equal(const struct bytes *one, const struct bytes *other)
{
    return one->length == other->length && memcmp(one->data, other->data, one->length) == 0;
}

void request_copy(struct request *to, const struct request *from)
{
    to->call = from->call;
    to->offset = from->offset;
    to->value = from->value;
    to->cycles = from->cycles;
    to->cr0 = from->cr0;
    to->cpsr = from->cpsr;
    to->due = from->due;
    to->served_before = from->served_before;
    for (unsigned role = 0; role < ROLES; role++) {
        if (call_lends(from->call, role)) {
            bytes_set(&to->lent[role], from->lent[role].data, from->lent[role].length);
        }
    }
}
