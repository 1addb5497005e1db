#include "promise.h"

#include <string.h>

#include "arena.h"
#include "lost.h"
#include "promise_recording.h"
#include "promise_text.h"
#include "record.h"
#include "report.h"
#include "tally.h"

static const struct {
    uint32_t bits;
    bool readable;
} registers[] = {
    [PL022_CR0 / 4] = {0xFFFF, true}, [PL022_CR1 / 4] = {0xF, true},   [PL022_DR / 4] = {0xFFFF, true},
    [PL022_SR / 4] = {0, true},       [PL022_CPSR / 4] = {0xFF, true}, [PL022_IMSC / 4] = {0xF, true},
    [PL022_RIS / 4] = {0, true},      [PL022_MIS / 4] = {0, true},     [PL022_ICR / 4] = {0x3, false},
    [PL022_DMACR / 4] = {0x3, true},
};

static struct pl022_word ask(const uint8_t *record, uint32_t offset)
{
    uint8_t copy[PL022_RECORD_LENGTH];
    memcpy(copy, record, sizeof copy);
    return pl022_read(copy, sizeof copy, offset);
}

/* The word of a register of a sound record. */
static uint32_t word_of(const uint8_t *record, uint32_t offset)
{
    struct pl022_word answer = ask(record, offset);
    report_unless(answer.refusal == PL022_DONE, "a sound record's register is not readable");
    return answer.word;
}

bool library_serves(const uint8_t *record)
{
    uint32_t refusal = ask(record, PL022_IMSC).refusal;
    report_unless(refusal == PL022_DONE || refusal == PL022_UNSOUND,
                  "a read of IMSC is refused with another number than 9");
    report_unless((refusal == PL022_DONE) == record_sound(record),
                  "9 does not agree with the rules for records");
    return refusal == PL022_DONE;
}

/* Refusals 1 to 3: those that follow from the offset. */
static uint32_t refusal_by_offset(uint32_t offset, bool write)
{
    if (offset % 4 != 0 || offset >= PL022_SPACE_LENGTH) {
        return PL022_BAD_OFFSET;
    }
    if (offset > PL022_DMACR && offset < PL022_IDENTITY) {
        return PL022_RESERVED;
    }
    bool identity = offset >= PL022_IDENTITY;
    bool possible = write ? !identity && registers[offset / 4].bits != 0
                          : identity || registers[offset / 4].readable;
    return possible ? PL022_DONE : PL022_WRONG_ACCESS;
}

static uint32_t read_refusal(const struct request *request, const uint8_t *record)
{
    uint32_t refusal = refusal_by_offset(request->offset, false);
    if (refusal == PL022_DONE && request->offset == PL022_DR
        && (word_of(record, PL022_SR) & PL022_SR_RNE) == 0) {
        return PL022_QUEUE_EMPTY;
    }
    return refusal;
}

/* Refusals 5 to 7: those that follow from the device's state, most of it read from the device. */
static uint32_t refusal_by_state(const struct request *request, const uint8_t *record)
{
    uint32_t value = request->value;
    uint32_t cr0 = word_of(record, PL022_CR0);
    uint32_t cr1 = word_of(record, PL022_CR1);
    bool active = record_active(record);

    switch (request->offset) {
    case PL022_CR0:
        return active ? PL022_WHILE_ENABLED
             : cr0_permitted(value) ? PL022_DONE : PL022_NOT_PERMITTED;
    case PL022_CPSR:
        return active ? PL022_WHILE_ENABLED : PL022_DONE;
    case PL022_CR1:
        if (active && ((value ^ cr1) & (PL022_CR1_MS | PL022_CR1_LBM)) != 0) {
            return PL022_WHILE_ENABLED;
        }
        return (value & PL022_CR1_SSE) != 0
                       && !(cr0_permitted(cr0) && word_of(record, PL022_CPSR) != 0)
             ? PL022_NOT_PERMITTED : PL022_DONE;
    case PL022_DR:
        return (word_of(record, PL022_SR) & PL022_SR_TNF) == 0 ? PL022_QUEUE_FULL : PL022_DONE;
    default:
        return PL022_DONE;
    }
}

static uint32_t write_refusal(const struct request *request, const uint8_t *record)
{
    uint32_t refusal = refusal_by_offset(request->offset, true);
    if (refusal != PL022_DONE) {
        return refusal;
    }
    if ((request->value & ~registers[request->offset / 4].bits) != 0) {
        return PL022_EXTRA_BITS;
    }
    return refusal_by_state(request, record);
}

static bool has_length(const struct request *request, enum role role)
{
    return !call_lends(request->call, role)
        || request->lent[role].length == PL022_RECORD_LENGTH;
}

static bool served(const struct request *request, enum role role)
{
    return !call_lends(request->call, role) || library_serves(request->lent[role].data);
}

/* Refusal 20. */
static uint32_t refusal_by_edition(const struct request *request)
{
    bool known = request->value == PL022_EDITION_1 || request->value == PL022_EDITION_2;
    return known || request->call == CALL_RESET ? PL022_DONE : PL022_NO_EDITION;
}

/* Refusals 11 and 12. */
static uint32_t refusal_by_lines(const struct request *request)
{
    const struct bytes *input = &request->lent[ROLE_INPUT];
    if (input->length != request->lent[ROLE_OUTPUT].length) {
        return PL022_LINES_DIFFER;
    }
    for (size_t i = 0; i < input->length; i++) {
        if (input->data[i] > PL022_INPUT_MASK) {
            return PL022_BAD_INPUT;
        }
    }
    return PL022_DONE;
}

/* The number that the header's table gives, in the table's order. */
static uint64_t expected_refusal(const struct request *request, const struct outcome *outcome)
{
    const uint8_t *record = request->lent[ROLE_RECORD].data;

    if (call_lends(request->call, ROLE_TEXT)) {
        return text_expected_refusal(request, outcome);
    }
    if (call_lends(request->call, ROLE_RECORDING)) {
        return recording_expected_refusal(request, outcome);
    }
    if (!has_length(request, ROLE_RECORD) || !has_length(request, ROLE_SECOND)) {
        return PL022_WRONG_LENGTH;
    }
    if (call_resets(request->call)) {
        return refusal_by_edition(request);
    }
    uint32_t by_lines = call_runs_lines(request->call) ? refusal_by_lines(request) : PL022_DONE;
    if (by_lines != PL022_DONE) {
        return by_lines;
    }
    if (!served(request, ROLE_RECORD) || !served(request, ROLE_SECOND)) {
        return PL022_UNSOUND;
    }
    return request->call == CALL_READ ? read_refusal(request, record)
         : request->call == CALL_WRITE ? write_refusal(request, record) : PL022_DONE;
}

static void check_unchanged(const struct request *request, const struct outcome *outcome,
                            enum role role, const char *what)
{
    report_unless(!call_lends(request->call, role)
                  || bytes_equal(&request->lent[role], &outcome->after[role]), what);
}

static void check_refused(const struct request *request, const struct outcome *outcome)
{
    report_unless((outcome->result == 0 || outcome->refusal == PL022_NO_MATCH)
                  && outcome->starts == 0,
                  "a word or count came with a refusal");
    report_unless(lost_nothing(outcome), "a lost word came with a refusal");
    for (unsigned role = 0; role < ROLES; role++) {
        check_unchanged(request, outcome, role, "a refused call changed a lent buffer");
    }
}

static void check_read(const struct request *request, const struct outcome *outcome)
{
    if (request->offset != PL022_DR) {
        check_unchanged(request, outcome, ROLE_RECORD,
                        "a read other than of DR changed the record");
    }
    report_unless(outcome->result == record_word(request->lent[ROLE_RECORD].data, request->offset),
                  "a register reads other than the record's fields say");
}

/* Clearing SSE keeps a frame of edition 2 and drops one of edition 1; setting it keeps all. */
static void check_cr1(const struct request *request, const struct outcome *outcome)
{
    uint8_t expected[PL022_RECORD_LENGTH];
    memcpy(expected, request->lent[ROLE_RECORD].data, sizeof expected);
    record_write_cr1(expected, (uint8_t)request->value);
    report_unless(memcmp(outcome->after[ROLE_RECORD].data, expected, sizeof expected) == 0,
                  "a write of CR1 left another record");
}

static void check_write(const struct request *request, const struct outcome *outcome)
{
    uint32_t offset = request->offset;
    if (offset == PL022_CR1) {
        check_cr1(request, outcome);
    }
    if (offset == PL022_DR || offset == PL022_ICR) {
        return;
    }
    uint32_t stored = offset == PL022_CPSR ? request->value & ~1U : request->value;
    report_unless(word_of(outcome->after[ROLE_RECORD].data, offset) == stored,
                  "a register does not read as written");
}

/* The pins and lines that a record keeps are those of the last cycles run. */
static void check_history(const struct request *request, const struct outcome *outcome,
                          size_t cycles)
{
    const uint8_t *before = request->lent[ROLE_RECORD].data;
    const uint8_t *after = outcome->after[ROLE_RECORD].data;
    const uint8_t *input = request->lent[ROLE_INPUT].data;

    for (size_t age = 0; age < 3; age++) {
        uint8_t pins = age < cycles ? input[cycles - 1 - age] : before[PL022_RECORD_PINS + age - cycles];
        report_unless(after[PL022_RECORD_PINS + age] == pins, "the record keeps other pins than it was lent");
    }
    uint8_t lines = cycles > 0 ? outcome->after[ROLE_OUTPUT].data[cycles - 1] : before[PL022_RECORD_LINES];
    report_unless(after[PL022_RECORD_LINES] == lines, "the record keeps other lines than it put out");
}

/* What a run, of one cycle at least, does to a device whose SSE is clear. */
static void check_disabled(const uint8_t *before, const uint8_t *after)
{
    report_unless(after[PL022_RECORD_TX_COUNT] == before[PL022_RECORD_TX_COUNT]
                  && memcmp(after + PL022_RECORD_TX_QUEUE, before + PL022_RECORD_TX_QUEUE,
                            2 * PL022_QUEUE_WORDS) == 0,
                  "a word was taken with SSE clear");
    report_unless(after[PL022_RECORD_FRAME] != 0 || record_engine_clear(after),
                  "with SSE clear and no frame the engine is not clear");
    report_unless(record_stopped(before)
                  || (after[PL022_RECORD_FRAME] == 0
                      && after[PL022_RECORD_LINES] == record_idle_lines(before)),
                  "a device that is not active does not rest");
}

/* What a done call, other than a reset, leaves of a record as it was. */
static void check_kept(const struct request *request, const struct outcome *outcome,
                       enum role role)
{
    const uint8_t *before = request->lent[role].data;
    const uint8_t *after = outcome->after[role].data;
    bool writes_cr1 = request->call == CALL_WRITE && request->offset == PL022_CR1;
    bool runs = call_ran(request, outcome) > 0;

    report_unless(after[PL022_RECORD_EDITION] == before[PL022_RECORD_EDITION],
                  "a call that is no reset changed the edition");
    report_unless(runs || writes_cr1
                  || memcmp(after + PL022_RECORD_FRAME, before + PL022_RECORD_FRAME,
                            PL022_RECORD_PINS - PL022_RECORD_FRAME) == 0,
                  "the engine changed without a cycle");
    report_unless(!runs || memcmp(after, before, PL022_RECORD_ROR) == 0,
                  "a run changed a control register");
    if (runs && !record_enabled(before)) {
        check_disabled(before, after);
    }
}

/* Of the buffers that are no records a call changes only what it says it wrote. */
static void check_rest(const struct request *request, const struct outcome *outcome)
{
    for (unsigned role = ROLE_INPUT; role < ROLES; role++) {
        const struct bytes *before = &request->lent[role];
        const struct bytes *after = &outcome->after[role];
        size_t wrote = call_wrote(request, outcome, role);
        if (!call_lends(request->call, role)) {
            continue;
        }
        report_unless(wrote <= before->length, "the count passes a lent buffer");
        report_unless(memcmp(after->data + wrote, before->data + wrote, after->length - wrote) == 0,
                      "a byte changed that the call does not count");
    }
}

static void check_run(const struct request *request, const struct outcome *outcome)
{
    const struct bytes *after = &outcome->after[ROLE_OUTPUT];
    size_t cycles = call_wrote(request, outcome, ROLE_OUTPUT);

    for (size_t i = 0; i < cycles; i++) {
        report_unless(after->data[i] <= PL022_OUTPUT_MASK, "an output byte is above 15");
    }
    check_history(request, outcome, cycles);
}

static void check_run_to_idle(const struct request *request, const struct outcome *outcome)
{
    bool was_busy = (word_of(request->lent[ROLE_RECORD].data, PL022_SR) & PL022_SR_BSY) != 0;
    bool is_busy = (word_of(outcome->after[ROLE_RECORD].data, PL022_SR) & PL022_SR_BSY) != 0;

    check_run(request, outcome);
    report_unless(was_busy || outcome->result == 0, "a run to idle ran an idle device");
    report_unless(!is_busy || outcome->result == request->lent[ROLE_INPUT].length,
                  "a run to idle stopped too early");
}

static void check_reset(const struct outcome *outcome, uint32_t edition)
{
    uint8_t reset[PL022_RECORD_LENGTH];
    record_after_reset(reset, edition);
    report_unless(memcmp(outcome->after[ROLE_RECORD].data, reset, sizeof reset) == 0,
                  "reset left another record");
    report_unless(word_of(reset, PL022_SR) == PL022_SR_RESET
                  && word_of(reset, PL022_RIS) == PL022_RIS_RESET,
                  "SR or RIS reads otherwise after reset");
}

static void check_records(const struct request *request, const struct outcome *outcome)
{
    for (unsigned role = 0; role < RECORD_ROLES; role++) {
        if (!call_lends(request->call, role)) {
            continue;
        }
        report_unless(library_serves(outcome->after[role].data),
                      "a done call left an unsound record");
        if (!call_resets(request->call)) {
            check_kept(request, outcome, role);
        }
        if (call_runs(request->call)) {
            lost_check(request, outcome, role);
        }
    }
}

static void check_done(const struct request *request, const struct outcome *outcome)
{
    check_records(request, outcome);
    check_rest(request, outcome);
    switch (request->call) {
    case CALL_RESET:
        check_reset(outcome, PL022_EDITION_1);
        break;
    case CALL_RESET_EDITION:
        check_reset(outcome, request->value);
        break;
    case CALL_READ:
        check_read(request, outcome);
        break;
    case CALL_WRITE:
        check_write(request, outcome);
        break;
    case CALL_RUN:
        report_unless(outcome->result == request->lent[ROLE_INPUT].length,
                      "a run counts other cycles than it was lent");
        check_run(request, outcome);
        break;
    case CALL_RUN_TO_IDLE:
        check_run_to_idle(request, outcome);
        break;
    case CALL_WRITE_TEXT:
        text_check_written(request, outcome);
        break;
    case CALL_READ_TEXT:
        text_check_read(request, outcome);
        break;
    case CALL_JUDGE:
        recording_check_accepted(request, outcome);
        break;
    case CALL_DIFFERENCE:
        recording_check_difference(request, outcome);
        break;
    default:
        break;
    }
}

void judge(const struct request *request, struct outcome *outcome)
{
    call_make(request, outcome);
    report_unless(call_may_answer(request->call, outcome->refusal),
                  "the header does not list this refusal for the call");
    report_unless(!(request->served_before && outcome->refusal == PL022_UNSOUND),
                  "a record that was served before is refused with 9");
    if (outcome->refusal != PL022_DONE) {
        check_refused(request, outcome);
    }
    report_unless(outcome->refusal == expected_refusal(request, outcome),
                  "the header's table gives another refusal number");
    if (outcome->refusal == PL022_DONE) {
        check_done(request, outcome);
    } else if (outcome->refusal == PL022_NO_MATCH) {
        recording_check_no_match(request, outcome);
    }
    tally_call(request, outcome);
}

void judge_wide_lengths(void)
{
#if SIZE_MAX > UINT32_MAX
    const size_t wide = ((size_t)1 << 32) + PL022_RECORD_LENGTH;
    uint8_t *bytes = arena_wide(wide);
    uint8_t record[PL022_RECORD_LENGTH];
    uint8_t input[PL022_RECORD_LENGTH] = {0};

    record_after_reset(record, PL022_EDITION_1);
    report_unless(pl022_reset(bytes, wide) == PL022_WRONG_LENGTH
                  && pl022_reset_edition(bytes, wide, PL022_EDITION_2) == PL022_WRONG_LENGTH
                  && pl022_read(bytes, wide, PL022_IMSC).refusal == PL022_WRONG_LENGTH
                  && pl022_write(bytes, wide, PL022_IMSC, 1) == PL022_WRONG_LENGTH
                  && pl022_pair_run(record, sizeof record, bytes, wide, 1).refusal
                         == PL022_WRONG_LENGTH
                  && pl022_run(record, sizeof record, input, sizeof input, bytes, wide)
                         .refusal == PL022_LINES_DIFFER
                  && pl022_run_to_idle(record, sizeof record, input, sizeof input, bytes, wide)
                         .refusal == PL022_LINES_DIFFER,
                  "a length of more than 32 bits was cut");
    for (size_t i = 0; i < PL022_RECORD_LENGTH; i++) {
        report_unless(bytes[i] == 0, "a call refused for a wide length changed a buffer");
    }
    text_judge_wide_lengths(bytes, wide);
    recording_judge_wide_lengths(bytes, wide);
#endif
}
