/*
 * faults.c: stands between the fuzz test and the library and puts in one fault, chosen
 * by FUZZ_FAULT, so that it can be seen that the test notices it. Linked with --wrap;
 * compiled without sanitizer, as the library is.
 */
#include <stdbool.h>
#include <stdlib.h>
#include <string.h>

#include "calls.h"

uint32_t __real_pl022_reset(uint8_t *, size_t);
uint32_t __real_pl022_reset_edition(uint8_t *, size_t, uint32_t);
struct pl022_word __real_pl022_read(uint8_t *, size_t, uint32_t);
uint32_t __real_pl022_write(uint8_t *, size_t, uint32_t, uint32_t);
struct pl022_ran __real_pl022_run(uint8_t *, size_t, const uint8_t *, size_t, uint8_t *, size_t);
struct pl022_ran __real_pl022_run_to_idle(uint8_t *, size_t, const uint8_t *, size_t,
                                          uint8_t *, size_t);
struct pl022_pair_ran __real_pl022_pair_run(uint8_t *, size_t, uint8_t *, size_t, uint64_t);
struct pl022_count __real_pl022_write_text(const uint8_t *, size_t, const uint32_t *, size_t,
                                           uint8_t *, size_t);
struct pl022_text __real_pl022_read_text(const uint8_t *, size_t, uint8_t *, size_t,
                                         uint32_t *, size_t);
struct pl022_count __real_pl022_judge(uint32_t, uint32_t, const uint8_t *, size_t, uint16_t *);
struct pl022_part __real_pl022_difference(const uint8_t *, size_t, const uint8_t *, size_t);

/* faults.sh says them in words, in this order. */
enum {
    RESET_LEAVES_A_BYTE = 1, RESET_TAKES_127, RESET_KEEPS_EDITION,
    EDITION_SWAPS_ORDER, EDITION_TAKES_3, EDITION_CUTS_NUMBER, EDITION_GIVES_1,
    EDITION_CHANGES_ON_REFUSAL,
    READ_WORD_WITH_REFUSAL, READ_CHANGES_RECORD, READ_LOOKS_BEHIND, READ_LOOKS_BEFORE,
    READ_CUTS_LENGTH, READ_OTHER_FLAG, READ_OTHER_INTERRUPT, READ_BOUNDS_CONTROL,
    READ_SERVES_EDITION_3, READ_SERVES_STOPPED_IN_1,
    WRITE_CHANGES_ON_REFUSAL, WRITE_LOSES_A_BIT, WRITE_UNSOUND_FOR_SOUND, WRITE_SWAPS_ORDER,
    WRITE_LEAVES_UNSOUND, WRITE_TAKES_CPSR_IN_FRAME, WRITE_DROPS_FRAME, WRITE_BEGINS_ANEW,
    RUN_WRITES_BEHIND, RUN_WRITES_BEFORE, RUN_LOOKS_BEHIND, RUN_LOOKS_AT_NOTHING,
    RUN_CHANGES_INPUT, RUN_HIGH_OUTPUT, RUN_HIDDEN_STATE, RUN_LENGTH_MATTERS, RUN_SKIPS_OUTPUT,
    RUN_SWAPS_ORDER, RUN_CHANGES_ON_REFUSAL, RUN_ABORTS,
    RUN_CHANGES_EDITION, RUN_DROPS_FRAME, RUN_TAKES_WITHOUT_SSE, RUN_LEAVES_A_WORD,
    RUN_GIVES_NO_COUNT, RUN_LOST_WITH_REFUSAL, RUN_LOST_OF_LAST_CALL,
    LOST_FIRST, LOST_OLDEST_HELD, LOST_LAST_HELD, LOST_COUNTS_KEPT, LOST_NOT_CUT,
    LOST_MISSES_LAST_CYCLE, LOST_COUNTS_ONE, LOST_NONE_WHILE_ROR, LOST_NONE_WITHOUT_SSE,
    IDLE_WRITES_PAST_COUNT, IDLE_COUNT_WITH_REFUSAL, IDLE_COUNT_LESS, IDLE_LATE,
    IDLE_LOST_WITH_REFUSAL, IDLE_MISSES_LAST_CYCLE,
    PAIR_WRITES_BEHIND, PAIR_ONE_MORE, PAIR_CYCLES_MATTER, PAIR_CHANGES_ON_REFUSAL,
    PAIR_SERVES_UNSOUND, PAIR_LOST_WITH_REFUSAL, PAIR_FIRST_FOR_BOTH, PAIR_SWAPS_LOST,
    PAIR_JOINS_LOST, PAIR_MISSES_LAST_CYCLE, PAIR_LOST_FIRST,
    TEXT_WRITES_PAST_COUNT, TEXT_WRITES_BEHIND, TEXT_COUNT_WITH_REFUSAL, TEXT_COUNT_LESS,
    TEXT_LOWER_CASE, TEXT_OTHER_LINE, TEXT_LIMIT_LESS, TEXT_LOOKS_BEHIND_PLACES,
    TEXT_SWAPS_14_15, TEXT_SWAPS_15_16, TEXT_TAKES_EQUAL_PLACES, TEXT_CHANGES_ON_REFUSAL,
    LINES_WRITES_PAST_COUNT, LINES_STARTS_WITH_REFUSAL, LINES_STARTS_LESS, LINES_OTHER_START,
    LINES_TAKES_LOWER_CASE, LINES_TAKES_CR_LF, LINES_TAKES_NO_LINE_FEED, LINES_BUFFERS_FIRST,
    LINES_LOOKS_AT_ALL, LINES_LOOKS_BEHIND, LINES_CHANGES_ON_REFUSAL, LINES_CUTS_LENGTH,
    JUDGE_SWAPS_6_22, JUDGE_CUTS_CR0, JUDGE_CUTS_CPSR, JUDGE_TAKES_CPSR_1, JUDGE_REFUSES_ODD_CPSR,
    JUDGE_LIMIT_LESS, JUDGE_LIMIT_MORE, JUDGE_CUTS_LENGTH, JUDGE_COUNT_WITH_6,
    JUDGE_LOOKS_BEHIND, JUDGE_LOOKS_BEFORE, JUDGE_CHANGES_RECORDING, JUDGE_HIDDEN_STATE,
    JUDGE_CHANGES_ON_REFUSAL, JUDGE_NINTH_PLACE, JUDGE_LEAVES_REST, JUDGE_NOT_CUT,
    JUDGE_OTHER_WORD, JUDGE_SWAPS_WORDS, JUDGE_COUNT_LESS, JUDGE_REFUSES_EIGHT,
    JUDGE_TAKES_BEGINNING, JUDGE_TAKES_REST, JUDGE_MASKS_CYCLE, JUDGE_IGNORES_NSSPOE,
    LEADING_LESS, LEADING_MORE, LEADING_LENGTH, LEADING_SLOTS, LEADING_NONE_OF_EIGHT,
    PART_SECOND_OF_EQUAL, PART_OF_SHORTER, PART_LATE, PART_NO_REST, PART_LENGTH_OF_SHORTER,
    PART_MASKS_CYCLES, PART_LOOKS_BEHIND, PART_CHANGES_RECORDING, PART_CUTS_LENGTH,
    FAULTS
};

static uint8_t seen;

static bool chosen(unsigned long fault)
{
    static unsigned long number;

    if (number == 0) {
        const char *text = getenv("FUZZ_FAULT");
        number = text == NULL ? FAULTS : strtoul(text, NULL, 10);
    }
    return number == fault;
}

/* Most faults show only now and then, as real ones would. */
static bool due(unsigned long fault, bool possible)
{
    static unsigned long chances;

    return chosen(fault) && possible && ++chances % 40 == 0;
}

/* An access that the compiler may not drop. */
static void look(const uint8_t *byte)
{
    seen = *(const volatile uint8_t *)byte;
}

static bool in_frame(const uint8_t *record, size_t record_len, uint8_t edition)
{
    return record_len == PL022_RECORD_LENGTH && record[PL022_RECORD_FRAME] == 1
        && record[PL022_RECORD_EDITION] == edition - 1;
}

/* SSE is clear, and the frame of edition 2 goes on. */
static bool stopped(const uint8_t *record, size_t record_len)
{
    return in_frame(record, record_len, PL022_EDITION_2)
        && (record[PL022_RECORD_CR1] & PL022_CR1_SSE) == 0;
}

static void clear_engine(uint8_t *record)
{
    memset(record + PL022_RECORD_FRAME, 0, PL022_RECORD_PINS - PL022_RECORD_FRAME);
}

uint32_t __wrap_pl022_reset(uint8_t *record, size_t record_len)
{
    if (due(RESET_TAKES_127, record_len == PL022_RECORD_LENGTH - 1)) {
        return PL022_DONE;
    }
    uint8_t first = record_len > 0 ? record[0] : 0;
    bool second = record_len == PL022_RECORD_LENGTH
               && record[PL022_RECORD_EDITION] == PL022_EDITION_2 - 1;
    uint32_t refusal = __real_pl022_reset(record, record_len);
    if (due(RESET_LEAVES_A_BYTE, refusal == PL022_DONE)) {
        record[0] = first;
    }
    if (due(RESET_KEEPS_EDITION, second)) {
        record[PL022_RECORD_EDITION] = PL022_EDITION_2 - 1;
    }
    return refusal;
}

uint32_t __wrap_pl022_reset_edition(uint8_t *record, size_t record_len, uint32_t edition)
{
    if (due(EDITION_TAKES_3, edition == 3)) {
        edition = PL022_EDITION_2;
    }
    if (chosen(EDITION_CUTS_NUMBER)) {
        edition &= UINT8_MAX;
    }
    if (due(EDITION_GIVES_1, edition == PL022_EDITION_2)) {
        edition = PL022_EDITION_1;
    }
    uint32_t refusal = __real_pl022_reset_edition(record, record_len, edition);
    if (due(EDITION_SWAPS_ORDER, refusal == PL022_WRONG_LENGTH
            && edition != PL022_EDITION_1 && edition != PL022_EDITION_2)) {
        return PL022_NO_EDITION;
    }
    if (due(EDITION_CHANGES_ON_REFUSAL, refusal == PL022_NO_EDITION)) {
        record[PL022_RECORD_EDITION] ^= 1;
    }
    return refusal;
}

/* A Microwire slave with more bits captured than a word has: it is sound up to eight. */
static bool long_control(const uint8_t *record, size_t record_len)
{
    const uint32_t enabled_slave = PL022_CR1_SSE | PL022_CR1_MS;

    return record_len == PL022_RECORD_LENGTH
        && (record[PL022_RECORD_CR1] & enabled_slave) == enabled_slave
        && (record[PL022_RECORD_CR0] & PL022_CR0_FRF_MASK) == PL022_CR0_FRF_MICROWIRE
        && record[PL022_RECORD_CAPTURED] > (record[PL022_RECORD_CR0] & PL022_CR0_DSS_MASK) + 1;
}

/* Whether a record is served although its edition makes it unsound. */
static bool serves_edition(const uint8_t *record, size_t record_len)
{
    bool enough = record_len == PL022_RECORD_LENGTH;
    bool disabled = enough && (record[PL022_RECORD_CR1] & PL022_CR1_SSE) == 0;

    return due(READ_SERVES_EDITION_3, enough && record[PL022_RECORD_EDITION] == PL022_EDITION_2)
        || due(READ_SERVES_STOPPED_IN_1,
               disabled && in_frame(record, record_len, PL022_EDITION_1));
}

struct pl022_word __wrap_pl022_read(uint8_t *record, size_t record_len, uint32_t offset)
{
    if (due(READ_LOOKS_BEHIND, record_len > 0)) {
        look(record + record_len);
    }
    if (due(READ_LOOKS_BEFORE, record_len > 0)) {
        look(record - 1);
    }
    if (chosen(READ_CUTS_LENGTH)) {
        record_len &= UINT32_MAX;
    }
    if (due(READ_BOUNDS_CONTROL, long_control(record, record_len))) {
        return (struct pl022_word){PL022_UNSOUND, 0};
    }
    if (serves_edition(record, record_len)) {
        uint8_t copy[PL022_RECORD_LENGTH];
        memcpy(copy, record, sizeof copy);
        copy[PL022_RECORD_EDITION] = PL022_EDITION_2 - 1;
        return __real_pl022_read(copy, sizeof copy, offset);
    }
    struct pl022_word answer = __real_pl022_read(record, record_len, offset);
    if (due(READ_WORD_WITH_REFUSAL, answer.refusal != PL022_DONE)) {
        answer.word = 1;
    }
    if (due(READ_CHANGES_RECORD, answer.refusal == PL022_DONE && offset == PL022_RIS)) {
        record[PL022_RECORD_RT] ^= 1;
    }
    if (due(READ_OTHER_FLAG, answer.refusal == PL022_DONE && offset == PL022_SR)) {
        answer.word ^= PL022_SR_RFF;
    }
    if (due(READ_OTHER_INTERRUPT, answer.refusal == PL022_DONE && offset == PL022_MIS)) {
        answer.word ^= PL022_INT_RX;
    }
    return answer;
}

/* What goes wrong behind a write where the editions differ. */
static uint32_t spoil_write(uint8_t *record, size_t record_len, uint32_t offset, uint32_t value,
                            uint32_t refusal, bool was_stopped)
{
    bool writes_cr1 = refusal == PL022_DONE && offset == PL022_CR1;

    if (due(WRITE_TAKES_CPSR_IN_FRAME, refusal == PL022_WHILE_ENABLED && was_stopped
            && offset == PL022_CPSR && value > 1)) {
        record[PL022_RECORD_CPSR] = (uint8_t)(value & ~1U);
        return PL022_DONE;
    }
    if (due(WRITE_DROPS_FRAME, writes_cr1 && !was_stopped && stopped(record, record_len))
        || due(WRITE_BEGINS_ANEW, writes_cr1 && was_stopped && (value & PL022_CR1_SSE) != 0)) {
        clear_engine(record);
    }
    return refusal;
}

uint32_t __wrap_pl022_write(uint8_t *record, size_t record_len, uint32_t offset, uint32_t value)
{
    bool enough = record_len == PL022_RECORD_LENGTH;
    if (due(WRITE_SWAPS_ORDER, enough && offset % 4 != 0)) {
        return PL022_BAD_OFFSET;
    }
    if (due(WRITE_UNSOUND_FOR_SOUND, enough)) {
        return PL022_UNSOUND;
    }
    bool was_stopped = stopped(record, record_len);
    uint32_t refusal = __real_pl022_write(record, record_len, offset, value);
    if (due(WRITE_CHANGES_ON_REFUSAL, refusal == PL022_QUEUE_FULL)) {
        record[PL022_RECORD_TX_QUEUE + 2 * (PL022_QUEUE_WORDS - 1)] ^= 1;
    }
    if (due(WRITE_LOSES_A_BIT, refusal == PL022_DONE && offset == PL022_IMSC
            && (value & PL022_INT_TX) != 0)) {
        record[PL022_RECORD_IMSC] ^= PL022_INT_TX;
    }
    if (due(WRITE_LEAVES_UNSOUND, refusal == PL022_DONE && offset == PL022_CR1
            && (value & PL022_CR1_SSE) == 0)) {
        record[PL022_RECORD_SLOT] = 1;
    }
    return spoil_write(record, record_len, offset, value, refusal, was_stopped);
}

/* What goes wrong behind a run that was done; old is what the last output byte was. */
static void spoil_run(uint8_t *record, const uint8_t *input, uint8_t *output, size_t length,
                      uint8_t old)
{
    if (due(RUN_WRITES_BEHIND, true)) {
        output[length] = 5;
    }
    if (due(RUN_WRITES_BEFORE, true)) {
        output[-1] = 5;
    }
    if (due(RUN_CHANGES_INPUT, true)) {
        ((uint8_t *)(uintptr_t)input)[0] ^= 1;
    }
    if (due(RUN_HIGH_OUTPUT, true)) {
        output[length / 2] |= PL022_OUTPUT_MASK + 1;
    }
    if (due(RUN_HIDDEN_STATE, true)) {
        record[PL022_RECORD_RX_WORD] ^= 1;
    }
    if (chosen(RUN_LENGTH_MATTERS) && length % 64 == 63) {
        record[PL022_RECORD_RX_WORD] ^= 1;
    }
    if (due(RUN_SKIPS_OUTPUT, old <= PL022_OUTPUT_MASK)) {
        output[length - 1] = old;
    }
    if (due(RUN_CHANGES_EDITION, record[PL022_RECORD_EDITION] == PL022_EDITION_1 - 1)) {
        record[PL022_RECORD_EDITION] = PL022_EDITION_2 - 1;
    }
}

/* The same for a device that was stopped in a frame, and had this record. */
static void spoil_stopped(uint8_t *record, const uint8_t *before, const uint8_t *input,
                          uint8_t *output, size_t length)
{
    uint8_t cr1 = before[PL022_RECORD_CR1];

    if (chosen(RUN_DROPS_FRAME)) {
        memcpy(record, before, PL022_RECORD_LENGTH);
        clear_engine(record);
        __real_pl022_run(record, PL022_RECORD_LENGTH, input, length, output, length);
    }
    if (chosen(RUN_TAKES_WITHOUT_SSE)) {
        memcpy(record, before, PL022_RECORD_LENGTH);
        __real_pl022_write(record, PL022_RECORD_LENGTH, PL022_CR1, cr1 | PL022_CR1_SSE);
        __real_pl022_run(record, PL022_RECORD_LENGTH, input, length, output, length);
        __real_pl022_write(record, PL022_RECORD_LENGTH, PL022_CR1, cr1);
    }
    if (due(RUN_LEAVES_A_WORD, record[PL022_RECORD_FRAME] == 0)) {
        record[PL022_RECORD_TX_WORD] = 1;
    }
}

static uint64_t held_word(const uint8_t *record, size_t n)
{
    const uint8_t *place = record + PL022_RECORD_RX_QUEUE + 2 * n;

    return place[0] | (uint64_t)place[1] << 8;
}

/* What a device with this record loses in the first of these cycles. */
static struct pl022_lost lost_in(const uint8_t *record, const uint8_t *input, size_t cycles)
{
    static uint8_t output[LENT_LIMIT];
    uint8_t copy[PL022_RECORD_LENGTH];

    memcpy(copy, record, sizeof copy);
    return __real_pl022_run(copy, sizeof copy, input, cycles, output, cycles).lost;
}

/* The first word lost, where some are. */
static uint64_t first_lost(const uint8_t *record, const uint8_t *input)
{
    size_t cycles = 1;

    while (lost_in(record, input, cycles).count == 0) {
        cycles++;
    }
    return lost_in(record, input, cycles).last;
}

/*
 * What goes wrong with the lost words of a done run; before and after are its records. It does so
 * every time: otherwise the same call made twice would show it.
 */
static void spoil_lost(const uint8_t *before, const uint8_t *after, const uint8_t *input,
                       struct pl022_ran *answer)
{
    struct pl022_lost *lost = &answer->lost;
    uint64_t kept = (uint64_t)after[PL022_RECORD_RX_COUNT] - before[PL022_RECORD_RX_COUNT];
    bool some = lost->count > 0;

    if (chosen(LOST_FIRST) && lost->count > 1) {
        lost->last = first_lost(before, input);
    }
    if (chosen(LOST_OLDEST_HELD) && some) {
        lost->last = held_word(after, 0);
    }
    if (chosen(LOST_LAST_HELD) && some) {
        lost->last = held_word(after, PL022_QUEUE_WORDS - 1);
    }
    if (chosen(LOST_COUNTS_KEPT) && some) {
        lost->count += kept;
    }
    if (chosen(LOST_NOT_CUT) && some) {
        lost->last |= UINT64_C(2) << (before[PL022_RECORD_CR0] & PL022_CR0_DSS_MASK);
    }
    if (chosen(LOST_MISSES_LAST_CYCLE) && some) {
        *lost = lost_in(before, input, (size_t)answer->count - 1);
    }
    if (chosen(LOST_COUNTS_ONE) && some) {
        lost->count = 1;
    }
    if ((chosen(LOST_NONE_WHILE_ROR) && before[PL022_RECORD_ROR] != 0)
        || (chosen(LOST_NONE_WITHOUT_SSE) && stopped(before, PL022_RECORD_LENGTH))) {
        *lost = (struct pl022_lost){0, 0};
    }
}

/* What goes wrong with the other numbers of a run. */
static void spoil_ran(struct pl022_ran *answer)
{
    static uint64_t last;

    if (due(RUN_GIVES_NO_COUNT, answer->count > 0)) {
        answer->count = 0;
    }
    if (due(RUN_LOST_WITH_REFUSAL, answer->refusal != PL022_DONE)) {
        answer->lost.last = 1;
    }
    if (chosen(RUN_LOST_OF_LAST_CALL)) {
        last = answer->lost.count > 0 ? answer->lost.last : last;
        answer->lost.last = last;
    }
}

struct pl022_ran __wrap_pl022_run(uint8_t *record, size_t record_len, const uint8_t *input,
                                  size_t input_len, uint8_t *output, size_t output_len)
{
    if (due(RUN_SWAPS_ORDER, record_len == PL022_RECORD_LENGTH && input_len != output_len)) {
        return (struct pl022_ran){PL022_BAD_INPUT, 0, {0, 0}};
    }
    if (due(RUN_ABORTS, input_len > 100)) {
        abort();
    }
    if (due(RUN_LOOKS_BEHIND, input_len > 0) || due(RUN_LOOKS_AT_NOTHING, input_len == 0)) {
        look(input + input_len);
    }
    uint8_t old = output_len > 0 ? output[output_len - 1] : 0;
    uint8_t before[PL022_RECORD_LENGTH] = {0};
    memcpy(before, record, record_len < sizeof before ? record_len : sizeof before);
    struct pl022_ran answer = __real_pl022_run(record, record_len, input, input_len,
                                               output, output_len);
    if (answer.refusal == PL022_DONE && output_len > 0) {
        spoil_run(record, input, output, output_len, old);
        if (stopped(before, record_len)) {
            spoil_stopped(record, before, input, output, output_len);
        }
        spoil_lost(before, record, input, &answer);
    }
    if (due(RUN_CHANGES_ON_REFUSAL, answer.refusal == PL022_BAD_INPUT)) {
        output[0] ^= 1;
    }
    spoil_ran(&answer);
    return answer;
}

struct pl022_ran __wrap_pl022_run_to_idle(uint8_t *record, size_t record_len,
                                          const uint8_t *input, size_t input_len,
                                          uint8_t *output, size_t output_len)
{
    uint8_t before[PL022_RECORD_LENGTH] = {0};
    memcpy(before, record, record_len < sizeof before ? record_len : sizeof before);
    struct pl022_ran answer = __real_pl022_run_to_idle(record, record_len, input, input_len,
                                                       output, output_len);
    if (due(IDLE_LOST_WITH_REFUSAL, answer.refusal != PL022_DONE)) {
        answer.lost.count = 1;
    }
    if (chosen(IDLE_MISSES_LAST_CYCLE) && answer.lost.count > 0) {
        answer.lost = lost_in(before, input, (size_t)answer.count - 1);
    }
    bool early = answer.refusal == PL022_DONE && answer.count < input_len;
    if (due(IDLE_WRITES_PAST_COUNT, early)) {
        output[answer.count] ^= 1;
    }
    if (due(IDLE_COUNT_WITH_REFUSAL, answer.refusal != PL022_DONE)) {
        answer.count = 1;
    }
    if (due(IDLE_COUNT_LESS, answer.count > 0)) {
        answer.count--;
    }
    if (due(IDLE_LATE, early)) {
        size_t at = (size_t)answer.count++;
        __real_pl022_run(record, record_len, input + at, 1, output + at, 1);
    }
    return answer;
}

/* What a pair with these records loses in so many cycles. */
static struct pl022_pair_ran pair_lost_in(const uint8_t *first, const uint8_t *second,
                                          uint64_t cycles)
{
    uint8_t one[PL022_RECORD_LENGTH], two[PL022_RECORD_LENGTH];

    memcpy(one, first, sizeof one);
    memcpy(two, second, sizeof two);
    return __real_pl022_pair_run(one, sizeof one, two, sizeof two, cycles);
}

/* The same for a done pair run, which had these records. */
static void spoil_pair_lost(const uint8_t *first, const uint8_t *second, uint64_t cycles,
                            struct pl022_pair_ran *answer)
{
    struct pl022_lost lost = answer->first;
    bool some = answer->first.count + answer->second.count > 0;

    if (chosen(PAIR_FIRST_FOR_BOTH)) {
        answer->second = lost;
    }
    if (chosen(PAIR_SWAPS_LOST)) {
        answer->first = answer->second;
        answer->second = lost;
    }
    if (chosen(PAIR_JOINS_LOST) && answer->second.count > 0 && lost.count > 0) {
        answer->first.count += answer->second.count;
        answer->second.count = answer->first.count;
    }
    if (chosen(PAIR_MISSES_LAST_CYCLE) && some) {
        *answer = pair_lost_in(first, second, cycles - 1);
    }
    if (chosen(PAIR_LOST_FIRST) && answer->second.count > 1) {
        uint64_t early = 1;
        while (pair_lost_in(first, second, early).second.count == 0) {
            early++;
        }
        answer->second.last = pair_lost_in(first, second, early).second.last;
    }
}

struct pl022_pair_ran __wrap_pl022_pair_run(uint8_t *first, size_t first_len,
                                            uint8_t *second, size_t second_len, uint64_t cycles)
{
    uint8_t before[2][PL022_RECORD_LENGTH] = {{0}, {0}};

    memcpy(before[0], first, first_len < sizeof before[0] ? first_len : sizeof before[0]);
    memcpy(before[1], second, second_len < sizeof before[1] ? second_len : sizeof before[1]);
    if (due(PAIR_ONE_MORE, cycles > 5 && cycles < UINT32_MAX)) {
        cycles++;
    }
    struct pl022_pair_ran answer = __real_pl022_pair_run(first, first_len, second, second_len,
                                                         cycles);
    if (answer.refusal == PL022_DONE) {
        spoil_pair_lost(before[0], before[1], cycles, &answer);
    }
    if (due(PAIR_WRITES_BEHIND, answer.refusal == PL022_DONE)) {
        second[second_len] = 0;
    }
    if (chosen(PAIR_CYCLES_MATTER) && answer.refusal == PL022_DONE && cycles % 64 == 63) {
        second[PL022_RECORD_RX_WORD] ^= 1;
    }
    if (due(PAIR_CHANGES_ON_REFUSAL, answer.refusal == PL022_UNSOUND)) {
        second[PL022_RECORD_PINS] ^= 1;
    }
    if (due(PAIR_LOST_WITH_REFUSAL, answer.refusal != PL022_DONE)) {
        answer.second.last = 1;
    }
    if (due(PAIR_SERVES_UNSOUND, answer.refusal == PL022_UNSOUND)) {
        answer.refusal = PL022_DONE;
    }
    return answer;
}

/* What goes wrong behind a text that was written. */
static void spoil_text(uint8_t *text, size_t text_len, struct pl022_count *answer)
{
    size_t count = (size_t)answer->count;

    if (due(TEXT_WRITES_PAST_COUNT, count < text_len)) {
        text[count] ^= 1;
    }
    if (due(TEXT_WRITES_BEHIND, true)) {
        text[text_len] = 0;
    }
    if (due(TEXT_COUNT_LESS, count > 0)) {
        answer->count--;
    }
    if (due(TEXT_LOWER_CASE, count > 0 && text[0] >= 'A')) {
        text[0] |= 0x20;
    }
    if (due(TEXT_OTHER_LINE, count > 3 && text[1] == '\n' && text[2] != '\n' && text[3] != '\n')) {
        text[1] = text[2];
        text[2] = '\n';
    }
}

struct pl022_count __wrap_pl022_write_text(const uint8_t *lines, size_t lines_len,
                                           const uint32_t *places, size_t places_len,
                                           uint8_t *text, size_t text_len)
{
    if (due(TEXT_LIMIT_LESS, lines_len == PL022_TEXT_CYCLES)) {
        return (struct pl022_count){PL022_TOO_MANY_CYCLES, 0};
    }
    if (due(TEXT_LOOKS_BEHIND_PLACES, true)) {
        look((const uint8_t *)(places + places_len));
    }
    struct pl022_count answer = __real_pl022_write_text(lines, lines_len, places, places_len,
                                                        text, text_len);
    if (answer.refusal == PL022_DONE) {
        spoil_text(text, text_len, &answer);
    }
    if (due(TEXT_COUNT_WITH_REFUSAL, answer.refusal != PL022_DONE)) {
        answer.count = 1;
    }
    if (due(TEXT_SWAPS_14_15, answer.refusal == PL022_BAD_CYCLE && places_len > 0
            && places[places_len - 1] >= lines_len)) {
        answer.refusal = PL022_BAD_PLACES;
    }
    if (due(TEXT_SWAPS_15_16, answer.refusal == PL022_BAD_PLACES && text_len < lines_len)) {
        answer.refusal = PL022_TOO_SHORT;
    }
    if (due(TEXT_TAKES_EQUAL_PLACES, answer.refusal == PL022_BAD_PLACES && places_len > 1
            && places[places_len - 1] == places[places_len - 2] && text_len >= lines_len)) {
        return (struct pl022_count){PL022_DONE, 0};
    }
    if (due(TEXT_CHANGES_ON_REFUSAL, answer.refusal == PL022_TOO_SHORT && text_len > 0)) {
        text[0] ^= 1;
    }
    return answer;
}

/* What goes wrong behind a text that was read. */
static void spoil_lines(uint8_t *lines, size_t lines_len, uint32_t *starts,
                        struct pl022_text *answer)
{
    if (due(LINES_WRITES_PAST_COUNT, answer->cycles < lines_len)) {
        lines[answer->cycles] ^= 1;
    }
    if (due(LINES_STARTS_LESS, answer->starts > 0)) {
        answer->starts--;
    }
    if (due(LINES_OTHER_START, answer->starts > 1 && starts[1] > 1)) {
        starts[1]--;
    }
}

/* Where the character stands that was refused with 17; text_len if none was. */
static size_t bad_place(const struct pl022_text *answer, const uint8_t *text, size_t text_len)
{
    for (size_t n = 0; answer->refusal == PL022_BAD_CHARACTER && n < text_len; n++) {
        bool digit = (text[n] >= '0' && text[n] <= '9') || (text[n] >= 'A' && text[n] <= 'F');
        if (!digit && text[n] != '\n') {
            return n;
        }
    }
    return text_len;
}

struct pl022_text __wrap_pl022_read_text(const uint8_t *text, size_t text_len,
                                         uint8_t *lines, size_t lines_len,
                                         uint32_t *starts, size_t starts_len)
{
    if (due(LINES_LOOKS_BEHIND, true)) {
        look(text + text_len);
    }
    if (chosen(LINES_CUTS_LENGTH)) {
        text_len &= UINT32_MAX;
    }
    struct pl022_text answer = __real_pl022_read_text(text, text_len, lines, lines_len,
                                                      starts, starts_len);
    uint64_t number = answer.refusal;
    size_t bad = bad_place(&answer, text, text_len);
    bool lower_case = bad < text_len && text[bad] >= 'a' && text[bad] <= 'f';
    bool cr_lf = text_len - bad > 1 && text[bad] == '\r' && text[bad + 1] == '\n';
    if (number == PL022_DONE) {
        spoil_lines(lines, lines_len, starts, &answer);
    }
    if (due(LINES_STARTS_WITH_REFUSAL, number != PL022_DONE)) {
        answer.starts = 1;
    }
    if (due(LINES_TAKES_LOWER_CASE, lower_case) || due(LINES_TAKES_CR_LF, cr_lf)
        || due(LINES_TAKES_NO_LINE_FEED, number == PL022_NO_LINE_FEED)) {
        answer.refusal = PL022_DONE;
    }
    if (due(LINES_BUFFERS_FIRST, number == PL022_BAD_CHARACTER && lines_len + starts_len < text_len)) {
        answer.refusal = PL022_TOO_SHORT;
    }
    if (due(LINES_LOOKS_AT_ALL, number == PL022_EMPTY_LINE && text[text_len - 1] != '\n')) {
        answer.refusal = PL022_NO_LINE_FEED;
    }
    if (due(LINES_CHANGES_ON_REFUSAL, number == PL022_TOO_SHORT && lines_len > 0)) {
        lines[0] ^= 1;
    }
    return answer;
}

/* A copy of a recording that the judge is given instead; cycles past the limit do not matter. */
static uint8_t *copied(const uint8_t *recording, size_t length)
{
    static uint8_t copy[BYTES_LIMIT];

    memcpy(copy, recording, length < sizeof copy ? length : sizeof copy);
    return copy;
}

/* What goes wrong before the judge looks at the recording. */
static bool spoil_settings(uint32_t *cr0, uint32_t *cpsr, struct pl022_count *answer)
{
    *answer = (struct pl022_count){PL022_NOT_PERMITTED, 0};
    if (chosen(JUDGE_CUTS_CR0)) {
        *cr0 &= UINT16_MAX;
    }
    if (chosen(JUDGE_CUTS_CPSR)) {
        *cpsr &= UINT8_MAX;
    }
    if (chosen(JUDGE_TAKES_CPSR_1) && *cpsr == 1) {
        *cpsr = 2;
    }
    return chosen(JUDGE_REFUSES_ODD_CPSR) && *cpsr % 2 != 0;
}

/* What goes wrong with a recording that is accepted; old is what the places held. */
static void spoil_accepted(uint32_t cr0, uint16_t *words, const uint16_t *old,
                           struct pl022_count *answer)
{
    size_t last = (size_t)answer->count - 1;
    uint32_t dss = (cr0 & PL022_CR0_DSS_MASK) >> PL022_CR0_DSS_SHIFT;

    if (due(JUDGE_NINTH_PLACE, true)) {
        words[PL022_QUEUE_WORDS] = 0;
    }
    if (due(JUDGE_LEAVES_REST, answer->count < PL022_QUEUE_WORDS)) {
        words[PL022_QUEUE_WORDS - 1] = old[PL022_QUEUE_WORDS - 1];
    }
    if (chosen(JUDGE_NOT_CUT) && dss < 15) {
        words[0] = (uint16_t)(words[0] | 2U << dss);
    }
    if (due(JUDGE_OTHER_WORD, true)) {
        words[last] ^= 1;
    }
    if (chosen(JUDGE_SWAPS_WORDS)) {
        uint16_t first = words[0];
        words[0] = words[last];
        words[last] = first;
    }
    if (due(JUDGE_COUNT_LESS, true)) {
        answer->count--;
    }
    if (chosen(JUDGE_REFUSES_EIGHT) && answer->count == PL022_QUEUE_WORDS) {
        memcpy(words, old, PL022_QUEUE_WORDS * sizeof words[0]);
        *answer = (struct pl022_count){PL022_NO_MATCH, 0};
    }
}

/* What goes wrong with the leading cycles. */
static void spoil_leading(uint32_t cr0, uint32_t cpsr, const uint8_t *recording, size_t length,
                          struct pl022_count *answer)
{
    uint16_t words[PL022_QUEUE_WORDS];
    uint32_t scr = (cr0 & PL022_CR0_SCR_MASK) >> PL022_CR0_SCR_SHIFT;
    struct pl022_count all = __real_pl022_judge(cr0, cpsr, recording, (size_t)answer->count, words);

    if (due(LEADING_LESS, answer->count > 0)) {
        answer->count--;
    }
    if (due(LEADING_MORE, answer->count < length)) {
        answer->count++;
    }
    if (chosen(LEADING_LENGTH)) {
        answer->count = length;
    }
    if (chosen(LEADING_SLOTS)) {
        answer->count -= answer->count % (cpsr / 2 * (1 + scr));
    }
    if (chosen(LEADING_NONE_OF_EIGHT) && all.refusal == PL022_DONE
        && all.count == PL022_QUEUE_WORDS) {
        answer->count = 0;
    }
}

/* What is wrongly accepted, with the words that the judge finds in something else. */
static bool accepts(uint32_t cr0, uint32_t cpsr, const uint8_t *recording, size_t length,
                    const struct pl022_count *refused, struct pl022_count *answer, uint16_t *words)
{
    uint8_t *copy = copied(recording, length);
    uint16_t found[PL022_QUEUE_WORDS];
    size_t leading = (size_t)refused->count;

    if (chosen(JUDGE_TAKES_BEGINNING) && leading == length && length > 0) {
        copy[length] = copy[length - 1];
        length++;
    } else if (chosen(JUDGE_TAKES_REST) && leading < length) {
        length = leading;
    } else if (chosen(JUDGE_MASKS_CYCLE)) {
        for (size_t n = 0; n < length; n++) {
            copy[n] &= PL022_OUTPUT_MASK;
        }
    } else if (chosen(JUDGE_IGNORES_NSSPOE) && leading < length) {
        copy[leading] ^= PL022_NSSPOE;
    } else {
        return false;
    }
    struct pl022_count other = __real_pl022_judge(cr0, cpsr, copy, length, found);
    if (other.refusal == PL022_DONE) {
        memcpy(words, found, sizeof found);
        *answer = other;
    }
    return other.refusal == PL022_DONE;
}

static void spoil_judge(const uint8_t *recording, size_t recording_len, uint16_t *words,
                        struct pl022_count *answer)
{
    static uint64_t last;

    if (chosen(JUDGE_SWAPS_6_22) && answer->refusal == PL022_NOT_PERMITTED
        && recording_len > PL022_JUDGE_CYCLES) {
        answer->refusal = PL022_TOO_LONG;
    }
    if (chosen(JUDGE_LIMIT_MORE) && answer->refusal == PL022_TOO_LONG
        && recording_len == PL022_JUDGE_CYCLES + 1) {
        answer->refusal = PL022_NO_MATCH;
    }
    if (due(JUDGE_COUNT_WITH_6, answer->refusal == PL022_NOT_PERMITTED)) {
        answer->count = 1;
    }
    if (due(JUDGE_CHANGES_ON_REFUSAL, answer->refusal != PL022_DONE)) {
        words[0] ^= 1;
    }
    if (due(JUDGE_CHANGES_RECORDING, recording_len > 0)) {
        ((uint8_t *)(uintptr_t)recording)[0] ^= 1;
    }
    if (due(JUDGE_HIDDEN_STATE, answer->refusal == PL022_NO_MATCH && last <= recording_len)) {
        answer->count = last;
    }
    last = answer->count;
}

struct pl022_count __wrap_pl022_judge(uint32_t cr0, uint32_t cpsr, const uint8_t *recording,
                                      size_t recording_len, uint16_t *words)
{
    struct pl022_count answer;
    uint16_t old[PL022_QUEUE_WORDS];

    memcpy(old, words, sizeof old);
    if (due(JUDGE_LOOKS_BEHIND, true)) {
        look(recording + recording_len);
    }
    if (due(JUDGE_LOOKS_BEFORE, true)) {
        look(recording - 1);
    }
    if (chosen(JUDGE_CUTS_LENGTH)) {
        recording_len &= UINT32_MAX;
    }
    if (chosen(JUDGE_LIMIT_LESS) && recording_len == PL022_JUDGE_CYCLES) {
        return (struct pl022_count){PL022_TOO_LONG, 0};
    }
    if (spoil_settings(&cr0, &cpsr, &answer)) {
        return answer;
    }
    answer = __real_pl022_judge(cr0, cpsr, recording, recording_len, words);
    if (answer.refusal == PL022_DONE) {
        spoil_accepted(cr0, words, old, &answer);
    } else if (answer.refusal == PL022_NO_MATCH) {
        struct pl022_count refused = answer;
        if (!accepts(cr0, cpsr, recording, recording_len, &refused, &answer, words)) {
            spoil_leading(cr0, cpsr, recording, recording_len, &answer);
        }
    }
    spoil_judge(recording, recording_len, words, &answer);
    return answer;
}

/* The part as if only the lines of each cycle counted. */
static struct pl022_part masked_difference(const uint8_t *first, size_t first_len,
                                           const uint8_t *second, size_t second_len)
{
    static uint8_t copies[2][BYTES_LIMIT];

    if (first_len > BYTES_LIMIT || second_len > BYTES_LIMIT) {
        return __real_pl022_difference(first, first_len, second, second_len);
    }
    for (size_t n = 0; n < first_len; n++) {
        copies[0][n] = first[n] & PL022_OUTPUT_MASK;
    }
    for (size_t n = 0; n < second_len; n++) {
        copies[1][n] = second[n] & PL022_OUTPUT_MASK;
    }
    return __real_pl022_difference(copies[0], first_len, copies[1], second_len);
}

static void spoil_part(size_t first_len, size_t second_len, struct pl022_part *part)
{
    size_t shorter = first_len < second_len ? first_len : second_len;

    if (chosen(PART_SECOND_OF_EQUAL) && first_len == second_len && part->length > 0) {
        part->second = 1;
    }
    if (chosen(PART_OF_SHORTER) && first_len != second_len) {
        part->second ^= 1;
        part->length = shorter - part->start;
    }
    if (chosen(PART_LATE) && part->start < shorter) {
        part->start++;
        part->length--;
    }
    if (chosen(PART_NO_REST) && part->start == shorter) {
        part->length = 0;
    }
    if (chosen(PART_LENGTH_OF_SHORTER)) {
        part->length = shorter - part->start;
    }
}

struct pl022_part __wrap_pl022_difference(const uint8_t *first, size_t first_len,
                                          const uint8_t *second, size_t second_len)
{
    if (due(PART_LOOKS_BEHIND, true)) {
        look(first + first_len);
    }
    if (chosen(PART_CUTS_LENGTH)) {
        second_len &= UINT32_MAX;
    }
    struct pl022_part part = (chosen(PART_MASKS_CYCLES) ? masked_difference
                                                        : __real_pl022_difference)(
        first, first_len, second, second_len);
    spoil_part(first_len, second_len, &part);
    if (due(PART_CHANGES_RECORDING, part.length > 0)) {
        ((uint8_t *)(uintptr_t)(part.second != 0 ? second : first))[part.start] ^= 1;
    }
    return part;
}
