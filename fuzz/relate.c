#include "relate.h"

#include <string.h>

#include "draw.h"
#include "lost.h"
#include "promise.h"
#include "record.h"
#include "report.h"

/* A pair is followed cycle by cycle only if it is short, since each cycle takes two calls. */
enum { FOLLOWED_CYCLES = 48 };

/*
 * A word takes eight cycles at least, and the first may be complete at once: an empty receive
 * queue gets at most six words in these, and loses none.
 */
enum { DRAIN_CYCLES = 48, MOST_WORDS = (LENT_LIMIT / DRAIN_CYCLES + 1) * PL022_QUEUE_WORDS };

static struct request part;
static struct outcome one;
static struct outcome two;

/* Devices whose receive queues are read in time, and the words read from them. */
static struct drained {
    uint8_t record[PL022_RECORD_LENGTH];
    size_t count;
    uint16_t words[MOST_WORDS];
} drained[RECORD_ROLES];

/* Reports the call that the others were compared with, not the last of these. */
static void agree(bool same, const struct request *request, const struct outcome *outcome,
                  const char *what)
{
    if (!same) {
        report_call(request);
        report_answer(outcome);
        report_failure(what);
    }
}

static bool same_records(const struct request *request, const struct outcome *left,
                         const struct outcome *right)
{
    return bytes_equal(&left->after[ROLE_RECORD], &right->after[ROLE_RECORD])
        && (!call_lends(request->call, ROLE_SECOND)
            || bytes_equal(&left->after[ROLE_SECOND], &right->after[ROLE_SECOND]));
}

/* What a done call wrote into the buffers that it fills. */
static bool same_written(const struct request *request, const struct outcome *left,
                         const struct outcome *right)
{
    for (unsigned role = 0; role < ROLES; role++) {
        size_t wrote = right->refusal == PL022_DONE ? call_wrote(request, right, role) : 0;
        if (memcmp(left->after[role].data, right->after[role].data, wrote) != 0) {
            return false;
        }
    }
    return true;
}

/* The same call elsewhere in memory. The old bytes of the buffers it fills may not matter. */
static void repeat(const struct request *request, const struct outcome *outcome)
{
    request_copy(&part, request);
    for (unsigned role = 0; role < ROLES; role++) {
        if (call_fills(request->call, role)) {
            draw_bytes(part.lent[role].data, part.lent[role].length);
        }
    }
    judge(&part, &one);
    agree(one.refusal == outcome->refusal && one.result == outcome->result
          && one.starts == outcome->starts && lost_equal(one.lost, outcome->lost)
          && memcmp(&one.part, &outcome->part, sizeof one.part) == 0
          && same_records(request, &one, outcome) && same_written(request, &one, outcome),
          request, outcome, "the same call on a copy gave something else");
}

/* Whether a call on the lent records could go another way in the other edition. */
static bool edition_matters(const struct request *request)
{
    const uint8_t *record = request->lent[ROLE_RECORD].data;
    bool clears = request->call == CALL_WRITE && request->offset == PL022_CR1
               && (request->value & PL022_CR1_SSE) == 0;

    return record_stopped(record) || (clears && record[PL022_RECORD_FRAME] != 0);
}

/* The editions differ in a frame with SSE clear, and in the write that makes it one. */
static void other_edition(const struct request *request, const struct outcome *outcome)
{
    request_copy(&part, request);
    part.served_before = false;
    part.lent[ROLE_RECORD].data[PL022_RECORD_EDITION] ^= 1;
    judge(&part, &one);
    one.after[ROLE_RECORD].data[PL022_RECORD_EDITION] ^= 1;
    agree(one.refusal == outcome->refusal && one.result == outcome->result
          && lost_equal(one.lost, outcome->lost) && same_records(request, &one, outcome)
          && same_written(request, &one, outcome),
          request, outcome, "the editions differ where they should not");
}

/* What follows the place that decided is not looked at. */
static void extend_text(const struct request *request, const struct outcome *outcome)
{
    struct bytes *text = &part.lent[ROLE_TEXT];
    size_t more = draw_below(64);

    request_copy(&part, request);
    if (text->length + more > LENT_LIMIT) {
        return;
    }
    draw_bytes(text->data + text->length, more);
    text->length += more;
    judge(&part, &one);
    agree(one.refusal == outcome->refusal, request, outcome,
          "what follows the place that decided made a difference");
}

/* The other judgement is the same, with so many times the leading cycles. */
static void judged_alike(const struct request *request, const struct outcome *outcome,
                         uint64_t times, const char *what)
{
    bool accepted = outcome->refusal == PL022_DONE;

    part.due = (struct due){.known = false};
    judge(&part, &one);
    agree(one.refusal == outcome->refusal
          && one.result == (accepted ? outcome->result : times * outcome->result)
          && (!accepted || bytes_equal(&one.after[ROLE_WORDS], &outcome->after[ROLE_WORDS])),
          request, outcome, what);
}

/* The recording of a master whose slots have twice as many cycles, if it can be judged. */
static void double_slots(const struct request *request, const struct outcome *outcome)
{
    const struct bytes *recording = &request->lent[ROLE_RECORDING];
    uint32_t cpsr = request->cpsr & ~1U;

    if (2 * cpsr > UINT8_MAX || 2 * recording->length > PL022_JUDGE_CYCLES) {
        return;
    }
    request_copy(&part, request);
    part.cpsr = 2 * cpsr;
    part.lent[ROLE_RECORDING].length = 2 * recording->length;
    for (size_t n = 0; n < 2 * recording->length; n++) {
        part.lent[ROLE_RECORDING].data[n] = recording->data[n / 2];
    }
    judged_alike(request, outcome, 2, "a recording with slots twice as long is judged otherwise");
}

/* SPO inverts CLK in Motorola, and nothing elsewhere. */
static void other_polarity(const struct request *request, const struct outcome *outcome)
{
    struct bytes *recording = &part.lent[ROLE_RECORDING];
    bool motorola = (request->cr0 & PL022_CR0_FRF_MASK) == PL022_CR0_FRF_MOTOROLA;

    request_copy(&part, request);
    part.cr0 ^= PL022_CR0_SPO;
    for (size_t n = 0; motorola && n < recording->length; n++) {
        recording->data[n] ^= PL022_CLK;
    }
    judged_alike(request, outcome, 1, "a recording with the other SPO is judged otherwise");
}

/* The same two recordings in the other order; of two equally long ones it is always the first's. */
static void swap_recordings(const struct request *request, const struct outcome *outcome)
{
    const struct bytes *first = &request->lent[ROLE_RECORDING];
    const struct bytes *second = &request->lent[ROLE_RECORDING_2];

    request_copy(&part, request);
    bytes_set(&part.lent[ROLE_RECORDING], second->data, second->length);
    bytes_set(&part.lent[ROLE_RECORDING_2], first->data, first->length);
    judge(&part, &one);
    agree(one.part.start == outcome->part.start && one.part.length == outcome->part.length
          && one.part.second == (first->length > second->length),
          request, outcome, "two recordings differ elsewhere in the other order");
}

static void run_part(const uint8_t *record, const uint8_t *input, size_t cycles,
                     struct outcome *outcome)
{
    part.call = CALL_RUN;
    part.served_before = true;
    bytes_set(&part.lent[ROLE_RECORD], record, PL022_RECORD_LENGTH);
    bytes_set(&part.lent[ROLE_INPUT], input, cycles);
    part.lent[ROLE_OUTPUT].length = cycles;
    draw_bytes(part.lent[ROLE_OUTPUT].data, cycles);
    judge(&part, outcome);
}

/* Whether two parts together, the later one second, lost what one call lost. */
static bool parts_lost(const struct outcome *outcome)
{
    for (unsigned role = 0; role < RECORD_ROLES; role++) {
        lost_add(&one.lost[role], &two.lost[role]);
    }
    return lost_equal(one.lost, outcome->lost);
}

/* A run, or the run that a run to idle made, in two parts. */
static void split_run(const struct request *request, const struct outcome *outcome)
{
    const uint8_t *input = request->lent[ROLE_INPUT].data;
    const uint8_t *output = outcome->after[ROLE_OUTPUT].data;
    size_t cycles = call_wrote(request, outcome, ROLE_OUTPUT);
    size_t head = draw_between(0, (uint32_t)cycles);

    run_part(request->lent[ROLE_RECORD].data, input, head, &one);
    run_part(one.after[ROLE_RECORD].data, input + head, cycles - head, &two);
    agree(same_records(&part, &two, outcome)
          && memcmp(one.after[ROLE_OUTPUT].data, output, head) == 0
          && memcmp(two.after[ROLE_OUTPUT].data, output + head, cycles - head) == 0,
          request, outcome, "a run in two parts gave something else");
    agree(parts_lost(outcome), request, outcome, "a run in two parts lost other words");
}

static void idle_as_run(const struct request *request, const struct outcome *outcome)
{
    size_t cycles = call_wrote(request, outcome, ROLE_OUTPUT);

    run_part(request->lent[ROLE_RECORD].data, request->lent[ROLE_INPUT].data, cycles, &one);
    agree(same_records(&part, &one, outcome)
          && memcmp(one.after[ROLE_OUTPUT].data, outcome->after[ROLE_OUTPUT].data, cycles) == 0,
          request, outcome, "a run to idle is no run of its count");
    agree(lost_equal(one.lost, outcome->lost), request, outcome,
          "a run to idle lost other words than a run of its count");
}

/* The lent device, which is stopped in a frame, as one with SSE set and no word to send. */
static void lend_enabled(const struct request *request, size_t cycles)
{
    static const uint8_t no_words[PL022_RECORD_LENGTH];
    uint8_t *record = part.lent[ROLE_RECORD].data;

    request_copy(&part, request);
    part.call = CALL_RUN_TO_IDLE;
    part.served_before = false;
    record_write_cr1(record, record[PL022_RECORD_CR1] | PL022_CR1_SSE);
    record_copy_queue(record, no_words);
    part.lent[ROLE_INPUT].length = cycles;
    part.lent[ROLE_OUTPUT].length = cycles;
}

/*
 * A frame that goes on with SSE clear goes as with SSE set and no word to send: such a device,
 * run until its frame is over, gives the same. Idle lines follow.
 */
static void follow_stopped(const struct request *request, const struct outcome *outcome)
{
    const uint8_t *before = request->lent[ROLE_RECORD].data;
    const uint8_t *after = outcome->after[ROLE_RECORD].data;
    const uint8_t *output = outcome->after[ROLE_OUTPUT].data;
    size_t cycles = call_wrote(request, outcome, ROLE_OUTPUT);

    lend_enabled(request, cycles);
    judge(&part, &one);
    uint8_t *expected = one.after[ROLE_RECORD].data;
    size_t framed = (size_t)one.result;
    bool same = memcmp(one.after[ROLE_OUTPUT].data, output, framed) == 0;
    for (size_t i = framed; i < cycles; i++) {
        same = same && output[i] == record_idle_lines(before);
    }
    record_write_cr1(expected, before[PL022_RECORD_CR1]);
    record_copy_queue(expected, before);
    if (framed < cycles) {
        memcpy(expected + PL022_RECORD_PINS, after + PL022_RECORD_PINS,
               PL022_RECORD_TX_COUNT - PL022_RECORD_PINS);
    }
    agree(same && lost_equal(one.lost, outcome->lost) && memcmp(after, expected, PL022_RECORD_LENGTH) == 0,
          request, outcome, "a frame with SSE clear goes otherwise than one with SSE set");
}

static void pair_part(const uint8_t *first, const uint8_t *second, uint64_t cycles,
                      struct outcome *outcome)
{
    part.call = CALL_PAIR_RUN;
    part.served_before = true;
    part.cycles = cycles;
    bytes_set(&part.lent[ROLE_RECORD], first, PL022_RECORD_LENGTH);
    bytes_set(&part.lent[ROLE_SECOND], second, PL022_RECORD_LENGTH);
    judge(&part, outcome);
}

static void split_pair(const struct request *request, const struct outcome *outcome)
{
    uint64_t head = draw_between(0, (uint32_t)request->cycles);

    pair_part(request->lent[ROLE_RECORD].data, request->lent[ROLE_SECOND].data, head, &one);
    pair_part(one.after[ROLE_RECORD].data, one.after[ROLE_SECOND].data,
              request->cycles - head, &two);
    agree(same_records(request, &two, outcome),
          request, outcome, "a pair run in two parts gave something else");
    agree(parts_lost(outcome), request, outcome, "a pair run in two parts lost other words");
}

static void swap_pair(const struct request *request, const struct outcome *outcome)
{
    pair_part(request->lent[ROLE_SECOND].data, request->lent[ROLE_RECORD].data,
              request->cycles, &one);
    struct pl022_lost first = one.lost[ROLE_SECOND];
    one.lost[ROLE_SECOND] = one.lost[ROLE_RECORD];
    one.lost[ROLE_RECORD] = first;
    agree(bytes_equal(&one.after[ROLE_RECORD], &outcome->after[ROLE_SECOND])
          && bytes_equal(&one.after[ROLE_SECOND], &outcome->after[ROLE_RECORD])
          && lost_equal(one.lost, outcome->lost),
          request, outcome, "a pair run depends on which device comes first");
}

/* The other device's input: CLK and FSS as driven, TXD as RXD where it is driven. */
static uint8_t wired(const uint8_t *record)
{
    uint8_t lines = record[PL022_RECORD_LINES];
    bool high = (lines & PL022_TXD) != 0 && (lines & PL022_NSSPOE) == 0;
    return (uint8_t)((lines & (PL022_CLK | PL022_FSS)) | (high ? PL022_RXD : 0));
}

static void follow_pair(const struct request *request, const struct outcome *outcome)
{
    struct pl022_lost sum[RECORD_ROLES] = {{0, 0}, {0, 0}};

    if (request->cycles > FOLLOWED_CYCLES) {
        return;
    }
    bytes_set(&one.after[ROLE_RECORD], request->lent[ROLE_RECORD].data, PL022_RECORD_LENGTH);
    bytes_set(&two.after[ROLE_RECORD], request->lent[ROLE_SECOND].data, PL022_RECORD_LENGTH);
    for (uint64_t cycle = 0; cycle < request->cycles; cycle++) {
        uint8_t to_first = wired(two.after[ROLE_RECORD].data);
        uint8_t to_second = wired(one.after[ROLE_RECORD].data);
        run_part(one.after[ROLE_RECORD].data, &to_first, 1, &one);
        run_part(two.after[ROLE_RECORD].data, &to_second, 1, &two);
        lost_add(&sum[ROLE_RECORD], &one.lost[ROLE_RECORD]);
        lost_add(&sum[ROLE_SECOND], &two.lost[ROLE_RECORD]);
    }
    agree(bytes_equal(&one.after[ROLE_RECORD], &outcome->after[ROLE_RECORD])
          && bytes_equal(&two.after[ROLE_RECORD], &outcome->after[ROLE_SECOND])
          && lost_equal(sum, outcome->lost),
          request, outcome, "a pair run differs from runs with the lines wired by hand");
}

/* The devices as they are lent, but with empty receive queues. */
static void begin_drained(const struct request *request)
{
    for (unsigned role = 0; role < RECORD_ROLES; role++) {
        if (call_lends(request->call, role)) {
            memcpy(drained[role].record, request->lent[role].data, PL022_RECORD_LENGTH);
            record_drain(drained[role].record);
            drained[role].count = 0;
        }
    }
}

/* Runs some cycles, then empties the receive queues. */
static void drain_after(const struct request *request, size_t at, size_t cycles)
{
    if (request->call == CALL_PAIR_RUN) {
        pair_part(drained[ROLE_RECORD].record, drained[ROLE_SECOND].record, cycles, &one);
    } else {
        run_part(drained[ROLE_RECORD].record, request->lent[ROLE_INPUT].data + at, cycles, &one);
    }
    for (unsigned role = 0; role < RECORD_ROLES; role++) {
        struct drained *device = &drained[role];
        if (call_lends(request->call, role)) {
            memcpy(device->record, one.after[role].data, PL022_RECORD_LENGTH);
            for (size_t n = 0; n < device->record[PL022_RECORD_RX_COUNT]; n++) {
                device->words[device->count++] = record_received(device->record, n);
            }
            record_drain(device->record);
        }
    }
}

/* Words are kept while there is room. The others are lost, and the last of them is handed up. */
static void check_received(const struct request *request, const struct outcome *outcome,
                           enum role role)
{
    const struct drained *device = &drained[role];
    const uint8_t *after = outcome->after[role].data;
    size_t held = request->lent[role].data[PL022_RECORD_RX_COUNT];
    size_t room = PL022_QUEUE_WORDS - held;
    size_t kept = device->count < room ? device->count : room;
    uint16_t last = device->count > kept ? device->words[device->count - 1] : 0;
    bool same = after[PL022_RECORD_RX_COUNT] == held + kept;

    for (size_t n = 0; same && n < kept; n++) {
        same = record_received(after, held + n) == device->words[n];
    }
    agree(same, request, outcome, "other words were kept than a device receives that is read in time");
    agree(outcome->lost[role].count == device->count - kept && outcome->lost[role].last == last,
          request, outcome, "other words were lost than a device receives that is read in time");
}

/* The same cycles with receive queues that are read in time, which changes nothing else of them. */
static void run_drained(const struct request *request, const struct outcome *outcome)
{
    size_t cycles = (size_t)call_ran(request, outcome);

    begin_drained(request);
    for (size_t at = 0; at < cycles; at += DRAIN_CYCLES) {
        drain_after(request, at, cycles - at < DRAIN_CYCLES ? cycles - at : DRAIN_CYCLES);
    }
    for (unsigned role = 0; role < RECORD_ROLES; role++) {
        if (call_lends(request->call, role)) {
            check_received(request, outcome, role);
        }
    }
}

void relate(const struct request *request, const struct outcome *outcome)
{
    static void (*const pair_relations[])(const struct request *, const struct outcome *) = {
        split_pair, swap_pair, follow_pair
    };

    bool decided = outcome->refusal == PL022_TOO_MANY_CYCLES
                || outcome->refusal == PL022_BAD_CHARACTER || outcome->refusal == PL022_EMPTY_LINE;

    bool judged = request->call == CALL_JUDGE
               && (outcome->refusal == PL022_DONE || outcome->refusal == PL022_NO_MATCH);

    if (request->call == CALL_READ_TEXT && decided && draw_one_in(2)) {
        extend_text(request, outcome);
    } else if (judged && !draw_one_in(3)) {
        (draw_one_in(2) ? double_slots : other_polarity)(request, outcome);
    } else if (outcome->refusal != PL022_DONE || draw_one_in(3)) {
        repeat(request, outcome);
    } else if (request->call == CALL_DIFFERENCE) {
        swap_recordings(request, outcome);
    } else if (call_runs(request->call) && draw_one_in(lost_words(outcome) > 0 ? 2 : 8)) {
        run_drained(request, outcome);
    } else if (call_runs_lines(request->call) && record_stopped(request->lent[ROLE_RECORD].data)) {
        follow_stopped(request, outcome);
    } else if (call_lends(request->call, ROLE_RECORD) && !call_resets(request->call)
               && !edition_matters(request) && draw_one_in(3)) {
        other_edition(request, outcome);
    } else if (request->call == CALL_RUN_TO_IDLE && draw_one_in(2)) {
        idle_as_run(request, outcome);
    } else if (call_runs_lines(request->call)) {
        split_run(request, outcome);
    } else if (request->call == CALL_PAIR_RUN) {
        pair_relations[draw_below(3)](request, outcome);
    }
}
