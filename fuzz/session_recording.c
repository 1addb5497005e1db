#include "session_recording.h"

#include <string.h>

#include "calls.h"
#include "draw.h"
#include "promise.h"
#include "record.h"
#include "recording.h"
#include "relate.h"
#include "report.h"

/* Beginnings are completed only where that is quick: so many cycles a slot at most. */
enum { QUICK_SLOT = 2 };

/* The settings and words of a master, and its recording, kept while the request changes. */
static struct {
    uint32_t cr0;
    uint32_t cpsr;
    size_t count;
    uint16_t words[PL022_QUEUE_WORDS];
} master;
static struct bytes right;
static struct bytes grown;
static struct request request;
static struct outcome outcome;

static void submit(void)
{
    judge(&request, &outcome);
    if (draw_one_in(6)) {
        relate(&request, &outcome);
    }
}

static void draw_words(void)
{
    static const uint16_t plain[] = {0, 0xFFFF, 0x5555, 0xAAAA, 1, 0x8000};

    master.count = draw_one_in(4) ? PL022_QUEUE_WORDS : draw_between(1, PL022_QUEUE_WORDS);
    for (size_t n = 0; n < master.count; n++) {
        bool any = !draw_one_in(4);
        uint32_t word = draw_below(any ? 0x10000 : sizeof plain / sizeof plain[0]);
        master.words[n] = any ? (uint16_t)word : plain[word];
    }
}

/* Mostly slots of few cycles. */
static void draw_settings(void)
{
    master.cr0 = draw_cr0(draw_one_in(8) ? draw_below(40) : draw_below(3));
    master.cpsr = draw_one_in(8) ? draw_between(2, 40) : draw_between(2, 5);
}

/* Recordings with just as many cycles as can be judged. */
static void draw_longest(void)
{
    static const struct {
        uint32_t cr0, cpsr;
        size_t count;
    } longest[] = {
        {63 << PL022_CR0_SCR_SHIFT | PL022_CR0_FRF_TI | 6, 128, 1},
        {63 << PL022_CR0_SCR_SHIFT | PL022_CR0_FRF_MOTOROLA | 5, 128, 1},
        {63 << PL022_CR0_SCR_SHIFT | PL022_CR0_FRF_MOTOROLA | PL022_CR0_SPH | 6, 64, 2},
    };
    uint32_t n = draw_below(sizeof longest / sizeof longest[0]);

    master.cr0 = longest[n].cr0;
    master.cpsr = longest[n].cpsr;
    draw_words();
    master.count = longest[n].count;
}

static void make_right(void)
{
    if (draw_one_in(48)) {
        draw_longest();
    } else {
        do {
            draw_settings();
            draw_words();
        } while (!recording_make(master.cr0, master.cpsr, master.words, master.count, &right));
    }
    report_unless(recording_make(master.cr0, master.cpsr, master.words, master.count, &right),
                  "the same recording is longer the second time");
}

/* Lends the first cycles of a recording to the judge, of which nothing is known but these. */
static void lend(const struct bytes *recording, size_t cycles)
{
    request.call = CALL_JUDGE;
    request.cr0 = master.cr0;
    request.cpsr = master.cpsr;
    request.due = (struct due){.known = false};
    bytes_set(&request.lent[ROLE_RECORDING], recording->data, cycles);
    request.lent[ROLE_WORDS].length = WORDS_LENGTH;
    draw_bytes(request.lent[ROLE_WORDS].data, WORDS_LENGTH);
}

static void expect(uint64_t refusal, size_t count)
{
    request.due = (struct due){.known = true, .refusal = refusal, .cycles = count};
}

static void accept_right(void)
{
    uint32_t cut = (UINT32_C(1) << recording_sent_bits(master.cr0)) - 1;

    lend(&right, right.length);
    if (right.length <= PL022_JUDGE_CYCLES) {
        expect(PL022_DONE, master.count);
    }
    submit();
    for (size_t n = 0; outcome.refusal == PL022_DONE && n < master.count; n++) {
        report_unless(word_get(&outcome.after[ROLE_WORDS], n) == (master.words[n] & cut),
                      "another word was found than was sent");
    }
}

/* A beginning is one of some recording, so all its cycles are leading, or it is one itself. */
static void judge_beginning(void)
{
    size_t cycles = draw_one_in(3) ? right.length - draw_between(1, 3)
                                   : draw_below((uint32_t)right.length);
    lend(&right, cycles);
    request.due.least = cycles;
    submit();
}

/* A byte above 15 is given by no list; another line may be given by another one. */
static void judge_changed(void)
{
    uint32_t at = draw_below((uint32_t)right.length);
    bool high = draw_one_in(3);

    lend(&right, right.length);
    uint8_t *byte = &request.lent[ROLE_RECORDING].data[at];
    *byte ^= (uint8_t)(high ? 16 << draw_below(4) : 1 << draw_below(4));
    if (high && right.length <= PL022_JUDGE_CYCLES) {
        expect(PL022_NO_MATCH, at);
    } else {
        request.due.least = at;
    }
    submit();
}

/* Behind eight words nothing can follow. */
static void judge_extended(void)
{
    struct bytes *lent = &request.lent[ROLE_RECORDING];
    size_t room = BYTES_LIMIT - right.length;
    size_t more = draw_one_in(2) ? 1 : draw_between(1, (uint32_t)right.length);

    lend(&right, right.length);
    more = more < room ? more : room;
    if (draw_one_in(2)) {
        memcpy(lent->data + lent->length, right.data, more);
    } else {
        memset(lent->data + lent->length, right.data[right.length - 1], more);
    }
    lent->length += more;
    if (master.count == PL022_QUEUE_WORDS && lent->length <= PL022_JUDGE_CYCLES) {
        expect(PL022_NO_MATCH, right.length);
    } else {
        request.due.least = right.length;
    }
    submit();
}

/* A cycle is left out or doubled, as where a slot has another length. */
static void judge_shifted(void)
{
    struct bytes *lent = &request.lent[ROLE_RECORDING];
    uint32_t at = draw_below((uint32_t)right.length);

    lend(&right, right.length);
    if (draw_one_in(2)) {
        memmove(lent->data + at, right.data + at + 1, right.length - at - 1);
        lent->length--;
    } else if (lent->length < BYTES_LIMIT) {
        memcpy(lent->data + at + 1, right.data + at, right.length - at);
        lent->length++;
    }
    request.due.least = at;
    submit();
}

/* The settings of another master, mostly near these, or values that cannot be enabled. */
static void judge_otherwise(void)
{
    static const uint32_t cr0s[] = {0, 2, 0x30, 0x33, 0x10013, 0x80000003, UINT32_MAX};
    static const uint32_t cpsrs[] = {0, 1, 0x100, 0x102, 0x10002, UINT32_MAX};

    lend(&right, right.length);
    switch (draw_below(4)) {
    case 0:
        request.cr0 = cr0s[draw_below(sizeof cr0s / sizeof cr0s[0])];
        break;
    case 1:
        request.cpsr = cpsrs[draw_below(sizeof cpsrs / sizeof cpsrs[0])];
        break;
    case 2:
        request.cr0 = draw_cr0(draw_below(3));
        break;
    default:
        request.cr0 ^= UINT32_C(1) << draw_below(10);
        break;
    }
    submit();
}

/* More cycles than can be judged, seldom by many; the settings may be wrong at the same time. */
static void judge_long(void)
{
    struct bytes *lent = &request.lent[ROLE_RECORDING];

    lend(&right, right.length);
    lent->length = draw_one_in(2) ? PL022_JUDGE_CYCLES + 1
                                  : draw_between(PL022_JUDGE_CYCLES - 1, BYTES_LIMIT);
    memset(lent->data + right.length, right.data[right.length - 1],
           lent->length > right.length ? lent->length - right.length : 0);
    if (draw_one_in(3)) {
        request.cpsr = draw_below(2);
    }
    submit();
}

static void judge_drawn(void)
{
    lend(&right, 0);
    struct bytes *lent = &request.lent[ROLE_RECORDING];
    lent->length = draw_below(draw_one_in(4) ? 600 : 20);
    draw_bytes(lent->data, lent->length);
    for (size_t n = 0; n < lent->length && !draw_one_in(400); n++) {
        lent->data[n] &= PL022_OUTPUT_MASK;
    }
    submit();
}

/* Whether some list begins like this, or gives this. */
static bool is_beginning(const struct bytes *recording, struct pl022_count *judged)
{
    uint16_t words[PL022_QUEUE_WORDS];

    *judged = pl022_judge(request.cr0, request.cpsr, recording->data, recording->length, words);
    return judged->refusal == PL022_DONE
        || (judged->refusal == PL022_NO_MATCH && judged->count == recording->length);
}

/* Adds a cycle with which it is still a beginning. */
static void grow(struct pl022_count *judged)
{
    uint8_t lines = (uint8_t)draw_below(PL022_OUTPUT_MASK + 1);

    grown.length++;
    for (unsigned tried = 0; tried <= PL022_OUTPUT_MASK; tried++) {
        grown.data[grown.length - 1] = (lines + tried) & PL022_OUTPUT_MASK;
        if (is_beginning(&grown, judged)) {
            return;
        }
    }
    report_failure("the leading cycles cannot go on to a recording");
}

/* Some list gives the leading cycles: they can be completed to a recording that is accepted. */
static void complete_leading(size_t leading)
{
    struct pl022_count judged;

    bytes_set(&grown, request.lent[ROLE_RECORDING].data, leading);
    report_unless(is_beginning(&grown, &judged), "the leading cycles are no beginning");
    while (judged.refusal != PL022_DONE) {
        report_unless(grown.length < BYTES_LIMIT, "a recording has no end");
        grow(&judged);
    }
    bytes_set(&request.lent[ROLE_RECORDING], grown.data, grown.length);
    expect(PL022_DONE, (size_t)judged.count);
    submit();
}

/* The leading cycles are a beginning, and with the next one they are none. */
static void check_leading(void)
{
    struct bytes *lent = &request.lent[ROLE_RECORDING];
    size_t leading = (size_t)outcome.result;

    if (leading < lent->length) {
        lent->length = leading + 1;
        expect(PL022_NO_MATCH, leading);
        submit();
    }
    lent->length = leading;
    request.due = (struct due){.known = false, .least = leading};
    submit();
    if (recording_slot_cycles(request.cr0, request.cpsr) <= QUICK_SLOT && draw_one_in(12)) {
        complete_leading(leading);
    }
}

/* Two recordings that differ in no byte, in one or in several, of the same or another length. */
static void compare(void)
{
    struct bytes *first = &request.lent[ROLE_RECORDING];
    struct bytes *second = &request.lent[ROLE_RECORDING_2];

    request.call = CALL_DIFFERENCE;
    bytes_set(first, right.data, draw_one_in(2) ? right.length
                                                : draw_between(0, (uint32_t)right.length));
    bytes_set(second, right.data, draw_one_in(2) ? first->length
                                                 : draw_between(0, (uint32_t)right.length));
    for (uint32_t changes = draw_below(3); changes > 0 && first->length > 0; changes--) {
        first->data[draw_below((uint32_t)first->length)] ^= (uint8_t)(1 << draw_below(8));
    }
    submit();
}

void session_recording(void)
{
    static void (*const cases[])(void) = {
        accept_right, accept_right, judge_beginning, judge_changed, judge_changed, judge_extended,
        judge_shifted, judge_otherwise, judge_drawn, compare, compare
    };

    make_right();
    if (draw_one_in(60)) {
        judge_long();
    } else {
        cases[draw_below(sizeof cases / sizeof cases[0])]();
    }
    if (request.call == CALL_JUDGE && outcome.refusal == PL022_NO_MATCH && draw_one_in(2)) {
        check_leading();
    }
}
