/* refusals.c: every refusal, provoked on purpose on a device, a text or a recording of its own. */
#include <inttypes.h>
#include <stdio.h>
#include <stdlib.h>
#include <string.h>
#include "board.h"

enum call {
    CALL_RESET, CALL_RESET_EDITION, CALL_READ, CALL_WRITE, CALL_RUN, CALL_RUN_TO_IDLE, CALL_PAIR_RUN
};
enum state { AFTER_RESET, ENABLED, STOPPED, QUEUE_FULL, DAMAGED };
enum { BUFFER = 4 };

/* Slots of 6 cycles; a frame is over in the first cycle of slot 18. */
static const struct settings settings = { PL022_CR0_FRF_MOTOROLA, 0, 0, 8, 12, 0, 0 };
enum { SLOT_CYCLES = 6, FRAME_END_SLOT = 18 };

/* Everything that is lent to a call, so that one comparison covers it. */
struct lent {
    struct port port, other;
    uint8_t input[BUFFER], output[BUFFER];
};

struct attempt {
    uint32_t refusal;           /* expected */
    enum state state;
    enum call call;
    uint32_t offset, value;     /* read and write; value is also an edition */
    size_t short_by;            /* bytes withheld: of the record, or of a run's output */
    const char *what;
};

static const struct attempt attempts[] = {
    { PL022_BAD_OFFSET,    AFTER_RESET, CALL_READ,  0x02, 0, 0, "read at 0x2" },
    { PL022_BAD_OFFSET,    AFTER_RESET, CALL_WRITE, PL022_SPACE_LENGTH, 0, 0, "write at 0x1000" },
    { PL022_RESERVED,      AFTER_RESET, CALL_READ,  PL022_DMACR + 4, 0, 0, "read at 0x28" },
    { PL022_WRONG_ACCESS,  AFTER_RESET, CALL_WRITE, PL022_SR,   0, 0, "write of SR" },
    { PL022_WRONG_ACCESS,  AFTER_RESET, CALL_READ,  PL022_ICR,  0, 0, "read of ICR" },
    { PL022_EXTRA_BITS,    AFTER_RESET, CALL_WRITE, PL022_CR1,  0x10, 0, "CR1 with bit 4" },
    { PL022_WHILE_ENABLED, ENABLED,     CALL_WRITE, PL022_CPSR, 14, 0, "CPSR with SSE 1" },
    { PL022_WHILE_ENABLED, ENABLED,     CALL_WRITE, PL022_CR1,  PL022_CR1_MS, 0,
      "CR1: MS set and SSE cleared in one write" },
    { PL022_WHILE_ENABLED, STOPPED,     CALL_WRITE, PL022_CPSR, 14, 0,
      "CPSR with SSE 0, in a frame of edition 2" },
    { PL022_WHILE_ENABLED, STOPPED,     CALL_WRITE, PL022_CR1,  PL022_CR1_MS, 0,
      "MS with SSE 0, in a frame of edition 2" },
    { PL022_NOT_PERMITTED, AFTER_RESET, CALL_WRITE, PL022_CR0,  2, 0, "CR0 with 3 bits" },
    { PL022_NOT_PERMITTED, AFTER_RESET, CALL_WRITE, PL022_CR1,  PL022_CR1_SSE, 0,
      "SSE after reset" },
    { PL022_QUEUE_FULL,    QUEUE_FULL,  CALL_WRITE, PL022_DR,   0x55, 0, "ninth write of DR" },
    { PL022_QUEUE_EMPTY,   AFTER_RESET, CALL_READ,  PL022_DR,   0, 0, "read of DR" },
    { PL022_UNSOUND,       DAMAGED,     CALL_READ,  PL022_SR,   0, 0, "read of SR, spare byte set" },
    { PL022_UNSOUND,       DAMAGED,     CALL_PAIR_RUN, 0,     0, 0, "pair run, spare byte set" },
    { PL022_WRONG_LENGTH,  AFTER_RESET, CALL_RESET, 0,        0, 1, "reset of 127 bytes" },
    { PL022_WRONG_LENGTH,  AFTER_RESET, CALL_RESET_EDITION, 0, 3, 1,
      "reset of 127 bytes to edition 3" },
    { PL022_WRONG_LENGTH,  AFTER_RESET, CALL_PAIR_RUN, 0,     0, 1, "pair run with 127 bytes" },
    { PL022_LINES_DIFFER,  AFTER_RESET, CALL_RUN,   0,        0, 1, "run, 4 bytes in, 3 out" },
    { PL022_BAD_INPUT,     AFTER_RESET, CALL_RUN,   0,        8, 0, "run, last input byte 8" },
    { PL022_BAD_INPUT,     QUEUE_FULL,  CALL_RUN_TO_IDLE, 0,  8, 0,
      "run to idle, last input byte 8" },
    { PL022_NO_EDITION,    DAMAGED,     CALL_RESET_EDITION, 0, 3, 0, "reset to edition 3" },
};

/* What the calls on texts are lent. */
struct text_lent {
    uint8_t lines[PL022_TEXT_CYCLES + 1];
    uint32_t places[2];
    uint8_t text[PL022_TEXT_LENGTH];
};

struct text_attempt {
    uint32_t refusal;           /* expected */
    const char *text;           /* to be read; NULL: cycles are written */
    size_t cycles;              /* to be written, or room for those that are read */
    uint8_t last;               /* the last cycle to be written */
    uint32_t place;             /* the second one; the first is 0 */
    size_t room;                /* bytes for the text to be written */
    const char *what;
};

static const struct text_attempt text_attempts[] = {
    { PL022_TOO_MANY_CYCLES, NULL, PL022_TEXT_CYCLES + 1, 0, 8, PL022_TEXT_LENGTH,
      "write of a text, 4,097 cycles" },
    { PL022_BAD_CYCLE,     NULL, 18, 16, 8,  20, "write of a text, last cycle 16" },
    { PL022_BAD_PLACES,    NULL, 18, 0,  18, 20, "write of a text, 18 cycles, place 18" },
    { PL022_TOO_SHORT,     NULL, 18, 0,  8,  19, "write of a text, 20 bytes into 19" },
    { PL022_TOO_SHORT,     "BA541054\n3210541054\n", 17, 0, 0, 0,
      "read of a text, 18 cycles into 17" },
    { PL022_BAD_CHARACTER, "BA541054\r\n", 18, 0, 0, 0, "read of a text, line end CR LF" },
    { PL022_EMPTY_LINE,    "BA541054\n\n", 18, 0, 0, 0, "read of a text, second line empty" },
    { PL022_NO_LINE_FEED,  "BA541054\n3210541054", 18, 0, 0, 0,
      "read of a text, no last line feed" },
};

/* A TI master with h 1 and words of 4 bits sends A and 5 in these cycles. */
static const uint8_t ti_recording[] = {
    0xB, 0xA, 5, 4, 1, 0, 5, 4, 3, 2, 1, 0, 5, 4, 1, 0, 5, 4
};
enum { TI_WORDS = 2, TI_CYCLES = sizeof ti_recording };

struct judge_attempt {
    uint32_t refusal;           /* expected */
    uint32_t cpsr;
    size_t cycles;              /* of the recording, with zeros behind it */
    size_t changed;             /* the cycle that is changed; TI_CYCLES: none */
    uint64_t count;             /* expected */
    const char *what;
};

static const struct judge_attempt judge_attempts[] = {
    { PL022_DONE,          2, TI_CYCLES,     TI_CYCLES, TI_WORDS, "judge, a right recording" },
    { PL022_NOT_PERMITTED, 1, TI_CYCLES,     TI_CYCLES, 0,  "judge, CPSR 1" },
    { PL022_TOO_LONG,      2, PL022_JUDGE_CYCLES + 1, TI_CYCLES, 0, "judge, 65,537 cycles" },
    { PL022_NO_MATCH,      2, TI_CYCLES,     9,         9,  "judge, FSS LOW in cycle 9" },
    { PL022_NO_MATCH,      2, TI_CYCLES - 1, TI_CYCLES, 17, "judge, the last cycle missing" },
    { PL022_NO_MATCH,      2, TI_CYCLES + 1, TI_CYCLES, 18, "judge, a cycle too many" },
};

static void run_cycle(struct port *port)
{
    uint8_t input = 0, output;

    struct pl022_ran ran = pl022_run(port->record, sizeof port->record, &input, 1, &output, 1);
    check("pl022_run", port->name, "no register", (uint32_t)ran.refusal, PL022_DONE);
}

/* A master of edition 2: one cycle of its first word has run, a second word is in the queue, SSE is 0. */
static void stop_in_frame(struct port *port)
{
    port_reset(port, "device", PL022_EDITION_2);
    port_setup(port, &settings, 0);
    port_write(port, PL022_DR, 0xA5);
    port_write(port, PL022_DR, 0x5A);
    port_enable(port);
    run_cycle(port);
    port_disable(port);
}

static void prepare(struct lent *lent, const struct attempt *attempt)
{
    memset(lent, 0, sizeof *lent);
    memset(lent->output, 0xEE, sizeof lent->output);
    lent->input[BUFFER - 1] = (uint8_t)attempt->value;
    port_reset(&lent->port, "device", PL022_EDITION_1);
    port_reset(&lent->other, "other device", PL022_EDITION_1);
    if (attempt->state == ENABLED) {
        port_setup(&lent->port, &settings, 0);
        port_enable(&lent->port);
    } else if (attempt->state == STOPPED) {
        stop_in_frame(&lent->port);
    } else if (attempt->state == QUEUE_FULL) {
        for (uint32_t word = 0; word < PL022_QUEUE_WORDS; word++)
            port_write(&lent->port, PL022_DR, word);
    } else if (attempt->state == DAMAGED) {
        lent->port.record[PL022_RECORD_SPARE_2] = 1;
    }
}

/* A run, to idle or not. */
static uint32_t perform_run(struct lent *lent, const struct attempt *attempt, uint64_t *beside)
{
    struct pl022_ran ran =
        (attempt->call == CALL_RUN ? pl022_run : pl022_run_to_idle)(
            lent->port.record, PL022_RECORD_LENGTH, lent->input, BUFFER,
            lent->output, BUFFER - attempt->short_by);

    *beside = ran.count | ran.lost.count | ran.lost.last;
    return (uint32_t)ran.refusal;
}

static uint32_t perform_pair(struct lent *lent, const struct attempt *attempt, uint64_t *beside)
{
    struct pl022_pair_ran ran =
        pl022_pair_run(lent->other.record, PL022_RECORD_LENGTH,
                       lent->port.record, PL022_RECORD_LENGTH - attempt->short_by, 1);

    *beside = ran.first.count | ran.first.last | ran.second.count | ran.second.last;
    return (uint32_t)ran.refusal;
}

/* Makes the call and returns its refusal number; what comes beside it must be 0. */
static uint32_t perform(struct lent *lent, const struct attempt *attempt, uint64_t *beside)
{
    uint8_t *record = lent->port.record;
    struct pl022_word word;

    *beside = 0;
    switch (attempt->call) {
    case CALL_RESET:
        return pl022_reset(record, PL022_RECORD_LENGTH - attempt->short_by);
    case CALL_RESET_EDITION:
        return pl022_reset_edition(record, PL022_RECORD_LENGTH - attempt->short_by,
                                   attempt->value);
    case CALL_READ:
        word = pl022_read(record, PL022_RECORD_LENGTH, attempt->offset);
        *beside = word.word;
        return word.refusal;
    case CALL_WRITE:
        return pl022_write(record, PL022_RECORD_LENGTH, attempt->offset, attempt->value);
    case CALL_RUN:
    case CALL_RUN_TO_IDLE:
        return perform_run(lent, attempt, beside);
    default:
        return perform_pair(lent, attempt, beside);
    }
}

static void show_answer(const char *what, uint32_t refusal, uint32_t expected, uint64_t beside,
                        bool unchanged)
{
    printf("  %-41s %2" PRIu32 ", %s; %s\n", what, refusal, refusal_text(refusal),
           unchanged ? "nothing changed" : "CHANGED");
    if (refusal != expected || beside != 0 || !unchanged) {
        fflush(stdout);
        fprintf(stderr, "board: %s: expected refusal %" PRIu32 " with 0 and nothing changed\n",
                what, expected);
        exit(EXIT_FAILURE);
    }
}

static void show(const struct attempt *attempt)
{
    struct lent lent, before;
    uint64_t beside;

    prepare(&lent, attempt);
    before = lent;
    uint32_t refusal = perform(&lent, attempt, &beside);
    bool unchanged = memcmp(lent.port.record, before.port.record, PL022_RECORD_LENGTH) == 0 &&
                     memcmp(lent.other.record, before.other.record, PL022_RECORD_LENGTH) == 0 &&
                     memcmp(lent.input, before.input, BUFFER) == 0 &&
                     memcmp(lent.output, before.output, BUFFER) == 0;
    show_answer(attempt->what, refusal, attempt->refusal, beside, unchanged);
}

static void prepare_text(struct text_lent *lent, const struct text_attempt *attempt)
{
    memset(lent, 0, sizeof *lent);
    lent->places[1] = attempt->place;
    if (attempt->text != NULL)
        memcpy(lent->text, attempt->text, strlen(attempt->text));
    else
        lent->lines[attempt->cycles - 1] = attempt->last;
}

/* As perform above. */
static uint32_t perform_text(struct text_lent *lent, const struct text_attempt *attempt,
                             uint64_t *beside)
{
    if (attempt->text != NULL) {
        struct pl022_text read = pl022_read_text(lent->text, strlen(attempt->text),
                                                 lent->lines, attempt->cycles, lent->places, 2);
        *beside = read.cycles + read.starts;
        return (uint32_t)read.refusal;
    }
    struct pl022_count written = pl022_write_text(lent->lines, attempt->cycles, lent->places, 2,
                                                  lent->text, attempt->room);
    *beside = written.count;
    return (uint32_t)written.refusal;
}

static void show_text(const struct text_attempt *attempt)
{
    struct text_lent lent, before;
    uint64_t beside;

    prepare_text(&lent, attempt);
    before = lent;
    uint32_t refusal = perform_text(&lent, attempt, &beside);
    bool unchanged = memcmp(lent.lines, before.lines, sizeof lent.lines) == 0 &&
                     memcmp(lent.places, before.places, sizeof lent.places) == 0 &&
                     memcmp(lent.text, before.text, sizeof lent.text) == 0;
    show_answer(attempt->what, refusal, attempt->refusal, beside, unchanged);
}

/* Unlike any other refusal 21 comes with a count: the leading cycles that some words could give. */
static void show_judge(const struct judge_attempt *attempt)
{
    static uint8_t recording[PL022_JUDGE_CYCLES + 1];
    static const uint16_t sent[PL022_QUEUE_WORDS] = { 0xA, 5 };
    uint16_t words[PL022_QUEUE_WORDS], before[PL022_QUEUE_WORDS];

    memset(recording, 0, sizeof recording);
    memcpy(recording, ti_recording, sizeof ti_recording);
    if (attempt->changed < TI_CYCLES)
        recording[attempt->changed] ^= PL022_FSS;
    memset(words, 0xEE, sizeof words);
    memcpy(before, words, sizeof before);
    struct pl022_count judged = pl022_judge(PL022_CR0_FRF_TI | 3u << PL022_CR0_DSS_SHIFT, attempt->cpsr,
                                            recording, attempt->cycles, words);
    bool unchanged = memcmp(words, before, sizeof words) == 0;
    printf("  %-41s %2" PRIu64 " with %" PRIu64 ", %s\n", attempt->what, judged.refusal, judged.count,
           refusal_text((uint32_t)judged.refusal));
    bool expected = judged.refusal == PL022_DONE ? memcmp(words, sent, sizeof words) == 0 : unchanged;
    if (judged.refusal != attempt->refusal || judged.count != attempt->count || !expected) {
        fflush(stdout);
        fprintf(stderr, "board: %s: expected %" PRIu32 " with %" PRIu64 "\n", attempt->what,
                attempt->refusal, attempt->count);
        exit(EXIT_FAILURE);
    }
}

/* The change that was refused with 5 above, in the order that is accepted. */
static void show_right_order(void)
{
    struct port port;

    port_reset(&port, "device", PL022_EDITION_1);
    port_setup(&port, &settings, 0);
    port_enable(&port);
    port_disable(&port);
    port_write(&port, PL022_CPSR, 14);
    port_write(&port, PL022_CR1, PL022_CR1_MS);
    port_enable(&port);
    uint32_t cpsr = port_read(&port, PL022_CPSR), cr1 = port_read(&port, PL022_CR1);
    printf("  after 5: SSE cleared by a write of its own, then CPSR 14, MS and SSE: done; "
           "CPSR %" PRIu32 ", CR1 %" PRIX32 "\n", cpsr, cr1);
    if (cpsr != 14 || cr1 != (PL022_CR1_MS | PL022_CR1_SSE)) {
        fflush(stdout);
        fprintf(stderr, "board: CPSR or CR1 not as written\n");
        exit(EXIT_FAILURE);
    }
}

/* The same in edition 2, where a frame goes on: tried again until the frame is over. */
static void show_frame_end(void)
{
    struct port port;
    unsigned cycles = 0, expected = FRAME_END_SLOT * SLOT_CYCLES;

    stop_in_frame(&port);
    while (cycles < 2 * expected && !port_write_idle(&port, PL022_CPSR, 14)) {
        run_cycle(&port);
        cycles++;
    }
    bool busy = port_read(&port, PL022_SR) & PL022_SR_BSY;
    printf("  after 5 in edition 2: CPSR 14 tried again after every cycle: done after %u; "
           "BSY %u, as a word is in the queue\n", cycles, busy);
    if (cycles != expected || !busy) {
        fflush(stdout);
        fprintf(stderr, "board: expected the frame's end after %u cycles, and BSY 1\n", expected);
        exit(EXIT_FAILURE);
    }
}

unsigned show_refusals(void)
{
    unsigned count = sizeof attempts / sizeof attempts[0];
    unsigned text_count = sizeof text_attempts / sizeof text_attempts[0];
    unsigned judge_count = sizeof judge_attempts / sizeof judge_attempts[0];

    printf("Refusals, provoked on purpose\n");
    for (unsigned i = 0; i < count; i++)
        show(&attempts[i]);
    for (unsigned i = 0; i < text_count; i++)
        show_text(&text_attempts[i]);
    for (unsigned i = 0; i < judge_count; i++)
        show_judge(&judge_attempts[i]);
    show_right_order();
    show_frame_end();
    return count + text_count + judge_count - 1; /* one recording is a right one */
}
