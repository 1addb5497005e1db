/*
 * overrun.c: the log of words lost to overrun, and a port that nobody reads.
 *
 * A call hands up how many words were lost in it, and the last of them. A board that runs a cycle
 * a call knows each by that. One that runs for longer keeps a copy of the record: if a call has lost
 * several words, the copy is run again, a cycle a call.
 */
#include <inttypes.h>
#include <stdio.h>
#include <stdlib.h>
#include <string.h>
#include "board.h"

/* Slots of one cycle. A word takes 20 of them; its last bit is captured in slot 16. */
static const struct settings settings = { PL022_CR0_FRF_MOTOROLA, 0, 0, 8, 2, 0, 0 };
enum { WORD_CYCLES = 20, CAPTURE_CYCLE = 16, STRETCH = PL022_QUEUE_WORDS * WORD_CYCLES };

/* The first eight are held, the others are lost. One of these is 0. */
static const uint16_t sent[2 * PL022_QUEUE_WORDS] = {
    0x11, 0x22, 0x33, 0x44, 0x55, 0x66, 0x77, 0x88, 0x99, 0xAA, 0x00, 0xBB, 0xCC, 0xDD, 0xEE, 0xFF
};

static void expect(bool held, const char *what)
{
    if (!held) {
        fflush(stdout);
        fprintf(stderr, "board: overrun: %s\n", what);
        exit(EXIT_FAILURE);
    }
}

void log_lost(struct port *port, unsigned ror, const struct pl022_lost *lost, unsigned cycle)
{
    uint16_t word = (uint16_t)lost->last;

    if (lost->count > 0) {
        printf("  overrun: %s lost %04X in cycle %u\n", port->name, (unsigned)word, cycle);
        if (port->lost < MAX_WORDS)
            port->lost_words[port->lost] = word;
        port->lost++;
    }
    expect(lost->count <= 1, "more than one word lost in a cycle");
    expect(port->record[PL022_RECORD_ROR] == (ror || lost->count > 0),
           "the overrun flag does not agree with the words handed up");
}

/* Inputs do not matter: a port in loopback captures its own TXD. */
static struct pl022_ran run_cycles(struct port *port, size_t cycles)
{
    static const uint8_t input[STRETCH];
    uint8_t output[STRETCH];
    struct pl022_ran ran = pl022_run(port->record, sizeof port->record,
                                     input, cycles, output, cycles);

    check("pl022_run", port->name, "no register", (uint32_t)ran.refusal, PL022_DONE);
    expect(ran.count == cycles, "other cycles counted than run");
    return ran;
}

static void load(struct port *port, const uint16_t *words)
{
    for (size_t i = 0; i < PL022_QUEUE_WORDS; i++)
        port_write(port, PL022_DR, words[i]);
}

/* Runs the stretch again and logs each word as it is lost. */
static void log_each(struct port *copy)
{
    for (unsigned cycle = 0; cycle < STRETCH; cycle++) {
        unsigned ror = copy->record[PL022_RECORD_ROR];
        struct pl022_ran ran = run_cycles(copy, 1);

        log_lost(copy, ror, &ran.lost, cycle);
        expect(ran.lost.count == (cycle % WORD_CYCLES == CAPTURE_CYCLE),
               "a word was lost in another cycle than that of its last bit");
    }
}

/* What the call handed up is the sum of the log, and the flag says the same. */
static void check_log(struct port *port, const struct port *copy, const struct pl022_lost *lost)
{
    const uint16_t *expected = sent + PL022_QUEUE_WORDS;

    expect(lost->count == PL022_QUEUE_WORDS && lost->last == expected[PL022_QUEUE_WORDS - 1],
           "other words handed up than lost");
    expect(copy->lost == PL022_QUEUE_WORDS
           && memcmp(copy->lost_words, expected, sizeof sent / 2) == 0,
           "other words in the log than lost");
    expect(memcmp(port->record, copy->record, sizeof port->record) == 0,
           "the stretch went another way when it was run again");
    expect(port_read(port, PL022_RIS) & PL022_INT_ROR, "no overrun flag");
    for (size_t i = 0; i < PL022_QUEUE_WORDS; i++)
        expect(port_read(port, PL022_DR) == sent[i], "other words held than the first eight");
}

unsigned show_overrun(void)
{
    struct port port = { 0 }, copy;

    printf("Motorola SPO 0 SPH 0, 8 bits, a master in loopback that nobody reads\n");
    port_reset(&port, "master", PL022_EDITION_1);
    port_setup(&port, &settings, PL022_CR1_LBM);
    port_enable(&port);
    load(&port, sent);
    expect(run_cycles(&port, STRETCH).lost.count == 0, "a word lost though there was room");
    load(&port, sent + PL022_QUEUE_WORDS);
    copy = port;
    struct pl022_ran ran = run_cycles(&port, STRETCH);
    printf("  one call, %" PRIu64 " cycles: %" PRIu64 " words lost, the last of them %04" PRIX64
           "; run again from a copy:\n", ran.count, ran.lost.count, ran.lost.last);
    log_each(&copy);
    check_log(&port, &copy, &ran.lost);
    return (unsigned)ran.lost.count;
}
