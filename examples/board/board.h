/*
 * board.h: shared by the parts of the board example.
 *
 *     driver.c     the driver: sets up a port and moves words, by register accesses only
 *     peripheral.c a Microwire peripheral that is no PL022
 *     board.c      the board: clock, wires, the exchanges and the printed report
 *     overrun.c    the log of lost words, and a port that nobody reads
 *     refusals.c   provokes every refusal once on purpose
 */
#ifndef BOARD_H
#define BOARD_H

#include <stdbool.h>
#include <stddef.h>
#include <stdint.h>
#include "pl022.h"

/* TXD in an output byte, RXD in an input byte. */
enum { LINE_DATA = PL022_TXD };

enum { MAX_WORDS = 12 };    /* longest message */

enum { CONTROL_BITS = 8 };  /* of a Microwire frame */

/* A PL022 on the board. */
struct port {
    const char *name;
    uint8_t record[PL022_RECORD_LENGTH];
    size_t lost;                /* words lost to overrun in this exchange */
    uint16_t lost_words[MAX_WORDS];
};

/* What one exchange needs to know: format, word size, bit rate, length. */
struct settings {
    uint32_t format;            /* FRF of CR0 */
    unsigned spo, sph;
    unsigned bits;
    unsigned cpsr, scr;
    size_t words;
};

/* A message on its way through one port: words to send and words received. */
struct transfer {
    struct port *port;
    const uint16_t *words;
    size_t count;               /* to send */
    size_t expected;            /* to receive */
    size_t sent, received;
    uint16_t answer[MAX_WORDS];
    unsigned polls;
    unsigned polls_full;        /* a word had to wait: refusal 7 */
    unsigned polls_empty;       /* nothing had arrived: refusal 8 at once */
    unsigned overruns;          /* polls that found ROR set */
};

/* driver.c */
const char *refusal_text(uint32_t refusal);
const char *register_name(uint32_t offset);
uint32_t check(const char *call, const char *device, const char *place,
               uint32_t refusal, uint32_t expected);
void port_reset(struct port *port, const char *name, uint32_t edition);
uint32_t port_read(struct port *port, uint32_t offset);
void port_write(struct port *port, uint32_t offset, uint32_t value);
bool port_write_idle(struct port *port, uint32_t offset, uint32_t value);
void port_disable(struct port *port);
void port_setup(struct port *port, const struct settings *settings, uint32_t role);
void port_enable(struct port *port);
void transfer_start(struct transfer *transfer, struct port *port,
                    const uint16_t *words, size_t count, size_t expected);
void transfer_poll(struct transfer *transfer);
bool transfer_done(const struct transfer *transfer);

/* peripheral.c: it sees nothing but CLK, FSS and TXD, and drives RXD. */
struct peripheral {
    unsigned bits;              /* word size of its answers */
    uint8_t lines;              /* lines in the cycle before, to find CLK edges */
    uint8_t rxd;                /* level that it drives: 0 or LINE_DATA */
    unsigned edges;             /* rising CLK edges in this frame */
    unsigned shift;             /* shift register: first the control byte, then the answer */
    size_t frames;
    uint16_t control[MAX_WORDS], answer[MAX_WORDS];
};

uint16_t cut(uint16_t word, unsigned bits);
uint16_t table_word(uint16_t control, unsigned bits);
void peripheral_cycle(struct peripheral *peripheral, uint8_t lines);

/* overrun.c */

/*
 * Logs the word that a port lost in one cycle, if it lost one. Ends the program if the overrun
 * flag, which was ror before the cycle, does not agree.
 */
void log_lost(struct port *port, unsigned ror, const struct pl022_lost *lost, unsigned cycle);

/* Returns the number of words lost in one call; ends the program if one is not as expected. */
unsigned show_overrun(void);

/* refusals.c: returns the number of refusals shown; ends the program if one is not as expected. */
unsigned show_refusals(void);

#endif
