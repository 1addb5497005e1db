/* driver.c: a polled PL022 driver. It knows the registers and nothing of the wires. */
#include <inttypes.h>
#include <stdio.h>
#include <stdlib.h>
#include "board.h"

const char *refusal_text(uint32_t refusal)
{
    static const char *const texts[] = {
        [PL022_DONE] = "done",
        [PL022_BAD_OFFSET] = "the offset is not a multiple of 4, or is beyond the registers",
        [PL022_RESERVED] = "the offset is reserved",
        [PL022_WRONG_ACCESS] = "a read-only register was written or a write-only one read",
        [PL022_EXTRA_BITS] = "a bit is set that the register does not take",
        [PL022_WHILE_ENABLED] = "CR0 or CPSR written, or MS or LBM changed, in an active device",
        [PL022_NOT_PERMITTED] = "format or word size not permitted, or SSE before CR0 and CPSR",
        [PL022_QUEUE_FULL] = "the transmit queue is full",
        [PL022_QUEUE_EMPTY] = "the receive queue is empty",
        [PL022_UNSOUND] = "the record is no state of a device",
        [PL022_WRONG_LENGTH] = "the record does not have 128 bytes",
        [PL022_LINES_DIFFER] = "input and output differ in length",
        [PL022_BAD_INPUT] = "an input byte is above 7",
        [PL022_TOO_MANY_CYCLES] = "more cycles than fit into a text",
        [PL022_BAD_CYCLE] = "a cycle is above 15",
        [PL022_BAD_PLACES] = "places do not rise, or lie past the last cycle",
        [PL022_TOO_SHORT] = "a buffer is shorter than what goes into it",
        [PL022_BAD_CHARACTER] = "a character is no capital digit and no line feed",
        [PL022_EMPTY_LINE] = "a line has no cycle",
        [PL022_NO_LINE_FEED] = "the last line feed is missing",
        [PL022_NO_EDITION] = "the edition is neither 1 nor 2",
        [PL022_NO_MATCH] = "no list of one to eight words gives the recording",
        [PL022_TOO_LONG] = "the recording is longer than can be judged",
    };
    return refusal < sizeof texts / sizeof texts[0] ? texts[refusal] : "unknown number";
}

const char *register_name(uint32_t offset)
{
    switch (offset) {
    case PL022_CR0:   return "CR0";
    case PL022_CR1:   return "CR1";
    case PL022_DR:    return "DR";
    case PL022_SR:    return "SR";
    case PL022_CPSR:  return "CPSR";
    case PL022_IMSC:  return "IMSC";
    case PL022_RIS:   return "RIS";
    case PL022_MIS:   return "MIS";
    case PL022_ICR:   return "ICR";
    case PL022_DMACR: return "DMACR";
    default:          return "another offset";
    }
}

/*
 * Every answer of the model passes through here. The caller can deal with one refusal, expected;
 * any other is an error in this program, after which no result can be trusted.
 */
uint32_t check(const char *call, const char *device, const char *place,
               uint32_t refusal, uint32_t expected)
{
    if (refusal == PL022_DONE || refusal == expected)
        return refusal;
    fflush(stdout);
    fprintf(stderr, "board: %s, %s, %s: refusal %" PRIu32 ", %s\n",
            call, device, place, refusal, refusal_text(refusal));
    exit(EXIT_FAILURE);
}

void port_reset(struct port *port, const char *name, uint32_t edition)
{
    port->name = name;
    check("pl022_reset_edition", name, "all registers",
          pl022_reset_edition(port->record, sizeof port->record, edition), PL022_DONE);
}

uint32_t port_read(struct port *port, uint32_t offset)
{
    struct pl022_word answer = pl022_read(port->record, sizeof port->record, offset);
    check("pl022_read", port->name, register_name(offset), answer.refusal, PL022_DONE);
    return answer.word;
}

void port_write(struct port *port, uint32_t offset, uint32_t value)
{
    check("pl022_write", port->name, register_name(offset),
          pl022_write(port->record, sizeof port->record, offset, value), PL022_DONE);
}

/*
 * For CR0, CPSR and CR1 after SSE was cleared in mid-frame. False while the frame goes on, as it
 * does in edition 2: to be tried again after some cycles. BSY tells less: words in the queue hold it.
 */
bool port_write_idle(struct port *port, uint32_t offset, uint32_t value)
{
    return check("pl022_write", port->name, register_name(offset),
                 pl022_write(port->record, sizeof port->record, offset, value),
                 PL022_WHILE_ENABLED) == PL022_DONE;
}

/* False if the transmit queue is full: the word was not taken and must be offered again. */
static bool port_send(struct port *port, uint16_t word)
{
    return check("pl022_write", port->name, "DR",
                 pl022_write(port->record, sizeof port->record, PL022_DR, word),
                 PL022_QUEUE_FULL) == PL022_DONE;
}

/* False if the receive queue is empty; the 0 that comes with that refusal is no word. */
static bool port_receive(struct port *port, uint16_t *word)
{
    struct pl022_word answer = pl022_read(port->record, sizeof port->record, PL022_DR);
    *word = (uint16_t)answer.word;
    return check("pl022_read", port->name, "DR", answer.refusal,
                 PL022_QUEUE_EMPTY) == PL022_DONE;
}

/* MS and LBM are written back as they are: changed together with SSE they would be refused. */
void port_disable(struct port *port)
{
    uint32_t cr1 = port_read(port, PL022_CR1);
    port_write(port, PL022_CR1, cr1 & ~PL022_CR1_SSE);
}

/* role is 0 for a master, PL022_CR1_MS for a slave. The port is left disabled. */
void port_setup(struct port *port, const struct settings *settings, uint32_t role)
{
    port_disable(port);     /* CPSR, CR0 and MS are fixed while SSE is 1, or a frame goes on */
    port_write(port, PL022_CPSR, settings->cpsr);
    port_write(port, PL022_CR0,
               settings->scr << PL022_CR0_SCR_SHIFT | (settings->sph ? PL022_CR0_SPH : 0u) |
               (settings->spo ? PL022_CR0_SPO : 0u) | settings->format |
               (settings->bits - 1) << PL022_CR0_DSS_SHIFT);
    port_write(port, PL022_CR1, role);
    port_write(port, PL022_ICR, PL022_INT_ROR);  /* an old overrun is not one of the next message */
}

void port_enable(struct port *port)
{
    port_write(port, PL022_CR1, port_read(port, PL022_CR1) | PL022_CR1_SSE);
}

/* Fills the transmit queue, so that the first words wait when the port is enabled. */
void transfer_start(struct transfer *transfer, struct port *port,
                    const uint16_t *words, size_t count, size_t expected)
{
    *transfer = (struct transfer){
        .port = port, .words = words, .count = count, .expected = expected
    };
    transfer_poll(transfer);
}

/* Words beyond the expected number are counted but not kept. */
static void receive_words(struct transfer *transfer)
{
    size_t before = transfer->received;
    uint16_t word;

    while (port_receive(transfer->port, &word)) {
        if (transfer->received < transfer->expected)
            transfer->answer[transfer->received] = word;
        transfer->received++;
    }
    transfer->polls_empty += transfer->received == before;
}

static void send_words(struct transfer *transfer)
{
    while (transfer->sent < transfer->count) {
        if (!port_send(transfer->port, transfer->words[transfer->sent])) {
            transfer->polls_full++;
            return;
        }
        transfer->sent++;
    }
}

/* To be called at least once in eight frames: the queues hold no more. */
void transfer_poll(struct transfer *transfer)
{
    transfer->polls++;
    receive_words(transfer);
    if (port_read(transfer->port, PL022_RIS) & PL022_INT_ROR) {
        transfer->overruns++;
        port_write(transfer->port, PL022_ICR, PL022_INT_ROR);
    }
    send_words(transfer);
}

/* BSY as well, because a master's last word is received before its frame is over. */
bool transfer_done(const struct transfer *transfer)
{
    return transfer->sent == transfer->count && transfer->received >= transfer->expected &&
           !(port_read(transfer->port, PL022_SR) & PL022_SR_BSY);
}
