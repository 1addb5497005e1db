/* peripheral.c: a Microwire peripheral. A control byte chooses a word of its table, which it answers. */
#include "board.h"

enum {
    WAIT_EDGES = 1,             /* rising CLK edges between control byte and answer */
    TABLE_WORDS = 16
};

static const uint16_t peripheral_table[TABLE_WORDS] = {
    0x1F35, 0xA0C6, 0x5B9A, 0x0E71, 0xC4D8, 0x7263, 0x3DAE, 0xF81C,
    0x6497, 0x8B52, 0xD3EF, 0x2A04, 0x95BB, 0x4E78, 0xB92D, 0x07C1
};

uint16_t cut(uint16_t word, unsigned bits)
{
    return (uint16_t)(word & ((1u << bits) - 1));
}

uint16_t table_word(uint16_t control, unsigned bits)
{
    return cut(peripheral_table[control % TABLE_WORDS], bits);
}

static void control_taken(struct peripheral *peripheral)
{
    uint16_t control = (uint16_t)peripheral->shift;
    uint16_t answer = table_word(control, peripheral->bits);

    if (peripheral->frames < MAX_WORDS) {
        peripheral->control[peripheral->frames] = control;
        peripheral->answer[peripheral->frames] = answer;
    }
    peripheral->frames++;
    peripheral->shift = answer;
}

static void rising_edge(struct peripheral *peripheral, unsigned level)
{
    peripheral->edges++;
    if (peripheral->edges <= CONTROL_BITS)
        peripheral->shift = peripheral->shift << 1 | level;
    if (peripheral->edges == CONTROL_BITS)
        control_taken(peripheral);
    /* The last bit is captured: a control byte may follow at once, with FSS still LOW. */
    if (peripheral->edges == CONTROL_BITS + WAIT_EDGES + peripheral->bits) {
        peripheral->edges = 0;
        peripheral->shift = 0;
    }
}

/* The master captures at rising edges, so each bit is driven from the falling edge before. */
static void falling_edge(struct peripheral *peripheral)
{
    peripheral->rxd = 0;
    if (peripheral->edges >= CONTROL_BITS + WAIT_EDGES) {
        unsigned sent = peripheral->edges - CONTROL_BITS - WAIT_EDGES;
        if (peripheral->shift >> (peripheral->bits - 1 - sent) & 1)
            peripheral->rxd = LINE_DATA;
    }
}

void peripheral_cycle(struct peripheral *peripheral, uint8_t lines)
{
    unsigned changed = lines ^ peripheral->lines;

    peripheral->lines = lines;
    if (lines & PL022_FSS) {
        peripheral->edges = 0;
        peripheral->shift = 0;
        peripheral->rxd = 0;
    } else if (changed & PL022_CLK) {
        if (lines & PL022_CLK)
            rising_edge(peripheral, lines & LINE_DATA ? 1 : 0);
        else
            falling_edge(peripheral);
    }
}
