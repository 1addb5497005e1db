#include "record.h"

#include <string.h>

#include "draw.h"

/* Fields that a number bounds. CR0 and CPSR follow other rules. */
enum limit {
    LIMIT_FIXED, LIMIT_RT_COUNT, LIMIT_FRAME, LIMIT_SLOT, LIMIT_CYCLES, LIMIT_CAPTURED, LIMIT_ACTIVE
};

/* In this order a record is forged: edition and frame come before what they bound. */
static const struct field {
    uint8_t at;
    uint8_t size;
    uint8_t limit;
    uint16_t most;
} fields[] = {
    {PL022_RECORD_CR1, 1, LIMIT_FIXED, 15},
    {PL022_RECORD_EDITION, 1, LIMIT_FIXED, 1},
    {PL022_RECORD_IMSC, 1, LIMIT_FIXED, 15},
    {PL022_RECORD_DMACR, 1, LIMIT_FIXED, 3},
    {PL022_RECORD_ROR, 1, LIMIT_FIXED, 1},
    {PL022_RECORD_RT, 1, LIMIT_FIXED, 1},
    {PL022_RECORD_RT_COUNT, 4, LIMIT_RT_COUNT, 0},
    {PL022_RECORD_FRAME, 1, LIMIT_FRAME, 1},
    {PL022_RECORD_SELECTED, 1, LIMIT_ACTIVE, 1},
    {PL022_RECORD_TI_MARK, 1, LIMIT_ACTIVE, 1},
    {PL022_RECORD_CAPTURED, 1, LIMIT_CAPTURED, 0},
    {PL022_RECORD_SLOT, 1, LIMIT_SLOT, 0},
    {PL022_RECORD_HELD, 1, LIMIT_FIXED, 1},
    {PL022_RECORD_SLOT_CYCLES, 2, LIMIT_CYCLES, 0},
    {PL022_RECORD_TX_WORD, 2, LIMIT_FIXED, 0xFFFF},
    {PL022_RECORD_RX_WORD, 2, LIMIT_FIXED, 0xFFFF},
    {PL022_RECORD_PINS, 1, LIMIT_FIXED, PL022_INPUT_MASK},
    {PL022_RECORD_PINS_1, 1, LIMIT_FIXED, PL022_INPUT_MASK},
    {PL022_RECORD_PINS_2, 1, LIMIT_FIXED, PL022_INPUT_MASK},
    {PL022_RECORD_LINES, 1, LIMIT_FIXED, PL022_OUTPUT_MASK},
    {PL022_RECORD_TX_COUNT, 1, LIMIT_FIXED, PL022_QUEUE_WORDS},
    {PL022_RECORD_RX_COUNT, 1, LIMIT_FIXED, PL022_QUEUE_WORDS},
    {PL022_RECORD_SPARE_1, 1, LIMIT_FIXED, 0},
};

enum {
    FIELDS = sizeof fields / sizeof fields[0],
    CONTROL_BITS = 8,
    ENGINE = PL022_RECORD_FRAME,
    ENGINE_LENGTH = PL022_RECORD_PINS - PL022_RECORD_FRAME
};

static uint32_t get(const uint8_t *record, size_t at, size_t size)
{
    uint32_t value = 0;
    for (size_t i = size; i-- > 0;) {
        value = value << 8 | record[at + i];
    }
    return value;
}

static void set(uint8_t *record, size_t at, size_t size, uint32_t value)
{
    for (size_t i = 0; i < size; i++) {
        record[at + i] = (uint8_t)(value >> (8 * i));
    }
}

static uint32_t record_cr0(const uint8_t *record)
{
    return get(record, PL022_RECORD_CR0, 2);
}

static uint32_t frf_of(uint32_t cr0)
{
    return (cr0 & PL022_CR0_FRF_MASK) >> PL022_CR0_FRF_SHIFT;
}

static uint32_t dss_of(uint32_t cr0)
{
    return (cr0 & PL022_CR0_DSS_MASK) >> PL022_CR0_DSS_SHIFT;
}

static uint32_t scr_of(uint32_t cr0)
{
    return (cr0 & PL022_CR0_SCR_MASK) >> PL022_CR0_SCR_SHIFT;
}

unsigned record_format(const uint8_t *record)
{
    return frf_of(record_cr0(record));
}

unsigned record_dss(const uint8_t *record)
{
    return dss_of(record_cr0(record));
}

bool record_enabled(const uint8_t *record)
{
    return (record[PL022_RECORD_CR1] & PL022_CR1_SSE) != 0;
}

static bool second_edition(const uint8_t *record)
{
    return record[PL022_RECORD_EDITION] == PL022_EDITION_2 - 1;
}

bool record_stopped(const uint8_t *record)
{
    return !record_enabled(record) && second_edition(record) && record[PL022_RECORD_FRAME] != 0;
}

bool record_active(const uint8_t *record)
{
    return record_enabled(record) || record_stopped(record);
}

bool cr0_permitted(uint32_t cr0)
{
    return frf_of(cr0) < FORMATS && dss_of(cr0) >= LEAST_DSS;
}

uint32_t draw_cr0(uint32_t scr)
{
    static const uint32_t modes[] = {0, PL022_CR0_SPO, PL022_CR0_SPH,
                                     PL022_CR0_SPO | PL022_CR0_SPH};
    static const uint32_t formats[FORMATS] = {PL022_CR0_FRF_MOTOROLA, PL022_CR0_FRF_TI,
                                              PL022_CR0_FRF_MICROWIRE};
    uint32_t mode = modes[draw_below(sizeof modes / sizeof modes[0])];
    uint32_t format = formats[draw_below(FORMATS)];
    return scr << PL022_CR0_SCR_SHIFT | mode | format
         | draw_between(LEAST_DSS, 15) << PL022_CR0_DSS_SHIFT;
}

uint32_t record_received_bits(const uint8_t *record)
{
    bool slave = (record[PL022_RECORD_CR1] & PL022_CR1_MS) != 0;
    bool microwire = (record_cr0(record) & PL022_CR0_FRF_MASK) == PL022_CR0_FRF_MICROWIRE;

    return slave && microwire ? CONTROL_BITS : record_dss(record) + 1;
}

/* Cycles in a slot. */
static uint32_t record_h(const uint8_t *record)
{
    return record[PL022_RECORD_CPSR] / 2U * (1U + scr_of(record_cr0(record)));
}

/* Whether a frame may be in progress. */
static bool may_have_frame(const uint8_t *record)
{
    return record_enabled(record)
        || (second_edition(record) && cr0_permitted(record_cr0(record))
            && record[PL022_RECORD_CPSR] != 0);
}

/* The most that the field may hold beside the registers, the edition and the frame. */
static uint32_t most(const uint8_t *record, const struct field *field)
{
    /* By FRF; 3 is reserved. */
    static const uint8_t behind_bits[FORMATS + 1] = {3, 1, 20, 0};
    uint32_t bits = record_dss(record) + 1;

    if (field->limit == LIMIT_FIXED) {
        return field->most;
    }
    if (field->limit == LIMIT_FRAME) {
        return may_have_frame(record) ? field->most : 0;
    }
    if (!record_active(record)) {
        return 0;
    }
    switch (field->limit) {
    case LIMIT_RT_COUNT:
        return record_enabled(record) ? 64 * record_h(record) - 1 : 0;
    case LIMIT_SLOT:
        return 2 * bits + behind_bits[record_format(record)];
    case LIMIT_CYCLES:
        return record_h(record) - 1;
    case LIMIT_CAPTURED:
        return record_received_bits(record);
    default:
        return field->most;
    }
}

static bool all_zero(const uint8_t *record, size_t from, size_t to)
{
    while (from < to && record[from] == 0) {
        from++;
    }
    return from == to;
}

static bool registers_sound(const uint8_t *record)
{
    uint32_t cr0 = record_cr0(record);
    bool active = record_active(record);

    return (cr0_permitted(cr0) || (cr0 == 0 && !active))
        && record[PL022_RECORD_CPSR] % 2 == 0
        && !(active && record[PL022_RECORD_CPSR] == 0);
}

bool record_sound(const uint8_t *record)
{
    /* First of all, since the limits are computed from these. */
    if (!registers_sound(record)) {
        return false;
    }
    for (size_t i = 0; i < FIELDS; i++) {
        if (get(record, fields[i].at, fields[i].size) > most(record, &fields[i])) {
            return false;
        }
    }
    size_t unsent = PL022_RECORD_TX_QUEUE + 2U * record[PL022_RECORD_TX_COUNT];
    size_t unread = PL022_RECORD_RX_QUEUE + 2U * record[PL022_RECORD_RX_COUNT];
    return all_zero(record, unsent, PL022_RECORD_RX_QUEUE)
        && all_zero(record, unread, PL022_RECORD_SPARE_2)
        && all_zero(record, PL022_RECORD_SPARE_2, PL022_RECORD_LENGTH);
}

static uint32_t status_word(const uint8_t *record)
{
    unsigned to_send = record[PL022_RECORD_TX_COUNT];
    unsigned received = record[PL022_RECORD_RX_COUNT];
    bool busy = record[PL022_RECORD_FRAME] != 0 || to_send > 0;

    return (to_send == 0 ? PL022_SR_TFE : 0)
         | (to_send < PL022_QUEUE_WORDS ? PL022_SR_TNF : 0)
         | (received > 0 ? PL022_SR_RNE : 0)
         | (received == PL022_QUEUE_WORDS ? PL022_SR_RFF : 0)
         | (busy ? PL022_SR_BSY : 0);
}

static uint32_t raw_word(const uint8_t *record)
{
    return (record[PL022_RECORD_ROR] != 0 ? PL022_INT_ROR : 0)
         | (record[PL022_RECORD_RT] != 0 ? PL022_INT_RT : 0)
         | (record[PL022_RECORD_RX_COUNT] >= 4 ? PL022_INT_RX : 0)
         | (record[PL022_RECORD_TX_COUNT] <= 4 ? PL022_INT_TX : 0);
}

uint32_t record_word(const uint8_t *record, uint32_t offset)
{
    static const uint8_t identity[] = {0x22, 0x10, 0x34, 0x00, 0x0D, 0xF0, 0x05, 0xB1};

    switch (offset) {
    case PL022_CR0:
        return record_cr0(record);
    case PL022_CR1:
        return record[PL022_RECORD_CR1];
    case PL022_DR:
        return get(record, PL022_RECORD_RX_QUEUE, 2);
    case PL022_SR:
        return status_word(record);
    case PL022_CPSR:
        return record[PL022_RECORD_CPSR];
    case PL022_IMSC:
        return record[PL022_RECORD_IMSC];
    case PL022_RIS:
        return raw_word(record);
    case PL022_MIS:
        return raw_word(record) & record[PL022_RECORD_IMSC];
    case PL022_DMACR:
        return record[PL022_RECORD_DMACR];
    default:
        return identity[(offset - PL022_IDENTITY) / 4];
    }
}

void record_after_reset(uint8_t *record, uint32_t edition)
{
    memset(record, 0, PL022_RECORD_LENGTH);
    record[PL022_RECORD_LINES] = PL022_LINES_RESET;
    record[PL022_RECORD_EDITION] = (uint8_t)(edition - 1);
}

void record_write_cr1(uint8_t *record, uint8_t value)
{
    if (record_enabled(record) && (value & PL022_CR1_SSE) == 0) {
        set(record, PL022_RECORD_RT_COUNT, 4, 0);
        if (!second_edition(record) || record[PL022_RECORD_FRAME] == 0) {
            memset(record + ENGINE, 0, ENGINE_LENGTH);
        }
    }
    record[PL022_RECORD_CR1] = value;
}

uint8_t record_idle_lines(const uint8_t *record)
{
    uint32_t cr0 = record_cr0(record);
    uint32_t format = cr0 & PL022_CR0_FRF_MASK;

    if ((record[PL022_RECORD_CR1] & PL022_CR1_MS) != 0 || format == PL022_CR0_FRF_MICROWIRE) {
        return PL022_FSS | PL022_NSSPOE;
    }
    if (format == PL022_CR0_FRF_TI) {
        return PL022_NSSPOE;
    }
    return (uint8_t)(PL022_FSS | PL022_NSSPOE | ((cr0 & PL022_CR0_SPO) != 0 ? PL022_CLK : 0));
}

bool record_engine_clear(const uint8_t *record)
{
    return all_zero(record, ENGINE, ENGINE + ENGINE_LENGTH);
}

void record_copy_queue(uint8_t *record, const uint8_t *from)
{
    record[PL022_RECORD_TX_COUNT] = from[PL022_RECORD_TX_COUNT];
    memcpy(record + PL022_RECORD_TX_QUEUE, from + PL022_RECORD_TX_QUEUE, 2 * PL022_QUEUE_WORDS);
}

uint16_t record_received(const uint8_t *record, size_t n)
{
    return (uint16_t)get(record, PL022_RECORD_RX_QUEUE + 2 * n, 2);
}

void record_drain(uint8_t *record)
{
    record[PL022_RECORD_RX_COUNT] = 0;
    memset(record + PL022_RECORD_RX_QUEUE, 0, 2 * PL022_QUEUE_WORDS);
}

/* 0 to the limit, often one of the ends or next to the upper one. */
static uint32_t draw_near(uint32_t limit)
{
    switch (draw_below(4)) {
    case 0:
        return 0;
    case 1:
        return limit;
    case 2:
        return limit == 0 ? 0 : limit - 1;
    default:
        return draw_between(0, limit);
    }
}

static void forge_registers(uint8_t *record)
{
    uint8_t *cr1 = &record[PL022_RECORD_CR1];
    uint8_t *cpsr = &record[PL022_RECORD_CPSR];

    set(record, PL022_RECORD_CR0, 2, draw_cr0(draw_one_in(3) ? draw_near(255) : draw_below(3)));
    *cpsr = (uint8_t)(2 * (draw_one_in(3) ? draw_near(126) + 1 : draw_between(1, 3)));
    *cr1 = (uint8_t)draw_below(16);
    if (!draw_one_in(4)) {
        *cr1 |= PL022_CR1_SSE;
    } else if ((*cr1 & PL022_CR1_SSE) == 0 && draw_one_in(4)) {
        set(record, PL022_RECORD_CR0, 2, 0);
        *cpsr = 0;
    }
}

static void draw_queues(uint8_t *record)
{
    draw_bytes(record + PL022_RECORD_TX_QUEUE, 2U * record[PL022_RECORD_TX_COUNT]);
    draw_bytes(record + PL022_RECORD_RX_QUEUE, 2U * record[PL022_RECORD_RX_COUNT]);
}

void record_forge(uint8_t *record)
{
    memset(record, 0, PL022_RECORD_LENGTH);
    forge_registers(record);
    for (size_t i = 0; i < FIELDS; i++) {
        if (fields[i].at != PL022_RECORD_CR1) {
            set(record, fields[i].at, fields[i].size, draw_near(most(record, &fields[i])));
        }
    }
    draw_queues(record);
}

void record_before_overrun(uint8_t *record)
{
    uint32_t cr0 = draw_cr0(draw_below(2));
    uint32_t role = draw_one_in(2) ? PL022_CR1_MS : draw_below(2) * PL022_CR1_LBM;

    record_after_reset(record, draw_between(PL022_EDITION_1, PL022_EDITION_2));
    set(record, PL022_RECORD_CR0, 2, cr0);
    record[PL022_RECORD_CPSR] = 2;
    record[PL022_RECORD_CR1] = (uint8_t)(PL022_CR1_SSE | role);
    record[PL022_RECORD_ROR] = (uint8_t)draw_below(2);
    record[PL022_RECORD_TX_COUNT] = PL022_QUEUE_WORDS;
    record[PL022_RECORD_RX_COUNT] = (uint8_t)(PL022_QUEUE_WORDS - draw_below(3));
    draw_queues(record);
}

void record_stop(uint8_t *record)
{
    if (record_enabled(record)) {
        record[PL022_RECORD_EDITION] = PL022_EDITION_2 - 1;
        record[PL022_RECORD_FRAME] = 1;
        record_write_cr1(record, record[PL022_RECORD_CR1] & (uint8_t)~PL022_CR1_SSE);
    }
}

void record_overstep(uint8_t *record)
{
    uint32_t kind = draw_below(FIELDS + 5);

    if (kind < FIELDS) {
        const struct field *field = &fields[kind];
        set(record, field->at, field->size, most(record, field) + 1);
    } else if (kind == FIELDS) {
        set(record, PL022_RECORD_CR0, 2, record_cr0(record) | PL022_CR0_FRF_MASK);
    } else if (kind == FIELDS + 1) {
        uint32_t dss = draw_below(LEAST_DSS) << PL022_CR0_DSS_SHIFT;
        set(record, PL022_RECORD_CR0, 2, (record_cr0(record) & ~PL022_CR0_DSS_MASK) | dss);
    } else if (kind == FIELDS + 2) {
        record[PL022_RECORD_CPSR] |= 1;
    } else if (kind == FIELDS + 3) {
        record[PL022_RECORD_CPSR] = 0;
    } else {
        record[draw_between(PL022_RECORD_TX_QUEUE, PL022_RECORD_LENGTH - 1)] |= 1;
    }
}

void record_damage(uint8_t *record)
{
    uint8_t *byte = &record[draw_below(PL022_RECORD_LENGTH)];
    *byte = (uint8_t)(draw_one_in(2) ? draw_bits() : *byte ^ 1U << draw_below(8));
}
