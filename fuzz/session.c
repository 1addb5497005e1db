#include "session.h"

#include <string.h>

#include "calls.h"
#include "draw.h"
#include "lost.h"
#include "promise.h"
#include "record.h"
#include "relate.h"
#include "session_recording.h"
#include "session_text.h"

enum { DEVICES = 2, MOST_STEPS = 40 };

static struct device {
    uint8_t bytes[PL022_RECORD_LENGTH];
    /* As served_before in a request. */
    bool served;
} devices[DEVICES];

static struct request request;
static struct outcome outcome;

/* One in so many lent buffers is wrong in some way. */
enum { SELDOM = 24, OFTEN = 3 };
static uint32_t rarity;

static size_t draw_length(void)
{
    static const uint16_t lengths[] = {
        0, 1, PL022_RECORD_LENGTH - 1, PL022_RECORD_LENGTH + 1, 256, 4096, LENT_LIMIT
    };
    uint32_t kind = draw_below(sizeof lengths / sizeof lengths[0] + 1);
    return kind < sizeof lengths / sizeof lengths[0] ? lengths[kind] : draw_below(1024);
}

/* Lends the device's bytes, seldom others; true if they are the device's own. */
static bool lend_record(enum role role, const struct device *device)
{
    struct bytes *lent = &request.lent[role];

    bytes_set(lent, device->bytes, sizeof device->bytes);
    if (draw_one_in(3 * rarity)) {
        lent->length = draw_length();
        if (lent->length > sizeof device->bytes) {
            draw_bytes(lent->data + sizeof device->bytes, lent->length - sizeof device->bytes);
        }
        return lent->length == sizeof device->bytes;
    }
    if (draw_one_in(rarity)) {
        (draw_one_in(2) ? record_damage : record_overstep)(lent->data);
        return false;
    }
    return true;
}

static void keep_record(enum role role, struct device *device, bool own)
{
    const struct bytes *after = &outcome.after[role];
    bool served = outcome.refusal <= PL022_QUEUE_EMPTY;

    if (own) {
        memcpy(device->bytes, after->data, sizeof device->bytes);
        device->served = device->served || served;
    } else if (after->length == sizeof device->bytes && draw_one_in(8)) {
        memcpy(device->bytes, after->data, sizeof device->bytes);
        device->served = served;
    }
}

static bool sound_lent(enum role role)
{
    const struct bytes *lent = &request.lent[role];
    return lent->length == PL022_RECORD_LENGTH && record_sound(lent->data);
}

/* Makes the request on one device, or a pair run on it and the other. */
static void submit(enum call call, unsigned which)
{
    struct device *device = &devices[which];
    struct device *other = &devices[1 - which];
    bool pair = call == CALL_PAIR_RUN;

    request.call = call;
    bool own = lend_record(ROLE_RECORD, device);
    bool other_own = !pair || lend_record(ROLE_SECOND, other);
    request.served_before = own && device->served
                         && other_own && (!pair || other->served);
    /* A pair run that is refused takes no time, so any number of cycles will do. */
    if (pair && !(sound_lent(ROLE_RECORD) && sound_lent(ROLE_SECOND))) {
        request.cycles = draw_bits();
    }
    judge(&request, &outcome);
    keep_record(ROLE_RECORD, device, own);
    if (pair) {
        keep_record(ROLE_SECOND, other, other_own);
    }
    bool stopped = call_runs_lines(call) && record_stopped(request.lent[ROLE_RECORD].data);
    if (stopped || draw_one_in(lost_words(&outcome) > 0 ? 2 : 6)) {
        relate(&request, &outcome);
    }
}

/* Mostly one that is there. */
static uint32_t draw_edition(void)
{
    static const uint32_t others[] = {0, 3, 4, 0x101, 0x102, 0x10001, 0x80000002, UINT32_MAX};
    uint32_t kind = draw_below(sizeof others / sizeof others[0] + 2);

    if (!draw_one_in(rarity)) {
        return draw_one_in(3) ? PL022_EDITION_1 : PL022_EDITION_2;
    }
    return kind < sizeof others / sizeof others[0] ? others[kind] : (uint32_t)draw_bits();
}

static void reset(unsigned which)
{
    request.value = draw_edition();
    submit(draw_one_in(4) ? CALL_RESET : CALL_RESET_EDITION, which);
}

static void write_register(unsigned which, uint32_t offset, uint32_t value)
{
    request.offset = offset;
    request.value = value;
    submit(CALL_WRITE, which);
}

static void read_register(unsigned which, uint32_t offset)
{
    request.offset = offset;
    submit(CALL_READ, which);
}

static uint32_t draw_offset(void)
{
    switch (draw_below(8)) {
    case 0:
        return (uint32_t)draw_bits();
    case 1:
        return draw_between(PL022_SPACE_LENGTH - 40, PL022_SPACE_LENGTH + 8);
    case 2:
        return PL022_IDENTITY + 4 * draw_below(8);
    case 3:
        return 4 * draw_below(PL022_SPACE_LENGTH / 4 + 4);
    case 4:
        return draw_below(PL022_DMACR + 12);
    default:
        return 4 * draw_below(PL022_DMACR / 4 + 2);
    }
}

static uint32_t draw_value(void)
{
    switch (draw_below(4)) {
    case 0:
        return (uint32_t)draw_bits();
    case 1:
        return 1U << draw_below(32);
    case 2:
        return draw_below(0x10000);
    default:
        return draw_below(20);
    }
}

static size_t draw_cycles(void)
{
    switch (draw_below(16)) {
    case 0:
        return draw_below(2);
    case 1:
        return draw_one_in(4) ? draw_between(1000, 9000) : draw_between(200, 1000);
    case 2: case 3: case 4: case 5:
        return draw_between(2, 12);
    default:
        return draw_between(10, 160);
    }
}

/*
 * A clock with a frame line that comes back every few periods, as a slave may be given. A Microwire
 * slave needs up to 25 periods with the line LOW for a frame, and twice as many for a second one.
 */
static void draw_wave(uint8_t *input, size_t length)
{
    uint32_t half = draw_between(1, draw_one_in(2) ? 2 : 8);
    uint32_t frame = draw_between(4, draw_one_in(2) ? 40 : 120) * half;
    uint32_t mark = draw_one_in(2) ? 2 * half : draw_between(1, frame);
    uint32_t phase = draw_below(frame);

    for (size_t i = 0; i < length; i++) {
        uint32_t at = (uint32_t)i + phase;
        input[i] = (uint8_t)((at / half % 2 != 0 ? PL022_CLK : 0)
                             | (at % frame < mark ? PL022_FSS : 0)
                             | (draw_below(2) != 0 ? PL022_RXD : 0));
    }
}

static void draw_levels(uint8_t *input, size_t length)
{
    switch (draw_below(4)) {
    case 0:
        memset(input, (int)draw_below(PL022_INPUT_MASK + 1), length);
        return;
    case 1:
        draw_bytes(input, length);
        for (size_t i = 0; i < length; i++) {
            input[i] &= PL022_INPUT_MASK;
        }
        return;
    default:
        draw_wave(input, length);
        return;
    }
}

/* Bytes above 7: one at an end or anywhere, or many. */
static void spoil(uint8_t *input, size_t length)
{
    if (length == 0) {
        return;
    }
    uint32_t last = (uint32_t)length - 1;
    uint32_t places[] = {0, last, draw_between(0, last)};
    uint32_t place = places[draw_below(3)];

    input[place] = (uint8_t)(draw_one_in(2) ? PL022_INPUT_MASK + 1
                                            : draw_between(PL022_INPUT_MASK + 1, 255));
    if (draw_one_in(3)) {
        draw_bytes(input, length);
    }
}

static void draw_lines(size_t cycles)
{
    struct bytes *input = &request.lent[ROLE_INPUT];
    struct bytes *output = &request.lent[ROLE_OUTPUT];

    input->length = cycles;
    draw_levels(input->data, input->length);
    if (draw_one_in(rarity)) {
        spoil(input->data, input->length);
    }
    output->length = input->length;
    if (draw_one_in(rarity)) {
        output->length = draw_one_in(2) ? input->length + 1 : draw_cycles();
    }
    draw_bytes(output->data, output->length);
}

/* Mostly small, or words would take too long to arrive. */
static uint32_t draw_scr(void)
{
    return draw_one_in(16) ? draw_below(256) : draw_below(3);
}

static void load(unsigned which, uint32_t words)
{
    for (uint32_t i = 0; i < words; i++) {
        write_register(which, PL022_DR, draw_below(0x10000));
    }
}

static void set_up(unsigned which, uint32_t cr0, uint32_t cpsr, uint32_t cr1)
{
    write_register(which, PL022_CR1, cr1 & ~PL022_CR1_SSE);
    write_register(which, PL022_CR0, cr0);
    write_register(which, PL022_CPSR, cpsr);
    load(which, draw_below(5));
    write_register(which, PL022_CR1, cr1 | PL022_CR1_SSE);
}

static void step_set_up(unsigned which)
{
    uint32_t cr0 = draw_cr0(draw_scr());
    uint32_t cpsr = draw_one_in(16) ? draw_below(256) : 2 * draw_between(1, 2);

    write_register(which, PL022_CR1, 0);
    set_up(which, cr0, cpsr, draw_below(16));
}

/* Master and slave with the same format, and slots of at least six cycles. */
static void step_set_up_pair(unsigned which)
{
    uint32_t cr0 = draw_cr0(draw_scr());
    uint32_t cpsr = 2 * draw_between(6, 8);

    write_register(1 - which, PL022_CR1, 0);
    set_up(1 - which, cr0, cpsr, PL022_CR1_MS);
    request.cycles = draw_between(4, 8);
    submit(CALL_PAIR_RUN, which);
    write_register(which, PL022_CR1, 0);
    set_up(which, cr0, cpsr, draw_below(2) * PL022_CR1_SOD);
    request.cycles = draw_between(100, 1500);
    submit(CALL_PAIR_RUN, which);
}

static void forge_before_overrun(unsigned which)
{
    devices[which].served = false;
    record_before_overrun(devices[which].bytes);
}

/* Words arrive and nobody reads. */
static void step_overrun(unsigned which)
{
    size_t cycles = draw_between(20, 300);

    forge_before_overrun(which);
    if (draw_one_in(3)) {
        forge_before_overrun(1 - which);
        request.cycles = cycles;
        submit(CALL_PAIR_RUN, which);
    } else {
        draw_lines(cycles);
        submit(draw_one_in(3) ? CALL_RUN_TO_IDLE : CALL_RUN, which);
    }
}

static void step_load(unsigned which)
{
    load(which, draw_between(1, draw_one_in(6) ? 10 : 3));
}

static void step_drain(unsigned which)
{
    for (uint32_t i = draw_between(1, draw_one_in(6) ? 10 : 2); i > 0; i--) {
        read_register(which, PL022_DR);
    }
}

static void step_run(unsigned which)
{
    draw_lines(draw_cycles());
    submit(CALL_RUN, which);
}

static void step_run_to_idle(unsigned which)
{
    draw_lines(draw_cycles());
    submit(CALL_RUN_TO_IDLE, which);
}

static void step_pair_run(unsigned which)
{
    request.cycles = draw_cycles();
    submit(CALL_PAIR_RUN, which);
}

static void step_status(unsigned which)
{
    read_register(which, 4 * draw_below(PL022_DMACR / 4 + 1));
}

static void step_disable(unsigned which)
{
    write_register(which, PL022_CR1, draw_below(16) & ~PL022_CR1_SSE);
    if (draw_one_in(2)) {
        write_register(which, PL022_CR1, draw_below(16) | PL022_CR1_SSE);
    }
}

/* Perhaps in a frame, and perhaps set again; the role stays, or the write would be refused. */
static void step_stop(unsigned which)
{
    uint32_t cr1 = devices[which].bytes[PL022_RECORD_CR1] & 0xF;

    write_register(which, PL022_CR1, cr1 & ~PL022_CR1_SSE);
    if (draw_one_in(2)) {
        step_run(which);
    }
    if (draw_one_in(3)) {
        uint32_t offset = draw_one_in(2) ? PL022_CR0 : PL022_CPSR;
        write_register(which, offset, draw_below(0x100));
    }
    if (draw_one_in(2)) {
        write_register(which, PL022_CR1, cr1 | PL022_CR1_SSE);
        step_run(which);
    }
}

static void step_noise(unsigned which)
{
    request.offset = draw_offset();
    request.value = draw_value();
    /* Several refusals must often be due at once, or their order would not show. */
    rarity = draw_one_in(2) ? OFTEN : SELDOM;
    draw_lines(draw_cycles());
    request.cycles = draw_below(20);
    if (draw_one_in(16)) {
        reset(which);
    } else {
        submit((enum call)draw_between(CALL_READ, CALL_PAIR_RUN), which);
    }
}

/* A text is of no device. */
static void step_text(unsigned which)
{
    (void)which;
    session_text();
}

/* Nor is a recording. */
static void step_recording(unsigned which)
{
    (void)which;
    session_recording();
}

static void start(unsigned which)
{
    struct device *device = &devices[which];

    device->served = false;
    draw_bytes(device->bytes, sizeof device->bytes);
    switch (draw_below(20)) {
    case 0:
        memset(device->bytes, 0, sizeof device->bytes);
        break;
    case 1:
        memset(device->bytes, 0xFF, sizeof device->bytes);
        break;
    case 2:
        break;
    case 3:
        record_after_reset(device->bytes, draw_between(PL022_EDITION_1, PL022_EDITION_2));
        record_damage(device->bytes);
        break;
    case 4: case 5:
        record_forge(device->bytes);
        if (draw_one_in(4)) {
            record_stop(device->bytes);
        }
        record_overstep(device->bytes);
        break;
    case 6: case 7: case 8: case 9: case 10: case 11: case 12:
        record_forge(device->bytes);
        if (draw_one_in(3)) {
            record_stop(device->bytes);
        }
        break;
    default:
        reset(which);
        break;
    }
}

void session(void)
{
    static const struct {
        void (*take)(unsigned which);
        uint32_t weight;
    } steps[] = {
        {step_set_up, 5},  {step_set_up_pair, 1}, {step_load, 8},     {step_drain, 5},
        {step_run, 12},    {step_run_to_idle, 8}, {step_pair_run, 5}, {step_status, 8},
        {step_disable, 2}, {step_stop, 4},        {step_noise, 20},   {start, 2},
        {step_text, 6},    {step_overrun, 2},     {step_recording, 6},
    };
    uint32_t total = 0;
    for (size_t i = 0; i < sizeof steps / sizeof steps[0]; i++) {
        total += steps[i].weight;
    }

    rarity = SELDOM;
    start(0);
    start(1);
    for (uint32_t left = draw_between(1, MOST_STEPS); left > 0; left--) {
        uint32_t at = draw_below(total);
        size_t step = 0;
        while (at >= steps[step].weight) {
            at -= steps[step].weight;
            step++;
        }
        unsigned which = draw_below(DEVICES);
        rarity = SELDOM;
        steps[step].take(which);
        /* A record that is not served makes no progress, so it is soon given up. */
        if (!devices[which].served && draw_one_in(4)) {
            reset(which);
        }
    }
}
