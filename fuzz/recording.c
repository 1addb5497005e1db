#include "recording.h"

#include "record.h"
#include "report.h"

enum { CONTROL_BITS = 8 };

static bool enable(uint8_t *record, uint32_t cr0, uint32_t cpsr)
{
    return pl022_write(record, PL022_RECORD_LENGTH, PL022_CR0, cr0) == PL022_DONE
        && pl022_write(record, PL022_RECORD_LENGTH, PL022_CPSR, cpsr) == PL022_DONE
        && pl022_write(record, PL022_RECORD_LENGTH, PL022_CR1, PL022_CR1_SSE) == PL022_DONE;
}

bool recording_enables(uint32_t cr0, uint32_t cpsr)
{
    uint8_t record[PL022_RECORD_LENGTH];

    record_after_reset(record, PL022_EDITION_1);
    return enable(record, cr0, cpsr);
}

size_t recording_slot_cycles(uint32_t cr0, uint32_t cpsr)
{
    return (size_t)(cpsr / 2) * (1 + ((cr0 & PL022_CR0_SCR_MASK) >> PL022_CR0_SCR_SHIFT));
}

uint32_t recording_sent_bits(uint32_t cr0)
{
    return (cr0 & PL022_CR0_FRF_MASK) == PL022_CR0_FRF_MICROWIRE
             ? CONTROL_BITS : ((cr0 & PL022_CR0_DSS_MASK) >> PL022_CR0_DSS_SHIFT) + 1;
}

/* Runs one slot behind what is recorded. The pins carry levels that should not matter. */
static void run_slot(uint8_t *record, size_t cycles, struct bytes *recording)
{
    static uint8_t input[BYTES_LIMIT];

    for (size_t n = 0; n < cycles; n++) {
        input[n] = (uint8_t)((n * 5 + n / 3) & PL022_INPUT_MASK);
    }
    struct pl022_ran ran = pl022_run(record, PL022_RECORD_LENGTH, input, cycles,
                                     recording->data + recording->length, cycles);
    report_unless(ran.refusal == PL022_DONE && ran.count == cycles, "a recording cannot be made");
    recording->length += cycles;
}

/* A master rests at the end of its last slot, and at no earlier end of one. */
bool recording_make(uint32_t cr0, uint32_t cpsr, const uint16_t *words, size_t count,
                    struct bytes *recording)
{
    uint8_t record[PL022_RECORD_LENGTH];
    size_t cycles = recording_slot_cycles(cr0, cpsr);

    recording->length = 0;
    record_after_reset(record, PL022_EDITION_1);
    for (size_t n = 0; n < count; n++) {
        report_unless(pl022_write(record, sizeof record, PL022_DR, words[n]) == PL022_DONE,
                      "a word of a recording cannot be written");
    }
    report_unless(enable(record, cr0, cpsr), "the master of a recording cannot be enabled");
    while (!(record[PL022_RECORD_TX_COUNT] == 0 && record_engine_clear(record))) {
        if (recording->length + cycles > BYTES_LIMIT) {
            return false;
        }
        run_slot(record, cycles, recording);
    }
    return true;
}
