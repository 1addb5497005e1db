#include "bench.h"

#include <stdlib.h>

static uint8_t join_levels(uint8_t output, uint8_t input)
{
    return (uint8_t)(output | (unsigned)input << LINE_CLK_IN);
}

/* At least one byte, since the library wants a valid pointer even for no cycles. */
static bool reserve(struct recording *recording, size_t cycles)
{
    size_t wanted = cycles == 0 ? 1 : cycles;
    if (wanted <= recording->capacity) {
        return true;
    }
    uint8_t *levels = realloc(recording->levels, wanted);
    if (levels == NULL) {
        return false;
    }
    recording->levels = levels;
    recording->capacity = wanted;
    return true;
}

void bench_begin(struct bench *bench)
{
    for (unsigned device = 0; device < DEVICES; device++) {
        pl022_reset(bench->record[device], PL022_RECORD_LENGTH);
    }
}

void bench_free(struct bench *bench)
{
    for (unsigned device = 0; device < DEVICES; device++) {
        free(bench->recording[device].levels);
        bench->recording[device] = (struct recording){0};
    }
}

void bench_next(struct bench *bench)
{
    for (unsigned device = 0; device < DEVICES; device++) {
        bench->recording[device].cycles = 0;
        bench->recording[device].before = bench_last_levels(bench, device);
        bench->lost[device] = (struct pl022_lost){0, 0};
    }
}

size_t bench_cycles(const struct bench *bench)
{
    const struct recording *recording = bench->recording;
    return recording[0].cycles > 0 ? recording[0].cycles : recording[1].cycles;
}

bool bench_ran_pair(const struct bench *bench)
{
    return bench->recording[0].cycles > 0 && bench->recording[1].cycles > 0;
}

uint8_t bench_last_levels(const struct bench *bench, unsigned device)
{
    const uint8_t *record = bench->record[device];
    return join_levels(record[PL022_RECORD_LINES], record[PL022_RECORD_PINS]);
}

bool bench_run(struct bench *bench, unsigned device, const uint8_t *input, size_t cycles,
               bool to_idle, uint64_t *refusal)
{
    struct recording *recording = &bench->recording[device];
    uint8_t *record = bench->record[device];
    if (!reserve(recording, cycles)) {
        return false;
    }
    struct pl022_ran ran = (to_idle ? pl022_run_to_idle : pl022_run)(
        record, PL022_RECORD_LENGTH, input, cycles, recording->levels, cycles);
    *refusal = ran.refusal;
    recording->cycles = (size_t)ran.count;
    bench->lost[device] = ran.lost;
    for (size_t n = 0; n < recording->cycles; n++) {
        recording->levels[n] = join_levels(recording->levels[n], input[n]);
    }
    return true;
}

/* The words that a later part of a command lost. */
static void add_lost(struct pl022_lost *sum, const struct pl022_lost *part)
{
    sum->count += part->count;
    if (part->count > 0) {
        sum->last = part->last;
    }
}

/* The library's pair run keeps no recording, so each cycle is taken from the records. */
bool bench_pair(struct bench *bench, size_t cycles, uint64_t *refusal)
{
    struct recording *recording = bench->recording;
    *refusal = PL022_DONE;
    if (!reserve(&recording[0], cycles) || !reserve(&recording[1], cycles)) {
        return false;
    }
    for (size_t n = 0; n < cycles; n++) {
        struct pl022_pair_ran ran = pl022_pair_run(bench->record[0], PL022_RECORD_LENGTH,
                                                   bench->record[1], PL022_RECORD_LENGTH, 1);
        *refusal = ran.refusal;
        if (ran.refusal != PL022_DONE) {
            return true;
        }
        add_lost(&bench->lost[0], &ran.first);
        add_lost(&bench->lost[1], &ran.second);
        for (unsigned device = 0; device < DEVICES; device++) {
            recording[device].levels[n] = bench_last_levels(bench, device);
            recording[device].cycles = n + 1;
        }
    }
    return true;
}
