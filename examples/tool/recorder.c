#include "recorder.h"

#include <errno.h>
#include <string.h>

#include "files.h"

void recorder_begin(struct recorder *recorder, FILE *file)
{
    *recorder = (struct recorder){.file = file, .master = DEVICES};
}

void recorder_prepare(struct recorder *recorder, const struct bench *bench)
{
    memcpy(recorder->copy, bench->record, sizeof recorder->copy);
}

/* An access is a command of its own, so MS and SSE hold through a run: those of the copy. */
static bool ran_with(const struct recorder *recorder, const struct bench *bench, unsigned device,
                     unsigned mask, unsigned bits)
{
    return bench->recording[device].cycles > 0
        && (recorder->copy[device][PL022_RECORD_CR1] & mask) == bits;
}

static void choose_master(struct recorder *recorder, const struct bench *bench)
{
    const unsigned mask = PL022_CR1_MS | PL022_CR1_SSE;
    for (unsigned device = 0; device < DEVICES && recorder->master == DEVICES; device++) {
        if (ran_with(recorder, bench, device, mask, PL022_CR1_SSE)) {
            recorder->master = device;
        }
    }
}

/* Whether the device's next cycle belongs into the text, as far as is known by now. */
static bool is_wanted(const struct recorder *recorder, const struct bench *bench, unsigned device)
{
    return (recorder->master == DEVICES || recorder->master == device)
        && recorder->track[device].cycles < RECORDER_CYCLES
        && ran_with(recorder, bench, device, PL022_CR1_MS, 0);
}

/* Runs cycle n of the command once more, on the copies: the devices are past it. */
static uint64_t repeat_cycle(struct recorder *recorder, const struct bench *bench, size_t n)
{
    uint8_t(*copy)[PL022_RECORD_LENGTH] = recorder->copy;
    if (bench_ran_pair(bench)) {
        return pl022_pair_run(copy[0], PL022_RECORD_LENGTH, copy[1], PL022_RECORD_LENGTH, 1)
            .refusal;
    }
    unsigned device = bench->recording[0].cycles > 0 ? 0 : 1;
    uint8_t input = (uint8_t)(bench->recording[device].levels[n] >> LINE_CLK_IN);
    uint8_t output;
    return pl022_run(copy[device], PL022_RECORD_LENGTH, &input, 1, &output, 1).refusal;
}

/* Nothing but a frame that begins takes a word out of a master's queue within a cycle. */
static void keep_cycle(struct track *track, const uint8_t *record, uint8_t waiting)
{
    if (record[PL022_RECORD_TX_COUNT] < waiting) {
        track->places[track->taken++] = (uint32_t)track->cycles;
    }
    track->lines[track->cycles++] = record[PL022_RECORD_LINES];
}

bool recorder_add(struct recorder *recorder, const struct bench *bench)
{
    choose_master(recorder, bench);
    for (size_t n = 0; n < bench_cycles(bench); n++) {
        bool wanted[DEVICES];
        uint8_t waiting[DEVICES];
        for (unsigned device = 0; device < DEVICES; device++) {
            wanted[device] = is_wanted(recorder, bench, device);
            waiting[device] = recorder->copy[device][PL022_RECORD_TX_COUNT];
        }
        if (!wanted[0] && !wanted[1]) {
            break;
        }
        if (repeat_cycle(recorder, bench, n) != PL022_DONE) {
            return false;
        }
        for (unsigned device = 0; device < DEVICES; device++) {
            if (wanted[device]) {
                keep_cycle(&recorder->track[device], recorder->copy[device], waiting[device]);
            }
        }
    }
    return true;
}

/* Without a master there are no cycles to write, and the file stays empty. */
static void write_track(struct recorder *recorder)
{
    if (recorder->master == DEVICES) {
        return;
    }
    const struct track *track = &recorder->track[recorder->master];
    uint8_t text[PL022_TEXT_LENGTH];
    struct pl022_count written = pl022_write_text(track->lines, track->cycles, track->places,
                                                  track->taken, text, sizeof text);
    recorder->refusal = written.refusal;
    errno = 0;
    if (fwrite(text, 1, (size_t)written.count, recorder->file) < written.count) {
        files_keep_error(&recorder->error);
    }
}

void recorder_end(struct recorder *recorder)
{
    write_track(recorder);
    errno = 0;
    if (fclose(recorder->file) != 0) {
        files_keep_error(&recorder->error);
    }
    recorder->file = NULL;
}
