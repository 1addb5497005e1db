/* bench.h: the two devices of a script, and the recordings and lost words of one command. */
#ifndef BENCH_H
#define BENCH_H

#include <stdbool.h>
#include <stddef.h>
#include <stdint.h>

#include "pl022.h"

#define DEVICES 2U

/* The most cycles that one command may run: no script can exhaust the memory. */
#define MOST_CYCLES ((size_t)1 << 24)

/*
 * All lines of a device, output and input. Line n is bit n of a level byte; its low bits
 * are the library's output byte.
 */
enum line_number {
    LINE_CLK,
    LINE_FSS,
    LINE_TXD,
    LINE_NSSPOE,
    LINE_CLK_IN,
    LINE_FSS_IN,
    LINE_RXD,
    LINE_COUNT
};

_Static_assert(1 << LINE_CLK == PL022_CLK && 1 << LINE_FSS == PL022_FSS
                   && 1 << LINE_TXD == PL022_TXD && 1 << LINE_NSSPOE == PL022_NSSPOE,
               "the low bits of a level byte are an output byte");
_Static_assert(1 << LINE_CLK_IN == PL022_CLK << LINE_CLK_IN
                   && 1 << LINE_FSS_IN == PL022_FSS << LINE_CLK_IN
                   && 1 << LINE_RXD == PL022_RXD << LINE_CLK_IN
                   && LINE_CLK_IN > LINE_NSSPOE,
               "the bits from LINE_CLK_IN on are an input byte");

struct recording {
    uint8_t *levels; /* a level byte for each cycle */
    size_t capacity;
    size_t cycles;   /* 0 if the device did not run in this command */
    uint8_t before;  /* the levels in the device's cycle before the first */
};

struct bench {
    uint8_t record[DEVICES][PL022_RECORD_LENGTH];
    struct recording recording[DEVICES];
    struct pl022_lost lost[DEVICES]; /* in this command */
};

/* Two devices as after reset. The bench's bytes must be zero before. */
void bench_begin(struct bench *bench);

void bench_free(struct bench *bench);

/* Forgets the recordings and lost words of the command before. */
void bench_next(struct bench *bench);

/* The cycles that this command ran; in a pair both devices ran as many. */
size_t bench_cycles(const struct bench *bench);

/* Whether this command ran a cycle of the wired pair. */
bool bench_ran_pair(const struct bench *bench);

/* The levels in the last cycle of a device, from its record. */
uint8_t bench_last_levels(const struct bench *bench, unsigned device);

/*
 * Runs one device, all cycles or until it is idle. False if there was no memory,
 * and then nothing has run; otherwise the library's refusal number is given.
 */
bool bench_run(struct bench *bench, unsigned device, const uint8_t *input, size_t cycles,
               bool to_idle, uint64_t *refusal);

/* Runs the wired pair; as above. */
bool bench_pair(struct bench *bench, size_t cycles, uint64_t *refusal);

#endif
