/*
 * draw.h: the only source of choices. A case's choices depend on the seed and the
 * case's number alone, so that any case can be run again by itself. No expression draws
 * twice without a fixed order, so that all compilers draw alike.
 */
#ifndef FUZZ_DRAW_H
#define FUZZ_DRAW_H

#include <stdbool.h>
#include <stddef.h>
#include <stdint.h>

void draw_seed(uint64_t seed, uint64_t number);

/* Where the stream of choices stands: equal runs end at equal places. */
uint64_t draw_place(void);

uint64_t draw_bits(void);

/* 0 to limit - 1; the limit is not 0. */
uint32_t draw_below(uint32_t limit);

/* low to high, both included. */
uint32_t draw_between(uint32_t low, uint32_t high);

bool draw_one_in(uint32_t n);

void draw_bytes(uint8_t *bytes, size_t length);

#endif
