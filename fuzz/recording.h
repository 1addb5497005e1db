/*
 * recording.h: recordings that the library itself makes: a master with words in its queue,
 * from the cycle behind its enabling until it rests.
 */
#ifndef FUZZ_RECORDING_H
#define FUZZ_RECORDING_H

#include "calls.h"

/* Whether a master can be enabled with these values, asked by writing them. */
bool recording_enables(uint32_t cr0, uint32_t cpsr);

/* The cycles of a slot, and the bits of a word that are sent, with values that can be enabled. */
size_t recording_slot_cycles(uint32_t cr0, uint32_t cpsr);
uint32_t recording_sent_bits(uint32_t cr0);

/* The recording of the words. False if no buffer is long enough for it. */
bool recording_make(uint32_t cr0, uint32_t cpsr, const uint16_t *words, size_t count,
                    struct bytes *recording);

#endif
