/*
 * record.h: the fields of a device record, held to the rules of docs/RECORD.md.
 */
#ifndef FUZZ_RECORD_H
#define FUZZ_RECORD_H

#include <stdbool.h>
#include <stddef.h>
#include <stdint.h>

#include "pl022.h"

enum { FORMATS = 3, LEAST_DSS = 3 };

/* FRF as a number below FORMATS. */
unsigned record_format(const uint8_t *record);
unsigned record_dss(const uint8_t *record);

/* FRF below 3 and DSS at least 3. */
bool cr0_permitted(uint32_t cr0);

/* A permitted CR0 with this SCR. */
uint32_t draw_cr0(uint32_t scr);

bool record_enabled(const uint8_t *record);

/* SSE is clear, and in edition 2 a frame goes on. */
bool record_stopped(const uint8_t *record);

/* Enabled or stopped: CR0, CPSR, MS and LBM are fixed. */
bool record_active(const uint8_t *record);

/* The bits of a received word: b, but a control byte in a Microwire slave. */
uint32_t record_received_bits(const uint8_t *record);

/* The rules for sound records of docs/MODEL.md. */
bool record_sound(const uint8_t *record);

/* The word that a read of a sound record gives at an offset that can be read. */
uint32_t record_word(const uint8_t *record, uint32_t offset);

/* The record after a reset to the edition. */
void record_after_reset(uint8_t *record, uint32_t edition);

/* What a write of CR1 that is done makes of a sound record. */
void record_write_cr1(uint8_t *record, uint8_t value);

/* The lines of a sound record's device while it is not active. */
uint8_t record_idle_lines(const uint8_t *record);

bool record_engine_clear(const uint8_t *record);

/* Takes the words to send over from another record. */
void record_copy_queue(uint8_t *record, const uint8_t *from);

/* Word number n of the receive queue. */
uint16_t record_received(const uint8_t *record, size_t n);

/* Empties the receive queue. */
void record_drain(uint8_t *record);

/* A sound record with fields at, near and far from their limits. */
void record_forge(uint8_t *record);

/*
 * A sound record of an enabled device that soon loses words: a master with words to send, or a
 * slave, with slots of few cycles and little room in the receive queue.
 */
void record_before_overrun(uint8_t *record);

/* Makes a sound and enabled record one that is stopped in a frame; leaves any other. */
void record_stop(uint8_t *record);

/* Lifts one field to one above its limit, or breaks another rule, where that is possible. */
void record_overstep(uint8_t *record);

/* Changes one bit or one byte. */
void record_damage(uint8_t *record);

#endif
