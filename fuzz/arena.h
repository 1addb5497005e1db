/*
 * arena.h: buffers to lend, placed so that an access outside of them shows.
 *
 * The library is not instrumented, so the sanitizer does not see what it does. A page
 * without access directly behind or before the buffer stops it instead, and canary bytes
 * stand on the sides that have no such page.
 */
#ifndef FUZZ_ARENA_H
#define FUZZ_ARENA_H

#include "calls.h"

enum { STACK_LIMIT = 512 };

enum placement {
    PLACE_GUARD_BEHIND,
    PLACE_GUARD_BEFORE,
    PLACE_BETWEEN_CANARIES,
    PLACE_HEAP,
    PLACE_STACK,
    PLACEMENTS
};

struct loan {
    uint8_t *bytes;
    size_t length;
    enum placement placement;
    enum role role;
    uint8_t canary;
};

void arena_open(void);

/* Lends a copy of the content; stack has STACK_LIMIT bytes of the caller's frame. */
void arena_lend(struct loan *loan, enum role role, const struct bytes *content, uint8_t *stack);

bool arena_intact(const struct loan *loan);

void arena_take_back(struct loan *loan);

/* Zero bytes, most of which are never touched and so cost no memory. */
uint8_t *arena_wide(size_t length);

#endif
