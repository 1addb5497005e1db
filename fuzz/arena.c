#include "arena.h"

#include <stdio.h>
#include <stdlib.h>
#include <string.h>
#include <sys/mman.h>
#include <unistd.h>

#include "draw.h"

enum { CANARY = 64 };

/* The accessible bytes of each role; pages without access enclose them. */
static struct {
    uint8_t *start;
    uint8_t *end;
} regions[ROLES];

static _Noreturn void give_up(const char *what)
{
    perror(what);
    exit(2);
}

static uint8_t *map(size_t length, int protection, int flags)
{
    uint8_t *bytes = mmap(NULL, length, protection, MAP_PRIVATE | MAP_ANONYMOUS | flags, -1, 0);
    if (bytes == MAP_FAILED) {
        give_up("fuzz: mmap");
    }
    return bytes;
}

void arena_open(void)
{
    size_t page = (size_t)sysconf(_SC_PAGESIZE);
    size_t inner = (BYTES_LIMIT + 2 * CANARY + page - 1) / page * page;

    for (unsigned role = 0; role < ROLES; role++) {
        uint8_t *outer = map(inner + 2 * page, PROT_NONE, 0);
        regions[role].start = outer + page;
        regions[role].end = outer + page + inner;
        if (mprotect(regions[role].start, inner, PROT_READ | PROT_WRITE) != 0) {
            give_up("fuzz: mprotect");
        }
    }
}

uint8_t *arena_wide(size_t length)
{
    return map(length, PROT_READ | PROT_WRITE, MAP_NORESERVE);
}

static bool in_region(const struct loan *loan)
{
    return loan->placement != PLACE_HEAP && loan->placement != PLACE_STACK;
}

static size_t canaries_in(size_t room)
{
    return room < CANARY ? room : CANARY;
}

static size_t canaries_before(const struct loan *loan)
{
    return in_region(loan) ? canaries_in((size_t)(loan->bytes - regions[loan->role].start)) : 0;
}

static size_t canaries_behind(const struct loan *loan)
{
    const uint8_t *behind = loan->bytes + loan->length;
    return in_region(loan) ? canaries_in((size_t)(regions[loan->role].end - behind)) : 0;
}

static uint8_t *heap(size_t length)
{
    uint8_t *bytes = malloc(length == 0 ? 1 : length);
    if (bytes == NULL) {
        give_up("fuzz: malloc");
    }
    return bytes;
}

/* Numbers stand where numbers may stand. */
static uint32_t alignment(enum role role)
{
    return role == ROLE_PLACES ? PLACE_SIZE : role == ROLE_WORDS ? WORD_SIZE : 1;
}

static uint8_t *place(const struct loan *loan, uint8_t *stack)
{
    switch (loan->placement) {
    case PLACE_GUARD_BEFORE:
        return regions[loan->role].start;
    case PLACE_BETWEEN_CANARIES:
        return regions[loan->role].start
             + alignment(loan->role) * draw_between(1, CANARY / alignment(loan->role));
    case PLACE_HEAP:
        return heap(loan->length);
    case PLACE_STACK:
        return stack;
    default:
        return regions[loan->role].end - loan->length;
    }
}

void arena_lend(struct loan *loan, enum role role, const struct bytes *content, uint8_t *stack)
{
    loan->role = role;
    loan->length = content->length;
    loan->placement = (enum placement)draw_below(PLACEMENTS);
    if (loan->placement == PLACE_STACK && loan->length > STACK_LIMIT) {
        loan->placement = PLACE_GUARD_BEHIND;
    }
    /* High bit set: no line byte looks like it, nor does a byte that is cleared. */
    loan->canary = (uint8_t)draw_between(0x80, 0xFF);
    loan->bytes = place(loan, stack);

    size_t before = canaries_before(loan);
    size_t behind = canaries_behind(loan);
    /* At the edge of a page without access there may be no byte to set. */
    if (before > 0) {
        memset(loan->bytes - before, loan->canary, before);
    }
    if (behind > 0) {
        memset(loan->bytes + loan->length, loan->canary, behind);
    }
    if (loan->length > 0) {
        memcpy(loan->bytes, content->data, loan->length);
    }
}

static bool all_are(const uint8_t *bytes, size_t length, uint8_t value)
{
    size_t same = 0;
    while (same < length && bytes[same] == value) {
        same++;
    }
    return same == length;
}

bool arena_intact(const struct loan *loan)
{
    size_t before = canaries_before(loan);
    return all_are(loan->bytes - before, before, loan->canary)
        && all_are(loan->bytes + loan->length, canaries_behind(loan), loan->canary);
}

void arena_take_back(struct loan *loan)
{
    if (loan->placement == PLACE_HEAP) {
        free(loan->bytes);
    }
    loan->bytes = NULL;
}
