#include "draw.h"

static uint64_t state;

/* Spreads every bit over the whole word; a bijection, so no state is lost. */
static uint64_t spread(uint64_t word)
{
    word = (word ^ (word >> 30)) * UINT64_C(0xBF58476D1CE4E5B9);
    word = (word ^ (word >> 27)) * UINT64_C(0x94D049BB133111EB);
    return word ^ (word >> 31);
}

void draw_seed(uint64_t seed, uint64_t number)
{
    state = spread(spread(seed) ^ number);
}

uint64_t draw_place(void)
{
    return state;
}

uint64_t draw_bits(void)
{
    state += UINT64_C(0x9E3779B97F4A7C15);
    return spread(state);
}

uint32_t draw_below(uint32_t limit)
{
    return (uint32_t)(((draw_bits() >> 32) * limit) >> 32);
}

uint32_t draw_between(uint32_t low, uint32_t high)
{
    return low + draw_below(high - low + 1);
}

bool draw_one_in(uint32_t n)
{
    return draw_below(n) == 0;
}

void draw_bytes(uint8_t *bytes, size_t length)
{
    uint64_t word = 0;
    for (size_t i = 0; i < length; i++) {
        word = i % 8 == 0 ? draw_bits() : word >> 8;
        bytes[i] = (uint8_t)word;
    }
}
