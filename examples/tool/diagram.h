/* diagram.h: recordings as a timing diagram of characters. */
#ifndef DIAGRAM_H
#define DIAGRAM_H

#include <stdbool.h>
#include <stdint.h>
#include <stdio.h>

#include "bench.h"

struct diagram {
    bool ascii;       /* plain ASCII instead of line drawing characters */
    unsigned columns; /* width of the terminal */
};

/* The width from the environment's COLUMNS if that is sane, otherwise 80. */
unsigned diagram_columns(void);

/*
 * Draws what a command ran; nothing if no cycle did. Every line begins with a blank,
 * which no answer does, so that both can be told apart. The time is that of the first
 * cycle, counted from the script's first one.
 */
void diagram_draw(const struct diagram *diagram, const struct bench *bench, uint64_t time,
                  FILE *out);

/* Draws the output lines of one recording in the same way; it has a cycle, but no device. */
void diagram_draw_recording(const struct diagram *diagram, const struct recording *recording,
                            uint64_t time, FILE *out);

/*
 * Draws as many cycles of a recording as fit into the width, some before and some behind the
 * given one, which a row below the others marks. It may be the cycle behind the last. The
 * numbers above the rows are those of the recording's cycles; nothing is drawn if it has none.
 */
void diagram_draw_around(const struct diagram *diagram, const struct recording *recording,
                         size_t cycle, FILE *out);

/* The same from a cycle on, without a mark. */
void diagram_draw_from(const struct diagram *diagram, const struct recording *recording,
                       size_t cycle, FILE *out);

#endif
