/* text.h: a recording that was written as text, read and drawn. */
#ifndef TEXT_H
#define TEXT_H

#include <stdbool.h>
#include <stddef.h>
#include <stdint.h>
#include <stdio.h>

#include "diagram.h"
#include "options.h"

/* A longer text is refused within this many bytes, so that no more need be read. */
enum { TEXT_BYTES = PL022_TEXT_LENGTH + 1 };

struct text {
    uint8_t bytes[TEXT_BYTES];
    size_t length;
    uint8_t lines[PL022_TEXT_CYCLES];
    uint32_t starts[PL022_TEXT_CYCLES];
};

/* What the refusal number of a text means. */
const char *text_refusal(uint64_t refusal);

/* Takes as many bytes as can matter out of a file. False after a message. */
bool text_load(struct text *text, FILE *file, const char *name);

/*
 * Reads the bytes as a text. A refused one is a message with the place that decided, which
 * ends with the words given.
 */
struct pl022_text text_read(struct text *text, const char *name, const char *words);

/*
 * Draws the text in a file, a diagram for each of its lines; none for an empty text. A text
 * that is refused is a message with the place that decided, and STATUS_WRONG.
 */
enum status text_draw(FILE *file, const char *name, const struct diagram *diagram, FILE *out);

#endif
