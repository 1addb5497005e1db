/* vcd_words.h: the words of a value change dump, one at a time within a fixed bound. */
#ifndef VCD_WORDS_H
#define VCD_WORDS_H

#include <stdbool.h>
#include <stddef.h>
#include <stdint.h>
#include <stdio.h>

/* Names are longer than this only in a damaged file; a vector's value may be, and is cut. */
enum { VCD_WORD_LIMIT = 512 };

/* Begin with {.file = ..., .head = ..., .head_length = ...}; the rest zero. */
struct vcd_words {
    FILE *file;
    const uint8_t *head; /* the bytes before those that are still in the file */
    size_t head_length;
    size_t head_at;
    size_t line_feeds;   /* before the next byte */

    char text[VCD_WORD_LIMIT]; /* this word, cut if it is longer, ended by a NUL */
    size_t length;             /* of the whole word */
    size_t line;               /* of this word, from 1 */
};

/* Whether words are separated by this byte. */
bool vcd_words_is_space(int byte);

/* Reads the next word. False at the end of the file or if reading fails. */
bool vcd_words_next(struct vcd_words *words);

/* Whether this word is the given one. */
bool vcd_words_are(const struct vcd_words *words, const char *text);

#endif
