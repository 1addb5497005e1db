/* word.h: a word of a script, of the command line or of a file: quoted, or read as a number. */
#ifndef WORD_H
#define WORD_H

#include <stdbool.h>
#include <stddef.h>
#include <stdint.h>

enum { NOT_A_DIGIT = 16 };

/* A word as a message shows it: cut short, and without bytes that upset a terminal. */
struct quoted {
    char text[28];
};

struct quoted word_quote(const char *text, size_t length);

/* The value of a hexadecimal digit, capital or small; NOT_A_DIGIT for any other byte. */
unsigned word_digit(char byte);

/* Reads digits of the base. False if there are none, others, or the number is above most. */
bool word_number(const char *text, size_t length, unsigned base, uint64_t most, uint64_t *number);

#endif
