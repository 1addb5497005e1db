/* script.h: the lines of a script, read one at a time within a fixed bound. */
#ifndef SCRIPT_H
#define SCRIPT_H

#include <stddef.h>
#include <stdio.h>

#include "bench.h"

/* Room for the longest recording and for the words and blanks around it. */
#define SCRIPT_LINE_LIMIT (MOST_CYCLES + 4096U)

/* Begin with {.file = ...}; the rest zero. */
struct script {
    FILE *file;
    char *text;           /* this line: not ended by a NUL, and may hold some */
    size_t length;
    size_t capacity;
    unsigned long number; /* of this line, from 1 */
};

enum script_status { SCRIPT_LINE, SCRIPT_END, SCRIPT_LINE_TOO_LONG, SCRIPT_FAILED };

/*
 * Reads the next line without its line end, LF or CRLF. The last line needs none.
 * SCRIPT_FAILED leaves the reason in errno.
 */
enum script_status script_next(struct script *script);

void script_free(struct script *script);

#endif
