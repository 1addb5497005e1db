/* recorded.h: a recording out of a file, which is a text or a value change dump. */
#ifndef RECORDED_H
#define RECORDED_H

#include <stdbool.h>
#include <stddef.h>
#include <stdint.h>
#include <stdio.h>

#include "pl022.h"
#include "vcd_read.h"

/* One more than can be judged: enough for the library to refuse it. */
enum { RECORDED_CYCLES = PL022_JUDGE_CYCLES + 1 };

struct recorded {
    uint8_t cycles[RECORDED_CYCLES]; /* an output byte each */
    size_t count;                    /* a longer recording is cut at RECORDED_CYCLES */
    bool is_vcd;
    uint64_t start;                  /* VCD: the time of the first cycle */
    uint64_t period;                 /* VCD: from one cycle to the next */
};

/*
 * Reads a file whose first character other than white space is $ as a dump, any other as a
 * text. False after a message with the line and what is wrong.
 */
bool recorded_read(struct recorded *recorded, FILE *file, const char *name,
                   const struct vcd_choice *choice);

#endif
