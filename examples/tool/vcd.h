/* vcd.h: all cycles of a script as a value change dump, IEEE 1364. */
#ifndef VCD_H
#define VCD_H

#include <stdbool.h>
#include <stdint.h>
#include <stdio.h>

#include "bench.h"

struct vcd {
    FILE *file;              /* NULL: no dump is wanted */
    uint64_t time;           /* cycles so far */
    uint8_t levels[DEVICES]; /* what the wires hold */
    int error;               /* errno of the first failure, or 0 */
};

/*
 * Takes over the stream and writes the declarations. Cycle n of the script is the
 * unit of time from n to n + 1. Until a device's first cycle its wires hold the levels
 * that its record gives at this call.
 */
void vcd_begin(struct vcd *vcd, FILE *file, const struct bench *bench);

/* Adds the cycles of one command. A device that did not run holds its levels. */
void vcd_add(struct vcd *vcd, const struct bench *bench);

/* Ends the last cycle and closes the stream. See error afterwards. */
void vcd_end(struct vcd *vcd);

#endif
