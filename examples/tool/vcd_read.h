/* vcd_read.h: the output lines of a device, a byte a cycle, from a value change dump. */
#ifndef VCD_READ_H
#define VCD_READ_H

#include <stdbool.h>
#include <stddef.h>
#include <stdint.h>

#include "bench.h"
#include "vcd_words.h"

/* The lines that are read: those of an output byte. */
enum { VCD_WIRES = LINE_NSSPOE + 1 };

/*
 * What to take from a dump. A cycle is the levels at one time, as they are after all changes
 * of that time: at from, then after each period, as long as the time is below to.
 */
struct vcd_choice {
    const char *wire[VCD_WIRES]; /* by line; a name, with scopes and points before it or without */
    uint64_t period;             /* units of time, 1 or more */
    bool has_from;               /* false: from the first time in the file */
    uint64_t from;
    bool has_to;                 /* false: to the last time in the file */
    uint64_t to;
};

/* The names of the wires that the tool's own dumps have for device 0. */
extern const char *const vcd_usual_wires[VCD_WIRES];

/* The options that give the names, for messages. */
extern const char *const vcd_wire_options[VCD_WIRES];

/* Where the cycles are put: at most so many, and the count of them. */
struct vcd_room {
    uint8_t *cycles;
    size_t most;
    size_t count;
    uint64_t start; /* the time of the first cycle, if there is one */
};

/*
 * Reads a dump; reading stops when the room is full, or no further cycle is wanted. False
 * after a message with the line of the file, which has this name.
 */
bool vcd_read(struct vcd_words *words, const char *name, const struct vcd_choice *choice,
              struct vcd_room *room);

#endif
