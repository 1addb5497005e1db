/* recorder.h: the cycles of a script's master, with the places of its words, as text. */
#ifndef RECORDER_H
#define RECORDER_H

#include <stdbool.h>
#include <stdint.h>
#include <stdio.h>

#include "bench.h"

/* One more than fits into a text: enough for the library to refuse it. */
#define RECORDER_CYCLES (PL022_TEXT_CYCLES + 1)

/* The cycles that a device ran with MS 0. */
struct track {
    size_t cycles;
    uint8_t lines[RECORDER_CYCLES];   /* an output byte for each cycle */
    size_t taken;
    uint32_t places[RECORDER_CYCLES]; /* the cycles in which a word was taken */
};

struct recorder {
    FILE *file;       /* NULL: no text is wanted */
    uint8_t copy[DEVICES][PL022_RECORD_LENGTH];
    struct track track[DEVICES];
    unsigned master;  /* the device whose track is written, or DEVICES if there is none yet */
    uint64_t refusal; /* the library's number for the recording, or 0 */
    int error;        /* errno of a failed write, or 0 */
};

/* Takes over the stream. */
void recorder_begin(struct recorder *recorder, FILE *file);

/* Keeps copies of the records as they are before a command. */
void recorder_prepare(struct recorder *recorder, const struct bench *bench);

/*
 * Adds the cycles that the command ran. The master is the device that first runs a cycle
 * with MS 0 and SSE 1, device 0 if both do in one. False if the library refuses to repeat
 * a cycle, which it does only if it is broken.
 */
bool recorder_add(struct recorder *recorder, const struct bench *bench);

/*
 * Writes the text and closes the stream. See refusal and error afterwards: if either is
 * not 0, the recording is not in the file.
 */
void recorder_end(struct recorder *recorder);

#endif
