/* answer.h: carries out one command and prints its answer. */
#ifndef ANSWER_H
#define ANSWER_H

#include <stdio.h>

#include "bench.h"
#include "command.h"

enum answer_status { ANSWER_GIVEN, ANSWER_NO_MEMORY, ANSWER_PAIR_REFUSED };

/*
 * Prints one line; the bench's recordings are those of this command afterwards.
 * A refusal is an answer. Only a pair has no place for one in its answer: the
 * library refuses a pair of records it made itself only if it is broken.
 */
enum answer_status answer(const struct command *command, struct bench *bench, FILE *out);

/* Prints words as an answer shows them, hexadecimal, with commas between. */
void answer_words(const uint16_t *words, size_t count, FILE *out);

/* Prints a line for each device that lost words in this command. */
void answer_lost(const struct bench *bench, FILE *out);

#endif
