/*
 * promise_text.h: what the header says of the two calls on texts. Which texts can be read is
 * not said again here: a text is made for its answer, see session_text.c.
 */
#ifndef FUZZ_PROMISE_TEXT_H
#define FUZZ_PROMISE_TEXT_H

#include "calls.h"

/* The lines of the text that a recording makes: one for each place, and one before the first. */
size_t text_lines(const struct request *request);

/* The character of a cycle, 0 to 15. */
uint8_t text_digit(unsigned cycle);

/* The number that is due; that of the outcome, if the request's text was made at random. */
uint64_t text_expected_refusal(const struct request *request, const struct outcome *outcome);

void text_check_written(const struct request *request, const struct outcome *outcome);
void text_check_read(const struct request *request, const struct outcome *outcome);

/* The bytes are zeros, more than 32 bits can count; some are overwritten. */
void text_judge_wide_lengths(uint8_t *bytes, size_t length);

#endif
