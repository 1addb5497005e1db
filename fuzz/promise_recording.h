/*
 * promise_recording.h: what the header says of the two calls on recordings. No rule of a
 * master is said again here: the library makes the recordings that it has to accept.
 */
#ifndef FUZZ_PROMISE_RECORDING_H
#define FUZZ_PROMISE_RECORDING_H

#include "calls.h"

/* The number that is due; that of the outcome, if nothing is known of the recording. */
uint64_t recording_expected_refusal(const struct request *request, const struct outcome *outcome);

/* What comes with 21, or with an accepted recording. */
void recording_check_no_match(const struct request *request, const struct outcome *outcome);
void recording_check_accepted(const struct request *request, const struct outcome *outcome);

/* The part is that of a plain comparison. */
void recording_check_difference(const struct request *request, const struct outcome *outcome);

/* The bytes are more than 32 bits can count; some are overwritten. */
void recording_judge_wide_lengths(uint8_t *bytes, size_t length);

#endif
