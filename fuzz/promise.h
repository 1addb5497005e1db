/*
 * promise.h: makes a call and holds it to what the header says of it.
 */
#ifndef FUZZ_PROMISE_H
#define FUZZ_PROMISE_H

#include "calls.h"

/* Makes the call, checks all that can be told from this one call, and counts it. */
void judge(const struct request *request, struct outcome *outcome);

/* Whether the library serves a record, asked by a read that is always possible. */
bool library_serves(const uint8_t *record);

/* Calls that agree modulo 2 to the power of 32 in a length must not be confused. */
void judge_wide_lengths(void);

#endif
