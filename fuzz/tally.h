/*
 * tally.h: counts what was reached, and says what was not.
 */
#ifndef FUZZ_TALLY_H
#define FUZZ_TALLY_H

#include "calls.h"

void tally_call(const struct request *request, const struct outcome *outcome);

uint64_t tally_calls(void);

/* A digest of all answers since the last call of this. */
uint64_t tally_digest(void);

/* Prints the counts on the present line. */
void tally_print(void);

/* Says on standard error what was never reached; true if there is nothing. */
bool tally_complete(void);

#endif
