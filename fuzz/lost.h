/*
 * lost.h: the words that runs hand up as lost.
 */
#ifndef FUZZ_LOST_H
#define FUZZ_LOST_H

#include "calls.h"

/* How many words the call lost, of both records. */
uint64_t lost_words(const struct outcome *outcome);

/* Whether all that was handed up is 0. */
bool lost_nothing(const struct outcome *outcome);

/* Adds what a later part of a run lost. */
void lost_add(struct pl022_lost *sum, const struct pl022_lost *later);

/* Whether two calls handed up the same for both records. */
bool lost_equal(const struct pl022_lost one[RECORD_ROLES],
                const struct pl022_lost other[RECORD_ROLES]);

/* Holds a done run to what the header says of the words lost by one of its records. */
void lost_check(const struct request *request, const struct outcome *outcome, enum role role);

#endif
