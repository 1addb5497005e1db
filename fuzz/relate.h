/*
 * relate.h: what must agree between one call and others that do the same work.
 */
#ifndef FUZZ_RELATE_H
#define FUZZ_RELATE_H

#include "calls.h"

/* Makes the other calls, each judged by itself, and compares. */
void relate(const struct request *request, const struct outcome *outcome);

#endif
