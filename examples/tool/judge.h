/* judge.h: judges a recording in a file, and says where two recordings first differ. */
#ifndef JUDGE_H
#define JUDGE_H

#include <stdio.h>

#include "diagram.h"
#include "options.h"

/* Exit statuses, as those of cmp and diff: trouble is wrong usage or a file that failed. */
enum verdict { VERDICT_YES = 0, VERDICT_NO = 1, VERDICT_TROUBLE = 2 };

/* Says whether the recording in the input is accepted, with its words or what is wrong. */
enum verdict judge_recording(const struct options *options, const struct diagram *diagram,
                             FILE *out);

/* Says whether the recordings in both inputs are the same, or where they first differ. */
enum verdict judge_difference(const struct options *options, const struct diagram *diagram,
                              FILE *out);

#endif
