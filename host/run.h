/* Captures that are run for the counts of their runs alone. */
#ifndef RUN_H
#define RUN_H

#include "capture.h"
#include "command.h"

/* Takes the counts of a run. A status: no call is made after one that is not done. */
typedef int take_run(void *context, const uint64_t counts[TEJBORUN_COUNTS]);

/* Makes the calls of a capture and hands over the counts of each run, whatever its answer; says nothing. A status: that of the function, or stopped where it is
 * interrupted. */
int run_for_counts(const struct words_given *given, const struct capture *capture, take_run *take, void *context);

#endif
