/* How far a long run has come, on a terminal; and the wish to stop it. */
#ifndef PROGRESS_H
#define PROGRESS_H

#include <stdbool.h>
#include <stddef.h>
#include <stdint.h>

/* From here on Ctrl-C is a wish to stop, the second one stops the program. */
void watch_interrupts(void);
void unwatch_interrupts(void);

/* Whether there was such a wish. */
bool is_interrupted(void);

/* Shows steps and rate on standard error where that is a terminal, at most twice a second; removes it. */
void show_progress(uint64_t steps);
void end_progress(void);

/* The same for so many of a number of files; the time goes on from the first. */
void show_count(size_t done, size_t all, const char *what);
void end_count(void);

#endif
