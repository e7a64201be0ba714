/* Files as text (docs/TEXT.md). */
#ifndef DUMP_H
#define DUMP_H

#include <stddef.h>
#include <stdint.h>
#include <stdio.h>

#include "board.h"
#include "files.h"

/* Each prints the file of these bytes and hands back the exit status. */
int dump_sheet(const char *name, const struct bytes *file);
int dump_chain(const char *name, const struct bytes *file);
int dump_state(const char *name, const struct bytes *file);
int dump_capture(const char *name, const struct bytes *file);
int dump_result(const char *name, const struct bytes *file);
int dump_totals(const char *name, const struct bytes *file);

/* Prints words of main memory by their roles. */
void print_words(const uint32_t *words, const uint8_t *roles, size_t count);

/* Prints the units of a part below a number that are not zero, the last of them in any case where so wanted; of the log also those used. */
void print_part(const struct board *board, enum part part, size_t end, bool last);

/* Prints a state block, one or more lines. */
void print_state(const struct tejborun_state *state);

/* Prints a register's name, or its number where it has none. */
void print_register(uint64_t number);

#endif
