/* A unit of two boards, a quadword, an instruction or a log entry, one beside the other. */
#ifndef UNITS_H
#define UNITS_H

#include "board.h"

/* Two boards, what each is called, and the second minus the first: "board - result". */
struct pair {
    const char *name[2];
    const char *minus;
    const struct board *board[2];
};

/* Says a unit of both. */
void show_unit(const struct pair *pair, enum part part, size_t number);

/* Says how many entries each has, and the first that only one of them has; nothing where they have as many. */
void show_lengths(const struct pair *pair);

/* Says a unit of one as JSON. */
void print_unit_json(const struct board *board, enum part part, size_t number);

#endif
