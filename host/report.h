/* The page of a report: its parts. */
#ifndef REPORT_H
#define REPORT_H

#include <stdio.h>

#include "compare.h"

/* Prints a text into the page, whatever it has in it. */
void print_escaped(FILE *page, const char *text);

/* Draws a memory's units: the same, different, or as they were before the transfer; where they were written is not known otherwise. */
void draw_map(FILE *page, const struct board *before, const struct board *result, const struct board *board, enum part part);

/* Draws board minus result by quadword, a strip for each field. */
void draw_differences(FILE *page, const struct board *result, const struct board *board, enum part part);

#endif
