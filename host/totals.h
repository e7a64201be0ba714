/* Totals of many runs, and the file that keeps them (docs/FORMATS.md). */
#ifndef TOTALS_H
#define TOTALS_H

#include <stdint.h>

#include "files.h"
#include "tejborun.h"

struct totals {
    uint64_t total[TEJBORUN_TOTALS];
    uint64_t runs; /* that were added */
};

/* A totals file: these words and nothing else. */
struct totals_file {
    uint32_t mark;
    uint32_t total[TEJBORUN_TOTALS][2];
    uint32_t runs[2];
};

/* Totals from their file's bytes, and its words. A status. */
int parse_totals(const char *name, const struct bytes *file, struct totals *totals);
struct totals_file totals_file_of(const struct totals *totals);

#endif
