/* What is kept of damaged sheets, and what is printed of them. */
#ifndef SALVAGE_H
#define SALVAGE_H

#include <stdbool.h>
#include <stddef.h>
#include <stdint.h>

#include "files.h"

/* How a sheet ends. */
enum end { SHEET_VALID, SHEET_DAMAGED, SHEET_REFUSED, SHEET_NOT_READ, SHEET_NOT_WRITTEN, ENDS };

/* A sheet's file, and what the library says of it. */
struct salvaged {
    const char *name, *output; /* files: the sheet's, and what is written */
    enum end end;
    uint32_t refusal; /* where it is refused */
    size_t bytes, records;
    struct bytes kept;
    uint64_t *range; /* offset and length of each */
    size_t ranges;
    uint64_t dropped; /* bytes: the sum of the lengths */
    int status;
};

/* All sheets so far. */
struct salvage {
    size_t sheets, ends[ENDS];
    uint64_t kept, records, dropped, ranges; /* of those that are written */
    int width;                               /* of the sheets' names, in characters */
    int status;                              /* the worst */
};

/* Each prints a sheet, and after the last one what is to be said of all. */
typedef void show_salvaged(const struct salvage *salvage, const struct salvaged *sheet);
typedef void show_salvage(const struct salvage *salvage);
show_salvaged show_sheet, show_sheet_row, show_sheet_json;
show_salvage show_sheets, end_sheets_json;

/* The ranges as text, a line each; the caller frees it. */
struct bytes ranges_text(const struct salvaged *sheet);

#endif
