/* The records of a sheet one after another, as far as the library says that they are valid; what is found here is shown and decides nothing. */
#ifndef RECORDS_H
#define RECORDS_H

#include <stdbool.h>
#include <stddef.h>
#include <stdint.h>

#include "files.h"

/* The bytes of a record's header, and where its kind and count are: the kinds beside data, code, GS and start, 1 to 4, are the second edition's. */
enum { HEADER_BYTES = 6, KIND_AT = 2, COUNT_AT = 3, ADDRESS_AT = 4 };
enum { KIND_EDITION = 0, KIND_GROUP = 5, KINDS_OF_RECORDS = 6 };

enum { MOST_DEPTH = 8 }; /* of groups in groups, in a valid sheet */

/* Bytes of a unit of a valid record's body, by its kind: a vector, an instruction, a write; 0 where there is no body. */
size_t unit_bytes(const uint8_t *record);

/* The units of a valid record's body. */
unsigned count_units(const uint8_t *record);

/* Bytes of a valid record, by its header; of a group its header alone. */
size_t record_bytes(const uint8_t *record);

/* The records of a group that are still to come. */
struct open_group {
    size_t at; /* where its header is */
    unsigned left;
    uint64_t times; /* how often its records come in the expansion */
};

/* A place between two records of a sheet. */
struct place {
    size_t at;    /* of the next record */
    size_t depth; /* the groups that it lies in */
    struct open_group open[MOST_DEPTH];
};

/* Passes over the valid record at the place; over a group's header alone. */
void pass_record(struct place *place, const uint8_t *sheet);

/* Leaves the innermost group where its last record has been passed; whether there was one to leave. */
bool leave_group(struct place *place);

/* What a valid sheet holds: records of kinds 1 to 4, groups, and the records of its expansion, which a chain of the longest length bounds. */
struct record_counts {
    bool second; /* of the second edition */
    uint64_t records, groups, expanded;
};
struct record_counts count_records(const struct bytes *sheet);

/* The counts of a sheet of the second edition: "3 records and 1 group in the sheet, 401 records in its expansion". */
enum { COUNTS_TEXT = 128 };
void counts_words(const struct record_counts *counts, char text[COUNTS_TEXT]);

#endif
