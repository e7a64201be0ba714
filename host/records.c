/* The records of a sheet one after another. */
#include "records.h"

#include <inttypes.h>
#include <stdio.h>

#include "words.h"

size_t unit_bytes(const uint8_t *record)
{
    static const size_t bytes[KINDS_OF_RECORDS] = {0, 16, 8, 16, 0, 0};
    return record[KIND_AT] < KINDS_OF_RECORDS ? bytes[record[KIND_AT]] : 0;
}

unsigned count_units(const uint8_t *record)
{
    return unit_bytes(record) > 0 ? record[COUNT_AT] : 0;
}

size_t record_bytes(const uint8_t *record)
{
    return HEADER_BYTES + count_units(record) * unit_bytes(record);
}

/* How often the next record comes in the expansion. */
static uint64_t times_at(const struct place *place)
{
    return place->depth > 0 ? place->open[place->depth - 1].times : 1;
}

void pass_record(struct place *place, const uint8_t *sheet)
{
    const uint8_t *record = sheet + place->at;
    uint64_t times = times_at(place);
    if (place->depth > 0)
        place->open[place->depth - 1].left--;
    if (record[KIND_AT] == KIND_GROUP && place->depth < MOST_DEPTH)
        place->open[place->depth++] = (struct open_group){
            .at = place->at,
            .left = record[ADDRESS_AT] | (unsigned)record[ADDRESS_AT + 1] << 8,
            .times = times * record[COUNT_AT],
        };
    place->at += record_bytes(record);
}

bool leave_group(struct place *place)
{
    if (place->depth == 0 || place->open[place->depth - 1].left > 0)
        return false;
    place->depth--;
    return true;
}

struct record_counts count_records(const struct bytes *sheet)
{
    struct record_counts counts = {0};
    for (struct place place = {0}; place.at < sheet->count;) {
        uint8_t kind = sheet->at[place.at + KIND_AT];
        if (kind == KIND_EDITION) {
            counts.second = true;
        } else if (kind == KIND_GROUP) {
            counts.groups++;
        } else {
            counts.records++;
            counts.expanded += times_at(&place);
        }
        pass_record(&place, sheet->at);
        while (leave_group(&place))
            ;
    }
    return counts;
}

void counts_words(const struct record_counts *counts, char text[COUNTS_TEXT])
{
    snprintf(text, COUNTS_TEXT, "%" PRIu64 " %s and %" PRIu64 " %s in the sheet, %" PRIu64 " %s in its expansion", counts->records,
             plural(counts->records, "record", "records"), counts->groups, plural(counts->groups, "group", "groups"), counts->expanded,
             plural(counts->expanded, "record", "records"));
}
