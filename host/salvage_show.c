/* Salvaged sheets: a table of what was dropped, a row a sheet and a summary, JSON. */
#include <inttypes.h>

#include "json.h"
#include "salvage.h"
#include "tejborun.h"
#include "text.h"
#include "words.h"

static const char *const ends[ENDS] = {"valid", "damaged", "refused", "not read", "not written"};

/* Whether the library answered and the sheet was written. */
static bool is_written(const struct salvaged *sheet)
{
    return sheet->end == SHEET_VALID || sheet->end == SHEET_DAMAGED;
}

/* Bytes and records kept, bytes and ranges dropped, to the line's end. */
static void say_counts(uint64_t kept, uint64_t records, uint64_t dropped, uint64_t ranges)
{
    say("%" PRIu64 " %s kept in %" PRIu64 " %s, ", kept, plural(kept, "byte", "bytes"), records, plural(records, "record", "records"));
    if (ranges == 0)
        say("nothing dropped\n");
    else
        say("%" PRIu64 " %s dropped in %" PRIu64 " %s\n", dropped, plural(dropped, "byte", "bytes"), ranges, plural(ranges, "range", "ranges"));
}

void show_sheet(const struct salvage *salvage, const struct salvaged *sheet)
{
    (void)salvage;
    if (!is_written(sheet))
        return;
    if (sheet->ranges > 0)
        say("dropped of %s, %zu bytes:\n  %-7s  %6s  %6s\n", sheet->name, sheet->bytes, "offset", "", "length");
    for (size_t i = 0; i < sheet->ranges; i++)
        say("  0x%05" PRIX64 "  %6" PRIu64 "  %6" PRIu64 "\n", sheet->range[2 * i], sheet->range[2 * i], sheet->range[2 * i + 1]);
    say("%s: ", sheet->output);
    say_counts(sheet->kept.count, sheet->records, sheet->dropped, sheet->ranges);
}

void show_sheet_row(const struct salvage *salvage, const struct salvaged *sheet)
{
    if (salvage->sheets == 0)
        say("%-*s  %-11s  %7s  %7s  %7s  %6s  %s\n", salvage->width, "sheet", "verdict", "kept", "records", "dropped", "ranges", "first dropped");
    say("%-*s  ", salvage->width, sheet->name);
    if (!is_written(sheet)) {
        say("%s", ends[sheet->end]);
        if (sheet->end == SHEET_REFUSED)
            say(" %" PRIu32, sheet->refusal);
        say("\n");
        return;
    }
    say("%-11s  %7zu  %7zu  %7" PRIu64 "  %6zu", ends[sheet->end], sheet->kept.count, sheet->records, sheet->dropped, sheet->ranges);
    if (sheet->ranges > 0)
        say("  0x%05" PRIX64 "  %6" PRIu64, sheet->range[0], sheet->range[0]);
    say("\n");
}

void show_sheets(const struct salvage *salvage)
{
    const char *between = ": ";
    say("%zu %s", salvage->sheets, plural(salvage->sheets, "sheet", "sheets"));
    for (size_t i = 0; i < ENDS; i++) {
        if (salvage->ends[i] == 0)
            continue;
        say("%s%zu %s", between, salvage->ends[i], ends[i]);
        between = ", ";
    }
    say("; ");
    say_counts(salvage->kept, salvage->records, salvage->dropped, salvage->ranges);
}

/* What is kept and dropped of a sheet. */
static void say_json_numbers(const struct salvaged *sheet)
{
    say(", \"output\": ");
    print_json_text(said_stream(), sheet->output);
    say(", \"bytes\": %zu, \"kept\": %zu, \"records\": %zu, \"dropped\": %" PRIu64 ", \"ranges\": [", sheet->bytes, sheet->kept.count, sheet->records,
        sheet->dropped);
    for (size_t i = 0; i < sheet->ranges; i++)
        say("%s\n      {\"offset\": %" PRIu64 ", \"length\": %" PRIu64 "}", i > 0 ? "," : "", sheet->range[2 * i], sheet->range[2 * i + 1]);
    say("]");
}

void show_sheet_json(const struct salvage *salvage, const struct salvaged *sheet)
{
    say(salvage->sheets == 0 ? "{\n  \"sheets\": [\n" : ",\n");
    say("    {\"file\": ");
    print_json_text(said_stream(), sheet->name);
    say(", \"verdict\": \"%s\", \"status\": %d", ends[sheet->end], sheet->status);
    if (sheet->end == SHEET_REFUSED)
        say(", \"refusal\": %" PRIu32, sheet->refusal);
    if (is_written(sheet))
        say_json_numbers(sheet);
    say("}");
}

void end_sheets_json(const struct salvage *salvage)
{
    static const char *const names[ENDS] = {"valid", "damaged", "refused", "not_read", "not_written"};
    say("\n  ],\n  \"summary\": {\"sheets\": %zu", salvage->sheets);
    for (size_t i = 0; i < ENDS; i++)
        say(", \"%s\": %zu", names[i], salvage->ends[i]);
    say(", \"kept\": %" PRIu64 ", \"records\": %" PRIu64 ", \"dropped\": %" PRIu64 ", \"ranges\": %" PRIu64 "},\n  \"status\": %d\n}\n", salvage->kept,
        salvage->records, salvage->dropped, salvage->ranges, salvage->status);
}

struct bytes ranges_text(const struct salvaged *sheet)
{
    struct output text = {0};
    for (size_t i = 0; i < sheet->ranges; i++) {
        char line[48];
        int length = snprintf(line, sizeof line, "%" PRIu64 " %" PRIu64 "\n", sheet->range[2 * i], sheet->range[2 * i + 1]);
        write_bytes(&text, (const uint8_t *)line, (size_t)length);
    }
    return (struct bytes){text.at, text.count};
}
