/* The command salvage: damaged sheets, one or many. */
#include "salvage.h"

#include <inttypes.h>
#include <stdlib.h>
#include <string.h>

#include "command.h"
#include "kinds.h"
#include "progress.h"
#include "records.h"
#include "sheet.h"
#include "tejborun.h"

/* Complains where the file is something else: text, of which a sheet is assembled, or a file with another's mark. Filler without a line's end is no text. A
 * status. */
static int check_sheet(const char *name, const struct bytes *file)
{
    const char *kind = kind_by_mark(file);
    if (is_text(file) && memchr(file->at, '\n', file->count) != NULL)
        return complain(name, "it is text; assemble it first: tejborun assemble sheet %s -o SHEET", name);
    if (kind != NULL && strcmp(kind, "sheet") != 0)
        return complain(name, "no sheet: it begins with the mark of a %s", kind);
    return STATUS_DONE;
}

static uint64_t sum_lengths(const struct salvaged *sheet)
{
    uint64_t sum = 0;
    for (size_t i = 0; i < sheet->ranges; i++)
        sum += sheet->range[2 * i + 1];
    return sum;
}

/* Asks the library what is kept, with room for every byte of the sheet and for a range each. */
static void keep_records(const struct bytes *file, struct salvaged *sheet)
{
    uint64_t numbers[2] = {0};
    size_t room = file->count < TEJBORUN_SHEET_BYTES ? file->count : TEJBORUN_SHEET_BYTES;
    sheet->bytes = file->count;
    sheet->kept.at = allocate(room, 1);
    sheet->range = allocate(2 * room, sizeof *sheet->range);
    sheet->refusal = tejborun_salvage(file->at, file->count, sheet->kept.at, room, sheet->range, 2 * room, numbers, 2);
    sheet->kept.count = (size_t)numbers[0];
    sheet->ranges = (size_t)numbers[1];
    sheet->records = (size_t)count_records(&sheet->kept).records;
    sheet->dropped = sum_lengths(sheet);
}

/* How the sheet ends, before anything is written. */
static void salvage_sheet(const char *name, struct salvaged *sheet)
{
    struct bytes file;
    sheet->end = SHEET_NOT_READ;
    sheet->status = read_sheet(name, &file);
    if (sheet->status != STATUS_DONE)
        return;
    sheet->status = check_sheet(name, &file);
    if (sheet->status == STATUS_DONE) {
        keep_records(&file, sheet);
        sheet->end = sheet->refusal != TEJBORUN_DONE ? SHEET_REFUSED : sheet->ranges > 0 ? SHEET_DAMAGED : SHEET_VALID;
        sheet->status = sheet->end == SHEET_VALID ? STATUS_DONE : STATUS_REFUSED;
    }
    if (sheet->end == SHEET_REFUSED)
        sheet_refused(name, sheet->refusal, 0);
    free(file.at);
}

/* Writes what is kept, and the ranges where they are wanted. */
static void write_sheet(const char *ranges, struct salvaged *sheet)
{
    if (sheet->end != SHEET_VALID && sheet->end != SHEET_DAMAGED)
        return;
    int status = write_file(sheet->output, sheet->kept.at, sheet->kept.count);
    if (status == STATUS_DONE && ranges != NULL) {
        struct bytes text = ranges_text(sheet);
        status = write_file(ranges, text.at, text.count);
        free(text.at);
    }
    if (status != STATUS_DONE)
        sheet->end = SHEET_NOT_WRITTEN;
    sheet->status = worse(sheet->status, status);
}

/* Adds a sheet to those before it. */
static void count_sheet(const struct salvaged *sheet, struct salvage *salvage)
{
    salvage->sheets++;
    salvage->ends[sheet->end]++;
    salvage->status = worse(salvage->status, sheet->status);
    if (sheet->end != SHEET_VALID && sheet->end != SHEET_DAMAGED)
        return;
    salvage->kept += sheet->kept.count;
    salvage->records += sheet->records;
    salvage->dropped += sheet->dropped;
    salvage->ranges += sheet->ranges;
}

/* How sheets are shown. */
struct view {
    show_salvaged *show;
    show_salvage *end;
};

static struct view view_of(const struct words_given *given)
{
    if (given->option[OPTION_QUIET] != NULL)
        return (struct view){NULL, NULL};
    if (given->option[OPTION_JSON] != NULL)
        return (struct view){show_sheet_json, end_sheets_json};
    return given->count == 1 ? (struct view){show_sheet, NULL} : (struct view){show_sheet_row, show_sheets};
}

/* One sheet: read, written, shown and counted. */
static void one_sheet(const struct words_given *given, const struct view *view, const char *name, const char *output, struct salvage *salvage)
{
    struct salvaged sheet = {.name = name, .output = output};
    salvage_sheet(name, &sheet);
    write_sheet(given->option[OPTION_RANGES], &sheet);
    end_count();
    if (view->show != NULL)
        view->show(salvage, &sheet);
    count_sheet(&sheet, salvage);
    free(sheet.kept.at);
    free(sheet.range);
}

/* The name of a sheet's file in a folder. The caller frees it. */
static char *name_in(const char *folder, const char *name)
{
    const char *slash = strrchr(name, '/'), *last = slash != NULL ? slash + 1 : name;
    size_t length = strlen(folder), room = length + strlen(last) + 2;
    char *joined = allocate(room, 1);
    snprintf(joined, room, "%s%s%s", folder, length > 0 && folder[length - 1] == '/' ? "" : "/", last);
    return joined;
}

/* Complains where a file that is written is also read, or written for another sheet. */
static int check_output(const struct words_given *given, char *const *outputs, size_t number)
{
    for (size_t i = 0; i < given->count; i++)
        if (same_file(outputs[number], given->word[i]))
            return complain("salvage", "%s is an input and the output", given->word[i]);
    for (size_t i = 0; i < number; i++)
        if (strcmp(outputs[i], outputs[number]) == 0 || same_file(outputs[i], outputs[number]))
            return complain("salvage", "%s and %s would both be written to %s", given->word[i], given->word[number], outputs[number]);
    return STATUS_DONE;
}

/* The files that are written, by the sheets: the output, or those of the same names in the folder that it is. A status; the caller frees them. */
static int name_outputs(const struct words_given *given, char **outputs)
{
    const char *output = given->option[OPTION_OUTPUT];
    bool folder = is_folder(output);
    if (given->count > 1 && !folder)
        return complain("salvage", "%s is no folder: several sheets are written to one, which has to be there", output);
    for (size_t i = 0; i < given->count; i++) {
        if (folder && is_dash(given->word[i]))
            return complain("salvage", "standard input has no name in %s: give -o a file", output);
        outputs[i] = folder ? name_in(output, given->word[i]) : copy_text(output);
    }
    int status = STATUS_DONE;
    for (size_t i = 0; i < given->count && folder && status == STATUS_DONE; i++)
        status = check_output(given, outputs, i);
    return status;
}

/* The list of ranges is of one sheet, and a file of its own. */
static int check_ranges(const struct words_given *given, char *const *outputs)
{
    const char *ranges = given->option[OPTION_RANGES];
    if (ranges == NULL)
        return STATUS_DONE;
    if (given->count > 1)
        return complain("salvage", "--ranges takes one sheet; --json has the ranges of several");
    if (!is_dash(ranges) && same_file(ranges, given->word[0]))
        return complain("salvage", "%s is an input and the output", ranges);
    if (strcmp(ranges, outputs[0]) == 0 || same_file(ranges, outputs[0]))
        return complain("salvage", "%s is to have the sheet and the ranges", ranges);
    return STATUS_DONE;
}

/* The longest name of a sheet, as far as a column goes. */
static int longest_name(const struct words_given *given)
{
    size_t longest = 8;
    for (size_t i = 0; i < given->count; i++)
        if (strlen(given->word[i]) > longest)
            longest = strlen(given->word[i]);
    return longest < 60 ? (int)longest : 60;
}

static int salvage_all(const struct words_given *given, char *const *outputs)
{
    const struct view view = view_of(given);
    struct salvage salvage = {.width = longest_name(given)};
    for (size_t i = 0; i < given->count; i++) {
        show_count(i, given->count, "sheets");
        one_sheet(given, &view, given->word[i], outputs[i], &salvage);
    }
    if (view.end != NULL)
        view.end(&salvage);
    return salvage.status;
}

int command_salvage(const struct words_given *given)
{
    char **outputs = allocate(given->count, sizeof *outputs);
    int status = name_outputs(given, outputs);
    if (status == STATUS_DONE)
        status = check_ranges(given, outputs);
    if (given->option[OPTION_RANGES] != NULL && is_dash(given->option[OPTION_RANGES]))
        say_to(stderr);
    if (status == STATUS_DONE)
        status = salvage_all(given, outputs);
    for (size_t i = 0; i < given->count; i++)
        free(outputs[i]);
    free(outputs);
    return status;
}
