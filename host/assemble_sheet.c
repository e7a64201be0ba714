/* Sheets from text. Whether the sheet is right is the library's to say; here only what a record's bytes cannot hold is refused. */
#include <stdlib.h>
#include <string.h>

#include "assemble.h"
#include "numbers.h"
#include "records.h"
#include "shapes.h"

enum { MOST_UNITS = 255, MOST_MEMBERS = 65535 };

/* The record that lines are added to. */
struct record {
    const struct shape *shape; /* null before the first, after bytes and after a group's end */
    size_t at;                 /* where it begins in the output */
};

/* A group that has not ended yet. */
struct group {
    struct group *outer; /* null where there is none */
    size_t at;           /* where its header is in the output */
    unsigned line;
    uint32_t members;
    bool given; /* the text says how many members it has */
};

/* A sheet as far as it was read. */
struct sheet {
    bool any, second; /* lines, and that of the edition */
    struct record record;
    struct group *group; /* the innermost; null outside */
};

static int vector_line(const struct text *text, const struct line *line, struct output *output)
{
    int status = expect_items(text, line, 4, "four words, X Y Z W");
    for (size_t i = 1; i <= 4 && status == STATUS_DONE; i++) {
        uint32_t word;
        status = word_item(text, line, i, &word);
        if (status == STATUS_DONE)
            write_word(output, word);
    }
    return status;
}

static int instruction_line(const struct text *text, const struct line *line, struct output *output)
{
    uint64_t instruction;
    uint8_t bytes[8];
    int status = expect_items(text, line, 1, "one number of 64 bits");
    if (status == STATUS_DONE)
        status = number_item(text, line, 1, 64, &instruction);
    if (status != STATUS_DONE)
        return status;
    put_number(bytes, instruction);
    write_bytes(output, bytes, 8);
    return STATUS_DONE;
}

static int write_line(const struct text *text, const struct line *line, struct output *output)
{
    uint64_t number, value;
    uint8_t bytes[16] = {0};
    int status = expect_items(text, line, 2, "a register and a value");
    if (status == STATUS_DONE)
        status = register_item(text, line, 1, &number);
    if (status == STATUS_DONE && number > 255)
        return complain_at(text, line->number, "register %s has no place in a byte", line->item[1]);
    if (status == STATUS_DONE)
        status = number_item(text, line, 2, 64, &value);
    if (status != STATUS_DONE)
        return status;
    put_number(bytes, value);
    bytes[8] = (uint8_t)number;
    write_bytes(output, bytes, 16);
    return STATUS_DONE;
}

struct unit {
    const char *name, *record;
    int (*read)(const struct text *, const struct line *, struct output *);
};

static const struct unit units[] = {{"vector", "data", vector_line}, {"instruction", "code", instruction_line}, {"write", "gs", write_line}};

/* A line of a record's body, which counts it. */
static int unit_line(const struct text *text, const struct line *line, const struct unit *unit, const struct record *record, struct output *output)
{
    if (record->shape == NULL || strcmp(record->shape->name, unit->record) != 0)
        return complain_at(text, line->number, "'%s' belongs to a record '%s'", unit->name, unit->record);
    if (output->at[record->at + COUNT_AT] == MOST_UNITS)
        return complain_at(text, line->number, "a record counts at most %d: begin another", MOST_UNITS);
    output->at[record->at + COUNT_AT]++;
    return unit->read(text, line, output);
}

static void write_head(const uint32_t words[2], struct output *output)
{
    uint8_t head[8];
    put_word(head, words[0]);
    put_word(head + 4, words[1]);
    write_bytes(output, head, HEADER_BYTES);
}

/* Begins a record or a group: one more member of the group that it lies in. */
static int begin_member(const struct text *text, const struct line *line, struct sheet *sheet, struct output *output)
{
    struct group *group = sheet->group;
    if (group != NULL && !group->given && group->members == MOST_MEMBERS)
        return complain_at(text, line->number, "a group has at most %d records: end it, and begin another", MOST_MEMBERS);
    if (group != NULL && !group->given)
        group->members++;
    sheet->record.at = output->count;
    return STATUS_DONE;
}

static int record_line(const struct text *text, const struct line *line, struct sheet *sheet, struct output *output)
{
    uint32_t words[2];
    int status = begin_member(text, line, sheet, output);
    if (status == STATUS_DONE)
        status = read_block(text, line, sheet->record.shape, words);
    if (status == STATUS_DONE)
        write_head(words, output);
    return status;
}

/* The edition is a record without a body. */
static int edition_line(const struct text *text, const struct line *line, struct sheet *sheet, struct output *output)
{
    static const uint8_t head[HEADER_BYTES] = {0x9E, 0x51, KIND_EDITION, 2, 0, 0};
    uint64_t edition;
    int status = expect_items(text, line, 1, "its number, 2");
    if (status == STATUS_DONE)
        status = number_item(text, line, 1, 8, &edition);
    if (status != STATUS_DONE)
        return status;
    if (edition != 2)
        return complain_at(text, line->number, "'edition %s': write edition 2; a sheet of the first edition has no such line", line->item[1]);
    if (sheet->any)
        return complain_at(text, line->number, "'edition' is the first line of a sheet");
    sheet->second = true;
    write_bytes(output, head, HEADER_BYTES);
    return STATUS_DONE;
}

/* Begins a group, whose members are counted where the line does not give them. */
static int group_line(const struct text *text, const struct line *line, struct sheet *sheet, struct output *output)
{
    const struct shape *shape = shape_named(record_heads, "group");
    uint32_t words[2] = {shape->fixed};
    struct given given = {0};
    if (!sheet->second)
        return complain_at(text, line->number, "a group belongs to the second edition: write 'edition 2' as the first line");
    int status = begin_member(text, line, sheet, output);
    if (status == STATUS_DONE)
        status = read_fields(text, line, shape, words, &given);
    if (status != STATUS_DONE)
        return status;
    if (!is_given(shape, &given, "repeat"))
        return complain_at(text, line->number, "how often? give it as group repeat=200");
    struct group *group = allocate(1, sizeof *group);
    *group = (struct group){.outer = sheet->group, .at = output->count, .line = line->number, .given = is_given(shape, &given, "members")};
    sheet->group = group;
    sheet->record.shape = shape;
    write_head(words, output);
    return STATUS_DONE;
}

/* Leaves the innermost group. */
static void drop_group(struct sheet *sheet)
{
    struct group *outer = sheet->group->outer;
    free(sheet->group);
    sheet->group = outer;
}

/* Ends a group and writes how many members it has. */
static int end_line(const struct text *text, const struct line *line, struct sheet *sheet, struct output *output)
{
    const struct group *group = sheet->group;
    int status = expect_items(text, line, 0, "no items");
    if (status != STATUS_DONE)
        return status;
    if (group == NULL)
        return complain_at(text, line->number, "'end' without a group");
    if (!group->given) {
        output->at[group->at + ADDRESS_AT] = (uint8_t)group->members;
        output->at[group->at + ADDRESS_AT + 1] = (uint8_t)(group->members >> 8);
    }
    drop_group(sheet);
    sheet->record.shape = NULL;
    return STATUS_DONE;
}

static int plain_bytes_line(const struct text *text, const struct line *line, struct sheet *sheet, struct output *output)
{
    sheet->record.shape = NULL;
    return bytes_line(text, line, output);
}

struct other_line {
    const char *name;
    int (*read)(const struct text *, const struct line *, struct sheet *, struct output *);
};

static const struct other_line other_lines[] = {{"edition", edition_line}, {"group", group_line}, {"end", end_line}, {"byte", plain_bytes_line}};

static int sheet_line(const struct text *text, const struct line *line, struct sheet *sheet, struct output *output)
{
    for (size_t i = 0; i < sizeof units / sizeof units[0]; i++)
        if (strcmp(units[i].name, line->item[0]) == 0)
            return unit_line(text, line, &units[i], &sheet->record, output);
    for (size_t i = 0; i < sizeof other_lines / sizeof other_lines[0]; i++)
        if (strcmp(other_lines[i].name, line->item[0]) == 0)
            return other_lines[i].read(text, line, sheet, output);
    sheet->record.shape = shape_named(record_heads, line->item[0]);
    if (sheet->record.shape == NULL)
        return complain_at(text, line->number, "'%s' is no line of a sheet: edition, data, code, gs, start, vector, instruction, write, group, end or byte",
                           line->item[0]);
    return record_line(text, line, sheet, output);
}

static int sheet_lines(struct text *text, struct sheet *sheet, struct output *output)
{
    struct line line;
    bool end;
    for (;; sheet->any = true) {
        int status = next_line(text, &line, &end);
        if (status != STATUS_DONE || end)
            return status;
        status = sheet_line(text, &line, sheet, output);
        if (status != STATUS_DONE)
            return status;
    }
}

int assemble_sheet(struct text *text, struct output *output)
{
    struct sheet sheet = {0};
    int status = sheet_lines(text, &sheet, output);
    if (status == STATUS_DONE && sheet.group != NULL)
        status = complain_at(text, sheet.group->line, "the group that begins here has no 'end'");
    while (sheet.group != NULL)
        drop_group(&sheet);
    return status;
}
