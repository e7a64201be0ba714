/* Sheets as text. The library says how far the records are valid. */
#include <inttypes.h>
#include <stdio.h>
#include <stdlib.h>

#include "dump.h"
#include "numbers.h"
#include "records.h"
#include "shapes.h"
#include "sheet.h"
#include "tejborun.h"
#include "words.h"

/* The body of a record of a kind: the name of a unit, and how one is printed. */
struct body {
    const char *one, *many;
    void (*print)(const uint8_t *);
};

static void print_vector(const uint8_t *at)
{
    printf("vector");
    for (size_t i = 0; i < 4; i++)
        printf(" 0x%08" PRIX32, get_word(at + 4 * i));
    putchar('\n');
}

static void print_instruction(const uint8_t *at)
{
    printf("instruction 0x%016" PRIX64 "\n", get_number(at));
}

static void print_write(const uint8_t *at)
{
    printf("write ");
    print_register(at[8]);
    printf(" 0x%016" PRIX64 "\n", get_number(at));
}

static const struct body bodies[KINDS_OF_RECORDS] = {
    [1] = {"vector", "vectors", print_vector},
    [2] = {"instruction", "instructions", print_instruction},
    [3] = {"write", "writes", print_write},
};

/* What a line inside so many groups, or records, begins with. */
static void print_margin(size_t depth)
{
    printf("%*s", 2 * (int)depth, "");
}

/* Prints the whole record at an offset, inside so many groups. */
static void print_record(const uint8_t *sheet, size_t offset, size_t depth)
{
    const uint8_t *at = sheet + offset;
    const uint32_t head[2] = {get_word(at), at[ADDRESS_AT] | (uint32_t)at[ADDRESS_AT + 1] << 8};
    const struct body *body = &bodies[at[KIND_AT]];
    unsigned count = count_units(at);
    print_margin(depth);
    print_block(stdout, shape_of(record_heads, head[0]), head);
    printf("  # offset %zu", offset);
    if (body->one != NULL)
        printf(", %u %s", count, plural(count, body->one, body->many));
    putchar('\n');
    for (unsigned i = 0; i < count; i++) {
        print_margin(depth + 1);
        body->print(at + HEADER_BYTES + i * unit_bytes(at));
    }
}

/* Prints a group's header. How many records are inside is counted by what follows; it is printed where not all of them are there. */
static void print_group(const uint8_t *sheet, size_t offset, size_t depth, bool whole)
{
    const uint8_t *at = sheet + offset;
    unsigned members = at[ADDRESS_AT] | (unsigned)at[ADDRESS_AT + 1] << 8;
    const uint32_t head[2] = {get_word(at), whole ? 0 : members};
    print_margin(depth);
    print_block(stdout, shape_of(record_heads, head[0]), head);
    printf("  # offset %zu, %u %s inside%s\n", offset, members, plural(members, "record", "records"), whole ? "" : ", not all here");
}

static void print_end(size_t depth)
{
    print_margin(depth);
    puts("end");
}

/* The place behind the last whole record: the groups that are not whole are those that it lies in. */
static struct place last_place(const uint8_t *sheet, size_t end)
{
    struct place place = {0};
    while (place.at < end) {
        pass_record(&place, sheet);
        while (leave_group(&place))
            ;
    }
    return place;
}

/* Whether the place lies in the group whose header is at an offset. */
static bool lies_in(const struct place *place, size_t offset)
{
    for (size_t i = 0; i < place->depth; i++)
        if (place->open[i].at == offset)
            return true;
    return false;
}

/* Prints the valid records up to an offset, and ends the groups that are whole; hands back the place there. */
static struct place print_records(const uint8_t *sheet, size_t end)
{
    const struct place last = last_place(sheet, end);
    struct place place = {0};
    while (place.at < end) {
        uint8_t kind = sheet[place.at + KIND_AT];
        if (kind == KIND_EDITION)
            printf("edition %u  # offset %zu\n", sheet[place.at + COUNT_AT], place.at);
        else if (kind == KIND_GROUP)
            print_group(sheet, place.at, place.depth, !lies_in(&last, place.at));
        else
            print_record(sheet, place.at, place.depth);
        pass_record(&place, sheet);
        while (leave_group(&place))
            print_end(place.depth);
    }
    return place;
}

/* Prints the bytes behind the valid records as they are, and ends the groups that they lie in. */
static void print_rest(const uint8_t *bytes, size_t count, size_t depth)
{
    for (size_t i = 0; i < count; i += 16) {
        print_margin(depth);
        printf("byte");
        for (size_t j = i; j < count && j < i + 16; j++)
            printf(" 0x%02X", bytes[j]);
        putchar('\n');
    }
    while (depth > 0)
        print_end(--depth);
}

/* Prints what a sheet of the second edition holds, and its chain's length, as comments. */
static void print_counts(const struct bytes *file)
{
    char text[COUNTS_TEXT];
    uint8_t *chain;
    struct record_counts counts = count_records(file);
    if (!counts.second)
        return;
    counts_words(&counts, text);
    printf("# %s\n", text);
    size_t length = chain_of(file, &chain);
    free(chain);
    if (length % 16 == 0)
        printf("# a chain of %zu bytes, %zu %s\n", length, length / 16, plural(length / 16, "quadword", "quadwords"));
}

/* Where the valid records end: at the refused one. With 49 all are valid. */
static size_t valid_end(const struct bytes *file, uint32_t answer, uint64_t offset)
{
    return answer == TEJBORUN_DONE || answer == TEJBORUN_LONG_EXPANSION ? file->count : (size_t)offset;
}

int dump_sheet(const char *name, const struct bytes *file)
{
    uint64_t numbers[2] = {0};
    uint32_t answer = tejborun_steps(file->at, file->count, numbers, 2);
    if (answer == TEJBORUN_LONG_SHEET)
        return sheet_refused(name, answer, 0);
    printf("# sheet, %zu bytes", file->count);
    if (answer == TEJBORUN_DONE) {
        printf(", %" PRIu64 " %s\n", numbers[0], plural(numbers[0], "step", "steps"));
        print_counts(file);
    } else {
        printf(", refused %" PRIu32 " at offset %" PRIu64 ": %s\n", answer, numbers[1], tejborun_message(answer));
    }
    struct place place = print_records(file->at, valid_end(file, answer, numbers[1]));
    print_rest(file->at + place.at, file->count - place.at, place.depth);
    return answer == TEJBORUN_DONE ? STATUS_DONE : sheet_refused(name, answer, numbers[1]);
}
