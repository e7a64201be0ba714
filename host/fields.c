/* Blocks of words with named fields. */
#include "fields.h"

#include <inttypes.h>
#include <string.h>

#include "files.h"
#include "numbers.h"

uint64_t field_value(const uint32_t *words, const struct field *field)
{
    uint64_t value = 0;
    for (unsigned i = 0; i < field->width; i++) {
        unsigned bit = field->low + i;
        value |= (uint64_t)(words[bit / 32] >> bit % 32 & 1) << i;
    }
    return value;
}

void set_field(uint32_t *words, const struct field *field, uint64_t value)
{
    for (unsigned i = 0; i < field->width; i++) {
        unsigned bit = field->low + i;
        uint32_t place = UINT32_C(1) << bit % 32;
        words[bit / 32] = (value >> i & 1) != 0 ? words[bit / 32] | place : words[bit / 32] & ~place;
    }
}

const struct shape *shape_named(const struct shape *list, const char *name)
{
    for (; list->name != NULL; list++)
        if (strcmp(list->name, name) == 0)
            return list;
    return NULL;
}

const struct shape *shape_of(const struct shape *list, uint32_t word)
{
    for (; list->name != NULL; list++)
        if ((word & list->mask) == list->fixed)
            return list;
    return NULL;
}

void field_text(const struct field *field, uint64_t value, char text[FIELD_TEXT])
{
    const char *name = field->names != NULL && value < field->names->count ? field->names->name[value] : NULL;
    if (name != NULL)
        snprintf(text, FIELD_TEXT, "%s", name);
    else if ((field->flags & FIELD_HEX) != 0 || value > UINT32_MAX)
        snprintf(text, FIELD_TEXT, "0x%" PRIX64, value);
    else
        snprintf(text, FIELD_TEXT, "%" PRIu64, value);
}

void add_name(char text[NAMES_TEXT], const char *name)
{
    size_t length = strlen(text);
    snprintf(text + length, NAMES_TEXT - length, "%s%s", length > 0 ? ", " : "", name);
}

void list_shapes(const struct shape *list, char text[NAMES_TEXT])
{
    for (text[0] = 0; list->name != NULL; list++)
        add_name(text, list->name);
}

void list_fields(const struct shape *shape, char text[NAMES_TEXT])
{
    text[0] = 0;
    for (size_t i = 0; i < shape->fields; i++)
        if ((shape->field[i].flags & FIELD_BEFORE) == 0)
            add_name(text, shape->field[i].name);
}

void list_names(const struct names *names, char text[NAMES_TEXT])
{
    text[0] = 0;
    for (size_t i = 0; i < names->count; i++)
        if (names->name[i] != NULL)
            add_name(text, names->name[i]);
}

void print_block(FILE *out, const struct shape *shape, const uint32_t *words)
{
    bool line_begun = true;
    fputs(shape->name, out);
    for (size_t i = 0; i < shape->fields; i++) {
        const struct field *field = &shape->field[i];
        uint64_t value = field_value(words, field);
        if ((field->flags & FIELD_LINE) != 0)
            line_begun = false;
        if (value == 0 && (field->flags & FIELD_SHOWN) == 0)
            continue;
        if (!line_begun)
            fprintf(out, "\n%s", shape->name);
        line_begun = true;
        char text[FIELD_TEXT];
        field_text(field, value, text);
        fprintf(out, " %s=%s", field->name, text);
    }
}

/* The value of a text for a field; false where it is none. */
static bool read_value(const char *text, const struct field *field, uint64_t *value)
{
    for (size_t i = 0; field->names != NULL && i < field->names->count; i++) {
        if (field->names->name[i] != NULL && strcmp(field->names->name[i], text) == 0) {
            *value = i;
            return true;
        }
    }
    if (text[0] == '-' && field->width == 32) {
        uint32_t word;
        bool is_word = read_word(text, &word);
        *value = is_word ? word : 0;
        return is_word;
    }
    return read_number(text, value) && (field->width == 64 || *value >> field->width == 0);
}

/* The number of the field that an item "name=value" names; the shape's number of fields where there is none. */
static size_t find_field(const struct shape *shape, const char *item, size_t length)
{
    for (size_t i = 0; i < shape->fields; i++)
        if (strlen(shape->field[i].name) == length && memcmp(shape->field[i].name, item, length) == 0)
            return i;
    return shape->fields;
}

bool is_given(const struct shape *shape, const struct given *given, const char *name)
{
    size_t i = find_field(shape, name, strlen(name));
    return i < shape->fields && given->field[i];
}

static int complain_of_value(const struct text *text, const struct line *line, const struct field *field, const char *value)
{
    char names[NAMES_TEXT] = "";
    if (field->names != NULL)
        list_names(field->names, names);
    return complain_at(text, line->number, "%s=%s: the field has %u bits; give a number as 12 or 0x1F%s%s", field->name, value, field->width,
                       names[0] != 0 ? ", or one of " : "", names);
}

static int read_field(const struct text *text, const struct line *line, const char *item, const struct shape *shape, uint32_t *words, struct given *given)
{
    char known[NAMES_TEXT];
    size_t length = strcspn(item, "=");
    if (item[length] == 0)
        return complain_at(text, line->number, "'%s' after '%s': expected field=value", item, shape->name);
    size_t i = find_field(shape, item, length);
    if (i == shape->fields) {
        list_fields(shape, known);
        return complain_at(text, line->number, "'%s' has no field '%.*s'; it has %s", shape->name, (int)length, item, known);
    }
    const struct field *field = &shape->field[i];
    if (given->field[i])
        return complain_at(text, line->number, "'%s' is given twice", field->name);
    given->field[i] = true;
    uint64_t value;
    if (!read_value(item + length + 1, field, &value))
        return complain_of_value(text, line, field, item + length + 1);
    set_field(words, field, value);
    return STATUS_DONE;
}

int read_fields(const struct text *text, const struct line *line, const struct shape *shape, uint32_t *words, struct given *given)
{
    for (size_t i = 1; i < line->count; i++) {
        int status = read_field(text, line, line->item[i], shape, words, given);
        if (status != STATUS_DONE)
            return status;
    }
    return STATUS_DONE;
}

int read_block(const struct text *text, const struct line *line, const struct shape *shape, uint32_t *words)
{
    struct given given = {0};
    memset(words, 0, shape->words * sizeof *words);
    words[0] = shape->fixed;
    return read_fields(text, line, shape, words, &given);
}
