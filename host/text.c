/* The text that is assembled: lines of items, and what they write. */
#include "text.h"

#include <stdarg.h>
#include <stdio.h>
#include <stdlib.h>
#include <string.h>

#include "fields.h"
#include "files.h"
#include "numbers.h"
#include "words.h"

int complain_at(const struct text *text, unsigned line, const char *format, ...)
{
    va_list values;
    fflush(stdout);
    fprintf(stderr, "tejborun: %s:%u: ", text->name, line);
    va_start(values, format);
    vfprintf(stderr, format, values);
    va_end(values);
    fputc('\n', stderr);
    return STATUS_BAD;
}

/* Cuts the text's next line off; null at the end. */
static char *cut_line(struct text *text)
{
    char *line = text->next;
    if (*line == 0)
        return NULL;
    size_t length = strcspn(line, "\n");
    text->next = line + length + (line[length] == '\n');
    line[length] = 0;
    line[strcspn(line, "#")] = 0;
    text->line++;
    return line;
}

/* Cuts a line into its items. */
static int cut_items(struct text *text, char *rest, struct line *line)
{
    static const char blank[] = " \t\r";
    line->number = text->line;
    line->count = 0;
    for (;;) {
        rest += strspn(rest, blank);
        if (*rest == 0)
            return STATUS_DONE;
        if (line->count == TEXT_ITEMS)
            return complain_at(text, text->line, "more than %d items in a line", TEXT_ITEMS);
        line->item[line->count++] = rest;
        rest += strcspn(rest, blank);
        if (*rest != 0)
            *rest++ = 0;
    }
}

int next_line(struct text *text, struct line *line, bool *end)
{
    line->count = 0;
    *end = false;
    while (line->count == 0) {
        char *rest = cut_line(text);
        if (rest == NULL) {
            *end = true;
            return STATUS_DONE;
        }
        int status = cut_items(text, rest, line);
        if (status != STATUS_DONE)
            return status;
    }
    return STATUS_DONE;
}

int word_item(const struct text *text, const struct line *line, size_t i, uint32_t *word)
{
    if (!read_word(line->item[i], word))
        return complain_at(text, line->number, "'%s' is no word: give a number below 2^32, as 12, -12 or 0x1F", line->item[i]);
    return STATUS_DONE;
}

int number_item(const struct text *text, const struct line *line, size_t i, unsigned bits, uint64_t *number)
{
    if (!read_number(line->item[i], number) || (bits < 64 && *number >> bits != 0))
        return complain_at(text, line->number, "'%s' is no number of %u bits: give one as 12 or 0x1F", line->item[i], bits);
    return STATUS_DONE;
}

int register_item(const struct text *text, const struct line *line, size_t i, uint64_t *number)
{
    int named = register_named(line->item[i]);
    char known[NAMES_TEXT] = "";
    if (named >= 0)
        *number = (uint64_t)named;
    if (named >= 0 || read_number(line->item[i], number))
        return STATUS_DONE;
    for (size_t place = 0; listed_register(place) != NULL; place++)
        add_name(known, listed_register(place));
    return complain_at(text, line->number, "'%s' is no register: give a number or one of %s", line->item[i], known);
}

int expect_items(const struct text *text, const struct line *line, size_t count, const char *what)
{
    if (line->count == count + 1)
        return STATUS_DONE;
    return complain_at(text, line->number, "after '%s' come %s; here are %zu", line->item[0], what, line->count - 1);
}

void write_bytes(struct output *output, const uint8_t *bytes, size_t count)
{
    if (output->room - output->count < count) {
        size_t room = 2 * (output->count + count) + 64;
        uint8_t *larger = allocate(room, 1);
        if (output->count > 0)
            memcpy(larger, output->at, output->count);
        free(output->at);
        output->at = larger;
        output->room = room;
    }
    if (count > 0)
        memcpy(output->at + output->count, bytes, count);
    output->count += count;
}

void write_word(struct output *output, uint32_t word)
{
    uint8_t bytes[4];
    put_word(bytes, word);
    write_bytes(output, bytes, 4);
}

void write_words(struct output *output, const uint32_t *words, size_t count)
{
    for (size_t i = 0; i < count; i++)
        write_word(output, words[i]);
}
