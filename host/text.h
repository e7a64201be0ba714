/* The text that is assembled: lines of items, and what they write. */
#ifndef TEXT_H
#define TEXT_H

#include <stdbool.h>
#include <stddef.h>
#include <stdint.h>

enum { TEXT_ITEMS = 64 }; /* most items of a line */

struct words_given;

struct text {
    const char *name; /* the file's */
    const struct words_given *given; /* of the command */
    char *next;       /* what is still to be read, ended by a zero; lines are cut into items in place */
    unsigned line;    /* the number of the last line read */
};

struct line {
    unsigned number;
    size_t count;           /* items, at least one */
    char *item[TEXT_ITEMS]; /* the first says what the line is */
};

/* Bytes written one after another. */
struct output {
    uint8_t *at;
    size_t count, room;
};

/* Reads the next line that has items; *end where there is none. A status. */
int next_line(struct text *text, struct line *line, bool *end);

/* Prints "tejborun: FILE:LINE: MESSAGE"; hands back STATUS_BAD. */
int complain_at(const struct text *text, unsigned line, const char *format, ...) __attribute__((format(printf, 3, 4)));

/* The line's number i as a word, or as a number of at most so many bits (8 or 64). A status. */
int word_item(const struct text *text, const struct line *line, size_t i, uint32_t *word);
int number_item(const struct text *text, const struct line *line, size_t i, unsigned bits, uint64_t *number);

/* A register: its name or its number. A status. */
int register_item(const struct text *text, const struct line *line, size_t i, uint64_t *number);

/* Complains unless the line has so many items after its first. */
int expect_items(const struct text *text, const struct line *line, size_t count, const char *what);

void write_bytes(struct output *output, const uint8_t *bytes, size_t count);
void write_word(struct output *output, uint32_t word);
void write_words(struct output *output, const uint32_t *words, size_t count);

#endif
