/* Blocks of words with named fields: printed as "NAME field=value ..", and read back. Every bit of a block belongs to a field or is fixed, so that nothing
 * is lost on the way. */
#ifndef FIELDS_H
#define FIELDS_H

#include <stdbool.h>
#include <stddef.h>
#include <stdint.h>
#include <stdio.h>

#include "state_shape.h"
#include "text.h"

/* Shown where it is 0; in hexadecimal; the first of a new line; of text from before alone, and not listed. */
enum { FIELD_SHOWN = 1, FIELD_HEX = 2, FIELD_LINE = 4, FIELD_BEFORE = 8 };
enum { MOST_FIELDS = TEJBORUN_BLOCK_WORDS }; /* a state block has the most, at least a word each */

struct names {
    size_t count;
    const char *const *name; /* by value; null where a value has no name */
};

struct field {
    const char *name;
    unsigned low, width; /* bits, counted from bit 0 of word 0; at most 64 */
    unsigned flags;
    const struct names *names;
};

/* The field that is a member of a struct of words. */
#define MEMBER(type, name, member, flags, names) {name, 8 * offsetof(type, member), 8 * sizeof(((type *)0)->member), flags, names}

struct shape {
    const char *name;
    unsigned words;
    uint32_t mask, fixed; /* word 0 of every such block, under the mask */
    size_t fields;
    const struct field *field;
};

/* Which fields of a block were given. */
struct given {
    bool field[MOST_FIELDS];
};

/* Whether the field of a name was given. */
bool is_given(const struct shape *shape, const struct given *given, const char *name);

uint64_t field_value(const uint32_t *words, const struct field *field);
void set_field(uint32_t *words, const struct field *field, uint64_t value);

/* A value as its field shows it: by its name, in hexadecimal or decimal. */
enum { FIELD_TEXT = 32 };
void field_text(const struct field *field, uint64_t value, char text[FIELD_TEXT]);

/* The names of shapes, of a shape's fields or of a field's values, with commas; cut where there is no room. */
enum { NAMES_TEXT = 2048 };
void list_shapes(const struct shape *list, char text[NAMES_TEXT]);
void list_fields(const struct shape *shape, char text[NAMES_TEXT]);
void list_names(const struct names *names, char text[NAMES_TEXT]);

/* Adds a name to such a list. */
void add_name(char text[NAMES_TEXT], const char *name);

/* The shape of a name in a list that ends with a nameless one; null where there is none. */
const struct shape *shape_named(const struct shape *list, const char *name);

/* The shape of the list that word 0 fits; null where there is none. */
const struct shape *shape_of(const struct shape *list, uint32_t word);

/* Prints the block, without a line's end after it. */
void print_block(FILE *out, const struct shape *shape, const uint32_t *words);

/* Reads the fields of a line into the block; what is not given stays. A status. */
int read_fields(const struct text *text, const struct line *line, const struct shape *shape, uint32_t *words, struct given *given);

/* Reads a block from a line of its own: what is not given is 0. A status. */
int read_block(const struct text *text, const struct line *line, const struct shape *shape, uint32_t *words);

#endif
