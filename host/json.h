/* Text as JSON has it. */
#ifndef JSON_H
#define JSON_H

#include <stdio.h>

/* Prints a text in quotes. What is no UTF-8 becomes the replacement character, so that the whole stays well formed. */
void print_json_text(FILE *out, const char *text);

/* The bytes of the UTF-8 character that a text begins with; 0 where it begins with none. */
size_t character_length(const char *text);

#endif
