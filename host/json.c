/* Text as JSON has it. */
#include "json.h"

#include <stdbool.h>
#include <stdint.h>

/* The least number that a character of so many bytes stands for. */
static const uint32_t least[5] = {0, 0, 0x80, 0x800, 0x10000};

size_t character_length(const char *text)
{
    unsigned char first = (unsigned char)text[0];
    if (first < 0x80)
        return first != 0;
    size_t length = first >= 0xF0 && first < 0xF8 ? 4 : first >= 0xE0 && first < 0xF0 ? 3 : first >= 0xC0 && first < 0xE0 ? 2 : 0;
    uint32_t number = length > 0 ? first & (0x7Fu >> length) : 0;
    for (size_t i = 1; i < length; i++) {
        if (((unsigned char)text[i] & 0xC0) != 0x80)
            return 0;
        number = number << 6 | ((unsigned char)text[i] & 0x3F);
    }
    bool exists = number >= least[length] && number < 0x110000 && (number < 0xD800 || number > 0xDFFF);
    return exists ? length : 0;
}

void print_json_text(FILE *out, const char *text)
{
    fputc('"', out);
    while (*text != 0) {
        size_t length = character_length(text);
        if (length == 0)
            fputs("\\uFFFD", out);
        else if (length == 1 && ((unsigned char)*text < 0x20 || *text == 0x7F))
            fprintf(out, "\\u%04X", (unsigned)*text);
        else if (*text == '"' || *text == '\\')
            fprintf(out, "\\%c", *text);
        else
            fwrite(text, 1, length, out);
        text += length > 0 ? length : 1;
    }
    fputc('"', out);
}
