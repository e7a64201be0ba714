/* Numbers in bytes and in text. */
#include "numbers.h"

uint32_t get_word(const uint8_t *bytes)
{
    return bytes[0] | (uint32_t)bytes[1] << 8 | (uint32_t)bytes[2] << 16 | (uint32_t)bytes[3] << 24;
}

uint64_t get_number(const uint8_t *bytes)
{
    return get_word(bytes) | (uint64_t)get_word(bytes + 4) << 32;
}

void put_word(uint8_t *bytes, uint32_t word)
{
    for (int i = 0; i < 4; i++)
        bytes[i] = (uint8_t)(word >> 8 * i);
}

void put_number(uint8_t *bytes, uint64_t number)
{
    put_word(bytes, (uint32_t)number);
    put_word(bytes + 4, (uint32_t)(number >> 32));
}

void get_words(const uint8_t *bytes, size_t count, uint32_t *words)
{
    for (size_t i = 0; i < count; i++)
        words[i] = get_word(bytes + 4 * i);
}

void put_words(uint8_t *bytes, size_t count, const uint32_t *words)
{
    for (size_t i = 0; i < count; i++)
        put_word(bytes + 4 * i, words[i]);
}

uint64_t join_words(const uint32_t words[2])
{
    return words[0] | (uint64_t)words[1] << 32;
}

void split_number(uint64_t number, uint32_t words[2])
{
    words[0] = (uint32_t)number;
    words[1] = (uint32_t)(number >> 32);
}

/* The value of a digit; 16 for any other character. */
static unsigned digit(char c)
{
    if (c >= '0' && c <= '9')
        return (unsigned)(c - '0');
    if (c >= 'a' && c <= 'f')
        return (unsigned)(c - 'a') + 10;
    if (c >= 'A' && c <= 'F')
        return (unsigned)(c - 'A') + 10;
    return 16;
}

bool read_number(const char *text, uint64_t *number)
{
    unsigned base = 10;
    if (text[0] == '0' && (text[1] == 'x' || text[1] == 'X')) {
        base = 16;
        text += 2;
    }
    if (*text == 0)
        return false;
    uint64_t value = 0;
    for (; *text != 0; text++) {
        unsigned next = digit(*text);
        if (next >= base || value > (UINT64_MAX - next) / base)
            return false;
        value = value * base + next;
    }
    *number = value;
    return true;
}

bool read_word(const char *text, uint32_t *word)
{
    uint64_t number;
    bool negative = text[0] == '-';
    if (!read_number(text + negative, &number) || number > (negative ? UINT64_C(0x80000000) : UINT32_MAX))
        return false;
    *word = negative ? (uint32_t)(0 - number) : (uint32_t)number;
    return true;
}

int64_t signed_word(uint32_t word)
{
    return word < UINT32_C(0x80000000) ? (int64_t)word : (int64_t)word - INT64_C(0x100000000);
}
