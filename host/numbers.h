/* Numbers in bytes and in text. */
#ifndef NUMBERS_H
#define NUMBERS_H

#include <stdbool.h>
#include <stddef.h>
#include <stdint.h>

uint32_t get_word(const uint8_t *bytes);
uint64_t get_number(const uint8_t *bytes);
void put_word(uint8_t *bytes, uint32_t word);
void put_number(uint8_t *bytes, uint64_t number);

/* So many words from bytes, and to bytes. */
void get_words(const uint8_t *bytes, size_t count, uint32_t *words);
void put_words(uint8_t *bytes, size_t count, const uint32_t *words);

/* A number of 64 bits in two words, the low one first. */
uint64_t join_words(const uint32_t words[2]);
void split_number(uint64_t number, uint32_t words[2]);

/* Reads a decimal or 0x number of at most 64 bits; false for any other text. */
bool read_number(const char *text, uint64_t *number);

/* Reads a word: a number below 2^32, or a negative decimal down to -2^31. */
bool read_word(const char *text, uint32_t *word);

/* A word as a signed number. */
int64_t signed_word(uint32_t word);

#endif
