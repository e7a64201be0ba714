/* The meanings of numbers in words. */
#ifndef WORDS_H
#define WORDS_H

#include <stdbool.h>
#include <stddef.h>
#include <stdint.h>

/* The name of a register of the log; null where it has none. */
const char *register_name(uint64_t number);

/* The number of a register by its name; -1 where there is none. */
int register_named(const char *name);

/* The register at a place of the list of those that have names; null after the last. */
const char *listed_register(size_t place);

/* The name of a GIF descriptor, 0 to 15. */
const char *descriptor_name(unsigned descriptor);

/* The registers of program starts in a log, MSCAL, MSCALF and MSCNT, which are its last; whether a register is one of them. */
enum { FIRST_START = 256, LAST_START = 258 };
bool is_program_start(uint64_t log_register);

/* A register that is set, by its unit and its number: "VIF1's ROW 0"; "unit 2's ROW 0" and "VIF1's register 8" where there is none. */
enum { REGISTER_TEXT = 48 };
void register_words(uint32_t unit, uint32_t number, char text[REGISTER_TEXT]);

/* The one or the many, for counts: "entry" or "entries". */
const char *plural(uint64_t count, const char *one, const char *many);

/* How many packets were closed: "no packet closed", "3 packets closed". */
enum { PACKETS_TEXT = 40 };
void packets_words(uint64_t packets, char text[PACKETS_TEXT]);

#endif
