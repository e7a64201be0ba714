/* What a file is, by its mark. */
#ifndef KINDS_H
#define KINDS_H

#include <stdbool.h>
#include <stddef.h>

#include "fields.h"
#include "files.h"

/* Whether a file is text: no byte but characters, blanks and line ends. */
bool is_text(const struct bytes *file);

/* The kind of a file by its mark, also by one of an earlier layout; null where it has none. */
const char *kind_by_mark(const struct bytes *file);

/* Complains where the file begins with the mark of none of the heads: says which mark it has, and what a file of an earlier layout is. A status. */
int check_mark(const char *name, const struct bytes *file, const struct shape *heads);

/* Complains where the file is no state. A status. */
int check_state(const char *name, const struct bytes *file);

/* The words of a state block before VIF0 had its part of it. */
enum { EARLIER_BLOCK_WORDS = TEJBORUN_BLOCK_WORDS - TEJBORUN_UNIT_WORDS };

/* The numbers of a log entry before it had a path: register and value. */
enum { EARLIER_ENTRY_NUMBERS = 2 };

#endif
