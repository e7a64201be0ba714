/* SHA-256. */
#ifndef SUM_H
#define SUM_H

#include "files.h"

enum { SUM_TEXT = 65 };

/* The SHA-256 of bytes, in 64 hexadecimal digits. */
void sum_of(const struct bytes *bytes, char text[SUM_TEXT]);

#endif
