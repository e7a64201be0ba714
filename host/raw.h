/* Raw dumps of memories: their bytes and nothing else, little-endian. */
#ifndef RAW_H
#define RAW_H

#include "board.h"

/* Reads a dump into a part of the board, which has so many elements: a memory is whole, the log is whole entries. A status; *units: how many quadwords,
 * instructions or entries were read. */
int read_raw(const char *name, enum part part, size_t elements, struct board *board, size_t *units);

#endif
