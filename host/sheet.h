/* Sheet files. */
#ifndef SHEET_H
#define SHEET_H

#include <stdbool.h>
#include <stddef.h>
#include <stdint.h>

#include "files.h"

/* Reads a sheet's bytes, however wrong the sheet is. A status; the caller frees them. */
int read_sheet(const char *name, struct bytes *sheet);

/* Whether an answer is a refusal of the sheet. */
bool is_sheet_refusal(uint32_t answer);

/* The length of a valid sheet's chain in bytes, as the library builds it, in new memory that the caller frees; where the library builds none, its refusal,
 * which is no multiple of 16. */
size_t chain_of(const struct bytes *sheet, uint8_t **chain);

/* Says that the sheet is refused; hands back STATUS_REFUSED. */
int sheet_refused(const char *name, uint32_t refusal, uint64_t offset);

#endif
