/* The blocks of the scope document and of docs/FORMATS.md by their fields. Lists end with a nameless shape. */
#ifndef SHAPES_H
#define SHAPES_H

#include "board.h"
#include "capture.h"
#include "fields.h"
#include "totals.h"

extern const struct shape dma_tags[];     /* by ID: every tag fits one */
extern const struct shape vif_codes[];    /* a word that fits none is no code */
extern const struct shape gif_tags[];     /* one, which every quadword fits */
extern const struct shape record_heads[]; /* a sheet's, two words of which the last two bytes are not the header's */
extern const struct shape calls[];        /* a capture's */
extern const struct shape capture_heads[]; /* of a capture, and of a test case */
extern const struct shape result_heads[];  /* of a whole result, and of one that lacks parts; they have one mark */
extern const struct shape totals_heads[];  /* one: a totals file is nothing else */
extern const struct shape state_blocks[];

/* The length of a log in text: whole entries and the numbers beyond them; or, in text from before, the numbers, EARLIER_ENTRY_NUMBERS an entry. */
struct log_text {
    uint32_t entries, rest, numbers;
};

/* A log of so many numbers. */
struct log_text log_text_of(size_t numbers);

/* The heads of captures and results in text; the length of the log in it takes the place of the head's. */
struct capture_text {
    struct capture_head head;
    struct log_text log;
};

struct result_text {
    struct result_head head;
    struct log_text log;
};

/* The names of formats by their numbers. */
extern const struct names unpack_formats, gif_formats;

/* Whether the word is a code: UNPACK of a format that exists, or another that is listed; and whether VIF0 has that code. */
const struct shape *code_shape(uint32_t word);
const struct shape *vif0_code_shape(uint32_t word);

#endif
