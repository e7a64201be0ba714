/* The counts of runs and their totals: in words, as JSON, and the NOP share. */
#ifndef COUNTS_H
#define COUNTS_H

#include <stdbool.h>
#include <stdint.h>

#include "tejborun.h"

/* What a run moved, beside its steps: "1 packet closed; 59 VIF words, 21 NOPs; QWC cnt 24". */
enum { TRAFFIC_TEXT = 512 };
void traffic_words(const uint64_t counts[TEJBORUN_COUNTS], char text[TRAFFIC_TEXT]);

/* Whether any count but the steps is not 0. */
bool has_counts(const uint64_t counts[TEJBORUN_COUNTS]);

/* The name of a tag ID, 0 to 7. */
const char *tag_name(unsigned id);

/* The totals of a run alone: its counts without the steps. */
const uint64_t *totals_of(const uint64_t counts[TEJBORUN_COUNTS]);

/* NOPs over VIF words in lowest terms, as the library says. */
struct share {
    uint64_t nops, words;
};
struct share nop_share(const uint64_t totals[TEJBORUN_TOTALS]);

/* QWC of all IDs in decimal, for display: it may pass 64 bits. */
enum { ALL_QWC_TEXT = 48 };
void all_qwc_words(const uint64_t totals[TEJBORUN_TOTALS], char text[ALL_QWC_TEXT]);

/* Says totals as members of a JSON object. */
void print_totals_json(const uint64_t totals[TEJBORUN_TOTALS]);

#endif
