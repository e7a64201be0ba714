/* The counts of runs and their totals. */
#include "counts.h"

#include <inttypes.h>
#include <stdio.h>
#include <string.h>

#include "files.h"
#include "shapes.h"
#include "words.h"

/* A run's counts go on with the totals, in their order. */
_Static_assert(TEJBORUN_COUNTS == 1 + TEJBORUN_TOTALS && TEJBORUN_COUNT_PACKETS == 1 + TEJBORUN_TOTAL_PACKETS, "steps and packets");
_Static_assert(TEJBORUN_COUNT_WORDS == 1 + TEJBORUN_TOTAL_WORDS && TEJBORUN_COUNT_NOPS == 1 + TEJBORUN_TOTAL_NOPS, "words and NOPs");
_Static_assert(TEJBORUN_COUNT_QWC == 1 + TEJBORUN_TOTAL_QWC && TEJBORUN_TOTAL_QWC + TEJBORUN_TAG_IDS == TEJBORUN_TOTALS, "QWC");

const char *tag_name(unsigned id)
{
    return dma_tags[id % TEJBORUN_TAG_IDS].name;
}

const uint64_t *totals_of(const uint64_t counts[TEJBORUN_COUNTS])
{
    return counts + TEJBORUN_COUNT_PACKETS;
}

bool has_counts(const uint64_t counts[TEJBORUN_COUNTS])
{
    uint64_t any = 0;
    for (size_t i = 0; i < TEJBORUN_TOTALS; i++)
        any |= totals_of(counts)[i];
    return any != 0;
}

/* VIF words and NOPs: "59 VIF words, 21 NOPs". */
static void add_words(uint64_t words, uint64_t nops, char *text, size_t room)
{
    size_t length = strlen(text);
    if (words == 0)
        snprintf(text + length, room - length, "; no VIF word");
    else if (nops == 0)
        snprintf(text + length, room - length, "; %" PRIu64 " VIF %s, no NOP", words, plural(words, "word", "words"));
    else
        snprintf(text + length, room - length, "; %" PRIu64 " VIF %s, %" PRIu64 " %s", words, plural(words, "word", "words"), nops, plural(nops, "NOP", "NOPs"));
}

/* QWC of the IDs that have some: "QWC cnt 24, end 13". */
static void add_qwc(const uint64_t *qwc, char *text, size_t room)
{
    const char *between = "; QWC ";
    for (unsigned id = 0; id < TEJBORUN_TAG_IDS; id++) {
        size_t length = strlen(text);
        if (qwc[id] == 0)
            continue;
        snprintf(text + length, room - length, "%s%s %" PRIu64, between, tag_name(id), qwc[id]);
        between = ", ";
    }
    size_t length = strlen(text);
    if (between[0] == ';')
        snprintf(text + length, room - length, "; QWC 0");
}

void traffic_words(const uint64_t counts[TEJBORUN_COUNTS], char text[TRAFFIC_TEXT])
{
    char packets[PACKETS_TEXT];
    packets_words(counts[TEJBORUN_COUNT_PACKETS], packets);
    snprintf(text, TRAFFIC_TEXT, "%s", packets);
    add_words(counts[TEJBORUN_COUNT_WORDS], counts[TEJBORUN_COUNT_NOPS], text, TRAFFIC_TEXT);
    add_qwc(counts + TEJBORUN_COUNT_QWC, text, TRAFFIC_TEXT);
}

struct share nop_share(const uint64_t totals[TEJBORUN_TOTALS])
{
    uint64_t share[2] = {0, 1};
    tejborun_nop_share(totals, TEJBORUN_TOTALS, share, 2);
    return (struct share){share[0], share[1]};
}

void all_qwc_words(const uint64_t totals[TEJBORUN_TOTALS], char text[ALL_QWC_TEXT])
{
    const uint64_t base = UINT64_C(1000000000000000000);
    uint64_t high = 0, low = 0;
    for (size_t id = 0; id < TEJBORUN_TAG_IDS; id++) {
        uint64_t qwc = totals[TEJBORUN_TOTAL_QWC + id];
        low += qwc % base;
        high += qwc / base;
    }
    high += low / base;
    if (high > 0)
        snprintf(text, ALL_QWC_TEXT, "%" PRIu64 "%018" PRIu64, high, low % base);
    else
        snprintf(text, ALL_QWC_TEXT, "%" PRIu64, low);
}

void print_totals_json(const uint64_t totals[TEJBORUN_TOTALS])
{
    struct share share = nop_share(totals);
    char all[ALL_QWC_TEXT];
    all_qwc_words(totals, all);
    say("\"packets\": %" PRIu64 ", \"words\": %" PRIu64 ", \"nops\": %" PRIu64 ", \"nop_share\": {\"nops\": %" PRIu64 ", \"words\": %" PRIu64 "}, \"qwc\": {",
        totals[TEJBORUN_TOTAL_PACKETS], totals[TEJBORUN_TOTAL_WORDS], totals[TEJBORUN_TOTAL_NOPS], share.nops, share.words);
    for (unsigned id = 0; id < TEJBORUN_TAG_IDS; id++)
        say("\"%s\": %" PRIu64 ", ", tag_name(id), totals[TEJBORUN_TOTAL_QWC + id]);
    say("\"all\": %s}", all);
}
