/* Boards beside a result as JSON. */
#include <inttypes.h>
#include <stdio.h>
#include <stdlib.h>

#include "compare.h"
#include "counts.h"
#include "json.h"
#include "units.h"

static void print_difference(const struct board *a, const struct board *b, enum part part, size_t number)
{
    printf("{\"number\": %zu, ", number);
    if (part == PART_LOG)
        printf("\"path_alone\": %s, ", is_path_alone(a, b, number) ? "true" : "false");
    printf("\"result\": ");
    print_unit_json(a, part, number);
    printf(", \"board\": ");
    print_unit_json(b, part, number);
    printf("}");
}

/* The differences that are shown: the first, or every one. A status. */
static int print_differences(const struct rack *rack, const struct compared *compared, enum part part)
{
    const struct board *a = &rack->result->board, *b = &compared->board->board;
    const struct found *found = &compared->comparison.found[part];
    size_t *numbers = differing_units(a, b, part, found);
    if (numbers == NULL)
        return STATUS_BAD;
    for (size_t i = 0; i < found->count && (i == 0 || rack->all); i++) {
        printf("%s\n          ", i > 0 ? "," : "");
        print_difference(a, b, part, numbers[i]);
    }
    free(numbers);
    return STATUS_DONE;
}

static int print_part(const struct rack *rack, const struct compared *compared, enum part part)
{
    const struct found *found = &compared->comparison.found[part];
    printf(",\n      \"%s\": {\"compared\": %" PRIu64 ", \"different\": %" PRIu64 ", ", part_shapes[part].name, found->compared, found->count);
    if (part == PART_LOG)
        printf("\"path_alone\": %" PRIu64 ", \"result_entries\": %" PRIu64 ", \"board_entries\": %" PRIu64 ", ", found->path_alone,
               board_used(&rack->result->board), board_used(&compared->board->board));
    printf("\"differences\": [");
    int status = print_differences(rack, compared, part);
    printf("]}");
    return status;
}

/* The names of the parts compared, and what was found in each. */
static int print_parts(const struct rack *rack, const struct compared *compared)
{
    int status = STATUS_DONE;
    const char *between = "";
    printf(", \"compared\": [");
    for (size_t i = 0; i < PARTS; i++) {
        if (!has_part(&compared->comparison, part_order[i]))
            continue;
        printf("%s\"%s\"", between, part_shapes[part_order[i]].name);
        between = ", ";
    }
    printf("]");
    if (compared->comparison.quadwords.is_given)
        printf(", \"quadwords\": {\"first\": %" PRIu64 ", \"last\": %" PRIu64 "}", compared->comparison.quadwords.first, compared->comparison.quadwords.last);
    for (size_t i = 0; i < PARTS; i++)
        if (has_part(&compared->comparison, part_order[i]))
            status = worse(status, print_part(rack, compared, part_order[i]));
    printf("\n    ");
    return status;
}

/* What comes before the first board. */
static void begin_json(const struct rack *rack)
{
    printf("{\n  \"result\": {\"file\": ");
    print_json_text(stdout, rack->name);
    printf(", \"answer\": %" PRIu32 ", \"steps\": %" PRIu64 ", ", rack->result->answer, rack->result->counts[TEJBORUN_COUNT_STEPS]);
    print_totals_json(totals_of(rack->result->counts));
    printf("},\n  \"boards\": [\n");
}

int show_json(void *context, const struct rack *rack, const struct compared *compared)
{
    (void)context;
    int status = STATUS_DONE;
    char verdict[VERDICT_TEXT];
    const struct comparison *comparison = &compared->comparison;
    verdict_words(rack, compared, verdict);
    if (rack->boards == 0)
        begin_json(rack);
    printf("%s    {\"file\": ", rack->boards > 0 ? ",\n" : "");
    print_json_text(stdout, compared->name);
    printf(", \"verdict\": \"%s\", \"status\": %d", verdict, compared->status);
    if (compared->board != NULL)
        printf(", \"has\": \"%s\"", parts_words(compared->board->parts));
    if (compared->board != NULL && comparison->verdict == VERDICT_REFUSED)
        printf(", \"refusal\": %" PRIu32, comparison->refusal);
    if (compared->board != NULL && is_compared(comparison->verdict))
        status = print_parts(rack, compared);
    printf("}");
    return status;
}

int end_json(const struct rack *rack)
{
    static const char *const ends[VERDICTS + 1] = {"equal", "equal_in_parts", "different", "refused", "no_verdict", "not_read"};
    printf("\n  ],\n  \"summary\": {\"boards\": %zu", rack->boards);
    for (size_t i = 0; i <= VERDICTS; i++)
        printf(", \"%s\": %zu", ends[i], rack->ends[i]);
    printf("},\n  \"status\": %d\n}\n", rack->status);
    return STATUS_DONE;
}
