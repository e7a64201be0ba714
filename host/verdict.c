/* The verdict on a board. */
#include "verdict.h"

#include <stdlib.h>
#include <string.h>

int status_of_verdict(enum verdict verdict)
{
    static const int statuses[] = {
        [VERDICT_EQUAL] = STATUS_DONE,      [VERDICT_EQUAL_IN_PARTS] = STATUS_DONE, [VERDICT_DIFFERENT] = STATUS_REFUSED,
        [VERDICT_REFUSED] = STATUS_REFUSED, [VERDICT_NONE] = STATUS_STOPPED,
    };
    return statuses[verdict];
}

bool is_compared(enum verdict verdict)
{
    return verdict <= VERDICT_DIFFERENT;
}

bool is_whole(const struct comparison *comparison)
{
    return comparison->parts == PARTS_ALL && !comparison->quadwords.is_given;
}

bool has_part(const struct comparison *comparison, enum part part)
{
    return is_compared(comparison->verdict) && (comparison->parts & PART_BIT(part)) != 0;
}

bool is_path_alone(const struct board *a, const struct board *b, size_t number)
{
    const uint64_t *x = board_entry(a, number), *y = board_entry(b, number);
    return x[TEJBORUN_ENTRY_PATH] != y[TEJBORUN_ENTRY_PATH] && x[TEJBORUN_ENTRY_REGISTER] == y[TEJBORUN_ENTRY_REGISTER] &&
           x[TEJBORUN_ENTRY_VALUE] == y[TEJBORUN_ENTRY_VALUE];
}

/* How many of the first entries do. */
static uint64_t count_path_alone(const struct board *a, const struct board *b, uint64_t entries)
{
    uint64_t count = 0;
    for (uint64_t i = 0; i < entries; i++)
        count += is_path_alone(a, b, i);
    return count;
}

/* What the library's numbers say of a part: where none differs it gives the first that was not compared in place of the first that differs. */
static struct found found_in(const struct board *a, const struct board *b, enum part part, const struct range *quadwords, const uint64_t *numbers)
{
    uint64_t both = board_used(a) < board_used(b) ? board_used(a) : board_used(b);
    bool is_ranged = quadwords->is_given && (PARTS_DATA & PART_BIT(part)) != 0;
    return (struct found){
        .from = is_ranged ? quadwords->first : 0,
        .compared = is_ranged ? quadwords->last + 1 - quadwords->first : part == PART_LOG ? both : board_units(a, part),
        .count = numbers[2 * part + 1],
        .first = numbers[2 * part],
        .path_alone = part == PART_LOG ? count_path_alone(a, b, both) : 0,
    };
}

/* The library's verdict over parts. */
static struct comparison ask(const struct board *a, const struct board *b, unsigned parts, const struct range *quadwords)
{
    struct comparison comparison = {.verdict = VERDICT_REFUSED, .parts = parts, .quadwords = *quadwords};
    uint64_t numbers[TEJBORUN_COMPARED] = {0};
    uint32_t answer = quadwords->is_given ? compare_boards_within(a, b, parts, quadwords, numbers) : compare_boards(a, b, parts, numbers);
    if (answer != TEJBORUN_SAME && answer != TEJBORUN_DIFFERENT) {
        comparison.refusal = answer >= TEJBORUN_REFUSED ? answer - TEJBORUN_REFUSED : answer;
        return comparison;
    }
    if (answer == TEJBORUN_DIFFERENT)
        comparison.verdict = VERDICT_DIFFERENT;
    else
        comparison.verdict = is_whole(&comparison) ? VERDICT_EQUAL : VERDICT_EQUAL_IN_PARTS;
    for (size_t part = 0; part < PARTS; part++)
        if ((parts & PART_BIT(part)) != 0)
            comparison.found[part] = found_in(a, b, part, quadwords, numbers);
    return comparison;
}

struct comparison compare_results(const struct result *result, const struct result *board, const struct wanted *wanted)
{
    unsigned both = result->parts & board->parts, parts = wanted->is_named ? wanted->only : both;
    if (result->answer != TEJBORUN_DONE && !wanted->unfinished)
        return (struct comparison){.verdict = VERDICT_NONE, .reason = REASON_UNFINISHED};
    if (parts == 0 || (parts & ~both) != 0)
        return (struct comparison){.verdict = VERDICT_NONE, .reason = REASON_PARTS};
    return ask(&result->board, &board->board, parts, &wanted->quadwords);
}

static bool differs(const struct board *a, const struct board *b, enum part part, size_t unit)
{
    return memcmp(board_unit(a, part, unit), board_unit(b, part, unit), part_bytes(part, part_shapes[part].unit_elements)) != 0;
}

size_t *differing_units(const struct board *a, const struct board *b, enum part part, const struct found *found)
{
    size_t *units = allocate(found->count, sizeof *units), count = 0;
    bool fits = true;
    for (size_t i = found->from; i < found->from + found->compared && fits; i++) {
        if (!differs(a, b, part, i))
            continue;
        fits = count < found->count;
        if (fits)
            units[count++] = i;
    }
    if (fits && count == found->count && (count == 0 || units[0] == found->first))
        return units;
    complain("compare", "the differences that are shown are not those that the library counts");
    free(units);
    return NULL;
}
