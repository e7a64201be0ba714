/* A rack of boards beside a result: the result's run, a row a board, and a summary. */
#include <inttypes.h>
#include <stdio.h>
#include <string.h>

#include "compare.h"
#include "words.h"

enum { VERDICT = 12, FIRST = 20 }; /* characters of a column */

/* The paths of an entry that differs in them alone: ": path 3, not 2". */
static void add_paths(const struct rack *rack, const struct compared *compared, uint64_t number, char *words, size_t room)
{
    const struct board *result = &rack->result->board, *board = &compared->board->board;
    size_t length = strlen(words);
    if (is_path_alone(result, board, number))
        snprintf(words + length, room - length, ": path %" PRIu64 ", not %" PRIu64, board_entry(board, number)[TEJBORUN_ENTRY_PATH],
                 board_entry(result, number)[TEJBORUN_ENTRY_PATH]);
}

/* The first difference in words: the lowest unit of the first part that differs, else the logs' lengths. */
static void first_difference(const struct rack *rack, const struct compared *compared, char *words, size_t room)
{
    words[0] = 0;
    for (size_t i = 0; i < PARTS; i++) {
        const struct found *found = &compared->comparison.found[part_order[i]];
        const struct part_shape *shape = &part_shapes[part_order[i]];
        if (found->count > 0) {
            snprintf(words, room, "%s%s %" PRIu64, shape->whose, shape->one, found->first);
            if (part_order[i] == PART_LOG)
                add_paths(rack, compared, found->first, words, room);
            return;
        }
    }
    if (compared->comparison.verdict == VERDICT_DIFFERENT)
        snprintf(words, room, "log's length %" PRIu64 ", not %" PRIu64, board_used(&compared->board->board), board_used(&rack->result->board));
}

/* How many of each differ, and what was compared where it is not all. */
static void print_counts(const struct comparison *comparison)
{
    const char *between = "";
    for (size_t i = 0; i < PARTS; i++) {
        const struct part_shape *shape = &part_shapes[part_order[i]];
        const struct found *found = &comparison->found[part_order[i]];
        char paths[PATHS_TEXT];
        if (found->count == 0)
            continue;
        path_alone_words(found, paths);
        printf("%s%" PRIu64 " %s%s%s", between, found->count, shape->whose, plural(found->count, shape->one, shape->many), paths);
        between = ", ";
    }
    char in[COMPARED_TEXT];
    compared_words(comparison, in);
    if (!is_whole(comparison))
        printf("%scompared in %s", between[0] != 0 ? "; " : "", in);
}

/* A row with a difference. */
static void print_different(const struct rack *rack, const struct compared *compared)
{
    char first[80];
    const char *verdict = rack->result->answer == TEJBORUN_DONE ? "different" : "different from an unfinished result";
    first_difference(rack, compared, first, sizeof first);
    printf("%-*s  %-*s  ", VERDICT, verdict, FIRST, first);
    print_counts(&compared->comparison);
    putchar('\n');
}

int show_row(void *context, const struct rack *rack, const struct compared *compared)
{
    (void)context;
    char verdict[VERDICT_TEXT];
    if (rack->boards == 0) {
        show_result(rack->name, rack->result);
        printf("%-*s  %-*s  %-*s  %s\n", rack->width, "board", VERDICT, "verdict", FIRST, "first difference", "how many");
    }
    printf("%-*s  ", rack->width, compared->name);
    if (compared->board != NULL && compared->comparison.verdict == VERDICT_DIFFERENT) {
        print_different(rack, compared);
        return STATUS_DONE;
    }
    verdict_words(rack, compared, verdict);
    puts(verdict);
    return STATUS_DONE;
}

int show_summary(const struct rack *rack)
{
    static const char *const ends[VERDICTS + 1] = {"equal", "equal in parts", "different", "refused", "no verdict", "not read"};
    const char *between = ": ";
    printf("%zu %s beside %s", rack->boards, plural(rack->boards, "board", "boards"), rack->name);
    for (size_t i = 0; i <= VERDICTS; i++) {
        if (rack->ends[i] == 0)
            continue;
        printf("%s%zu %s", between, rack->ends[i], ends[i]);
        between = ", ";
    }
    putchar('\n');
    return STATUS_DONE;
}
