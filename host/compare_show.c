/* One board beside a result, in full. */
#include <inttypes.h>
#include <stdio.h>
#include <stdlib.h>

#include "compare.h"
#include "units.h"
#include "words.h"

/* Shows every difference of a part. A status. */
static int show_all(const struct pair *pair, enum part part, const struct found *found)
{
    size_t *numbers = differing_units(pair->board[0], pair->board[1], part, found);
    if (numbers == NULL)
        return STATUS_BAD;
    for (size_t i = 0; i < found->count; i++)
        show_unit(pair, part, numbers[i]);
    free(numbers);
    return STATUS_DONE;
}

static int show_part(const struct pair *pair, enum part part, const struct found *found, bool all)
{
    const struct part_shape *shape = &part_shapes[part];
    char paths[PATHS_TEXT];
    if (found->count == 0) {
        printf("%s: the same, %" PRIu64 " %s compared\n", shape->words, found->compared, plural(found->compared, shape->one, shape->many));
        return STATUS_DONE;
    }
    path_alone_words(found, paths);
    printf("%s: %" PRIu64 " %s %s%s, the first is %" PRIu64 "\n", shape->words, found->count, plural(found->count, shape->one, shape->many),
           plural(found->count, "differs", "differ"), paths, found->first);
    if (all)
        return show_all(pair, part, found);
    show_unit(pair, part, found->first);
    return STATUS_DONE;
}

void show_result(const char *name, const struct result *result)
{
    char words[RESULT_TEXT];
    result_words(result, words);
    printf("%s: %s\n", name, words);
}

int show_board(void *context, const struct rack *rack, const struct compared *compared)
{
    (void)context;
    const struct comparison *comparison = &compared->comparison;
    if (compared->board == NULL || !is_compared(comparison->verdict))
        return STATUS_DONE;
    const struct pair pair = {{rack->name, compared->name}, "board - result", {&rack->result->board, &compared->board->board}};
    char verdict[VERDICT_TEXT];
    int status = STATUS_DONE;
    show_result(rack->name, rack->result);
    show_result(compared->name, compared->board);
    for (size_t i = 0; i < PARTS; i++)
        if (has_part(comparison, part_order[i]))
            status = worse(status, show_part(&pair, part_order[i], &comparison->found[part_order[i]], rack->all));
    if (has_part(comparison, PART_LOG))
        show_lengths(&pair);
    verdict_words(rack, compared, verdict);
    puts(verdict);
    return status;
}
