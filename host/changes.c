/* What a run changed, in short. The library counts; only the last place is looked for here. */
#include "changes.h"

#include <inttypes.h>
#include <string.h>

#include "words.h"

/* The last unit of a part that differs; one does. */
static size_t last_change(const struct board *before, const struct board *after, enum part part)
{
    size_t count = board_units(before, part), bytes = part_bytes(part, part_shapes[part].unit_elements);
    while (count > 0 && memcmp(board_unit(before, part, count - 1), board_unit(after, part, count - 1), bytes) == 0)
        count--;
    return count - 1;
}

static void print_memory(const struct board *before, const struct board *after, enum part part, const uint64_t *numbers)
{
    const struct part_shape *shape = &part_shapes[part];
    uint64_t first = numbers[2 * part], count = numbers[2 * part + 1];
    say("  %s: ", shape->words);
    if (count == 0)
        say("nothing changed\n");
    else
        say("%" PRIu64 " %s changed, first %" PRIu64 ", last %zu\n", count, plural(count, shape->one, shape->many), first, last_change(before, after, part));
}

static void print_log(uint64_t before, uint64_t after)
{
    uint64_t more = after - before;
    if (more == 0)
        say("  log: nothing added, %" PRIu64 " used\n", after);
    else
        say("  log: %" PRIu64 " %s added, first %" PRIu64 ", last %" PRIu64 "\n", more, plural(more, "entry", "entries"), before, after - 1);
}

/* Prints the changes of a VIF's memories; whether a run with these lengths is not refused. */
static bool print_memories(const struct board *before, const struct board *after, enum vif vif)
{
    uint64_t numbers[TEJBORUN_COMPARED] = {0};
    if (compare_boards(before, after, parts_of(vif), numbers) >= TEJBORUN_REFUSED) {
        say("  %s and log: untouched, with these lengths every run is refused\n", vif == VIF0 ? "VIF0's memories" : "VIF1's memories");
        return false;
    }
    print_memory(before, after, data_of(vif), numbers);
    print_memory(before, after, code_of(vif), numbers);
    return true;
}

void print_changes(const struct board *before, const struct board *after, const bool lent[VIFS])
{
    bool any = false;
    for (size_t vif = 0; vif < VIFS; vif++)
        if (lent[vif])
            any |= print_memories(before, after, vif);
    if (any)
        print_log(board_used(before), board_used(after));
}
