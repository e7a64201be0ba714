/* Results as text: memories where they are not zero, and the log's entries. */
#include <inttypes.h>
#include <stdio.h>

#include "board.h"
#include "dump.h"
#include "numbers.h"
#include "shapes.h"
#include "words.h"

static void print_head(const struct result *result)
{
    struct result_text head = {.head = result_head_of(result)};
    head.log = log_text_of(head.head.log_numbers);
    print_block(stdout, &result_heads[result->parts != PARTS_ALL], (const uint32_t *)&head);
    printf("  # %s\n", tejborun_message(result->answer));
}

static bool is_zero(const struct board *board, enum part part, size_t number)
{
    const uint8_t *bytes = board_unit(board, part, number);
    uint8_t any = 0;
    for (size_t i = 0; i < part_bytes(part, part_shapes[part].unit_elements); i++)
        any |= bytes[i];
    return any == 0;
}

static void print_quadword(const struct board *board, enum part part, size_t number)
{
    const uint32_t *at = board_quadword(board, part, number);
    printf("%squadword %zu 0x%08" PRIX32 " 0x%08" PRIX32 " 0x%08" PRIX32 " 0x%08" PRIX32 "\n", part == PART_DATA0 ? "vif0." : "", number, at[0], at[1],
           at[2], at[3]);
}

static void print_instruction(const struct board *board, enum part part, size_t number)
{
    printf("%sinstruction %zu 0x%016" PRIX64 "\n", part == PART_CODE0 ? "vif0." : "", number, get_number(board_instruction(board, part, number)));
}

static void print_entry(const struct board *board, enum part part, size_t number)
{
    (void)part;
    const uint64_t *entry = board_entry(board, number);
    printf("entry %zu path=%" PRIu64 " ", number, entry[TEJBORUN_ENTRY_PATH]);
    print_register(entry[TEJBORUN_ENTRY_REGISTER]);
    printf(" 0x%016" PRIX64 "\n", entry[TEJBORUN_ENTRY_VALUE]);
}

void print_part(const struct board *board, enum part part, size_t end, bool last)
{
    static void (*const print[])(const struct board *, enum part, size_t) = {
        [MEMORY_DATA] = print_quadword, [MEMORY_CODE] = print_instruction, [MEMORY_LOG] = print_entry,
    };
    uint64_t used = part == PART_LOG ? board_used(board) : 0;
    bool beyond = false;
    for (size_t i = 0; i < end; i++) {
        if (i >= used && is_zero(board, part, i) && !(last && i + 1 == end))
            continue;
        if (part == PART_LOG && i >= used && !beyond)
            printf("# beyond the entries used\n");
        beyond = i >= used;
        print[part_shapes[part].memory](board, part, i);
    }
}

int dump_result(const char *name, const struct bytes *file)
{
    struct result result;
    int status = parse_result(name, file, &result);
    if (status != STATUS_DONE)
        return status;
    const struct board *board = &result.board;
    print_head(&result);
    print_state(&board->state);
    for (size_t i = 0; i < PARTS; i++)
        print_part(board, part_order[i], board_units(board, part_order[i]), false);
    free_board(&result.board);
    return STATUS_DONE;
}
