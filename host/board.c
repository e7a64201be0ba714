/* What a board holds. */
#include "board.h"

#include <stdlib.h>
#include <string.h>

#include "files.h"
#include "numbers.h"

struct counts usual_counts(size_t log_numbers)
{
    struct counts count;
    for (size_t part = 0; part < PARTS; part++)
        count.of[part] = part_shapes[part].usual;
    count.of[PART_LOG] = log_numbers;
    return count;
}

struct board new_board(struct counts count)
{
    struct board board = {.count = count, .log = allocate(count.of[PART_LOG], sizeof *board.log)};
    for (size_t vif = 0; vif < VIFS; vif++) {
        board.data[vif] = allocate(count.of[data_of(vif)], sizeof *board.data[vif]);
        board.code[vif] = allocate(count.of[code_of(vif)], 1);
    }
    return board;
}

struct board copy_board(const struct board *board)
{
    struct board copy = new_board(board->count);
    copy.state = board->state;
    for (size_t vif = 0; vif < VIFS; vif++) {
        memcpy(copy.data[vif], board->data[vif], board->count.of[data_of(vif)] * sizeof *copy.data[vif]);
        memcpy(copy.code[vif], board->code[vif], board->count.of[code_of(vif)]);
    }
    memcpy(copy.log, board->log, board->count.of[PART_LOG] * sizeof *copy.log);
    return copy;
}

void free_board(struct board *board)
{
    for (size_t vif = 0; vif < VIFS; vif++) {
        free(board->data[vif]);
        free(board->code[vif]);
    }
    free(board->log);
    *board = (struct board){0};
}

uint32_t *board_block(struct board *board)
{
    return (uint32_t *)&board->state;
}

enum vif lent_vif(const struct tejborun_state *state)
{
    return state->chain.channel == 0 ? VIF0 : VIF1;
}

uint64_t board_used(const struct board *board)
{
    return tejborun_used(&board->state);
}

void set_board_used(struct board *board, uint64_t used)
{
    split_number(used, board->state.chain.used);
}

size_t board_units(const struct board *board, enum part part)
{
    return board->count.of[part] / part_shapes[part].unit_elements;
}

uint32_t *board_quadword(const struct board *board, enum part part, size_t number)
{
    return board->data[part_shapes[part].vif] + 4 * number;
}

uint8_t *board_instruction(const struct board *board, enum part part, size_t number)
{
    return board->code[part_shapes[part].vif] + 8 * number;
}

uint64_t *board_entry(const struct board *board, size_t number)
{
    return board->log + number * TEJBORUN_ENTRY_NUMBERS;
}

const void *board_unit(const struct board *board, enum part part, size_t number)
{
    switch (part_shapes[part].memory) {
    case MEMORY_DATA:
        return board_quadword(board, part, number);
    case MEMORY_CODE:
        return board_instruction(board, part, number);
    default:
        return board_entry(board, number);
    }
}

size_t part_bytes(enum part part, size_t elements)
{
    return elements * part_shapes[part].element_bytes;
}

size_t put_part(uint8_t *bytes, const struct board *board, enum part part, size_t elements)
{
    const struct part_shape *shape = &part_shapes[part];
    if (shape->memory == MEMORY_DATA)
        put_words(bytes, elements, board->data[shape->vif]);
    else if (shape->memory == MEMORY_CODE)
        memcpy(bytes, board->code[shape->vif], elements);
    else
        for (size_t i = 0; i < elements; i++)
            put_number(bytes + 8 * i, board->log[i]);
    return part_bytes(part, elements);
}

size_t get_part(const uint8_t *bytes, struct board *board, enum part part, size_t elements)
{
    const struct part_shape *shape = &part_shapes[part];
    if (shape->memory == MEMORY_DATA)
        get_words(bytes, elements, board->data[shape->vif]);
    else if (shape->memory == MEMORY_CODE)
        memcpy(board->code[shape->vif], bytes, elements);
    else
        for (size_t i = 0; i < elements; i++)
            board->log[i] = get_number(bytes + 8 * i);
    return part_bytes(part, elements);
}

/* The memories, the log and the entries used of a board, as the library's calls take them. */
#define BOARD_LENT(board)                                                                                                                             \
    (board)->data[VIF1], (board)->count.of[PART_DATA], (board)->code[VIF1], (board)->count.of[PART_CODE], (board)->data[VIF0],                        \
        (board)->count.of[PART_DATA0], (board)->code[VIF0], (board)->count.of[PART_CODE0], (board)->log, (board)->count.of[PART_LOG], board_used(board)

uint32_t compare_boards_within(const struct board *a, const struct board *b, unsigned parts, const struct range *quadwords, uint64_t numbers[TEJBORUN_COMPARED])
{
    return tejborun_compare_within(BOARD_LENT(a), BOARD_LENT(b), parts, quadwords->first, quadwords->last, numbers, TEJBORUN_COMPARED);
}

uint32_t compare_boards(const struct board *a, const struct board *b, unsigned parts, uint64_t numbers[TEJBORUN_COMPARED])
{
    return tejborun_compare(BOARD_LENT(a), BOARD_LENT(b), parts, numbers, TEJBORUN_COMPARED);
}
