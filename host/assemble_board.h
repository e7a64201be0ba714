/* Memories and log from text. */
#ifndef ASSEMBLE_BOARD_H
#define ASSEMBLE_BOARD_H

#include "board.h"
#include "fields.h"
#include "shapes.h"
#include "text.h"

/* Which quadwords, instructions or entries were given. */
struct units_given {
    uint8_t *given;
    size_t end; /* one more than the last */
};

/* A board that lines give: the state as after reset and the memories zero, where they give nothing else. */
struct board_text {
    struct board board;
    struct given state_given;
    struct units_given units[PARTS];
};

struct board_text new_board_text(struct counts count);
void free_board_text(struct board_text *memory);

/* The lines of a board's memories and log, for messages. */
#define BOARD_LINES "quadword, instruction, vif0.quadword, vif0.instruction, entry"

/* Reads a line state or one of these; says whether it is one. A status. */
int board_line(const struct text *text, const struct line *line, struct board_text *memory, bool *is_one);

/* The numbers of the log, of which there are at most so many, by the fields of a head that were given. A status. */
int read_log_length(const struct text *text, const struct line *line, const struct shape *shape, const struct given *given, const struct log_text *log,
                    size_t most, uint32_t *numbers);

/* After the last line: the entries used are those given, without a gap, unless a state line says how many. A status. */
int finish_board_text(const struct text *text, struct board_text *memory);

#endif
