/* Memories and log from text: the lines quadword and instruction of each VIF, and entry. */
#include "assemble_board.h"

#include <inttypes.h>
#include <stdlib.h>
#include <string.h>

#include "assemble.h"
#include "kinds.h"
#include "numbers.h"
#include "words.h"

struct board_text new_board_text(struct counts count)
{
    struct board_text memory = {.board = new_board(count)};
    for (size_t part = 0; part < PARTS; part++)
        memory.units[part].given = allocate(board_units(&memory.board, part), 1);
    tejborun_reset(board_block(&memory.board), TEJBORUN_BLOCK_WORDS);
    return memory;
}

void free_board_text(struct board_text *memory)
{
    for (size_t part = 0; part < PARTS; part++)
        free(memory->units[part].given);
    free_board(&memory->board);
}

/* The number of a quadword, an instruction or an entry: one that there is, and given for the first time. */
static int place_item(const struct text *text, const struct line *line, struct board_text *memory, enum part part, size_t *place)
{
    uint64_t number;
    size_t limit = board_units(&memory->board, part);
    struct units_given *units = &memory->units[part];
    int status = number_item(text, line, 1, 64, &number);
    if (status != STATUS_DONE)
        return status;
    if (number >= limit)
        return complain_at(text, line->number, "%s %" PRIu64 ": the last is %zu", line->item[0], number, limit - 1);
    if (units->given[number])
        return complain_at(text, line->number, "%s %" PRIu64 " is given twice", line->item[0], number);
    units->given[number] = true;
    *place = (size_t)number;
    if (units->end <= *place)
        units->end = *place + 1;
    return STATUS_DONE;
}

static int quadword_line(const struct text *text, const struct line *line, struct board_text *memory, enum part part)
{
    size_t place;
    int status = expect_items(text, line, 5, "its number and four words, X Y Z W");
    if (status == STATUS_DONE)
        status = place_item(text, line, memory, part, &place);
    for (size_t i = 0; i < 4 && status == STATUS_DONE; i++)
        status = word_item(text, line, 2 + i, &board_quadword(&memory->board, part, place)[i]);
    return status;
}

static int instruction_line(const struct text *text, const struct line *line, struct board_text *memory, enum part part)
{
    size_t place;
    uint64_t instruction;
    int status = expect_items(text, line, 2, "its number and one number of 64 bits");
    if (status == STATUS_DONE)
        status = place_item(text, line, memory, part, &place);
    if (status == STATUS_DONE)
        status = number_item(text, line, 2, 64, &instruction);
    if (status == STATUS_DONE)
        put_number(board_instruction(&memory->board, part, place), instruction);
    return status;
}

static const char path_field[] = "path=";

/* Whether the line of an entry has its path, which stands before the register. */
static bool has_path(const struct line *line)
{
    return line->count > 2 && strncmp(line->item[2], path_field, strlen(path_field)) == 0;
}

/* The path of an entry. Without one, as in text from before, it is a program start's; a write's is not guessed. */
static int path_item(const struct text *text, const struct line *line, uint64_t log_register, uint64_t *path)
{
    char *const *item = line->item;
    *path = 0;
    if (has_path(line) && !read_number(item[2] + strlen(path_field), path))
        return complain_at(text, line->number, "'%s': a path is 2 or 3 for a write of the GIF, 0 for a program start; give a number of 64 bits", item[2]);
    if (has_path(line) || is_program_start(log_register))
        return STATUS_DONE;
    return complain_at(text, line->number,
                       "entry %s has no path: write 'entry %s path=2 %s %s', or path=3 where path 3 wrote it; "
                       "only MSCAL, MSCALF and MSCNT go without, with path 0",
                       item[1], item[1], item[2], item[3]);
}

static int entry_line(const struct text *text, const struct line *line, struct board_text *memory, enum part part)
{
    size_t place, at = has_path(line) ? 3 : 2;
    int status = expect_items(text, line, at + 1, "its number, path=P, a register and a value");
    if (status == STATUS_DONE)
        status = place_item(text, line, memory, part, &place);
    if (status != STATUS_DONE)
        return status;
    uint64_t *entry = board_entry(&memory->board, place);
    status = register_item(text, line, at, &entry[TEJBORUN_ENTRY_REGISTER]);
    if (status == STATUS_DONE)
        status = number_item(text, line, at + 1, 64, &entry[TEJBORUN_ENTRY_VALUE]);
    if (status == STATUS_DONE)
        status = path_item(text, line, entry[TEJBORUN_ENTRY_REGISTER], &entry[TEJBORUN_ENTRY_PATH]);
    return status;
}

struct board_line {
    const char *name;
    enum part part;
    int (*read)(const struct text *, const struct line *, struct board_text *, enum part);
};

static const struct board_line lines[] = {
    {"quadword", PART_DATA, quadword_line},           {"instruction", PART_CODE, instruction_line}, {"vif0.quadword", PART_DATA0, quadword_line},
    {"vif0.instruction", PART_CODE0, instruction_line}, {"entry", PART_LOG, entry_line},
};

int board_line(const struct text *text, const struct line *line, struct board_text *memory, bool *is_one)
{
    *is_one = true;
    if (strcmp(line->item[0], "state") == 0)
        return read_fields(text, line, &state_blocks[0], board_block(&memory->board), &memory->state_given);
    for (size_t i = 0; i < sizeof lines / sizeof lines[0]; i++)
        if (strcmp(lines[i].name, line->item[0]) == 0)
            return lines[i].read(text, line, memory, lines[i].part);
    *is_one = false;
    return STATUS_DONE;
}

/* The whole entries of a log and the numbers beyond them, by the words of today or of before. */
static struct log_text today(const struct log_text *log, bool before)
{
    if (!before)
        return *log;
    return (struct log_text){.entries = log->numbers / EARLIER_ENTRY_NUMBERS, .rest = log->numbers % EARLIER_ENTRY_NUMBERS};
}

int read_log_length(const struct text *text, const struct line *line, const struct shape *shape, const struct given *given, const struct log_text *log,
                    size_t most, uint32_t *numbers)
{
    bool before = is_given(shape, given, "log-numbers");
    const struct log_text length = today(log, before);
    uint64_t count = (uint64_t)length.entries * TEJBORUN_ENTRY_NUMBERS + length.rest;
    if (before && (is_given(shape, given, "log-entries") || is_given(shape, given, "log-rest")))
        return complain_at(text, line->number, "'log-numbers' is of text from before, %d an entry: leave it out, the log's length is given already",
                           EARLIER_ENTRY_NUMBERS);
    if (length.rest >= TEJBORUN_ENTRY_NUMBERS)
        return complain_at(text, line->number, "log-rest=%" PRIu32 ": the numbers beyond whole entries are less than an entry's %u", length.rest,
                           TEJBORUN_ENTRY_NUMBERS);
    if (count > most)
        return complain_at(text, line->number, "%" PRIu32 " entries of the log are %" PRIu64 " numbers; the most is %zu", length.entries, count, most);
    *numbers = (uint32_t)count;
    return STATUS_DONE;
}

int finish_board_text(const struct text *text, struct board_text *memory)
{
    const struct units_given *entries = &memory->units[PART_LOG];
    if (is_given(&state_blocks[0], &memory->state_given, "used"))
        return STATUS_DONE;
    for (size_t i = 0; i < entries->end; i++)
        if (!entries->given[i])
            return complain(text->name, "has entry %zu and no entry %zu: give it, or the entries used with 'state used='", entries->end - 1, i);
    set_board_used(&memory->board, entries->end);
    return STATUS_DONE;
}
