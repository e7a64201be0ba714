/* Results from text: a head, the state, and what is not zero. */
#include <inttypes.h>
#include <stdlib.h>
#include <string.h>

#include "assemble.h"
#include "assemble_board.h"

/* What the lines have given so far. */
struct parts {
    struct result_head head;
    struct given head_given;
    bool has_head;
    struct board_text memory; /* with the longest log */
};

static int head_line(const struct text *text, const struct line *line, struct parts *parts)
{
    if (parts->has_head)
        return complain_at(text, line->number, "'result' is given twice");
    parts->has_head = true;
    struct result_text head = {parts->head, log_text_of(parts->head.log_numbers)};
    int status = read_fields(text, line, &result_heads[1], (uint32_t *)&head, &parts->head_given);
    if (status == STATUS_DONE)
        status = read_log_length(text, line, &result_heads[1], &parts->head_given, &head.log, TEJBORUN_LOG_NUMBERS, &head.head.log_numbers);
    parts->head = head.head;
    if (status != STATUS_DONE)
        return status;
    if (parts->head.log_numbers % TEJBORUN_ENTRY_NUMBERS != 0)
        return complain_at(text, line->number, "log-numbers=%" PRIu32 ": a result keeps a log of whole entries", head.log.numbers);
    if (!is_given(&result_heads[1], &parts->head_given, "parts"))
        parts->head.parts = PARTS_ALL;
    else if (parts->head.parts == 0 || parts->head.parts > PARTS_ALL)
        return complain_at(text, line->number, "parts=%" PRIu32 ": name those that it has, in the order %s", parts->head.parts, parts_names(PARTS_ALL));
    if ((parts->head.parts & PART_BIT(PART_LOG)) == 0)
        parts->head.log_numbers = 0;
    return STATUS_DONE;
}

static int result_line(const struct text *text, const struct line *line, struct parts *parts)
{
    bool is_one;
    if (strcmp(line->item[0], "result") == 0)
        return head_line(text, line, parts);
    int status = board_line(text, line, &parts->memory, &is_one);
    if (!is_one)
        return complain_at(text, line->number, "'%s' is no line of a result: result, state, " BOARD_LINES, line->item[0]);
    for (size_t part = 0; part < PARTS && status == STATUS_DONE; part++)
        if (parts->memory.units[part].end > 0 && (parts->head.parts & PART_BIT(part)) == 0)
            return complain_at(text, line->number, "'%s': the result has %s alone", line->item[0], parts_words(parts->head.parts));
    size_t entries = parts->memory.units[PART_LOG].end;
    if (status == STATUS_DONE && TEJBORUN_ENTRY_NUMBERS * entries > parts->head.log_numbers)
        return complain_at(text, line->number, "entry %zu: the log has %" PRIu32 " entries", entries - 1, log_text_of(parts->head.log_numbers).entries);
    return status;
}

static int read_parts(struct text *text, struct parts *parts)
{
    struct line line;
    bool end;
    for (;;) {
        int status = next_line(text, &line, &end);
        if (status != STATUS_DONE || end)
            return status;
        if (!parts->has_head && strcmp(line.item[0], "result") != 0)
            return complain_at(text, line.number, "'%s': the first line is 'result'", line.item[0]);
        status = result_line(text, &line, parts);
        if (status != STATUS_DONE)
            return status;
    }
}

/* Puts the parts together; complains of what no result can have. */
static int join_parts(const struct text *text, struct parts *parts, struct output *output)
{
    if (!parts->has_head)
        return complain(text->name, "has no line 'result'");
    int status = finish_board_text(text, &parts->memory);
    struct result result = result_of_head(&parts->head, parts->memory.board);
    result.board.count.of[PART_LOG] = parts->head.log_numbers;
    if (status == STATUS_DONE)
        status = board_fits(text->name, &result.board);
    if (status != STATUS_DONE)
        return status;
    struct bytes file = result_bytes(&result);
    write_bytes(output, file.at, file.count);
    free(file.at);
    return STATUS_DONE;
}

int assemble_result(struct text *text, struct output *output)
{
    struct parts parts = {.head.log_numbers = TEJBORUN_LOG_NUMBERS, .memory = new_board_text(usual_counts(TEJBORUN_LOG_NUMBERS))};
    int status = read_parts(text, &parts);
    if (status == STATUS_DONE)
        status = join_parts(text, &parts, output);
    free_board_text(&parts.memory);
    return status;
}
