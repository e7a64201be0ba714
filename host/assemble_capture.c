/* Captures from text: a head, the state, the memories at first, calls, and the lines of main memory. */
#include <stdlib.h>
#include <string.h>

#include "assemble.h"
#include "assemble_board.h"
#include "capture.h"
#include "command.h"
#include "numbers.h"
#include "raw.h"

/* What the lines have given so far. */
struct parts {
    struct capture_head head;
    struct given head_given;
    bool has_head;
    struct board_text memory; /* with the longest memories and log */
    struct output calls, main;
};

static int head_line(const struct text *text, const struct line *line, struct parts *parts)
{
    if (parts->has_head)
        return complain_at(text, line->number, "'capture' is given twice");
    parts->has_head = true;
    struct capture_text head = {parts->head, log_text_of(parts->head.length[PART_LOG])};
    int status = read_fields(text, line, &capture_heads[1], (uint32_t *)&head, &parts->head_given);
    if (status == STATUS_DONE)
        status = read_log_length(text, line, &capture_heads[1], &parts->head_given, &head.log, most_counts().of[PART_LOG], &head.head.length[PART_LOG]);
    parts->head = head.head;
    return status;
}

/* What is not given of a call: a start is on channel 1, a run has no limit, a set is of unit 1; which register it sets to what has to be said. */
static int complete_call(const struct text *text, const struct line *line, const struct shape *shape, const struct given *given, uint32_t *words)
{
    if (shape->fixed == CALL_RUN && !is_given(shape, given, "allowance"))
        split_number(UINT64_MAX, words + 1);
    if (shape->fixed == CALL_START && !is_given(shape, given, "channel"))
        words[1] = 1;
    if (shape->fixed == CALL_SET && !is_given(shape, given, "unit"))
        words[1] = 1;
    if (shape->fixed == CALL_SET && !(is_given(shape, given, "register") && is_given(shape, given, "value")))
        return complain_at(text, line->number, "'set' has a register and a value: register=row0 value=0x3F800000");
    return STATUS_DONE;
}

static int call_line(const struct text *text, const struct line *line, const struct shape *shape, struct parts *parts)
{
    uint32_t words[CALL_WORDS] = {shape->fixed};
    struct given given = {0};
    int status = read_fields(text, line, shape, words, &given);
    if (status == STATUS_DONE)
        status = complete_call(text, line, shape, &given, words);
    if (status != STATUS_DONE)
        return status;
    write_words(&parts->calls, words, CALL_WORDS);
    return STATUS_DONE;
}

static int capture_line(const struct text *text, const struct line *line, struct parts *parts)
{
    bool is_one;
    if (strcmp(line->item[0], "capture") == 0)
        return head_line(text, line, parts);
    int status = board_line(text, line, &parts->memory, &is_one);
    if (is_one)
        return status;
    const struct shape *call = shape_named(calls, line->item[0]);
    if (call != NULL)
        return call_line(text, line, call, parts);
    return memory_line(text, line, ", and no capture, state, " BOARD_LINES ", start, run, set or why", &parts->main);
}

static int read_parts(struct text *text, struct parts *parts)
{
    struct line line;
    bool end;
    for (;;) {
        int status = next_line(text, &line, &end);
        if (status != STATUS_DONE || end)
            return status;
        status = capture_line(text, &line, parts);
        if (status != STATUS_DONE)
            return status;
    }
}

/* Reads the raw memories that the command's options name. */
static int take_raw_memories(const struct text *text, struct parts *parts)
{
    int status = STATUS_DONE;
    for (size_t part = 0; part < PARTS && status == STATUS_DONE; part++) {
        const char *name = text->given->option[part_option(part)];
        struct units_given *units = &parts->memory.units[part];
        if (name == NULL)
            continue;
        if (units->end > 0)
            return complain(name, "%s has lines for this memory already", text->name);
        status = read_raw(name, part, parts->head.length[part], &parts->memory.board, &units->end);
        memset(units->given, true, units->end);
    }
    return status;
}

static int take_raw_main(const struct text *text, struct parts *parts)
{
    const char *name = text->given->option[OPTION_MAIN];
    struct bytes file;
    if (name == NULL)
        return STATUS_DONE;
    if (parts->main.count > 0)
        return complain(name, "%s has lines for main memory already", text->name);
    int status = read_file(name, CAPTURE_MAIN_BYTES, &file);
    if (status != STATUS_DONE)
        return status;
    write_bytes(&parts->main, file.at, file.count);
    free(file.at);
    return STATUS_DONE;
}

static bool gives_memory(const struct parts *parts)
{
    size_t units = 0;
    for (size_t part = 0; part < PARTS; part++)
        units += parts->memory.units[part].end;
    return units > 0;
}

/* With a fill it is a test case. */
static int set_mark(const struct text *text, struct parts *parts)
{
    bool filled = is_given(&capture_heads[1], &parts->head_given, "fill");
    if (!parts->has_head)
        return complain(text->name, "has no line 'capture'");
    if (!filled && is_given(&capture_heads[1], &parts->head_given, "whole"))
        return complain(text->name, "has 'whole=' without 'fill=': both are of test cases");
    parts->head.mark = capture_heads[filled].fixed;
    return check_head(text->name, &parts->head);
}

/* Counts the memories given; a test case gives none. */
static int count_memories(const struct text *text, struct parts *parts)
{
    if (is_test_case(&parts->head))
        return gives_memory(parts) ? complain(text->name, "has 'fill=' and gives a memory: give one or the other") : STATUS_DONE;
    for (size_t part = 0; part < PARTS; part++)
        parts->head.first[part] = (uint32_t)(parts->memory.units[part].end * part_shapes[part].unit_elements);
    return finish_board_text(text, &parts->memory);
}

/* Counts what follows the head; complains of what no capture can have. */
static int count_parts(const struct text *text, struct parts *parts)
{
    if (parts->main.count % 4 != 0)
        return complain(text->name, "makes %zu bytes of main memory; give whole words of 4", parts->main.count);
    if (parts->calls.count / CALL_BYTES > CAPTURE_CALLS)
        return complain(text->name, "has %zu calls; the most is %d", parts->calls.count / CALL_BYTES, CAPTURE_CALLS);
    parts->head.given = (uint32_t)(parts->main.count / 4);
    parts->head.calls = (uint32_t)(parts->calls.count / CALL_BYTES);
    int status = count_memories(text, parts);
    return status == STATUS_DONE ? check_head(text->name, &parts->head) : status;
}

/* Writes so many elements of a part. */
static void write_part(struct output *output, const struct board *board, enum part part, size_t elements)
{
    size_t bytes = part_bytes(part, elements);
    uint8_t *at = allocate(bytes, 1);
    put_part(at, board, part, elements);
    write_bytes(output, at, bytes);
    free(at);
}

static void write_parts(struct parts *parts, struct output *output)
{
    const struct capture_head *head = &parts->head;
    const struct board *board = &parts->memory.board;
    uint8_t bytes[sizeof *head];
    put_head(bytes, head);
    write_bytes(output, bytes, head_bytes(head));
    write_words(output, (const uint32_t *)&board->state, TEJBORUN_BLOCK_WORDS);
    write_bytes(output, parts->calls.at, parts->calls.count);
    write_bytes(output, parts->main.at, parts->main.count);
    for (size_t i = 0; i < PARTS; i++)
        write_part(output, board, part_order[i], head->first[part_order[i]]);
}

/* The head where the text gives no field: each VIF's memories, and main memory and log as large as they can be. */
static struct capture_head default_head(void)
{
    struct capture_head head = {.main_bytes = TEJBORUN_MAIN_BYTES};
    for (size_t part = 0; part < PARTS; part++)
        head.length[part] = (uint32_t)part_shapes[part].usual;
    return head;
}

int assemble_capture(struct text *text, struct output *output)
{
    struct parts parts = {.head = default_head(), .memory = new_board_text(most_counts())};
    int status = read_parts(text, &parts);
    if (status == STATUS_DONE)
        status = set_mark(text, &parts);
    if (status == STATUS_DONE)
        status = take_raw_main(text, &parts);
    if (status == STATUS_DONE)
        status = take_raw_memories(text, &parts);
    if (status == STATUS_DONE)
        status = count_parts(text, &parts);
    if (status == STATUS_DONE)
        write_parts(&parts, output);
    free(parts.calls.at);
    free(parts.main.at);
    free_board_text(&parts.memory);
    return status;
}
