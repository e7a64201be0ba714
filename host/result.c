/* Result files. */
#include <inttypes.h>
#include <stdlib.h>

#include "board.h"
#include "files.h"
#include "kinds.h"
#include "numbers.h"
#include "shapes.h"

enum { HEAD_BYTES = 4 * RESULT_HEAD_WORDS };

/* Bytes of a result file with these parts and so many numbers of a log. */
static size_t result_length(unsigned parts, size_t log_numbers)
{
    const struct counts count = usual_counts(log_numbers);
    size_t length = HEAD_BYTES;
    for (size_t part = 0; part < PARTS; part++)
        length += (parts & PART_BIT(part)) != 0 ? part_bytes(part, count.of[part]) : 0;
    return length;
}

/* Whether a result has a log of so many numbers: whole entries, and not too many. */
static bool log_fits(size_t log_numbers)
{
    return log_numbers <= TEJBORUN_LOG_NUMBERS && log_numbers % TEJBORUN_ENTRY_NUMBERS == 0;
}

int board_fits(const char *name, const struct board *board)
{
    for (size_t part = 0; part < PARTS; part++) {
        const struct part_shape *shape = &part_shapes[part];
        size_t count = board->count.of[part];
        if (shape->memory != MEMORY_LOG && count != shape->usual)
            return complain(name, "not written: a result keeps %zu %s of %s, here are %zu", shape->usual, shape->elements, shape->words, count);
    }
    if (!log_fits(board->count.of[PART_LOG]))
        return complain(name, "not written: a result keeps a log of whole entries, %u numbers each, up to %u numbers, here are %zu", TEJBORUN_ENTRY_NUMBERS,
                        TEJBORUN_LOG_NUMBERS, board->count.of[PART_LOG]);
    return STATUS_DONE;
}

struct result_head result_head_of(const struct result *result)
{
    struct result_head head = {.mark = result_heads[0].fixed, .answer = result->answer, .state = result->board.state, .parts = result->parts};
    for (size_t i = 0; i < TEJBORUN_COUNTS; i++)
        split_number(result->counts[i], head.counts[i]);
    head.log_numbers = (result->parts & PART_BIT(PART_LOG)) != 0 ? (uint32_t)result->board.count.of[PART_LOG] : 0;
    return head;
}

struct result result_of_head(const struct result_head *head, struct board board)
{
    struct result result = {.parts = head->parts, .answer = head->answer, .board = board};
    for (size_t i = 0; i < TEJBORUN_COUNTS; i++)
        result.counts[i] = join_words(head->counts[i]);
    return result;
}

struct bytes result_bytes(const struct result *result)
{
    const struct board *board = &result->board;
    const struct result_head head = result_head_of(result);
    struct bytes file = {.count = result_length(result->parts, head.log_numbers)};
    uint8_t *at = file.at = allocate(file.count, 1);
    put_words(at, RESULT_HEAD_WORDS, (const uint32_t *)&head);
    at += HEAD_BYTES;
    for (size_t i = 0; i < PARTS; i++)
        if ((result->parts & PART_BIT(part_order[i])) != 0)
            at += put_part(at, board, part_order[i], board->count.of[part_order[i]]);
    return file;
}

/* A result has one part at least, and no length of a log that it lacks. */
static int check_parts(const char *name, const struct result_head *head)
{
    bool has_log = (head->parts & PART_BIT(PART_LOG)) != 0;
    if (head->parts == 0 || head->parts > PARTS_ALL)
        return complain(name, "damaged result: its parts are %" PRIu32 "; they are a sum of 1, 2, 4, 8 and 16", head->parts);
    if (!has_log && head->log_numbers > 0)
        return complain(name, "damaged result: it has no log, and %" PRIu32 " numbers of one", head->log_numbers);
    return STATUS_DONE;
}

/* Tests mark, parts and length; reads the head. */
static int check_result(const char *name, const struct bytes *file, struct result_head *head)
{
    int status = check_mark(name, file, result_heads);
    if (status != STATUS_DONE)
        return status;
    if (file->count < HEAD_BYTES)
        return complain(name, "damaged result: %zu bytes, cut within its head of %d", file->count, HEAD_BYTES);
    get_words(file->at, RESULT_HEAD_WORDS, (uint32_t *)head);
    status = check_parts(name, head);
    if (status != STATUS_DONE)
        return status;
    size_t length = result_length(head->parts, head->log_numbers);
    if (!log_fits(head->log_numbers))
        return complain(name, "%s: its log has %" PRIu32 " numbers; here it is whole entries, %u numbers each, and at most %u numbers",
                        file->count == length ? "a result of another layout" : "damaged result", head->log_numbers, TEJBORUN_ENTRY_NUMBERS,
                        TEJBORUN_LOG_NUMBERS);
    if (file->count != length)
        return complain(name, "damaged result: %zu bytes; its head says %zu", file->count, length);
    return STATUS_DONE;
}

int parse_result(const char *name, const struct bytes *file, struct result *result)
{
    struct result_head head;
    int status = check_result(name, file, &head);
    if (status != STATUS_DONE)
        return status;
    struct board board = new_board(usual_counts(head.log_numbers));
    board.state = head.state;
    const uint8_t *at = file->at + HEAD_BYTES;
    for (size_t i = 0; i < PARTS; i++)
        if ((head.parts & PART_BIT(part_order[i])) != 0)
            at += get_part(at, &board, part_order[i], board.count.of[part_order[i]]);
    *result = result_of_head(&head, board);
    return STATUS_DONE;
}

int read_result(const char *name, struct result *result)
{
    struct bytes file;
    int status = read_file(name, 2 * result_length(PARTS_ALL, TEJBORUN_LOG_NUMBERS), &file);
    if (status != STATUS_DONE)
        return status;
    status = parse_result(name, &file, result);
    if (status == STATUS_DONE)
        sum_of(&file, result->sum);
    free(file.at);
    return status;
}

int write_result(const char *name, const struct result *result)
{
    struct bytes file = result_bytes(result);
    int status = write_file(name, file.at, file.count);
    free(file.at);
    return status;
}
