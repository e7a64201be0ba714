/* The commands build, steps and meaning. */
#include "sheet.h"

#include <inttypes.h>
#include <stdlib.h>

#include "board.h"
#include "command.h"
#include "kinds.h"
#include "records.h"
#include "tejborun.h"
#include "words.h"

/* More than any sheet, so that the library sees one that is too long. */
enum { SHEET_READ_BYTES = 16 * 1048576 };

int read_sheet(const char *name, struct bytes *sheet)
{
    return read_file(name, SHEET_READ_BYTES, sheet);
}

bool is_sheet_refusal(uint32_t answer)
{
    return (answer >= TEJBORUN_BAD_MARK && answer <= TEJBORUN_LONG_CHAIN) || answer == TEJBORUN_LONG_EXPANSION || answer == TEJBORUN_DEEP_GROUP;
}

int sheet_refused(const char *name, uint32_t refusal, uint64_t offset)
{
    complain(name, "refused %" PRIu32 " at offset %" PRIu64 ": %s", refusal, offset, tejborun_message(refusal));
    return STATUS_REFUSED;
}

/* The sheet's steps; the status and the message of its refusal. */
static int count_steps(const char *name, const struct bytes *sheet, uint64_t *steps)
{
    uint64_t numbers[2] = {0};
    uint32_t answer = tejborun_steps(sheet->at, sheet->count, numbers, 2);
    *steps = numbers[0];
    if (answer != TEJBORUN_DONE && is_text(sheet))
        complain(name, "it is text; assemble it first: tejborun assemble sheet %s -o SHEET", name);
    return answer == TEJBORUN_DONE ? STATUS_DONE : sheet_refused(name, answer, numbers[1]);
}

size_t chain_of(const struct bytes *sheet, uint8_t **chain)
{
    *chain = allocate(TEJBORUN_CHAIN_BYTES, 1);
    return tejborun_build(sheet->at, sheet->count, *chain, TEJBORUN_CHAIN_BYTES);
}

/* Says what a sheet of the second edition holds. */
static void say_counts(const struct bytes *sheet)
{
    char text[COUNTS_TEXT];
    struct record_counts counts = count_records(sheet);
    counts_words(&counts, text);
    if (counts.second)
        say("  %s\n", text);
}

static int build_chain(const struct words_given *given, const struct bytes *sheet)
{
    const char *name = given->word[0];
    uint64_t steps;
    uint8_t *chain;
    int status = count_steps(name, sheet, &steps);
    if (status != STATUS_DONE)
        return status;
    size_t length = chain_of(sheet, &chain);
    if (length % 16 != 0)
        status = sheet_refused(name, (uint32_t)length, 0);
    else
        status = write_file(given->option[OPTION_OUTPUT], chain, length);
    free(chain);
    if (status != STATUS_DONE)
        return status;
    say("%s: a chain of %zu bytes, %zu %s, %" PRIu64 " %s\n", given->option[OPTION_OUTPUT], length, length / 16,
        plural(length / 16, "quadword", "quadwords"), steps, plural(steps, "step", "steps"));
    say_counts(sheet);
    return STATUS_DONE;
}

int command_build(const struct words_given *given)
{
    struct bytes sheet;
    int status = read_sheet(given->word[0], &sheet);
    if (status != STATUS_DONE)
        return status;
    status = build_chain(given, &sheet);
    free(sheet.at);
    return status;
}

/* Says the steps; of a sheet of the second edition also what it holds and its chain's length. */
static int say_steps(const char *name, const struct bytes *sheet)
{
    uint64_t steps;
    uint8_t *chain;
    int status = count_steps(name, sheet, &steps);
    if (status != STATUS_DONE)
        return status;
    say("%" PRIu64 " %s\n", steps, plural(steps, "step", "steps"));
    if (!count_records(sheet).second)
        return STATUS_DONE;
    say_counts(sheet);
    size_t length = chain_of(sheet, &chain);
    free(chain);
    if (length % 16 != 0)
        return sheet_refused(name, (uint32_t)length, 0);
    say("  a chain of %zu bytes, %zu %s\n", length, length / 16, plural(length / 16, "quadword", "quadwords"));
    return STATUS_DONE;
}

int command_steps(const struct words_given *given)
{
    struct bytes sheet;
    int status = read_sheet(given->word[0], &sheet);
    if (status != STATUS_DONE)
        return status;
    status = say_steps(given->word[0], &sheet);
    free(sheet.at);
    return status;
}

/* Feeds the sheet to the result's board. */
static int feed_sheet(const char *name, const struct bytes *sheet, struct result *result)
{
    struct board *board = &result->board;
    uint64_t numbers[2] = {0};
    int status = count_steps(name, sheet, &result->counts[TEJBORUN_COUNT_STEPS]);
    if (status != STATUS_DONE)
        return status;
    tejborun_reset(board_block(board), TEJBORUN_BLOCK_WORDS);
    uint32_t answer = tejborun_meaning(sheet->at, sheet->count, board->data[VIF1], board->count.of[PART_DATA], board->code[VIF1], board->count.of[PART_CODE],
                                       board->log, board->count.of[PART_LOG], board_used(board), numbers, 2);
    if (answer != TEJBORUN_DONE)
        return sheet_refused(name, answer, numbers[1]);
    set_board_used(board, numbers[0]);
    return STATUS_DONE;
}

int command_meaning(const struct words_given *given)
{
    struct bytes sheet;
    int status = read_sheet(given->word[0], &sheet);
    if (status != STATUS_DONE)
        return status;
    struct result result = {.parts = PARTS_ALL, .board = new_board(usual_counts(TEJBORUN_LOG_NUMBERS))};
    status = feed_sheet(given->word[0], &sheet, &result);
    if (status == STATUS_DONE)
        status = write_result(given->option[OPTION_OUTPUT], &result);
    uint64_t steps = result.counts[TEJBORUN_COUNT_STEPS];
    if (status == STATUS_DONE)
        say("%s: the sheet's meaning, %" PRIu64 " %s, %" PRIu64 " log %s\n", given->option[OPTION_OUTPUT], steps, plural(steps, "step", "steps"),
            board_used(&result.board), plural(board_used(&result.board), "entry", "entries"));
    free_board(&result.board);
    free(sheet.at);
    return status;
}
