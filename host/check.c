/* The command check: a supplier's chains, one or many, held against a sheet. */
#include "check.h"

#include <inttypes.h>
#include <stdlib.h>
#include <string.h>

#include "command.h"
#include "kinds.h"
#include "progress.h"
#include "raw.h"
#include "sheet.h"
#include "tejborun.h"

/* More than any chain, so that the library sees one that is too long. */
enum { CHAIN_READ_BYTES = 16 * 1048576 };

/* The allowance where none is given: some forty times the steps of the longest chain of a sheet, so that a chain without an end is told soon. */
enum { USUAL_ALLOWANCE = 10000000 };

bool was_run(const struct checked *chain)
{
    return chain->end == CHAIN_ACCEPTED || chain->end == CHAIN_DIFFERENT || chain->end == CHAIN_STOPPED;
}

bool was_done(const struct checked *chain)
{
    return was_run(chain) && chain->kind != TEJBORUN_CHECK_ANSWER;
}

bool run_refused(const struct checked *chain)
{
    return chain->kind == TEJBORUN_CHECK_ANSWER && chain->number != TEJBORUN_ALLOWANCE && chain->number != TEJBORUN_INTERRUPT;
}

/* Asks the library whether the chain does what the sheet means. */
static void ask(const struct checks *checks, const struct bytes *file, struct checked *chain)
{
    uint64_t numbers[TEJBORUN_CHECK_NUMBERS] = {0};
    struct board *left = &chain->left;
    const size_t *count = left->count.of;
    chain->kind = tejborun_check(checks->sheet.at, checks->sheet.count, file->at, file->count, left->data[VIF1], count[PART_DATA], left->code[VIF1],
                                 count[PART_CODE], left->log, count[PART_LOG], checks->allowance, numbers, TEJBORUN_CHECK_NUMBERS);
    chain->number = numbers[0];
    chain->offset = numbers[1];
    set_board_used(left, numbers[2]);
    memcpy(chain->counts, numbers + 3, sizeof chain->counts);
}

/* How a chain ends that the library was asked of. */
static enum chain_end end_of(const struct checked *chain)
{
    if (chain->kind == TEJBORUN_CHECK_ACCEPTED)
        return CHAIN_ACCEPTED;
    if (chain->kind == TEJBORUN_CHECK_ANSWER && chain->number == TEJBORUN_ALLOWANCE)
        return CHAIN_STOPPED;
    return chain->kind == TEJBORUN_CHECK_REFUSED || chain->kind == TEJBORUN_SHORT ? CHAIN_REFUSED : CHAIN_DIFFERENT;
}

/* Makes the run that was checked once more, for the state that it leaves. */
static struct result run_again(const struct checks *checks, const struct bytes *file)
{
    struct result result = {.parts = PARTS_ALL, .board = copy_board(&checks->start)};
    struct board *board = &result.board;
    tejborun_reset(board_block(board), TEJBORUN_BLOCK_WORDS);
    tejborun_start(board_block(board), TEJBORUN_BLOCK_WORDS, 1, 0, 0);
    result.answer = tejborun_run(file->at, file->count, board->data[VIF1], board->count.of[PART_DATA], board->code[VIF1], board->count.of[PART_CODE],
                                 board->log, board->count.of[PART_LOG], board_block(board), TEJBORUN_BLOCK_WORDS, checks->allowance, result.counts,
                                 TEJBORUN_COUNTS);
    return result;
}

/* Says that the chain is refused; of the sheet it is said before the first chain. */
static void complain_of_refusal(const struct checked *chain)
{
    uint32_t refusal = (uint32_t)chain->number;
    if (!is_sheet_refusal(refusal))
        complain(chain->name, "%zu bytes, refused %" PRIu32 ": %s", chain->bytes, refusal, tejborun_message(refusal));
}

/* Complains where a file that is not accepted is something else than a chain. A status. */
static int check_chain_file(const char *name, const struct bytes *file)
{
    const char *kind = kind_by_mark(file);
    if (is_text(file) && memchr(file->at, '\n', file->count) != NULL)
        return complain(name, "no chain, but text; assemble it first: tejborun assemble chain %s -o CHAIN", name);
    if (kind != NULL && strcmp(kind, "sheet") != 0)
        return complain(name, "no chain: it begins with the mark of a %s", kind);
    return STATUS_DONE;
}

/* What the run left as a result, where it is wanted, and why it was refused. A status. */
static int keep_run(const struct words_given *given, const struct checks *checks, const struct bytes *file, struct checked *chain)
{
    const char *output = given->option[OPTION_OUTPUT];
    if (!was_run(chain) || (output == NULL && !run_refused(chain)))
        return STATUS_DONE;
    struct result result = run_again(checks, file);
    if (run_refused(chain))
        chain->why = ask_why(file->at, file->count, &result.board);
    int status = output != NULL ? write_result(output, &result) : STATUS_DONE;
    free_board(&result.board);
    return status;
}

/* The verdict on a chain that was read. */
static void judge_chain(const struct words_given *given, const struct checks *checks, const struct bytes *file, struct checked *chain)
{
    static const int statuses[CHAIN_ENDS] = {STATUS_DONE, STATUS_REFUSED, STATUS_STOPPED, STATUS_REFUSED, STATUS_BAD};
    chain->bytes = file->count;
    ask(checks, file, chain);
    chain->end = end_of(chain);
    if (chain->end != CHAIN_ACCEPTED && checks->is_valid && check_chain_file(chain->name, file) != STATUS_DONE)
        chain->end = CHAIN_NOT_READ;
    if (chain->end == CHAIN_REFUSED)
        complain_of_refusal(chain);
    chain->status = worse(statuses[chain->end], keep_run(given, checks, file, chain));
}

/* How chains are shown. */
struct view {
    show_checked *show;
    show_checks *end;
};

static struct view view_of(const struct words_given *given)
{
    if (given->option[OPTION_QUIET] != NULL)
        return (struct view){NULL, NULL};
    if (given->option[OPTION_JSON] != NULL)
        return (struct view){show_chain_json, end_chains_json};
    return given->count == 2 ? (struct view){show_chain, NULL} : (struct view){show_chain_row, show_chains};
}

/* One chain: read, checked, shown and counted. */
static void one_chain(const struct words_given *given, const struct view *view, const char *name, struct checks *checks)
{
    struct bytes file;
    struct checked chain = {.name = name, .end = CHAIN_NOT_READ, .left = copy_board(&checks->start)};
    chain.status = read_file(name, CHAIN_READ_BYTES, &file);
    if (chain.status == STATUS_DONE)
        judge_chain(given, checks, &file, &chain);
    end_count();
    if (view->show != NULL)
        view->show(checks, &chain);
    checks->chains++;
    checks->ends[chain.end]++;
    checks->status = worse(checks->status, chain.status);
    free(file.at);
    free_board(&chain.left);
}

/* What the sheet means of the memories that runs begin with, and the chain built of it, where the library takes it; says where it does not. */
static void take_meaning(struct checks *checks)
{
    uint64_t steps[2] = {0}, meant[2] = {0};
    uint8_t *chain;
    const struct bytes *sheet = &checks->sheet;
    checks->meaning = copy_board(&checks->start);
    struct board *board = &checks->meaning;
    uint32_t refusal = tejborun_steps(sheet->at, sheet->count, steps, 2);
    if (refusal == TEJBORUN_DONE)
        refusal = tejborun_meaning(sheet->at, sheet->count, board->data[VIF1], board->count.of[PART_DATA], board->code[VIF1], board->count.of[PART_CODE],
                                   board->log, board->count.of[PART_LOG], 0, meant, 2);
    checks->is_valid = refusal == TEJBORUN_DONE;
    checks->bytes = chain_of(sheet, &chain);
    checks->steps = steps[0];
    set_board_used(board, meant[0]);
    free(chain);
    if (!checks->is_valid && is_text(sheet))
        complain(checks->name, "it is text; assemble it first: tejborun assemble sheet %s -o SHEET", checks->name);
    if (!checks->is_valid)
        sheet_refused(checks->name, refusal, steps[1]);
}

/* The memories that runs begin with: zeros, or raw files. A status. */
static int take_start(const struct words_given *given, struct board *start)
{
    static const enum part parts[] = {PART_DATA, PART_CODE};
    int status = STATUS_DONE;
    for (size_t i = 0; i < 2 && status == STATUS_DONE; i++) {
        const char *name = given->option[part_option(parts[i])];
        size_t units;
        if (name != NULL)
            status = read_raw(name, parts[i], start->count.of[parts[i]], start, &units);
    }
    return status;
}

/* The longest name of a chain, as far as a column goes. */
static int longest_name(const struct words_given *given)
{
    size_t longest = 8;
    for (size_t i = 1; i < given->count; i++)
        if (strlen(given->word[i]) > longest)
            longest = strlen(given->word[i]);
    return longest < 60 ? (int)longest : 60;
}

static int check_chains(const struct words_given *given, struct checks *checks)
{
    const struct view view = view_of(given);
    take_meaning(checks);
    for (size_t i = 1; i < given->count; i++) {
        show_count(i - 1, given->count - 1, "chains");
        one_chain(given, &view, given->word[i], checks);
    }
    if (view.end != NULL)
        view.end(checks);
    free_board(&checks->meaning);
    return checks->status;
}

int command_check(const struct words_given *given)
{
    struct checks checks = {.name = given->word[0], .width = longest_name(given)};
    checks.allowance = given->option[OPTION_ALLOWANCE] != NULL ? given->allowance : USUAL_ALLOWANCE;
    if (given->option[OPTION_OUTPUT] != NULL && given->count > 2)
        return complain("check", "-o takes what the run of one chain left; here are %zu", given->count - 1);
    int status = read_sheet(checks.name, &checks.sheet);
    if (status != STATUS_DONE)
        return status;
    checks.start = new_board(usual_counts(TEJBORUN_LOG_NUMBERS));
    status = take_start(given, &checks.start);
    if (status == STATUS_DONE)
        status = check_chains(given, &checks);
    free_board(&checks.start);
    free(checks.sheet.at);
    return status;
}
