/* The commands run, why and play. */
#include <inttypes.h>
#include <stdlib.h>
#include <string.h>

#include "blame.h"
#include "board.h"
#include "capture.h"
#include "changes.h"
#include "command.h"
#include "counts.h"
#include "kinds.h"
#include "numbers.h"
#include "progress.h"
#include "run.h"
#include "sheet.h"
#include "tejborun.h"
#include "why.h"
#include "words.h"

/* The exit status of an answer of a start, a set or a run. */
static int status_of(uint32_t answer)
{
    if (answer == TEJBORUN_DONE)
        return STATUS_DONE;
    return answer == TEJBORUN_ALLOWANCE || answer == TEJBORUN_INTERRUPT ? STATUS_STOPPED : STATUS_REFUSED;
}

/* The counts of a run, to the line's end. */
static void print_counts(const struct result *result)
{
    char traffic[TRAFFIC_TEXT];
    uint64_t steps = result->counts[TEJBORUN_COUNT_STEPS];
    traffic_words(result->counts, traffic);
    say("%" PRIu64 " %s; %s\n", steps, plural(steps, "step", "steps"), traffic);
}

static void print_run(const struct result *result)
{
    say("answer %" PRIu32 ", %s%s; ", result->answer, status_of(result->answer) == STATUS_REFUSED ? "refused: " : "", tejborun_message(result->answer));
    print_counts(result);
}

/* What is said of calls: all, starts and sets that are refused, or nothing. */
enum said { SAID_ALL, SAID_REFUSED, SAID_NOTHING };

/* Whether it is said that a start or a set has this answer. */
static bool is_said(enum said said, uint32_t answer)
{
    return said == SAID_ALL || (said == SAID_REFUSED && answer != TEJBORUN_DONE);
}

/* Each makes its call and hands back the answer. */
static uint32_t make_start(size_t number, const uint32_t *words, struct board *board, enum said said)
{
    uint32_t answer = tejborun_start(board_block(board), TEJBORUN_BLOCK_WORDS, words[1], words[2], words[3]);
    if (!is_said(said, answer))
        return answer;
    say("call %zu, start on channel %" PRIu32 " at 0x%" PRIX32 ", TTE %" PRIu32 ": answer %" PRIu32 ", %s%s\n", number, words[1], words[2], words[3],
        answer, answer == TEJBORUN_DONE ? "started" : "refused: ", answer == TEJBORUN_DONE ? "" : tejborun_message(answer));
    if (answer == TEJBORUN_BAD_VALUE)
        blame_start(&board->state, words);
    return answer;
}

static uint32_t make_set(size_t number, const uint32_t *words, struct board *board, enum said said)
{
    char what[REGISTER_TEXT];
    register_words(words[1], words[2], what);
    uint32_t answer = tejborun_set(board_block(board), TEJBORUN_BLOCK_WORDS, words[1], words[2], words[3]);
    if (!is_said(said, answer))
        return answer;
    say("call %zu, set %s to 0x%08" PRIX32 ": answer %" PRIu32 ", %s%s\n", number, what, words[3], answer, answer == TEJBORUN_DONE ? "set" : "refused: ",
        answer == TEJBORUN_DONE ? "" : tejborun_message(answer));
    if (answer == TEJBORUN_BAD_VALUE)
        blame_set(&board->state, words);
    return answer;
}

/* What runs work on beside the board; whose memories they were lent, by VIF; why the last one stopped; and what takes the counts of each, or null. */
struct lent {
    const uint8_t *main;
    size_t main_bytes;
    enum said said;
    bool memories[VIFS];
    bool has_run;
    struct why why;
    take_run *take;
    void *context;
    int taken; /* the status */
};

/* A long run is made in slices of so many steps, each on what the one before left, and their counts are added: the same as one run, also where it is
 * interrupted between two (chain ResumeLaws.stopping-changes-nothing). */
enum { SLICE = 1 << 20 };

/* Runs for at most so many steps, or until it is interrupted, on the memories of the state's channel. */
static void run_slices(uint64_t allowance, struct lent *lent, struct result *result)
{
    struct board *board = &result->board;
    enum vif vif = lent_vif(&board->state);
    const size_t *count = board->count.of;
    lent->memories[vif] = true;
    uint64_t *counts = result->counts, *steps = &counts[TEJBORUN_COUNT_STEPS];
    memset(counts, 0, sizeof result->counts);
    show_progress(0);
    do {
        uint64_t rest = allowance - *steps, numbers[TEJBORUN_COUNTS] = {0};
        result->answer = tejborun_run(lent->main, lent->main_bytes, board->data[vif], count[data_of(vif)], board->code[vif], count[code_of(vif)], board->log,
                                      count[PART_LOG], board_block(board), TEJBORUN_BLOCK_WORDS, rest < SLICE ? rest : SLICE, numbers, TEJBORUN_COUNTS);
        for (size_t i = 0; i < TEJBORUN_COUNTS; i++)
            counts[i] += numbers[i];
        show_progress(*steps);
    } while (result->answer == TEJBORUN_ALLOWANCE && *steps < allowance && !is_interrupted());
    end_progress();
}

/* What a run with this allowance did. */
static void say_run(size_t number, uint64_t allowance, const struct lent *lent, const struct result *result)
{
    if (allowance == UINT64_MAX)
        say("call %zu, run without limit: ", number);
    else
        say("call %zu, run with allowance %" PRIu64 ": ", number, allowance);
    if (is_interrupted() && result->answer == TEJBORUN_ALLOWANCE) {
        say("interrupted after ");
        print_counts(result);
    } else {
        print_run(result);
    }
    if (status_of(result->answer) == STATUS_REFUSED)
        say_why("  ", &lent->why);
}

static void make_run(size_t number, uint64_t allowance, struct lent *lent, struct result *result)
{
    run_slices(allowance, lent, result);
    lent->has_run = true;
    lent->why = ask_why(lent->main, lent->main_bytes, &result->board);
    if (lent->said == SAID_ALL)
        say_run(number, allowance, lent, result);
    if (lent->take != NULL)
        lent->taken = lent->take(lent->context, result->counts);
}

static void make_why(size_t number, const struct lent *lent, const struct board *board)
{
    if (lent->said != SAID_ALL)
        return;
    struct why why = ask_why(lent->main, lent->main_bytes, board);
    say("call %zu, ", number);
    say_why("why: ", &why);
}

/* Whether a call is left out: starts and sets where the run goes on. */
static bool is_left_out(const struct words_given *given, const uint32_t *words)
{
    return given->option[OPTION_NO_START] != NULL && (words[0] == CALL_START || words[0] == CALL_SET);
}

/* Makes the calls. The status: of a refusal, and of the last run where it stopped before the end; a capture without a run stops there too. */
static int make_calls(const struct words_given *given, const struct capture *capture, struct lent *lent, struct result *result)
{
    int status = STATUS_DONE, last = STATUS_STOPPED;
    watch_interrupts();
    for (size_t i = 0; i < capture->head.calls && !is_interrupted() && lent->taken == STATUS_DONE; i++) {
        const uint32_t *words = capture->call[i].words;
        uint64_t allowance = given->option[OPTION_ALLOWANCE] != NULL ? given->allowance : join_words(words + 1);
        if (is_left_out(given, words))
            continue;
        if (words[0] == CALL_RUN) {
            make_run(i, allowance, lent, result);
            last = status_of(result->answer);
            status = worse(status, last == STATUS_STOPPED ? STATUS_DONE : last);
        } else if (words[0] == CALL_WHY) {
            make_why(i, lent, &result->board);
        } else {
            status = worse(status, status_of((words[0] == CALL_START ? make_start : make_set)(i, words, &result->board, lent->said)));
        }
    }
    unwatch_interrupts();
    return worse(status, is_interrupted() ? STATUS_STOPPED : last);
}

/* Writes what the calls left, where a result is wanted. */
static int keep_result(const struct words_given *given, const struct result *result)
{
    const char *name = given->option[OPTION_OUTPUT];
    if (name == NULL)
        return STATUS_DONE;
    int status = board_fits(name, &result->board);
    return status == STATUS_DONE ? write_result(name, result) : status;
}

/* Says why the last run stopped, or, where there was none, what the next step would be refused with. */
static void say_last_why(struct lent *lent, const struct board *board)
{
    if (!lent->has_run)
        lent->why = ask_why(lent->main, lent->main_bytes, board);
    say_why("", &lent->why);
}

/* Runs the capture over a board that has these parts; the others stay lacking in the result. */
static int run_capture(const struct words_given *given, const struct capture *capture, struct board *board, unsigned parts)
{
    uint8_t *main = capture_main(capture);
    struct lent lent = {.main = main, .main_bytes = capture->head.main_bytes};
    lent.said = given->option[OPTION_QUIET] != NULL ? SAID_REFUSED : SAID_ALL;
    struct result result = {.parts = parts, .board = copy_board(board)};
    int status = make_calls(given, capture, &lent, &result);
    if (!lent.memories[VIF0] && !lent.memories[VIF1])
        lent.memories[lent_vif(&result.board.state)] = true;
    if (lent.said == SAID_ALL)
        print_changes(board, &result.board, lent.memories);
    if (given->option[OPTION_WHY] != NULL)
        say_last_why(&lent, &result.board);
    status = worse(status, keep_result(given, &result));
    free(main);
    free_board(&result.board);
    return status;
}

int run_for_counts(const struct words_given *given, const struct capture *capture, take_run *take, void *context)
{
    uint8_t *main = capture_main(capture);
    struct lent lent = {.main = main, .main_bytes = capture->head.main_bytes, .said = SAID_NOTHING, .take = take, .context = context};
    struct result result = {.parts = PARTS_ALL, .board = copy_board(&capture->board)};
    make_calls(given, capture, &lent, &result);
    free(main);
    free_board(&result.board);
    return lent.taken == STATUS_DONE && is_interrupted() ? STATUS_STOPPED : lent.taken;
}

/* Whether the capture begins with anything but zero memories, an empty log and the reset state. */
static bool begins_with_something(const struct capture *capture)
{
    struct tejborun_state reset;
    tejborun_reset((uint32_t *)&reset, TEJBORUN_BLOCK_WORDS);
    for (size_t part = 0; part < PARTS; part++)
        if (capture->head.first[part] > 0)
            return true;
    return is_test_case(&capture->head) || memcmp(&reset, &capture->board.state, sizeof reset) != 0;
}

/* The parts that the runs and whys work on, by the channels that are started; before the first start the state's own. */
static unsigned parts_needed(const struct words_given *given, const struct capture *capture, const struct tejborun_state *state)
{
    unsigned parts = 0;
    enum vif vif = lent_vif(state);
    for (size_t i = 0; i < capture->head.calls; i++) {
        const uint32_t *words = capture->call[i].words;
        if (words[0] == CALL_RUN || words[0] == CALL_WHY)
            parts |= parts_of(vif);
        else if (words[0] == CALL_START && given->option[OPTION_NO_START] == NULL)
            vif = words[1] == 0 ? VIF0 : VIF1;
    }
    return given->option[OPTION_WHY] != NULL ? parts | parts_of(vif) : parts;
}

/* Runs the capture over what a result holds. */
static int run_from(const struct words_given *given, const struct capture *capture)
{
    struct result first;
    const char *from = given->option[OPTION_FROM];
    if (begins_with_something(capture))
        return complain(given->word[0], "has a state or memories of its own: %s cannot take their place", from);
    int status = read_result(from, &first);
    if (status != STATUS_DONE)
        return status;
    unsigned needed = parts_needed(given, capture, &first.board.state);
    if ((needed & ~first.parts) == 0)
        status = run_capture(given, capture, &first.board, first.parts);
    else
        status = complain(from, "has %s: this run begins with %s", parts_words(first.parts), parts_words(needed));
    free_board(&first.board);
    return status;
}

int command_run(const struct words_given *given)
{
    struct capture capture;
    int status = read_capture(given->word[0], &capture);
    if (status != STATUS_DONE)
        return status;
    status = given->option[OPTION_FROM] != NULL ? run_from(given, &capture) : run_capture(given, &capture, &capture.board, PARTS_ALL);
    free_capture(&capture);
    return status;
}

/* Runs the capture and says the last sentence, and starts and sets that were refused. */
int command_why(const struct words_given *given)
{
    struct words_given run = *given;
    run.option[OPTION_WHY] = run.option[OPTION_QUIET] = "";
    return command_run(&run);
}

/* Plays the sheet over the result's board; before is the same board. */
static int play_sheet(const struct words_given *given, const struct bytes *sheet, const struct board *before, struct result *result)
{
    static const bool lent[VIFS] = {[VIF1] = true};
    struct board *board = &result->board;
    uint64_t numbers[1 + TEJBORUN_COUNTS] = {0};
    uint8_t *main = allocate(TEJBORUN_MAIN_BYTES, 1);
    tejborun_reset(board_block(board), TEJBORUN_BLOCK_WORDS);
    result->answer = tejborun_build_and_run(sheet->at, sheet->count, main, TEJBORUN_MAIN_BYTES, 0, board->data[VIF1], board->count.of[PART_DATA],
                                            board->code[VIF1], board->count.of[PART_CODE], board->log, board->count.of[PART_LOG], board_block(board),
                                            TEJBORUN_BLOCK_WORDS, UINT64_MAX, numbers, 1 + TEJBORUN_COUNTS);
    free(main);
    if (is_sheet_refusal(result->answer) && is_text(sheet))
        complain(given->word[0], "it is text; assemble it first: tejborun assemble sheet %s -o SHEET", given->word[0]);
    if (is_sheet_refusal(result->answer))
        return sheet_refused(given->word[0], result->answer, numbers[0]);
    memcpy(result->counts, numbers + 1, sizeof result->counts);
    print_run(result);
    print_changes(before, board, lent);
    return worse(status_of(result->answer), keep_result(given, result));
}

int command_play(const struct words_given *given)
{
    struct bytes sheet;
    int status = read_sheet(given->word[0], &sheet);
    if (status != STATUS_DONE)
        return status;
    struct result result = {.parts = PARTS_ALL, .board = new_board(usual_counts(TEJBORUN_LOG_NUMBERS))};
    struct board before = copy_board(&result.board);
    status = play_sheet(given, &sheet, &before, &result);
    free_board(&before);
    free_board(&result.board);
    free(sheet.at);
    return status;
}
