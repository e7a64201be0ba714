/* The command compare: a board, or a rack of boards, beside a result. */
#include "compare.h"

#include <inttypes.h>
#include <stdio.h>
#include <string.h>

#include "command.h"
#include "words.h"

void compared_words(const struct comparison *comparison, char words[COMPARED_TEXT])
{
    const struct range *range = &comparison->quadwords;
    unsigned others = comparison->parts & ~PARTS_DATA;
    char last[32] = "";
    if (!range->is_given) {
        snprintf(words, COMPARED_TEXT, "%s", parts_words(comparison->parts));
        return;
    }
    if (range->last > range->first)
        snprintf(last, sizeof last, " to %" PRIu64, range->last);
    snprintf(words, COMPARED_TEXT, "%s%s%s %" PRIu64 "%s of %s", others != 0 ? parts_words(others) : "", others != 0 ? " and in " : "",
             plural(range->last + 1 - range->first, "quadword", "quadwords"), range->first, last, parts_words(comparison->parts & PARTS_DATA));
}

void verdict_words(const struct rack *rack, const struct compared *compared, char words[VERDICT_TEXT])
{
    static const char *const finished[VERDICTS] = {"equal", "equal", "different", "refused", "no verdict"};
    static const char *const unfinished[VERDICTS] = {"equal to an unfinished result", "equal to an unfinished result", "different from an unfinished result",
                                                     "refused", "no verdict"};
    const struct comparison *comparison = &compared->comparison;
    const char *const *texts = rack->result->answer == TEJBORUN_DONE ? finished : unfinished;
    const char *text = compared->board == NULL ? "not read" : texts[comparison->verdict];
    char in[COMPARED_TEXT];
    compared_words(comparison, in);
    if (compared->board == NULL || !is_compared(comparison->verdict) || is_whole(comparison))
        snprintf(words, VERDICT_TEXT, "%s", text);
    else
        snprintf(words, VERDICT_TEXT, "%s%s in %s", text, comparison->verdict == VERDICT_DIFFERENT ? "; compared" : "", in);
}

void path_alone_words(const struct found *found, char words[PATHS_TEXT])
{
    words[0] = 0;
    if (found->path_alone > 0 && found->path_alone == found->count)
        snprintf(words, PATHS_TEXT, " (in the path alone)");
    else if (found->path_alone > 0)
        snprintf(words, PATHS_TEXT, " (%" PRIu64 " in the path alone)", found->path_alone);
}

void result_words(const struct result *result, char words[RESULT_TEXT])
{
    char packets[PACKETS_TEXT] = "";
    uint64_t steps = result->counts[TEJBORUN_COUNT_STEPS], closed = result->counts[TEJBORUN_COUNT_PACKETS];
    if (closed > 0)
        packets_words(closed, packets);
    snprintf(words, RESULT_TEXT, "answer %" PRIu32 ", %s; %" PRIu64 " %s%s%s", result->answer, tejborun_message(result->answer), steps,
             plural(steps, "step", "steps"), packets[0] != 0 ? "; " : "", packets);
}

/* Whether parts are asked for by name: quadwords are those of data memory. */
static bool names_parts(const struct words_given *given)
{
    return given->option[OPTION_ONLY] != NULL || given->quadwords.is_given;
}

/* Says which parts are lacking. */
static void complain_of_parts(const struct words_given *given, const struct rack *rack, const struct compared *compared)
{
    const char *has = parts_words(rack->result->parts), *board_has = parts_words(compared->board->parts);
    if (names_parts(given))
        complain("compare", "%s: no verdict: asked for %s; %s has %s, %s %s", compared->name, parts_words(given->only), rack->name, has, compared->name,
                 board_has);
    else
        complain("compare", "%s: no verdict: %s has %s, %s %s; they have nothing in common", compared->name, rack->name, has, compared->name, board_has);
}

/* Says why there is no verdict on a board. */
static void complain_of_verdict(const struct words_given *given, const struct rack *rack, const struct compared *compared)
{
    const struct comparison *comparison = &compared->comparison;
    if (comparison->verdict == VERDICT_REFUSED)
        complain("compare", "%s and %s: refused %" PRIu32 ": %s", rack->name, compared->name, comparison->refusal, tejborun_message(comparison->refusal));
    if (comparison->verdict == VERDICT_NONE && comparison->reason == REASON_PARTS)
        complain_of_parts(given, rack, compared);
    if (comparison->verdict == VERDICT_NONE && comparison->reason == REASON_UNFINISHED)
        complain("compare", "%s: no verdict: %s is unfinished, its answer is %" PRIu32 ": %s; --unfinished compares it all the same", compared->name,
                 rack->name, rack->result->answer, tejborun_message(rack->result->answer));
}

/* How boards are shown. */
struct view {
    show_compared *show;
    int (*end)(const struct rack *);
};

static struct view view_of(const struct words_given *given)
{
    if (given->option[OPTION_QUIET] != NULL)
        return (struct view){NULL, NULL};
    if (given->option[OPTION_JSON] != NULL)
        return (struct view){show_json, end_json};
    return given->count == 2 ? (struct view){show_board, NULL} : (struct view){show_row, show_summary};
}

/* Reads a board, asks for the verdict and shows it. */
static void compare_board(const struct words_given *given, show_compared *show, const char *name, struct rack *rack)
{
    struct result board;
    struct compared compared = {.name = name, .status = read_result(name, &board)};
    if (compared.status == STATUS_DONE) {
        const struct wanted wanted = {given->only, names_parts(given), given->option[OPTION_UNFINISHED] != NULL, given->quadwords};
        compared.board = &board;
        compared.comparison = compare_results(rack->result, &board, &wanted);
        compared.status = status_of_verdict(compared.comparison.verdict);
        complain_of_verdict(given, rack, &compared);
    }
    rack->status = worse(rack->status, compared.status);
    if (show != NULL)
        rack->status = worse(rack->status, show(rack->context, rack, &compared));
    rack->ends[compared.board != NULL ? compared.comparison.verdict : VERDICTS]++;
    rack->boards++;
    if (compared.board != NULL)
        free_board(&board.board);
}

void compare_rack(const struct words_given *given, show_compared *show, struct rack *rack)
{
    for (size_t i = 1; i < given->count; i++)
        compare_board(given, show, given->word[i], rack);
}

/* The longest name of a board, as far as a column goes. */
static int longest_name(const struct words_given *given)
{
    size_t longest = 8;
    for (size_t i = 1; i < given->count; i++)
        if (strlen(given->word[i]) > longest)
            longest = strlen(given->word[i]);
    return longest < 60 ? (int)longest : 60;
}

int command_compare(const struct words_given *given)
{
    struct result result;
    struct view view = view_of(given);
    struct rack rack = {.name = given->word[0], .result = &result, .all = given->option[OPTION_ALL] != NULL};
    rack.width = longest_name(given);
    if (rack.all && view.show == show_row)
        return complain("compare", "--all shows one board, or several with --json");
    int status = read_result(given->word[0], &result);
    if (status != STATUS_DONE)
        return status;
    compare_rack(given, view.show, &rack);
    if (view.end != NULL)
        rack.status = worse(rack.status, view.end(&rack));
    free_board(&result.board);
    return rack.status;
}
