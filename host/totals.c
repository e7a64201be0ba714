/* The command totals: the counts of many runs, added and shown. */
#include "totals.h"

#include <errno.h>
#include <inttypes.h>
#include <stdlib.h>
#include <string.h>
#include <unistd.h>

#include "board.h"
#include "capture.h"
#include "command.h"
#include "counts.h"
#include "json.h"
#include "kinds.h"
#include "numbers.h"
#include "progress.h"
#include "run.h"
#include "shapes.h"
#include "words.h"

enum { FILE_WORDS = TEJBORUN_WORDS_OF(struct totals_file), FILE_BYTES = 4 * FILE_WORDS, TOTALS_READ_BYTES = 16 * 1048576 };

int parse_totals(const char *name, const struct bytes *file, struct totals *totals)
{
    struct totals_file words;
    int status = check_mark(name, file, totals_heads);
    if (status != STATUS_DONE)
        return status;
    if (file->count != FILE_BYTES)
        return complain(name, "damaged totals: %zu bytes; they have %d", file->count, FILE_BYTES);
    get_words(file->at, FILE_WORDS, (uint32_t *)&words);
    for (size_t i = 0; i < TEJBORUN_TOTALS; i++)
        totals->total[i] = join_words(words.total[i]);
    totals->runs = join_words(words.runs);
    return STATUS_DONE;
}

struct totals_file totals_file_of(const struct totals *totals)
{
    struct totals_file words = {.mark = totals_heads[0].fixed};
    for (size_t i = 0; i < TEJBORUN_TOTALS; i++)
        split_number(totals->total[i], words.total[i]);
    split_number(totals->runs, words.runs);
    return words;
}

static int read_totals(const char *name, struct totals *totals)
{
    struct bytes file;
    int status = read_file(name, TOTALS_READ_BYTES, &file);
    if (status != STATUS_DONE)
        return status;
    status = parse_totals(name, &file, totals);
    free(file.at);
    return status;
}

static int write_totals(const char *name, const struct totals *totals)
{
    uint8_t bytes[FILE_BYTES];
    const struct totals_file words = totals_file_of(totals);
    put_words(bytes, FILE_WORDS, (const uint32_t *)&words);
    return write_file(name, bytes, FILE_BYTES);
}

/* The totals as a table. */
static void show_totals(const char *name, const struct totals *totals)
{
    const uint64_t *total = totals->total;
    struct share share = nop_share(total);
    char all[ALL_QWC_TEXT];
    all_qwc_words(total, all);
    say("%s: %" PRIu64 " %s\n", name, totals->runs, plural(totals->runs, "run", "runs"));
    for (unsigned id = 0; id < TEJBORUN_TAG_IDS; id++)
        say("  QWC %-8s %21" PRIu64 "\n", tag_name(id), total[TEJBORUN_TOTAL_QWC + id]);
    say("  QWC in all   %21s\n", all);
    say("  VIF words    %21" PRIu64 "\n", total[TEJBORUN_TOTAL_WORDS]);
    say("  NOPs         %21" PRIu64 "\n", total[TEJBORUN_TOTAL_NOPS]);
    say("  packets      %21" PRIu64 "\n", total[TEJBORUN_TOTAL_PACKETS]);
    say("  NOP share     %" PRIu64 "/%" PRIu64 "\n", share.nops, share.words);
}

static void show_totals_json(const char *name, const struct totals *totals)
{
    say("{\n  \"file\": ");
    print_json_text(said_stream(), name);
    say(", \"runs\": %" PRIu64 ",\n  ", totals->runs);
    print_totals_json(totals->total);
    say("\n}\n");
}

/* What is being added: a file, and the totals with those before it. */
struct adding {
    const char *name;
    struct totals totals;
};

/* Adds the counts of a run. A status. */
static int add_run(void *context, const uint64_t counts[TEJBORUN_COUNTS])
{
    struct adding *adding = context;
    uint32_t answer = tejborun_add_totals(adding->totals.total, TEJBORUN_TOTALS, counts, TEJBORUN_COUNTS);
    if (answer == TEJBORUN_DONE && adding->totals.runs < UINT64_MAX) {
        adding->totals.runs++;
        return STATUS_DONE;
    }
    if (answer == TEJBORUN_DONE)
        complain(adding->name, "the number of runs would pass 2^64 - 1");
    else
        complain(adding->name, "refused %" PRIu32 ": %s", answer, tejborun_message(answer));
    return STATUS_REFUSED;
}

static int add_result(const struct bytes *file, struct adding *adding)
{
    struct result result;
    int status = parse_result(adding->name, file, &result);
    if (status != STATUS_DONE)
        return status;
    status = add_run(adding, result.counts);
    free_board(&result.board);
    return status;
}

/* Runs a capture and adds each of its runs. */
static int add_capture(const struct words_given *given, const struct bytes *file, struct adding *adding)
{
    struct capture capture;
    int status = parse_capture(adding->name, file, &capture);
    if (status != STATUS_DONE)
        return status;
    status = run_for_counts(given, &capture, add_run, adding);
    if (status == STATUS_STOPPED)
        complain(adding->name, "interrupted");
    free_capture(&capture);
    return status;
}

static int add_file(const struct words_given *given, struct adding *adding)
{
    struct bytes file;
    int status = read_file(adding->name, 2 * longest_capture(), &file);
    if (status != STATUS_DONE)
        return status;
    const char *kind = kind_by_mark(&file);
    if (kind != NULL && strcmp(kind, "capture") == 0)
        status = add_capture(given, &file, adding);
    else if (kind != NULL && strcmp(kind, "result") == 0)
        status = add_result(&file, adding);
    else if (is_text(&file))
        status = complain(adding->name, "it is text; assemble it first: tejborun assemble capture or result %s -o FILE", adding->name);
    else
        status = complain(adding->name, "no result and no capture%s%s", kind != NULL ? ": it begins with the mark of " : "", kind != NULL ? kind : "");
    free(file.at);
    return status;
}

/* The totals that are added to: those of the file, or zeros where it is to be a new one. A status. */
static int begin_totals(const struct words_given *given, struct totals *totals)
{
    const char *name = given->word[0];
    bool is_new = given->option[OPTION_NEW] != NULL, is_there = access(name, F_OK) == 0;
    if (is_dash(name))
        return complain("totals", "what is added to is a file, not -");
    if (is_new && is_there)
        return complain(name, "is there already: leave --new out to add to it");
    if (!is_new && !is_there)
        return complain(name, "cannot be opened: %s; --new begins new totals", strerror(errno));
    for (size_t i = 2; i < given->count; i++)
        if (same_file(name, given->word[i]))
            return complain("totals", "%s is added to: it cannot be added", name);
    *totals = (struct totals){0};
    return is_new ? STATUS_DONE : read_totals(name, totals);
}

/* Adds all the files or none of them. */
static int add_files(const struct words_given *given)
{
    const char *name = given->word[0];
    struct adding adding = {0};
    int status = begin_totals(given, &adding.totals);
    uint64_t before = adding.totals.runs;
    for (size_t i = 2; i < given->count && status == STATUS_DONE; i++) {
        adding.name = given->word[i];
        show_count(i - 2, given->count - 2, "files");
        status = add_file(given, &adding);
    }
    end_count();
    if (status != STATUS_DONE) {
        complain("totals", "nothing is added to %s", name);
        return status;
    }
    status = write_totals(name, &adding.totals);
    if (status != STATUS_DONE)
        return status;
    uint64_t files = given->count - 2, runs = adding.totals.runs - before;
    if (given->option[OPTION_JSON] != NULL)
        show_totals_json(name, &adding.totals);
    else
        say("%s: %" PRIu64 " %s of %" PRIu64 " %s added, %" PRIu64 " in all\n", name, runs, plural(runs, "run", "runs"), files, plural(files, "file", "files"),
            adding.totals.runs);
    return STATUS_DONE;
}

int command_totals(const struct words_given *given)
{
    struct totals totals;
    bool is_new = given->option[OPTION_NEW] != NULL, is_add = given->count > 1 && strcmp(given->word[1], "add") == 0;
    if (given->count > 1 && !is_add)
        return complain("totals", "'%s': after the totals comes add, or nothing", given->word[1]);
    if (given->count == 2 && !is_new)
        return complain("totals", "say what is added: results or captures");
    if (is_add)
        return add_files(given);
    if (is_new || given->option[OPTION_ALLOWANCE] != NULL)
        return complain("totals", "%s belongs to add", is_new ? "--new" : "--allowance");
    int status = read_totals(given->word[0], &totals);
    if (status == STATUS_DONE)
        (given->option[OPTION_JSON] != NULL ? show_totals_json : show_totals)(given->word[0], &totals);
    return status;
}
