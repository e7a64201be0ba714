/* Checked chains: one in full, a row a chain and a summary, JSON. */
#include <inttypes.h>
#include <stdio.h>

#include "check.h"
#include "counts.h"
#include "json.h"
#include "units.h"
#include "words.h"

static const char *const ends[CHAIN_ENDS] = {"accepted", "different", "no verdict", "refused", "not read"};

/* The part in which a chain's first difference is; PARTS where it is in none, or in the log's length alone. */
static size_t part_of(uint32_t kind)
{
    switch (kind) {
    case TEJBORUN_CHECK_QUADWORD:
        return PART_DATA;
    case TEJBORUN_CHECK_INSTRUCTION:
        return PART_CODE;
    case TEJBORUN_CHECK_ENTRY:
        return PART_LOG;
    default:
        return PARTS;
    }
}

/* What differs first, in a sentence. */
enum { DIFFERENCE_TEXT = 256 };

static void difference_words(const struct checks *checks, const struct checked *chain, char words[DIFFERENCE_TEXT])
{
    uint64_t meant = board_used(&checks->meaning);
    size_t part = part_of(chain->kind);
    words[0] = 0;
    if (part != PARTS)
        snprintf(words, DIFFERENCE_TEXT, "%s%s %" PRIu64 " differs", part == PART_LOG ? "log " : "", part_shapes[part].one, chain->number);
    else if (chain->kind == TEJBORUN_CHECK_ANSWER)
        snprintf(words, DIFFERENCE_TEXT, "the run's answer is %" PRIu64 ": %s", chain->number, tejborun_message((uint32_t)chain->number));
    else if (chain->kind == TEJBORUN_CHECK_ENTRIES)
        snprintf(words, DIFFERENCE_TEXT, "the run logged %" PRIu64 " %s, the sheet means %" PRIu64, chain->number, plural(chain->number, "entry", "entries"),
                 meant);
}

/* Shows what differs first, expected and found; why the run was refused; how it gets further. */
static void show_difference(const struct checks *checks, const struct checked *chain)
{
    const struct pair pair = {{checks->name, chain->name}, "chain - sheet", {&checks->meaning, &chain->left}};
    size_t part = part_of(chain->kind);
    if (part != PARTS)
        show_unit(&pair, part, chain->number);
    else if (chain->kind == TEJBORUN_CHECK_ENTRIES)
        show_lengths(&pair);
    else if (run_refused(chain))
        say_why("  ", &chain->why);
    else if (chain->number == TEJBORUN_ALLOWANCE)
        say("  the allowance was %" PRIu64 " %s; --allowance gives another\n", checks->allowance, plural(checks->allowance, "step", "steps"));
}

/* A number beside ours: ", 80 shorter than our chain's 352", ", as long as our chain". */
static void say_beside(uint64_t number, uint64_t ours, const char *less, const char *more, const char *same)
{
    if (number == ours)
        say(", %s as our chain", same);
    else
        say(", %" PRIu64 " %s than our chain's %" PRIu64, number < ours ? ours - number : number - ours, number < ours ? less : more, ours);
}

/* The chain's bytes and counts; bytes and, of a run to the end, steps beside ours. */
static void show_size(const struct checks *checks, const struct checked *chain)
{
    char traffic[TRAFFIC_TEXT];
    uint64_t steps = chain->counts[TEJBORUN_COUNT_STEPS];
    traffic_words(chain->counts, traffic);
    say("  %zu %s", chain->bytes, plural(chain->bytes, "byte", "bytes"));
    say_beside(chain->bytes, checks->bytes, "shorter", "longer", "as long");
    say("\n  %" PRIu64 " %s", steps, plural(steps, "step", "steps"));
    if (was_done(chain))
        say_beside(steps, checks->steps, "fewer", "more", "as many");
    say("; %s\n", traffic);
}

void show_chain(const struct checks *checks, const struct checked *chain)
{
    char words[DIFFERENCE_TEXT];
    if (!was_run(chain))
        return;
    difference_words(checks, chain, words);
    if (chain->end == CHAIN_ACCEPTED)
        say("%s: accepted: it leaves what %s means\n", chain->name, checks->name);
    else
        say("%s: %s: %s\n", chain->name, ends[chain->end], words);
    show_difference(checks, chain);
    show_size(checks, chain);
}

/* A number and how much it is above ours, in columns. */
static void say_columns(uint64_t number, uint64_t ours, bool is_beside)
{
    char above[24] = "";
    if (is_beside && number == ours)
        snprintf(above, sizeof above, "0");
    else if (is_beside)
        snprintf(above, sizeof above, "%c%" PRIu64, number < ours ? '-' : '+', number < ours ? ours - number : number - ours);
    say("  %9" PRIu64 "  %9s", number, above);
}

void show_chain_row(const struct checks *checks, const struct checked *chain)
{
    char words[DIFFERENCE_TEXT];
    if (checks->chains == 0 && checks->is_valid)
        say("%s: our chain has %zu bytes and takes %" PRIu64 " %s\n", checks->name, checks->bytes, checks->steps, plural(checks->steps, "step", "steps"));
    if (checks->chains == 0)
        say("%-*s  %-10s  %9s  %9s  %9s  %9s  %s\n", checks->width, "chain", "verdict", "bytes", "- ours", "steps", "- ours", "first difference");
    say("%-*s  ", checks->width, chain->name);
    if (!was_run(chain)) {
        say("%s", ends[chain->end]);
        if (chain->end == CHAIN_REFUSED)
            say(" %" PRIu64, chain->number);
        say("\n");
        return;
    }
    difference_words(checks, chain, words);
    say("%-10s", ends[chain->end]);
    say_columns(chain->bytes, checks->bytes, true);
    say_columns(chain->counts[TEJBORUN_COUNT_STEPS], checks->steps, was_done(chain));
    say("%s%s\n", words[0] != 0 ? "  " : "", words);
}

void show_chains(const struct checks *checks)
{
    const char *between = ": ";
    say("%zu %s beside %s", checks->chains, plural(checks->chains, "chain", "chains"), checks->name);
    for (size_t i = 0; i < CHAIN_ENDS; i++) {
        if (checks->ends[i] == 0)
            continue;
        say("%s%zu %s", between, checks->ends[i], ends[i]);
        between = ", ";
    }
    say("\n");
}

/* What differs first: what it is, its number, and where it is a unit both values. */
static void say_json_difference(const struct checks *checks, const struct checked *chain)
{
    static const char *const kinds[] = {
        [TEJBORUN_CHECK_ANSWER] = "answer", [TEJBORUN_CHECK_QUADWORD] = "quadword", [TEJBORUN_CHECK_INSTRUCTION] = "instruction",
        [TEJBORUN_CHECK_ENTRY] = "entry",   [TEJBORUN_CHECK_ENTRIES] = "entries",
    };
    char words[DIFFERENCE_TEXT];
    size_t part = part_of(chain->kind);
    difference_words(checks, chain, words);
    say(",\n      \"difference\": {\"kind\": \"%s\", \"number\": %" PRIu64 ", \"words\": ", kinds[chain->kind], chain->number);
    print_json_text(said_stream(), words);
    if (part != PARTS) {
        say(", \"expected\": ");
        print_unit_json(&checks->meaning, part, chain->number);
        say(", \"found\": ");
        print_unit_json(&chain->left, part, chain->number);
    }
    if (run_refused(chain)) {
        char why[WHY_TEXT];
        why_words(&chain->why, why);
        say(", \"why\": ");
        print_json_text(said_stream(), why);
    }
    say("}");
}

/* The sheet, and the chain that is built of it. */
static void begin_json(const struct checks *checks)
{
    say("{\n  \"sheet\": {\"file\": ");
    print_json_text(said_stream(), checks->name);
    if (checks->is_valid)
        say(", \"chain_bytes\": %zu, \"chain_steps\": %" PRIu64 ", \"entries\": %" PRIu64, checks->bytes, checks->steps, board_used(&checks->meaning));
    say("},\n  \"allowance\": %" PRIu64 ",\n  \"chains\": [\n", checks->allowance);
}

void show_chain_json(const struct checks *checks, const struct checked *chain)
{
    if (checks->chains == 0)
        begin_json(checks);
    say("%s    {\"file\": ", checks->chains > 0 ? ",\n" : "");
    print_json_text(said_stream(), chain->name);
    say(", \"verdict\": \"%s\", \"status\": %d", ends[chain->end], chain->status);
    if (chain->end == CHAIN_REFUSED)
        say(", \"refusal\": %" PRIu64 ", \"offset\": %" PRIu64, chain->number, chain->offset);
    if (was_run(chain)) {
        say(", \"bytes\": %zu, \"entries\": %" PRIu64 ", \"steps\": %" PRIu64 ", ", chain->bytes, board_used(&chain->left), chain->counts[TEJBORUN_COUNT_STEPS]);
        print_totals_json(totals_of(chain->counts));
    }
    if (was_run(chain) && chain->end != CHAIN_ACCEPTED)
        say_json_difference(checks, chain);
    say("}");
}

void end_chains_json(const struct checks *checks)
{
    static const char *const names[CHAIN_ENDS] = {"accepted", "different", "no_verdict", "refused", "not_read"};
    say("\n  ],\n  \"summary\": {\"chains\": %zu", checks->chains);
    for (size_t i = 0; i < CHAIN_ENDS; i++)
        say(", \"%s\": %zu", names[i], checks->ends[i]);
    say("},\n  \"status\": %d\n}\n", checks->status);
}
