/* The command report: the comparison of boards as one page, to be printed and kept. */
#define _POSIX_C_SOURCE 200809L

#include "report.h"

#include <inttypes.h>
#include <stdlib.h>
#include <string.h>
#include <time.h>

#include "command.h"
#include "counts.h"
#include "identity.h"
#include "json.h"
#include "numbers.h"
#include "words.h"

static const char head[] =
    "<!DOCTYPE html>\n<html lang=\"en\">\n<head>\n<meta charset=\"utf-8\"/>\n"
    "<meta http-equiv=\"Content-Security-Policy\" content=\"default-src 'none'; style-src 'unsafe-inline'\"/>\n<title>Board report</title>\n<style>\n"
    "@page { size: A4; margin: 14mm }\n"
    "body { font: 13px/1.45 sans-serif; color: #111; background: #fff; max-width: 190mm; margin: 1.5em auto; padding: 0 1em;\n"
    "  -webkit-print-color-adjust: exact; print-color-adjust: exact }\n"
    "h1 { font-size: 22px; margin: 0 0 .4em } h2 { font-size: 17px; margin: 1.6em 0 .3em; overflow-wrap: anywhere }\n"
    "table { border-collapse: collapse; width: 100%; margin: .4em 0 } th, td { text-align: left; vertical-align: top; padding: 2px 8px 2px 0;\n"
    "  border-bottom: 1px solid #ccc; overflow-wrap: anywhere } th { font-weight: 600; white-space: nowrap; width: 1%; overflow-wrap: normal }\n"
    ".rows th, .rows td { width: auto } .rows th { white-space: normal } .rows .number { white-space: nowrap } .number, .hex { font-family: monospace; overflow-wrap: anywhere }\n"
    ".sum { font-family: monospace; font-size: 10px } .verdict { font-weight: 700; white-space: nowrap } .good { color: #14602c } .bad { color: #a3140c }\n"
    "p.verdict { font-size: 20px; margin: .2em 0 .6em } figure { margin: .3em 0 1em; break-inside: avoid } figcaption { font-size: 11px; color: #444 }\n"
    ".map { width: 100%; height: auto; display: block } .map text { font: 8px sans-serif; fill: #444; text-anchor: end } .map .axis { text-anchor: middle }\n"
    ".map .field { font-weight: 700; font-size: 11px; fill: #111 } .same { fill: #8fb8d8 } .different { fill: #a3140c } .untouched { fill: #ececec }\n"
    ".frame { fill: none; stroke: #bbb; stroke-width: .5 } .zero { stroke: #888; stroke-width: .5 } .bars { stroke: #a3140c; stroke-width: .8; fill: none }\n"
    ".key { display: inline-block; width: 10px; height: 10px; margin: 0 .3em 0 1em } .key.same { background: #8fb8d8 } .key.different { background: #a3140c }\n"
    ".key.untouched { background: #ececec; border: 1px solid #bbb } section { break-before: page }\n"
    "@media screen { section { border-top: 2px solid #111; margin-top: 2em } }\n"
    "@media print { body { max-width: none; margin: 0; padding: 0; font-size: 12px } h2 { margin-top: 0 } figure { margin-bottom: .5em } }\n"
    "</style>\n</head>\n<body>\n<h1>Board report</h1>\n";

void print_escaped(FILE *page, const char *text)
{
    static const char marks[] = "&<>\"'";
    static const char *const names[] = {"&amp;", "&lt;", "&gt;", "&quot;", "&#39;"};
    while (*text != 0) {
        size_t length = character_length(text);
        const char *mark = strchr(marks, *text);
        if (mark != NULL)
            fputs(names[mark - marks], page);
        else if (length == 0 || (unsigned char)*text < ' ' || *text == 0x7F)
            fputs("\xEF\xBF\xBD", page);
        else
            fwrite(text, 1, length, page);
        text += length > 0 ? length : 1;
    }
}

static void print_row(FILE *page, const char *name, const char *value, const char *kind)
{
    fprintf(page, "<tr><th>%s</th><td class=\"%s\">", name, kind);
    print_escaped(page, value);
    fprintf(page, "</td></tr>\n");
}

/* A file: its name and its sum. */
static void print_file(FILE *page, const char *name, const char *file, const struct result *result)
{
    print_row(page, name, is_dash(file) ? "standard input" : file, "name");
    print_row(page, "its SHA-256", result->sum, "sum");
}

static void print_answer(FILE *page, const struct result *result)
{
    char text[RESULT_TEXT];
    result_words(result, text);
    print_row(page, "its run", text, "answer");
}

/* The counts of the result's run and the NOP share, where it has some: a sheet's meaning and a board's own dumps have none. */
static void print_run_counts(FILE *page, const struct result *result)
{
    char text[TRAFFIC_TEXT];
    if (!has_counts(result->counts))
        return;
    traffic_words(result->counts, text);
    print_row(page, "its counts", text, "counts");
    struct share share = nop_share(totals_of(result->counts));
    snprintf(text, sizeof text, "%" PRIu64 "/%" PRIu64, share.nops, share.words);
    print_row(page, "NOP share", text, "share");
}

static const char *verdict_class(const struct compared *compared)
{
    return compared->status == STATUS_DONE ? "verdict good" : "verdict bad";
}

/* The counts of a board by part; empty where it was not compared. */
static void print_counts(FILE *page, const struct compared *compared)
{
    for (size_t i = 0; i < PARTS; i++) {
        fprintf(page, "<td class=\"number\">");
        if (compared->board != NULL && has_part(&compared->comparison, part_order[i]))
            fprintf(page, "%" PRIu64, compared->comparison.found[part_order[i]].count);
        fprintf(page, "</td>");
    }
}

static void print_summary_row(FILE *rows, const struct rack *rack, const struct compared *compared)
{
    char verdict[VERDICT_TEXT];
    verdict_words(rack, compared, verdict);
    fprintf(rows, "<tr><td>");
    print_escaped(rows, compared->name);
    fprintf(rows, "</td><td class=\"%s\">", verdict_class(compared));
    print_escaped(rows, verdict);
    fprintf(rows, "</td>");
    print_counts(rows, compared);
    fprintf(rows, "</tr>\n");
}

static void print_entry(FILE *page, const uint64_t *entry)
{
    const char *name = register_name(entry[TEJBORUN_ENTRY_REGISTER]);
    fprintf(page, "path %" PRIu64 ", 0x%02" PRIX64 " %s 0x%016" PRIX64, entry[TEJBORUN_ENTRY_PATH], entry[TEJBORUN_ENTRY_REGISTER],
            name != NULL ? name : "(no name)", entry[TEJBORUN_ENTRY_VALUE]);
}

static void print_unit(FILE *page, const struct board *board, enum part part, size_t number)
{
    if (part_shapes[part].memory == MEMORY_DATA)
        for (size_t i = 0; i < 4; i++)
            fprintf(page, "%s0x%08" PRIX32, i > 0 ? " " : "", board_quadword(board, part, number)[i]);
    else if (part_shapes[part].memory == MEMORY_CODE)
        fprintf(page, "0x%016" PRIX64, get_number(board_instruction(board, part, number)));
    else
        print_entry(page, board_entry(board, number));
}

/* How many of a part differ, and the first of them. */
static void print_difference(FILE *page, const struct rack *rack, const struct compared *compared, enum part part)
{
    const struct found *found = &compared->comparison.found[part];
    const struct board *result = &rack->result->board, *board = &compared->board->board;
    fprintf(page, "<tr><th>");
    print_escaped(page, part_shapes[part].words);
    fprintf(page, "</th><td class=\"number\">%" PRIu64 "</td><td class=\"number\">%" PRIu64 "</td>", found->compared, found->count);
    if (found->count > 0) {
        bool path_alone = part == PART_LOG && is_path_alone(result, board, found->first);
        fprintf(page, "<td class=\"number\">%s %" PRIu64 "%s</td><td class=\"hex\">", part_shapes[part].one, found->first,
                path_alone ? "<br/>in the path alone" : "");
        print_unit(page, result, part, found->first);
        fprintf(page, "</td><td class=\"hex\">");
        print_unit(page, board, part, found->first);
    } else {
        fprintf(page, "<td></td><td></td><td>");
    }
    fprintf(page, "</td></tr>\n");
}

/* How many entries each log has, and how many of those that differ do so in the path alone. */
static void print_entries(FILE *page, const struct rack *rack, const struct compared *compared)
{
    const struct found *found = &compared->comparison.found[PART_LOG];
    fprintf(page, "<p>Log entries: the result has <span class=\"number\">%" PRIu64 "</span>, ", board_used(&rack->result->board));
    fprintf(page, "the board <span class=\"number\">%" PRIu64 "</span>.", board_used(&compared->board->board));
    if (found->path_alone > 0)
        fprintf(page, " Different in the path alone: <span class=\"number\">%" PRIu64 "</span>.", found->path_alone);
    fprintf(page, "</p>\n");
}

static void print_differences(FILE *page, const struct rack *rack, const struct compared *compared)
{
    fprintf(page, "<table class=\"rows\">\n<tr><th></th><th>compared</th><th>different</th><th>first</th><th>result</th><th>board</th></tr>\n");
    for (size_t i = 0; i < PARTS; i++)
        if (has_part(&compared->comparison, part_order[i]))
            print_difference(page, rack, compared, part_order[i]);
    fprintf(page, "</table>\n");
    if (has_part(&compared->comparison, PART_LOG))
        print_entries(page, rack, compared);
}

/* The map of a memory; of data memory that differs also the plot. */
static void print_picture(FILE *page, const struct board *before, const struct rack *rack, const struct compared *compared, enum part part)
{
    const struct board *result = &rack->result->board, *board = &compared->board->board;
    bool is_data = part_shapes[part].memory == MEMORY_DATA;
    fprintf(page, "<figure><figcaption>");
    print_escaped(page, part_shapes[part].words);
    fprintf(page, " by %s%s</figcaption>\n", part_shapes[part].one, is_data && compared->comparison.quadwords.is_given ? ", those not compared too" : "");
    draw_map(page, before, result, board, part);
    fprintf(page, "</figure>\n");
    if (!is_data || compared->comparison.found[part].count == 0)
        return;
    fprintf(page, "<figure><figcaption>");
    print_escaped(page, part_shapes[part].words);
    fprintf(page, ": board minus result in counts, by quadword: a count that is carried on is a ramp</figcaption>\n");
    draw_differences(page, result, board, part);
    fprintf(page, "</figure>\n");
}

static void print_pictures(FILE *page, const struct board *before, const struct rack *rack, const struct compared *compared)
{
    fprintf(page, "<p><span class=\"key same\"></span>the same<span class=\"key different\"></span>different<span class=\"key untouched\"></span>"
                  "the same, and as before the transfer</p>\n");
    for (size_t i = 0; i < PARTS; i++)
        if (part_order[i] != PART_LOG && has_part(&compared->comparison, part_order[i]))
            print_picture(page, before, rack, compared, part_order[i]);
}

/* What is being written: the rows of the summary and the sections of the boards. */
struct report {
    const struct board *before;
    FILE *rows, *sections;
};

static void print_section(const struct report *report, const struct rack *rack, const struct compared *compared)
{
    FILE *page = report->sections;
    char verdict[VERDICT_TEXT];
    verdict_words(rack, compared, verdict);
    fprintf(page, "<section>\n<h2>");
    print_escaped(page, compared->name);
    fprintf(page, "</h2>\n<p class=\"%s\">", verdict_class(compared));
    print_escaped(page, verdict);
    fprintf(page, "</p>\n<table>\n");
    if (compared->board != NULL) {
        print_file(page, "board", compared->name, compared->board);
        print_row(page, "it has", parts_words(compared->board->parts), "parts");
    }
    if (compared->board != NULL && compared->comparison.verdict == VERDICT_REFUSED)
        print_row(page, "refused", tejborun_message(compared->comparison.refusal), "answer");
    fprintf(page, "</table>\n");
    if (compared->board != NULL && is_compared(compared->comparison.verdict)) {
        print_differences(page, rack, compared);
        print_pictures(page, report->before, rack, compared);
    }
    fprintf(page, "</section>\n");
}

static void print_head(FILE *page, const struct rack *rack)
{
    char now[64];
    time_t seconds = time(NULL);
    struct tm utc;
    strftime(now, sizeof now, "%Y-%m-%d %H:%M UTC", gmtime_r(&seconds, &utc));
    fputs(head, page);
    fprintf(page, "<table>\n");
    print_row(page, "date", now, "date");
    print_file(page, "result", rack->name, rack->result);
    print_answer(page, rack->result);
    print_run_counts(page, rack->result);
    print_row(page, "software", "tejborun " TEJBORUN_VERSION, "version");
    print_row(page, "proof", proof_identity(), "sum");
    print_row(page, "library's SHA-256", library_sum(), "sum");
    fprintf(page, "</table>\n");
}

static int show_section(void *report, const struct rack *rack, const struct compared *compared)
{
    print_summary_row(((struct report *)report)->rows, rack, compared);
    print_section(report, rack, compared);
    return STATUS_DONE;
}

/* Puts the page together. */
static int write_page(const char *name, const struct rack *rack, const char *rows, const char *sections)
{
    char *text = NULL;
    size_t length = 0;
    FILE *page = open_memstream(&text, &length);
    if (page == NULL)
        return complain(name, "no memory for the page");
    print_head(page, rack);
    fprintf(page, "<table class=\"rows\">\n<tr><th>board</th><th>verdict</th>");
    for (size_t i = 0; i < PARTS; i++)
        fprintf(page, "<th>%s%s different</th>", part_order[i] == PART_LOG ? "log " : part_shapes[part_order[i]].whose, part_shapes[part_order[i]].many);
    fprintf(page, "</tr>\n%s</table>\n%s</body>\n</html>\n", rows, sections);
    fclose(page);
    int status = write_file(name, (const uint8_t *)text, length);
    free(text);
    return status;
}

/* Compares over what the memories held before, and writes the page. */
static int report_from(const struct words_given *given, const struct board *before, const struct result *result)
{
    char *rows = NULL, *sections = NULL;
    size_t rows_length = 0, sections_length = 0;
    struct report report = {before, open_memstream(&rows, &rows_length), open_memstream(&sections, &sections_length)};
    if (report.rows == NULL || report.sections == NULL)
        return complain("report", "no memory for the page");
    struct rack rack = {.name = given->word[0], .result = result, .context = &report};
    compare_rack(given, show_section, &rack);
    fclose(report.rows);
    fclose(report.sections);
    int status = worse(rack.status, write_page(given->option[OPTION_OUTPUT], &rack, rows, sections));
    say("%s: ", given->option[OPTION_OUTPUT]);
    say("%zu %s reported\n", rack.boards, plural(rack.boards, "board", "boards"));
    free(rows);
    free(sections);
    return status;
}

/* What the memories held before the transfer: those of a result, which has the memories that the expectation has; zeros otherwise. */
static int read_before(const char *from, const struct result *result, struct board *before)
{
    struct result first;
    unsigned needed = result->parts & ~PART_BIT(PART_LOG);
    if (from == NULL) {
        *before = new_board(usual_counts(0));
        return STATUS_DONE;
    }
    int status = read_result(from, &first);
    if (status != STATUS_DONE)
        return status;
    *before = first.board;
    if ((needed & ~first.parts) != 0)
        return complain(from, "has %s: the transfer began with %s", parts_words(first.parts), parts_words(needed));
    return STATUS_DONE;
}

int command_report(const struct words_given *given)
{
    struct result result;
    struct board before = {0};
    int status = read_result(given->word[0], &result);
    if (status != STATUS_DONE)
        return status;
    status = read_before(given->option[OPTION_FROM], &result, &before);
    if (status == STATUS_DONE)
        status = report_from(given, &before, &result);
    free_board(&before);
    free_board(&result.board);
    return status;
}
