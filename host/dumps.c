/* The commands import and export: a board's own dumps, and back. */
#include <inttypes.h>
#include <stdlib.h>
#include <string.h>

#include "board.h"
#include "capture.h"
#include "command.h"
#include "files.h"
#include "kinds.h"
#include "raw.h"
#include "words.h"

/* Reads the dumps that are given into a result that has these parts alone. */
static int read_dumps(const struct words_given *given, struct result *result)
{
    struct board *board = &result->board;
    int status = STATUS_DONE;
    for (size_t part = 0; part < PARTS && status == STATUS_DONE; part++) {
        size_t units = 0;
        const char *name = given->option[part_option(part)];
        if (name == NULL)
            continue;
        status = read_raw(name, part, board->count.of[part], board, &units);
        result->parts |= PART_BIT(part);
        if (part == PART_LOG)
            set_board_used(board, units);
    }
    return status;
}

/* Says which parts were imported, and how the log was read. */
static void print_import(const char *name, const struct result *result)
{
    uint64_t used = board_used(&result->board);
    say("%s: %s\n", name, parts_words(result->parts));
    if ((result->parts & PART_BIT(PART_LOG)) != 0)
        say("  log: %" PRIu64 " %s of %u numbers: path, register and value\n", used, plural(used, "entry", "entries"), TEJBORUN_ENTRY_NUMBERS);
}

int command_import(const struct words_given *given)
{
    struct result result = {.board = new_board(usual_counts(TEJBORUN_LOG_NUMBERS))};
    tejborun_reset(board_block(&result.board), TEJBORUN_BLOCK_WORDS);
    int status = read_dumps(given, &result);
    if (status == STATUS_DONE && result.parts == 0)
        status = complain("import", "give a dump: --data, --code, --data0, --code0 or --log");
    if ((result.parts & PART_BIT(PART_LOG)) == 0)
        result.board.count.of[PART_LOG] = 0;
    if (status == STATUS_DONE)
        status = write_result(given->option[OPTION_OUTPUT], &result);
    if (status == STATUS_DONE)
        print_import(given->option[OPTION_OUTPUT], &result);
    free_board(&result.board);
    return status;
}

/* A part's bytes, of the log the entries used; the caller frees them. */
static struct bytes dump_of(const struct board *board, enum part part)
{
    size_t elements = part == PART_LOG ? TEJBORUN_ENTRY_NUMBERS * (size_t)board_used(board) : board->count.of[part];
    struct bytes dump = {allocate(elements, part_shapes[part].element_bytes), part_bytes(part, elements)};
    put_part(dump.at, board, part, elements);
    return dump;
}

/* Writes the parts that are asked for. */
static int write_dumps(const struct words_given *given, const struct board *board, unsigned parts)
{
    int status = STATUS_DONE;
    for (size_t part = 0; part < PARTS && status == STATUS_DONE; part++) {
        const char *name = given->option[part_option(part)];
        if (name == NULL)
            continue;
        if ((parts & PART_BIT(part)) == 0)
            return complain(given->word[0], "has %s alone: no dump %s", parts_words(parts), name);
        if (part == PART_LOG && board_used(board) > board_units(board, PART_LOG))
            return complain(given->word[0], "has more entries used than its log is long: no dump %s", name);
        struct bytes dump = dump_of(board, part);
        status = write_file(name, dump.at, dump.count);
        free(dump.at);
    }
    return status;
}

static int export_result(const struct words_given *given, const struct bytes *file)
{
    struct result result;
    if (given->option[OPTION_MAIN] != NULL)
        return complain(given->word[0], "has no main memory: only a capture has");
    int status = parse_result(given->word[0], file, &result);
    if (status != STATUS_DONE)
        return status;
    status = write_dumps(given, &result.board, result.parts);
    free_board(&result.board);
    return status;
}

static int export_capture(const struct words_given *given, const struct bytes *file)
{
    struct capture capture;
    int status = parse_capture(given->word[0], file, &capture);
    if (status != STATUS_DONE)
        return status;
    uint8_t *main = capture_main(&capture);
    if (given->option[OPTION_MAIN] != NULL)
        status = write_file(given->option[OPTION_MAIN], main, capture.head.main_bytes);
    if (status == STATUS_DONE)
        status = write_dumps(given, &capture.board, PARTS_ALL);
    free(main);
    free_capture(&capture);
    return status;
}

/* Complains where two dumps have one name, or none is asked for. */
static int check_dumps(const struct words_given *given)
{
    bool any = false;
    for (size_t i = OPTION_MAIN; i <= OPTION_LOG; i++) {
        const char *name = given->option[i];
        any |= name != NULL;
        for (size_t j = OPTION_MAIN; j < i && name != NULL; j++)
            if (given->option[j] != NULL && (strcmp(name, given->option[j]) == 0 || same_file(name, given->option[j])))
                return complain("export", "%s is given for two dumps", name);
    }
    return any ? STATUS_DONE : complain("export", "say what to write: --main, --data, --code, --data0, --code0 or --log");
}

int command_export(const struct words_given *given)
{
    struct bytes file;
    int status = check_dumps(given);
    if (status == STATUS_DONE)
        status = read_file(given->word[0], 2 * longest_capture(), &file);
    if (status != STATUS_DONE)
        return status;
    const char *kind = kind_by_mark(&file);
    if (kind != NULL && strcmp(kind, "capture") == 0)
        status = export_capture(given, &file);
    else
        status = export_result(given, &file);
    free(file.at);
    return status;
}
