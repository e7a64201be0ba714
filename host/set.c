/* The command set: ROW and COL in the state that a file holds. */
#include <inttypes.h>
#include <stdlib.h>
#include <string.h>

#include "blame.h"
#include "board.h"
#include "capture.h"
#include "command.h"
#include "kinds.h"
#include "numbers.h"
#include "tejborun.h"
#include "words.h"

enum { SET_READ_BYTES = 16 * 1048576 };

static int state_in_capture(const char *name, const struct bytes *file, size_t *at)
{
    struct capture capture;
    int status = parse_capture(name, file, &capture);
    if (status != STATUS_DONE)
        return status;
    *at = head_bytes(&capture.head);
    free_capture(&capture);
    return STATUS_DONE;
}

static int state_in_result(const char *name, const struct bytes *file, size_t *at)
{
    struct result result;
    int status = parse_result(name, file, &result);
    if (status != STATUS_DONE)
        return status;
    *at = offsetof(struct result_head, state);
    free_board(&result.board);
    return STATUS_DONE;
}

/* Where the state block of a file begins. A status: the whole file is read, so that a damaged one is told. */
static int find_state(const char *name, const struct bytes *file, size_t *at)
{
    const char *kind = kind_by_mark(file);
    if (kind != NULL && strcmp(kind, "capture") == 0)
        return state_in_capture(name, file, at);
    if (kind != NULL && strcmp(kind, "result") == 0)
        return state_in_result(name, file, at);
    *at = 0;
    if (is_text(file))
        return complain(name, "no state, but text; assemble it first: tejborun assemble state %s -o FILE", name);
    return check_state(name, file);
}

static uint32_t register_value(const struct tejborun_state *state, uint32_t unit, uint32_t number)
{
    const struct tejborun_unit *registers = unit == 0 ? &state->vif0 : &state->vif1;
    return number < TEJBORUN_COL ? registers->row[number - TEJBORUN_ROW] : registers->col[number - TEJBORUN_COL];
}

/* Sets a register; says where it is refused. A status. */
static int set_register(const struct words_given *given, const struct setting *setting, struct tejborun_state *state)
{
    const uint32_t call[CALL_WORDS] = {CALL_SET, given->unit, setting->number, setting->value};
    char what[REGISTER_TEXT];
    uint32_t answer = tejborun_set((uint32_t *)state, TEJBORUN_BLOCK_WORDS, given->unit, setting->number, setting->value);
    if (answer == TEJBORUN_DONE)
        return STATUS_DONE;
    register_words(given->unit, setting->number, what);
    complain(given->word[0], "%s: refused %" PRIu32 ": %s", what, answer, tejborun_message(answer));
    if (answer == TEJBORUN_BAD_VALUE)
        blame_set(state, call);
    return STATUS_REFUSED;
}

/* Sets the registers in the order given; stops at the first refusal. A status. */
static int set_registers(const struct words_given *given, struct tejborun_state *state)
{
    int status = STATUS_DONE;
    for (size_t i = 0; i < given->settings && status == STATUS_DONE; i++)
        status = set_register(given, &given->setting[i], state);
    return status;
}

static void say_registers(const struct words_given *given, const struct tejborun_state *before, const struct tejborun_state *after)
{
    for (size_t i = 0; i < given->settings; i++) {
        uint32_t number = given->setting[i].number;
        char what[REGISTER_TEXT];
        register_words(given->unit, number, what);
        say("%s: %s is 0x%08" PRIX32 ", was 0x%08" PRIX32 "\n", given->option[OPTION_OUTPUT], what, register_value(after, given->unit, number),
            register_value(before, given->unit, number));
    }
}

/* Sets the registers in the file's bytes and writes them. */
static int set_in_file(const struct words_given *given, struct bytes *file)
{
    struct tejborun_state before, after;
    size_t at;
    int status = find_state(given->word[0], file, &at);
    if (status != STATUS_DONE)
        return status;
    get_words(file->at + at, TEJBORUN_BLOCK_WORDS, (uint32_t *)&before);
    after = before;
    status = set_registers(given, &after);
    if (status != STATUS_DONE)
        return status;
    put_words(file->at + at, TEJBORUN_BLOCK_WORDS, (const uint32_t *)&after);
    status = write_file(given->option[OPTION_OUTPUT], file->at, file->count);
    if (status == STATUS_DONE)
        say_registers(given, &before, &after);
    return status;
}

int command_set(const struct words_given *given)
{
    struct bytes file;
    if (given->settings == 0)
        return complain("set", "say with --row or --col what is set, as --row 0=0x3F800000");
    int status = read_file(given->word[0], SET_READ_BYTES, &file);
    if (status != STATUS_DONE)
        return status;
    status = set_in_file(given, &file);
    free(file.at);
    return status;
}
