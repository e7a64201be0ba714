/* The command dump. */
#include "dump.h"

#include <inttypes.h>
#include <stdlib.h>
#include <string.h>

#include "command.h"
#include "kinds.h"
#include "numbers.h"
#include "shapes.h"
#include "tejborun.h"
#include "words.h"

enum { DUMP_READ_BYTES = 16 * 1048576 };

struct kind {
    const char *name;
    int (*dump)(const char *, const struct bytes *);
};

static const struct kind kinds[] = {
    {"sheet", dump_sheet}, {"chain", dump_chain}, {"state", dump_state}, {"capture", dump_capture}, {"result", dump_result}, {"totals", dump_totals},
};

enum { KINDS = sizeof kinds / sizeof kinds[0] };

static int dump_as(const char *kind, const char *name, const struct bytes *file)
{
    for (size_t i = 0; i < KINDS; i++)
        if (strcmp(kinds[i].name, kind) == 0)
            return kinds[i].dump(name, file);
    return complain(kind, "no kind of file; give sheet, chain, state, capture, result or totals");
}

int command_dump(const struct words_given *given)
{
    struct bytes file;
    const char *name = given->word[given->count - 1];
    int status = read_file(name, DUMP_READ_BYTES, &file);
    if (status != STATUS_DONE)
        return status;
    const char *kind = given->count == 2 ? given->word[0] : kind_by_mark(&file);
    if (kind != NULL)
        status = dump_as(kind, name, &file);
    else if (is_text(&file))
        status = complain(name, "it is text already");
    else
        status = complain(name, "begins with no mark; give its kind: tejborun dump sheet, chain or state FILE");
    free(file.at);
    return status;
}

void print_state(const struct tejborun_state *state)
{
    print_block(stdout, &state_blocks[0], (const uint32_t *)state);
    putchar('\n');
}

void print_register(uint64_t number)
{
    const char *name = register_name(number);
    if (name != NULL)
        fputs(name, stdout);
    else
        printf("0x%02" PRIX64, number);
}

int dump_state(const char *name, const struct bytes *file)
{
    struct tejborun_state state;
    int status = check_state(name, file);
    if (status != STATUS_DONE)
        return status;
    get_words(file->at, TEJBORUN_BLOCK_WORDS, (uint32_t *)&state);
    print_state(&state);
    return STATUS_DONE;
}
