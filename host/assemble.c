/* The command assemble. */
#include "assemble.h"

#include <stdlib.h>
#include <string.h>

#include "command.h"
#include "shapes.h"
#include "tejborun.h"

enum { TEXT_READ_BYTES = 256 * 1048576 };

struct kind {
    const char *name;
    int (*assemble)(struct text *, struct output *);
};

static const struct kind kinds[] = {
    {"sheet", assemble_sheet}, {"chain", assemble_chain}, {"state", assemble_state}, {"capture", assemble_capture}, {"result", assemble_result}, {"totals", assemble_totals},
};

enum { KINDS = sizeof kinds / sizeof kinds[0] };

static const struct kind *find_kind(const char *name)
{
    for (size_t i = 0; i < KINDS; i++)
        if (strcmp(kinds[i].name, name) == 0)
            return &kinds[i];
    return NULL;
}

/* Whether a raw memory is given. */
static bool raw_option(const struct words_given *given)
{
    for (size_t i = OPTION_MAIN; i <= OPTION_LOG; i++)
        if (given->option[i] != NULL)
            return true;
    return false;
}

/* The bytes of a byte order mark, which some editors write first. */
static size_t order_mark(const struct bytes *file)
{
    static const uint8_t mark[3] = {0xEF, 0xBB, 0xBF};
    return file->count >= sizeof mark && memcmp(file->at, mark, sizeof mark) == 0 ? sizeof mark : 0;
}

int command_assemble(const struct words_given *given)
{
    const struct kind *kind = find_kind(given->word[0]);
    if (kind == NULL)
        return complain(given->word[0], "no kind of file; give sheet, chain, state, capture, result or totals");
    if (kind->assemble != assemble_capture && raw_option(given))
        return complain(given->word[0], "takes no raw memories: --main, --data, --code, --data0, --code0 and --log belong to a capture");
    struct bytes file;
    const char *name = given->word[1];
    int status = read_file(name, TEXT_READ_BYTES, &file);
    if (status != STATUS_DONE)
        return status;
    struct text text = {.name = name, .given = given, .next = (char *)file.at + order_mark(&file)};
    struct output output = {0};
    if (memchr(file.at, 0, file.count) != NULL)
        status = complain(name, "no text: it has a zero byte");
    else
        status = kind->assemble(&text, &output);
    if (status == STATUS_DONE)
        status = write_file(given->option[OPTION_OUTPUT], output.at, output.count);
    free(output.at);
    free(file.at);
    return status;
}

int assemble_state(struct text *text, struct output *output)
{
    struct tejborun_state state;
    struct given given = {0};
    tejborun_reset((uint32_t *)&state, TEJBORUN_BLOCK_WORDS);
    struct line line;
    bool end, any = false;
    for (;;) {
        int status = next_line(text, &line, &end);
        if (status != STATUS_DONE)
            return status;
        if (end)
            break;
        if (strcmp(line.item[0], "state") != 0)
            return complain_at(text, line.number, "'%s': a state's lines begin with state", line.item[0]);
        status = read_fields(text, &line, &state_blocks[0], (uint32_t *)&state, &given);
        if (status != STATUS_DONE)
            return status;
        any = true;
    }
    if (!any)
        return complain(text->name, "has no line that begins with state");
    write_words(output, (const uint32_t *)&state, TEJBORUN_BLOCK_WORDS);
    return STATUS_DONE;
}
