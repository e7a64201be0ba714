/* The command's readers under a fuzzer: the first byte says which, the rest is a text to assemble or a file to parse. What assembles must be read again. */
#include <stdlib.h>
#include <string.h>

#include "../host/assemble.h"
#include "../host/capture.h"
#include "../host/command.h"
#include "../host/totals.h"

int LLVMFuzzerTestOneInput(const uint8_t *data, size_t size);

static int parse_a_capture(const struct bytes *file)
{
    struct capture capture;
    int status = parse_capture("fuzz", file, &capture);
    if (status == STATUS_DONE)
        free_capture(&capture);
    return status;
}

static int parse_a_result(const struct bytes *file)
{
    struct result result;
    int status = parse_result("fuzz", file, &result);
    if (status == STATUS_DONE)
        free_board(&result.board);
    return status;
}

static int parse_some_totals(const struct bytes *file)
{
    struct totals totals;
    return parse_totals("fuzz", file, &totals);
}

/* What is assembled, and how it is read again, where it is; the last ones are also read from any bytes. */
enum { KINDS = 6, FILES = 3 };
static int (*const assemblers[KINDS])(struct text *, struct output *) = {assemble_capture, assemble_result, assemble_sheet, assemble_chain, assemble_state,
                                                                         assemble_totals};
static int (*const parsers[KINDS])(const struct bytes *) = {parse_a_capture, parse_a_result, NULL, NULL, NULL, parse_some_totals};
static int (*const files[FILES])(const struct bytes *) = {parse_a_capture, parse_a_result, parse_some_totals};

static void assemble(unsigned kind, char *bytes)
{
    struct words_given given = {0};
    struct text text = {.name = "fuzz", .given = &given, .next = bytes};
    struct output output = {0};
    if (assemblers[kind](&text, &output) == STATUS_DONE && parsers[kind] != NULL && parsers[kind](&(struct bytes){output.at, output.count}) != STATUS_DONE)
        abort();
    free(output.at);
}

int LLVMFuzzerTestOneInput(const uint8_t *data, size_t size)
{
    if (size == 0)
        return 0;
    char *copy = calloc(size, 1);
    if (copy == NULL)
        abort();
    memcpy(copy, data + 1, size - 1);
    unsigned kind = data[0] % (KINDS + FILES);
    if (kind < KINDS)
        assemble(kind, copy);
    else
        files[kind - KINDS](&(struct bytes){(uint8_t *)copy, size - 1});
    free(copy);
    return 0;
}
