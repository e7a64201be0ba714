/* Chains and captures as text. */
#include <inttypes.h>
#include <stdio.h>
#include <stdlib.h>

#include "capture.h"
#include "dump.h"
#include "numbers.h"
#include "roles.h"
#include "shapes.h"
#include "words.h"

static void print_chain(const struct bytes *file)
{
    size_t count = file->count / 4;
    uint32_t *words = allocate(count, sizeof *words);
    uint8_t *roles = allocate(count, 1);
    get_words(file->at, count, words);
    struct trail trail = new_trail(words, count, count, roles);
    follow(&trail);
    printf("# chain, %zu bytes\n", file->count);
    print_words(words, roles, count);
    free(words);
    free(roles);
}

int dump_chain(const char *name, const struct bytes *file)
{
    if (file->count == 0 || file->count % 16 != 0)
        return complain(name, "no chain: %zu bytes; a chain is whole quadwords of 16, one at least", file->count);
    if (file->count > TEJBORUN_MAIN_BYTES)
        return complain(name, "no chain: %zu bytes; main memory has at most %u", file->count, TEJBORUN_MAIN_BYTES);
    print_chain(file);
    return STATUS_DONE;
}

/* Follows the chains that the calls begin. */
static void follow_calls(const struct capture *capture, uint8_t *roles)
{
    struct trail trail = new_trail(capture->word, capture->head.given, capture->head.main_bytes / 4, roles);
    trail_from_state(&trail, &capture->board.state);
    for (size_t i = 0; i < capture->head.calls; i++) {
        const uint32_t *words = capture->call[i].words;
        if (words[0] == CALL_START)
            trail_start(&trail, words[1], words[2], words[3]);
        else if (words[0] == CALL_RUN)
            follow(&trail);
    }
}

/* Prints the memories that the capture gives. */
static void print_first(const struct capture *capture)
{
    for (size_t i = 0; i < PARTS; i++) {
        enum part part = part_order[i];
        print_part(&capture->board, part, capture->head.first[part] / part_shapes[part].unit_elements, true);
    }
}

static void print_capture(const struct capture *capture)
{
    uint8_t *roles = allocate(capture->head.given, 1);
    follow_calls(capture, roles);
    const struct capture_text head = {capture->head, log_text_of(capture->head.length[PART_LOG])};
    print_block(stdout, shape_of(capture_heads, capture->head.mark), (const uint32_t *)&head);
    putchar('\n');
    print_state(&capture->board.state);
    print_first(capture);
    for (size_t i = 0; i < capture->head.calls; i++) {
        print_block(stdout, shape_of(calls, capture->call[i].words[0]), capture->call[i].words);
        putchar('\n');
    }
    printf("# main memory, %" PRIu32 " words given\n", capture->head.given);
    print_words(capture->word, roles, capture->head.given);
    free(roles);
}

int dump_capture(const char *name, const struct bytes *file)
{
    struct capture capture;
    int status = parse_capture(name, file, &capture);
    if (status != STATUS_DONE)
        return status;
    print_capture(&capture);
    free_capture(&capture);
    return STATUS_DONE;
}
