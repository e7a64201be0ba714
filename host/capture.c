/* Capture files. */
#include "capture.h"

#include <inttypes.h>
#include <stdlib.h>
#include <string.h>

#include "files.h"
#include "kinds.h"
#include "numbers.h"
#include "shapes.h"

/* The words of a head in the order of its file, by their places in the struct. */
#define AT(member) (offsetof(struct capture_head, member) / sizeof(uint32_t))
#define IN_ORDER(list) AT(list[PART_DATA]), AT(list[PART_CODE]), AT(list[PART_DATA0]), AT(list[PART_CODE0]), AT(list[PART_LOG])

static const uint8_t capture_words[] = {AT(mark), AT(main_bytes), AT(given), IN_ORDER(length), IN_ORDER(first), AT(calls)};
static const uint8_t test_case_words[] = {
    AT(mark),    AT(main_bytes), AT(given), AT(length[PART_DATA]), AT(length[PART_CODE]),  AT(length[PART_LOG]),
    AT(fill[0]), AT(fill[1]),    AT(whole), AT(calls),             AT(length[PART_DATA0]), AT(length[PART_CODE0]),
};

bool is_test_case(const struct capture_head *head)
{
    return head->mark == capture_heads[1].fixed;
}

static const uint8_t *head_words(const struct capture_head *head)
{
    return is_test_case(head) ? test_case_words : capture_words;
}

size_t head_bytes(const struct capture_head *head)
{
    return 4 * (is_test_case(head) ? sizeof test_case_words : sizeof capture_words);
}

void put_head(uint8_t *bytes, const struct capture_head *head)
{
    for (size_t i = 0; i < head_bytes(head) / 4; i++)
        put_word(bytes + 4 * i, ((const uint32_t *)head)[head_words(head)[i]]);
}

/* Reads a head whose mark has been read. */
static void get_head(const uint8_t *bytes, struct capture_head *head)
{
    for (size_t i = 0; i < head_bytes(head) / 4; i++)
        ((uint32_t *)head)[head_words(head)[i]] = get_word(bytes + 4 * i);
}

/* Bytes of a file before its calls. */
static size_t calls_at(const struct capture_head *head)
{
    return head_bytes(head) + 4 * TEJBORUN_BLOCK_WORDS;
}

struct counts most_counts(void)
{
    struct counts most;
    for (size_t part = 0; part < PARTS; part++)
        most.of[part] = part_shapes[part].usual + (part_shapes[part].memory == MEMORY_DATA ? 4 : 8);
    return most;
}

size_t longest_capture(void)
{
    const struct counts most = most_counts();
    size_t length = 4 * (sizeof capture_words + TEJBORUN_BLOCK_WORDS) + CAPTURE_CALLS * CALL_BYTES + CAPTURE_MAIN_BYTES;
    for (size_t part = 0; part < PARTS; part++)
        length += part_bytes(part, most.of[part]);
    return length;
}

/* Complains where a number of a head is above its most: so many of what. */
static int check_limit(const char *name, uint32_t value, size_t most, const char *elements, const char *of, const char *what)
{
    if (value <= most)
        return STATUS_DONE;
    return complain(name, "damaged capture: %" PRIu32 " %s%s%s; the most is %zu", value, elements, of, what, most);
}

/* Tests a part's length, and how much of it is given: no more than there is, in whole units. */
static int check_part(const char *name, const struct capture_head *head, enum part part)
{
    const struct part_shape *shape = &part_shapes[part];
    const char *words = shape->memory == MEMORY_LOG ? "the log" : shape->words;
    int status = check_limit(name, head->length[part], most_counts().of[part], shape->elements, " of ", words);
    if (status == STATUS_DONE)
        status = check_limit(name, head->first[part], head->length[part], shape->elements, " given of ", words);
    if (status == STATUS_DONE)
        status = check_limit(name, head->first[part] % shape->unit_elements, 0, shape->elements, " given beyond whole ", shape->many);
    return status;
}

int check_head(const char *name, const struct capture_head *head)
{
    int status = check_limit(name, head->main_bytes, CAPTURE_MAIN_BYTES, "bytes", " of ", "main memory");
    if (status == STATUS_DONE)
        status = check_limit(name, head->given, head->main_bytes / 4, "words", " given of ", "main memory");
    for (size_t part = 0; part < PARTS && status == STATUS_DONE; part++)
        status = check_part(name, head, part);
    if (status == STATUS_DONE)
        status = check_limit(name, head->calls, CAPTURE_CALLS, "calls", "", "");
    if (status == STATUS_DONE)
        status = check_limit(name, head->whole, 1, "for", " ", "whole memories");
    return status;
}

/* Bytes of a capture file. */
static size_t capture_length(const struct capture_head *head)
{
    size_t length = calls_at(head) + (size_t)head->calls * CALL_BYTES + (size_t)head->given * 4;
    for (size_t part = 0; part < PARTS; part++)
        length += part_bytes(part, head->first[part]);
    return length;
}

/* Tests the file's length and the kinds of its calls. */
static int check_rest(const char *name, const struct bytes *file, const struct capture_head *head)
{
    size_t length = capture_length(head);
    if (file->count < length)
        return complain(name, "damaged capture: %zu bytes; its head says %zu", file->count, length);
    if (file->count > length)
        return complain(name, "%zu bytes, but its case ends after %zu: give a capture of one case", file->count, length);
    for (size_t i = 0; i < head->calls; i++) {
        uint32_t kind = get_word(file->at + calls_at(head) + CALL_BYTES * i);
        if (shape_of(calls, kind) == NULL)
            return complain(name, "damaged capture: call %zu is of kind %" PRIu32 "; 1 is a start, 2 a run, 3 a set, 4 a why", i, kind);
    }
    return STATUS_DONE;
}

/* Tests mark, limits and lengths; reads the head. */
static int check_capture(const char *name, const struct bytes *file, struct capture_head *head)
{
    int status = check_mark(name, file, capture_heads);
    if (status != STATUS_DONE)
        return status;
    head->mark = get_word(file->at);
    if (file->count < calls_at(head))
        return complain(name, "damaged capture: %zu bytes, cut within its head of %zu", file->count, calls_at(head));
    get_head(file->at, head);
    status = check_head(name, head);
    return status == STATUS_DONE ? check_rest(name, file, head) : status;
}

/* The memories of a test case, by its number for each of them. */
static void fill_board(const struct capture_head *head, struct board *board)
{
    static const uint64_t more[PARTS] = {[PART_DATA] = 0, [PART_CODE] = 1, [PART_LOG] = 2, [PART_DATA0] = 5, [PART_CODE0] = 6};
    const uint64_t k = UINT64_C(0x9E3779B97F4A7C15), fill = join_words(head->fill);
    for (size_t vif = 0; vif < VIFS; vif++) {
        for (size_t i = 0; i < board->count.of[data_of(vif)]; i++)
            board->data[vif][i] = (uint32_t)(fill + more[data_of(vif)] + i * k);
        for (size_t i = 0; i < board->count.of[code_of(vif)]; i++)
            board->code[vif][i] = (uint8_t)(fill + more[code_of(vif)] + i * k);
    }
    for (size_t i = 0; i < board->count.of[PART_LOG]; i++)
        board->log[i] = fill + more[PART_LOG] + i * k;
}

/* A board of a capture's lengths. */
static struct board board_of(const struct capture_head *head)
{
    struct counts count;
    for (size_t part = 0; part < PARTS; part++)
        count.of[part] = head->length[part];
    return new_board(count);
}

int parse_capture(const char *name, const struct bytes *file, struct capture *capture)
{
    *capture = (struct capture){0};
    const struct capture_head *head = &capture->head;
    int status = check_capture(name, file, &capture->head);
    if (status != STATUS_DONE)
        return status;
    const uint8_t *at = file->at + head_bytes(head);
    capture->board = board_of(head);
    get_words(at, TEJBORUN_BLOCK_WORDS, board_block(&capture->board));
    at += 4 * TEJBORUN_BLOCK_WORDS;
    capture->call = allocate(head->calls, sizeof *capture->call);
    for (size_t i = 0; i < head->calls; i++, at += CALL_BYTES)
        get_words(at, CALL_WORDS, capture->call[i].words);
    capture->word = allocate(head->given, sizeof *capture->word);
    get_words(at, head->given, capture->word);
    at += 4 * (size_t)head->given;
    if (is_test_case(head))
        fill_board(head, &capture->board);
    for (size_t i = 0; i < PARTS; i++)
        at += get_part(at, &capture->board, part_order[i], head->first[part_order[i]]);
    return STATUS_DONE;
}

int read_capture(const char *name, struct capture *capture)
{
    struct bytes file;
    int status = read_file(name, 64 * longest_capture(), &file);
    if (status != STATUS_DONE)
        return status;
    status = parse_capture(name, &file, capture);
    free(file.at);
    return status;
}

void free_capture(struct capture *capture)
{
    free(capture->call);
    free(capture->word);
    free_board(&capture->board);
    *capture = (struct capture){0};
}

uint8_t *capture_main(const struct capture *capture)
{
    uint8_t *main = allocate(capture->head.main_bytes, 1);
    put_words(main, capture->head.given, capture->word);
    return main;
}
