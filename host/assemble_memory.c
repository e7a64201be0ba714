/* Main memory and chains from text. */
#include <inttypes.h>
#include <string.h>

#include "assemble.h"
#include "capture.h"
#include "shapes.h"
#include "tejborun.h"

int words_line(const struct text *text, const struct line *line, struct output *output)
{
    for (size_t i = 1; i < line->count; i++) {
        uint32_t word;
        int status = word_item(text, line, i, &word);
        if (status != STATUS_DONE)
            return status;
        write_word(output, word);
    }
    return line->count > 1 ? STATUS_DONE : complain_at(text, line->number, "after 'word' come words");
}

int bytes_line(const struct text *text, const struct line *line, struct output *output)
{
    for (size_t i = 1; i < line->count; i++) {
        uint64_t number;
        int status = number_item(text, line, i, 8, &number);
        if (status != STATUS_DONE)
            return status;
        uint8_t byte = (uint8_t)number;
        write_bytes(output, &byte, 1);
    }
    return line->count > 1 ? STATUS_DONE : complain_at(text, line->number, "after 'byte' come bytes");
}

/* Zeros up to an address. */
static int at_line(const struct text *text, const struct line *line, struct output *output)
{
    uint64_t address;
    int status = expect_items(text, line, 1, "one address");
    if (status == STATUS_DONE)
        status = number_item(text, line, 1, 64, &address);
    if (status != STATUS_DONE)
        return status;
    if (address < output->count)
        return complain_at(text, line->number, "at 0x%" PRIX64 ": the lines before reach 0x%zX already", address, output->count);
    if (address > CAPTURE_MAIN_BYTES)
        return complain_at(text, line->number, "at 0x%" PRIX64 ": main memory ends at 0x%X", address, (unsigned)CAPTURE_MAIN_BYTES);
    static const uint8_t zeros[16];
    while (output->count < address)
        write_bytes(output, zeros, address - output->count < 16 ? (size_t)address - output->count : 16);
    return STATUS_DONE;
}

/* A tag, a code or a GIF tag; a tag lies at a quadword, a code at a word. */
static int shape_line(const struct text *text, const struct line *line, const struct shape *shape, struct output *output)
{
    uint32_t words[4];
    if (output->count % (4 * shape->words) != 0)
        return complain_at(text, line->number, "'%s' at 0x%zX: it begins at a multiple of %u", shape->name, output->count, 4 * shape->words);
    int status = read_block(text, line, shape, words);
    if (status != STATUS_DONE)
        return status;
    write_words(output, words, shape->words);
    return STATUS_DONE;
}

int memory_line(const struct text *text, const struct line *line, const char *more, struct output *output)
{
    char tags[NAMES_TEXT], codes[NAMES_TEXT];
    static const struct shape *const lists[3] = {dma_tags, vif_codes, gif_tags};
    if (output->count > CAPTURE_MAIN_BYTES)
        return complain_at(text, line->number, "main memory has at most %d bytes", CAPTURE_MAIN_BYTES);
    if (strcmp(line->item[0], "word") == 0)
        return words_line(text, line, output);
    if (strcmp(line->item[0], "byte") == 0)
        return bytes_line(text, line, output);
    if (strcmp(line->item[0], "at") == 0)
        return at_line(text, line, output);
    for (size_t i = 0; i < 3; i++) {
        const struct shape *shape = shape_named(lists[i], line->item[0]);
        if (shape != NULL)
            return shape_line(text, line, shape, output);
    }
    list_shapes(dma_tags, tags);
    list_shapes(vif_codes, codes);
    return complain_at(text, line->number, "'%s' is no tag (%s), code (%s), giftag, word, byte or at%s", line->item[0], tags, codes,
                       more != NULL ? more : "");
}

int assemble_chain(struct text *text, struct output *output)
{
    struct line line;
    bool end;
    for (;;) {
        int status = next_line(text, &line, &end);
        if (status != STATUS_DONE)
            return status;
        if (end)
            break;
        status = memory_line(text, &line, NULL, output);
        if (status != STATUS_DONE)
            return status;
    }
    if (output->count == 0 || output->count % 16 != 0)
        return complain(text->name, "makes %zu bytes; a chain is whole quadwords of 16, one at least", output->count);
    if (output->count > TEJBORUN_MAIN_BYTES)
        return complain(text->name, "makes %zu bytes; main memory has at most %u", output->count, TEJBORUN_MAIN_BYTES);
    return STATUS_DONE;
}
