/* The parts of a board by name. */
#include <string.h>

#include "board.h"

#define DATA_SHAPE(vif, words) MEMORY_DATA, vif, 4, 4, words
#define CODE_SHAPE(vif, bytes) MEMORY_CODE, vif, 1, 8, bytes

const struct part_shape part_shapes[PARTS] = {
    [PART_DATA] = {DATA_SHAPE(VIF1, TEJBORUN_VIF1_DATA_WORDS), "data", "VIF1's data memory", "words", "", "quadword", "quadwords"},
    [PART_CODE] = {CODE_SHAPE(VIF1, TEJBORUN_VIF1_CODE_BYTES), "code", "VIF1's code memory", "bytes", "", "instruction", "instructions"},
    [PART_LOG] = {MEMORY_LOG, VIFS, 8, TEJBORUN_ENTRY_NUMBERS, TEJBORUN_LOG_NUMBERS, "log", "log", "numbers", "", "entry", "entries"},
    [PART_DATA0] = {DATA_SHAPE(VIF0, TEJBORUN_VIF0_DATA_WORDS), "data0", "VIF0's data memory", "words", "VIF0 ", "quadword", "quadwords"},
    [PART_CODE0] = {CODE_SHAPE(VIF0, TEJBORUN_VIF0_CODE_BYTES), "code0", "VIF0's code memory", "bytes", "VIF0 ", "instruction", "instructions"},
};

const enum part part_order[PARTS] = {PART_DATA, PART_CODE, PART_DATA0, PART_CODE0, PART_LOG};

enum part data_of(enum vif vif)
{
    return vif == VIF0 ? PART_DATA0 : PART_DATA;
}

enum part code_of(enum vif vif)
{
    return vif == VIF0 ? PART_CODE0 : PART_CODE;
}

unsigned parts_of(enum vif vif)
{
    return PART_BIT(data_of(vif)) | PART_BIT(code_of(vif)) | PART_BIT(PART_LOG);
}

enum { PARTS_TEXT = 128 };

static unsigned count_parts(unsigned parts)
{
    unsigned count = 0;
    for (size_t i = 0; i < PARTS; i++)
        count += parts >> i & 1;
    return count;
}

const char *parts_words(unsigned parts)
{
    static char texts[PARTS_ALL + 1][PARTS_TEXT];
    char *text = texts[parts & PARTS_ALL];
    unsigned left = count_parts(parts & PARTS_ALL);
    text[0] = 0;
    for (size_t i = 0; i < PARTS; i++) {
        if ((parts & PART_BIT(part_order[i])) == 0)
            continue;
        strcat(text, text[0] == 0 ? "" : left == 1 ? " and " : ", ");
        strcat(text, part_shapes[part_order[i]].words);
        left--;
    }
    return text[0] != 0 ? text : "nothing";
}

const char *parts_names(unsigned parts)
{
    static char texts[PARTS_ALL + 1][PARTS_TEXT];
    char *text = texts[parts & PARTS_ALL];
    text[0] = 0;
    for (size_t part = 0; part < PARTS; part++) {
        if ((parts & PART_BIT(part)) == 0)
            continue;
        strcat(text, text[0] == 0 ? "" : "+");
        strcat(text, part_shapes[part].name);
    }
    return text;
}
