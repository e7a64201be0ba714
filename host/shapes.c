/* DMA tags, VIF codes, GIF tags, calls and records by their fields. */
#include "shapes.h"

#define LIST(fields) sizeof(fields) / sizeof((fields)[0]), fields
#define END {NULL, 0, 0, 0, 0, NULL}

static const struct field tag_with_addr[] = {
    {"qwc", 0, 16, FIELD_SHOWN, NULL}, {"addr", 32, 31, FIELD_SHOWN | FIELD_HEX, NULL}, {"spr", 63, 1, 0, NULL},        {"rest", 16, 12, FIELD_HEX, NULL},
    {"irq", 31, 1, 0, NULL},           {"word2", 64, 32, FIELD_HEX, NULL},              {"word3", 96, 32, FIELD_HEX, NULL},
};

static const struct field tag_without_addr[] = {
    {"qwc", 0, 16, FIELD_SHOWN, NULL}, {"addr", 32, 31, FIELD_HEX, NULL},  {"spr", 63, 1, 0, NULL},             {"rest", 16, 12, FIELD_HEX, NULL},
    {"irq", 31, 1, 0, NULL},           {"word2", 64, 32, FIELD_HEX, NULL}, {"word3", 96, 32, FIELD_HEX, NULL},
};

#define TAG(name, id, fields) {name, 4, UINT32_C(0x70000000), (uint32_t)(id) << 28, LIST(fields)}

const struct shape dma_tags[] = {
    TAG("refe", 0, tag_with_addr),
    TAG("cnt", 1, tag_without_addr),
    TAG("next", 2, tag_with_addr),
    TAG("ref", 3, tag_with_addr),
    TAG("refs", 4, tag_with_addr),
    TAG("call", 5, tag_with_addr),
    TAG("ret", 6, tag_without_addr),
    TAG("end", 7, tag_without_addr),
    END,
};

static const char *const unpack_format_names[16] = {
    "S-32", "S-16", "S-8", NULL, "V2-32", "V2-16", "V2-8", NULL, "V3-32", "V3-16", "V3-8", NULL, "V4-32", "V4-16", "V4-8", "V4-5",
};
const struct names unpack_formats = {16, unpack_format_names};

/* What every code has beside its IMM. */
#define NUM_IRQ {"num", 16, 8, 0, NULL}, {"irq", 31, 1, 0, NULL}

static const struct field imm_idle[] = {{"imm", 0, 16, 0, NULL}, NUM_IRQ};
static const struct field imm_shown[] = {{"imm", 0, 16, FIELD_SHOWN, NULL}, NUM_IRQ};
static const struct field stcycl[] = {{"cl", 0, 8, FIELD_SHOWN, NULL}, {"wl", 8, 8, FIELD_SHOWN, NULL}, NUM_IRQ};
static const struct field offset[] = {{"ofst", 0, 10, FIELD_SHOWN, NULL}, {"rest", 10, 6, FIELD_HEX, NULL}, NUM_IRQ};
static const struct field base[] = {{"base", 0, 10, FIELD_SHOWN, NULL}, {"rest", 10, 6, FIELD_HEX, NULL}, NUM_IRQ};
static const struct field itop[] = {{"itop", 0, 10, FIELD_SHOWN, NULL}, {"rest", 10, 6, FIELD_HEX, NULL}, NUM_IRQ};
static const struct field stmod[] = {{"mode", 0, 2, FIELD_SHOWN, NULL}, {"rest", 2, 14, FIELD_HEX, NULL}, NUM_IRQ};
static const struct field mskpath3[] = {{"mask", 15, 1, FIELD_SHOWN, NULL}, {"rest", 0, 15, FIELD_HEX, NULL}, NUM_IRQ};
static const struct field mark[] = {{"mark", 0, 16, FIELD_SHOWN, NULL}, NUM_IRQ};
static const struct field mpg[] = {{"num", 16, 8, FIELD_SHOWN, NULL}, {"addr", 0, 16, FIELD_SHOWN, NULL}, {"irq", 31, 1, 0, NULL}};
static const struct field unpack[] = {
    {"format", 24, 4, FIELD_SHOWN, &unpack_formats},
    {"num", 16, 8, FIELD_SHOWN, NULL},
    {"addr", 0, 10, FIELD_SHOWN, NULL},
    {"tops", 15, 1, 0, NULL},
    {"usn", 14, 1, 0, NULL},
    {"m", 28, 1, 0, NULL},
    {"rest", 10, 4, FIELD_HEX, NULL},
    {"irq", 31, 1, 0, NULL},
};

#define CODE(name, cmd, fields) {name, 1, UINT32_C(0x7F000000), (uint32_t)(cmd) << 24, LIST(fields)}

const struct shape vif_codes[] = {
    CODE("NOP", 0x00, imm_idle),
    CODE("STCYCL", 0x01, stcycl),
    CODE("OFFSET", 0x02, offset),
    CODE("BASE", 0x03, base),
    CODE("ITOP", 0x04, itop),
    CODE("STMOD", 0x05, stmod),
    CODE("MSKPATH3", 0x06, mskpath3),
    CODE("MARK", 0x07, mark),
    CODE("FLUSHE", 0x10, imm_idle),
    CODE("FLUSH", 0x11, imm_idle),
    CODE("FLUSHA", 0x13, imm_idle),
    CODE("MSCAL", 0x14, imm_shown),
    CODE("MSCALF", 0x15, imm_shown),
    CODE("MSCNT", 0x17, imm_idle),
    CODE("STMASK", 0x20, imm_idle),
    CODE("STROW", 0x30, imm_idle),
    CODE("STCOL", 0x31, imm_idle),
    CODE("MPG", 0x4A, mpg),
    CODE("DIRECT", 0x50, imm_shown),
    CODE("DIRECTHL", 0x51, imm_shown),
    {"UNPACK", 1, UINT32_C(0x60000000), UINT32_C(0x60000000), LIST(unpack)},
    END,
};

const struct shape *code_shape(uint32_t word)
{
    const struct shape *shape = shape_of(vif_codes, word);
    if (shape != NULL && shape->field == unpack && unpack_format_names[word >> 24 & 15] == NULL)
        return NULL;
    return shape;
}

const struct shape *vif0_code_shape(uint32_t word)
{
    static const uint8_t missing[] = {0x02, 0x03, 0x06, 0x11, 0x13, 0x15, 0x50, 0x51};
    for (size_t i = 0; i < sizeof missing; i++)
        if ((word >> 24 & 127) == missing[i])
            return NULL;
    return code_shape(word);
}

static const char *const gif_format_names[3] = {"PACKED", "REGLIST", "IMAGE"};
const struct names gif_formats = {3, gif_format_names};

static const struct field gif_tag[] = {
    {"nloop", 0, 15, FIELD_SHOWN, NULL},  {"eop", 15, 1, FIELD_SHOWN, NULL},         {"pre", 46, 1, 0, NULL},
    {"prim", 47, 11, FIELD_HEX, NULL},    {"flg", 58, 2, FIELD_SHOWN, &gif_formats}, {"nreg", 60, 4, FIELD_SHOWN, NULL},
    {"regs", 64, 64, FIELD_SHOWN | FIELD_HEX, NULL}, {"rest", 16, 30, FIELD_HEX, NULL},
};

const struct shape gif_tags[] = {{"giftag", 4, 0, 0, LIST(gif_tag)}, END};

static const struct field record_addr[] = {{"addr", 32, 16, FIELD_SHOWN, NULL}};
static const struct field record_idle[] = {{"addr", 32, 16, 0, NULL}};

#define RECORD(name, kind, fields) {name, 2, UINT32_C(0x00FFFFFF), UINT32_C(0x519E) | (uint32_t)(kind) << 16, LIST(fields)}

static const struct field record_group[] = {{"repeat", 24, 8, FIELD_SHOWN, NULL}, {"members", 32, 16, 0, NULL}};

const struct shape record_heads[] = {
    RECORD("data", 1, record_addr),  RECORD("code", 2, record_addr),   RECORD("gs", 3, record_idle),
    RECORD("start", 4, record_addr), RECORD("group", 5, record_group), END,
};

static const struct field start_call[] = {
    {"channel", 32, 32, FIELD_SHOWN, NULL},
    {"tadr", 64, 32, FIELD_SHOWN | FIELD_HEX, NULL},
    {"tte", 96, 32, FIELD_SHOWN, NULL},
};
static const struct field run_call[] = {{"allowance", 32, 64, FIELD_SHOWN, NULL}, {"rest", 96, 32, FIELD_HEX, NULL}};


/* The registers that a set takes, by their numbers; as the state's fields are called. */
static const char *const set_register_names[] = {"row0", "row1", "row2", "row3", "col0", "col1", "col2", "col3"};
static const struct names set_registers = {sizeof set_register_names / sizeof set_register_names[0], set_register_names};
_Static_assert(TEJBORUN_ROW == 0 && TEJBORUN_COL == 4, "the numbers of ROW and COL");

static const struct field set_call[] = {
    {"unit", 32, 32, FIELD_SHOWN, NULL},
    {"register", 64, 32, FIELD_SHOWN, &set_registers},
    {"value", 96, 32, FIELD_SHOWN | FIELD_HEX, NULL},
};

static const struct field why_call[] = {
    {"word1", 32, 32, FIELD_HEX, NULL},
    {"word2", 64, 32, FIELD_HEX, NULL},
    {"word3", 96, 32, FIELD_HEX, NULL},
};

const struct shape calls[] = {
    {"start", 4, UINT32_MAX, CALL_START, LIST(start_call)},
    {"run", 4, UINT32_MAX, CALL_RUN, LIST(run_call)},
    {"set", 4, UINT32_MAX, CALL_SET, LIST(set_call)},
    {"why", 4, UINT32_MAX, CALL_WHY, LIST(why_call)},
    END,
};

#define CAPTURE(name, member, flags) MEMBER(struct capture_text, name, member, flags, NULL)

/* The lengths of what follows are counted. */
#define CAPTURE_FIELDS                                                                                                                            \
    CAPTURE("main-bytes", head.main_bytes, FIELD_SHOWN), CAPTURE("data-words", head.length[PART_DATA], FIELD_SHOWN),                              \
        CAPTURE("code-bytes", head.length[PART_CODE], FIELD_SHOWN), CAPTURE("vif0.data-words", head.length[PART_DATA0], FIELD_SHOWN),             \
        CAPTURE("vif0.code-bytes", head.length[PART_CODE0], FIELD_SHOWN), CAPTURE("log-entries", log.entries, FIELD_SHOWN),                       \
        CAPTURE("log-rest", log.rest, 0), CAPTURE("log-numbers", log.numbers, FIELD_BEFORE)

static const struct field capture_head[] = {CAPTURE_FIELDS};
static const struct field test_case_head[] = {
    CAPTURE_FIELDS,
    CAPTURE("fill", head.fill, FIELD_SHOWN | FIELD_HEX),
    CAPTURE("whole", head.whole, FIELD_SHOWN),
};

enum { CAPTURE_WORDS = TEJBORUN_WORDS_OF(struct capture_text) };

const struct shape capture_heads[] = {
    {"capture", CAPTURE_WORDS, UINT32_MAX, UINT32_C(0x34414354), LIST(capture_head)},
    {"capture", CAPTURE_WORDS, UINT32_MAX, UINT32_C(0x33504354), LIST(test_case_head)},
    END,
};

/* The sums of QWC by the tags' IDs, as numbers of counts or totals from one on. */
#define QWC_FIELDS(FIELD, of, from)                                                                                                               \
    FIELD("qwc.refe", of[from + 0], 0), FIELD("qwc.cnt", of[from + 1], 0), FIELD("qwc.next", of[from + 2], 0), FIELD("qwc.ref", of[from + 3], 0), \
        FIELD("qwc.refs", of[from + 4], 0), FIELD("qwc.call", of[from + 5], 0), FIELD("qwc.ret", of[from + 6], 0), FIELD("qwc.end", of[from + 7], 0)

#define RESULT(name, member, flags) MEMBER(struct result_text, name, member, flags, NULL)

/* The state block has lines of its own. */
#define RESULT_FIELDS                                                                                                                             \
    RESULT("answer", head.answer, FIELD_SHOWN), RESULT("steps", head.counts[TEJBORUN_COUNT_STEPS], FIELD_SHOWN),                                  \
        RESULT("packets", head.counts[TEJBORUN_COUNT_PACKETS], FIELD_SHOWN), RESULT("words", head.counts[TEJBORUN_COUNT_WORDS], 0),               \
        RESULT("nops", head.counts[TEJBORUN_COUNT_NOPS], 0), QWC_FIELDS(RESULT, head.counts, TEJBORUN_COUNT_QWC),                                 \
        RESULT("log-entries", log.entries, FIELD_SHOWN), RESULT("log-numbers", log.numbers, FIELD_BEFORE)

/* The sets of parts by their sums: those of VIF1's memories and the log, alone and with VIF0's. */
#define WITHOUT_VIF0(more) "data" more, "code" more, "data+code" more, "log" more, "data+log" more, "code+log" more, "data+code+log" more
static const char *const parts_texts[PARTS_ALL + 1] = {
    NULL, WITHOUT_VIF0(""), "data0", WITHOUT_VIF0("+data0"), "code0", WITHOUT_VIF0("+code0"), "data0+code0", WITHOUT_VIF0("+data0+code0"),
};
static const struct names parts = {PARTS_ALL + 1, parts_texts};

static const struct field result_head[] = {RESULT_FIELDS};
static const struct field partial_result_head[] = {RESULT_FIELDS, MEMBER(struct result_text, "parts", head.parts, FIELD_SHOWN, &parts)};

#define RESULT_MARK UINT32_C(0x36455254)
enum { RESULT_WORDS = TEJBORUN_WORDS_OF(struct result_text) };

const struct shape result_heads[] = {
    {"result", RESULT_WORDS, UINT32_MAX, RESULT_MARK, LIST(result_head)},
    {"result", RESULT_WORDS, UINT32_MAX, RESULT_MARK, LIST(partial_result_head)},
    END,
};

#define TOTALS(name, member, flags) MEMBER(struct totals_file, name, member, flags, NULL)

static const struct field totals_head[] = {
    TOTALS("runs", runs, FIELD_SHOWN),
    TOTALS("packets", total[TEJBORUN_TOTAL_PACKETS], FIELD_SHOWN),
    TOTALS("words", total[TEJBORUN_TOTAL_WORDS], FIELD_SHOWN),
    TOTALS("nops", total[TEJBORUN_TOTAL_NOPS], FIELD_SHOWN),
    QWC_FIELDS(TOTALS, total, TEJBORUN_TOTAL_QWC),
};

const struct shape totals_heads[] = {
    {"totals", TEJBORUN_WORDS_OF(struct totals_file), UINT32_MAX, UINT32_C(0x314C5454), LIST(totals_head)},
    END,
};

struct log_text log_text_of(size_t numbers)
{
    return (struct log_text){.entries = (uint32_t)(numbers / TEJBORUN_ENTRY_NUMBERS), .rest = (uint32_t)(numbers % TEJBORUN_ENTRY_NUMBERS)};
}
