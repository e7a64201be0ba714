/* What a file is. */
#include "kinds.h"

#include <string.h>

#include "numbers.h"
#include "shapes.h"

/* Whether the file begins with the mark of one of the heads. */
static bool has_mark(const struct bytes *file, const struct shape *heads)
{
    return file->count >= 4 && shape_of(heads, get_word(file->at)) != NULL;
}

bool is_text(const struct bytes *file)
{
    for (size_t i = 0; i < file->count; i++) {
        uint8_t c = file->at[i];
        if ((c < ' ' && c != '\t' && c != '\r' && c != '\n') || c == 0x7F)
            return false;
    }
    return file->count > 0;
}

#define WHAT_TO_DO "dump it with the version that wrote it, and assemble the text here"

static int complain_before_vif0(const char *name, const char *kind)
{
    return complain(name, "a %s from before VIF0: its state has %d words, here it has %u; " WHAT_TO_DO, kind, EARLIER_BLOCK_WORDS, TEJBORUN_BLOCK_WORDS);
}

static int complain_before_packets(const char *name, const char *kind)
{
    return complain(name, "a %s from before packets were counted: it has no number of packets closed; " WHAT_TO_DO, kind);
}

static int complain_before_paths(const char *name, const char *kind)
{
    return complain(name, "a %s from before log entries had a path: they have %d numbers, here they have %u; " WHAT_TO_DO ", with a path for each write of "
                    "the GIF", kind, EARLIER_ENTRY_NUMBERS, TEJBORUN_ENTRY_NUMBERS);
}

static int complain_before_totals(const char *name, const char *kind)
{
    return complain(name, "a %s from before the totals: it has no counts of VIF words, NOPs and QWC; " WHAT_TO_DO, kind);
}

/* The marks of earlier layouts, and what is said of such a file. */
static const struct earlier {
    char mark[5];
    const char *kind;
    int (*complain)(const char *name, const char *kind);
} earlier[] = {
    {"TCAP", "capture", complain_before_vif0},  {"TCA2", "capture", complain_before_vif0},   {"TRES", "result", complain_before_vif0},
    {"TRE2", "result", complain_before_vif0},   {"TRE3", "result", complain_before_packets}, {"TCA3", "capture", complain_before_paths},
    {"TCP2", "capture", complain_before_paths}, {"TRE4", "result", complain_before_paths},   {"TRE5", "result", complain_before_totals},
};

/* The earlier layout of a file; null where it has none. */
static const struct earlier *earlier_layout(const struct bytes *file)
{
    for (size_t i = 0; i < sizeof earlier / sizeof earlier[0]; i++)
        if (file->count >= 4 && memcmp(file->at, earlier[i].mark, 4) == 0)
            return &earlier[i];
    return NULL;
}

const char *kind_by_mark(const struct bytes *file)
{
    const struct earlier *before = earlier_layout(file);
    if (has_mark(file, capture_heads))
        return "capture";
    if (has_mark(file, result_heads))
        return "result";
    if (has_mark(file, totals_heads))
        return "totals";
    if (file->count >= 2 && file->at[0] == 0x9E && file->at[1] == 0x51)
        return "sheet";
    return before != NULL ? before->kind : NULL;
}

int check_mark(const char *name, const struct bytes *file, const struct shape *heads)
{
    const char *kind = kind_by_mark(file);
    const struct earlier *before = earlier_layout(file);
    uint8_t mark[4];
    if (has_mark(file, heads))
        return STATUS_DONE;
    if (before != NULL && strcmp(before->kind, heads->name) == 0 && !is_text(file))
        return before->complain(name, before->kind);
    if (is_text(file))
        return complain(name, "no %s, but text; assemble it first: tejborun assemble %s %s -o FILE", heads->name, heads->name, name);
    put_word(mark, heads->fixed);
    return complain(name, "no %s: it does not begin with the mark %.4s%s%s", heads->name, (const char *)mark, kind != NULL ? ", but with that of a " : "",
                    kind != NULL ? kind : "");
}

int check_state(const char *name, const struct bytes *file)
{
    const char *kind = kind_by_mark(file);
    if (file->count == sizeof(struct tejborun_state))
        return STATUS_DONE;
    if (kind != NULL)
        return complain(name, "no state: it begins with the mark of a %s", kind);
    if (file->count == 4 * EARLIER_BLOCK_WORDS)
        return complain_before_vif0(name, "state");
    return complain(name, "no state: %zu bytes; a state has %zu", file->count, sizeof(struct tejborun_state));
}
