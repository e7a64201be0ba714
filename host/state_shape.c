/* The state block's fields as text (docs/TEXT.md). */
#include "state_shape.h"

#include "shapes.h"

static const char *const waiting_names[TEJBORUN_WAITING] = {
    [TEJBORUN_WAITS_NONE] = "none", [TEJBORUN_WAITS_STMASK] = "STMASK", [TEJBORUN_WAITS_STROW] = "STROW",       [TEJBORUN_WAITS_STCOL] = "STCOL",
    [TEJBORUN_WAITS_MPG] = "MPG",   [TEJBORUN_WAITS_DIRECT] = "DIRECT", [TEJBORUN_WAITS_DIRECTHL] = "DIRECTHL", [TEJBORUN_WAITS_UNPACK] = "UNPACK",
};
static const char *const place_names[] = {"idle", "data"};

static const struct names waiting = {TEJBORUN_WAITING, waiting_names};
static const struct names places = {sizeof place_names / sizeof place_names[0], place_names};

#define NAMED(name, member, flags, names) MEMBER(struct tejborun_state, name, member, flags, names)
#define PLAIN(name, member, flags) NAMED(name, member, flags, NULL)

/* The fields of the chain, a unit and a path. Those of a unit or path have a prefix, as a state has several; VIF1's have none. Where they are zero, VIF0's are
 * not shown: most transfers are without it. */
#define CHAIN_FIELDS(chain)                                                                                                                       \
    PLAIN("channel", chain.channel, FIELD_SHOWN),                                                                                                 \
    PLAIN("tadr", chain.tadr, FIELD_SHOWN | FIELD_HEX),                                                                                           \
    PLAIN("tte", chain.tte, FIELD_SHOWN),                                                                                                         \
    PLAIN("ended", chain.ended, FIELD_SHOWN),                                                                                                     \
    PLAIN("used", chain.used, FIELD_SHOWN),                                                                                                       \
    PLAIN("depth", chain.depth, FIELD_LINE),                                                                                                      \
    PLAIN("stack0", chain.stack[0], FIELD_HEX),                                                                                                   \
    PLAIN("stack1", chain.stack[1], FIELD_HEX),                                                                                                   \
    PLAIN("tag-words", chain.tag_words, FIELD_LINE),                                                                                              \
    PLAIN("tag-word-at", chain.tag_word_at, FIELD_HEX),                                                                                           \
    PLAIN("payload-words", chain.payload_words, 0),                                                                                               \
    PLAIN("payload-at", chain.payload_at, FIELD_HEX)

#define UNIT_FIELDS(prefix, unit, shown)                                                                                                          \
    PLAIN(prefix "cl", unit.cl, FIELD_LINE | shown),                                                                                              \
    PLAIN(prefix "wl", unit.wl, shown),                                                                                                           \
    PLAIN(prefix "ofst", unit.ofst, shown),                                                                                                       \
    PLAIN(prefix "base", unit.base, shown),                                                                                                       \
    PLAIN(prefix "tops", unit.tops, shown),                                                                                                       \
    PLAIN(prefix "top", unit.top, shown),                                                                                                         \
    PLAIN(prefix "itops", unit.itops, shown),                                                                                                     \
    PLAIN(prefix "itop", unit.itop, shown),                                                                                                       \
    PLAIN(prefix "dbf", unit.dbf, shown),                                                                                                         \
    PLAIN(prefix "mode", unit.mode, shown),                                                                                                       \
    PLAIN(prefix "mskpath3", unit.mskpath3, shown),                                                                                               \
    PLAIN(prefix "mark", unit.mark, shown),                                                                                                       \
    PLAIN(prefix "mask", unit.mask, shown | FIELD_HEX),                                                                                           \
    PLAIN(prefix "row0", unit.row[0], FIELD_LINE | shown | FIELD_HEX),                                                                            \
    PLAIN(prefix "row1", unit.row[1], shown | FIELD_HEX),                                                                                         \
    PLAIN(prefix "row2", unit.row[2], shown | FIELD_HEX),                                                                                         \
    PLAIN(prefix "row3", unit.row[3], shown | FIELD_HEX),                                                                                         \
    PLAIN(prefix "col0", unit.col[0], FIELD_LINE | shown | FIELD_HEX),                                                                            \
    PLAIN(prefix "col1", unit.col[1], shown | FIELD_HEX),                                                                                         \
    PLAIN(prefix "col2", unit.col[2], shown | FIELD_HEX),                                                                                         \
    PLAIN(prefix "col3", unit.col[3], shown | FIELD_HEX),                                                                                         \
    NAMED(prefix "waiting", unit.waiting, FIELD_LINE | shown, &waiting),                                                                          \
    PLAIN(prefix "irq", unit.irq, 0),                                                                                                             \
    PLAIN(prefix "due", unit.due, 0),                                                                                                             \
    PLAIN(prefix "address", unit.address, 0),                                                                                                     \
    PLAIN(prefix "count", unit.count, 0),                                                                                                         \
    NAMED(prefix "format", unit.format, 0, &unpack_formats),                                                                                      \
    PLAIN(prefix "usn", unit.usn, 0),                                                                                                             \
    PLAIN(prefix "m", unit.m, 0),                                                                                                                 \
    PLAIN(prefix "held0", unit.held[0], FIELD_HEX),                                                                                               \
    PLAIN(prefix "held1", unit.held[1], FIELD_HEX),                                                                                               \
    PLAIN(prefix "held2", unit.held[2], FIELD_HEX)

#define PATH_FIELDS(prefix, path)                                                                                                                 \
    PLAIN(prefix "q", path.q, FIELD_LINE | FIELD_SHOWN | FIELD_HEX),                                                                              \
    NAMED(prefix "place", path.place, FIELD_SHOWN, &places),                                                                                      \
    NAMED(prefix "format", path.format, 0, &gif_formats),                                                                                         \
    PLAIN(prefix "nloop", path.nloop, 0),                                                                                                         \
    PLAIN(prefix "eop", path.eop, 0),                                                                                                             \
    PLAIN(prefix "nreg", path.nreg, 0),                                                                                                           \
    PLAIN(prefix "descriptors", path.descriptors, FIELD_HEX),                                                                                     \
    PLAIN(prefix "due", path.due, 0)

static const struct field state[] = {
    CHAIN_FIELDS(chain),
    UNIT_FIELDS("", vif1, FIELD_SHOWN),
    UNIT_FIELDS("vif0.", vif0, 0),
    PATH_FIELDS("path2.", path2),
    PATH_FIELDS("path3.", path3),
};

#define FIELDS (sizeof state / sizeof state[0])
_Static_assert(FIELDS <= MOST_FIELDS, "a state has more fields than struct given");

const struct shape state_blocks[] = {
    {"state", TEJBORUN_BLOCK_WORDS, 0, 0, FIELDS, state},
    {NULL, 0, 0, 0, 0, NULL},
};
