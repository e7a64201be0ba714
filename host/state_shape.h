/* The words of a state block in their order; docs/FORMATS.md says what each one holds. Every place and size in a block follows from here. Every member is a
 * word, so that a struct of them is the block; a number of 64 bits is two words, the low one first. */
#ifndef TEJBORUN_STATE_SHAPE_H
#define TEJBORUN_STATE_SHAPE_H

#include <stdint.h>

/* Where the chain stands. */
struct tejborun_chain {
    uint32_t channel, tadr, tte, ended;
    uint32_t depth, stack[2];
    uint32_t tag_words, tag_word_at;
    uint32_t payload_words, payload_at;
    uint32_t used[2]; /* entries of the log */
};

/* A unit block: the registers of a VIF and the code that waits. */
struct tejborun_unit {
    uint32_t cl, wl, ofst, base, tops, top, itops, itop;
    uint32_t dbf, mode, mskpath3, mark, mask;
    uint32_t row[4], col[4];
    uint32_t waiting, irq, due, address, count, format, usn, m;
    uint32_t held[3];
};

/* The codes that wait for payload, by their numbers in a unit block. */
enum tejborun_waiting {
    TEJBORUN_WAITS_NONE,
    TEJBORUN_WAITS_STMASK,
    TEJBORUN_WAITS_STROW,
    TEJBORUN_WAITS_STCOL,
    TEJBORUN_WAITS_MPG,
    TEJBORUN_WAITS_DIRECT,
    TEJBORUN_WAITS_DIRECTHL,
    TEJBORUN_WAITS_UNPACK,
    TEJBORUN_WAITING /* how many */
};

/* A path block: a GIF path and the tag that it holds. */
struct tejborun_path {
    uint32_t q, place, format, nloop, eop, nreg, descriptors[2], due;
};

/* A state block: its parts one after another. */
struct tejborun_state {
    struct tejborun_chain chain;
    struct tejborun_unit vif1;
    struct tejborun_path path2, path3;
    struct tejborun_unit vif0;
};

/* The words of a struct of words. */
#define TEJBORUN_WORDS_OF(type) ((unsigned)(sizeof(type) / sizeof(uint32_t)))
#define TEJBORUN_UNIT_WORDS TEJBORUN_WORDS_OF(struct tejborun_unit)
#define TEJBORUN_PATH_WORDS TEJBORUN_WORDS_OF(struct tejborun_path)
#define TEJBORUN_BLOCK_WORDS TEJBORUN_WORDS_OF(struct tejborun_state)

#endif
