/* Why a run stopped: what the library says of the next step, in a sentence. */
#ifndef WHY_H
#define WHY_H

#include "board.h"

/* What the library said, and of which state. */
struct why {
    uint32_t kind;
    uint64_t numbers[TEJBORUN_WHY_NUMBERS];
    struct tejborun_state state;
};

/* Asks of the state as it stands, with the memories that a run would be lent. */
struct why ask_why(const uint8_t *main, size_t main_bytes, const struct board *board);

/* The sentence: "refused 22 at 0x00000A30: UNPACK with WL 0", "refused at the entry, 5: ..", "the chain has ended", "no complaint". */
enum { WHY_TEXT = 256 };
void why_words(const struct why *why, char text[WHY_TEXT]);

/* Says the sentence in a line of its own, after what it begins with; of 5 also the fields that are out of their range. */
void say_why(const char *before, const struct why *why);

#endif
