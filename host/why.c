/* Why a run stopped. */
#include "why.h"

#include <inttypes.h>
#include <stdarg.h>
#include <stdio.h>

#include "blame.h"
#include "files.h"
#include "words.h"

struct why ask_why(const uint8_t *main, size_t main_bytes, const struct board *board)
{
    struct why why = {.state = board->state};
    enum vif vif = lent_vif(&board->state);
    why.kind = tejborun_why(main, main_bytes, board->data[vif], board->count.of[data_of(vif)], board->code[vif], board->count.of[code_of(vif)], board->log,
                            board->count.of[PART_LOG], (const uint32_t *)&board->state, TEJBORUN_BLOCK_WORDS, why.numbers, TEJBORUN_WHY_NUMBERS);
    return why;
}

static void put(char text[WHY_TEXT], const char *format, ...) __attribute__((format(printf, 2, 3)));

static void put(char text[WHY_TEXT], const char *format, ...)
{
    va_list values;
    va_start(values, format);
    vsnprintf(text, WHY_TEXT, format, values);
    va_end(values);
}

/* What is wrong with a tag, by its refusal and its numbers: tejborun_message's words with the numbers in them. False where it is no refusal of a tag. */
static bool tag_words(uint64_t refusal, uint64_t first, uint64_t second, char text[WHY_TEXT])
{
    switch (refusal) {
    case TEJBORUN_BAD_TADR:
        put(text, "TADR 0x%" PRIX64 " lies outside main memory", first);
        return true;
    case TEJBORUN_BAD_ADDR:
        put(text, "ADDR 0x%" PRIX64 " of the tag is no multiple of 16", first);
        return true;
    case TEJBORUN_BAD_SPR:
        put(text, "SPR %" PRIu64 " in a tag that uses ADDR", first);
        return true;
    case TEJBORUN_BAD_CALL:
        put(text, "call with %" PRIu64 " addresses on the stack", first);
        return true;
    case TEJBORUN_BAD_PAYLOAD:
        put(text, "a tag with QWC %" PRIu64 " where %" PRIu64 " %s", first, second, plural(second, "quadword fits", "quadwords fit"));
        return true;
    default:
        return false;
    }
}

/* The same of a VIF word, and of a GIF quadword. */
static bool vif_words(uint64_t refusal, uint64_t first, enum vif vif, char text[WHY_TEXT])
{
    switch (refusal) {
    case TEJBORUN_BAD_CMD:
        put(text, "a VIF code with CMD 0x%02" PRIX64 ", which %s does not have", first, vif == VIF0 ? "VIF0" : "VIF1");
        return true;
    case TEJBORUN_BAD_FORMAT:
        put(text, "UNPACK with vl 3 and vn %" PRIu64, first);
        return true;
    case TEJBORUN_BAD_CYCLE:
        put(text, "UNPACK with WL %" PRIu64, first);
        return true;
    case TEJBORUN_BAD_MODE:
        put(text, "STMOD with mode %" PRIu64, first);
        return true;
    case TEJBORUN_BAD_DIRECT:
        put(text, "DIRECT payload is due and the next word is word %" PRIu64 " of its quadword, not word 0", first);
        return true;
    case TEJBORUN_BAD_MPG:
        put(text, "the first payload word of an MPG is due and the next word is word %" PRIu64 " of its quadword", first);
        return true;
    case TEJBORUN_BAD_TOPS:
        put(text, "UNPACK with IMM bit 15 (TOPS) %" PRIu64 " on VIF0", first);
        return true;
    default:
        return false;
    }
}

static bool gif_words(uint64_t refusal, uint64_t first, uint64_t second, char text[WHY_TEXT])
{
    switch (refusal) {
    case TEJBORUN_BAD_DESCRIPTOR:
        put(text, "GIF descriptor %" PRIu64 " (%s) is met at its data", first, descriptor_name((unsigned)first));
        return true;
    case TEJBORUN_LOG_FULL:
        put(text, "the log lacks room: %" PRIu64 " %s free, %" PRIu64 " needed", first, plural(first, "entry", "entries"), second);
        return true;
    default:
        return false;
    }
}

static void step_words(const struct why *why, char text[WHY_TEXT])
{
    const uint64_t refusal = why->numbers[0], first = why->numbers[2], second = why->numbers[3];
    if (!tag_words(refusal, first, second, text) && !vif_words(refusal, first, lent_vif(&why->state), text) && !gif_words(refusal, first, second, text))
        put(text, "%s", tejborun_message((uint32_t)refusal));
}

void why_words(const struct why *why, char text[WHY_TEXT])
{
    char step[WHY_TEXT];
    switch (why->kind) {
    case TEJBORUN_WHY_NOTHING:
        put(text, "no complaint");
        break;
    case TEJBORUN_WHY_ENDED:
        put(text, "the chain has ended");
        break;
    case TEJBORUN_WHY_ENTRY:
        put(text, "refused at the entry, %" PRIu64 ": %s", why->numbers[0], tejborun_message((uint32_t)why->numbers[0]));
        break;
    case TEJBORUN_WHY_STEP:
        step_words(why, step);
        put(text, "refused %" PRIu64 " at 0x%08" PRIX64 ": %.180s", why->numbers[0], why->numbers[1], step);
        break;
    default:
        put(text, "%s", tejborun_message(why->kind));
    }
}

void say_why(const char *before, const struct why *why)
{
    char text[WHY_TEXT];
    why_words(why, text);
    say("%s%s\n", before, text);
    if (why->kind == TEJBORUN_WHY_ENTRY && why->numbers[0] == TEJBORUN_BAD_VALUE)
        blame_state(&why->state);
}
