/* Which values make a start, a set or a run refused with 5: the library is asked again with one field at a time as after a reset. */
#include "blame.h"

#include <stdbool.h>
#include <string.h>

#include "capture.h"
#include "files.h"
#include "shapes.h"
#include "tejborun.h"

enum { CHANNEL = 1, TADR = 2, TTE = 3, UNIT = 1, NUMBER = 2 };

/* A start and a set of their own that nothing is wrong with. */
static const uint32_t plain_start[CALL_WORDS] = {CALL_START, 1, 0, 0}, plain_set[CALL_WORDS] = {CALL_SET, 1, 0, 0};

/* Whether the library takes the state, or the start from reset. */
static bool takes_state(const uint32_t *words)
{
    uint32_t block[TEJBORUN_BLOCK_WORDS];
    memcpy(block, words, sizeof block);
    return tejborun_start(block, TEJBORUN_BLOCK_WORDS, plain_start[CHANNEL], plain_start[TADR], plain_start[TTE]) == TEJBORUN_DONE;
}

static bool takes_start(const uint32_t *call)
{
    uint32_t block[TEJBORUN_BLOCK_WORDS];
    tejborun_reset(block, TEJBORUN_BLOCK_WORDS);
    return tejborun_start(block, TEJBORUN_BLOCK_WORDS, call[CHANNEL], call[TADR], call[TTE]) == TEJBORUN_DONE;
}

/* The same of a set, which looks only whether the block is a state's; a number above 7 or a waiting code is no fault here. */
static bool takes_set(const uint32_t *block, const uint32_t *call)
{
    uint32_t copy[TEJBORUN_BLOCK_WORDS];
    memcpy(copy, block, sizeof copy);
    return tejborun_set(copy, TEJBORUN_BLOCK_WORDS, call[UNIT], plain_set[NUMBER], 0) != TEJBORUN_BAD_VALUE;
}

static bool set_takes_state(const uint32_t *words)
{
    return takes_set(words, plain_set);
}

static bool set_takes_call(const uint32_t *call)
{
    uint32_t block[TEJBORUN_BLOCK_WORDS];
    tejborun_reset(block, TEJBORUN_BLOCK_WORDS);
    return takes_set(block, call);
}

/* Says the fields with which alone, as in the plain words, the words are taken. */
static void blame(const struct shape *shape, const uint32_t *words, const uint32_t *plain, bool (*takes)(const uint32_t *))
{
    uint32_t tried[TEJBORUN_BLOCK_WORDS];
    const char *between = "  out of its range: ";
    bool any = false;
    for (size_t i = 0; i < shape->fields; i++) {
        const struct field *field = &shape->field[i];
        memcpy(tried, words, shape->words * sizeof *words);
        set_field(tried, field, field_value(plain, field));
        if (field_value(plain, field) == field_value(words, field) || !takes(tried))
            continue;
        char value[FIELD_TEXT];
        field_text(field, field_value(words, field), value);
        say("%s%s %s=%s", between, shape->name, field->name, value);
        between = ", or ";
        any = true;
    }
    if (any)
        say("\n");
    else
        say("  out of its range: more than one field of '%s'\n", shape->name);
}

/* The state's fields, where it is not taken. */
static void blame_block(const struct tejborun_state *state, bool (*takes)(const uint32_t *))
{
    struct tejborun_state reset;
    tejborun_reset((uint32_t *)&reset, TEJBORUN_BLOCK_WORDS);
    if (!takes((const uint32_t *)state))
        blame(&state_blocks[0], (const uint32_t *)state, (const uint32_t *)&reset, takes);
}

void blame_state(const struct tejborun_state *state)
{
    blame_block(state, takes_state);
}

void blame_start(const struct tejborun_state *state, const uint32_t *call)
{
    if (!takes_start(call))
        blame(shape_named(calls, "start"), call, plain_start, takes_start);
    blame_state(state);
}

void blame_set(const struct tejborun_state *state, const uint32_t *call)
{
    if (!set_takes_call(call))
        blame(shape_named(calls, "set"), call, plain_set, set_takes_call);
    blame_block(state, set_takes_state);
}
