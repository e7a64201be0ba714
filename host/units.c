/* A unit of two boards, one beside the other. */
#include "units.h"

#include <inttypes.h>
#include <string.h>

#include "files.h"
#include "numbers.h"
#include "verdict.h"
#include "words.h"

enum { CELL = 38 }; /* characters of a word in its three forms */

/* A file's name in so many characters: its end where it is longer. */
static void print_name(const char *name, size_t width)
{
    size_t length = strlen(name);
    if (length > width)
        say("...%s", name + length - width + 3);
    else
        say("%-*s", (int)width, name);
}

/* A word in hexadecimal, as a signed number and as an IEEE number of 32 bits. */
static void print_word(uint32_t word)
{
    float value;
    memcpy(&value, &word, sizeof value);
    say("0x%08" PRIX32 " %11" PRId64 "  ", word, signed_word(word));
    if (value != value)
        say("%-14s", "nan");
    else
        say("%-14.9g", (double)value);
}

static void show_quadword(const struct pair *pair, enum part part, size_t number)
{
    static const char fields[] = "XYZW";
    say("  %s%s %zu (0x%zX)\n       ", part_shapes[part].whose, part_shapes[part].one, number, number);
    print_name(pair->name[0], CELL);
    say("   ");
    print_name(pair->name[1], CELL);
    say("   %s\n", pair->minus);
    for (size_t i = 0; i < 4; i++) {
        uint32_t x = board_quadword(pair->board[0], part, number)[i], y = board_quadword(pair->board[1], part, number)[i];
        int64_t counts = signed_word(y - x);
        say("    %c  ", fields[i]);
        print_word(x);
        say("   ");
        print_word(y);
        if (counts == 0)
            say("   same\n");
        else
            say("   %+" PRId64 " %s\n", counts, plural(counts == 1 || counts == -1 ? 1 : 2, "count", "counts"));
    }
}

/* The longer of the two names, in characters, as far as a column goes. */
static size_t name_width(const struct pair *pair)
{
    size_t first = strlen(pair->name[0]), second = strlen(pair->name[1]), longer = first > second ? first : second;
    return longer > CELL ? CELL : longer;
}

static void show_instruction(const struct pair *pair, enum part part, size_t number)
{
    say("  %s%s %zu (0x%zX)\n", part_shapes[part].whose, part_shapes[part].one, number, number);
    for (size_t i = 0; i < 2; i++) {
        say("    ");
        print_name(pair->name[i], name_width(pair));
        say("  0x%016" PRIX64 "\n", get_number(board_instruction(pair->board[i], part, number)));
    }
}

static void print_entry(const struct pair *pair, size_t which, size_t number)
{
    const uint64_t *entry = board_entry(pair->board[which], number);
    uint64_t log_register = entry[TEJBORUN_ENTRY_REGISTER], value = entry[TEJBORUN_ENTRY_VALUE];
    const char *name = register_name(log_register);
    say("    ");
    print_name(pair->name[which], name_width(pair));
    say("  path %" PRIu64 ", register 0x%02" PRIX64 " %s, value 0x%016" PRIX64 " (%" PRIu64 ")\n", entry[TEJBORUN_ENTRY_PATH], log_register,
        name != NULL ? name : "(no name)", value, value);
}

static void show_entry(const struct pair *pair, enum part part, size_t number)
{
    (void)part;
    say("  log entry %zu%s\n", number, is_path_alone(pair->board[0], pair->board[1], number) ? ", in the path alone" : "");
    print_entry(pair, 0, number);
    print_entry(pair, 1, number);
}

void show_unit(const struct pair *pair, enum part part, size_t number)
{
    static void (*const show[])(const struct pair *, enum part, size_t) = {
        [MEMORY_DATA] = show_quadword, [MEMORY_CODE] = show_instruction, [MEMORY_LOG] = show_entry,
    };
    show[part_shapes[part].memory](pair, part, number);
}

void show_lengths(const struct pair *pair)
{
    uint64_t used[2] = {board_used(pair->board[0]), board_used(pair->board[1])};
    size_t longer = used[1] > used[0];
    if (used[0] == used[1])
        return;
    say("log: %s has %" PRIu64 " %s, %s %" PRIu64 "; only %s has %" PRIu64 " to %" PRIu64 ", the first of them\n", pair->name[0], used[0],
        plural(used[0], "entry", "entries"), pair->name[1], used[1], pair->name[longer], used[!longer], used[longer] - 1);
    print_entry(pair, longer, used[!longer]);
}

static void json_quadword(const struct board *board, enum part part, size_t number)
{
    const uint32_t *at = board_quadword(board, part, number);
    say("[\"0x%08" PRIX32 "\", \"0x%08" PRIX32 "\", \"0x%08" PRIX32 "\", \"0x%08" PRIX32 "\"]", at[0], at[1], at[2], at[3]);
}

static void json_instruction(const struct board *board, enum part part, size_t number)
{
    say("\"0x%016" PRIX64 "\"", get_number(board_instruction(board, part, number)));
}

static void json_entry(const struct board *board, enum part part, size_t number)
{
    (void)part;
    const uint64_t *entry = board_entry(board, number);
    say("{\"path\": %" PRIu64 ", \"register\": %" PRIu64 ", \"value\": \"0x%016" PRIX64 "\"}", entry[TEJBORUN_ENTRY_PATH],
        entry[TEJBORUN_ENTRY_REGISTER], entry[TEJBORUN_ENTRY_VALUE]);
}

void print_unit_json(const struct board *board, enum part part, size_t number)
{
    static void (*const print[])(const struct board *, enum part, size_t) = {
        [MEMORY_DATA] = json_quadword, [MEMORY_CODE] = json_instruction, [MEMORY_LOG] = json_entry,
    };
    print[part_shapes[part].memory](board, part, number);
}
