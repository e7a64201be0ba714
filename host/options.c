/* The words and options of a command. */
#include <stdio.h>
#include <stdlib.h>
#include <string.h>

#include "command.h"
#include "files.h"
#include "numbers.h"
#include "tejborun.h"

struct option_shape {
    const char *name, *value; /* value: what it is called in a list, null where the option has none */
    bool is_input;            /* the value is a file that is read */
};

static const struct option_shape shapes[OPTIONS] = {
    [OPTION_OUTPUT] = {"--output", "FILE", false},
    [OPTION_ALLOWANCE] = {"--allowance", "N", false},
    [OPTION_FROM] = {"--from", "RESULT", true},
    [OPTION_NO_START] = {"--no-start", NULL, false},
    [OPTION_MAIN] = {"--main", "FILE", true},
    [OPTION_DATA] = {"--data", "FILE", true},
    [OPTION_CODE] = {"--code", "FILE", true},
    [OPTION_DATA0] = {"--data0", "FILE", true},
    [OPTION_CODE0] = {"--code0", "FILE", true},
    [OPTION_LOG] = {"--log", "FILE", true},
    [OPTION_ALL] = {"--all", NULL, false},
    [OPTION_ONLY] = {"--only", "PARTS", false},
    [OPTION_QUADWORDS] = {"--quadwords", "A-B", false},
    [OPTION_UNFINISHED] = {"--unfinished", NULL, false},
    [OPTION_QUIET] = {"--quiet", NULL, false},
    [OPTION_JSON] = {"--json", NULL, false},
    [OPTION_UNIT] = {"--unit", "N", false},
    [OPTION_ROW] = {"--row", "I=VALUE", false},
    [OPTION_COL] = {"--col", "I=VALUE", false},
    [OPTION_RANGES] = {"--ranges", "FILE", false},
    [OPTION_WHY] = {"--why", NULL, false},
    [OPTION_NEW] = {"--new", NULL, false},
};

enum option part_option(enum part part)
{
    static const enum option options[PARTS] = {
        [PART_DATA] = OPTION_DATA, [PART_CODE] = OPTION_CODE, [PART_LOG] = OPTION_LOG, [PART_DATA0] = OPTION_DATA0, [PART_CODE0] = OPTION_CODE0,
    };
    return options[part];
}

/* Whether an option may be given several times, for another register each. */
static bool is_repeated(size_t option)
{
    return option == OPTION_ROW || option == OPTION_COL;
}

static bool takes(const struct command *command, size_t option)
{
    return (command->options & TAKES(option)) != 0;
}

static int bad_usage(const struct command *command, const char *what)
{
    return complain(command->name, "%s\nusage: tejborun %s", what, command->usage);
}

/* A word cut into an option and its value, which is null where it is the next word. */
struct cut {
    size_t option; /* OPTIONS where the command takes none of that name */
    const char *value;
};

static struct cut cut_option(const struct command *command, const char *word)
{
    if (word[1] == 'o' && word[0] == '-' && takes(command, OPTION_OUTPUT))
        return (struct cut){OPTION_OUTPUT, word[2] != 0 ? word + 2 : NULL};
    size_t length = strcspn(word, "=");
    for (size_t i = 0; i < OPTIONS; i++)
        if (takes(command, i) && strlen(shapes[i].name) == length && memcmp(shapes[i].name, word, length) == 0)
            return (struct cut){i, word[length] != 0 ? word + length + 1 : NULL};
    return (struct cut){OPTIONS, NULL};
}

/* Lists the options that the command takes. */
static int unknown_option(const struct command *command, const char *word)
{
    char list[512] = "";
    for (size_t i = 0; i < OPTIONS; i++)
        if (takes(command, i)) {
            strcat(list, list[0] != 0 ? ", " : "; known are ");
            strcat(list, i == OPTION_OUTPUT ? "-o, --output" : shapes[i].name);
        }
    return complain(command->name, "unknown option %s%s\nusage: tejborun %s", word, list, command->usage);
}

/* The part of a name; PARTS where there is none. */
static size_t part_named(const char *name, size_t length)
{
    for (size_t part = 0; part < PARTS; part++)
        if (strlen(part_shapes[part].name) == length && memcmp(part_shapes[part].name, name, length) == 0)
            return part;
    return PARTS;
}

/* Reads names of parts with commas between them. A status. */
static int take_parts(const struct command *command, const char *names, unsigned *parts)
{
    for (*parts = 0;;) {
        size_t length = strcspn(names, ","), part = part_named(names, length);
        if (part == PARTS)
            return complain(command->name, "'%.*s' is no part: give some of data, code, data0, code0 and log, with commas between them", (int)length, names);
        *parts |= PART_BIT(part);
        if (names[length] == 0)
            return STATUS_DONE;
        names += length + 1;
    }
}

/* Reads a range of quadwords: its first and its last, or one alone. A status. */
static int take_range(const struct command *command, const char *text, struct range *range)
{
    char first[32];
    size_t length = strcspn(text, "-");
    const char *last = text[length] != 0 ? text + length + 1 : first;
    snprintf(first, sizeof first, "%.*s", (int)length, text);
    *range = (struct range){.is_given = true};
    if (length >= sizeof first || !read_number(first, &range->first) || !read_number(last, &range->last) || range->first > range->last)
        return complain(command->name, "'%s' are no quadwords: give the first and the last, as 0-15 or 0x10-0x1F, or one alone", text);
    return STATUS_DONE;
}

/* Whether the quadwords lie in the data memories that are asked for: VIF1's where none are named. A status. */
static int check_range(const struct command *command, struct words_given *given)
{
    const struct range *range = &given->quadwords;
    if (!range->is_given)
        return STATUS_DONE;
    if (given->option[OPTION_ONLY] == NULL)
        given->only = PART_BIT(PART_DATA);
    if ((given->only & PARTS_DATA) == 0)
        return complain(command->name, "--quadwords are of data memory: --only %s names none", given->option[OPTION_ONLY]);
    for (size_t part = 0; part < PARTS; part++) {
        size_t quadwords = part_shapes[part].usual / part_shapes[part].unit_elements;
        if ((given->only & PARTS_DATA & PART_BIT(part)) != 0 && range->last >= quadwords)
            return complain(command->name, "--quadwords %s: %s has quadwords 0 to %zu", given->option[OPTION_QUADWORDS], part_shapes[part].words, quadwords - 1);
    }
    return STATUS_DONE;
}

/* Reads a unit: 0 or 1. A status. */
static int take_unit(const struct command *command, const char *text, uint32_t *unit)
{
    uint64_t number;
    if (!read_number(text, &number) || number > 1)
        return complain(command->name, "'%s' is no unit: give 0 for VIF0 or 1 for VIF1", text);
    *unit = (uint32_t)number;
    return STATUS_DONE;
}

/* Reads a register of ROW or COL and the value it is set to, "0=0x3F800000". A status. */
static int take_setting(const struct command *command, size_t option, const char *text, struct words_given *given)
{
    struct setting setting = {.number = (option == OPTION_ROW ? TEJBORUN_ROW : TEJBORUN_COL) + (uint32_t)(text[0] - '0')};
    if (text[0] < '0' || text[0] > '3' || text[1] != '=' || !read_word(text + 2, &setting.value))
        return complain(command->name, "%s %s: give its number, 0 to 3, and a word, as 0=0x3F800000 or 3=-1", shapes[option].name, text);
    for (size_t i = 0; i < given->settings; i++)
        if (given->setting[i].number == setting.number)
            return complain(command->name, "%s %c is given twice", shapes[option].name, text[0]);
    given->setting[given->settings++] = setting;
    return STATUS_DONE;
}

/* Reads the value of an option that is no file. A status. */
static int take_value(const struct command *command, size_t option, const char *value, struct words_given *given)
{
    switch (option) {
    case OPTION_ALLOWANCE:
        if (!read_number(value, &given->allowance))
            return complain(command->name, "'%s' is no allowance: give a number below 2^64, as 1000 or 0x3E8", value);
        return STATUS_DONE;
    case OPTION_ONLY:
        return take_parts(command, value, &given->only);
    case OPTION_QUADWORDS:
        return take_range(command, value, &given->quadwords);
    case OPTION_UNIT:
        return take_unit(command, value, &given->unit);
    case OPTION_ROW:
    case OPTION_COL:
        return take_setting(command, option, value, given);
    default:
        return STATUS_DONE;
    }
}

/* Takes the option at *i; steps over its value. A status. */
static int take_option(const struct command *command, int count, char **words, int *i, struct words_given *given)
{
    const char *word = words[*i];
    struct cut cut = cut_option(command, word);
    if (cut.option == OPTIONS)
        return unknown_option(command, word);
    const struct option_shape *shape = &shapes[cut.option];
    if (given->option[cut.option] != NULL && !is_repeated(cut.option))
        return complain(command->name, "%s is given twice", shape->name);
    if (shape->value == NULL && cut.value != NULL)
        return complain(command->name, "%s takes no value", shape->name);
    if (shape->value != NULL && cut.value == NULL) {
        if (++*i == count)
            return complain(command->name, "nothing after %s\nusage: tejborun %s", word, command->usage);
        cut.value = words[*i];
    }
    given->option[cut.option] = cut.value != NULL ? cut.value : "";
    return take_value(command, cut.option, cut.value, given);
}

/* Collects words and options. */
static int sort_words(const struct command *command, int count, char **words, struct words_given *given)
{
    bool options = true;
    for (int i = 0; i < count; i++) {
        if (options && strcmp(words[i], "--") == 0) {
            options = false;
        } else if (options && words[i][0] == '-' && words[i][1] != 0) {
            int status = take_option(command, count, words, &i, given);
            if (status != STATUS_DONE)
                return status;
        } else if (given->count == command->most) {
            return bad_usage(command, "too many words");
        } else {
            given->word[given->count++] = words[i];
        }
    }
    if (given->count < command->least)
        return bad_usage(command, "too few words");
    if (command->needs_output && given->option[OPTION_OUTPUT] == NULL)
        return bad_usage(command, "say with -o where to write");
    return STATUS_DONE;
}

/* Complains where two of the files are one: a file given twice, or an output that is an input. */
static int check_file(const struct command *command, const struct words_given *given, size_t first, const char *name)
{
    const char *output = given->option[OPTION_OUTPUT];
    if (output != NULL && !is_dash(output) && same_file(name, output))
        return complain(command->name, "%s is an input and the output", name);
    for (size_t i = first; i < given->count; i++)
        if (same_file(name, given->word[i]))
            return complain(command->name, "%s and %s are the same file", name, given->word[i]);
    return STATUS_DONE;
}

static int check_files(const struct command *command, const struct words_given *given)
{
    int status = STATUS_DONE;
    for (size_t i = command->files; i < given->count && status == STATUS_DONE; i++)
        status = check_file(command, given, i + 1, given->word[i]);
    for (size_t i = 0; i < OPTIONS && status == STATUS_DONE; i++)
        if (shapes[i].is_input && given->option[i] != NULL)
            status = check_file(command, given, command->files, given->option[i]);
    return status;
}

int take_words(const struct command *command, int count, char **words, struct words_given *given)
{
    *given = (struct words_given){.word = allocate((size_t)count, sizeof *given->word), .only = PARTS_ALL, .unit = 1};
    int status = sort_words(command, count, words, given);
    if (status == STATUS_DONE)
        status = check_range(command, given);
    if (status == STATUS_DONE)
        status = check_files(command, given);
    if (status != STATUS_DONE)
        free(given->word);
    return status;
}
