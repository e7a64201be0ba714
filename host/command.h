/* The commands and their words. */
#ifndef COMMAND_H
#define COMMAND_H

#include <stdbool.h>
#include <stddef.h>
#include <stdint.h>

#include "board.h"

enum option {
    OPTION_OUTPUT,
    OPTION_ALLOWANCE,
    OPTION_FROM,
    OPTION_NO_START,
    OPTION_MAIN, /* from here to OPTION_LOG: raw memories */
    OPTION_DATA,
    OPTION_CODE,
    OPTION_DATA0,
    OPTION_CODE0,
    OPTION_LOG,
    OPTION_ALL,
    OPTION_ONLY,
    OPTION_QUADWORDS,
    OPTION_UNFINISHED,
    OPTION_QUIET,
    OPTION_JSON,
    OPTION_UNIT,
    OPTION_ROW,
    OPTION_COL,
    OPTION_RANGES,
    OPTION_WHY,
    OPTION_NEW,
    OPTIONS /* how many */
};

/* A register that is to be set, by the library's number, and its value. */
struct setting {
    uint32_t number, value;
};

enum { SETTINGS = 8 }; /* the registers that can be set */

/* What was given after the command's name. */
struct words_given {
    size_t count;
    const char **word;           /* without the options */
    const char *option[OPTIONS]; /* their values, empty for those without; null where not given */
    uint64_t allowance;
    unsigned only; /* parts; all where not given, VIF1's data memory where only quadwords are */
    struct range quadwords;
    uint32_t unit; /* 0 or 1, 1 where not given */
    size_t settings;
    struct setting setting[SETTINGS]; /* in the order given */
};

/* Each does its command and hands back the exit status. */
typedef int command_call(const struct words_given *given);
command_call command_build, command_steps, command_salvage, command_meaning, command_run, command_why, command_play, command_check, command_set, command_compare, command_report, command_totals, command_import, command_export, command_dump, command_assemble;

struct command {
    const char *name;
    size_t least, most; /* words */
    size_t files;       /* the first word that is a file */
    unsigned options;   /* a bit each */
    bool needs_output;
    command_call *call;
    const char *usage, *help;
};

#define TAKES(option) (1u << (option))

/* The option of a part's raw file. */
enum option part_option(enum part part);

/* Takes the words after the command's name. A status; the caller frees given->word. */
int take_words(const struct command *command, int count, char **words, struct words_given *given);

#endif
