/* Boards beside a result: what is printed of them. */
#ifndef COMPARE_H
#define COMPARE_H

#include "verdict.h"

/* A board's file, and what the library says of it. */
struct compared {
    const char *name;
    const struct result *board; /* null where it cannot be read */
    struct comparison comparison;
    int status;
};

/* The expectation, and how many boards came to which end. */
struct rack {
    const char *name;
    const struct result *result;
    bool all;  /* every difference is shown */
    int width; /* of the boards' names, in characters */
    size_t boards, ends[VERDICTS + 1];
    int status;    /* the worst so far */
    void *context; /* of the function that shows */
};

/* Shows a board. A status. */
typedef int show_compared(void *context, const struct rack *rack, const struct compared *compared);

struct words_given;

/* Compares every board of the words, from the second on, with the rack's result; shows each where a function is given. */
void compare_rack(const struct words_given *given, show_compared *show, struct rack *rack);

/* What was compared, in words: "VIF1's code memory and log", "quadwords 0 to 15 of VIF1's data memory". */
enum { COMPARED_TEXT = 192 };
void compared_words(const struct comparison *comparison, char words[COMPARED_TEXT]);

/* A verdict in words, with the parts where not all were compared: "equal in VIF1's data memory"; the same for a board that cannot be read. */
enum { VERDICT_TEXT = 256 };
void verdict_words(const struct rack *rack, const struct compared *compared, char words[VERDICT_TEXT]);

/* How many of the units that differ do so in the path alone, in words: " (2 in the path alone)"; nothing where none does. */
enum { PATHS_TEXT = 48 };
void path_alone_words(const struct found *found, char words[PATHS_TEXT]);

/* A result's answer and steps in words, and the packets where it has some: a sheet's meaning and a board's own dumps have none, since nothing was run. */
enum { RESULT_TEXT = 256 };
void result_words(const struct result *result, char words[RESULT_TEXT]);

/* Prints that as a line, after the name of the result's file. */
void show_result(const char *name, const struct result *result);

/* Each prints a board, and after the last one what is to be said of all. Statuses. */
show_compared show_board, show_row, show_json;
int show_summary(const struct rack *rack);
int end_json(const struct rack *rack);

#endif
