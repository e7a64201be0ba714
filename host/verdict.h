/* The verdict on a board: the library's. */
#ifndef VERDICT_H
#define VERDICT_H

#include "board.h"

enum verdict {
    VERDICT_EQUAL,          /* in all parts */
    VERDICT_EQUAL_IN_PARTS, /* in those that were compared */
    VERDICT_DIFFERENT,
    VERDICT_REFUSED, /* the library does not compare these two */
    VERDICT_NONE,
    VERDICTS /* how many */
};

/* Why there is no verdict. */
enum reason {
    REASON_UNFINISHED, /* the result is of a run that did not end with done */
    REASON_PARTS,      /* a part that is asked for is lacking, or they have none in common */
};

/* What was found in a part: from which unit on how many were compared, how many of them differ, and the first that does; of the log also how many differ in
 * the path alone. */
struct found {
    uint64_t from, compared, count, first, path_alone;
};

struct comparison {
    enum verdict verdict;
    uint32_t refusal;   /* where refused */
    enum reason reason; /* where there is none */
    unsigned parts;     /* that were compared */
    struct range quadwords;
    struct found found[PARTS];
};

/* What is asked for: parts, all those that both have where none is named, the quadwords of data memories, and whether an unfinished result is compared too. */
struct wanted {
    unsigned only;
    bool is_named, unfinished;
    struct range quadwords;
};

/* The exit status of a verdict. */
int status_of_verdict(enum verdict verdict);

/* Whether the verdict is on what was compared: equal, in parts, or different. */
bool is_compared(enum verdict verdict);

/* Whether whole results were compared: all parts, and of data memories all quadwords. */
bool is_whole(const struct comparison *comparison);

/* Whether a part was compared. */
bool has_part(const struct comparison *comparison, enum part part);

/* Asks the library for its verdict. The one place where a verdict is asked for. */
struct comparison compare_results(const struct result *result, const struct result *board, const struct wanted *wanted);

/* Whether an entry of two logs differs in the path alone. */
bool is_path_alone(const struct board *a, const struct board *b, size_t number);

/* The numbers of the units of a part that differ, as many as the library has counted; null where the boards have others. The caller frees them. */
size_t *differing_units(const struct board *a, const struct board *b, enum part part, const struct found *found);

#endif
