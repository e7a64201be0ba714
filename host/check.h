/* Chains beside a sheet: what the library says of each, and what is printed of them. */
#ifndef CHECK_H
#define CHECK_H

#include "board.h"
#include "why.h"

/* How a chain ends: stopped is without a verdict, by a used allowance. */
enum chain_end { CHAIN_ACCEPTED, CHAIN_DIFFERENT, CHAIN_STOPPED, CHAIN_REFUSED, CHAIN_NOT_READ, CHAIN_ENDS };

/* A chain's file, and what the library says of it. */
struct checked {
    const char *name;
    enum chain_end end;
    size_t bytes;  /* of the file */
    uint32_t kind; /* the library's answer; what follows are its numbers */
    uint64_t number, offset, counts[TEJBORUN_COUNTS];
    struct board left; /* as the run left it */
    struct why why;    /* why the run was refused, where it was */
    int status;
};

/* A sheet, what it means, and all chains so far. */
struct checks {
    const char *name;
    struct bytes sheet;
    struct board start; /* what each run begins with */
    uint64_t allowance;
    bool is_valid;        /* the sheet; where it is not, there is nothing of what follows */
    struct board meaning; /* what it means of what runs begin with */
    size_t bytes;         /* of the chain that is built of it, and its steps */
    uint64_t steps;
    size_t chains, ends[CHAIN_ENDS];
    int width;  /* of the chains' names, in characters */
    int status; /* the worst */
};

/* Whether the run was made, and whether to its end. */
bool was_run(const struct checked *chain);
bool was_done(const struct checked *chain);

/* Whether a step of the run was refused. */
bool run_refused(const struct checked *chain);

/* Each prints a chain, and after the last one what is to be said of all. */
typedef void show_checked(const struct checks *checks, const struct checked *chain);
typedef void show_checks(const struct checks *checks);
show_checked show_chain, show_chain_row, show_chain_json;
show_checks show_chains, end_chains_json;

#endif
