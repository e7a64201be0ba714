/* Capture files (docs/FORMATS.md): those of the command, and a test case, whose memories are filled. */
#ifndef CAPTURE_H
#define CAPTURE_H

#include <stddef.h>
#include <stdint.h>

#include "board.h"

/* What a capture file begins with; the state block, the calls, main memory and the memories given follow. The words stand in a file in another order. */
struct capture_head {
    uint32_t mark, main_bytes;
    uint32_t given;          /* words of main memory */
    uint32_t length[PARTS];  /* elements of the memories and the log */
    uint32_t first[PARTS];   /* how many of them are given; the rest is zero. Of a test case none is */
    uint32_t fill[2], whole; /* of a test case */
    uint32_t calls;
};

enum { CALL_WORDS = 4, CALL_BYTES = 4 * CALL_WORDS };

/* The kinds of calls, a call's word 0. */
enum { CALL_START = 1, CALL_RUN = 2, CALL_SET = 3, CALL_WHY = 4 };

/* The most that a capture gives: a little more than a run takes, so that its refusals can be seen. */
enum {
    CAPTURE_MAIN_BYTES = TEJBORUN_MAIN_BYTES + 32,
    CAPTURE_CALLS = 65535,
};

/* The most elements of each part. */
struct counts most_counts(void);

/* Bytes of the longest capture file. */
size_t longest_capture(void);

struct call {
    uint32_t words[CALL_WORDS]; /* a start: 1, channel, TADR, TTE; a run: 2, the allowance, 0; a set: 3, unit, number, value; a why: 4, 0, 0, 0 */
};

struct capture {
    struct capture_head head;
    struct call *call;  /* head.calls of them */
    uint32_t *word;     /* head.given of them */
    struct board board; /* what the calls begin with */
};

/* Whether it is a test case: its memories are filled, none is given. */
bool is_test_case(const struct capture_head *head);

/* Bytes of a head in its file, and the head as such bytes. */
size_t head_bytes(const struct capture_head *head);
void put_head(uint8_t *bytes, const struct capture_head *head);

/* Tests the head's limits; complains of the first that is broken. */
int check_head(const char *name, const struct capture_head *head);

/* Reads a capture from its file's bytes. A status; the caller frees it. */
int parse_capture(const char *name, const struct bytes *file, struct capture *capture);
int read_capture(const char *name, struct capture *capture);
void free_capture(struct capture *capture);

/* Main memory; the caller frees it. */
uint8_t *capture_main(const struct capture *capture);

#endif
