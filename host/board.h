/* What a board holds: state, the memories of both VIFs and log; and the result file, which keeps it (docs/FORMATS.md). */
#ifndef BOARD_H
#define BOARD_H

#include <stdbool.h>
#include <stddef.h>
#include <stdint.h>

#include "files.h"
#include "sum.h"
#include "tejborun.h"

enum vif { VIF1, VIF0, VIFS };

/* What is compared: the memories and the log, in the order of the library's numbers. */
enum part { PART_DATA, PART_CODE, PART_LOG, PART_DATA0, PART_CODE0, PARTS };

/* Sets of parts. */
#define PART_BIT(part) (1u << (part))
#define PARTS_ALL TEJBORUN_PARTS

_Static_assert(PART_BIT(PART_DATA) == TEJBORUN_PART_VIF1_DATA && PART_BIT(PART_CODE) == TEJBORUN_PART_VIF1_CODE, "VIF1's parts");
_Static_assert(PART_BIT(PART_DATA0) == TEJBORUN_PART_VIF0_DATA && PART_BIT(PART_CODE0) == TEJBORUN_PART_VIF0_CODE, "VIF0's parts");
_Static_assert(PART_BIT(PART_LOG) == TEJBORUN_PART_LOG && PART_BIT(PARTS) - 1 == TEJBORUN_PARTS && 2 * PARTS == TEJBORUN_COMPARED, "the parts");

/* A part: its elements are words of data memory, bytes of code memory or numbers of the log, its units quadwords, instructions or entries. */
enum memory { MEMORY_DATA, MEMORY_CODE, MEMORY_LOG };

struct part_shape {
    enum memory memory;
    enum vif vif; /* not of the log */
    size_t element_bytes, unit_elements;
    size_t usual;           /* elements of the memory; the most of the log */
    const char *name;       /* as in options and in text */
    const char *words;      /* "VIF1's data memory" */
    const char *elements;   /* "words" */
    const char *whose;      /* before a unit where it stands alone: "VIF0 "; nothing for VIF1's */
    const char *one, *many; /* units: "quadword", "quadwords" */
};

extern const struct part_shape part_shapes[PARTS];

/* The parts in the order in which files hold them and in which they are shown. */
extern const enum part part_order[PARTS];

/* The data and the code memory of a VIF. */
enum part data_of(enum vif vif);
enum part code_of(enum vif vif);

/* The parts that a run on a VIF works on: both, and the log. */
unsigned parts_of(enum vif vif);

/* A set of parts in words, "VIF1's data memory and log", and by their names with a mark between them, "data+log". The text stays. */
const char *parts_words(unsigned parts);
const char *parts_names(unsigned parts);

/* The parts that are data memories. */
#define PARTS_DATA (PART_BIT(PART_DATA) | PART_BIT(PART_DATA0))

/* The quadwords of data memories that are compared, the last included; all where none are given. */
struct range {
    bool is_given;
    uint64_t first, last;
};

/* How many elements of each part. */
struct counts {
    size_t of[PARTS];
};

/* Those of the memories, and so many numbers of the log. */
struct counts usual_counts(size_t log_numbers);

struct board {
    struct tejborun_state state;
    struct counts count;
    uint32_t *data[VIFS];
    uint8_t *code[VIFS];
    uint64_t *log;
};

struct result {
    unsigned parts; /* those that it has; the others are zero */
    uint32_t answer;
    uint64_t counts[TEJBORUN_COUNTS]; /* of the last run */
    struct board board;
    char sum[SUM_TEXT]; /* of the file that it was read from */
};

/* The head of a result file; the parts that it has follow. */
struct result_head {
    uint32_t mark, answer;
    uint32_t counts[TEJBORUN_COUNTS][2];
    struct tejborun_state state;
    uint32_t log_numbers;
    uint32_t parts;
};

enum { RESULT_HEAD_WORDS = TEJBORUN_WORDS_OF(struct result_head) };

/* A board of these lengths, all zero. The caller frees it. */
struct board new_board(struct counts count);
struct board copy_board(const struct board *board);
void free_board(struct board *board);

/* The state as the library has it. */
uint32_t *board_block(struct board *board);

/* The VIF whose memories a run on this state is lent. */
enum vif lent_vif(const struct tejborun_state *state);

/* Log entries used. */
uint64_t board_used(const struct board *board);
void set_board_used(struct board *board, uint64_t used);

/* How many units of a part the board has room for. */
size_t board_units(const struct board *board, enum part part);

/* A quadword, an instruction and an entry of the log, and any unit as it lies in memory. */
uint32_t *board_quadword(const struct board *board, enum part part, size_t number);
uint8_t *board_instruction(const struct board *board, enum part part, size_t number);
uint64_t *board_entry(const struct board *board, size_t number);
const void *board_unit(const struct board *board, enum part part, size_t number);

/* So many elements of a part as bytes of a file, and from them; how many bytes. */
size_t put_part(uint8_t *bytes, const struct board *board, enum part part, size_t elements);
size_t get_part(const uint8_t *bytes, struct board *board, enum part part, size_t elements);
size_t part_bytes(enum part part, size_t elements);

/* Compares parts by the library, of data memories all quadwords or those given: its answer, and its numbers. */
uint32_t compare_boards(const struct board *a, const struct board *b, unsigned parts, uint64_t numbers[TEJBORUN_COMPARED]);
uint32_t compare_boards_within(const struct board *a, const struct board *b, unsigned parts, const struct range *quadwords, uint64_t numbers[TEJBORUN_COMPARED]);

/* Whether a result file can keep a board of these lengths; complains if not. */
int board_fits(const char *name, const struct board *board);

/* The head of the file that keeps a result, and the result that has a head and a board. */
struct result_head result_head_of(const struct result *result);
struct result result_of_head(const struct result_head *head, struct board board);

/* The bytes of a result file; the caller frees them. */
struct bytes result_bytes(const struct result *result);

/* Reads a result from its file's bytes. A status; the caller frees the board. */
int parse_result(const char *name, const struct bytes *file, struct result *result);
int read_result(const char *name, struct result *result);
int write_result(const char *name, const struct result *result);

#endif
