/* Tejborun: what a DMA transfer leaves in the memories behind VIF0, VIF1 and the GIF.
 *
 * Every function takes any input. A buffer is a pointer and its number of elements; the pointer must be valid for that many elements (it may be null
 * where the number is 0), aligned for its type, and no buffer that is written may overlap another one of the same call. What const points to is only
 * read. Nothing is kept between calls, nothing is allocated, and no function prints or stops the program.
 *
 * An answer is a number of enum tejborun_answer; tejborun_build may answer a length, and tejborun_compare, tejborun_why and tejborun_check
 * have answers of their own. A call that is refused at once changes no memory and no log, a run that is refused after some steps leaves what those steps
 * left; the result is written in both cases, but not with TEJBORUN_SHORT, which is tested before all else. Numbers of a result beyond those stated are never
 * written.
 *
 * state_shape.h has the words of a state block by name, docs/FORMATS.md says what they hold; a struct tejborun_state is lent as (uint32_t *)&state. A start, a
 * build and run, and a run that completes a step write the state that they leave, in which the words that mean nothing are zero. What is refused before it begins,
 * and a run that completes no step, leaves the block word for word; a set changes one word of it or none. On a block that is no state's each is refused with 5,
 * or with a number that is tested before 5. A reset writes any block, a why reads it alone.
 */
#ifndef TEJBORUN_H
#define TEJBORUN_H

#include <stddef.h>
#include <stdint.h>

#include "state_shape.h"

#ifdef __cplusplus
extern "C" {
#endif

#define TEJBORUN_VERSION "0.4.0"

/* The memories of each VIF, and the lengths in which they are lent. */
#define TEJBORUN_VIF1_QUADWORDS 1024u    /* of data memory */
#define TEJBORUN_VIF1_INSTRUCTIONS 2048u /* of code memory */
#define TEJBORUN_VIF1_DATA_WORDS (4u * TEJBORUN_VIF1_QUADWORDS)
#define TEJBORUN_VIF1_CODE_BYTES (8u * TEJBORUN_VIF1_INSTRUCTIONS)
#define TEJBORUN_VIF0_QUADWORDS 256u
#define TEJBORUN_VIF0_INSTRUCTIONS 512u
#define TEJBORUN_VIF0_DATA_WORDS (4u * TEJBORUN_VIF0_QUADWORDS)
#define TEJBORUN_VIF0_CODE_BYTES (8u * TEJBORUN_VIF0_INSTRUCTIONS)

/* An entry of the log by its numbers, and the longest log. The path is 2 or 3 for a write of the GIF, 0 for a program start (registers 256 to 258). */
#define TEJBORUN_ENTRY_PATH 0u
#define TEJBORUN_ENTRY_REGISTER 1u
#define TEJBORUN_ENTRY_VALUE 2u
#define TEJBORUN_ENTRY_NUMBERS 3u
#define TEJBORUN_LOG_ENTRIES 65536u
#define TEJBORUN_LOG_NUMBERS (TEJBORUN_LOG_ENTRIES * TEJBORUN_ENTRY_NUMBERS)

#define TEJBORUN_MAIN_BYTES 1048576u  /* most bytes of main memory */
#define TEJBORUN_SHEET_BYTES 131072u  /* most bytes of a sheet */
#define TEJBORUN_CHAIN_BYTES 1048576u /* most bytes of a sheet's chain, groups expanded and the end tag included */

/* The counts of a run, over its completed steps. VIF words are steps of one word, of either unit, tag words and payload included; a quadword that DIRECT
 * or DIRECTHL takes is none. NOPs are words that are decoded as that code, whatever their other bits, and no words of payload. QWC is summed by the tag's
 * ID, 0 to 7, each tag's whole in the step that reads it. Totals are the same sums over any runs, without the steps. */
#define TEJBORUN_COUNT_STEPS 0u
#define TEJBORUN_COUNT_PACKETS 1u
#define TEJBORUN_COUNT_WORDS 2u
#define TEJBORUN_COUNT_NOPS 3u
#define TEJBORUN_COUNT_QWC 4u /* of ID 0; those of 1 to 7 follow */
#define TEJBORUN_COUNTS 12u
#define TEJBORUN_TOTAL_PACKETS 0u
#define TEJBORUN_TOTAL_WORDS 1u
#define TEJBORUN_TOTAL_NOPS 2u
#define TEJBORUN_TOTAL_QWC 3u
#define TEJBORUN_TOTALS 11u
#define TEJBORUN_TAG_IDS 8u

/* The answers: the scope document's numbers, and TEJBORUN_SHORT. */
enum tejborun_answer {
    TEJBORUN_DONE = 0,

    /* entry */
    TEJBORUN_BAD_MAIN = 1,  /* length of main memory: 0, no multiple of 16, or above TEJBORUN_MAIN_BYTES */
    TEJBORUN_BAD_DATA = 2,  /* length of data memory: not TEJBORUN_VIF1_DATA_WORDS, of VIF0 not TEJBORUN_VIF0_DATA_WORDS */
    TEJBORUN_BAD_CODE = 3,  /* length of code memory: not TEJBORUN_VIF1_CODE_BYTES, of VIF0 not TEJBORUN_VIF0_CODE_BYTES */
    TEJBORUN_BAD_LOG = 4,   /* length of the log: not a multiple of 3, above TEJBORUN_LOG_NUMBERS, or below three times the entries used */
    TEJBORUN_BAD_VALUE = 5, /* a state or start value outside the range of its field */

    /* tag step */
    TEJBORUN_BAD_TADR = 10,    /* TADR outside main memory */
    TEJBORUN_BAD_ADDR = 11,    /* a used ADDR that is no multiple of 16 */
    TEJBORUN_BAD_SPR = 12,     /* SPR set with a used ADDR */
    TEJBORUN_BAD_CALL = 13,    /* call with two on the stack */
    TEJBORUN_BAD_PAYLOAD = 14, /* payload outside main memory; at entry, pending words */

    /* VIF step */
    TEJBORUN_BAD_CMD = 20,    /* CMD not listed, or on VIF0 one of 02, 03, 06, 11, 13, 15, 50, 51 (hexadecimal) */
    TEJBORUN_BAD_FORMAT = 21, /* UNPACK with vl 3 and vn below 3 */
    TEJBORUN_BAD_CYCLE = 22,  /* UNPACK with WL 0 */
    TEJBORUN_BAD_MODE = 23,   /* STMOD 3 */
    TEJBORUN_BAD_DIRECT = 24, /* DIRECT payload due and the next word is not word 0 */
    TEJBORUN_BAD_MPG = 25,    /* the first payload word of an MPG is due and the next word is word 1 or 3 of its quadword */
    TEJBORUN_BAD_TOPS = 26,   /* UNPACK with IMM bit 15 on VIF0, which has no TOPS */

    /* GIF step; 31 also in a VIF step and for a sheet's meaning */
    TEJBORUN_BAD_DESCRIPTOR = 30, /* descriptor B met at its data */
    TEJBORUN_LOG_FULL = 31,       /* the log lacks room */

    /* sheet */
    TEJBORUN_BAD_MARK = 40,
    TEJBORUN_BAD_KIND = 41,       /* none of 1 to 4, nor 0 as the first record, nor 5 (a group) in a sheet of the second edition */
    TEJBORUN_BAD_COUNT = 42,      /* of a group: 0 repetitions; of kind 0: not 2 */
    TEJBORUN_BAD_ADDRESS = 43,    /* of a group: no record inside; of kind 0: not 0 */
    TEJBORUN_CUT_RECORD = 44,     /* header or body cut, or records of a group missing: the offset is then the sheet's length */
    TEJBORUN_BAD_PAD = 45,        /* non-zero pad */
    TEJBORUN_LONG_SHEET = 46,     /* above TEJBORUN_SHEET_BYTES */
    TEJBORUN_LONG_CHAIN = 47,     /* longer than the output */
    TEJBORUN_LONG_EXPANSION = 49, /* the chain, groups expanded, above TEJBORUN_CHAIN_BYTES */
    TEJBORUN_DEEP_GROUP = 52,     /* a group in eight others */

    /* set */
    TEJBORUN_BAD_NUMBER = 50, /* the number of a register above 7 */
    TEJBORUN_UNIT_WAITS = 51, /* a code of the unit waits for payload */

    /* totals */
    TEJBORUN_TOTAL_FULL = 54, /* a sum would pass 2^64 - 1 */

    /* salvage */
    TEJBORUN_LONG_KEPT = 55,   /* the records kept are longer than the output */
    TEJBORUN_MANY_RANGES = 56, /* more ranges were dropped than their list holds */

    TEJBORUN_SHORT = 60, /* a state block that is not TEJBORUN_BLOCK_WORDS, totals that are not TEJBORUN_TOTALS, or counts or a result with fewer numbers than
                          * stated: nothing is changed */

    TEJBORUN_ALLOWANCE = 90, /* the allowance is used */
    TEJBORUN_INTERRUPT = 91  /* stopped at an interrupt mark */
};

/* An answer in words, never null; the text is the program's and stays. It is C (message.c) and may be called from any thread, as all others. */
const char *tejborun_message(uint32_t answer);

/* The entries of the log that a state says are used. */
static inline uint64_t tejborun_used(const struct tejborun_state *state)
{
    return state->chain.used[0] | (uint64_t)state->chain.used[1] << 32;
}

/* A sheet whose first record is of kind 0, count 2 and address 0 is of the second edition and may hold groups: kind 5, the count its repetitions, the address
 * the number of records that follow inside, any of which may be a group, eight deep. It is built, counted and fed as its expansion: the records inside, repeated
 * in order. A sheet's refusal is 46; or that of its first record that is not valid, 44 (header cut), 40, 41, 42, 43, 52, 44 (the rest), 45 in this order; or,
 * where all are, 49. */

/* Builds the chain of a sheet in the output. Answers the chain's length in bytes, a multiple of 16, or the refusal, which is not: the sheet's, 40 to 46, 49
 * or 52, or 47, tested last. A refusal leaves the output as it is, success what lies beyond the chain. An output of TEJBORUN_CHAIN_BYTES holds every chain. */
size_t tejborun_build(const uint8_t *sheet, size_t sheet_bytes, uint8_t *output, size_t output_bytes);

/* The steps of a sheet's chain. Answers 0, or the sheet's refusal (40 to 46, 49, 52).
 * result[0]: the steps, 0 where refused; result[1]: the offset of the refused record, 0 for 46, 49 and where there is none. */
uint32_t tejborun_steps(const uint8_t *sheet, size_t sheet_bytes, uint64_t *result, size_t result_numbers);

/* What can be kept of a damaged sheet. Read from offset 0: a whole valid record is kept and passed over, otherwise one byte is dropped. The records kept are
 * written to the output one after another, and the ranges dropped to their list, two numbers each, offset and length, joined where they touch, in order.
 * Answers 0; or, in this order, TEJBORUN_SHORT, 46 for a sheet above TEJBORUN_SHEET_BYTES, 55 exactly if the bytes kept exceed the output, 56 exactly if the
 * ranges exceed their list, which holds half its length in numbers, rounded down. A refusal leaves output and list as they are, success what lies beyond what
 * is written. The output is a sheet that is not refused with 40 to 46; a valid sheet of the first edition comes back as it is, with no range. Kinds 0
 * and 5, of the second edition, are no valid records here: of a group the header is dropped, and the records inside are kept once.
 * result[0]: the bytes written to the output; result[1]: the ranges written to the list; both 0 where refused. */
uint32_t tejborun_salvage(const uint8_t *sheet, size_t sheet_bytes, uint8_t *output, size_t output_bytes, uint64_t *ranges, size_t ranges_numbers,
                          uint64_t *result, size_t result_numbers);

/* The plain meaning of a sheet: its records fed to VIF1's memories and to the log after its first `used` entries.
 * Entries of GS records have path 2, those of starts path 0. Answers 0, or 2, 3, 4 for the lengths, the sheet's refusal, or 31 where the log lacks room; a
 * refusal changes no memory.
 * result[0]: the entries used afterwards, as given where refused; result[1]: the offset of the refused record, 0 where there is none. */
uint32_t tejborun_meaning(const uint8_t *sheet, size_t sheet_bytes, uint32_t *data, size_t data_words, uint8_t *code, size_t code_bytes, uint64_t *log,
                          size_t log_numbers, uint64_t used, uint64_t *result, size_t result_numbers);

/* Writes the reset state to a state block. Answers 0 or TEJBORUN_SHORT. */
uint32_t tejborun_reset(uint32_t *block, size_t block_words);

/* Starts a chain: channel 0 (VIF0), 1 (VIF1) or 2 (the GIF), the address of the first tag, tag transfer 0 or 1. Answers 0, 5 or TEJBORUN_SHORT. A tag
 * transfer above 1 is refused with 5. */
uint32_t tejborun_start(uint32_t *block, size_t block_words, uint32_t channel, uint32_t tadr, uint32_t tte);

/* The registers that are set, by their numbers: ROW 0 to 3, then COL 0 to 3. */
#define TEJBORUN_ROW 0u
#define TEJBORUN_COL 4u

/* Sets a register of unit 0 (VIF0) or 1 (VIF1) to a value. Answers 0; or, in this order, TEJBORUN_SHORT, 50 for a number above 7, 5 for a unit above 1 or a
 * block that is no state's, 51 where a code of that unit waits for payload. With 0 the register's word of the block is the value and every other word stays,
 * with another answer every word stays. Whether the state's values are in range is left to the start or run that follows. */
uint32_t tejborun_set(uint32_t *block, size_t block_words, uint32_t unit, uint32_t number, uint32_t value);

/* Runs the chain for at most so many steps. It is lent the memories of the state's channel: VIF0's where the block's channel is 0, VIF1's where it is anything
 * else. Answers 0, 90, 91 or the refusal. result[0] to result[11]: the counts, TEJBORUN_COUNTS of them; a packet is closed by a GIF quadword: the last data
 * quadword of a tag with EOP, or a tag with EOP and NLOOP 0. */
uint32_t tejborun_run(const uint8_t *main, size_t main_bytes, uint32_t *data, size_t data_words, uint8_t *code, size_t code_bytes, uint64_t *log,
                      size_t log_numbers, uint32_t *block, size_t block_words, uint64_t allowance, uint64_t *result, size_t result_numbers);

/* What the next step of a run on this state would be refused with; lent as to a run, and nothing is changed. No allowance has part in it: after 90 or 91 there
 * is no complaint where the next step is not refused. Answers TEJBORUN_SHORT, or
 *   TEJBORUN_WHY_NOTHING  no complaint,
 *   TEJBORUN_WHY_ENDED    the chain has ended, with nothing pending,
 *   TEJBORUN_WHY_ENTRY    a run is refused at its entry (1 to 5, 14), named first, also where the chain has ended,
 *   TEJBORUN_WHY_STEP     the next step is refused (10 to 14, 20 to 26, 30, 31).
 * result[0]: the refusal; result[1]: the address that the step reads, of the tag, the VIF word or the GIF quadword; result[2], result[3]: the numbers below;
 * each 0 where there is none.
 *   10: TADR. 11: ADDR, 31 bits. 12: SPR. 13: the addresses on the stack. 14: QWC, and the most quadwords that fit from where the payload begins.
 *   20: CMD, 7 bits. 21: vn. 22: WL. 23: IMM bits 0 and 1. 24, 25: the word's number in its quadword, 0 to 3. 26: IMM bit 15.
 *   30: the descriptor that is held, 11. 31: the entries free in the log, and those that the whole step needs, 1 or 2. */
#define TEJBORUN_WHY_NOTHING 0u
#define TEJBORUN_WHY_ENDED 1u
#define TEJBORUN_WHY_ENTRY 2u
#define TEJBORUN_WHY_STEP 3u
#define TEJBORUN_WHY_NUMBERS 4u
uint32_t tejborun_why(const uint8_t *main, size_t main_bytes, const uint32_t *data, size_t data_words, const uint8_t *code, size_t code_bytes,
                      const uint64_t *log, size_t log_numbers, const uint32_t *block, size_t block_words, uint64_t *result, size_t result_numbers);

/* Builds a sheet's chain at an address in main memory, starts it on channel 1 and runs it; it is lent VIF1's memories, whatever channel the block holds.
 * Answers the run's answer, or, before any memory is changed, 1 to 5 or the builder's refusal. result[0]: the offset of the refused record, 0 where there is
 * none; result[1] to result[12]: the counts of the run. */
uint32_t tejborun_build_and_run(const uint8_t *sheet, size_t sheet_bytes, uint8_t *main, size_t main_bytes, uint32_t address, uint32_t *data,
                                size_t data_words, uint8_t *code, size_t code_bytes, uint64_t *log, size_t log_numbers, uint32_t *block,
                                size_t block_words, uint64_t allowance, uint64_t *result, size_t result_numbers);

/* Whether a chain does what a sheet means. The chain is in main memory, at address 0. It is run from the reset state, started on channel 1 at address 0
 * without tag transfer, for at most so many steps, over VIF1's memories as they are lent and a log of which no entry is used. It is accepted exactly if the
 * sheet is valid, the run ends with 0, and both memories and the log then are the sheet's meaning of the memories as they stood before the run. Answers
 * TEJBORUN_SHORT, or the first of these that applies:
 *   TEJBORUN_CHECK_REFUSED      1 to 4 for the lengths, then the sheet's refusal (40 to 46, 49, 52): nothing is run, no memory is changed,
 *   TEJBORUN_CHECK_ANSWER       the run's answer is not 0: 90, 91 or a refusal,
 *   TEJBORUN_CHECK_QUADWORD     a quadword of data memory differs from the meaning,
 *   TEJBORUN_CHECK_INSTRUCTION  an instruction of code memory does,
 *   TEJBORUN_CHECK_ENTRY        a log entry that both have does, in one of its three numbers,
 *   TEJBORUN_CHECK_ENTRIES      the number of entries does,
 *   TEJBORUN_CHECK_ACCEPTED     nothing does.
 * The chain that tejborun_build makes of the sheet is accepted where allowance and log suffice. But where refused, memories and log are left as the run left
 * them.
 * result[0]: the refusal; the run's answer; the lowest quadword, instruction or entry that differs; of TEJBORUN_CHECK_ENTRIES the run's number of entries; 0
 * where accepted. result[1]: the offset of the refused record, 0 where there is none. result[2]: the entries used by the run; result[3] to result[14]: its
 * counts; these are 0 where refused. */
#define TEJBORUN_CHECK_ACCEPTED 0u
#define TEJBORUN_CHECK_REFUSED 1u
#define TEJBORUN_CHECK_ANSWER 2u
#define TEJBORUN_CHECK_QUADWORD 3u
#define TEJBORUN_CHECK_INSTRUCTION 4u
#define TEJBORUN_CHECK_ENTRY 5u
#define TEJBORUN_CHECK_ENTRIES 6u
#define TEJBORUN_CHECK_NUMBERS (3u + TEJBORUN_COUNTS)
uint32_t tejborun_check(const uint8_t *sheet, size_t sheet_bytes, const uint8_t *main, size_t main_bytes, uint32_t *data, size_t data_words, uint8_t *code,
                        size_t code_bytes, uint64_t *log, size_t log_numbers, uint64_t allowance, uint64_t *result, size_t result_numbers);

/* Adds the counts of a run to totals, which have exactly TEJBORUN_TOTALS numbers. Answers 0; 54 where any sum would pass 2^64 - 1, and then no sum changes; or
 * TEJBORUN_SHORT, also for counts of fewer than TEJBORUN_COUNTS numbers. The steps have no part in it. */
uint32_t tejborun_add_totals(uint64_t *totals, size_t totals_numbers, const uint64_t *counts, size_t counts_numbers);

/* The NOP share of totals, NOPs over VIF words in lowest terms. Answers 0 or TEJBORUN_SHORT. result[0] over result[1]: 0 over 1 where there are no words. The
 * numbers of a run's counts from TEJBORUN_COUNT_PACKETS on are totals of that run alone. */
uint32_t tejborun_nop_share(const uint64_t *totals, size_t totals_numbers, uint64_t *result, size_t result_numbers);

/* What of two boards is compared: a sum of these. */
#define TEJBORUN_PART_VIF1_DATA 1u
#define TEJBORUN_PART_VIF1_CODE 2u
#define TEJBORUN_PART_LOG 4u
#define TEJBORUN_PART_VIF0_DATA 8u
#define TEJBORUN_PART_VIF0_CODE 16u
#define TEJBORUN_PARTS 31u

/* Compares the parts of two boards that are asked for; the others are not looked at, and may be null with 0 elements. Answers TEJBORUN_SAME,
 * TEJBORUN_DIFFERENT, TEJBORUN_REFUSED + 5 for parts that are 0 or above TEJBORUN_PARTS, or TEJBORUN_REFUSED + 2, 3 or 4 for a length of a part asked for
 * that is wrong on either side, the lowest where several are; TEJBORUN_SHORT where the result has fewer than TEJBORUN_COMPARED numbers.
 * result[0], [1]: the first quadword of VIF1 that differs and how many differ; [2], [3]: instructions of VIF1; [4], [5]: log entries that both have;
 * [6], [7]: quadwords of VIF0; [8], [9]: instructions of VIF0. Where none differs, the first is the number compared; of a part not asked for both are 0,
 * and where refused all ten are. Logs that differ in their length alone are TEJBORUN_DIFFERENT, though [5] is 0: [4] is then the length of the shorter, and
 * which is longer stands in used_a and used_b. */
#define TEJBORUN_SAME 0u
#define TEJBORUN_DIFFERENT 1u
#define TEJBORUN_REFUSED 100u
#define TEJBORUN_COMPARED 10u
uint32_t tejborun_compare(const uint32_t *data1_a, size_t data1_a_words, const uint8_t *code1_a, size_t code1_a_bytes, const uint32_t *data0_a,
                          size_t data0_a_words, const uint8_t *code0_a, size_t code0_a_bytes, const uint64_t *log_a, size_t log_a_numbers, uint64_t used_a,
                          const uint32_t *data1_b, size_t data1_b_words, const uint8_t *code1_b, size_t code1_b_bytes, const uint32_t *data0_b,
                          size_t data0_b_words, const uint8_t *code0_b, size_t code0_b_bytes, const uint64_t *log_b, size_t log_b_numbers, uint64_t used_b,
                          uint32_t parts, uint64_t *result, size_t result_numbers);

/* The same with the data memories that are asked for compared in quadwords first to last alone, the last included; code memories and logs as there. The first
 * quadword that differs is counted from the memory's begin; where none in the range differs it is last + 1. TEJBORUN_REFUSED + 5 also where first is above last,
 * where no data memory is asked for, or where one that is has no quadword last. */
uint32_t tejborun_compare_within(const uint32_t *data1_a, size_t data1_a_words, const uint8_t *code1_a, size_t code1_a_bytes, const uint32_t *data0_a, size_t
                                 data0_a_words, const uint8_t *code0_a, size_t code0_a_bytes, const uint64_t *log_a, size_t log_a_numbers, uint64_t used_a,
                                 const uint32_t *data1_b, size_t data1_b_words, const uint8_t *code1_b, size_t code1_b_bytes, const uint32_t *data0_b, size_t
                                 data0_b_words, const uint8_t *code0_b, size_t code0_b_bytes, const uint64_t *log_b, size_t log_b_numbers, uint64_t used_b,
                                 uint32_t parts, uint64_t first, uint64_t last, uint64_t *result, size_t result_numbers);

#ifdef __cplusplus
}
#endif

#endif
