/* The meanings of the library's answers. */
#include "tejborun.h"

/* The numbers in the words below. */
_Static_assert(TEJBORUN_MAIN_BYTES == 1048576, "the words of TEJBORUN_BAD_MAIN");
_Static_assert(TEJBORUN_VIF1_DATA_WORDS == 4096 && TEJBORUN_VIF0_DATA_WORDS == 1024, "the words of TEJBORUN_BAD_DATA");
_Static_assert(TEJBORUN_VIF1_CODE_BYTES == 16384 && TEJBORUN_VIF0_CODE_BYTES == 4096, "the words of TEJBORUN_BAD_CODE");
_Static_assert(TEJBORUN_ENTRY_NUMBERS == 3 && TEJBORUN_LOG_NUMBERS == 196608, "the words of TEJBORUN_BAD_LOG");
_Static_assert(TEJBORUN_SHEET_BYTES == 131072, "the words of TEJBORUN_LONG_SHEET");
_Static_assert(TEJBORUN_CHAIN_BYTES == 1048576, "the words of TEJBORUN_LONG_EXPANSION");
_Static_assert(TEJBORUN_BLOCK_WORDS == 95 && TEJBORUN_TOTALS == 11, "the words of TEJBORUN_SHORT");

static const char *const messages[] = {
    [TEJBORUN_DONE] = "done",
    [TEJBORUN_BAD_MAIN] = "main memory has length 0, no multiple of 16 or more than 1,048,576 bytes",
    [TEJBORUN_BAD_DATA] = "data memory is not 4,096 words, of VIF0 (channel 0) not 1,024",
    [TEJBORUN_BAD_CODE] = "code memory is not 16,384 bytes, of VIF0 (channel 0) not 4,096",
    [TEJBORUN_BAD_LOG] = "the log's length is no multiple of 3, above 196,608 numbers or below three times the entries used",
    [TEJBORUN_BAD_VALUE] = "a state or start value is outside the range of its field",
    [TEJBORUN_BAD_TADR] = "TADR lies outside main memory",
    [TEJBORUN_BAD_ADDR] = "ADDR of the tag is no multiple of 16",
    [TEJBORUN_BAD_SPR] = "SPR is set in a tag that uses ADDR",
    [TEJBORUN_BAD_CALL] = "call with two addresses on the stack",
    [TEJBORUN_BAD_PAYLOAD] = "payload or pending words lie outside main memory",
    [TEJBORUN_BAD_CMD] = "a VIF code whose CMD is not listed, or on channel 0 one that VIF0 does not have",
    [TEJBORUN_BAD_FORMAT] = "UNPACK with vl 3 and vn below 3",
    [TEJBORUN_BAD_CYCLE] = "UNPACK with WL 0",
    [TEJBORUN_BAD_MODE] = "STMOD with mode 3",
    [TEJBORUN_BAD_DIRECT] = "DIRECT payload is due and the next word is not word 0 of its quadword",
    [TEJBORUN_BAD_MPG] = "the first payload word of an MPG is due and the next word is word 1 or 3 of its quadword",
    [TEJBORUN_BAD_TOPS] = "UNPACK with IMM bit 15 (TOPS) on VIF0",
    [TEJBORUN_BAD_DESCRIPTOR] = "GIF descriptor B is met at its data",
    [TEJBORUN_LOG_FULL] = "the log lacks room",
    [TEJBORUN_BAD_MARK] = "the record does not begin with the mark 9E 51",
    [TEJBORUN_BAD_KIND] = "the record's kind is none of 1 to 4, nor a group (5) in a sheet of the second edition",
    [TEJBORUN_BAD_COUNT] = "the record's count is not one of its kind",
    [TEJBORUN_BAD_ADDRESS] = "the record's address is not one of its kind",
    [TEJBORUN_CUT_RECORD] = "the record's header or body is cut off by the sheet's end, or records of a group are missing there",
    [TEJBORUN_BAD_PAD] = "a GS entry's pad is not zero",
    [TEJBORUN_LONG_SHEET] = "the sheet is longer than 131,072 bytes",
    [TEJBORUN_LONG_CHAIN] = "the chain is longer than the output",
    [TEJBORUN_LONG_EXPANSION] = "the chain of the sheet, its groups expanded, is longer than 1,048,576 bytes",
    [TEJBORUN_DEEP_GROUP] = "a group inside eight others",
    [TEJBORUN_BAD_NUMBER] = "the register's number is above 7; 0 to 3 are ROW, 4 to 7 are COL",
    [TEJBORUN_UNIT_WAITS] = "a code of this unit waits for payload",
    [TEJBORUN_TOTAL_FULL] = "a total would pass 2^64 - 1",
    [TEJBORUN_LONG_KEPT] = "the records kept are longer than the output",
    [TEJBORUN_MANY_RANGES] = "more ranges were dropped than their list holds",
    [TEJBORUN_SHORT] = "a state block that is not 95 words, totals that are not 11 numbers, or counts or a result with too few",
    [TEJBORUN_ALLOWANCE] = "the step allowance is used",
    [TEJBORUN_INTERRUPT] = "stopped at an interrupt mark",
};

const char *tejborun_message(uint32_t answer)
{
    const char *message = answer < sizeof messages / sizeof messages[0] ? messages[answer] : NULL;
    return message != NULL ? message : "a number without a meaning";
}
