/* Calls every function of tejborun.h with good, short and wrong buffers. Each buffer lies against a page that cannot be touched, first before it and then
 * behind it; what is only read lies in pages that cannot be written. To be built with AddressSanitizer and UBSan. Stops at the first thing that is
 * wrong. */
#define _DEFAULT_SOURCE

#include <stdbool.h>
#include <stdio.h>
#include <stdlib.h>
#include <string.h>
#include <sys/mman.h>
#include <unistd.h>

#include "sum.h"
#include "tejborun.h"

#define CHECK(holds) check(holds, #holds, __LINE__)

static void check(bool holds, const char *what, int line)
{
    if (holds)
        return;
    fprintf(stderr, "host/test.c:%d: not so: %s\n", line, what);
    exit(1);
}

/* A buffer between two guard pages, at the end or at the beginning of its own pages. */
struct lent {
    uint8_t *at, *map, *before; /* before: the pages as they were */
    size_t bytes, map_bytes;
};

enum { FILL = 0xA5 };

static struct lent lend(size_t bytes, bool at_end)
{
    size_t page = (size_t)sysconf(_SC_PAGESIZE), inner = (bytes + page) / page * page;
    uint8_t *map = mmap(NULL, inner + 2 * page, PROT_NONE, MAP_PRIVATE | MAP_ANONYMOUS, -1, 0);
    CHECK(map != MAP_FAILED && mprotect(map + page, inner, PROT_READ | PROT_WRITE) == 0);
    memset(map + page, FILL, inner);
    struct lent lent = {.map = map + page, .bytes = bytes, .map_bytes = inner, .before = malloc(inner)};
    CHECK(lent.before != NULL);
    lent.at = at_end ? lent.map + inner - bytes : lent.map;
    return lent;
}

static void give_back(struct lent *lent)
{
    size_t page = (size_t)sysconf(_SC_PAGESIZE);
    CHECK(munmap(lent->map - page, lent->map_bytes + 2 * page) == 0);
    free(lent->before);
}

static void remember(struct lent *lent)
{
    memcpy(lent->before, lent->map, lent->map_bytes);
}

static bool unchanged(const struct lent *lent)
{
    return memcmp(lent->before, lent->map, lent->map_bytes) == 0;
}

/* Whether nothing outside the buffer was changed. */
static bool kept_outside(const struct lent *lent)
{
    size_t from = (size_t)(lent->at - lent->map), to = from + lent->bytes;
    return memcmp(lent->before, lent->map, from) == 0 && memcmp(lent->before + to, lent->map + to, lent->map_bytes - to) == 0;
}

static void only_read(const struct lent *lent, bool only)
{
    CHECK(mprotect(lent->map, lent->map_bytes, only ? PROT_READ : PROT_READ | PROT_WRITE) == 0);
}

static uint32_t *words(const struct lent *lent)
{
    return (uint32_t *)(void *)lent->at;
}

static uint64_t *numbers(const struct lent *lent)
{
    return (uint64_t *)(void *)lent->at;
}

static struct tejborun_state *state(const struct lent *lent)
{
    return (struct tejborun_state *)(void *)lent->at;
}

/* An entry of a log. */
static uint64_t *entry(const struct lent *log, size_t number)
{
    return numbers(log) + TEJBORUN_ENTRY_NUMBERS * number;
}

/* An entry in the log's order. */
_Static_assert(TEJBORUN_ENTRY_PATH == 0 && TEJBORUN_ENTRY_REGISTER == 1 && TEJBORUN_ENTRY_VALUE == 2 && TEJBORUN_ENTRY_NUMBERS == 3, "path, register, value");
_Static_assert(TEJBORUN_LOG_ENTRIES == 65536 && TEJBORUN_LOG_NUMBERS == 196608, "the longest log");

/* The word of a state block at which a member begins. */
#define WORD(member) (offsetof(struct tejborun_state, member) / sizeof(uint32_t))

/* Lengths in elements; data0 and code0 where boards are compared. */
struct lengths {
    size_t main, data, code, log, block, result, data0, code0;
};

enum { ENTRIES = 32 }; /* of a log */

/* The numbers that are written: by a sheet's meaning, by a run, and by build and run, the most of a good result. */
enum { MEANING_NUMBERS = 2, RUN_NUMBERS = TEJBORUN_COUNTS, BUILD_AND_RUN_NUMBERS = 1 + TEJBORUN_COUNTS };

static const struct lengths good = {
    256, TEJBORUN_VIF1_DATA_WORDS, TEJBORUN_VIF1_CODE_BYTES, ENTRIES * TEJBORUN_ENTRY_NUMBERS, TEJBORUN_BLOCK_WORDS, BUILD_AND_RUN_NUMBERS,
    TEJBORUN_VIF0_DATA_WORDS, TEJBORUN_VIF0_CODE_BYTES,
};

/* Those of a run on channel 0. */
static const struct lengths good0 = {
    256, TEJBORUN_VIF0_DATA_WORDS, TEJBORUN_VIF0_CODE_BYTES, ENTRIES * TEJBORUN_ENTRY_NUMBERS, TEJBORUN_BLOCK_WORDS, BUILD_AND_RUN_NUMBERS, 0, 0,
};

/* A length that is refused, and the answer. */
struct wrong {
    size_t length; /* its place in struct lengths */
    size_t value;
    uint32_t answer;
};

#define LENGTH(name) offsetof(struct lengths, name)

/* Lengths of a log of which two entries are used: no whole entries, whether odd or even, too many, and fewer than the entries used. */
#define WRONG_LOG(numbers) {LENGTH(log), numbers, TEJBORUN_BAD_LOG}
#define WRONG_LOGS                                                                                                                                     \
    WRONG_LOG(ENTRIES *TEJBORUN_ENTRY_NUMBERS - 2), WRONG_LOG(ENTRIES *TEJBORUN_ENTRY_NUMBERS - 1), WRONG_LOG(ENTRIES *TEJBORUN_ENTRY_NUMBERS + 1),    \
        WRONG_LOG(ENTRIES *TEJBORUN_ENTRY_NUMBERS + 2), WRONG_LOG(TEJBORUN_LOG_NUMBERS + 1), WRONG_LOG(TEJBORUN_LOG_NUMBERS + 2),                      \
        WRONG_LOG(TEJBORUN_LOG_NUMBERS + TEJBORUN_ENTRY_NUMBERS), WRONG_LOG(2 * TEJBORUN_ENTRY_NUMBERS - 1), WRONG_LOG(1 * TEJBORUN_ENTRY_NUMBERS),   \
        WRONG_LOG(0)

/* Entries used that no log has; three times the first two, cut to 64 bits, are few. */
static const uint64_t wrapping[] = {
    UINT64_MAX / TEJBORUN_ENTRY_NUMBERS + 1, UINT64_C(0xAAAAAAAAAAAAAAAB), UINT64_C(1) << 63, UINT64_MAX - 1, UINT64_MAX,
};
enum { WRAPPING = sizeof wrapping / sizeof wrapping[0] };

/* Lengths but for one; the good ones but for one. */
static struct lengths but_for(struct lengths lengths, const struct wrong *wrong)
{
    memcpy((uint8_t *)&lengths + wrong->length, &wrong->value, sizeof wrong->value);
    return lengths;
}

static struct lengths with_wrong(const struct wrong *wrong)
{
    return but_for(good, wrong);
}

/* All buffers of a call. */
enum { SHEET, MAIN, DATA, CODE, LOG, BLOCK, RESULT, BUFFERS };

struct bench {
    struct lent lent[BUFFERS];
    struct lengths lengths;
};

static void new_bench(struct bench *bench, struct lengths lengths, const uint8_t *sheet, size_t sheet_bytes, bool end)
{
    size_t bytes[BUFFERS] = {sheet_bytes, lengths.main, 4 * lengths.data, lengths.code, 8 * lengths.log, 4 * lengths.block, 8 * lengths.result};
    bench->lengths = lengths;
    for (int i = 0; i < BUFFERS; i++)
        bench->lent[i] = lend(bytes[i], end);
    if (sheet_bytes > 0)
        memcpy(bench->lent[SHEET].at, sheet, sheet_bytes);
    memset(bench->lent[MAIN].at, 0, lengths.main);
    for (size_t i = 0; i < lengths.block; i++)
        words(&bench->lent[BLOCK])[i] = i == WORD(chain.channel);
}

static void free_bench(struct bench *bench)
{
    for (int i = 0; i < BUFFERS; i++)
        give_back(&bench->lent[i]);
}

static void remember_all(struct bench *bench)
{
    for (int i = 0; i < BUFFERS; i++)
        remember(&bench->lent[i]);
}

/* Whether the buffers are unchanged, the result aside, which changes inside alone. */
static bool all_unchanged(const struct bench *bench)
{
    for (int i = 0; i < RESULT; i++)
        if (!unchanged(&bench->lent[i]))
            return false;
    return kept_outside(&bench->lent[RESULT]);
}

static bool all_kept_outside(const struct bench *bench)
{
    for (int i = 0; i < BUFFERS; i++)
        if (!kept_outside(&bench->lent[i]))
            return false;
    return true;
}

/* Whether the result's numbers from one on are as they were. */
static bool kept_from(const struct bench *bench, size_t number)
{
    const struct lent *result = &bench->lent[RESULT];
    size_t at = (size_t)(result->at - result->map) + 8 * number, end = (size_t)(result->at - result->map) + result->bytes;
    return at >= end || memcmp(result->before + at, result->map + at, end - at) == 0;
}

/* Whether a run completed so many steps and closed so many packets, and said no more. */
static bool ran(const struct bench *bench, uint64_t steps, uint64_t packets)
{
    const uint64_t *result = numbers(&bench->lent[RESULT]);
    return result[TEJBORUN_COUNT_STEPS] == steps && result[TEJBORUN_COUNT_PACKETS] == packets && kept_from(bench, RUN_NUMBERS);
}

/* The same of build and run, with the offset of the refused record. */
static bool built_and_ran(const struct bench *bench, uint64_t steps, uint64_t offset, uint64_t packets)
{
    const uint64_t *result = numbers(&bench->lent[RESULT]), *counts = result + 1;
    return result[0] == offset && counts[TEJBORUN_COUNT_STEPS] == steps && counts[TEJBORUN_COUNT_PACKETS] == packets && kept_from(bench, BUILD_AND_RUN_NUMBERS);
}

static uint32_t call_meaning(struct bench *bench, uint64_t used)
{
    struct lent *lent = bench->lent;
    only_read(&lent[SHEET], true);
    uint32_t answer = tejborun_meaning(lent[SHEET].at, lent[SHEET].bytes, words(&lent[DATA]), bench->lengths.data, lent[CODE].at, bench->lengths.code,
                                       numbers(&lent[LOG]), bench->lengths.log, used, numbers(&lent[RESULT]), bench->lengths.result);
    only_read(&lent[SHEET], false);
    return answer;
}

static uint32_t call_run(struct bench *bench, uint64_t allowance)
{
    struct lent *lent = bench->lent;
    only_read(&lent[MAIN], true);
    uint32_t answer = tejborun_run(lent[MAIN].at, bench->lengths.main, words(&lent[DATA]), bench->lengths.data, lent[CODE].at, bench->lengths.code,
                                   numbers(&lent[LOG]), bench->lengths.log, words(&lent[BLOCK]), bench->lengths.block, allowance, numbers(&lent[RESULT]),
                                   bench->lengths.result);
    only_read(&lent[MAIN], false);
    return answer;
}

static uint32_t call_build_and_run(struct bench *bench, uint32_t address, uint64_t allowance)
{
    struct lent *lent = bench->lent;
    only_read(&lent[SHEET], true);
    uint32_t answer = tejborun_build_and_run(lent[SHEET].at, lent[SHEET].bytes, lent[MAIN].at, bench->lengths.main, address, words(&lent[DATA]),
                                             bench->lengths.data, lent[CODE].at, bench->lengths.code, numbers(&lent[LOG]), bench->lengths.log,
                                             words(&lent[BLOCK]), bench->lengths.block, allowance, numbers(&lent[RESULT]), bench->lengths.result);
    only_read(&lent[SHEET], false);
    return answer;
}

/* The 16 bits of a record's address. */
#define ADDRESS(number) (number) & 255, (number) >> 8

enum { LAST_QUADWORD = TEJBORUN_VIF1_QUADWORDS - 1, LAST_INSTRUCTION = TEJBORUN_VIF1_INSTRUCTIONS - 1 };

/* Each kind of record: the last quadword and quadword 0, the last instruction, registers 5 and 255, a start at 5. */
static const uint8_t sheet[] = {
    /* data, code, GS and start */
    0x9E, 0x51, 1, 2, ADDRESS(LAST_QUADWORD), 1, 0, 0, 0, 2, 0, 0, 0, 3, 0, 0, 0, 4, 0, 0, 0, 5, 0, 0, 0, 6, 0, 0, 0, 7, 0, 0, 0, 8, 0, 0, 0x80,
    0x9E, 0x51, 2, 1, ADDRESS(LAST_INSTRUCTION), 1, 2, 3, 4, 5, 6, 7, 8,
    0x9E, 0x51, 3, 2, ADDRESS(0), 9, 0, 0, 0, 0, 0, 0, 0x80, 5, 0, 0, 0, 0, 0, 0, 0, 1, 0, 0, 0, 0, 0, 0, 0, 255, 0, 0, 0, 0, 0, 0, 0,
    0x9E, 0x51, 4, 0, ADDRESS(5),
};
/* One number for each record, and one for the end tag; the GS record is a packet, which its last step closes. */
enum { GS_END = 13 + 9 + 8, SHEET_STEPS = GS_END + 5 + 1, SHEET_CHAIN = 16 * (4 + 3 + 5 + 2 + 1), SHEET_ENTRIES = 3, SHEET_PACKETS = 1 };

/* The counts of its run: five tags, three GIF quadwords, the other steps VIF words; NOPs before the codes and behind the instruction. */
static const uint64_t sheet_counts[TEJBORUN_COUNTS] = {
    SHEET_STEPS, SHEET_PACKETS, SHEET_STEPS - 5 - 3, 1 + 3 + 2 + 3 + 3, 0, SHEET_CHAIN / 16 - 5,
};

/* Whether the bench holds what the sheet means, its log entries from one on. */
static bool holds_meaning(const struct bench *bench, size_t from)
{
    static const uint8_t instruction[8] = {1, 2, 3, 4, 5, 6, 7, 8};
    static const uint64_t entries[][TEJBORUN_ENTRY_NUMBERS] = {
        {2, 5, UINT64_C(0x8000000000000009)},
        {2, 255, 1},
        {0, 256, 5},
    };
    const uint32_t *data = words(&bench->lent[DATA]), *last = data + 4 * LAST_QUADWORD;
    const uint8_t *code = bench->lent[CODE].at;
    return last[0] == 1 && last[3] == 4 && data[0] == 5 && data[3] == UINT32_C(0x80000008) && data[4] == UINT32_C(0xA5A5A5A5) &&
           memcmp(code + 8 * LAST_INSTRUCTION, instruction, 8) == 0 && code[0] == FILL && memcmp(entry(&bench->lent[LOG], from), entries, sizeof entries) == 0;
}

/* Records of six bytes: the second edition's first, a group's header and a start. */
#define EDITION(count, address) 0x9E, 0x51, 0, count, ADDRESS(address)
#define GROUP(repetitions, members) 0x9E, 0x51, 5, repetitions, ADDRESS(members)
#define START(address) 0x9E, 0x51, 4, 0, ADDRESS(address)

/* A sheet and its refusal. */
struct refused {
    uint8_t bytes[24];
    size_t count;
    uint32_t refusal;
    uint64_t offset;
};

static const struct refused refused[] = {
    {{0x9E, 0x51, 4, 0, 5}, 5, TEJBORUN_CUT_RECORD, 0},
    {{0x9E, 0x51, 4, 0, 5, 0, 0x9E, 0x52, 4, 0, 5, 0}, 12, TEJBORUN_BAD_MARK, 6},
    {{0x9E, 0x51, 5, 0, 5, 0}, 6, TEJBORUN_BAD_KIND, 0},
    {{0x9E, 0x51, 4, 1, 5, 0}, 6, TEJBORUN_BAD_COUNT, 0},
    {{0x9E, 0x51, 4, 0, ADDRESS(TEJBORUN_VIF1_INSTRUCTIONS)}, 6, TEJBORUN_BAD_ADDRESS, 0},
    {{0x9E, 0x51, 2, 1, 0, 0, 1, 2, 3, 4, 5, 6, 7}, 13, TEJBORUN_CUT_RECORD, 0},
    {{0x9E, 0x51, 3, 1, 0, 0, 0, 0, 0, 0, 0, 0, 0, 0, 5, 0, 0, 0, 0, 0, 0, 1}, 22, TEJBORUN_BAD_PAD, 0},
    /* of the second edition: its first record, groups without it, repetitions, members, and records that are missing */
    {{EDITION(3, 0)}, 6, TEJBORUN_BAD_COUNT, 0},
    {{EDITION(1, 1)}, 6, TEJBORUN_BAD_COUNT, 0},
    {{EDITION(2, 256)}, 6, TEJBORUN_BAD_ADDRESS, 0},
    {{EDITION(2, 0), EDITION(2, 0)}, 12, TEJBORUN_BAD_KIND, 6},
    {{EDITION(2, 0), GROUP(1, 1), EDITION(2, 0)}, 18, TEJBORUN_BAD_KIND, 12},
    {{START(5), GROUP(1, 1), START(5)}, 18, TEJBORUN_BAD_KIND, 6},
    {{GROUP(0, 0), START(5)}, 12, TEJBORUN_BAD_KIND, 0},
    {{EDITION(2, 0), 0x9E, 0x51, 6, 0, 0, 0}, 12, TEJBORUN_BAD_KIND, 6},
    {{EDITION(2, 0), GROUP(0, 0)}, 12, TEJBORUN_BAD_COUNT, 6},
    {{EDITION(2, 0), GROUP(1, 0)}, 12, TEJBORUN_BAD_ADDRESS, 6},
    {{EDITION(2, 0), GROUP(255, 65535)}, 12, TEJBORUN_CUT_RECORD, 12},
    {{EDITION(2, 0), GROUP(255, 2), START(5)}, 18, TEJBORUN_CUT_RECORD, 18},
    {{EDITION(2, 0), GROUP(255, 2), START(5), 0x9E}, 19, TEJBORUN_CUT_RECORD, 18},
    {{EDITION(2, 0), GROUP(255, 2), START(5), 0x9E, 0x51, 4, 0, 5}, 23, TEJBORUN_CUT_RECORD, 18},
    {{EDITION(2, 0), GROUP(1, 1), START(TEJBORUN_VIF1_INSTRUCTIONS)}, 18, TEJBORUN_BAD_ADDRESS, 12},
};
enum { REFUSED = sizeof refused / sizeof refused[0] };

static size_t call_build(struct lent *from, struct lent *output)
{
    remember(from);
    remember(output);
    only_read(from, true);
    size_t answer = tejborun_build(from->at, from->bytes, output->at, output->bytes);
    only_read(from, false);
    CHECK(unchanged(from) && kept_outside(output));
    return answer;
}

/* Builds from a sheet in an output of so many bytes: the answer. */
static size_t try_build(const uint8_t *bytes, size_t count, size_t output_bytes, bool end)
{
    struct lent from = lend(count, end), output = lend(output_bytes, end);
    if (count > 0)
        memcpy(from.at, bytes, count);
    size_t answer = call_build(&from, &output);
    if (answer % 16 != 0)
        CHECK(unchanged(&output));
    else
        CHECK(memcmp(output.at + answer - 16, "\0\0\0\x70\0\0\0\0\0\0\0\0\0\0\0", 16) == 0);
    for (size_t i = answer; answer % 16 == 0 && i < output_bytes; i++)
        CHECK(output.at[i] == FILL);
    give_back(&from);
    give_back(&output);
    return answer;
}

static void test_build(bool end)
{
    CHECK(tejborun_build(NULL, 0, NULL, 0) == TEJBORUN_LONG_CHAIN);
    CHECK(try_build(NULL, 0, 16, end) == 16 && try_build(NULL, 0, 15, end) == TEJBORUN_LONG_CHAIN && try_build(NULL, 0, 4097, end) == 16);
    CHECK(try_build(sheet, sizeof sheet, SHEET_CHAIN, end) == SHEET_CHAIN && try_build(sheet, sizeof sheet, SHEET_CHAIN + 1, end) == SHEET_CHAIN);
    CHECK(try_build(sheet, sizeof sheet, SHEET_CHAIN - 1, end) == TEJBORUN_LONG_CHAIN && try_build(sheet, sizeof sheet, 0, end) == TEJBORUN_LONG_CHAIN);
    for (size_t i = 0; i < REFUSED; i++)
        CHECK(try_build(refused[i].bytes, refused[i].count, 4096, end) == refused[i].refusal);
}

/* Bytes of the longest chain of a sheet without groups. */
enum { LONGEST_PLAIN = 16 * (2 * 21845 + 1) };

/* The longest sheets, and those that are too long. */
static void test_long_sheets(bool end)
{
    uint8_t *bytes = calloc(TEJBORUN_SHEET_BYTES + 1, 1);
    CHECK(bytes != NULL);
    for (size_t at = 0; at + 6 <= TEJBORUN_SHEET_BYTES; at += 6)
        memcpy(bytes + at, "\x9E\x51\x04\x00\xFF\x07", 6);
    CHECK(try_build(bytes, TEJBORUN_SHEET_BYTES - 2, LONGEST_PLAIN, end) == LONGEST_PLAIN);
    CHECK(try_build(bytes, TEJBORUN_SHEET_BYTES - 2, LONGEST_PLAIN - 1, end) == TEJBORUN_LONG_CHAIN);
    CHECK(try_build(bytes, TEJBORUN_SHEET_BYTES, TEJBORUN_CHAIN_BYTES, end) == TEJBORUN_CUT_RECORD);
    CHECK(try_build(bytes, TEJBORUN_SHEET_BYTES + 1, TEJBORUN_CHAIN_BYTES, end) == TEJBORUN_LONG_SHEET);
    uint64_t result[2] = {9, 9};
    CHECK(tejborun_steps(bytes, TEJBORUN_SHEET_BYTES - 2, result, 2) == TEJBORUN_DONE && result[0] == 21845 * 5 + 1 && result[1] == 0);
    CHECK(tejborun_steps(bytes, TEJBORUN_SHEET_BYTES, result, 2) == TEJBORUN_CUT_RECORD && result[0] == 0 && result[1] == TEJBORUN_SHEET_BYTES - 2);
    CHECK(tejborun_steps(bytes, TEJBORUN_SHEET_BYTES + 1, result, 2) == TEJBORUN_LONG_SHEET && result[0] == 0 && result[1] == 0);
    free(bytes);
}

/* The steps of a sheet with a result of so many numbers; the answer, and the numbers where there are two. */
static uint32_t try_steps(const uint8_t *bytes, size_t count, size_t result_numbers, bool end, uint64_t *result)
{
    struct lent from = lend(count, end), lent = lend(8 * result_numbers, end);
    if (count > 0)
        memcpy(from.at, bytes, count);
    remember(&lent);
    only_read(&from, true);
    uint32_t answer = tejborun_steps(from.at, count, numbers(&lent), result_numbers);
    CHECK(answer == TEJBORUN_SHORT ? unchanged(&lent) : kept_outside(&lent));
    for (size_t i = 0; i < 2 && result_numbers >= 2; i++)
        result[i] = numbers(&lent)[i];
    give_back(&from);
    give_back(&lent);
    return answer;
}

static void test_steps(bool end)
{
    uint64_t result[2];
    CHECK(try_steps(NULL, 0, 2, end, result) == TEJBORUN_DONE && result[0] == 1 && result[1] == 0);
    CHECK(try_steps(sheet, sizeof sheet, 2, end, result) == TEJBORUN_DONE && result[0] == SHEET_STEPS && result[1] == 0);
    CHECK(try_steps(sheet, sizeof sheet, 1, end, result) == TEJBORUN_SHORT && try_steps(sheet, sizeof sheet, 0, end, result) == TEJBORUN_SHORT);
    CHECK(tejborun_steps(NULL, 0, NULL, 0) == TEJBORUN_SHORT);
    for (size_t i = 0; i < REFUSED; i++) {
        CHECK(try_steps(refused[i].bytes, refused[i].count, 2, end, result) == refused[i].refusal);
        CHECK(result[0] == 0 && result[1] == refused[i].offset);
    }
}

/* A sheet of the second edition and the one of the first that it stands for. */
struct groups {
    uint8_t *bytes, *plain;
    size_t count, plain_count;
};

static void free_groups(struct groups *groups)
{
    free(groups->bytes);
    free(groups->plain);
}

/* The sheet of the tests in groups: three times, then a start twice, and that all twice. */
static struct groups new_groups(void)
{
    static const uint8_t outer[] = {EDITION(2, 0), GROUP(2, 2), GROUP(3, 4)}, inner[] = {GROUP(2, 1), START(9)};
    struct groups groups = {.bytes = malloc(1000), .plain = malloc(1000)};
    CHECK(groups.bytes != NULL && groups.plain != NULL);
    memcpy(groups.bytes, outer, sizeof outer);
    memcpy(groups.bytes + sizeof outer, sheet, sizeof sheet);
    memcpy(groups.bytes + sizeof outer + sizeof sheet, inner, sizeof inner);
    groups.count = sizeof outer + sizeof sheet + sizeof inner;
    for (size_t i = 0; i < 10; i++) {
        bool start = i % 5 >= 3;
        size_t count = start ? 6 : sizeof sheet;
        memcpy(groups.plain + groups.plain_count, start ? inner + 6 : sheet, count);
        groups.plain_count += count;
    }
    return groups;
}

enum { GROUPS_STEPS = 6 * (SHEET_STEPS - 1) + 4 * 5 + 1, GROUPS_CHAIN = 6 * (SHEET_CHAIN - 16) + 4 * 32 + 16, GROUPS_ENTRIES = 6 * SHEET_ENTRIES + 4 };

/* The chain and the steps of groups are those of what they stand for. */
static void test_groups(bool end)
{
    struct groups groups = new_groups();
    struct lent from = lend(groups.count, end), plain = lend(groups.plain_count, end), output[2] = {lend(GROUPS_CHAIN, end), lend(GROUPS_CHAIN, end)};
    uint64_t result[2];
    memcpy(from.at, groups.bytes, groups.count);
    memcpy(plain.at, groups.plain, groups.plain_count);
    CHECK(call_build(&from, &output[0]) == GROUPS_CHAIN && call_build(&plain, &output[1]) == GROUPS_CHAIN);
    CHECK(memcmp(output[0].at, output[1].at, GROUPS_CHAIN) == 0);
    CHECK(try_build(groups.bytes, groups.count, GROUPS_CHAIN + 1, end) == GROUPS_CHAIN);
    CHECK(try_build(groups.bytes, groups.count, GROUPS_CHAIN - 1, end) == TEJBORUN_LONG_CHAIN);
    CHECK(try_steps(groups.bytes, groups.count, 2, end, result) == TEJBORUN_DONE && result[0] == GROUPS_STEPS && result[1] == 0);
    CHECK(try_steps(groups.bytes, 6, 2, end, result) == TEJBORUN_DONE && result[0] == 1);
    CHECK(try_build(groups.bytes, 6, 16, end) == 16);
    for (size_t i = 0; i < 2; i++)
        give_back(&output[i]);
    give_back(&from);
    give_back(&plain);
    free_groups(&groups);
}

/* The longest chain of all, 255 times 257 quadwords and the end tag, and one that is longer, which is refused before the output is looked at. */
static void test_long_groups(bool end)
{
    static const uint8_t head[] = {EDITION(2, 0), GROUP(255, 1), 0x9E, 0x51, 1, 255, ADDRESS(7)}, start[] = {START(0)};
    enum { RECORD_BYTES = 6 + 16 * 255, COUNT = 12 + RECORD_BYTES };
    uint8_t bytes[COUNT + 6] = {0};
    uint64_t result[2];
    memcpy(bytes, head, sizeof head);
    memcpy(bytes + COUNT, start, sizeof start);
    CHECK(try_build(bytes, COUNT, TEJBORUN_CHAIN_BYTES, end) == TEJBORUN_CHAIN_BYTES);
    CHECK(try_build(bytes, COUNT, TEJBORUN_CHAIN_BYTES - 1, end) == TEJBORUN_LONG_CHAIN);
    CHECK(try_steps(bytes, COUNT, 2, end, result) == TEJBORUN_DONE && result[0] == 255 * (5 + 4 * 255) + 1);
    CHECK(try_build(bytes, COUNT + 6, TEJBORUN_CHAIN_BYTES + 64, end) == TEJBORUN_LONG_EXPANSION);
    CHECK(try_build(bytes, COUNT + 6, 0, end) == TEJBORUN_LONG_EXPANSION);
    CHECK(try_steps(bytes, COUNT + 6, 2, end, result) == TEJBORUN_LONG_EXPANSION && result[0] == 0 && result[1] == 0);
    bytes[COUNT + 2] = 6;
    CHECK(try_steps(bytes, COUNT + 6, 2, end, result) == TEJBORUN_BAD_KIND && result[1] == COUNT);
}

/* Groups in groups: eight are taken, whose expansion passes 64 bits where each comes 255 times; a ninth is refused, after its count and address. */
static void test_deep_groups(bool end)
{
    enum { DEEP = 9, COUNT = 6 + 6 * DEEP + 6 };
    static const uint8_t edition[] = {EDITION(2, 0)}, once[] = {GROUP(1, 1)}, often[] = {GROUP(255, 1)}, start[] = {START(3)};
    uint8_t bytes[COUNT];
    uint64_t result[2];
    memcpy(bytes, edition, 6);
    for (size_t i = 1; i <= DEEP; i++)
        memcpy(bytes + 6 * i, once, 6);
    memcpy(bytes + COUNT - 6, start, 6);
    CHECK(try_build(bytes, COUNT, 4096, end) == TEJBORUN_DEEP_GROUP);
    CHECK(try_steps(bytes, COUNT, 2, end, result) == TEJBORUN_DEEP_GROUP && result[0] == 0 && result[1] == 6 * DEEP);
    CHECK(try_steps(bytes, COUNT - 6, 2, end, result) == TEJBORUN_DEEP_GROUP && result[1] == 6 * DEEP);
    bytes[6 * DEEP + 4] = 0;
    CHECK(try_steps(bytes, COUNT, 2, end, result) == TEJBORUN_BAD_ADDRESS && result[1] == 6 * DEEP);
    bytes[6 * DEEP + 3] = 0;
    CHECK(try_steps(bytes, COUNT, 2, end, result) == TEJBORUN_BAD_COUNT && result[1] == 6 * DEEP);
    memcpy(bytes + COUNT - 12, start, 6);
    CHECK(try_steps(bytes, COUNT - 6, 2, end, result) == TEJBORUN_DONE && result[0] == 6);
    CHECK(try_build(bytes, COUNT - 6, 48, end) == 48);
    for (size_t i = 1; i < DEEP; i++)
        memcpy(bytes + 6 * i, often, 6);
    CHECK(try_build(bytes, COUNT - 6, 4096, end) == TEJBORUN_LONG_EXPANSION);
    CHECK(try_steps(bytes, COUNT - 6, 2, end, result) == TEJBORUN_LONG_EXPANSION && result[0] == 0 && result[1] == 0);
}

/* What is to be kept of a sheet and the ranges to be dropped, by the steps' own reader: it says where the first record is that is not whole and valid. */
struct expected {
    uint8_t *kept;
    uint64_t *range; /* offset and length of each */
    size_t bytes, ranges;
};

static void drop_byte(struct expected *expected, size_t at)
{
    uint64_t *last = expected->range + 2 * expected->ranges;
    if (expected->ranges > 0 && last[-2] + last[-1] == at) {
        last[-1]++;
        return;
    }
    last[0] = at;
    last[1] = 1;
    expected->ranges++;
}

static struct expected expect_salvage(const uint8_t *bytes, size_t count)
{
    struct expected expected = {.kept = malloc(count + 1), .range = calloc(2 * count + 1, 8)};
    CHECK(expected.kept != NULL && expected.range != NULL);
    for (size_t at = 0; at < count; at++) {
        uint64_t result[2];
        size_t whole = tejborun_steps(bytes + at, count - at, result, 2) == TEJBORUN_DONE ? count - at : (size_t)result[1];
        if (count - at > 2 && bytes[at + 2] == 0)
            whole = 0; /* the second edition is damage here */
        memcpy(expected.kept + expected.bytes, bytes + at, whole);
        expected.bytes += whole;
        at += whole;
        if (at < count)
            drop_byte(&expected, at);
    }
    return expected;
}

static void free_expected(struct expected *expected)
{
    free(expected->kept);
    free(expected->range);
}

/* Whether a buffer holds so many bytes, and from there on what it held. */
static bool holds_then_keeps(const struct lent *lent, const void *bytes, size_t count)
{
    size_t at = (size_t)(lent->at - lent->map) + count, end = (size_t)(lent->at - lent->map) + lent->bytes;
    return count <= lent->bytes && (count == 0 || memcmp(lent->at, bytes, count) == 0) && memcmp(lent->before + at, lent->map + at, end - at) == 0;
}

/* Room for a salvage: bytes of the output, numbers of the list and of the result. */
struct room {
    size_t output, list, result;
};

enum { SALVAGE_NUMBERS = 2, OUTPUT = 1, LIST = 2, SALVAGE_RESULT = 3, SALVAGE_BUFFERS = 4 };

/* Salvages a sheet with so much room: what is expected, or a refusal that changes nothing. */
static void try_salvage(const uint8_t *bytes, size_t count, struct room room, const struct expected *expected, uint32_t answer, bool end)
{
    const size_t lengths[SALVAGE_BUFFERS] = {count, room.output, 8 * room.list, 8 * room.result};
    struct lent lent[SALVAGE_BUFFERS];
    for (size_t i = 0; i < SALVAGE_BUFFERS; i++)
        lent[i] = lend(lengths[i], end);
    if (count > 0)
        memcpy(lent[SHEET].at, bytes, count);
    for (size_t i = 0; i < SALVAGE_BUFFERS; i++)
        remember(&lent[i]);
    only_read(&lent[SHEET], true);
    CHECK(tejborun_salvage(lent[SHEET].at, count, lent[OUTPUT].at, room.output, numbers(&lent[LIST]), room.list, numbers(&lent[SALVAGE_RESULT]),
                           room.result) == answer);
    only_read(&lent[SHEET], false);
    bool done = answer == TEJBORUN_DONE;
    const uint64_t written[SALVAGE_NUMBERS] = {done ? expected->bytes : 0, done ? expected->ranges : 0};
    CHECK(unchanged(&lent[SHEET]) && kept_outside(&lent[OUTPUT]) && kept_outside(&lent[LIST]) && kept_outside(&lent[SALVAGE_RESULT]));
    CHECK(holds_then_keeps(&lent[OUTPUT], expected->kept, (size_t)written[0]) && holds_then_keeps(&lent[LIST], expected->range, 16 * (size_t)written[1]));
    CHECK(answer == TEJBORUN_SHORT ? unchanged(&lent[SALVAGE_RESULT]) : holds_then_keeps(&lent[SALVAGE_RESULT], written, sizeof written));
    for (size_t i = 0; i < SALVAGE_BUFFERS; i++)
        give_back(&lent[i]);
}

/* With just room enough, with more, and with too little of one or both. */
static void try_rooms(const uint8_t *bytes, size_t count, bool end)
{
    struct expected expected = expect_salvage(bytes, count);
    const size_t kept = expected.bytes, list = 2 * expected.ranges;
    try_salvage(bytes, count, (struct room){kept, list, 2}, &expected, TEJBORUN_DONE, end);
    try_salvage(bytes, count, (struct room){kept + 1, list + 1, 3}, &expected, TEJBORUN_DONE, end);
    try_salvage(bytes, count, (struct room){count + 99, 2 * count + 9, 9}, &expected, TEJBORUN_DONE, end);
    for (size_t few = 0; few < 2; few++)
        try_salvage(bytes, count, (struct room){kept, list, few}, &expected, TEJBORUN_SHORT, end);
    if (kept > 0)
        try_salvage(bytes, count, (struct room){kept - 1, list, 2}, &expected, TEJBORUN_LONG_KEPT, end);
    if (list > 0) {
        try_salvage(bytes, count, (struct room){kept, list - 1, 2}, &expected, TEJBORUN_MANY_RANGES, end);
        try_salvage(bytes, count, (struct room){kept, 0, 2}, &expected, TEJBORUN_MANY_RANGES, end);
    }
    if (kept > 0 && list > 0)
        try_salvage(bytes, count, (struct room){0, 0, 2}, &expected, TEJBORUN_LONG_KEPT, end);
    uint64_t result[2];
    CHECK(tejborun_steps(expected.kept, kept, result, 2) == TEJBORUN_DONE);
    free_expected(&expected);
}

/* Damaged sheets with what is kept and dropped of them: junk before, between and behind records; a record whose body is cut by the end, with a whole record
 * inside; a wrong count; marks that touch; kinds 0 and 5; a pad, with a whole record before it; a record inside a valid one, which is passed over. */
static const struct {
    uint8_t bytes[40];
    size_t count;
    uint8_t kept[40];
    size_t kept_bytes;
    uint64_t range[6];
    size_t ranges;
} damaged[] = {
    {{7, 8, 9, 0x9E, 0x51, 4, 0, 5, 0, 1, 2, 0x9E, 0x51, 4, 0, 6, 0, 3}, 18, {0x9E, 0x51, 4, 0, 5, 0, 0x9E, 0x51, 4, 0, 6, 0}, 12, {0, 3, 9, 2, 17, 1}, 3},
    {{0x9E, 0x51, 2, 2, 0, 0, 0x9E, 0x51, 4, 0, 5, 0, 1, 2, 3, 4}, 16, {0x9E, 0x51, 4, 0, 5, 0}, 6, {0, 6, 12, 4}, 2},
    {{0x9E, 0x51, 4, 1, 5, 0, 0x9E, 0x51, 4, 0, 5, 0}, 12, {0x9E, 0x51, 4, 0, 5, 0}, 6, {0, 6}, 1},
    {{0x9E, 0x9E, 0x51, 4, 0, 5, 0, 0x9E}, 8, {0x9E, 0x51, 4, 0, 5, 0}, 6, {0, 1, 7, 1}, 2},
    {{0x9E, 0x51, 0, 2, 0, 0, 0x9E, 0x51, 5, 2, 1, 0, 0x9E, 0x51, 4, 0, 5, 0}, 18, {0x9E, 0x51, 4, 0, 5, 0}, 6, {0, 12}, 1},
    {{0x9E, 0x51, 3, 1, 0, 0, 0x9E, 0x51, 4, 0, 5, 0, 0, 0, 5, 0, 0, 0, 0, 0, 0, 1}, 22, {0x9E, 0x51, 4, 0, 5, 0}, 6, {0, 6, 12, 10}, 2},
    {{0x9E, 0x51, 2, 1, 0, 0, 0x9E, 0x51, 4, 0, 5, 0, 9, 9, 0x9E, 0x51, 4, 0, 5}, 19, {0x9E, 0x51, 2, 1, 0, 0, 0x9E, 0x51, 4, 0, 5, 0, 9, 9}, 14, {14, 5}, 1},
};

static void test_damaged(bool end)
{
    for (size_t i = 0; i < sizeof damaged / sizeof damaged[0]; i++) {
        struct expected expected = {(uint8_t *)damaged[i].kept, (uint64_t *)damaged[i].range, damaged[i].kept_bytes, damaged[i].ranges};
        try_salvage(damaged[i].bytes, damaged[i].count, (struct room){100, 100, 2}, &expected, TEJBORUN_DONE, end);
        try_rooms(damaged[i].bytes, damaged[i].count, end);
    }
    for (size_t i = 0; i < REFUSED; i++)
        try_rooms(refused[i].bytes, refused[i].count, end);
}

/* Every cut of a sheet, and every byte of it broken. */
static void test_salvage(bool end)
{
    uint8_t broken[sizeof sheet];
    struct expected same = {.kept = (uint8_t *)sheet, .bytes = sizeof sheet}, nothing = {0};
    try_salvage(sheet, sizeof sheet, (struct room){sizeof sheet, 0, 2}, &same, TEJBORUN_DONE, end);
    try_salvage(NULL, 0, (struct room){0, 0, 2}, &nothing, TEJBORUN_DONE, end);
    CHECK(tejborun_salvage(NULL, 0, NULL, 0, NULL, 0, NULL, 0) == TEJBORUN_SHORT);
    for (size_t count = 0; count <= sizeof sheet; count++)
        try_rooms(sheet, count, end);
    for (size_t i = 0; i < sizeof sheet; i++) {
        memcpy(broken, sheet, sizeof sheet);
        broken[i] ^= 0x40;
        try_rooms(broken, sizeof broken, end);
    }
}

/* The longest sheets: valid, of marks alone, with as many ranges as there can be; and one that is too long. */
static void test_long_salvage(bool end)
{
    uint8_t *bytes = calloc(TEJBORUN_SHEET_BYTES + 1, 1);
    CHECK(bytes != NULL);
    for (size_t at = 0; at < TEJBORUN_SHEET_BYTES; at++)
        bytes[at] = at % 2 == 0 ? 0x9E : 0x51;
    uint64_t all[2] = {0, TEJBORUN_SHEET_BYTES};
    struct expected expected = {.range = all, .ranges = 1}, none = {0};
    try_salvage(bytes, TEJBORUN_SHEET_BYTES, (struct room){0, 2, 2}, &expected, TEJBORUN_DONE, end);
    try_salvage(bytes, TEJBORUN_SHEET_BYTES + 1, (struct room){0, 0, 2}, &none, TEJBORUN_LONG_SHEET, end);
    try_salvage(bytes, TEJBORUN_SHEET_BYTES + 1, (struct room){0, 0, 1}, &none, TEJBORUN_SHORT, end);
    for (size_t at = 0; at + 7 <= TEJBORUN_SHEET_BYTES; at += 7)
        memcpy(bytes + at, "\x51\x9E\x51\x04\x00\xFF\x07", 7);
    try_rooms(bytes, TEJBORUN_SHEET_BYTES, end);
    for (size_t at = 0; at + 6 <= TEJBORUN_SHEET_BYTES; at += 6)
        memcpy(bytes + at, "\x9E\x51\x04\x00\xFF\x07", 6);
    struct expected same = {.kept = bytes, .bytes = TEJBORUN_SHEET_BYTES - 2};
    try_salvage(bytes, same.bytes, (struct room){same.bytes, 0, 2}, &same, TEJBORUN_DONE, end);
    try_rooms(bytes, TEJBORUN_SHEET_BYTES, end);
    free(bytes);
}

static void try_meaning(const uint8_t *bytes, size_t count, struct lengths lengths, uint64_t used, uint32_t answer, uint64_t offset, bool end)
{
    struct bench bench;
    new_bench(&bench, lengths, bytes, count, end);
    remember_all(&bench);
    CHECK(call_meaning(&bench, used) == answer);
    if (answer != TEJBORUN_DONE)
        CHECK(all_unchanged(&bench));
    else
        CHECK(all_kept_outside(&bench) && holds_meaning(&bench, used));
    CHECK(kept_from(&bench, answer == TEJBORUN_SHORT ? 0 : MEANING_NUMBERS));
    if (answer != TEJBORUN_SHORT)
        CHECK(numbers(&bench.lent[RESULT])[0] == (answer == TEJBORUN_DONE ? used + SHEET_ENTRIES : used) && numbers(&bench.lent[RESULT])[1] == offset);
    free_bench(&bench);
}

static void test_meaning(bool end)
{
    static const struct wrong wrong[] = {
        {LENGTH(data), TEJBORUN_VIF1_DATA_WORDS - 1, TEJBORUN_BAD_DATA},
        {LENGTH(data), TEJBORUN_VIF1_DATA_WORDS + 1, TEJBORUN_BAD_DATA},
        {LENGTH(data), 0, TEJBORUN_BAD_DATA},
        {LENGTH(code), TEJBORUN_VIF1_CODE_BYTES - 1, TEJBORUN_BAD_CODE},
        {LENGTH(code), TEJBORUN_VIF1_CODE_BYTES + 8, TEJBORUN_BAD_CODE},
        {LENGTH(code), 0, TEJBORUN_BAD_CODE},
        WRONG_LOGS,
        {LENGTH(log), 2 * TEJBORUN_ENTRY_NUMBERS, TEJBORUN_LOG_FULL},
        {LENGTH(log), 4 * TEJBORUN_ENTRY_NUMBERS, TEJBORUN_LOG_FULL},
        {LENGTH(result), 1, TEJBORUN_SHORT},
        {LENGTH(result), 0, TEJBORUN_SHORT},
    };
    struct lengths full = good;
    try_meaning(sheet, sizeof sheet, good, 0, TEJBORUN_DONE, 0, end);
    try_meaning(sheet, sizeof sheet, good, ENTRIES - SHEET_ENTRIES, TEJBORUN_DONE, 0, end);
    try_meaning(sheet, sizeof sheet, good, ENTRIES - SHEET_ENTRIES + 1, TEJBORUN_LOG_FULL, 0, end);
    try_meaning(sheet, sizeof sheet, good, ENTRIES + 1, TEJBORUN_BAD_LOG, 0, end);
    for (size_t i = 0; i < WRAPPING; i++)
        try_meaning(sheet, sizeof sheet, good, wrapping[i], TEJBORUN_BAD_LOG, 0, end);
    full.log = TEJBORUN_LOG_NUMBERS;
    try_meaning(sheet, sizeof sheet, full, TEJBORUN_LOG_ENTRIES - SHEET_ENTRIES, TEJBORUN_DONE, 0, end);
    try_meaning(sheet, sizeof sheet, full, TEJBORUN_LOG_ENTRIES - SHEET_ENTRIES + 1, TEJBORUN_LOG_FULL, 0, end);
    for (size_t i = 0; i < sizeof wrong / sizeof wrong[0]; i++)
        try_meaning(sheet, sizeof sheet, with_wrong(&wrong[i]), 2, wrong[i].answer, 0, end);
    for (size_t i = 0; i < REFUSED; i++)
        try_meaning(refused[i].bytes, refused[i].count, good, 2, refused[i].refusal, refused[i].offset, end);
}

static void test_reset(bool end)
{
    static const size_t lengths[] = {0, 1, TEJBORUN_BLOCK_WORDS - 1, TEJBORUN_BLOCK_WORDS + 1, 2 * TEJBORUN_BLOCK_WORDS};
    static const struct tejborun_state reset = {.chain.channel = 1};
    struct lent block = lend(sizeof reset, end);
    remember(&block);
    CHECK(tejborun_reset(words(&block), TEJBORUN_BLOCK_WORDS) == TEJBORUN_DONE && kept_outside(&block));
    CHECK(memcmp(state(&block), &reset, sizeof reset) == 0);
    give_back(&block);
    for (size_t i = 0; i < sizeof lengths / sizeof lengths[0]; i++) {
        block = lend(4 * lengths[i], end);
        remember(&block);
        CHECK(tejborun_reset(words(&block), lengths[i]) == TEJBORUN_SHORT && unchanged(&block));
        give_back(&block);
    }
    CHECK(tejborun_reset(NULL, 0) == TEJBORUN_SHORT);
}

/* Whether the chain stands as a start leaves it. */
static bool started_by(const struct tejborun_chain *chain, const uint32_t *start)
{
    return chain->channel == start[0] && chain->tadr == start[1] && chain->tte == start[2] && chain->ended == 0;
}

/* A start on a reset block in which a word is set. */
static void try_start(size_t length, size_t word, uint32_t value, const uint32_t *start, uint32_t answer, bool end)
{
    struct lent block = lend(4 * length, end);
    for (size_t i = 0; i < length; i++)
        words(&block)[i] = i == word ? value : i == WORD(chain.channel);
    remember(&block);
    CHECK(tejborun_start(words(&block), length, start[0], start[1], start[2]) == answer && kept_outside(&block));
    if (answer != TEJBORUN_DONE)
        CHECK(unchanged(&block));
    else
        CHECK(started_by(&state(&block)->chain, start));
    give_back(&block);
}

static void test_start(bool end)
{
    static const uint32_t accepted[3] = {1, 0x7FFFFFF0, 1}, on_2[3] = {2, 16, 0}, on_0[3] = {0, 32, 1};
    static const uint32_t wrong[][3] = {
        {3, 0, 0}, {UINT32_MAX, 0, 0}, {1, 8, 0}, {1, 0x80000000, 0}, {1, UINT32_MAX, 0}, {1, 0, 2}, {2, 0, 1}, {0, 8, 0}, {0, 0, 2},
    };
    static const size_t lengths[] = {0, TEJBORUN_BLOCK_WORDS - 1, TEJBORUN_BLOCK_WORDS + 1};
    static const struct {
        size_t word;
        uint32_t value;
    } states[] = {
        {WORD(chain.channel), 3}, {WORD(chain.tte), 2},    {WORD(chain.depth), 3},       {WORD(vif1.cl), 256},
        {WORD(vif1.waiting), 8},  {WORD(path2.place), 2}, {WORD(vif0.cl), 256},         {WORD(vif0.waiting), 8},
        {WORD(vif0.ofst), 1},     {WORD(vif0.base), 1},   {WORD(vif0.tops), 1},         {WORD(vif0.top), 1},
        {WORD(vif0.dbf), 1},      {WORD(vif0.mskpath3), 1}, {WORD(vif0.itop), 1024},
    };
    try_start(TEJBORUN_BLOCK_WORDS, WORD(chain.ended), 1, accepted, TEJBORUN_DONE, end);
    try_start(TEJBORUN_BLOCK_WORDS, WORD(chain.used), 77, on_2, TEJBORUN_DONE, end);
    try_start(TEJBORUN_BLOCK_WORDS, WORD(chain.channel), 2, on_0, TEJBORUN_DONE, end);
    try_start(TEJBORUN_BLOCK_WORDS, WORD(chain.channel), 0, accepted, TEJBORUN_DONE, end);
    try_start(TEJBORUN_BLOCK_WORDS, WORD(vif0.itop), 1023, on_0, TEJBORUN_DONE, end);
    /* refused, a word that means nothing stays too */
    for (size_t i = 0; i < sizeof wrong / sizeof wrong[0]; i++) {
        try_start(TEJBORUN_BLOCK_WORDS, WORD(chain.ended), 1, wrong[i], TEJBORUN_BAD_VALUE, end);
        try_start(TEJBORUN_BLOCK_WORDS, WORD(chain.payload_at), 77, wrong[i], TEJBORUN_BAD_VALUE, end);
    }
    for (size_t i = 0; i < sizeof lengths / sizeof lengths[0]; i++)
        try_start(lengths[i], WORD(chain.ended), 1, accepted, TEJBORUN_SHORT, end);
    for (size_t i = 0; i < sizeof states / sizeof states[0]; i++)
        for (int vif = 0; vif < 2; vif++)
            try_start(TEJBORUN_BLOCK_WORDS, states[i].word, states[i].value, vif == 0 ? on_0 : accepted, TEJBORUN_BAD_VALUE, end);
    CHECK(tejborun_start(NULL, 0, 1, 0, 0) == TEJBORUN_SHORT);
}

static void test_run(bool end)
{
    struct bench bench;
    struct lengths two = good;
    two.result = RUN_NUMBERS;
    new_bench(&bench, two, sheet, sizeof sheet, end);
    CHECK(tejborun_build(sheet, sizeof sheet, bench.lent[MAIN].at, bench.lengths.main) == SHEET_CHAIN);
    remember_all(&bench);
    CHECK(call_run(&bench, 0) == TEJBORUN_ALLOWANCE && ran(&bench, 0, 0) && all_unchanged(&bench));
    CHECK(call_run(&bench, GS_END - 1) == TEJBORUN_ALLOWANCE && ran(&bench, GS_END - 1, 0));
    CHECK(call_run(&bench, SHEET_STEPS - GS_END) == TEJBORUN_ALLOWANCE && ran(&bench, SHEET_STEPS - GS_END, SHEET_PACKETS));
    CHECK(call_run(&bench, UINT64_MAX) == TEJBORUN_DONE && ran(&bench, 1, 0));
    CHECK(unchanged(&bench.lent[MAIN]) && all_kept_outside(&bench) && holds_meaning(&bench, 0));
    const struct tejborun_chain *chain = &state(&bench.lent[BLOCK])->chain;
    CHECK(chain->used[0] == SHEET_ENTRIES && chain->used[1] == 0 && chain->ended == 1);
    free_bench(&bench);
}

/* Main memory that a run is refused or stopped in: its words, the answer and the steps. */
struct stop {
    uint32_t words[8];
    uint32_t answer;
    uint64_t steps;
};

static void test_stops(bool end)
{
    static const struct stop stops[] = {
        {{0x70000001, 0, 0, 0, 0x80000000, 0, 0, 0}, TEJBORUN_INTERRUPT, 2},
        {{0x50000000, 0, 0, 0, 0, 0, 0, 0}, TEJBORUN_BAD_CALL, 2},
        {{0x20000000, 0x20, 0, 0, 0, 0, 0, 0}, TEJBORUN_BAD_TADR, 1},
        {{0x30000000, 8, 0, 0, 0, 0, 0, 0}, TEJBORUN_BAD_ADDR, 0},
        {{0x30000000, 0x80000000, 0, 0, 0, 0, 0, 0}, TEJBORUN_BAD_SPR, 0},
        {{0x10000002, 0, 0, 0, 0, 0, 0, 0}, TEJBORUN_BAD_PAYLOAD, 0},
        {{0x70000001, 0, 0, 0, 0, 0x7F000000, 0, 0}, TEJBORUN_BAD_CYCLE, 2},
        {{0x70000001, 0, 0, 0, 0, 0x08000000, 0, 0}, TEJBORUN_BAD_CMD, 2},
        {{0x70000001, 0, 0, 0, 0x63010000, 0, 0, 0}, TEJBORUN_BAD_FORMAT, 1},
        {{0x70000001, 0, 0, 0, 0x05000003, 0, 0, 0}, TEJBORUN_BAD_MODE, 1},
        {{0x70000001, 0, 0, 0, 0x50000001, 0, 0, 0}, TEJBORUN_BAD_DIRECT, 2},
        {{0x70000001, 0, 0, 0, 0x4A010000, 0, 0, 0}, TEJBORUN_BAD_MPG, 2},
        {{0x70000001, 0, 0, 0, 0, 0, 0x4A010000, 0}, TEJBORUN_BAD_MPG, 4},
    };
    struct lengths small = good;
    small.main = 32;
    for (size_t i = 0; i < sizeof stops / sizeof stops[0]; i++) {
        struct bench bench;
        new_bench(&bench, small, NULL, 0, end);
        memcpy(bench.lent[MAIN].at, stops[i].words, 32);
        remember_all(&bench);
        CHECK(call_run(&bench, UINT64_MAX) == stops[i].answer && ran(&bench, stops[i].steps, 0));
        CHECK(unchanged(&bench.lent[DATA]) && unchanged(&bench.lent[CODE]) && unchanged(&bench.lent[LOG]) && all_kept_outside(&bench));
        free_bench(&bench);
    }
}

/* A transfer to VIF0: its last quadword and quadword 0, its last instruction and instruction 0, ITOP, and a start. */
static const uint32_t vif0_chain[] = {
    0x70000006, 0, 0, 0,                            /* end, six quadwords */
    0x01000101, 0x04000007, 0, 0x6C0200FF,          /* STCYCL, ITOP, NOP, UNPACK V4-32, two vectors from quadword 255 on */
    1, 2, 3, 4, 5, 6, 7, 0x80000008,
    0, 0, 0, 0x4A0201FF,                            /* MPG, two instructions from 511 on */
    0x11111111, 0x22222222, 0x33333333, 0x44444444,
    0x14000005, 0x17000000, 0x07000009, 0x10000000, /* MSCAL, MSCNT, MARK, FLUSHE */
};
enum { VIF0_STEPS = 1 + 24, LAST_QUADWORD0 = TEJBORUN_VIF0_QUADWORDS - 1, LAST_INSTRUCTION0 = TEJBORUN_VIF0_INSTRUCTIONS - 1 };

/* Whether the bench holds what that transfer leaves. */
static bool holds_vif0(const struct bench *bench)
{
    static const uint64_t entries[][TEJBORUN_ENTRY_NUMBERS] = {
        {0, 256, 5},
        {0, 258, 0},
    };
    const uint32_t *data = words(&bench->lent[DATA]), *last = data + 4 * LAST_QUADWORD0;
    const uint8_t *code = bench->lent[CODE].at;
    return last[0] == 1 && last[3] == 4 && data[0] == 5 && data[3] == UINT32_C(0x80000008) && data[4] == UINT32_C(0xA5A5A5A5) &&
           code[8 * LAST_INSTRUCTION0] == 0x11 && code[8 * LAST_INSTRUCTION0 + 7] == 0x22 && code[0] == 0x33 && code[7] == 0x44 && code[8] == FILL &&
           memcmp(entry(&bench->lent[LOG], 0), entries, sizeof entries) == 0;
}

static void test_vif0_run(bool end)
{
    static const struct tejborun_unit expected = {.cl = 1, .wl = 1, .itops = 7, .itop = 7, .mark = 9};
    static const struct tejborun_unit kept = {.cl = 3, .wl = 2, .ofst = 5, .tops = 9, .dbf = 1, .waiting = TEJBORUN_WAITS_DIRECT, .due = 3};
    struct bench bench;
    new_bench(&bench, good0, NULL, 0, end);
    memcpy(bench.lent[MAIN].at, vif0_chain, sizeof vif0_chain);
    struct tejborun_state *held = state(&bench.lent[BLOCK]);
    held->vif1 = kept;
    remember_all(&bench);
    CHECK(tejborun_start(words(&bench.lent[BLOCK]), TEJBORUN_BLOCK_WORDS, 0, 0, 0) == TEJBORUN_DONE);
    CHECK(call_run(&bench, VIF0_STEPS - 1) == TEJBORUN_ALLOWANCE && call_run(&bench, UINT64_MAX) == TEJBORUN_DONE);
    CHECK(ran(&bench, 1, 0) && unchanged(&bench.lent[MAIN]) && all_kept_outside(&bench) && holds_vif0(&bench));
    CHECK(held->chain.channel == 0 && held->chain.used[0] == 2 && held->chain.ended == 1);
    CHECK(memcmp(&held->vif0, &expected, sizeof expected) == 0 && memcmp(&held->vif1, &kept, sizeof kept) == 0);
    free_bench(&bench);
}

/* What VIF0 refuses: the codes that it lacks, and TOPS, after vl and WL. On channel 1 none of these is refused so. */
static void test_vif0_stops(bool end)
{
    static const struct {
        uint32_t cycle, code, answer;
    } stops[] = {
        {0, 0x02000000, TEJBORUN_BAD_CMD},          {0, 0x03000000, TEJBORUN_BAD_CMD},          {0, 0x06000000, TEJBORUN_BAD_CMD},
        {0, 0x11000000, TEJBORUN_BAD_CMD},          {0, 0x13000000, TEJBORUN_BAD_CMD},          {0, 0x15000000, TEJBORUN_BAD_CMD},
        {0, 0x50000001, TEJBORUN_BAD_CMD},          {0, 0xD1000001, TEJBORUN_BAD_CMD},          {0x01000101, 0x6C018000, TEJBORUN_BAD_TOPS},
        {0x01000101, 0xF0018000, TEJBORUN_BAD_TOPS}, {0, 0x6C018000, TEJBORUN_BAD_CYCLE},        {0x01000101, 0x63018000, TEJBORUN_BAD_FORMAT},
    };
    struct lengths small = good0;
    small.main = 32;
    for (size_t i = 0; i < sizeof stops / sizeof stops[0]; i++) {
        const uint32_t chain[8] = {0x70000001, 0, 0, 0, stops[i].cycle, stops[i].code, 0, 0};
        struct bench bench;
        new_bench(&bench, small, NULL, 0, end);
        memcpy(bench.lent[MAIN].at, chain, sizeof chain);
        words(&bench.lent[BLOCK])[WORD(chain.channel)] = 0;
        remember_all(&bench);
        CHECK(call_run(&bench, UINT64_MAX) == stops[i].answer && ran(&bench, 2, 0));
        CHECK(unchanged(&bench.lent[DATA]) && unchanged(&bench.lent[CODE]) && unchanged(&bench.lent[LOG]) && all_kept_outside(&bench));
        free_bench(&bench);
    }
}

/* The GIF's refusals, on channel 2: a tag of the descriptor, and its data. */
static void test_gif_stops(bool end)
{
    static const struct {
        uint32_t descriptor;
        size_t log;
        uint32_t answer;
    } stops[] = {
        {0xB, TEJBORUN_ENTRY_NUMBERS, TEJBORUN_BAD_DESCRIPTOR},
        {0xE, 0, TEJBORUN_LOG_FULL},
        {0xE, TEJBORUN_ENTRY_NUMBERS, TEJBORUN_DONE},
    };
    for (size_t i = 0; i < sizeof stops / sizeof stops[0]; i++) {
        const uint32_t chain[12] = {0x70000002, 0, 0, 0, 0x8001, 0x10000000, stops[i].descriptor};
        struct lengths small = good;
        struct bench bench;
        small.main = sizeof chain;
        small.log = stops[i].log;
        new_bench(&bench, small, NULL, 0, end);
        memcpy(bench.lent[MAIN].at, chain, sizeof chain);
        remember_all(&bench);
        CHECK(tejborun_start(words(&bench.lent[BLOCK]), TEJBORUN_BLOCK_WORDS, 2, 0, 0) == TEJBORUN_DONE);
        CHECK(call_run(&bench, UINT64_MAX) == stops[i].answer && all_kept_outside(&bench));
        CHECK(stops[i].answer == TEJBORUN_DONE ? ran(&bench, 3, 1) : ran(&bench, 2, 0));
        CHECK(stops[i].answer == TEJBORUN_DONE || unchanged(&bench.lent[LOG]));
        free_bench(&bench);
    }
}

/* GIF quadwords, and whether each closes a packet. */
static const struct {
    uint32_t words[4];
    bool closes;
} gif[] = {
    {{0x8000, 0, 0, 0}, true},                                                                                /* EOP and NLOOP 0 */
    {{0, 0, 0, 0}, false},                                                                                    /* NLOOP 0 alone */
    {{0x8001, 0x10000000, 0xE, 0}, false}, {{1, 0, 5, 0}, true},                                              /* PACKED */
    {{0x8001, 0x20000000, 0xFF, 0}, false}, {{1, 2, 3, 4}, false}, {{1, 2, 3, 4}, true},                      /* PACKED, nothing written */
    {{0x8001, 0x34000000, 0x555, 0}, false}, {{1, 2, 3, 4}, false}, {{1, 2, 3, 4}, true},                     /* REGLIST, the last half dropped */
    {{0x8001, 0x24000000, 0x55, 0}, false}, {{1, 2, 3, 4}, true},                                             /* REGLIST, both halves */
    {{0x8003, 0x08000000, 0, 0}, false}, {{1, 2, 3, 4}, false}, {{1, 2, 3, 4}, false}, {{1, 2, 3, 4}, true},  /* IMAGE */
    {{0x8001, 0x0C000000, 0, 0}, false}, {{1, 2, 3, 4}, true},                                                /* IMAGE by FLG 3 */
    {{1, 0x10000000, 0xE, 0}, false}, {{0x8000, 0, 5, 0}, false},                                             /* PACKED without EOP */
    {{0x8000, 0, 0, 0}, true},
};
enum { GIF_QUADWORDS = sizeof gif / sizeof gif[0], GIF_PACKETS = 8 };

/* How many of the first quadwords close a packet. */
static uint64_t closed_by(uint64_t quadwords)
{
    uint64_t closed = 0;
    for (size_t i = 0; i < quadwords; i++)
        closed += gif[i].closes;
    return closed;
}

/* These quadwords on a channel, on 1 by DIRECT, with every allowance; a second run goes on: each counts what its own steps close. */
static void try_packets(uint32_t channel, bool end)
{
    const uint64_t first = channel == 2 ? 1 : 5, all = first + GIF_QUADWORDS;
    const uint32_t head[2][4] = {{0x70000000 | (GIF_QUADWORDS + (channel == 1))}, {0, 0, 0, 0x50000000 | GIF_QUADWORDS}};
    const size_t heads = channel == 2 ? 1 : 2;
    struct lengths lengths = good;
    lengths.main = 16 * (heads + GIF_QUADWORDS);
    for (uint64_t allowance = 0; allowance <= all; allowance++) {
        uint64_t closed = closed_by(allowance < first ? 0 : allowance - first);
        struct bench bench;
        new_bench(&bench, lengths, NULL, 0, end);
        memcpy(bench.lent[MAIN].at, head, 16 * heads);
        for (size_t i = 0; i < GIF_QUADWORDS; i++)
            memcpy(bench.lent[MAIN].at + 16 * (heads + i), gif[i].words, 16);
        remember_all(&bench);
        CHECK(tejborun_start(words(&bench.lent[BLOCK]), TEJBORUN_BLOCK_WORDS, channel, 0, 0) == TEJBORUN_DONE);
        CHECK(call_run(&bench, allowance) == (allowance < all ? TEJBORUN_ALLOWANCE : TEJBORUN_DONE) && ran(&bench, allowance, closed));
        CHECK(call_run(&bench, UINT64_MAX) == TEJBORUN_DONE && ran(&bench, all - allowance, GIF_PACKETS - closed) && all_kept_outside(&bench));
        free_bench(&bench);
    }
}

/* Runs that stop by DIRECT: at a mark with the quadword that closes a packet, and refused after one, by a quadword that would close the next. */
static void test_packets(bool end)
{
    static const struct {
        uint32_t direct, tag[4];
        size_t log;
        uint32_t answer;
        uint64_t steps;
    } stops[] = {
        {0xD0000001, {0x8001, 0x10000000, 0xE, 0}, TEJBORUN_ENTRY_NUMBERS, TEJBORUN_INTERRUPT, 6},
        {0x50000003, {0x8001, 0x10000000, 0xB, 0}, TEJBORUN_ENTRY_NUMBERS, TEJBORUN_BAD_DESCRIPTOR, 7},
        {0x50000003, {0x8001, 0x10000000, 0xE, 0}, 0, TEJBORUN_LOG_FULL, 7},
        {0x50000003, {0x8001, 0x08000000, 0, 0}, TEJBORUN_ENTRY_NUMBERS, TEJBORUN_LOG_FULL, 7},
    };
    CHECK(closed_by(GIF_QUADWORDS) == GIF_PACKETS);
    try_packets(1, end);
    try_packets(2, end);
    for (size_t i = 0; i < sizeof stops / sizeof stops[0]; i++) {
        const uint32_t chain[5][4] = {{0x70000004}, {0, 0, 0, stops[i].direct}, {0x8000}};
        struct lengths small = good;
        struct bench bench;
        small.main = sizeof chain;
        small.log = stops[i].log;
        new_bench(&bench, small, NULL, 0, end);
        memcpy(bench.lent[MAIN].at, chain, sizeof chain);
        memcpy(bench.lent[MAIN].at + 16 * 3, stops[i].tag, 16);
        remember_all(&bench);
        CHECK(call_run(&bench, UINT64_MAX) == stops[i].answer && ran(&bench, stops[i].steps, 1));
        CHECK(unchanged(&bench.lent[LOG]) && all_kept_outside(&bench));
        free_bench(&bench);
    }
}

/* A packet of each format, the first with PRE, and what they write. */
static const uint32_t packets[][4] = {
    {0x8001, 0x10034000, 0xE, 0}, {0x5000D, 0, 0x47, 0},                                                       /* PACKED: A+D */
    {0x8001, 0x24000000, 0x51, 0}, {1, 0, 2, 0},                                                               /* REGLIST: RGBAQ, XYZ2 */
    {0x8001, 0x08000000, 0, 0}, {3, 0, 4, 0},                                                                  /* IMAGE: HWREG twice */
};
static const uint64_t written[][2] = {{0, 6}, {0x47, 0x5000D}, {1, 1}, {5, 2}, {0x54, 3}, {0x54, 4}};
enum { PACKET_QUADWORDS = sizeof packets / sizeof packets[0], WRITTEN = sizeof written / sizeof written[0], BOTH = WRITTEN + 3 + WRITTEN };

/* Whether the log holds so many entries, those that the packets write on channel 1, between its program starts, and on channel 2, in the order of the runs;
 * beyond them it is as it was. */
static bool holds_paths(const struct bench *bench, bool on_2_first, size_t entries)
{
    uint64_t expected[BOTH][TEJBORUN_ENTRY_NUMBERS];
    size_t at = 0;
    for (int turn = 0; turn < 2; turn++) {
        bool on_2 = (turn == 0) == on_2_first;
        if (!on_2) {
            memcpy(expected[at++], (const uint64_t[]){0, 256, 5}, sizeof expected[0]);
            memcpy(expected[at++], (const uint64_t[]){0, 257, 6}, sizeof expected[0]);
        }
        for (size_t i = 0; i < WRITTEN; i++)
            memcpy(expected[at++], (const uint64_t[]){on_2 ? 3 : 2, written[i][0], written[i][1]}, sizeof expected[0]);
        if (!on_2)
            memcpy(expected[at++], (const uint64_t[]){0, 258, 0}, sizeof expected[0]);
    }
    const struct lent *log = &bench->lent[LOG];
    if (memcmp(log->at, expected, entries * sizeof expected[0]) != 0)
        return false;
    for (size_t i = entries * sizeof expected[0]; i < log->bytes; i++)
        if (log->at[i] != FILL)
            return false;
    return state(&bench->lent[BLOCK])->chain.used[0] == entries;
}

/* Channels 1 and 2 over one log, in both orders, with room for every number of entries: 31 comes where three numbers an entry no longer fit. */
static void try_paths(bool on_2_first, size_t entries, bool end)
{
    const uint32_t direct[][4] = {{0x70000000 | (PACKET_QUADWORDS + 2)}, {0x14000005, 0x15000006, 0, 0x50000000 | PACKET_QUADWORDS}};
    const uint32_t after[][4] = {{0x17000000}, {0x70000000 | PACKET_QUADWORDS}};
    struct lengths lengths = good;
    struct bench bench;
    uint32_t answer = TEJBORUN_DONE;
    lengths.main = 16 * (4 + 2 * PACKET_QUADWORDS);
    lengths.log = entries * TEJBORUN_ENTRY_NUMBERS;
    new_bench(&bench, lengths, NULL, 0, end);
    uint8_t *main = bench.lent[MAIN].at;
    memcpy(main, direct, sizeof direct);
    memcpy(main + 16 * 2, packets, sizeof packets);
    memcpy(main + 16 * (2 + PACKET_QUADWORDS), after, sizeof after);
    memcpy(main + 16 * (4 + PACKET_QUADWORDS), packets, sizeof packets);
    remember_all(&bench);
    for (int turn = 0; turn < 2 && answer == TEJBORUN_DONE; turn++) {
        bool on_2 = (turn == 0) == on_2_first;
        CHECK(tejborun_start(words(&bench.lent[BLOCK]), TEJBORUN_BLOCK_WORDS, on_2 ? 2 : 1, on_2 ? 16 * (3 + PACKET_QUADWORDS) : 0, 0) == TEJBORUN_DONE);
        answer = call_run(&bench, UINT64_MAX);
    }
    size_t used = state(&bench.lent[BLOCK])->chain.used[0];
    CHECK(all_kept_outside(&bench) && answer == (entries < BOTH ? TEJBORUN_LOG_FULL : TEJBORUN_DONE));
    CHECK(used <= entries && used + 2 > (entries < BOTH ? entries : BOTH) && holds_paths(&bench, on_2_first, used));
    free_bench(&bench);
}

static void test_paths(bool end)
{
    for (size_t entries = 0; entries <= BOTH + 1; entries++) {
        try_paths(false, entries, end);
        try_paths(true, entries, end);
    }
}

/* The words of a block that a set changes: ROW 0 to 3, then COL 0 to 3, of VIF0 and of VIF1. */
static size_t set_word(uint32_t unit, uint32_t number)
{
    return (unit == 0 ? WORD(vif0.row) : WORD(vif1.row)) + number;
}
_Static_assert(WORD(vif1.col) == WORD(vif1.row) + TEJBORUN_COL && WORD(vif0.col) == WORD(vif0.row) + TEJBORUN_COL, "COL lies behind ROW");

/* What a step counts beside itself: a tag's QWC by its ID, a word, a word that is a NOP, or a quadword that closes a packet or does not. */
enum counted { WORD_STEP = 8, NOP_STEP, QUADWORD_STEP, CLOSING_STEP };

struct step {
    unsigned what; /* a tag's ID, or one of the above */
    uint64_t qwc;  /* of a tag */
};

/* The counts of the first steps. */
static void count_steps(const struct step *steps, size_t from, size_t to, uint64_t counts[TEJBORUN_COUNTS])
{
    memset(counts, 0, TEJBORUN_COUNTS * sizeof *counts);
    for (size_t i = from; i < to; i++) {
        counts[TEJBORUN_COUNT_STEPS]++;
        if (steps[i].what < TEJBORUN_TAG_IDS)
            counts[TEJBORUN_COUNT_QWC + steps[i].what] += steps[i].qwc;
        counts[TEJBORUN_COUNT_WORDS] += steps[i].what == WORD_STEP || steps[i].what == NOP_STEP;
        counts[TEJBORUN_COUNT_NOPS] += steps[i].what == NOP_STEP;
        counts[TEJBORUN_COUNT_PACKETS] += steps[i].what == CLOSING_STEP;
    }
}

/* A chain whose steps are known, and the answer where it ends. */
struct counted_chain {
    uint32_t start[3]; /* channel, TADR, TTE */
    const uint32_t *words;
    size_t count, steps;
    const struct step *step;
    uint32_t answer;
};

/* Runs a counted chain with an allowance, then to its end: the counts of each run are those of its own steps. */
static void try_counts(const struct counted_chain *chain, size_t allowance, bool end)
{
    struct bench bench;
    struct lengths lengths = chain->start[0] == 0 ? good0 : good;
    uint64_t counts[TEJBORUN_COUNTS];
    lengths.main = 4 * chain->count;
    new_bench(&bench, lengths, NULL, 0, end);
    memcpy(bench.lent[MAIN].at, chain->words, lengths.main);
    CHECK(tejborun_start(words(&bench.lent[BLOCK]), TEJBORUN_BLOCK_WORDS, chain->start[0], chain->start[1], chain->start[2]) == TEJBORUN_DONE);
    remember_all(&bench);
    size_t most = allowance < chain->steps ? allowance : chain->steps;
    uint32_t answer = call_run(&bench, allowance);
    CHECK(answer == (most < chain->steps || (allowance == chain->steps && chain->answer != TEJBORUN_DONE) ? TEJBORUN_ALLOWANCE : chain->answer));
    count_steps(chain->step, 0, most, counts);
    CHECK(memcmp(numbers(&bench.lent[RESULT]), counts, sizeof counts) == 0 && kept_from(&bench, RUN_NUMBERS));
    CHECK(call_run(&bench, UINT64_MAX) == chain->answer);
    count_steps(chain->step, most, chain->steps, counts);
    CHECK(memcmp(numbers(&bench.lent[RESULT]), counts, sizeof counts) == 0 && kept_from(&bench, RUN_NUMBERS));
    free_bench(&bench);
}

/* Tags of every ID with their words transferred: NOPs with other bits set, words of payload that are zero, in the tag too, and a quadword inside DIRECT. */
static const uint32_t counted_words[] = {
    0x10000001, 0, 0x00FF8009, 0x07000001, 0, 0x30000000, 0, 0,                            /* 0x00: cnt; NOP, MARK; NOP, STROW and two of its words */
    0x20000002, 0x60, 0, 0, 0, 0, 0, 0x50000001, 0x8000, 0, 0, 0, 0, 0, 0, 0,              /* 0x20: next; the other two; NOPs, DIRECT, a GIF tag that closes */
    0x30000001, 0x100, 0, 0, 0x40000001, 0x100, 0, 0,                                      /* 0x60: ref; 0x70: refs */
    0x50000001, 0xC0, 0, 0, 0, 0, 0, 0, 0x00000001, 0x100, 0, 0, 0, 0, 0, 0,               /* 0x80: call; 0xA0: refe, the last tag */
    0x60000001, 0, 0, 0, 0x07000001, 0x07000002, 0x07000003, 0x07000004, 0, 0, 0, 0, 0, 0, 0, 0, /* 0xC0: ret */
    0, 0x07000005, 0x04000006, 0,                                                          /* 0x100: what ref, refs and refe refer to */
};

#define NOPS_2 {NOP_STEP, 0}, {NOP_STEP, 0}
#define WORDS_2 {WORD_STEP, 0}, {WORD_STEP, 0}
#define REFERRED {NOP_STEP, 0}, WORDS_2, {NOP_STEP, 0}

static const struct step counted_steps[] = {
    {1, 1}, {NOP_STEP, 0}, {WORD_STEP, 0}, {NOP_STEP, 0}, {WORD_STEP, 0}, WORDS_2,
    {2, 2}, WORDS_2, {NOP_STEP, 0}, NOPS_2, {WORD_STEP, 0}, {CLOSING_STEP, 0},
    {3, 1}, NOPS_2, REFERRED,
    {4, 1}, NOPS_2, REFERRED,
    {5, 1}, NOPS_2, NOPS_2, NOPS_2,
    {6, 1}, NOPS_2, WORDS_2, WORDS_2,
    {0, 1}, NOPS_2, REFERRED,
};

/* Codes of VIF0, of which the last is refused; and a tag and an image on channel 2, then a tag that is refused. */
static const uint32_t vif0_words[] = {0x70000001, 0, 0, 0, 0x00120034, 0x01000101, 0, 0x02000000};
static const struct step vif0_steps[] = {{7, 1}, {NOP_STEP, 0}, {WORD_STEP, 0}, {NOP_STEP, 0}};
static const uint32_t gif_words[] = {0x10000003, 0, 0, 0, 0x8001, 0x08000000, 0, 0, 0, 0, 0, 0, 0x8000, 0, 0, 0, 0x30000005, 0x8, 0, 0};
static const struct step gif_steps[] = {{1, 3}, {QUADWORD_STEP, 0}, {CLOSING_STEP, 0}, {CLOSING_STEP, 0}};

#define LIST(name) name##_words, sizeof name##_words / sizeof(uint32_t), sizeof name##_steps / sizeof(struct step), name##_steps

static void test_counts(bool end)
{
    static const struct counted_chain chains[] = {
        {{1, 0, 1}, LIST(counted), TEJBORUN_DONE},
        {{0, 0, 0}, LIST(vif0), TEJBORUN_BAD_CMD},
        {{2, 0, 0}, LIST(gif), TEJBORUN_BAD_ADDR},
    };
    for (size_t i = 0; i < sizeof chains / sizeof chains[0]; i++)
        for (size_t allowance = 0; allowance <= chains[i].steps + 1; allowance++)
            try_counts(&chains[i], allowance, end);
}

/* Adds counts to totals in pages of their own, the counts only read. */
static uint32_t add_totals(struct lent *totals, const struct lent *counts)
{
    remember(totals);
    only_read(counts, true);
    uint32_t answer = tejborun_add_totals(numbers(totals), totals->bytes / 8, numbers(counts), counts->bytes / 8);
    only_read(counts, false);
    CHECK(kept_outside(totals) && (answer == TEJBORUN_DONE || unchanged(totals)));
    return answer;
}

/* Each sum up to 2^64 - 1 and beyond it: 54, and no sum changes. The steps have no part in it. */
static void test_totals(bool end)
{
    struct lent totals = lend(8 * TEJBORUN_TOTALS, end), counts = lend(8 * TEJBORUN_COUNTS, end);
    for (size_t i = 0; i < TEJBORUN_TOTALS; i++) {
        for (size_t j = 0; j < TEJBORUN_TOTALS; j++) {
            numbers(&totals)[j] = 100 + j;
            numbers(&counts)[1 + j] = 1000 * (j + 1);
        }
        numbers(&counts)[TEJBORUN_COUNT_STEPS] = UINT64_MAX;
        numbers(&totals)[i] = UINT64_MAX - 1000 * (i + 1);
        CHECK(add_totals(&totals, &counts) == TEJBORUN_DONE);
        for (size_t j = 0; j < TEJBORUN_TOTALS; j++)
            CHECK(numbers(&totals)[j] == (j == i ? UINT64_MAX : 100 + j + 1000 * (j + 1)));
        CHECK(add_totals(&totals, &counts) == TEJBORUN_TOTAL_FULL);
        numbers(&counts)[1 + i] = 1;
        CHECK(add_totals(&totals, &counts) == TEJBORUN_TOTAL_FULL);
        numbers(&counts)[1 + i] = 0;
        CHECK(add_totals(&totals, &counts) == TEJBORUN_DONE && numbers(&totals)[i] == UINT64_MAX);
    }
    give_back(&totals);
    give_back(&counts);
}

/* Totals that are not eleven, counts that are fewer than twelve, a share that is fewer than two: nothing changes. Counts may be more. */
static void test_short_totals(bool end)
{
    for (size_t i = 0; i < 2 * (TEJBORUN_COUNTS + 2); i++) {
        struct lent totals = lend(8 * (i / 2), end), counts = lend(8 * TEJBORUN_COUNTS, end), result = lend(8 * (1 + i % 2), end);
        bool is_short = i / 2 != TEJBORUN_TOTALS;
        memset(totals.at, 0, totals.bytes);
        CHECK(add_totals(&totals, &counts) == (is_short ? TEJBORUN_SHORT : TEJBORUN_DONE));
        remember(&totals);
        remember(&result);
        uint32_t answer = tejborun_nop_share(numbers(&totals), i / 2, numbers(&result), 1 + i % 2);
        CHECK(answer == (is_short || i % 2 == 0 ? TEJBORUN_SHORT : TEJBORUN_DONE) && unchanged(&totals));
        CHECK(answer == TEJBORUN_SHORT ? unchanged(&result) : kept_outside(&result));
        give_back(&totals);
        totals = lend(8 * TEJBORUN_TOTALS, end);
        give_back(&counts);
        counts = lend(8 * (i / 2), end);
        memset(totals.at, 0, totals.bytes);
        CHECK(add_totals(&totals, &counts) == (i / 2 < TEJBORUN_COUNTS ? TEJBORUN_SHORT : TEJBORUN_DONE));
        give_back(&totals);
        give_back(&counts);
        give_back(&result);
    }
    CHECK(tejborun_add_totals(NULL, 0, NULL, 0) == TEJBORUN_SHORT && tejborun_nop_share(NULL, 0, NULL, 0) == TEJBORUN_SHORT);
}

static void test_shares(void)
{
    static const uint64_t shares[][4] = {
        /* NOPs, words, and the share */
        {0, 0, 0, 1},
        {0, 7, 0, 1},
        {7, 7, 1, 1},
        {4, 6, 2, 3},
        {6, 4, 3, 2},
        {5, 0, 0, 1},
        {UINT64_MAX, UINT64_MAX, 1, 1},
        {UINT64_MAX / 5, UINT64_MAX, 1, 5},
        {UINT64_MAX - 1, UINT64_MAX, UINT64_MAX - 1, UINT64_MAX},
        {UINT64_C(7540113804746346429), UINT64_C(12200160415121876738), UINT64_C(7540113804746346429), UINT64_C(12200160415121876738)},
    };
    for (size_t i = 0; i < sizeof shares / sizeof shares[0]; i++) {
        uint64_t totals[TEJBORUN_TOTALS], result[3] = {9, 9, 9};
        for (size_t j = 0; j < TEJBORUN_TOTALS; j++)
            totals[j] = 1000 + j;
        totals[TEJBORUN_TOTAL_NOPS] = shares[i][0];
        totals[TEJBORUN_TOTAL_WORDS] = shares[i][1];
        CHECK(tejborun_nop_share(totals, TEJBORUN_TOTALS, result, 3) == TEJBORUN_DONE);
        CHECK(result[0] == shares[i][2] && result[1] == shares[i][3] && result[2] == 9);
        CHECK(totals[0] == 1000 && totals[TEJBORUN_TOTALS - 1] == 1000 + TEJBORUN_TOTALS - 1);
    }
}

/* A set on a reset block with a word of its own, and numbers in the words that mean nothing there: with 0 the register's word is the value, and no other word
 * is another than before. */
static void try_set(size_t word, uint32_t held, const uint32_t *set, uint32_t answer, bool end)
{
    static const struct tejborun_state idle = {
        .chain = {.channel = 1, .stack = {3, 5}, .tag_word_at = 7, .payload_at = 9, .used = {UINT32_MAX, UINT32_MAX}},
        .vif1 = {.cl = 256, .mode = 3, .irq = 2, .due = 3, .format = 3, .usn = 2, .m = 2, .held = {1, 2, 3}},
        .path2 = {.format = 3, .eop = 2, .nreg = 17},
        .vif0 = {.ofst = 1, .irq = 2, .format = 16, .count = 257},
    };
    struct lent block = lend(sizeof idle, end);
    memcpy(block.at, &idle, sizeof idle);
    words(&block)[word] = held;
    struct lent expected = lend(sizeof idle, end);
    memcpy(expected.at, block.at, sizeof idle);
    if (answer == TEJBORUN_DONE)
        words(&expected)[set_word(set[0], set[1])] = set[2];
    remember(&block);
    CHECK(tejborun_set(words(&block), TEJBORUN_BLOCK_WORDS, set[0], set[1], set[2]) == answer);
    CHECK(kept_outside(&block) && memcmp(block.at, expected.at, sizeof idle) == 0);
    CHECK(answer == TEJBORUN_DONE || unchanged(&block));
    give_back(&block);
    give_back(&expected);
}

/* Each register of each unit, to values of each kind, over every value that it held. */
static void test_set(bool end)
{
    static const uint32_t values[] = {0, 1, 0x3F800000, 0x80000000, UINT32_MAX};
    for (uint32_t unit = 0; unit < 2; unit++)
        for (uint32_t number = 0; number < 8; number++)
            for (size_t i = 0; i < sizeof values / sizeof values[0]; i++) {
                const uint32_t set[3] = {unit, number, values[i]};
                try_set(set_word(unit, number), 0, set, TEJBORUN_DONE, end);
                try_set(set_word(unit, number), UINT32_MAX, set, TEJBORUN_DONE, end);
                try_set(set_word(1 - unit, number), 77, set, TEJBORUN_DONE, end);
            }
}

/* Words of a block that is no state's. */
static const struct {
    size_t word;
    uint32_t value;
} no_state[] = {
    {WORD(chain.tte), 2},     {WORD(chain.ended), 2},   {WORD(chain.tag_words), 2}, {WORD(chain.depth), 3},    {WORD(vif1.dbf), 2},
    {WORD(vif1.mskpath3), 2}, {WORD(vif1.waiting), 8},  {WORD(path2.place), 2},     {WORD(path2.place), 1},    {WORD(path3.place), UINT32_MAX},
    {WORD(vif0.dbf), 2},      {WORD(vif0.mskpath3), 2}, {WORD(vif0.waiting), 8},    {WORD(vif0.waiting), UINT32_MAX},
};

/* The refusals of a set, in their order: the number, the unit and the block, a code that waits. */
static void test_wrong_set(bool end)
{
    static const uint32_t good_set[3] = {1, 0, 5}, numbers[] = {8, 9, 0x10000, UINT32_MAX}, units[] = {2, 3, 0x100, UINT32_MAX};
    static const size_t lengths[] = {0, 1, TEJBORUN_BLOCK_WORDS - 1, TEJBORUN_BLOCK_WORDS + 1, 2 * TEJBORUN_BLOCK_WORDS};
    for (size_t i = 0; i < sizeof numbers / sizeof numbers[0]; i++) {
        const uint32_t in_1[3] = {1, numbers[i], 5}, in_2[3] = {2, numbers[i], 5};
        try_set(WORD(chain.channel), 1, in_1, TEJBORUN_BAD_NUMBER, end);
        try_set(WORD(chain.channel), 1, in_2, TEJBORUN_BAD_NUMBER, end);
        try_set(WORD(chain.tte), 2, in_1, TEJBORUN_BAD_NUMBER, end);
        try_set(WORD(vif1.waiting), TEJBORUN_WAITS_MPG, in_1, TEJBORUN_BAD_NUMBER, end);
    }
    for (size_t i = 0; i < sizeof units / sizeof units[0]; i++)
        for (uint32_t number = 0; number < 8; number++) {
            const uint32_t set[3] = {units[i], number, 5};
            try_set(WORD(chain.channel), 1, set, TEJBORUN_BAD_VALUE, end);
        }
    for (size_t i = 0; i < sizeof no_state / sizeof no_state[0]; i++)
        for (uint32_t unit = 0; unit < 2; unit++) {
            const uint32_t set[3] = {unit, 7, 5};
            try_set(no_state[i].word, no_state[i].value, set, TEJBORUN_BAD_VALUE, end);
        }
    for (size_t i = 0; i < sizeof lengths / sizeof lengths[0]; i++) {
        struct lent block = lend(4 * lengths[i], end);
        remember(&block);
        CHECK(tejborun_set(words(&block), lengths[i], good_set[0], good_set[1], good_set[2]) == TEJBORUN_SHORT && unchanged(&block));
        CHECK(tejborun_set(words(&block), lengths[i], 2, 8, 0) == TEJBORUN_SHORT && unchanged(&block));
        give_back(&block);
    }
    CHECK(tejborun_set(NULL, 0, 1, 0, 0) == TEJBORUN_SHORT);
}

/* A code of a unit waits: that unit's registers are not set, the other's are; a block that is no state's is refused first. */
static void try_waiting_set(uint32_t waiting, uint32_t unit, uint32_t number, bool end)
{
    struct tejborun_state held = {.chain.channel = 1};
    *(unit == 0 ? &held.vif0 : &held.vif1) = (struct tejborun_unit){.waiting = waiting, .due = 1};
    struct lent block = lend(sizeof held, end);
    memcpy(block.at, &held, sizeof held);
    remember(&block);
    CHECK(tejborun_set(words(&block), TEJBORUN_BLOCK_WORDS, unit, number, 5) == TEJBORUN_UNIT_WAITS && unchanged(&block));
    CHECK(tejborun_set(words(&block), TEJBORUN_BLOCK_WORDS, 1 - unit, number, 5) == TEJBORUN_DONE && kept_outside(&block));
    ((uint32_t *)&held)[set_word(1 - unit, number)] = 5;
    CHECK(memcmp(block.at, &held, sizeof held) == 0);
    words(&block)[WORD(chain.tte)] = 2;
    remember(&block);
    CHECK(tejborun_set(words(&block), TEJBORUN_BLOCK_WORDS, unit, number, 5) == TEJBORUN_BAD_VALUE && unchanged(&block));
    give_back(&block);
}

static void test_waiting_set(bool end)
{
    for (uint32_t waiting = TEJBORUN_WAITS_STMASK; waiting < TEJBORUN_WAITING; waiting++)
        for (uint32_t number = 0; number < 8; number++) {
            try_waiting_set(waiting, 0, number, end);
            try_waiting_set(waiting, 1, number, end);
        }
}

/* Writes ROW to quadword 0 and COL 0 to 3 to quadwords 1 to 4, by mask codes 1 and 2. */
static const uint32_t masked_chain[] = {
    0x70000007, 0, 0, 0,                                      /* end, seven quadwords */
    0x01000404, 0x20000000, 0x55555555, 0x7C010000,           /* STCYCL 4, 4; STMASK; UNPACK V4-32 under it, one vector to quadword 0 */
    9, 9, 9, 9,
    0x20000000, 0xAAAAAAAA, 0x7C040001, 9,                    /* STMASK; UNPACK, four vectors from quadword 1 on */
    9, 9, 9, 9, 9, 9, 9, 9, 9, 9, 9, 9, 9, 9, 9,
    0,
};

/* Sets the registers of a unit to 3F800000h and on, and those of the other to another number. */
static void set_both(uint32_t *block, uint32_t unit)
{
    for (uint32_t number = 0; number < 8; number++) {
        CHECK(tejborun_set(block, TEJBORUN_BLOCK_WORDS, unit, number, 0x3F800000 + number) == TEJBORUN_DONE);
        CHECK(tejborun_set(block, TEJBORUN_BLOCK_WORDS, 1 - unit, number, 0xBAD) == TEJBORUN_DONE);
    }
}

/* What is set, before the start or after it, is what the codes read. */
static void try_set_seen(uint32_t unit, bool after_start, bool end)
{
    struct bench bench;
    new_bench(&bench, unit == 0 ? good0 : good, NULL, 0, end);
    memcpy(bench.lent[MAIN].at, masked_chain, sizeof masked_chain);
    uint32_t *block = words(&bench.lent[BLOCK]), *data = words(&bench.lent[DATA]);
    if (!after_start)
        set_both(block, unit);
    CHECK(tejborun_start(block, TEJBORUN_BLOCK_WORDS, unit, 0, 0) == TEJBORUN_DONE);
    if (after_start)
        set_both(block, unit);
    remember_all(&bench);
    CHECK(call_run(&bench, UINT64_MAX) == TEJBORUN_DONE && all_kept_outside(&bench));
    for (uint32_t i = 0; i < 4; i++)
        CHECK(data[i] == 0x3F800000 + i);
    for (uint32_t i = 0; i < 16; i++)
        CHECK(data[4 + i] == 0x3F800004 + i / 4);
    CHECK(data[20] == UINT32_C(0xA5A5A5A5));
    free_bench(&bench);
}

static void test_set_seen(bool end)
{
    for (uint32_t unit = 0; unit < 2; unit++) {
        try_set_seen(unit, false, end);
        try_set_seen(unit, true, end);
    }
}

/* Where a chain of so many words on a channel stands after so many steps, from a state on. */
static void run_state(struct tejborun_state *state, const uint32_t *chain, size_t count, const uint32_t start[3], uint64_t steps)
{
    static uint32_t data[TEJBORUN_VIF1_DATA_WORDS];
    static uint8_t code[TEJBORUN_VIF1_CODE_BYTES];
    uint64_t log[ENTRIES * TEJBORUN_ENTRY_NUMBERS] = {0}, result[RUN_NUMBERS];
    uint32_t *block = (uint32_t *)state;
    CHECK(tejborun_start(block, TEJBORUN_BLOCK_WORDS, start[0], start[1], start[2]) == TEJBORUN_DONE);
    const struct lengths *lengths = start[0] == 0 ? &good0 : &good;
    CHECK(tejborun_run((const uint8_t *)chain, 4 * count, data, lengths->data, code, lengths->code, log, ENTRIES * TEJBORUN_ENTRY_NUMBERS, block,
                       TEJBORUN_BLOCK_WORDS, steps, result, RUN_NUMBERS) == TEJBORUN_ALLOWANCE);
    CHECK(result[0] == steps && result[1] == 0);
}

/* Two calls and codes that give every register of VIF1 a value of its own: each is in its word of the block. */
static void test_unit_words(void)
{
    static const uint32_t chain[] = {
        0x50000001, 0x20, 0, 0, 0, 0, 0, 0,                                     /* at 0h: call, a quadword of NOPs */
        0x50000002, 0x60, 0, 0, 0, 0, 0, 0, 0, 0, 0, 0, 0, 0, 0, 0,             /* at 20h: call, two quadwords of NOPs; one that is not met */
        0x10000009, 0, 0, 0,                                                    /* at 60h: cnt, nine quadwords */
        0x01000305, 0x03000022, 0x02000011, 0x04000044,                         /* STCYCL, BASE, OFFSET, ITOP */
        0x14000000, 0x03000055, 0x04000066, 0x05000001,                         /* MSCAL, BASE, ITOP, STMOD */
        0x06008000, 0x07007777, 0x20000000, 0x88888888,                         /* MSKPATH3, MARK, STMASK */
        0x30000000, 0xA0, 0xA1, 0xA2, 0xA3, 0x31000000, 0xB0, 0xB1, 0xB2, 0xB3, /* STROW, STCOL */
        0xF9074123, 0xC0, 0xC1, 0xC2, 0xC3, 0, 0, 0, 0, 0, 0, 0, 0, 0,          /* UNPACK V3-16, seven vectors: eleven words, four of them taken */
    };
    static const struct tejborun_state expected = {
        .chain = {.channel = 1, .tadr = 0x100, .depth = 2, .stack = {0x20, 0x50}, .payload_words = 9, .payload_at = 0xDC, .used = {1}},
        .vif1 = {.cl = 5, .wl = 3, .ofst = 0x11, .base = 0x55, .tops = 0x33, .top = 0x22, .itops = 0x66, .itop = 0x44, .dbf = 1, .mode = 1, .mskpath3 = 1,
                 .mark = 0x7777, .mask = 0x88888888, .row = {0xA0, 0xA1, 0xA2, 0xA3}, .col = {0xB0, 0xB1, 0xB2, 0xB3}, .waiting = TEJBORUN_WAITS_UNPACK,
                 .irq = 1, .due = 7, .address = 0x123, .count = 7, .format = 9, .usn = 1, .m = 1, .held = {0xC1, 0xC2, 0xC3}},
    };
    static const uint32_t start[3] = {1, 0, 0};
    struct tejborun_state state;
    CHECK(tejborun_reset((uint32_t *)&state, TEJBORUN_BLOCK_WORDS) == TEJBORUN_DONE);
    run_state(&state, chain, sizeof chain / 4, start, 3 + 4 + 8 + 27);
    CHECK(memcmp(&state, &expected, sizeof state) == 0);
}

/* The same for VIF0, which has fewer; VIF1's words stay. */
static void test_vif0_words(void)
{
    static const uint32_t chain[] = {
        0x10000008, 0, 0, 0,                                                    /* cnt, eight quadwords */
        0x01000305, 0x04000044, 0x14000000, 0x04000066,                         /* STCYCL, ITOP, MSCAL, ITOP */
        0x05000001, 0x07007777, 0x20000000, 0x88888888,                         /* STMOD, MARK, STMASK */
        0x30000000, 0xA0, 0xA1, 0xA2, 0xA3, 0x31000000, 0xB0, 0xB1, 0xB2, 0xB3, /* STROW, STCOL */
        0xF9074323, 0xC0, 0xC1, 0xC2, 0xC3, 0, 0, 0, 0, 0, 0, 0, 0, 0,          /* UNPACK V3-16, seven vectors from 323h on: eleven words, four of them taken */
    };
    static const struct tejborun_state expected = {
        .chain = {.channel = 0, .tadr = 0x90, .payload_words = 9, .payload_at = 0x6C, .used = {1}},
        .vif0 = {.cl = 5, .wl = 3, .itops = 0x66, .itop = 0x44, .mode = 1, .mark = 0x7777, .mask = 0x88888888, .row = {0xA0, 0xA1, 0xA2, 0xA3},
                 .col = {0xB0, 0xB1, 0xB2, 0xB3}, .waiting = TEJBORUN_WAITS_UNPACK, .irq = 1, .due = 7, .address = 0x323, .count = 7, .format = 9, .usn = 1,
                 .m = 1, .held = {0xC1, 0xC2, 0xC3}},
    };
    static const uint32_t start[3] = {0, 0, 0};
    struct tejborun_state state;
    CHECK(tejborun_reset((uint32_t *)&state, TEJBORUN_BLOCK_WORDS) == TEJBORUN_DONE);
    run_state(&state, chain, sizeof chain / 4, start, 1 + 4 + 4 + 10 + 5);
    CHECK(memcmp(&state, &expected, sizeof state) == 0);
}

/* Tag words that are pending, and a held tag on each path: each number is in its word of the block. */
static void test_path_words(void)
{
    static const uint32_t direct[] = {
        0x70000003, 0, 0, 0x50000009,           /* end, three quadwords; DIRECT as a tag word */
        0x8005, 0x34000000, 0x76543210, 0xFEDC, /* REGLIST, NLOOP 5, EOP, NREG 3 */
        1, 2, 3, 4, 5, 6, 7, 8,
    };
    static const uint32_t image[] = {
        0x70000002, 0, 0, 0,       /* end, two quadwords */
        7, 0x18000000, 0x11, 0x22, /* IMAGE, NLOOP 7, NREG 1 */
        1, 2, 3, 4,
    };
    static const uint32_t on_1[3] = {1, 0, 1}, on_2[3] = {2, 0, 0}, one = 0x3F800000;
    struct tejborun_state expected = {.chain = {.channel = 1, .tte = 1, .ended = 1, .tag_words = 1, .tag_word_at = 8, .payload_words = 12, .payload_at = 16}};
    struct tejborun_state state;
    CHECK(tejborun_reset((uint32_t *)&state, TEJBORUN_BLOCK_WORDS) == TEJBORUN_DONE);
    run_state(&state, direct, sizeof direct / 4, on_1, 1);
    CHECK(memcmp(&state, &expected, sizeof state) == 0);
    run_state(&state, direct, sizeof direct / 4, on_1, 5);
    expected.chain = (struct tejborun_chain){.channel = 1, .tte = 1, .ended = 1, .payload_words = 4, .payload_at = 48, .used = {2}};
    expected.vif1 = (struct tejborun_unit){.waiting = TEJBORUN_WAITS_DIRECT, .due = 7};
    expected.path2 = (struct tejborun_path){.q = one, .place = 1, .format = 1, .nloop = 5, .eop = 1, .nreg = 3, .descriptors = {0x76543210, 0xFEDC}, .due = 7};
    CHECK(memcmp(&state, &expected, sizeof state) == 0);
    run_state(&state, image, sizeof image / 4, on_2, 2);
    expected.chain = (struct tejborun_chain){.channel = 2, .ended = 1, .payload_words = 4, .payload_at = 32, .used = {2}};
    expected.path3 = (struct tejborun_path){.q = one, .place = 1, .format = 2, .nloop = 7, .nreg = 1, .descriptors = {0x11, 0x22}, .due = 7};
    CHECK(memcmp(&state, &expected, sizeof state) == 0);
}

/* What a run and build and run refuse at entry; the entries used are 2. */
static const struct wrong wrong_entry[] = {
    {LENGTH(main), 0, TEJBORUN_BAD_MAIN},
    {LENGTH(main), 8, TEJBORUN_BAD_MAIN},
    {LENGTH(main), 257, TEJBORUN_BAD_MAIN},
    {LENGTH(main), TEJBORUN_MAIN_BYTES + 16, TEJBORUN_BAD_MAIN},
    {LENGTH(data), TEJBORUN_VIF1_DATA_WORDS - 1, TEJBORUN_BAD_DATA},
    {LENGTH(data), TEJBORUN_VIF1_DATA_WORDS + 1, TEJBORUN_BAD_DATA},
    {LENGTH(data), 0, TEJBORUN_BAD_DATA},
    {LENGTH(code), TEJBORUN_VIF1_CODE_BYTES - 1, TEJBORUN_BAD_CODE},
    {LENGTH(code), TEJBORUN_VIF1_CODE_BYTES + 1, TEJBORUN_BAD_CODE},
    {LENGTH(code), 0, TEJBORUN_BAD_CODE},
    WRONG_LOGS,
    {LENGTH(block), TEJBORUN_BLOCK_WORDS - 1, TEJBORUN_SHORT},
    {LENGTH(block), TEJBORUN_BLOCK_WORDS + 1, TEJBORUN_SHORT},
    {LENGTH(block), 0, TEJBORUN_SHORT},
    {LENGTH(result), 0, TEJBORUN_SHORT},
    {LENGTH(result), 1, TEJBORUN_SHORT},
};
enum { WRONG_ENTRY = sizeof wrong_entry / sizeof wrong_entry[0] };

static void test_wrong_entry(bool end)
{
    for (size_t i = 0; i < WRONG_ENTRY; i++) {
        struct bench bench;
        new_bench(&bench, with_wrong(&wrong_entry[i]), sheet, sizeof sheet, end);
        if (bench.lengths.block > WORD(chain.used)) {
            words(&bench.lent[BLOCK])[WORD(chain.used)] = 2;
            words(&bench.lent[BLOCK])[WORD(chain.payload_at)] = 77; /* means nothing */
        }
        remember_all(&bench);
        bool is_short = wrong_entry[i].answer == TEJBORUN_SHORT;
        CHECK(call_run(&bench, UINT64_MAX) == wrong_entry[i].answer && all_unchanged(&bench) && (is_short || ran(&bench, 0, 0)));
        CHECK(call_build_and_run(&bench, 0, UINT64_MAX) == wrong_entry[i].answer && all_unchanged(&bench) && (is_short || built_and_ran(&bench, 0, 0, 0)));
        CHECK(!is_short || unchanged(&bench.lent[RESULT]));
        free_bench(&bench);
    }
}

/* Why, with nothing lent that could be written but the result. */
static uint32_t call_why(struct bench *bench)
{
    struct lent *lent = bench->lent;
    for (int i = 0; i < RESULT; i++)
        only_read(&lent[i], true);
    uint32_t kind = tejborun_why(lent[MAIN].at, bench->lengths.main, words(&lent[DATA]), bench->lengths.data, lent[CODE].at, bench->lengths.code,
                                 numbers(&lent[LOG]), bench->lengths.log, words(&lent[BLOCK]), bench->lengths.block, numbers(&lent[RESULT]),
                                 bench->lengths.result);
    for (int i = 0; i < RESULT; i++)
        only_read(&lent[i], false);
    return kind;
}

/* Whether it says this refusal, address and these numbers, and no more. */
static bool told(const struct bench *bench, uint64_t refusal, uint64_t address, uint64_t first, uint64_t second)
{
    const uint64_t *result = numbers(&bench->lent[RESULT]);
    return result[0] == refusal && result[1] == address && result[2] == first && result[3] == second && kept_outside(&bench->lent[RESULT]) &&
           kept_from(bench, TEJBORUN_WHY_NUMBERS);
}

/* Lengths with room for what a why and a run say and one number more. */
static struct lengths for_why(struct lengths lengths)
{
    lengths.result = RUN_NUMBERS + 1;
    return lengths;
}

/* A chain's main memory from address 0 on, its length in bytes, the channel, TTE and the log's entries; and what its last step is refused with. */
struct why_stop {
    uint32_t channel, tte;
    size_t entries, bytes;
    uint32_t words[20];
    uint64_t refusal, address, first, second;
};

/* On channel 0 or 1: an end tag and four words; on channel 2: an end tag, a GIF tag and a quadword. */
#define VIF_STOP(channel, a, b, c, d) channel, 0, 0, 32, {0x70000001, 0, 0, 0, a, b, c, d}
#define GIF_STOP(entries, low, high, regs) 2, 0, entries, 48, {0x70000002, 0, 0, 0, low, high, regs, 0, 1, 2, 3, 4}
#define DIRECT_STOP(entries, low, high, regs) 1, 0, entries, 64, {0x70000003, 0, 0, 0, 0, 0, 0, 0x50000002, low, high, regs, 0, 1, 2, 3, 4}
#define PACKED 0x10000000
#define REGLIST 0x24000000
#define IMAGE 0x08000000
#define WITH_PRE 0x4000

static const struct why_stop why_stops[] = {
    {1, 0, 0, 32, {0x20000000, 0x20}, TEJBORUN_BAD_TADR, 0x20, 0x20, 0},
    {0, 0, 0, 16, {0x10000000}, TEJBORUN_BAD_TADR, 0x10, 0x10, 0},
    {2, 0, 0, 16, {0x20000000, 0x7FFFFFF0}, TEJBORUN_BAD_TADR, 0x7FFFFFF0, 0x7FFFFFF0, 0},
    {1, 0, 0, 32, {0x30000000, 8}, TEJBORUN_BAD_ADDR, 0, 8, 0},
    {0, 0, 0, 32, {0x10000000, 0, 0, 0, 0x40000000, 0xFFFFFFFF}, TEJBORUN_BAD_ADDR, 0x10, 0x7FFFFFFF, 0},
    {1, 0, 0, 32, {0x30000000, 0x80000000}, TEJBORUN_BAD_SPR, 0, 1, 0},
    {2, 0, 0, 32, {0x10000000, 0, 0, 0, 0x00000009, 0x80000010}, TEJBORUN_BAD_SPR, 0x10, 1, 0},
    {1, 0, 0, 32, {0x50000000, 0x10, 0, 0, 0x50000000, 0x10}, TEJBORUN_BAD_CALL, 0x10, 2, 0},
    {1, 0, 0, 32, {0x10000002}, TEJBORUN_BAD_PAYLOAD, 0, 2, 1},
    {0, 0, 0, 32, {0x10000000, 0, 0, 0, 0x7000FFFF}, TEJBORUN_BAD_PAYLOAD, 0x10, 0xFFFF, 0},
    {2, 0, 0, 32, {0x30000003, 0}, TEJBORUN_BAD_PAYLOAD, 0, 3, 2},
    {1, 0, 0, 32, {0x30000001, 0x20}, TEJBORUN_BAD_PAYLOAD, 0, 1, 0},
    {1, 0, 0, 32, {0x00000001, 0x7FFFFFF0}, TEJBORUN_BAD_PAYLOAD, 0, 1, 0},
    {VIF_STOP(1, 0, 0x08000000, 0, 0), TEJBORUN_BAD_CMD, 0x14, 0x08, 0},
    {VIF_STOP(1, 0xDFFFFFFF, 0, 0, 0), TEJBORUN_BAD_CMD, 0x10, 0x5F, 0},
    {VIF_STOP(0, 0, 0, 0, 0xD1000001), TEJBORUN_BAD_CMD, 0x1C, 0x51, 0},
    {VIF_STOP(0, 0, 0, 0x02000005, 0), TEJBORUN_BAD_CMD, 0x18, 0x02, 0},
    {1, 1, 0, 16, {0x70000000, 0, 0x08000000, 0}, TEJBORUN_BAD_CMD, 0x8, 0x08, 0},
    {0, 1, 0, 32, {0x10000000, 0, 0, 0, 0x70000000, 0, 0, 0x50000000}, TEJBORUN_BAD_CMD, 0x1C, 0x50, 0},
    {VIF_STOP(1, 0x63010000, 0, 0, 0), TEJBORUN_BAD_FORMAT, 0x10, 0, 0},
    {VIF_STOP(0, 0, 0x67018000, 0, 0), TEJBORUN_BAD_FORMAT, 0x14, 1, 0},
    {VIF_STOP(1, 0, 0, 0, 0xFB010000), TEJBORUN_BAD_FORMAT, 0x1C, 2, 0},
    {VIF_STOP(1, 0x01000005, 0x6C010000, 0, 0), TEJBORUN_BAD_CYCLE, 0x14, 0, 0},
    {VIF_STOP(0, 0, 0, 0x6C018000, 0), TEJBORUN_BAD_CYCLE, 0x18, 0, 0},
    {VIF_STOP(1, 0x05000003, 0, 0, 0), TEJBORUN_BAD_MODE, 0x10, 3, 0},
    {VIF_STOP(0, 0, 0x0500FFFF, 0, 0), TEJBORUN_BAD_MODE, 0x14, 3, 0},
    {VIF_STOP(1, 0x50000001, 0, 0, 0), TEJBORUN_BAD_DIRECT, 0x14, 1, 0},
    {VIF_STOP(1, 0, 0x51000001, 0, 0), TEJBORUN_BAD_DIRECT, 0x18, 2, 0},
    {VIF_STOP(1, 0, 0, 0x50000001, 0), TEJBORUN_BAD_DIRECT, 0x1C, 3, 0},
    {VIF_STOP(1, 0x4A010000, 0, 0, 0), TEJBORUN_BAD_MPG, 0x14, 1, 0},
    {VIF_STOP(0, 0, 0, 0x4A000000, 0), TEJBORUN_BAD_MPG, 0x1C, 3, 0},
    {VIF_STOP(0, 0x01000101, 0x6C018000, 0, 0), TEJBORUN_BAD_TOPS, 0x14, 1, 0},
    {GIF_STOP(9, 0x8001, PACKED, 0xB), TEJBORUN_BAD_DESCRIPTOR, 0x20, 11, 0},
    {GIF_STOP(0, 0x8001, REGLIST, 0xB5), TEJBORUN_BAD_DESCRIPTOR, 0x20, 11, 0},
    {DIRECT_STOP(9, 0x8001, PACKED, 0xB), TEJBORUN_BAD_DESCRIPTOR, 0x30, 11, 0},
    {VIF_STOP(1, 0x14000005, 0, 0, 0), TEJBORUN_LOG_FULL, 0x10, 0, 1},
    {VIF_STOP(1, 0, 0x15000005, 0, 0), TEJBORUN_LOG_FULL, 0x14, 0, 1},
    {VIF_STOP(0, 0, 0, 0x17000000, 0), TEJBORUN_LOG_FULL, 0x18, 0, 1},
    {1, 0, 1, 32, {0x70000001, 0, 0, 0, 0x14000005, 0x17000000}, TEJBORUN_LOG_FULL, 0x14, 0, 1},
    {GIF_STOP(0, 0x8001, PACKED | WITH_PRE, 0xE), TEJBORUN_LOG_FULL, 0x10, 0, 1},
    {GIF_STOP(1, 0x8001, PACKED | WITH_PRE, 0xE), TEJBORUN_LOG_FULL, 0x20, 0, 1},
    {GIF_STOP(0, 0x8001, REGLIST, 0x51), TEJBORUN_LOG_FULL, 0x20, 0, 2},
    {GIF_STOP(1, 0x8001, REGLIST, 0x51), TEJBORUN_LOG_FULL, 0x20, 1, 2},
    {GIF_STOP(0, 0x8001, REGLIST, 0xF1), TEJBORUN_LOG_FULL, 0x20, 0, 1},
    {GIF_STOP(1, 0x8001, IMAGE, 0), TEJBORUN_LOG_FULL, 0x20, 1, 2},
    {DIRECT_STOP(1, 0x8001, IMAGE, 0), TEJBORUN_LOG_FULL, 0x30, 1, 2},
    {DIRECT_STOP(0, 0x8001, PACKED | WITH_PRE, 0xE), TEJBORUN_LOG_FULL, 0x20, 0, 1},
};
enum { WHY_STOPS = sizeof why_stops / sizeof why_stops[0] };

/* The chain a step at a time, each asked about before it is made: no complaint of a step that is made, and the refusal of the one that is not. */
static void try_why_stop(const struct why_stop *stop, bool end)
{
    struct lengths lengths = for_why(stop->channel == 0 ? good0 : good);
    struct bench bench;
    lengths.main = stop->bytes;
    lengths.log = stop->entries * TEJBORUN_ENTRY_NUMBERS;
    new_bench(&bench, lengths, NULL, 0, end);
    memcpy(bench.lent[MAIN].at, stop->words, stop->bytes);
    CHECK(tejborun_start(words(&bench.lent[BLOCK]), TEJBORUN_BLOCK_WORDS, stop->channel, 0, stop->tte) == TEJBORUN_DONE);
    remember_all(&bench);
    while (call_why(&bench) == TEJBORUN_WHY_NOTHING) {
        CHECK(told(&bench, 0, 0, 0, 0) && all_unchanged(&bench));
        remember(&bench.lent[RESULT]);
        CHECK(call_run(&bench, 1) == TEJBORUN_ALLOWANCE && ran(&bench, 1, 0));
        remember_all(&bench);
    }
    CHECK(call_why(&bench) == TEJBORUN_WHY_STEP && told(&bench, stop->refusal, stop->address, stop->first, stop->second) && all_unchanged(&bench));
    remember(&bench.lent[RESULT]);
    CHECK(call_run(&bench, 1) == stop->refusal && ran(&bench, 0, 0));
    free_bench(&bench);
}

/* Whether a point has the refusal. */
static bool has_why_stop(uint32_t refusal)
{
    for (size_t i = 0; i < WHY_STOPS; i++)
        if (why_stops[i].refusal == refusal)
            return true;
    return false;
}

static void test_why_stops(bool end)
{
    for (uint32_t refusal = TEJBORUN_BAD_TADR; refusal <= TEJBORUN_LOG_FULL; refusal++)
        CHECK(has_why_stop(refusal) ==
              (refusal <= TEJBORUN_BAD_PAYLOAD || (refusal >= TEJBORUN_BAD_CMD && refusal <= TEJBORUN_BAD_TOPS) || refusal >= TEJBORUN_BAD_DESCRIPTOR));
    for (size_t i = 0; i < WHY_STOPS; i++)
        try_why_stop(&why_stops[i], end);
}

/* A sheet's chain a step at a time: no complaint up to its end, then that it has ended. */
static void test_why_ended(bool end)
{
    struct bench bench;
    new_bench(&bench, for_why(good), sheet, sizeof sheet, end);
    CHECK(tejborun_build(sheet, sizeof sheet, bench.lent[MAIN].at, bench.lengths.main) == SHEET_CHAIN);
    for (uint64_t step = 1; step <= SHEET_STEPS; step++) {
        remember_all(&bench);
        CHECK(call_why(&bench) == TEJBORUN_WHY_NOTHING && told(&bench, 0, 0, 0, 0) && all_unchanged(&bench));
        CHECK(call_run(&bench, 1) == (step < SHEET_STEPS ? TEJBORUN_ALLOWANCE : TEJBORUN_DONE) && numbers(&bench.lent[RESULT])[0] == 1);
    }
    remember_all(&bench);
    CHECK(call_why(&bench) == TEJBORUN_WHY_ENDED && told(&bench, 0, 0, 0, 0) && all_unchanged(&bench));
    state(&bench.lent[BLOCK])->vif1.mode = 3;
    remember_all(&bench);
    CHECK(call_why(&bench) == TEJBORUN_WHY_ENTRY && told(&bench, TEJBORUN_BAD_VALUE, 0, 0, 0) && all_unchanged(&bench));
    free_bench(&bench);
}

/* A run that stopped at a mark: no complaint, unless the step after it is refused. */
static void test_why_mark(bool end)
{
    for (uint32_t cmd = 0; cmd <= 8; cmd += 8) {
        const uint32_t chain[8] = {0x70000001, 0, 0, 0, 0x80000000, cmd << 24};
        struct lengths lengths = for_why(good);
        struct bench bench;
        lengths.main = sizeof chain;
        new_bench(&bench, lengths, NULL, 0, end);
        memcpy(bench.lent[MAIN].at, chain, sizeof chain);
        remember_all(&bench);
        CHECK(call_run(&bench, UINT64_MAX) == TEJBORUN_INTERRUPT && ran(&bench, 2, 0));
        remember_all(&bench);
        CHECK(call_why(&bench) == (cmd == 0 ? TEJBORUN_WHY_NOTHING : TEJBORUN_WHY_STEP) && all_unchanged(&bench));
        CHECK(cmd == 0 ? told(&bench, 0, 0, 0, 0) : told(&bench, TEJBORUN_BAD_CMD, 0x14, cmd, 0));
        free_bench(&bench);
    }
}

/* What a run is refused with at its entry, also where the next step would be refused and where the chain has ended; 60 before all else. */
static void try_why_entry(const struct wrong *wrong, uint32_t ended, bool end)
{
    struct bench bench;
    new_bench(&bench, but_for(for_why(good), wrong), NULL, 0, end);
    if (bench.lengths.block > WORD(chain.used)) {
        state(&bench.lent[BLOCK])->chain.used[0] = 2;
        state(&bench.lent[BLOCK])->chain.ended = ended;
    }
    if (bench.lengths.main > 0)
        bench.lent[MAIN].at[0] = 0xFF;
    remember_all(&bench);
    if (wrong->answer == TEJBORUN_SHORT)
        CHECK(call_why(&bench) == TEJBORUN_SHORT && unchanged(&bench.lent[RESULT]));
    else
        CHECK(call_why(&bench) == TEJBORUN_WHY_ENTRY && told(&bench, wrong->answer, 0, 0, 0));
    CHECK(all_unchanged(&bench));
    free_bench(&bench);
}

/* Words pending, as a state has them: beyond main memory they are refused at the entry with 14, in it they are a step's. */
static void try_why_pending(uint32_t at, uint32_t count, uint32_t kind, uint64_t refusal, bool end)
{
    struct bench bench;
    new_bench(&bench, for_why(good), NULL, 0, end);
    struct tejborun_chain *chain = &state(&bench.lent[BLOCK])->chain;
    chain->ended = 1;
    chain->payload_at = at;
    chain->payload_words = count;
    if (kind == TEJBORUN_WHY_STEP)
        words(&bench.lent[MAIN])[at / 4] = 0x08000000;
    remember_all(&bench);
    CHECK(call_why(&bench) == kind && all_unchanged(&bench));
    CHECK(kind == TEJBORUN_WHY_STEP ? told(&bench, refusal, at, 8, 0) : told(&bench, refusal, 0, 0, 0));
    free_bench(&bench);
}

/* A block that is no state's: 5, after the lengths. */
static void try_why_no_state(size_t word, uint32_t value, size_t main_bytes, bool end)
{
    struct lengths lengths = for_why(good);
    struct bench bench;
    lengths.main = main_bytes;
    new_bench(&bench, lengths, NULL, 0, end);
    words(&bench.lent[BLOCK])[word] = value;
    remember_all(&bench);
    CHECK(call_why(&bench) == TEJBORUN_WHY_ENTRY && all_unchanged(&bench));
    CHECK(told(&bench, main_bytes == good.main ? TEJBORUN_BAD_VALUE : TEJBORUN_BAD_MAIN, 0, 0, 0));
    free_bench(&bench);
}

static void test_why_entry(bool end)
{
    static const struct wrong no_numbers[] = {
        {LENGTH(result), 2, TEJBORUN_SHORT}, {LENGTH(result), TEJBORUN_WHY_NUMBERS - 1, TEJBORUN_SHORT}, {LENGTH(main), 255, TEJBORUN_BAD_MAIN},
    };
    for (uint32_t ended = 0; ended < 2; ended++) {
        for (size_t i = 0; i < WRONG_ENTRY; i++)
            try_why_entry(&wrong_entry[i], ended, end);
        for (size_t i = 0; i < sizeof no_numbers / sizeof no_numbers[0]; i++)
            try_why_entry(&no_numbers[i], ended, end);
    }
    for (size_t i = 0; i < sizeof no_state / sizeof no_state[0]; i++) {
        try_why_no_state(no_state[i].word, no_state[i].value, good.main, end);
        try_why_no_state(no_state[i].word, no_state[i].value, good.main + 8, end);
    }
    try_why_pending(256, 4, TEJBORUN_WHY_ENTRY, TEJBORUN_BAD_PAYLOAD, end);
    try_why_pending(240, 8, TEJBORUN_WHY_ENTRY, TEJBORUN_BAD_PAYLOAD, end);
    try_why_pending(240, 4, TEJBORUN_WHY_STEP, TEJBORUN_BAD_CMD, end);
    try_why_pending(252, 1, TEJBORUN_WHY_STEP, TEJBORUN_BAD_CMD, end);
    try_why_pending(240, 4, TEJBORUN_WHY_NOTHING, 0, end);
    try_why_pending(240, 0, TEJBORUN_WHY_ENDED, 0, end);
    try_why_pending(8, 8, TEJBORUN_WHY_ENTRY, TEJBORUN_BAD_VALUE, end);
    CHECK(tejborun_why(NULL, 0, NULL, 0, NULL, 0, NULL, 0, NULL, 0, NULL, 0) == TEJBORUN_SHORT);
}

/* Entries used whose numbers wrap: refused with 4, by runs on each channel. */
static void test_wrapping(bool end)
{
    for (size_t i = 0; i < WRAPPING; i++) {
        for (uint32_t channel = 0; channel < 3; channel++) {
            struct bench bench;
            new_bench(&bench, channel == 0 ? good0 : good, sheet, sizeof sheet, end);
            struct tejborun_chain *chain = &state(&bench.lent[BLOCK])->chain;
            chain->channel = channel;
            chain->used[0] = (uint32_t)wrapping[i], chain->used[1] = (uint32_t)(wrapping[i] >> 32);
            remember_all(&bench);
            CHECK(call_run(&bench, UINT64_MAX) == TEJBORUN_BAD_LOG && all_unchanged(&bench) && ran(&bench, 0, 0));
            CHECK(channel == 0 || call_build_and_run(&bench, 0, UINT64_MAX) == TEJBORUN_BAD_LOG);
            CHECK(all_unchanged(&bench));
            free_bench(&bench);
        }
    }
}

/* Results of fewer numbers than stated: nothing is changed, whatever else is wrong; with as many the call is made. */
static void test_short_results(bool end)
{
    for (size_t i = 0; i < 2 * (BUILD_AND_RUN_NUMBERS + 1); i++) {
        struct bench bench;
        struct lengths lengths = good;
        lengths.result = i / 2;
        lengths.main = i % 2 == 0 ? good.main : good.main - 1;
        uint32_t made = i % 2 == 0 ? TEJBORUN_ALLOWANCE : TEJBORUN_BAD_MAIN;
        new_bench(&bench, lengths, sheet, sizeof sheet, end);
        remember_all(&bench);
        CHECK(call_run(&bench, 0) == (lengths.result < RUN_NUMBERS ? TEJBORUN_SHORT : made));
        CHECK(all_unchanged(&bench) && (lengths.result < RUN_NUMBERS ? unchanged(&bench.lent[RESULT]) : ran(&bench, 0, 0)));
        remember(&bench.lent[RESULT]);
        bool is_short = lengths.result < BUILD_AND_RUN_NUMBERS;
        CHECK(call_build_and_run(&bench, 0, 0) == (is_short ? TEJBORUN_SHORT : made) && all_kept_outside(&bench));
        CHECK(is_short ? all_unchanged(&bench) && unchanged(&bench.lent[RESULT]) : built_and_ran(&bench, 0, 0, 0));
        free_bench(&bench);
    }
}

/* The lengths by the channel: VIF0's on channel 0, on every other VIF1's, also on one that does not exist; build and run takes VIF1's on each. */
static void test_lengths_by_channel(bool end)
{
    static const struct wrong wrong[] = {
        {LENGTH(data), TEJBORUN_VIF0_DATA_WORDS - 1, TEJBORUN_BAD_DATA}, {LENGTH(data), TEJBORUN_VIF0_DATA_WORDS + 1, TEJBORUN_BAD_DATA},
        {LENGTH(data), TEJBORUN_VIF1_DATA_WORDS, TEJBORUN_BAD_DATA},     {LENGTH(data), 0, TEJBORUN_BAD_DATA},
        {LENGTH(code), TEJBORUN_VIF0_CODE_BYTES - 1, TEJBORUN_BAD_CODE}, {LENGTH(code), TEJBORUN_VIF0_CODE_BYTES + 1, TEJBORUN_BAD_CODE},
        {LENGTH(code), TEJBORUN_VIF1_CODE_BYTES, TEJBORUN_BAD_CODE},     {LENGTH(code), 0, TEJBORUN_BAD_CODE},
        {LENGTH(main), 8, TEJBORUN_BAD_MAIN},                            {LENGTH(log), 1, TEJBORUN_BAD_LOG},
    };
    static const struct {
        uint32_t channel, on_vif0, on_vif1; /* the answers with VIF0's lengths and with VIF1's */
    } channels[] = {
        {0, TEJBORUN_DONE, TEJBORUN_BAD_DATA}, {1, TEJBORUN_BAD_DATA, TEJBORUN_DONE}, {2, TEJBORUN_BAD_DATA, TEJBORUN_DONE},
        {7, TEJBORUN_BAD_DATA, TEJBORUN_BAD_VALUE}, {UINT32_MAX, TEJBORUN_BAD_DATA, TEJBORUN_BAD_VALUE},
    };
    struct bench bench;
    for (size_t i = 0; i < sizeof wrong / sizeof wrong[0]; i++) {
        new_bench(&bench, but_for(good0, &wrong[i]), NULL, 0, end);
        words(&bench.lent[BLOCK])[WORD(chain.channel)] = 0;
        remember_all(&bench);
        CHECK(call_run(&bench, UINT64_MAX) == wrong[i].answer && all_unchanged(&bench));
        free_bench(&bench);
    }
    for (size_t i = 0; i < 2 * (sizeof channels / sizeof channels[0]); i++) {
        uint32_t answer = i % 2 == 0 ? channels[i / 2].on_vif0 : channels[i / 2].on_vif1;
        new_bench(&bench, i % 2 == 0 ? good0 : good, sheet, sizeof sheet, end);
        words(&bench.lent[MAIN])[0] = 0x70000000;
        words(&bench.lent[BLOCK])[WORD(chain.channel)] = channels[i / 2].channel;
        remember_all(&bench);
        CHECK(call_run(&bench, UINT64_MAX) == answer && all_kept_outside(&bench) && (answer == TEJBORUN_DONE || all_unchanged(&bench)));
        answer = i % 2 == 0 ? TEJBORUN_BAD_DATA : channels[i / 2].channel > 2 ? TEJBORUN_BAD_VALUE : TEJBORUN_DONE;
        CHECK(call_build_and_run(&bench, 0, UINT64_MAX) == answer && all_kept_outside(&bench) && (answer != TEJBORUN_DONE || holds_meaning(&bench, 0)));
        free_bench(&bench);
    }
}

/* Words of a state block that a run refuses with 5 or 14. */
static void test_wrong_state(bool end)
{
    static const struct {
        size_t word;
        uint32_t value, answer;
    } states[] = {
        {WORD(chain.channel), 3, TEJBORUN_BAD_VALUE},
        {WORD(chain.tadr), 4, TEJBORUN_BAD_VALUE},
        {WORD(chain.tte), 2, TEJBORUN_BAD_VALUE},
        {WORD(chain.ended), 2, TEJBORUN_BAD_VALUE},
        {WORD(chain.depth), 3, TEJBORUN_BAD_VALUE},
        {WORD(chain.tag_words), 1, TEJBORUN_BAD_VALUE},
        {WORD(chain.payload_words), 262144, TEJBORUN_BAD_VALUE},
        {WORD(chain.payload_words), 4, TEJBORUN_DONE},
        {WORD(chain.payload_words), 260, TEJBORUN_BAD_PAYLOAD},
        {WORD(vif1.cl), 256, TEJBORUN_BAD_VALUE},
        {WORD(vif1.mode), 3, TEJBORUN_BAD_VALUE},
        {WORD(vif1.waiting), 9, TEJBORUN_BAD_VALUE},
        {WORD(path3.place), 1, TEJBORUN_BAD_VALUE},
        {WORD(vif0.wl), 256, TEJBORUN_BAD_VALUE},
        {WORD(vif0.tops), 1, TEJBORUN_BAD_VALUE},
        {WORD(vif0.waiting), TEJBORUN_WAITS_DIRECT, TEJBORUN_BAD_VALUE},
        {WORD(vif0.due), 77, TEJBORUN_DONE},
    };
    for (size_t i = 0; i < sizeof states / sizeof states[0]; i++) {
        struct bench bench;
        new_bench(&bench, good, NULL, 0, end);
        bench.lent[MAIN].at[3] = 0x70;
        words(&bench.lent[BLOCK])[states[i].word] = states[i].value;
        remember_all(&bench);
        uint32_t answer = call_run(&bench, UINT64_MAX);
        CHECK(states[i].answer == TEJBORUN_DONE || (answer == states[i].answer && all_unchanged(&bench) && ran(&bench, 0, 0)));
        CHECK(all_kept_outside(&bench));
        free_bench(&bench);
    }
}

static void try_build_and_run(const uint8_t *bytes, size_t count, uint32_t address, uint32_t answer, uint64_t offset, bool end)
{
    struct bench bench;
    new_bench(&bench, good, bytes, count, end);
    state(&bench.lent[BLOCK])->chain.used[0] = 2;
    state(&bench.lent[BLOCK])->chain.payload_at = 77; /* means nothing */
    remember_all(&bench);
    CHECK(call_build_and_run(&bench, address, UINT64_MAX) == answer && all_kept_outside(&bench));
    CHECK(answer == TEJBORUN_DONE ? built_and_ran(&bench, SHEET_STEPS, 0, SHEET_PACKETS) : built_and_ran(&bench, 0, offset, 0));
    if (answer == TEJBORUN_DONE)
        CHECK(holds_meaning(&bench, 2) && state(&bench.lent[BLOCK])->chain.used[0] == 2 + SHEET_ENTRIES &&
              memcmp(numbers(&bench.lent[RESULT]) + 1, sheet_counts, sizeof sheet_counts) == 0);
    else
        CHECK(all_unchanged(&bench));
    free_bench(&bench);
}

/* Whether two benches hold the same memories, logs, states and numbers. */
static bool hold_the_same(const struct bench *a, const struct bench *b)
{
    for (int i = MAIN; i < BUFFERS; i++)
        if (a->lent[i].bytes != b->lent[i].bytes || memcmp(a->lent[i].at, b->lent[i].at, a->lent[i].bytes) != 0)
            return false;
    return true;
}

/* The benches of groups and of what they stand for, with a main memory that the chain just fits. */
static void new_group_benches(struct bench bench[2], bool end)
{
    struct groups groups = new_groups();
    struct lengths lengths = good;
    lengths.main = GROUPS_CHAIN;
    new_bench(&bench[0], lengths, groups.bytes, groups.count, end);
    new_bench(&bench[1], lengths, groups.plain, groups.plain_count, end);
    for (int i = 0; i < 2; i++)
        remember_all(&bench[i]);
    free_groups(&groups);
}

/* The meaning of groups is that of what they stand for; and the log has room for all of it or for none. */
static void test_groups_fed(bool end)
{
    struct bench bench[2];
    new_group_benches(bench, end);
    for (int i = 0; i < 2; i++) {
        CHECK(call_meaning(&bench[i], ENTRIES - GROUPS_ENTRIES + 1) == TEJBORUN_LOG_FULL && all_unchanged(&bench[i]));
        CHECK(call_meaning(&bench[i], ENTRIES - GROUPS_ENTRIES) == TEJBORUN_DONE && all_kept_outside(&bench[i]) && kept_from(&bench[i], MEANING_NUMBERS));
        CHECK(numbers(&bench[i].lent[RESULT])[0] == ENTRIES && numbers(&bench[i].lent[RESULT])[1] == 0 && holds_meaning(&bench[i], ENTRIES - GROUPS_ENTRIES));
    }
    CHECK(hold_the_same(&bench[0], &bench[1]));
    for (int i = 0; i < 2; i++)
        free_bench(&bench[i]);
}

/* The same of groups built and run; a chain that main memory lacks room for. */
static void test_groups_run(bool end)
{
    struct bench bench[2];
    new_group_benches(bench, end);
    for (int i = 0; i < 2; i++) {
        CHECK(call_build_and_run(&bench[i], 16, UINT64_MAX) == TEJBORUN_LONG_CHAIN && built_and_ran(&bench[i], 0, 0, 0) && all_unchanged(&bench[i]));
        CHECK(call_build_and_run(&bench[i], 0, UINT64_MAX) == TEJBORUN_DONE && built_and_ran(&bench[i], GROUPS_STEPS, 0, 6 * SHEET_PACKETS));
        CHECK(all_kept_outside(&bench[i]) && holds_meaning(&bench[i], 0) && state(&bench[i].lent[BLOCK])->chain.used[0] == GROUPS_ENTRIES);
    }
    CHECK(hold_the_same(&bench[0], &bench[1]));
    for (int i = 0; i < 2; i++)
        free_bench(&bench[i]);
}

/* Built and run for so many steps, less than all. */
static void try_build_and_stop(uint64_t steps, uint64_t packets, bool end)
{
    struct bench bench;
    new_bench(&bench, good, sheet, sizeof sheet, end);
    remember_all(&bench);
    CHECK(call_build_and_run(&bench, 0, steps) == TEJBORUN_ALLOWANCE && built_and_ran(&bench, steps, 0, packets) && all_kept_outside(&bench));
    free_bench(&bench);
}

static void test_build_and_run(bool end)
{
    try_build_and_run(sheet, sizeof sheet, 0, TEJBORUN_DONE, 0, end);
    try_build_and_run(sheet, sizeof sheet, 16, TEJBORUN_DONE, 0, end);
    try_build_and_run(sheet, sizeof sheet, 32, TEJBORUN_LONG_CHAIN, 0, end);
    try_build_and_run(sheet, sizeof sheet, 256, TEJBORUN_LONG_CHAIN, 0, end);
    try_build_and_run(sheet, sizeof sheet, 0x7FFFFFF0, TEJBORUN_LONG_CHAIN, 0, end);
    try_build_and_run(sheet, sizeof sheet, 8, TEJBORUN_BAD_VALUE, 0, end);
    try_build_and_run(sheet, sizeof sheet, UINT32_C(0x80000000), TEJBORUN_BAD_VALUE, 0, end);
    for (size_t i = 0; i < REFUSED; i++)
        try_build_and_run(refused[i].bytes, refused[i].count, 0, refused[i].refusal, refused[i].offset, end);
    try_build_and_stop(GS_END - 1, 0, end);
    try_build_and_stop(GS_END, SHEET_PACKETS, end);
}

/* The lengths of a check, with a number of the result that it leaves alone. */
static struct lengths check_lengths(void)
{
    struct lengths lengths = good;
    lengths.result = TEJBORUN_CHECK_NUMBERS + 1;
    return lengths;
}

/* A check, with nothing lent that could be written but memories, log and result. */
static uint32_t call_check(struct bench *bench, uint64_t allowance)
{
    struct lent *lent = bench->lent;
    only_read(&lent[SHEET], true);
    only_read(&lent[MAIN], true);
    uint32_t kind = tejborun_check(lent[SHEET].at, lent[SHEET].bytes, lent[MAIN].at, bench->lengths.main, words(&lent[DATA]), bench->lengths.data,
                                   lent[CODE].at, bench->lengths.code, numbers(&lent[LOG]), bench->lengths.log, allowance, numbers(&lent[RESULT]),
                                   bench->lengths.result);
    only_read(&lent[SHEET], false);
    only_read(&lent[MAIN], false);
    CHECK(unchanged(&lent[SHEET]) && unchanged(&lent[MAIN]) && unchanged(&lent[BLOCK]) && all_kept_outside(bench));
    return kind;
}

/* Whether a check was refused with these numbers, and said no more. */
static bool check_refused(const struct bench *bench, uint64_t refusal, uint64_t offset)
{
    const uint64_t wanted[TEJBORUN_CHECK_NUMBERS] = {refusal, offset}, *result = numbers(&bench->lent[RESULT]);
    return memcmp(result, wanted, sizeof wanted) == 0 && kept_from(bench, TEJBORUN_CHECK_NUMBERS) && all_unchanged(bench);
}

/* A bench with the sheet's chain in main memory. */
static void new_check(struct bench *bench, struct lengths lengths, bool end)
{
    new_bench(bench, lengths, sheet, sizeof sheet, end);
    CHECK(tejborun_build(sheet, sizeof sheet, bench->lent[MAIN].at, lengths.main) == SHEET_CHAIN);
}

/* Whether data, code and log are those that a run from reset leaves, and the result has its numbers; the run is made here, on a bench of the same lengths. */
static bool left_by_run(const struct bench *bench, uint64_t allowance, uint64_t answer)
{
    struct bench run;
    const uint64_t *result = numbers(&bench->lent[RESULT]);
    new_bench(&run, bench->lengths, NULL, 0, false);
    memcpy(run.lent[MAIN].at, bench->lent[MAIN].at, bench->lengths.main);
    uint32_t *block = words(&run.lent[BLOCK]);
    CHECK(tejborun_reset(block, TEJBORUN_BLOCK_WORDS) == TEJBORUN_DONE && tejborun_start(block, TEJBORUN_BLOCK_WORDS, 1, 0, 0) == TEJBORUN_DONE);
    bool same = call_run(&run, allowance) == answer;
    for (int i = DATA; i <= LOG; i++)
        same = same && (bench->lent[i].bytes == 0 || memcmp(run.lent[i].at, bench->lent[i].at, bench->lent[i].bytes) == 0);
    same = same && result[2] == tejborun_used(state(&run.lent[BLOCK]));
    same = same && memcmp(result + 3, numbers(&run.lent[RESULT]), sizeof *result * RUN_NUMBERS) == 0;
    free_bench(&run);
    return same;
}

/* A word of the sheet's chain that is another one. */
struct edit {
    size_t word;
    uint32_t value;
};

enum { EDITS = 5 };

/* A check of the chain with edits: the kind and the number; the run's answer is 0 but for TEJBORUN_CHECK_ANSWER. */
static void try_edits(const struct edit *edits, uint32_t kind, uint64_t number, bool end)
{
    struct bench bench;
    new_check(&bench, check_lengths(), end);
    for (size_t i = 0; i < EDITS; i++)
        if (edits[i].word > 0)
            words(&bench.lent[MAIN])[edits[i].word] = edits[i].value;
    remember_all(&bench);
    CHECK(call_check(&bench, UINT64_MAX) == kind);
    const uint64_t *result = numbers(&bench.lent[RESULT]);
    CHECK(result[0] == number && result[1] == 0 && kept_from(&bench, TEJBORUN_CHECK_NUMBERS));
    CHECK(left_by_run(&bench, UINT64_MAX, kind == TEJBORUN_CHECK_ANSWER ? number : TEJBORUN_DONE));
    free_bench(&bench);
}

/* The words of the sheet's chain that are edited: codes, vectors, the instruction and the second GS write. */
enum { AT_NOP = 4, AT_STCYCL = 5, AT_UNPACK = 7, AT_VECTOR_0 = 8, AT_VECTOR_1 = 12, AT_INSTRUCTION = 24, AT_REGISTER = 42, AT_VALUE = 44 };
enum { AT_BEFORE = 54, AT_MSCAL = 55 };

/* Each kind of difference, and of several the first in the order of kinds, the lowest of a kind. */
static void test_check_kinds(bool end)
{
    static const struct {
        struct edit edits[EDITS];
        uint32_t kind;
        uint64_t number;
    } cases[] = {
        {{{AT_VECTOR_0, 99}}, TEJBORUN_CHECK_QUADWORD, LAST_QUADWORD},
        {{{AT_VECTOR_1 + 3, 99}}, TEJBORUN_CHECK_QUADWORD, 0},
        {{{AT_VECTOR_0, 99}, {AT_VECTOR_1, 99}, {AT_INSTRUCTION, 99}, {AT_VALUE, 99}, {AT_MSCAL, 0}}, TEJBORUN_CHECK_QUADWORD, 0},
        {{{AT_INSTRUCTION + 1, 99}}, TEJBORUN_CHECK_INSTRUCTION, LAST_INSTRUCTION},
        {{{AT_INSTRUCTION, 99}, {AT_VALUE, 99}, {AT_MSCAL, 0}}, TEJBORUN_CHECK_INSTRUCTION, LAST_INSTRUCTION},
        {{{AT_REGISTER, 6}}, TEJBORUN_CHECK_ENTRY, 0},
        {{{AT_VALUE, 99}}, TEJBORUN_CHECK_ENTRY, 1},
        {{{AT_VALUE + 1, 1}, {AT_MSCAL, 0}}, TEJBORUN_CHECK_ENTRY, 1},
        {{{AT_MSCAL, 0x14000006}}, TEJBORUN_CHECK_ENTRY, 2},
        {{{AT_NOP, 0x14000005}}, TEJBORUN_CHECK_ENTRY, 0},
        {{{AT_MSCAL, 0}}, TEJBORUN_CHECK_ENTRIES, SHEET_ENTRIES - 1},
        {{{AT_BEFORE, 0x14000005}}, TEJBORUN_CHECK_ENTRIES, SHEET_ENTRIES + 1},
        {{{AT_MSCAL, 0x94000005}}, TEJBORUN_CHECK_ANSWER, TEJBORUN_INTERRUPT},
        {{{AT_VECTOR_0, 99}, {AT_BEFORE, 0x08000000}}, TEJBORUN_CHECK_ANSWER, TEJBORUN_BAD_CMD},
        {{{AT_STCYCL, 0}}, TEJBORUN_CHECK_ANSWER, TEJBORUN_BAD_CYCLE},
        {{{AT_UNPACK, 0x05000003}}, TEJBORUN_CHECK_ANSWER, TEJBORUN_BAD_MODE},
        {{{AT_BEFORE, 0x07000000}}, TEJBORUN_CHECK_ACCEPTED, 0},
    };
    for (size_t i = 0; i < sizeof cases / sizeof cases[0]; i++)
        try_edits(cases[i].edits, cases[i].kind, cases[i].number, end);
}

/* The chain that is built, over memories that are not zero: accepted with just enough steps and entries, 90 and 31 with one fewer. */
static void test_check(bool end)
{
    static const struct {
        uint64_t allowance, entries, answer;
    } cases[] = {
        {UINT64_MAX, ENTRIES, TEJBORUN_DONE},     {SHEET_STEPS, SHEET_ENTRIES, TEJBORUN_DONE},    {SHEET_STEPS - 1, SHEET_ENTRIES, TEJBORUN_ALLOWANCE},
        {0, ENTRIES, TEJBORUN_ALLOWANCE},         {SHEET_STEPS, SHEET_ENTRIES - 1, TEJBORUN_LOG_FULL}, {UINT64_MAX, 0, TEJBORUN_LOG_FULL},
        {UINT64_MAX, TEJBORUN_LOG_ENTRIES, TEJBORUN_DONE},
    };
    for (size_t i = 0; i < sizeof cases / sizeof cases[0]; i++) {
        struct bench bench;
        struct lengths lengths = check_lengths();
        bool is_done = cases[i].answer == TEJBORUN_DONE;
        lengths.log = cases[i].entries * TEJBORUN_ENTRY_NUMBERS;
        new_check(&bench, lengths, end);
        remember_all(&bench);
        CHECK(call_check(&bench, cases[i].allowance) == (is_done ? TEJBORUN_CHECK_ACCEPTED : TEJBORUN_CHECK_ANSWER));
        const uint64_t *result = numbers(&bench.lent[RESULT]);
        CHECK(result[0] == cases[i].answer && result[1] == 0 && kept_from(&bench, TEJBORUN_CHECK_NUMBERS));
        CHECK(!is_done || (holds_meaning(&bench, 0) && result[2] == SHEET_ENTRIES && memcmp(result + 3, sheet_counts, sizeof sheet_counts) == 0));
        CHECK(left_by_run(&bench, cases[i].allowance, cases[i].answer));
        free_bench(&bench);
    }
}

/* Lengths that are refused, with a sheet that is valid and with one that is not; then sheets that are. */
static void test_wrong_check(bool end)
{
    static const struct wrong wrong[] = {
        {LENGTH(main), 0, TEJBORUN_BAD_MAIN},
        {LENGTH(main), 248, TEJBORUN_BAD_MAIN},
        {LENGTH(main), TEJBORUN_MAIN_BYTES + 16, TEJBORUN_BAD_MAIN},
        {LENGTH(data), TEJBORUN_VIF1_DATA_WORDS - 1, TEJBORUN_BAD_DATA},
        {LENGTH(data), TEJBORUN_VIF0_DATA_WORDS, TEJBORUN_BAD_DATA},
        {LENGTH(data), 0, TEJBORUN_BAD_DATA},
        {LENGTH(code), TEJBORUN_VIF1_CODE_BYTES + 8, TEJBORUN_BAD_CODE},
        {LENGTH(code), TEJBORUN_VIF0_CODE_BYTES, TEJBORUN_BAD_CODE},
        {LENGTH(code), 0, TEJBORUN_BAD_CODE},
        {LENGTH(log), 1, TEJBORUN_BAD_LOG},
        {LENGTH(log), ENTRIES * TEJBORUN_ENTRY_NUMBERS + 2, TEJBORUN_BAD_LOG},
        {LENGTH(log), TEJBORUN_LOG_NUMBERS + TEJBORUN_ENTRY_NUMBERS, TEJBORUN_BAD_LOG},
    };
    struct bench bench;
    for (size_t i = 0; i < 2 * (sizeof wrong / sizeof wrong[0]); i++) {
        new_bench(&bench, but_for(check_lengths(), &wrong[i / 2]), sheet, i % 2 == 0 ? sizeof sheet : 5, end);
        remember_all(&bench);
        CHECK(call_check(&bench, UINT64_MAX) == TEJBORUN_CHECK_REFUSED && check_refused(&bench, wrong[i / 2].answer, 0));
        free_bench(&bench);
    }
    for (size_t i = 0; i < REFUSED; i++) {
        new_bench(&bench, check_lengths(), refused[i].bytes, refused[i].count, end);
        remember_all(&bench);
        CHECK(call_check(&bench, UINT64_MAX) == TEJBORUN_CHECK_REFUSED && check_refused(&bench, refused[i].refusal, refused[i].offset));
        free_bench(&bench);
    }
}

/* The refusals of whole sheets: too long, groups too deep, a chain that is too long. */
static void test_check_sheets(bool end)
{
    enum { LONG = TEJBORUN_SHEET_BYTES + 1 };
    uint8_t *bytes = calloc(LONG, 1);
    CHECK(bytes != NULL);
    static const uint8_t edition[] = {EDITION(2, 0)}, group[] = {GROUP(255, 1)}, start[] = {START(3)};
    struct {
        size_t count;
        uint64_t refusal, offset;
    } cases[] = {{6 * 10, TEJBORUN_LONG_EXPANSION, 0}, {6 * 11, TEJBORUN_DEEP_GROUP, 6 * 9}, {LONG, TEJBORUN_LONG_SHEET, 0}};
    for (size_t i = 0; i < 3; i++) {
        struct bench bench;
        memcpy(bytes, edition, 6);
        for (size_t at = 6; at + 6 < cases[i].count && at < 1000; at += 6)
            memcpy(bytes + at, group, 6);
        memcpy(bytes + cases[i].count - 6, start, 6);
        new_bench(&bench, check_lengths(), bytes, cases[i].count, end);
        remember_all(&bench);
        CHECK(call_check(&bench, UINT64_MAX) == TEJBORUN_CHECK_REFUSED && check_refused(&bench, cases[i].refusal, cases[i].offset));
        free_bench(&bench);
    }
    free(bytes);
}

/* Results of too few numbers: nothing is changed, whatever else is wrong. */
static void test_short_checks(bool end)
{
    for (size_t i = 0; i < 3 * (TEJBORUN_CHECK_NUMBERS + 1); i++) {
        struct bench bench;
        struct lengths lengths = good;
        bool is_short = i / 3 < TEJBORUN_CHECK_NUMBERS;
        lengths.result = i / 3;
        lengths.main = i % 3 == 1 ? good.main - 1 : good.main;
        new_bench(&bench, lengths, sheet, i % 3 == 2 ? 5 : sizeof sheet, end);
        remember_all(&bench);
        uint32_t made = i % 3 == 0 ? TEJBORUN_CHECK_ANSWER : TEJBORUN_CHECK_REFUSED;
        CHECK(call_check(&bench, 0) == (is_short ? TEJBORUN_SHORT : made) && all_unchanged(&bench) && (!is_short || unchanged(&bench.lent[RESULT])));
        free_bench(&bench);
    }
    CHECK(tejborun_check(NULL, 0, NULL, 0, NULL, 0, NULL, 0, NULL, 0, 0, NULL, 0) == TEJBORUN_SHORT);
}

/* Groups are checked as what they stand for: each sheet's chain is the other's. */
static void test_check_groups(bool end)
{
    struct bench bench[2];
    struct groups groups = new_groups();
    struct lengths lengths = check_lengths();
    lengths.main = GROUPS_CHAIN;
    for (int i = 0; i < 2; i++) {
        new_bench(&bench[i], lengths, i == 0 ? groups.bytes : groups.plain, i == 0 ? groups.count : groups.plain_count, end);
        CHECK(tejborun_build(i == 0 ? groups.plain : groups.bytes, i == 0 ? groups.plain_count : groups.count, bench[i].lent[MAIN].at, GROUPS_CHAIN) ==
              GROUPS_CHAIN);
        remember_all(&bench[i]);
        CHECK(call_check(&bench[i], GROUPS_STEPS) == TEJBORUN_CHECK_ACCEPTED && left_by_run(&bench[i], GROUPS_STEPS, TEJBORUN_DONE));
    }
    CHECK(hold_the_same(&bench[0], &bench[1]));
    for (int i = 0; i < 2; i++)
        free_bench(&bench[i]);
    free_groups(&groups);
}

/* Two boards that are compared, by their parts in the library's order, and the result. */
enum { PARTS = 5, RESULT_NUMBERS = TEJBORUN_COMPARED };

struct pair {
    struct lent data1[2], code1[2], log[2], data0[2], code0[2], result;
    uint64_t used[2];
};

static void new_pair(struct pair *pair, const struct lengths *a, const struct lengths *b, bool end)
{
    for (int i = 0; i < 2; i++) {
        const struct lengths *lengths = i == 0 ? a : b;
        pair->data1[i] = lend(4 * lengths->data, end);
        pair->code1[i] = lend(lengths->code, end);
        pair->log[i] = lend(8 * lengths->log, end);
        pair->data0[i] = lend(4 * lengths->data0, end);
        pair->code0[i] = lend(lengths->code0, end);
        pair->used[i] = 3;
    }
    pair->result = lend(8 * a->result, end);
    remember(&pair->result);
}

static void set_read(struct pair *pair, bool only)
{
    for (int i = 0; i < 2; i++) {
        struct lent *const read[PARTS] = {&pair->data1[i], &pair->code1[i], &pair->log[i], &pair->data0[i], &pair->code0[i]};
        for (int part = 0; part < PARTS; part++)
            only_read(read[part], only);
    }
}

/* The memories, the log and the entries used of one of them, as the calls take them. */
#define LENT_OF(pair, i)                                                                                                                              \
    words(&(pair)->data1[i]), (pair)->data1[i].bytes / 4, (pair)->code1[i].at, (pair)->code1[i].bytes, words(&(pair)->data0[i]),                      \
        (pair)->data0[i].bytes / 4, (pair)->code0[i].at, (pair)->code0[i].bytes, numbers(&(pair)->log[i]), (pair)->log[i].bytes / 8, (pair)->used[i]

static uint32_t call_compare(struct pair *pair, uint32_t parts)
{
    set_read(pair, true);
    uint32_t answer = tejborun_compare(LENT_OF(pair, 0), LENT_OF(pair, 1), parts, numbers(&pair->result), pair->result.bytes / 8);
    set_read(pair, false);
    CHECK(kept_outside(&pair->result));
    return answer;
}

static uint32_t call_within(struct pair *pair, uint32_t parts, uint64_t first, uint64_t last)
{
    set_read(pair, true);
    uint32_t answer = tejborun_compare_within(LENT_OF(pair, 0), LENT_OF(pair, 1), parts, first, last, numbers(&pair->result), pair->result.bytes / 8);
    set_read(pair, false);
    CHECK(kept_outside(&pair->result));
    return answer;
}

static void free_pair(struct pair *pair)
{
    for (int i = 0; i < 2; i++) {
        give_back(&pair->data1[i]);
        give_back(&pair->code1[i]);
        give_back(&pair->log[i]);
        give_back(&pair->data0[i]);
        give_back(&pair->code0[i]);
    }
    give_back(&pair->result);
}

/* Whether the result has these numbers. */
static bool has_numbers(const struct pair *pair, const uint64_t expected[RESULT_NUMBERS])
{
    return memcmp(numbers(&pair->result), expected, RESULT_NUMBERS * sizeof *expected) == 0;
}

/* Every set of parts over boards that differ as the numbers say: the answer by the parts, and 0 for what is not asked for. */
static void try_parts(struct pair *pair, const uint64_t all[RESULT_NUMBERS], bool log_differs)
{
    for (uint32_t parts = 1; parts <= TEJBORUN_PARTS; parts++) {
        uint64_t expected[RESULT_NUMBERS] = {0};
        bool different = (parts & TEJBORUN_PART_LOG) != 0 && log_differs;
        for (int part = 0; part < PARTS; part++) {
            if ((parts >> part & 1) == 0)
                continue;
            memcpy(expected + 2 * part, all + 2 * part, 2 * sizeof *expected);
            different |= all[2 * part + 1] > 0;
        }
        CHECK(call_compare(pair, parts) == (different ? TEJBORUN_DIFFERENT : TEJBORUN_SAME) && has_numbers(pair, expected));
    }
}

static void test_compare(bool end)
{
    struct lengths ten = good, shorter = good;
    struct pair pair;
    ten.result = RESULT_NUMBERS;
    shorter.log = 4 * TEJBORUN_ENTRY_NUMBERS;
    uint64_t all[RESULT_NUMBERS] = {TEJBORUN_VIF1_QUADWORDS, 0, TEJBORUN_VIF1_INSTRUCTIONS, 0, 3, 0, TEJBORUN_VIF0_QUADWORDS, 0, TEJBORUN_VIF0_INSTRUCTIONS, 0};
    new_pair(&pair, &ten, &shorter, end);
    try_parts(&pair, all, false);
    words(&pair.data1[1])[TEJBORUN_VIF1_DATA_WORDS - 1]--;
    pair.code0[0].at[TEJBORUN_VIF0_CODE_BYTES - 1] ^= 1;
    all[0] = LAST_QUADWORD, all[1] = 1, all[8] = LAST_INSTRUCTION0, all[9] = 1;
    try_parts(&pair, all, false);
    words(&pair.data1[0])[0]++;
    words(&pair.data0[0])[TEJBORUN_VIF0_DATA_WORDS - 1]++;
    pair.code1[0].at[TEJBORUN_VIF1_CODE_BYTES - 1] ^= 1;
    all[0] = 0, all[1] = 2, all[2] = LAST_INSTRUCTION, all[3] = 1, all[6] = LAST_QUADWORD0, all[7] = 1;
    try_parts(&pair, all, false);
    entry(&pair.log[1], 2)[TEJBORUN_ENTRY_VALUE] ^= UINT64_C(1) << 63;
    all[4] = 2, all[5] = 1;
    try_parts(&pair, all, true);
    for (size_t number = 0; number < TEJBORUN_ENTRY_NUMBERS; number++) {
        entry(&pair.log[number % 2], 0)[number] ^= 1;
        all[4] = 0, all[5] = 2;
        try_parts(&pair, all, true);
        entry(&pair.log[number % 2], 0)[number] ^= 1;
    }
    pair.used[1] = 2;
    all[4] = 2, all[5] = 0;
    try_parts(&pair, all, true);
    for (size_t i = 0; i <= WRAPPING; i++) {
        pair.used[1] = i < WRAPPING ? wrapping[i] : 5;
        CHECK(call_compare(&pair, TEJBORUN_PARTS) == TEJBORUN_REFUSED + TEJBORUN_BAD_LOG);
    }
    CHECK(call_compare(&pair, TEJBORUN_PARTS - TEJBORUN_PART_LOG) == TEJBORUN_DIFFERENT);
    free_pair(&pair);
}

/* Lengths that are wrong on either side: refused where the part is asked for, and not looked at where it is not. */
static void test_wrong_compare(bool end)
{
    static const struct {
        struct wrong wrong;
        uint32_t part;
    } lengths[] = {
        {{LENGTH(data), TEJBORUN_VIF1_DATA_WORDS - 1, TEJBORUN_BAD_DATA}, TEJBORUN_PART_VIF1_DATA},
        {{LENGTH(data), 0, TEJBORUN_BAD_DATA}, TEJBORUN_PART_VIF1_DATA},
        {{LENGTH(code), TEJBORUN_VIF1_CODE_BYTES + 1, TEJBORUN_BAD_CODE}, TEJBORUN_PART_VIF1_CODE},
        {{LENGTH(code), 0, TEJBORUN_BAD_CODE}, TEJBORUN_PART_VIF1_CODE},
        {{LENGTH(log), ENTRIES * TEJBORUN_ENTRY_NUMBERS - 2, TEJBORUN_BAD_LOG}, TEJBORUN_PART_LOG},
        {{LENGTH(log), ENTRIES * TEJBORUN_ENTRY_NUMBERS + 2, TEJBORUN_BAD_LOG}, TEJBORUN_PART_LOG},
        {{LENGTH(log), ENTRIES * TEJBORUN_ENTRY_NUMBERS - 1, TEJBORUN_BAD_LOG}, TEJBORUN_PART_LOG},
        {{LENGTH(log), TEJBORUN_LOG_NUMBERS + TEJBORUN_ENTRY_NUMBERS, TEJBORUN_BAD_LOG}, TEJBORUN_PART_LOG},
        {{LENGTH(log), 0, TEJBORUN_BAD_LOG}, TEJBORUN_PART_LOG},
        {{LENGTH(data0), TEJBORUN_VIF1_DATA_WORDS, TEJBORUN_BAD_DATA}, TEJBORUN_PART_VIF0_DATA},
        {{LENGTH(data0), 0, TEJBORUN_BAD_DATA}, TEJBORUN_PART_VIF0_DATA},
        {{LENGTH(code0), TEJBORUN_VIF0_CODE_BYTES - 1, TEJBORUN_BAD_CODE}, TEJBORUN_PART_VIF0_CODE},
        {{LENGTH(code0), 0, TEJBORUN_BAD_CODE}, TEJBORUN_PART_VIF0_CODE},
    };
    static const uint64_t zeros[RESULT_NUMBERS];
    struct lengths ten = good;
    ten.result = RESULT_NUMBERS;
    struct pair pair;
    for (size_t i = 0; i < 2 * (sizeof lengths / sizeof lengths[0]); i++) {
        const struct lengths wrong = but_for(ten, &lengths[i / 2].wrong);
        new_pair(&pair, i % 2 == 0 ? &wrong : &ten, i % 2 == 0 ? &ten : &wrong, end);
        CHECK(call_compare(&pair, TEJBORUN_PARTS) == TEJBORUN_REFUSED + lengths[i / 2].wrong.answer && has_numbers(&pair, zeros));
        CHECK(call_compare(&pair, lengths[i / 2].part) == TEJBORUN_REFUSED + lengths[i / 2].wrong.answer && has_numbers(&pair, zeros));
        CHECK(call_compare(&pair, TEJBORUN_PARTS - lengths[i / 2].part) == TEJBORUN_SAME);
        free_pair(&pair);
    }
}

/* Parts that do not exist, a short result, and buffers of parts that are not asked for: null. */
static void test_wrong_parts(bool end)
{
    static const uint32_t wrong[] = {0, TEJBORUN_PARTS + 1, 64, UINT32_MAX};
    static const uint64_t zeros[RESULT_NUMBERS];
    struct lengths ten = good, few = good;
    ten.result = RESULT_NUMBERS;
    few.result = RESULT_NUMBERS - 1;
    struct pair pair;
    new_pair(&pair, &ten, &good, end);
    for (size_t i = 0; i < sizeof wrong / sizeof wrong[0]; i++)
        CHECK(call_compare(&pair, wrong[i]) == TEJBORUN_REFUSED + TEJBORUN_BAD_VALUE && has_numbers(&pair, zeros));
    uint64_t result[RESULT_NUMBERS];
    CHECK(tejborun_compare(NULL, 0, NULL, 0, words(&pair.data0[0]), TEJBORUN_VIF0_DATA_WORDS, NULL, 0, NULL, 0, 9, NULL, 0, NULL, 0, words(&pair.data0[1]),
                           TEJBORUN_VIF0_DATA_WORDS, NULL, 0, NULL, 0, 7, TEJBORUN_PART_VIF0_DATA, result, RESULT_NUMBERS) == TEJBORUN_SAME);
    CHECK(result[6] == TEJBORUN_VIF0_QUADWORDS && result[7] == 0);
    free_pair(&pair);
    new_pair(&pair, &few, &good, end);
    CHECK(call_compare(&pair, TEJBORUN_PARTS) == TEJBORUN_SHORT && call_compare(&pair, 0) == TEJBORUN_SHORT && unchanged(&pair.result));
    free_pair(&pair);
}

/* A range of quadwords over boards of which these quadwords differ: every range with its ends among some places. */
static void try_ranges(struct pair *pair, uint32_t part, const uint64_t *differ, size_t count)
{
    static const uint64_t places[] = {0, 1, 6, 7, 8, 254, 255, 256, 1022, 1023, 1024, UINT64_MAX / 4, UINT64_MAX / 4 + 1, UINT64_MAX};
    enum { PLACES = sizeof places / sizeof places[0] };
    uint64_t quadwords = part == TEJBORUN_PART_VIF1_DATA ? TEJBORUN_VIF1_QUADWORDS : TEJBORUN_VIF0_QUADWORDS;
    for (size_t i = 0; i < PLACES * PLACES; i++) {
        uint64_t first = places[i / PLACES], last = places[i % PLACES], expected[RESULT_NUMBERS] = {0};
        uint64_t *found = expected + (part == TEJBORUN_PART_VIF1_DATA ? 0 : 6);
        if (first > last || last >= quadwords) {
            CHECK(call_within(pair, part, first, last) == TEJBORUN_REFUSED + TEJBORUN_BAD_VALUE && has_numbers(pair, expected));
            continue;
        }
        found[0] = last + 1;
        for (size_t k = count; k-- > 0;)
            if (differ[k] >= first && differ[k] <= last)
                found[0] = differ[k], found[1]++;
        CHECK(call_within(pair, part, first, last) == (found[1] > 0 ? TEJBORUN_DIFFERENT : TEJBORUN_SAME) && has_numbers(pair, expected));
    }
}

/* Quadwords that differ in one word; other parts beside them; a range of no data memory, of both, and a short result. */
static void test_within(bool end)
{
    static const uint64_t differ[] = {0, 7, 255, 1023}, zeros[RESULT_NUMBERS];
    struct lengths ten = good, few = good;
    struct pair pair;
    ten.result = RESULT_NUMBERS;
    few.result = RESULT_NUMBERS - 1;
    new_pair(&pair, &ten, &good, end);
    for (size_t count = 0; count <= 4; count++) {
        try_ranges(&pair, TEJBORUN_PART_VIF1_DATA, differ, count);
        try_ranges(&pair, TEJBORUN_PART_VIF0_DATA, differ, count < 3 ? count : 3);
        if (count < 4)
            words(&pair.data1[count % 2])[4 * differ[count] + count]++;
        if (count < 3)
            words(&pair.data0[count % 2])[4 * differ[count] + 3 - count]++;
    }
    const uint32_t both = TEJBORUN_PART_VIF1_DATA | TEJBORUN_PART_VIF0_DATA;
    const uint64_t some[RESULT_NUMBERS] = {7, 1, TEJBORUN_VIF1_INSTRUCTIONS, 0, 3, 0, 7, 1, TEJBORUN_VIF0_INSTRUCTIONS, 0};
    const uint64_t none[RESULT_NUMBERS] = {7, 0, LAST_INSTRUCTION, 1, 0, 0, 7, 0, 0, 0};
    CHECK(call_within(&pair, TEJBORUN_PARTS, 1, 254) == TEJBORUN_DIFFERENT && has_numbers(&pair, some));
    CHECK(call_within(&pair, TEJBORUN_PARTS, 8, 254) == TEJBORUN_SAME);
    CHECK(call_within(&pair, both, 1, 256) == TEJBORUN_REFUSED + TEJBORUN_BAD_VALUE && has_numbers(&pair, zeros));
    CHECK(call_within(&pair, TEJBORUN_PARTS - both, 1, 6) == TEJBORUN_REFUSED + TEJBORUN_BAD_VALUE && has_numbers(&pair, zeros));
    CHECK(call_within(&pair, 0, 1, 6) == TEJBORUN_REFUSED + TEJBORUN_BAD_VALUE && call_within(&pair, TEJBORUN_PARTS + 1, 1, 6) == TEJBORUN_REFUSED + TEJBORUN_BAD_VALUE);
    pair.code1[0].at[TEJBORUN_VIF1_CODE_BYTES - 1] ^= 1;
    CHECK(call_within(&pair, both | TEJBORUN_PART_VIF1_CODE, 1, 6) == TEJBORUN_DIFFERENT && has_numbers(&pair, none));
    free_pair(&pair);
    new_pair(&pair, &few, &good, end);
    CHECK(call_within(&pair, both, 0, 0) == TEJBORUN_SHORT && unchanged(&pair.result));
    free_pair(&pair);
    ten.data--;
    new_pair(&pair, &ten, &good, end);
    CHECK(call_within(&pair, TEJBORUN_PART_VIF1_DATA, 0, 0) == TEJBORUN_REFUSED + TEJBORUN_BAD_DATA && has_numbers(&pair, zeros));
    CHECK(call_within(&pair, TEJBORUN_PART_VIF0_DATA, 0, 0) == TEJBORUN_SAME);
    free_pair(&pair);
}

/* Every answer has a message of its own, and every other number the same one. */
static void test_messages(void)
{
    static const uint32_t answers[] = {
        TEJBORUN_DONE,       TEJBORUN_BAD_MAIN,    TEJBORUN_BAD_DATA,   TEJBORUN_BAD_CODE,   TEJBORUN_BAD_LOG,        TEJBORUN_BAD_VALUE,
        TEJBORUN_BAD_TADR,   TEJBORUN_BAD_ADDR,    TEJBORUN_BAD_SPR,    TEJBORUN_BAD_CALL,   TEJBORUN_BAD_PAYLOAD,    TEJBORUN_BAD_CMD,
        TEJBORUN_BAD_FORMAT, TEJBORUN_BAD_CYCLE,   TEJBORUN_BAD_MODE,   TEJBORUN_BAD_DIRECT, TEJBORUN_BAD_DESCRIPTOR, TEJBORUN_LOG_FULL,
        TEJBORUN_BAD_MARK,   TEJBORUN_BAD_KIND,    TEJBORUN_BAD_COUNT,  TEJBORUN_BAD_ADDRESS, TEJBORUN_CUT_RECORD,    TEJBORUN_BAD_PAD,
        TEJBORUN_LONG_SHEET, TEJBORUN_LONG_CHAIN,  TEJBORUN_SHORT,      TEJBORUN_ALLOWANCE,  TEJBORUN_INTERRUPT,      TEJBORUN_BAD_TOPS,
        TEJBORUN_BAD_MPG,    TEJBORUN_BAD_NUMBER,  TEJBORUN_UNIT_WAITS, TEJBORUN_LONG_KEPT,  TEJBORUN_MANY_RANGES,    TEJBORUN_LONG_EXPANSION,
        TEJBORUN_DEEP_GROUP, TEJBORUN_TOTAL_FULL,
    };
    enum { ANSWERS = sizeof answers / sizeof answers[0] };
    const char *none = tejborun_message(UINT32_MAX);
    size_t meant = 0;
    for (uint32_t number = 0; number < 70000; number++)
        meant += strcmp(tejborun_message(number), none) != 0;
    CHECK(meant == ANSWERS);
    for (size_t i = 0; i < ANSWERS; i++)
        for (size_t j = 0; j < i; j++)
            CHECK(strcmp(tejborun_message(answers[i]), tejborun_message(answers[j])) != 0 && strcmp(tejborun_message(answers[i]), none) != 0);
}

/* SHA-256: the examples of FIPS 180-2, and libmd's own. */
static void test_sums(void)
{
    static const char *const known[][2] = {
        {"", "e3b0c44298fc1c149afbf4c8996fb92427ae41e4649b934ca495991b7852b855"},
        {"abc", "ba7816bf8f01cfea414140de5dae2223b00361a396177a9cb410ff61f20015ad"},
        {"12345", "5994471abb01112afcc18159f6cc74b4f511b99806da59b3caf5a9c173cacfc5"},
        {"abcdbcdecdefdefgefghfghighijhijkijkljklmklmnlmnomnopnopq", "248d6a61d20638b8e5c026930c3e6039a33ce45964ff2167f6ecedd419db06c1"},
    };
    char sum[SUM_TEXT];
    for (size_t i = 0; i < sizeof known / sizeof known[0]; i++) {
        struct bytes bytes = {(uint8_t *)known[i][0], strlen(known[i][0])};
        sum_of(&bytes, sum);
        CHECK(strcmp(sum, known[i][1]) == 0);
    }
    struct bytes million = {malloc(1000000), 1000000};
    CHECK(million.at != NULL);
    memset(million.at, 'a', million.count);
    sum_of(&million, sum);
    CHECK(strcmp(sum, "cdc76e5c9914fb9281a1c7e284d73e67f1809a48a497200e046d39ccc7112cd0") == 0);
    free(million.at);
}

static void test_used(void)
{
    struct tejborun_state held = {.chain.used = {UINT32_C(0x89ABCDEF), UINT32_C(0x01234567)}};
    CHECK(tejborun_used(&held) == UINT64_C(0x0123456789ABCDEF));
    CHECK(tejborun_reset((uint32_t *)&held, TEJBORUN_BLOCK_WORDS) == TEJBORUN_DONE && tejborun_used(&held) == 0);
}

int main(void)
{
    for (int end = 0; end < 2; end++) {
        test_build(end);
        test_long_sheets(end);
        test_steps(end);
        test_groups(end);
        test_long_groups(end);
        test_deep_groups(end);
        test_groups_fed(end);
        test_groups_run(end);
        test_salvage(end);
        test_damaged(end);
        test_long_salvage(end);
        test_meaning(end);
        test_reset(end);
        test_start(end);
        test_run(end);
        test_stops(end);
        test_vif0_run(end);
        test_vif0_stops(end);
        test_gif_stops(end);
        test_packets(end);
        test_paths(end);
        test_counts(end);
        test_totals(end);
        test_short_totals(end);
        test_set(end);
        test_wrong_set(end);
        test_waiting_set(end);
        test_set_seen(end);
        test_wrong_entry(end);
        test_why_stops(end);
        test_why_ended(end);
        test_why_mark(end);
        test_why_entry(end);
        test_wrapping(end);
        test_short_results(end);
        test_lengths_by_channel(end);
        test_wrong_state(end);
        test_build_and_run(end);
        test_check(end);
        test_check_kinds(end);
        test_wrong_check(end);
        test_check_sheets(end);
        test_short_checks(end);
        test_check_groups(end);
        test_compare(end);
        test_wrong_compare(end);
        test_wrong_parts(end);
        test_within(end);
    }
    test_unit_words();
    test_vif0_words();
    test_path_words();
    test_shares();
    test_messages();
    test_used();
    test_sums();
    puts("C interface: every function with good, short and wrong buffers, guard pages behind and before them: as the header says");
    puts("packets: each way to close one, on both paths, with every allowance; at a mark and before a refusal");
    puts("paths: 2, 3 and 0 in one log, in both orders of the channels, with room for every number of entries; entries used that wrap");
    puts("set: each register of both units, one word of the block and no other; 60, 50, 5, 51 in their order; seen by the run");
    puts("why: every refusal of a step with its address and numbers, each step before it without complaint; ended; the entry's; 60; nothing lent is changed");
    puts("groups: chain, steps, meaning and run of what they stand for; eight deep and nine; a chain of 1,048,576 bytes and a longer one; 255 times, eight deep");
    puts("salvage: sheets cut and broken at every byte, records inside others, the longest; just enough room and too little; 60, 46, 55, 56 in their order");
    puts("check: accepted with just enough steps and entries, over any memories; each kind of difference, the first of several; 60, 1 to 4, the sheet's in their order");
    puts("counts: of every step, on each channel, with every allowance, stopped and gone on, before a refusal; a sheet's by build and run and by check");
    puts("totals: each sum to 2^64 - 1 and beyond, 54 and no sum changed; 60; the NOP share in lowest terms, 0 over 1 without words");
    puts("state block: every word under its name");
    return 0;
}
