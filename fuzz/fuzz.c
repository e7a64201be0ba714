/* The C interface of the proved library against the second program, for libFuzzer. One entry point for each program: -DENTRY=entry_build and so on.
 *
 * The fuzzer's bytes are read as a recipe for the inputs of calls. There are three sets of buffers: one keeps what is given, the proved library works
 * on the second, the judge (the second program) on the third. The program aborts where an answer or any byte of any buffer differs. */
#define _GNU_SOURCE
#include "../host/tejborun.h"
#include "judge.h"
#include <inttypes.h>
#include <stdbool.h>
#include <stdio.h>
#include <stdlib.h>
#include <string.h>
#include <sys/mman.h>
#include <unistd.h>

/* ---- Buffers ---- */

/* Memories are VIF1's, those with a 0 VIF0's; B: of the second board. */
enum { SHEET, MAIN, DATA, CODE, DATA0, CODE0, LOG, BLOCK, RESULT, DATA_B, CODE_B, DATA0_B, CODE0_B, LOG_B, BUFFERS };

static const char *const names[BUFFERS] = {
    [SHEET] = "sheet",          [MAIN] = "main memory or output",  [DATA] = "data memory",           [CODE] = "code memory",
    [DATA0] = "VIF0's data memory", [CODE0] = "VIF0's code memory", [LOG] = "log",                    [BLOCK] = "state block",
    [RESULT] = "result",        [DATA_B] = "second data memory",   [CODE_B] = "second code memory",  [DATA0_B] = "VIF0's second data memory",
    [CODE0_B] = "VIF0's second code memory", [LOG_B] = "second log",
};

/* The given and the judge's bytes are allocated as long as they are, for the address sanitizer. The proved library's end at a page that nobody may touch,
 * as the archive itself is not instrumented. */
struct buffer {
    size_t bytes;
    void *given, *judged, *proved;
    uint8_t *wall;
};

enum { ROOM = 1 << 21 };

static struct buffer buffers[BUFFERS];

static void stop(const char *what) {
    fprintf(stderr, "DIFFERENCE: %s\n", what);
    abort();
}

static uint8_t *walled(void) {
    size_t page = (size_t)sysconf(_SC_PAGESIZE);
    uint8_t *start = mmap(NULL, ROOM + page, PROT_READ | PROT_WRITE, MAP_PRIVATE | MAP_ANONYMOUS | MAP_NORESERVE, -1, 0);
    if (start == MAP_FAILED || mprotect(start + ROOM, page, PROT_NONE) != 0) {
        perror("walled buffer");
        exit(1);
    }
    return start + ROOM;
}

static void *taken(size_t bytes) {
    if (bytes == 0) return NULL;
    void *start = malloc(bytes);
    if (start == NULL) exit(1);
    return start;
}

/* A buffer of so many bytes; what it holds is given next. */
static void *give(int which, size_t bytes) {
    struct buffer *b = &buffers[which];
    if (b->wall == NULL) b->wall = walled();
    b->bytes = bytes;
    b->given = taken(bytes);
    b->judged = taken(bytes);
    b->proved = bytes == 0 ? NULL : b->wall - bytes;
    return b->given;
}

static void lend_all(void) {
    for (int i = 0; i < BUFFERS; i++) {
        struct buffer *b = &buffers[i];
        if (b->bytes == 0) continue;
        memcpy(b->judged, b->given, b->bytes);
        memcpy(b->proved, b->given, b->bytes);
    }
}

/* What a call left is given to the next one. */
static void keep_all(void) {
    for (int i = 0; i < BUFFERS; i++) {
        struct buffer *b = &buffers[i];
        if (b->bytes > 0) memcpy(b->given, b->proved, b->bytes);
    }
}

static void drop_all(void) {
    for (int i = 0; i < BUFFERS; i++) {
        struct buffer *b = &buffers[i];
        free(b->given);
        free(b->judged);
        b->bytes = 0;
        b->given = b->judged = b->proved = NULL;
    }
}

static void show_first(const struct buffer *b, const uint8_t *expected) {
    const uint8_t *proved = b->proved;
    size_t at = 0;
    while (proved[at] == expected[at]) at++;
    fprintf(stderr, "first at byte %zu of %zu (word %zu): %02x, expected %02x\n", at, b->bytes, at / 4, proved[at], expected[at]);
}

/* The proved library's buffers are the judge's. */
static void same_buffers(void) {
    for (int i = 0; i < BUFFERS; i++) {
        struct buffer *b = &buffers[i];
        if (b->bytes == 0 || memcmp(b->proved, b->judged, b->bytes) == 0) continue;
        show_first(b, b->judged);
        stop(names[i]);
    }
}

/* A buffer that is only read is as it was given. */
static void only_read(int which) {
    struct buffer *b = &buffers[which];
    if (b->bytes == 0 || memcmp(b->proved, b->given, b->bytes) == 0) return;
    show_first(b, b->given);
    stop("a buffer that is only read was written");
}

#define PROVED(which) buffers[which].proved
#define JUDGED(which) buffers[which].judged
#define BYTES(which) buffers[which].bytes
#define WORDS(which) (buffers[which].bytes / 4)
#define NUMBERS(which) (buffers[which].bytes / 8)

/* ---- Counters ---- */

enum { ANSWERS = 128 };

static uint64_t calls, answers[ANSWERS], built, longest_chain, longest_sheet, longest_run, completed, closed;

/* Coverage that the fuzzer would not see: the archive is not instrumented, so what a call left is shown to it as counters. */
enum { KINDS = 1 << 14 };
__attribute__((section("__libfuzzer_extra_counters"))) static uint8_t kinds[KINDS];

static void show_kind(uint32_t a, uint32_t b, uint32_t c, uint32_t d) {
    uint32_t hash = ((a * 31 + b) * 131 + c) * 1031 + d;
    kinds[(hash * 2654435761u) >> 18] = 1;
}


static uint32_t magnitude(uint64_t n) {
    uint32_t bits = 0;
    for (; n > 0; n >>= 1) bits++;
    return bits;
}

static void most(uint64_t *counter, uint64_t n) {
    if (n > *counter) *counter = n;
}

static void agreed(uint32_t proved, uint32_t judged) {
    if (proved != judged) {
        fprintf(stderr, "answer %" PRIu32 ", the judge's %" PRIu32 "\n", proved, judged);
        stop("the answer");
    }
    same_buffers();
    calls++;
    if (proved >= ANSWERS) stop("an answer that the header does not have");
    answers[proved]++;
    show_kind(1, proved, 0, 0);
}

/* ---- The recipe's bytes; zeros after the last one ---- */

struct bytes {
    const uint8_t *at;
    size_t left;
};

static uint32_t take8(struct bytes *in) {
    if (in->left == 0) return 0;
    in->left--;
    return *in->at++;
}

static uint32_t take16(struct bytes *in) {
    uint32_t low = take8(in);
    return low | take8(in) << 8;
}

static uint32_t take32(struct bytes *in) {
    uint32_t low = take16(in);
    return low | take16(in) << 16;
}

static uint64_t take64(struct bytes *in) {
    uint64_t low = take32(in);
    return low | (uint64_t)take32(in) << 32;
}

/* Mostly small, sometimes anything. */
static uint32_t take_odd(struct bytes *in) {
    uint32_t how = take8(in);
    if (how < 128) return how % 8;
    if (how < 192) return take16(in);
    return take32(in);
}

/* A place below the limit, often one of the last: what is written from there goes round the end. */
static uint32_t take_place(struct bytes *in, uint32_t limit) {
    uint32_t place = take16(in);
    return place >= 0xC000 ? limit - 1 - place % 8 % limit : place % limit;
}

static uint8_t filling[ROOM + 8 * 1024];

static void make_filling(void) {
    uint64_t x = 0;
    for (size_t i = 0; i < sizeof filling; i += 8) {
        x += 0x9E3779B97F4A7C15u;
        uint64_t mixed = x ^ x >> 29;
        memcpy(filling + i, &mixed, 8);
    }
}

static void fill(void *buffer, size_t bytes, uint32_t seed) {
    if (bytes > 0) memcpy(buffer, filling + 8 * (seed % 1024), bytes);
}

/* ---- Lengths ---- */

struct lengths {
    size_t main, data, code, log, block, result, data0, code0;
};

/* Both units' memories, and the others as given. */
static struct lengths lengths_of(size_t main, size_t log, size_t result) {
    return (struct lengths){main, TEJBORUN_VIF1_DATA_WORDS, TEJBORUN_VIF1_CODE_BYTES, log, TEJBORUN_BLOCK_WORDS, result, TEJBORUN_VIF0_DATA_WORDS,
                            TEJBORUN_VIF0_CODE_BYTES};
}

static size_t spoiled(struct bytes *in, size_t right) {
    switch (take8(in) % 8) {
    case 0: return 0;
    case 1: return 1;
    case 2: return right > 0 ? right - 1 : 1;
    case 3: return right + 1;
    case 4: return right + 16;
    case 5: return right / 2;
    case 6: return right + take8(in);
    default: return right > 255 ? right - take8(in) : take8(in);
    }
}

/* One length in eight recipes is wrong. */
static void spoil(struct bytes *in, struct lengths *n) {
    size_t *const all[] = {&n->main, &n->data, &n->code, &n->log, &n->block, &n->result, &n->data0, &n->code0};
    uint32_t which = take8(in);
    if (which < 224) return;
    size_t *one = all[which % 8];
    *one = spoiled(in, *one);
}

/* The numbers of a log: few, sometimes many, rarely no whole entries or above the most. */
static size_t log_numbers(struct bytes *in) {
    uint32_t how = take8(in);
    if (how < 160) return TEJBORUN_ENTRY_NUMBERS * (size_t)how;
    if (how < 240) return TEJBORUN_ENTRY_NUMBERS * (size_t)(take16(in) % 4096);
    if (how < 250) return TEJBORUN_LOG_NUMBERS;
    if (how < 253) return TEJBORUN_LOG_NUMBERS - TEJBORUN_ENTRY_NUMBERS * (size_t)take8(in);
    if (how < 254) return TEJBORUN_LOG_NUMBERS + TEJBORUN_ENTRY_NUMBERS;
    return take16(in);
}

static uint64_t used_entries(struct bytes *in, size_t numbers) {
    uint32_t how = take8(in);
    size_t entries = numbers / TEJBORUN_ENTRY_NUMBERS;
    if (how < 96) return 0;
    if (how < 200) return take16(in) % (entries + 1);
    if (how < 248) return entries - (entries > how % 4 ? how % 4 : 0);
    if (how < 252) return entries + 1;
    /* Their numbers pass 2^64 - 1 by so little that, worked out with wrapping, they might fit. */
    if (how < 254) return UINT64_MAX / TEJBORUN_ENTRY_NUMBERS + 1 + take8(in) % 8;
    return take64(in);
}

/* The bytes of main memory: few, sometimes many, rarely wrong. */
static size_t main_bytes(struct bytes *in) {
    uint32_t how = take8(in);
    if (how < 128) return 16 * (size_t)(how + 1);
    if (how < 244) return 16 * (size_t)(1 + take16(in) % 2048);
    if (how < 250) return 16 * (size_t)(1 + take16(in));
    if (how < 252) return TEJBORUN_MAIN_BYTES + 16;
    if (how < 253) return 0;
    return take16(in);
}

static void give_memories(struct bytes *in, const struct lengths *n) {
    uint32_t seed = take8(in);
    fill(give(DATA, 4 * n->data), 4 * n->data, seed);
    fill(give(CODE, n->code), n->code, seed + 1);
    fill(give(LOG, 8 * n->log), 8 * n->log, seed + 2);
    fill(give(DATA0, 4 * n->data0), 4 * n->data0, seed + 5);
    fill(give(CODE0, n->code0), n->code0, seed + 6);
}

static void give_result(size_t numbers) {
    fill(give(RESULT, 8 * numbers), 8 * numbers, 77);
}

/* ---- Sheets ---- */

enum { RECORD_ROOM = 4160, SHEET_ROOM = TEJBORUN_SHEET_BYTES + RECORD_ROOM, GROUPS = 16 };

struct sheet {
    size_t bytes;
    uint8_t at[SHEET_ROOM];
    /* Whether groups may come, the members still due of those around what comes next, and whether those that are missing in the end are added. */
    bool is_second, complete;
    uint32_t due[GROUPS], depth;
};

static struct sheet sheet;

static void add(struct sheet *s, const void *from, size_t bytes) {
    if (bytes > SHEET_ROOM - s->bytes) bytes = SHEET_ROOM - s->bytes;
    memcpy(s->at + s->bytes, from, bytes);
    s->bytes += bytes;
}

struct record {
    uint8_t mark[2], kind, count;
    uint32_t address;
};

static struct record legal_record(struct bytes *in, uint32_t kind) {
    static const uint32_t addresses[5] = {1, TEJBORUN_VIF1_QUADWORDS, TEJBORUN_VIF1_INSTRUCTIONS, 1, TEJBORUN_VIF1_INSTRUCTIONS};
    uint32_t count = take8(in), address = take_place(in, addresses[kind]);
    struct record r = {{0x9E, 0x51}, (uint8_t)kind, (uint8_t)count, address};
    if (count < 224) r.count = (uint8_t)(1 + count % 6);
    if (kind == 4) r.count = 0;
    return r;
}

static size_t body_bytes(const struct record *r) {
    if (r->kind == 4) return 0;
    return (size_t)r->count * (r->kind == 2 ? 8 : 16);
}

/* The body: from a seed, with its first entry raw. */
static void make_body(struct bytes *in, const struct record *r, uint8_t *body) {
    size_t bytes = body_bytes(r);
    fill(body, bytes, take8(in));
    for (size_t i = 0; i < 8 && i < bytes; i++) body[i] = (uint8_t)take8(in);
    if (r->kind != 3) return;
    for (size_t i = 0; i < bytes; i++)
        if (i % 16 > 8) body[i] = 0;
}

/* One more member of the innermost group, where there is one; groups that are whole end. */
static void count_member(struct sheet *s) {
    if (s->depth > 0 && s->due[s->depth - 1] > 0) s->due[s->depth - 1]--;
}

static void end_groups(struct sheet *s) {
    while (s->depth > 0 && s->due[s->depth - 1] == 0) s->depth--;
}

/* Starts in a row: the densest sheets, up to the longest and beyond. */
static void add_starts(struct bytes *in, struct sheet *s) {
    uint32_t count = take16(in) % 21848;
    for (uint32_t i = 0; i < count; i++) {
        const uint8_t start[6] = {0x9E, 0x51, 4, 0, (uint8_t)i, (uint8_t)(i >> 8 & 7)};
        add(s, start, 6);
        count_member(s);
        end_groups(s);
    }
}

static void add_raw(struct bytes *in, struct sheet *s) {
    for (uint32_t count = take8(in) % 32; count > 0; count--) {
        uint8_t raw = (uint8_t)take8(in);
        add(s, &raw, 1);
    }
}

/* The first record of a second-edition sheet, mostly right. */
static void add_edition(struct bytes *in, struct sheet *s) {
    uint32_t how = take8(in);
    uint8_t count = how < 240 ? 2 : (uint8_t)(take8(in) % 5);
    uint32_t address = how < 248 ? 0 : take16(in);
    const uint8_t header[6] = {0x9E, 0x51, 0, count, (uint8_t)address, (uint8_t)(address >> 8)};
    s->is_second = true;
    s->complete = how % 8 != 7;
    add(s, header, 6);
}

/* A group's header: mostly few repetitions of few members. */
static void add_group(struct bytes *in, struct sheet *s) {
    uint32_t how = take8(in), often = take8(in);
    uint8_t repetitions = (uint8_t)(how < 208 ? 1 + often % 3 : often);
    uint32_t members = how % 16 < 14 ? 1 + how % 4 : how % 16 == 14 ? take16(in) % 700 : take16(in);
    const uint8_t header[6] = {0x9E, 0x51, 5, repetitions, (uint8_t)members, (uint8_t)(members >> 8)};
    add(s, header, 6);
    count_member(s);
    if (s->depth < GROUPS) s->due[s->depth++] = members;
    end_groups(s);
}

/* Starts for the members that are missing, where they are not too many. */
static void complete_groups(struct sheet *s) {
    static const uint8_t start[6] = {0x9E, 0x51, 4, 0, 5, 0};
    for (uint32_t most = 1000; s->complete && s->depth > 0 && most > 0; most--) {
        add(s, start, 6);
        count_member(s);
        end_groups(s);
    }
}

/* One fault in a record, by number. */
static void spoil_record(struct bytes *in, uint32_t fault, struct record *r) {
    switch (fault) {
    case 0: r->mark[take8(in) % 2] = (uint8_t)take8(in); break;
    case 1: r->kind = (uint8_t)take8(in); break;
    case 2: r->count = (uint8_t)take8(in) % 3; break;
    default: r->address = take16(in); break;
    }
}

static void add_record(struct bytes *in, struct sheet *s) {
    static uint8_t body[255 * 16];
    uint32_t op = take8(in), fault = op >> 2;
    if (fault == 63) return add_raw(in, s);
    if (fault == 62) return add_starts(in, s);
    if (fault >= 48 && fault < 56 && s->bytes == 0) return add_edition(in, s);
    if (fault >= 48 && fault < 56 && s->is_second) return add_group(in, s);
    struct record r = legal_record(in, 1 + op % 4);
    size_t bytes = body_bytes(&r);
    make_body(in, &r, body);
    if (fault >= 58) spoil_record(in, fault - 58, &r);
    if (fault == 57 && bytes > 0) body[take16(in) % bytes] ^= (uint8_t)(1 + take8(in) % 255);
    if (fault == 56 && bytes > 0) bytes -= 1 + take16(in) % bytes;
    const uint8_t header[6] = {r.mark[0], r.mark[1], r.kind, r.count, (uint8_t)r.address, (uint8_t)(r.address >> 8)};
    add(s, header, 6);
    add(s, body, bytes);
    count_member(s);
    end_groups(s);
}

/* No records yet, of the first edition. */
static void clear_sheet(void) {
    sheet.bytes = 0;
    sheet.depth = 0;
    sheet.is_second = sheet.complete = false;
}

static void give_sheet(struct bytes *in) {
    clear_sheet();
    while (in->left > 0 && sheet.bytes <= TEJBORUN_SHEET_BYTES) add_record(in, &sheet);
    complete_groups(&sheet);
    void *to = give(SHEET, sheet.bytes);
    if (sheet.bytes > 0) memcpy(to, sheet.at, sheet.bytes);
    most(&longest_sheet, sheet.bytes);
}

/* The bytes of the sheet's chain, or 0 where it is refused: the judge says it. */
static size_t chain_bytes(void) {
    static uint8_t output[TEJBORUN_CHAIN_BYTES + 64];
    size_t answer = judge_build(buffers[SHEET].given, BYTES(SHEET), output, sizeof output);
    return answer % 16 == 0 ? answer : 0;
}

/* ---- State blocks ---- */

static void put_path(struct bytes *in, struct tejborun_path *path) {
    path->q = take32(in);
    path->place = take8(in) & 1;
    if (path->place == 0) return;
    uint32_t how = take8(in);
    path->format = how % 3;
    path->nloop = 1 + (how < 200 ? take8(in) % 16 : take16(in) % 32767);
    path->eop = how >> 7;
    path->nreg = 1 + take8(in) % 16;
    path->descriptors[0] = take32(in);
    path->descriptors[1] = take32(in);
    uint32_t units = path->nloop * path->nreg;
    uint32_t all = path->format == 0 ? units : path->format == 1 ? (units + 1) / 2 : path->nloop;
    path->due = 1 + take32(in) % all;
}

static void put_registers(struct bytes *in, struct tejborun_unit *unit) {
    unit->cl = take8(in);
    unit->wl = take8(in);
    if (unit->wl > unit->cl && take8(in) < 224) unit->wl = 1 + unit->wl % (unit->cl + 1);
    uint32_t *const of_ten_bits[] = {&unit->ofst, &unit->base, &unit->tops, &unit->top, &unit->itops, &unit->itop};
    for (size_t i = 0; i < sizeof of_ten_bits / sizeof of_ten_bits[0]; i++) *of_ten_bits[i] = take16(in) & 0x3FF;
    unit->dbf = take8(in) & 1;
    unit->mode = take8(in) % 3;
    unit->mskpath3 = take8(in) & 1;
    unit->mark = take16(in);
    unit->mask = take32(in);
    for (int i = 0; i < 4; i++) unit->row[i] = take32(in);
    for (int i = 0; i < 4; i++) unit->col[i] = take32(in);
}

/* All words of the payload of an UNPACK. */
static uint32_t unpack_words(uint32_t format, uint32_t count) {
    uint32_t bits = format == 15 ? 16 : ((format >> 2) + 1) * (32 >> (format & 3));
    return (bits * count + 31) / 32;
}

/* The numbers of a waiting UNPACK but for its count; all words of its payload. */
static uint32_t put_unpack(struct bytes *in, struct tejborun_unit *unit) {
    uint32_t format = take8(in) % 16;
    unit->format = format % 4 == 3 ? 15 : format;
    unit->address = take_place(in, TEJBORUN_VIF1_QUADWORDS);
    unit->usn = take8(in) & 1;
    unit->m = take8(in) & 1;
    for (int i = 0; i < 3; i++) unit->held[i] = take32(in);
    return unpack_words(unit->format, unit->count);
}

/* What is due of a waiting code at most, and the numbers that it has beside. */
static uint32_t put_code(struct bytes *in, struct tejborun_unit *unit) {
    if (unit->waiting == TEJBORUN_WAITS_MPG || unit->waiting == TEJBORUN_WAITS_UNPACK) unit->count = 1 + take8(in);
    switch (unit->waiting) {
    case TEJBORUN_WAITS_STROW:
    case TEJBORUN_WAITS_STCOL: return 4;
    case TEJBORUN_WAITS_MPG: unit->address = take_place(in, TEJBORUN_VIF1_INSTRUCTIONS); return 2 * unit->count;
    case TEJBORUN_WAITS_DIRECT:
    case TEJBORUN_WAITS_DIRECTHL: return take8(in) < 192 ? 16 : 65536;
    case TEJBORUN_WAITS_UNPACK: return put_unpack(in, unit);
    default: return 1;
    }
}

static void put_waiting(struct bytes *in, struct tejborun_unit *unit) {
    unit->waiting = take8(in) % TEJBORUN_WAITING;
    if (unit->waiting == TEJBORUN_WAITS_NONE) return;
    unit->irq = take8(in) & 1;
    uint32_t all = put_code(in, unit);
    unit->due = 1 + take16(in) % all;
}

/* VIF0: what nothing there writes is 0, and DIRECT never waits. */
static void put_vif0(struct bytes *in, uint32_t shape, struct tejborun_unit *unit) {
    if (shape & 32) put_registers(in, unit);
    if (shape & 64) put_waiting(in, unit);
    unit->ofst = unit->base = unit->tops = unit->top = unit->dbf = unit->mskpath3 = 0;
    bool direct = unit->waiting == TEJBORUN_WAITS_DIRECT || unit->waiting == TEJBORUN_WAITS_DIRECTHL;
    if (direct) unit->waiting = TEJBORUN_WAITS_STROW;
    if (direct) unit->due = 1 + unit->due % 4;
}

/* A channel: VIF1's half of the time. */
static uint32_t channel_of(uint32_t how) {
    static const uint8_t channels[4] = {1, 2, 1, 0};
    return channels[how % 4];
}

/* Where the chain stands. */
static void put_place(struct bytes *in, struct tejborun_chain *chain, size_t quadwords) {
    uint32_t limit = (uint32_t)quadwords + 2;
    chain->channel = channel_of(take8(in));
    chain->tadr = 16 * (take16(in) % limit);
    chain->tte = chain->channel != 2 ? take8(in) & 1 : 0;
    chain->ended = take8(in) < 32;
    chain->depth = take8(in) % 3;
    for (uint32_t i = 0; i < chain->depth; i++) chain->stack[i] = 16 * (take16(in) % limit % 65537);
    if (chain->tte == 1 && take8(in) % 2 == 1) {
        chain->tag_words = 1;
        chain->tag_word_at = 16 * (take16(in) % limit) + (take8(in) % 2 == 1 ? 12 : 8);
    }
    uint32_t pending = take8(in) % 64;
    if (pending == 0) return;
    uint32_t words = chain->channel == 2 ? 4 * pending : pending;
    chain->payload_words = words;
    chain->payload_at = 16 * (take16(in) % limit) + 4 * (-words & 3);
}

/* A few words raw. */
static void put_raw(struct bytes *in, uint32_t *block) {
    for (uint32_t count = 1 + take8(in) % 3; count > 0; count--) {
        uint32_t which = take8(in) % TEJBORUN_BLOCK_WORDS;
        block[which] = take_odd(in);
    }
}

/* A state block, in range but for the raw words. */
static void give_block(struct bytes *in, const struct lengths *n) {
    struct tejborun_state state = {.chain.channel = 1};
    uint32_t shape = take8(in);
    if (shape & 1) put_place(in, &state.chain, n->main / 16);
    uint64_t used = used_entries(in, n->log);
    state.chain.used[0] = (uint32_t)used;
    state.chain.used[1] = (uint32_t)(used >> 32);
    if (shape & 2) put_registers(in, &state.vif1);
    if (shape & 4) put_waiting(in, &state.vif1);
    if (shape & 8) put_path(in, &state.path2);
    if (shape & 16) put_path(in, &state.path3);
    if (shape & 96) put_vif0(in, shape, &state.vif0);
    if (shape >= 192) put_raw(in, (uint32_t *)&state);
    size_t bytes = 4 * n->block;
    uint32_t *to = give(BLOCK, bytes);
    fill(to, bytes, shape);
    if (bytes > 0) memcpy(to, &state, bytes < sizeof state ? bytes : sizeof state);
}

/* ---- Main memory with a chain ---- */

struct writer {
    uint8_t *main;
    size_t words, at, tag; /* tag: the word of the open tag, or `words` where none is */
};

static void put_word(struct writer *w, uint32_t word) {
    if (w->at >= w->words) return;
    memcpy(w->main + 4 * w->at, &word, 4);
    w->at++;
}

static void align(struct writer *w, size_t place) {
    while (w->at < w->words && w->at % 4 != place) put_word(w, 0);
}

/* The open tag gets the quadwords after it, and what follows them for an address where it has none. */
static void close_tag(struct writer *w) {
    align(w, 0);
    size_t tag = w->tag;
    w->tag = w->words;
    if (tag + 4 > w->at) return;
    uint32_t words[2];
    memcpy(words, w->main + 4 * tag, 8);
    words[0] = (words[0] & 0xFFFF0000u) | (uint32_t)(((w->at - tag) / 4 - 1) & 0xFFFF);
    if (words[1] == 0) words[1] = (uint32_t)(4 * w->at);
    memcpy(w->main + 4 * tag, words, 8);
}

/* Whether the chain is for VIF0: then it has mostly codes that VIF0 has. */
static bool for_vif0;

static bool lacks(uint32_t command) {
    static const uint8_t missing[] = {0x02, 0x03, 0x06, 0x11, 0x13, 0x15, 0x50, 0x51};
    return memchr(missing, (int)command, sizeof missing) != NULL;
}

static uint32_t legal_code(struct bytes *in) {
    static const uint8_t commands[] = {0x00, 0x01, 0x01, 0x02, 0x03, 0x04, 0x05, 0x05, 0x06, 0x07, 0x10, 0x11, 0x13, 0x14, 0x14, 0x15, 0x17, 0x17, 0x20, 0x30,
                                       0x31, 0x4A, 0x50, 0x51, 0x60, 0x61, 0x62, 0x64, 0x65, 0x66, 0x68, 0x69, 0x6A, 0x6C, 0x6D, 0x6E, 0x6F, 0x70, 0x71, 0x72,
                                       0x74, 0x75, 0x76, 0x78, 0x79, 0x7A, 0x7C, 0x7D, 0x7E, 0x7F};
    uint32_t how = take8(in), num = take8(in), imm = take16(in);
    if (how >= 250) return how << 24 | num << 16 | imm;
    uint32_t command = commands[how % sizeof commands];
    if (for_vif0 && num % 16 != 15 && lacks(command)) command = 0x6C;
    if (for_vif0 && num % 16 != 15 && command >= 0x60) imm &= 0x7FFF;
    if (command == 1 && imm % 4 != 0) imm = ((imm & 7) + 1) | (1 + (imm >> 8) % ((imm & 7) + 1)) << 8;
    if (command == 5 && imm % 4 == 3 && num % 8 != 0) imm--;
    if (command >= 0x50 && command < 0x60 && imm % 8 != 0) imm %= 8;
    if (command >= 0x4A && num < 224) num = 1 + num % 8;
    if (command == 0x4A || command >= 0x60) imm |= (imm >> 11 & 3) == 3 ? 0x7F8 : 0;
    return (how >= 200 ? 1u << 31 : 0) | command << 24 | num << 16 | imm;
}

static void put_gif_tag(struct bytes *in, struct writer *w) {
    uint32_t how = take8(in), low = take16(in), high = take16(in);
    uint32_t nloop = how < 224 ? low % 6 : low & 0x7FFF;
    align(w, 0);
    put_word(w, nloop | (low & 0x8000));
    put_word(w, high << 14 | (how & 3) << 26 | (how >> 2 & 15) << 28);
    put_word(w, take32(in));
    put_word(w, take32(in));
}

static void put_tag(struct bytes *in, struct writer *w) {
    close_tag(w);
    static const uint8_t ids[16] = {1, 0, 1, 2, 1, 3, 1, 4, 1, 5, 1, 6, 2, 7, 5, 6};
    uint32_t how = take8(in), id = ids[how % 16];
    uint32_t addr = how & 16 ? 0 : 16 * (take16(in) % (uint32_t)(w->words / 4 + 1));
    if (how < 64 || id == 0 || id == 3 || id == 4) w->tag = w->words;
    else w->tag = w->at;
    if (how >= 248) addr = take32(in);
    put_word(w, id << 28 | (take8(in) % 8 == 0 ? take16(in) : take8(in) % 8));
    put_word(w, addr);
    put_word(w, take8(in) % 4 == 0 ? legal_code(in) : 0);
    put_word(w, take8(in) % 4 == 0 ? legal_code(in) : 0);
}

/* DIRECT in the last word of a quadword, then the GIF's tag. */
static void put_direct(struct bytes *in, struct writer *w) {
    align(w, 3);
    put_word(w, 0x50000000u | (take8(in) & 1) << 24 | take8(in) % 9);
    put_gif_tag(in, w);
}

static void put_filling(struct bytes *in, struct writer *w) {
    uint32_t count = take8(in), seed = take8(in);
    for (uint32_t i = 0; i < count; i++) {
        uint32_t word;
        memcpy(&word, filling + 8 * seed + 4 * i, 4);
        put_word(w, word);
    }
}

static void put_piece(struct bytes *in, struct writer *w) {
    uint32_t op = take8(in);
    switch (op % 8) {
    case 0:
    case 1: put_tag(in, w); break;
    case 2:
    case 3:
    case 4: put_word(w, legal_code(in)); break;
    case 5: op < 128 || for_vif0 ? put_gif_tag(in, w) : put_direct(in, w); break;
    case 6: put_word(w, take32(in)); break;
    default: put_filling(in, w); break;
    }
}

static void give_main(struct bytes *in, size_t bytes) {
    uint8_t *main = give(MAIN, bytes);
    if (bytes > 0) memset(main, 0, bytes);
    struct writer w = {main, bytes / 4, 0, bytes / 4};
    while (in->left > 0 && w.at < w.words) put_piece(in, &w);
    close_tag(&w);
    put_word(&w, 0x70000000u);
}

/* ---- The entry points ---- */

/* The numbers of a result; the counts come last, their steps first. */
enum { RUN_RESULT = TEJBORUN_COUNTS, BUILD_AND_RUN_RESULT = 1 + TEJBORUN_COUNTS, WHY_RESULT = 4, CHECK_RESULT = TEJBORUN_CHECK_NUMBERS };

static void count_run(uint32_t answer, size_t numbers) {
    if (NUMBERS(RESULT) < numbers || WORDS(BLOCK) != TEJBORUN_BLOCK_WORDS || answer == TEJBORUN_SHORT) return;
    const uint64_t *result = PROVED(RESULT);
    const uint64_t *counts = result + numbers - TEJBORUN_COUNTS;
    uint64_t steps = counts[0], packets = counts[1];
    const struct tejborun_state *state = PROVED(BLOCK);
    const struct tejborun_chain *chain = &state->chain;
    const struct tejborun_unit *unit = chain->channel == 0 ? &state->vif0 : &state->vif1;
    const struct tejborun_path *path2 = &state->path2, *path3 = &state->path3;
    most(&longest_run, steps);
    completed += steps;
    closed += packets;
    show_kind(14, answer, magnitude(packets), chain->channel);
    show_kind(20, magnitude(counts[2]), magnitude(counts[3]), chain->channel);
    for (uint32_t i = 4; i < TEJBORUN_COUNTS; i++) show_kind(21, i, magnitude(counts[i]), chain->channel);
    show_kind(2, answer, magnitude(steps), unit->waiting);
    show_kind(3, answer, chain->channel * 8 + chain->tte * 4 + chain->depth, path2->place + 2 * path3->place);
    show_kind(4, unit->waiting, unit->format, unit->mode);
    if (path2->place == 1) show_kind(5, answer, path2->format, path2->nreg);
    if (path3->place == 1) show_kind(6, answer, path3->format, path3->nreg);
}

static void fuzz_build(struct bytes *in) {
    uint32_t how = take8(in), by = take8(in);
    give_sheet(in);
    size_t room = chain_bytes();
    if (how >= 192) room = how >= 224 ? room + by : room - (room < by ? room : by);
    fill(give(MAIN, room), room, by);
    lend_all();
    size_t proved = tejborun_build(PROVED(SHEET), BYTES(SHEET), PROVED(MAIN), BYTES(MAIN));
    size_t judged = judge_build(JUDGED(SHEET), BYTES(SHEET), JUDGED(MAIN), BYTES(MAIN));
    if (proved != judged) fprintf(stderr, "answer %zu, the judge's %zu\n", proved, judged), stop("the answer");
    only_read(SHEET);
    bool whole = proved % 16 == 0;
    agreed(whole ? TEJBORUN_DONE : (uint32_t)proved, whole ? TEJBORUN_DONE : (uint32_t)judged);
    if (!whole) return;
    built++;
    most(&longest_chain, proved);
    show_kind(7, magnitude(proved), 0, 0);
}

static void fuzz_steps(struct bytes *in) {
    uint32_t how = take8(in);
    give_sheet(in);
    give_result(how < 240 ? 2 : how % 4);
    lend_all();
    uint32_t proved = tejborun_steps(PROVED(SHEET), BYTES(SHEET), PROVED(RESULT), NUMBERS(RESULT));
    agreed(proved, judge_steps(JUDGED(SHEET), BYTES(SHEET), JUDGED(RESULT), NUMBERS(RESULT)));
    only_read(SHEET);
    if (proved == TEJBORUN_SHORT) return;
    const uint64_t *result = PROVED(RESULT);
    most(&longest_run, result[0]);
    show_kind(8, proved, magnitude(result[0]), magnitude(result[1]));
}

static void fuzz_meaning(struct bytes *in) {
    struct lengths n = lengths_of(0, log_numbers(in), 2);
    spoil(in, &n);
    uint64_t used = used_entries(in, n.log);
    give_memories(in, &n);
    give_result(n.result);
    give_sheet(in);
    lend_all();
    uint32_t proved = tejborun_meaning(PROVED(SHEET), BYTES(SHEET), PROVED(DATA), WORDS(DATA), PROVED(CODE), BYTES(CODE), PROVED(LOG), NUMBERS(LOG), used,
                                       PROVED(RESULT), NUMBERS(RESULT));
    agreed(proved, judge_meaning(JUDGED(SHEET), BYTES(SHEET), JUDGED(DATA), WORDS(DATA), JUDGED(CODE), BYTES(CODE), JUDGED(LOG), NUMBERS(LOG), used,
                                 JUDGED(RESULT), NUMBERS(RESULT)));
    only_read(SHEET);
    if (proved == TEJBORUN_DONE) most(&longest_run, *(const uint64_t *)PROVED(RESULT) - used);
    if (proved == TEJBORUN_DONE) show_kind(9, magnitude(*(const uint64_t *)PROVED(RESULT)), magnitude(used), 0);
}

/* Damage: a bad sector, raw bytes at any place, or a cut. */
static void damage(struct bytes *in, struct sheet *s) {
    enum { SECTOR = 512 };
    uint32_t how = take8(in), at = take32(in);
    if (s->bytes == 0) return;
    at %= (uint32_t)s->bytes;
    uint32_t sector = at - at % SECTOR;
    size_t left = s->bytes - sector;
    switch (how % 8) {
    case 0: memset(s->at + sector, 0, left < SECTOR ? left : SECTOR); break;
    case 1: fill(s->at + sector, left < SECTOR ? left : SECTOR, how); break;
    case 2: s->bytes = at; break;
    case 3: s->at[at] = 0x9E; break;
    default: s->at[at] = (uint8_t)take8(in); break;
    }
}

/* The lengths that are needed, as the judge says them with roomy buffers. */
static void needed(size_t *bytes, size_t *numbers) {
    static uint8_t output[SHEET_ROOM];
    static uint64_t ranges[2 * SHEET_ROOM];
    uint64_t result[2] = {0, 0};
    judge_salvage(buffers[SHEET].given, BYTES(SHEET), output, sizeof output, ranges, sizeof ranges / sizeof ranges[0], result, 2);
    *bytes = result[0];
    *numbers = 2 * result[1];
}

/* A length, mostly the one needed; sometimes a little more or less. */
static size_t near(struct bytes *in, size_t right) {
    uint32_t how = take8(in), by = take8(in) % 4;
    if (how < 128) return right;
    if (how < 192) return right + by;
    if (how < 248) return right - (right < by ? right : by);
    return how % 2;
}

/* The output stands in main memory's buffer, the list in the log's. */
static void fuzz_salvage(struct bytes *in) {
    uint8_t damage_of[64], lengths_of_buffers[5];
    for (size_t i = 0; i < sizeof damage_of; i++) damage_of[i] = (uint8_t)take8(in);
    for (size_t i = 0; i < sizeof lengths_of_buffers; i++) lengths_of_buffers[i] = (uint8_t)take8(in);
    struct bytes order = {damage_of, sizeof damage_of}, buffers_of = {lengths_of_buffers, sizeof lengths_of_buffers};
    clear_sheet();
    while (in->left > 0 && sheet.bytes <= TEJBORUN_SHEET_BYTES) add_record(in, &sheet);
    for (uint32_t count = take8(&order) % 10; count > 0; count--) damage(&order, &sheet);
    void *to = give(SHEET, sheet.bytes);
    if (sheet.bytes > 0) memcpy(to, sheet.at, sheet.bytes);
    most(&longest_sheet, sheet.bytes);
    size_t bytes, numbers;
    needed(&bytes, &numbers);
    bytes = near(&buffers_of, bytes);
    numbers = near(&buffers_of, numbers);
    fill(give(MAIN, bytes), bytes, 3);
    fill(give(LOG, 8 * numbers), 8 * numbers, 2);
    uint32_t how = take8(&buffers_of);
    give_result(how < 240 ? 2 : how % 4);
    lend_all();
    uint32_t proved = tejborun_salvage(PROVED(SHEET), BYTES(SHEET), PROVED(MAIN), BYTES(MAIN), PROVED(LOG), NUMBERS(LOG), PROVED(RESULT), NUMBERS(RESULT));
    agreed(proved, judge_salvage(JUDGED(SHEET), BYTES(SHEET), JUDGED(MAIN), BYTES(MAIN), JUDGED(LOG), NUMBERS(LOG), JUDGED(RESULT), NUMBERS(RESULT)));
    only_read(SHEET);
    if (proved == TEJBORUN_SHORT) return;
    const uint64_t *result = PROVED(RESULT);
    most(&longest_run, result[1]);
    show_kind(16, proved, magnitude(result[0]), magnitude(result[1]));
}

static uint32_t call_reset(void) {
    uint32_t proved = tejborun_reset(PROVED(BLOCK), WORDS(BLOCK));
    agreed(proved, judge_reset(JUDGED(BLOCK), WORDS(BLOCK)));
    return proved;
}

static uint32_t call_start(struct bytes *in) {
    uint32_t how = take8(in);
    uint32_t channel = how < 232 ? channel_of(how) : take_odd(in);
    uint32_t tadr = take8(in) < 232 ? 16 * take16(in) : take32(in);
    uint32_t tte = take8(in) < 232 ? (channel != 2 ? how >> 2 & 1 : how >= 200) : take_odd(in);
    uint32_t proved = tejborun_start(PROVED(BLOCK), WORDS(BLOCK), channel, tadr, tte);
    agreed(proved, judge_start(JUDGED(BLOCK), WORDS(BLOCK), channel, tadr, tte));
    return proved;
}

/* A start on the block that is given, then a reset and another start. */
static void fuzz_start(struct bytes *in) {
    struct lengths n = lengths_of(TEJBORUN_MAIN_BYTES, 128 * TEJBORUN_ENTRY_NUMBERS, 2);
    spoil(in, &n);
    give_block(in, &n);
    lend_all();
    uint32_t answer = call_start(in);
    const struct tejborun_state *state = PROVED(BLOCK);
    if (WORDS(BLOCK) == TEJBORUN_BLOCK_WORDS) show_kind(10, answer, state->vif1.waiting, state->path2.place * 2 + state->path3.place);
    if (WORDS(BLOCK) == TEJBORUN_BLOCK_WORDS) show_kind(12, answer, state->vif0.waiting, state->chain.channel);
    call_reset();
    call_start(in);
    call_start(in);
}

/* A set, mostly of a register that there is. */
static uint32_t call_set(struct bytes *in) {
    uint32_t how = take8(in);
    uint32_t unit = how < 224 ? how % 2 : take_odd(in);
    uint32_t number = how >= 16 && how < 240 ? how / 2 % 8 : take_odd(in);
    uint32_t value = take32(in);
    uint32_t proved = tejborun_set(PROVED(BLOCK), WORDS(BLOCK), unit, number, value);
    agreed(proved, judge_set(JUDGED(BLOCK), WORDS(BLOCK), unit, number, value));
    const struct tejborun_state *state = PROVED(BLOCK);
    if (WORDS(BLOCK) == TEJBORUN_BLOCK_WORDS) show_kind(15, proved, unit * 8 + number, state->vif0.waiting * 8 + state->vif1.waiting);
    return proved;
}

/* Sets on the block that is given, then a start and sets again. */
static void fuzz_set(struct bytes *in) {
    struct lengths n = lengths_of(TEJBORUN_MAIN_BYTES, 128 * TEJBORUN_ENTRY_NUMBERS, 2);
    spoil(in, &n);
    uint8_t calls_of[32];
    for (size_t i = 0; i < sizeof calls_of; i++) calls_of[i] = (uint8_t)take8(in);
    give_block(in, &n);
    lend_all();
    struct bytes order = {calls_of, sizeof calls_of};
    for (uint32_t sets = 1 + take8(&order) % 3; sets > 0; sets--) call_set(&order);
    call_start(&order);
    call_set(&order);
}

/* The memories that a run is lent: a data memory, and a code memory. */
struct memories {
    int data, code;
};

/* Whether the block that is given names channel 0. */
static bool on_channel_0(void) {
    const struct tejborun_chain *chain = buffers[BLOCK].given;
    return WORDS(BLOCK) > 0 && chain->channel == 0;
}

/* Those of the block's channel; rarely the other unit's. */
static struct memories memories_of_channel(struct bytes *in) {
    static const struct memories vif1 = {DATA, CODE}, vif0 = {DATA0, CODE0};
    return on_channel_0() == (take8(in) < 250) ? vif0 : vif1;
}

static uint32_t judged_run(struct memories m, uint64_t allowance) {
    return judge_run(JUDGED(MAIN), BYTES(MAIN), JUDGED(m.data), WORDS(m.data), JUDGED(m.code), BYTES(m.code), JUDGED(LOG), NUMBERS(LOG), JUDGED(BLOCK),
                     WORDS(BLOCK), allowance, JUDGED(RESULT), NUMBERS(RESULT));
}

/* The allowance of a run. A chain may never end: a large allowance is given only where the judge came to an end with a smaller one. */
static uint64_t run_allowance(struct bytes *in, struct memories m) {
    uint32_t how = take8(in);
    if (how < 64) return how;
    if (how < 160) return take16(in);
    const uint64_t limit = 20000;
    lend_all();
    if (judged_run(m, limit) == TEJBORUN_ALLOWANCE) return limit;
    return how < 240 ? UINT64_MAX : UINT64_MAX - take32(in);
}

static void one_run(struct bytes *in) {
    struct memories m = memories_of_channel(in);
    uint64_t allowance = run_allowance(in, m);
    lend_all();
    uint32_t proved = tejborun_run(PROVED(MAIN), BYTES(MAIN), PROVED(m.data), WORDS(m.data), PROVED(m.code), BYTES(m.code), PROVED(LOG), NUMBERS(LOG),
                                   PROVED(BLOCK), WORDS(BLOCK), allowance, PROVED(RESULT), NUMBERS(RESULT));
    agreed(proved, judged_run(m, allowance));
    only_read(MAIN);
    count_run(proved, RUN_RESULT);
    keep_all();
}

/* Up to four runs, each on what the one before left; between them perhaps a set or a start. */
static void fuzz_run(struct bytes *in) {
    size_t bytes = main_bytes(in);
    struct lengths n = lengths_of(bytes, log_numbers(in), RUN_RESULT);
    spoil(in, &n);
    uint8_t calls_of[32];
    for (size_t i = 0; i < sizeof calls_of; i++) calls_of[i] = (uint8_t)take8(in);
    give_block(in, &n);
    give_memories(in, &n);
    give_result(n.result);
    for_vif0 = on_channel_0();
    give_main(in, n.main);
    struct bytes order = {calls_of, sizeof calls_of};
    for (uint32_t runs = 1 + take8(&order) % 4; runs > 0; runs--) {
        one_run(&order);
        uint32_t how = take8(&order);
        if (how < 144) continue;
        lend_all();
        if (how < 192) call_set(&order);
        else call_start(&order);
        keep_all();
    }
}

/* What the next step comes to: the kind that a why has to tell, and the refusal. By the judge's run of one step, on copies that are lent anew afterwards. */
static uint32_t found_by_a_step(struct memories m, uint32_t *refusal) {
    uint64_t result[RUN_RESULT] = {0};
    lend_all();
    *refusal = judge_run(JUDGED(MAIN), BYTES(MAIN), JUDGED(m.data), WORDS(m.data), JUDGED(m.code), BYTES(m.code), JUDGED(LOG), NUMBERS(LOG), JUDGED(BLOCK),
                         WORDS(BLOCK), 1, result, RUN_RESULT);
    if (result[0] > 0) return TEJBORUN_WHY_NOTHING;
    if (*refusal == 0) return TEJBORUN_WHY_ENDED;
    return *refusal <= 5 ? TEJBORUN_WHY_ENTRY : TEJBORUN_WHY_STEP;
}

/* What is told is what the step comes to; 14 may be told of the entry or of the step. */
static void same_as_a_step(struct memories m, uint32_t kind, const uint64_t *told) {
    uint32_t refusal, found = found_by_a_step(m, &refusal);
    if (found == TEJBORUN_WHY_NOTHING || found == TEJBORUN_WHY_ENDED) refusal = 0;
    if (refusal == 14 && kind == TEJBORUN_WHY_ENTRY) found = TEJBORUN_WHY_ENTRY;
    if (kind == found && told[0] == refusal) return;
    fprintf(stderr, "kind %" PRIu32 ", refusal %" PRIu64 "; a step: kind %" PRIu32 ", refusal %" PRIu32 "\n", kind, told[0], found, refusal);
    stop("a why that a step does not bear out");
}

static uint64_t refusals_told[4][ANSWERS];

static void one_why(struct bytes *in) {
    struct memories m = memories_of_channel(in);
    lend_all();
    uint32_t kind = tejborun_why(PROVED(MAIN), BYTES(MAIN), PROVED(m.data), WORDS(m.data), PROVED(m.code), BYTES(m.code), PROVED(LOG), NUMBERS(LOG),
                                 PROVED(BLOCK), WORDS(BLOCK), PROVED(RESULT), NUMBERS(RESULT));
    agreed(kind, judge_why(JUDGED(MAIN), BYTES(MAIN), JUDGED(m.data), WORDS(m.data), JUDGED(m.code), BYTES(m.code), JUDGED(LOG), NUMBERS(LOG), JUDGED(BLOCK),
                           WORDS(BLOCK), JUDGED(RESULT), NUMBERS(RESULT)));
    for (int i = 0; i < BUFFERS; i++)
        if (i != RESULT) only_read(i);
    if (kind == TEJBORUN_SHORT) return only_read(RESULT);
    uint64_t told[WHY_RESULT];
    memcpy(told, PROVED(RESULT), sizeof told);
    if (told[0] >= ANSWERS) stop("a refusal that the header does not have");
    refusals_told[kind][told[0]]++;
    const struct tejborun_chain *chain = buffers[BLOCK].given;
    show_kind(17, kind * 4 + chain->channel % 4, (uint32_t)told[0], magnitude(told[2]) * 64 + magnitude(told[3]));
    same_as_a_step(m, kind, told);
}

/* A run to go on from, without a why; a chain may never end, so few steps. */
static void go_on(struct bytes *in) {
    struct memories m = memories_of_channel(in);
    uint32_t how = take8(in);
    uint64_t result[RUN_RESULT];
    lend_all();
    judge_run(JUDGED(MAIN), BYTES(MAIN), JUDGED(m.data), WORDS(m.data), JUDGED(m.code), BYTES(m.code), JUDGED(LOG), NUMBERS(LOG), JUDGED(BLOCK), WORDS(BLOCK),
              how < 192 ? how % 32 : 2000, result, RUN_RESULT);
    for (int i = 0; i < BUFFERS; i++)
        if (BYTES(i) > 0 && i != RESULT) memcpy(buffers[i].given, buffers[i].judged, BYTES(i));
}

/* A why on the state that is given, and after each of up to four runs. */
static void fuzz_why(struct bytes *in) {
    size_t bytes = main_bytes(in);
    struct lengths n = lengths_of(bytes, log_numbers(in), WHY_RESULT);
    spoil(in, &n);
    uint8_t calls_of[32];
    for (size_t i = 0; i < sizeof calls_of; i++) calls_of[i] = (uint8_t)take8(in);
    give_block(in, &n);
    give_memories(in, &n);
    give_result(n.result);
    for_vif0 = on_channel_0();
    give_main(in, n.main);
    struct bytes order = {calls_of, sizeof calls_of};
    one_why(&order);
    for (uint32_t runs = take8(&order) % 5; runs > 0; runs--) {
        go_on(&order);
        one_why(&order);
    }
}

static void fuzz_build_and_run(struct bytes *in) {
    size_t bytes = main_bytes(in);
    struct lengths n = lengths_of(bytes, log_numbers(in), BUILD_AND_RUN_RESULT);
    uint32_t roomy = take8(in), how = take8(in), quadword = take16(in);
    uint64_t allowance = how < 64 ? take16(in) : UINT64_MAX;
    uint32_t address = how < 240 ? 16 * (how % 2 == 0 ? 0 : quadword % 256) : take32(in);
    struct lengths wrong = n;
    spoil(in, &wrong);
    give_block(in, &wrong);
    give_memories(in, &wrong);
    give_result(wrong.result);
    give_sheet(in);
    size_t needed = chain_bytes() + address;
    if (roomy < 224 && wrong.main == n.main && needed <= TEJBORUN_MAIN_BYTES && needed > 0) wrong.main = needed + 15 - (needed + 15) % 16;
    fill(give(MAIN, wrong.main), wrong.main, roomy);
    lend_all();
    uint32_t proved = tejborun_build_and_run(PROVED(SHEET), BYTES(SHEET), PROVED(MAIN), BYTES(MAIN), address, PROVED(DATA), WORDS(DATA), PROVED(CODE),
                                             BYTES(CODE), PROVED(LOG), NUMBERS(LOG), PROVED(BLOCK), WORDS(BLOCK), allowance, PROVED(RESULT), NUMBERS(RESULT));
    agreed(proved, judge_build_and_run(JUDGED(SHEET), BYTES(SHEET), JUDGED(MAIN), BYTES(MAIN), address, JUDGED(DATA), WORDS(DATA), JUDGED(CODE), BYTES(CODE),
                                       JUDGED(LOG), NUMBERS(LOG), JUDGED(BLOCK), WORDS(BLOCK), allowance, JUDGED(RESULT), NUMBERS(RESULT)));
    only_read(SHEET);
    count_run(proved, BUILD_AND_RUN_RESULT);
}

static uint64_t verdicts[TEJBORUN_CHECK_ENTRIES + 1][ANSWERS];

/* Changes to the chain: a bit, a word of zeros, or a word raw. */
static void change_chain(struct bytes *in) {
    uint8_t *main = buffers[MAIN].given;
    for (uint32_t count = take8(in) % 4; count > 0; count--) {
        uint32_t how = take8(in), at = take32(in), word = take32(in);
        if (BYTES(MAIN) < 4) return;
        /* Often near the start. */
        uint32_t words = (uint32_t)WORDS(MAIN), place = how < 128 ? at % (words < 16 ? words : 16) : at % words;
        uint8_t *to = main + 4 * place;
        if (how % 4 < 2) to[word % 4] ^= (uint8_t)(1 << (word >> 8) % 8);
        else if (how % 4 == 2) memset(to, 0, 4);
        else memcpy(to, &word, 4);
    }
}

/* The builder's chain of the sheet, in a main memory that it fits into; with changes. */
static void give_built(struct bytes *in) {
    static uint8_t output[TEJBORUN_CHAIN_BYTES + 64];
    size_t built_bytes = judge_build(buffers[SHEET].given, BYTES(SHEET), output, sizeof output);
    if (built_bytes % 16 != 0 || built_bytes > TEJBORUN_MAIN_BYTES) built_bytes = 0;
    size_t bytes = built_bytes == 0 ? 64 : built_bytes;
    uint32_t how = take8(in);
    if (how >= 224 && how < 240 && bytes > 16) bytes -= 16 * (1 + how % 16 % (bytes / 16 - 1));
    if (how >= 240) bytes = spoiled(in, bytes);
    uint8_t *main = give(MAIN, bytes);
    if (bytes > 0) memset(main, 0, bytes);
    if (bytes > 0 && built_bytes > 0) memcpy(main, output, bytes < built_bytes ? bytes : built_bytes);
    change_chain(in);
}

static uint32_t judged_check(uint64_t allowance) {
    return judge_check(JUDGED(SHEET), BYTES(SHEET), JUDGED(MAIN), BYTES(MAIN), JUDGED(DATA), WORDS(DATA), JUDGED(CODE), BYTES(CODE), JUDGED(LOG), NUMBERS(LOG),
                       allowance, JUDGED(RESULT), NUMBERS(RESULT));
}

/* The allowance of a check. A chain may never end: a large allowance is given only where the judge came to an end with a smaller one. */
static uint64_t check_allowance(struct bytes *in) {
    uint32_t how = take8(in);
    uint64_t steps[2] = {0, 0};
    judge_steps(buffers[SHEET].given, BYTES(SHEET), steps, 2);
    if (how < 48) return take16(in);
    if (how < 96) return steps[0] + how % 3 - 1;
    uint64_t limit = steps[0] > 20000 ? steps[0] : 20000;
    lend_all();
    if (NUMBERS(RESULT) < CHECK_RESULT || judged_check(limit) != TEJBORUN_CHECK_ANSWER) return UINT64_MAX;
    return *(const uint64_t *)JUDGED(RESULT) == TEJBORUN_ALLOWANCE ? limit : UINT64_MAX;
}

/* A sheet, and the builder's chain of it with changes; sometimes another chain. */
static void fuzz_check(struct bytes *in) {
    struct lengths n = lengths_of(0, log_numbers(in), CHECK_RESULT);
    spoil(in, &n);
    uint32_t how = take8(in), cut = take16(in);
    uint8_t chain_of[40];
    for (size_t i = 0; i < sizeof chain_of; i++) chain_of[i] = (uint8_t)take8(in);
    struct bytes order = {chain_of, sizeof chain_of};
    give_memories(in, &n);
    give_result(n.result);
    struct bytes records = {in->at, how < 192 || cut > in->left ? in->left : cut};
    in->at += records.left;
    in->left -= records.left;
    give_sheet(&records);
    for_vif0 = false;
    if (how < 192) give_built(&order);
    else give_main(in, main_bytes(&order));
    uint64_t allowance = check_allowance(&order);
    lend_all();
    uint32_t proved = tejborun_check(PROVED(SHEET), BYTES(SHEET), PROVED(MAIN), BYTES(MAIN), PROVED(DATA), WORDS(DATA), PROVED(CODE), BYTES(CODE), PROVED(LOG),
                                     NUMBERS(LOG), allowance, PROVED(RESULT), NUMBERS(RESULT));
    agreed(proved, judged_check(allowance));
    only_read(SHEET);
    only_read(MAIN);
    if (proved == TEJBORUN_SHORT) return only_read(RESULT);
    const uint64_t *result = PROVED(RESULT);
    bool named = proved == TEJBORUN_CHECK_REFUSED || proved == TEJBORUN_CHECK_ANSWER;
    if (named && result[0] >= ANSWERS) stop("an answer that the header does not have");
    verdicts[proved][named ? result[0] : 0]++;
    completed += result[3];
    most(&longest_run, result[3]);
    show_kind(18, proved, named ? (uint32_t)result[0] : magnitude(result[0]), magnitude(result[3]));
    show_kind(19, proved, magnitude(result[1]), magnitude(result[2]) * 64 + magnitude(result[4]));
    show_kind(22, proved, magnitude(result[5]), magnitude(result[6]));
}

/* A number for a sum: small, large, or what is left to 2^64 - 1 with a little more or less. */
static uint64_t take_sum(struct bytes *in, uint64_t beside) {
    uint32_t how = take8(in);
    if (how < 96) return how % 8;
    if (how < 160) return take64(in);
    if (how < 224) return UINT64_MAX - beside + how % 4 - 1;
    return (uint64_t)(1 + how % 3) << take8(in) % 64;
}

/* Up to four additions on the same totals, the share after each. The totals stand in the log's buffer, the counts in the second log's. */
static void fuzz_totals(struct bytes *in) {
    uint32_t how = take8(in), additions = 1 + take8(in) % 4;
    size_t totals_numbers = how < 240 ? TEJBORUN_TOTALS : how % 16 + 4, counts_numbers = how == 239 ? take8(in) % 16 : TEJBORUN_COUNTS + how % 2;
    uint64_t *totals = give(LOG, 8 * totals_numbers), *counts = give(LOG_B, 8 * counts_numbers);
    fill(totals, 8 * totals_numbers, how);
    give_result(how == 238 ? take8(in) % 4 : 2 + how % 2);
    for (size_t i = 0; i < totals_numbers; i++) totals[i] = take_sum(in, 0);
    for (; additions > 0; additions--) {
        fill(counts, 8 * counts_numbers, how + additions);
        for (size_t i = 0; i < counts_numbers; i++) counts[i] = take_sum(in, i > 0 && i <= totals_numbers ? totals[i - 1] : 0);
        lend_all();
        uint32_t proved = tejborun_add_totals(PROVED(LOG), NUMBERS(LOG), PROVED(LOG_B), NUMBERS(LOG_B));
        agreed(proved, judge_add_totals(JUDGED(LOG), NUMBERS(LOG), JUDGED(LOG_B), NUMBERS(LOG_B)));
        only_read(LOG_B);
        if (proved != TEJBORUN_DONE) only_read(LOG);
        keep_all();
        lend_all();
        proved = tejborun_nop_share(PROVED(LOG), NUMBERS(LOG), PROVED(RESULT), NUMBERS(RESULT));
        agreed(proved, judge_nop_share(JUDGED(LOG), NUMBERS(LOG), JUDGED(RESULT), NUMBERS(RESULT)));
        only_read(LOG);
        if (proved == TEJBORUN_SHORT) only_read(RESULT);
        const uint64_t *share = PROVED(RESULT);
        if (proved == TEJBORUN_DONE) show_kind(23, magnitude(share[0]), magnitude(share[1]), 0);
    }
}

/* A change to a buffer, where it has the place. */
static void change(struct bytes *in, int which) {
    uint8_t *to = buffers[which].given;
    uint32_t at = take32(in);
    if (BYTES(which) > 0) to[at % BYTES(which)] ^= (uint8_t)take8(in);
}

static void give_second(int first, int second, size_t bytes) {
    uint8_t *to = give(second, bytes);
    fill(to, bytes, 5);
    size_t common = bytes < BYTES(first) ? bytes : BYTES(first);
    if (common > 0) memcpy(to, buffers[first].given, common);
}

/* Parts: mostly all, sometimes some, rarely any number. */
static uint32_t take_parts(struct bytes *in) {
    uint32_t how = take8(in);
    if (how < 128) return TEJBORUN_PARTS;
    return how < 248 ? 1 + how % TEJBORUN_PARTS : take_odd(in);
}

/* Two boards with their entries used; data memories in all their quadwords, or in some. */
struct boards {
    uint64_t used_a, used_b;
    uint32_t parts;
    bool is_ranged;
    uint64_t first, last;
};

/* What is lent of both, to either side. */
#define BOARDS(side, b)                                                                                                                               \
    side(DATA), WORDS(DATA), side(CODE), BYTES(CODE), side(DATA0), WORDS(DATA0), side(CODE0), BYTES(CODE0), side(LOG), NUMBERS(LOG), (b)->used_a,     \
        side(DATA_B), WORDS(DATA_B), side(CODE_B), BYTES(CODE_B), side(DATA0_B), WORDS(DATA0_B), side(CODE0_B), BYTES(CODE0_B), side(LOG_B),          \
        NUMBERS(LOG_B), (b)->used_b, (b)->parts

static uint32_t compared(const struct boards *b) {
    if (b->is_ranged) return tejborun_compare_within(BOARDS(PROVED, b), b->first, b->last, PROVED(RESULT), NUMBERS(RESULT));
    return tejborun_compare(BOARDS(PROVED, b), PROVED(RESULT), NUMBERS(RESULT));
}

static uint32_t judge_compared(const struct boards *b) {
    if (b->is_ranged) return judge_compare_within(BOARDS(JUDGED, b), b->first, b->last, JUDGED(RESULT), NUMBERS(RESULT));
    return judge_compare(BOARDS(JUDGED, b), JUDGED(RESULT), NUMBERS(RESULT));
}

/* A range of quadwords: mostly one that a data memory has, rarely any numbers. */
static void take_range(struct bytes *in, struct boards *b) {
    uint32_t how = take8(in);
    b->is_ranged = true;
    b->first = how < 240 ? take32(in) % 260 : take64(in);
    b->last = how < 240 ? b->first + take32(in) % (how < 120 ? 8 : 1024) : take64(in);
}

/* The first board, and the second with the same contents, as far as it goes. */
static void give_boards(struct bytes *in, const struct lengths *a, const struct lengths *b) {
    give_memories(in, a);
    give_second(DATA, DATA_B, 4 * b->data);
    give_second(CODE, CODE_B, b->code);
    give_second(DATA0, DATA0_B, 4 * b->data0);
    give_second(CODE0, CODE0_B, b->code0);
    give_second(LOG, LOG_B, 8 * b->log);
}

/* The second board is the first with a few changes. */
static void fuzz_compare(struct bytes *in) {
    struct lengths a = lengths_of(0, log_numbers(in), TEJBORUN_COMPARED), b = a;
    uint32_t how = take8(in);
    if (how < 96) b.log = log_numbers(in);
    spoil(in, &a);
    spoil(in, &b);
    struct boards boards = {.parts = take_parts(in)};
    if (how >= 192) take_range(in, &boards);
    boards.used_a = used_entries(in, a.log);
    boards.used_b = how % 2 == 0 ? boards.used_a : used_entries(in, b.log);
    give_boards(in, &a, &b);
    give_result(a.result);
    while (in->left > 0) change(in, DATA_B + (int)(take8(in) % 5));
    lend_all();
    uint32_t proved = compared(&boards);
    agreed(proved, judge_compared(&boards));
    for (int i = 0; i < BUFFERS; i++)
        if (i != RESULT) only_read(i);
    if (proved != TEJBORUN_SAME && proved != TEJBORUN_DIFFERENT) return;
    const uint64_t *result = PROVED(RESULT);
    for (uint32_t i = 0; i < TEJBORUN_COMPARED; i++) show_kind(11, i, magnitude(result[i]), proved);
    show_kind(13, boards.parts, proved, 0);
    most(&longest_run, result[1] + result[3] + result[5] + result[7] + result[9]);
}

/* ---- The program ---- */

enum { entry_build, entry_steps, entry_meaning, entry_salvage, entry_start, entry_set, entry_run, entry_why, entry_build_and_run, entry_check, entry_totals, entry_compare };

static const struct {
    const char *name, *longest;
    void (*fuzz)(struct bytes *in);
} entries[] = {
    {"build", "", fuzz_build},
    {"steps", "most steps of a sheet", fuzz_steps},
    {"meaning", "most entries of a sheet", fuzz_meaning},
    {"salvage", "most ranges of a sheet", fuzz_salvage},
    {"start", "", fuzz_start},
    {"set", "", fuzz_set},
    {"run", "longest run", fuzz_run},
    {"why", "", fuzz_why},
    {"build_and_run", "longest run", fuzz_build_and_run},
    {"check", "longest run", fuzz_check},
    {"totals", "", fuzz_totals},
    {"compare", "most differences", fuzz_compare},
};

static void print_counters(void) {
    fprintf(stderr, "%s: %" PRIu64 " calls; answers", entries[ENTRY].name, calls);
    for (int i = 0; i < ANSWERS; i++)
        if (answers[i] > 0) fprintf(stderr, " %d: %" PRIu64 ",", i, answers[i]);
    if (built > 0) fprintf(stderr, " (0 is built) longest chain %" PRIu64 " bytes,", longest_chain);
    if (longest_sheet > 0) fprintf(stderr, " longest sheet %" PRIu64 " bytes,", longest_sheet);
    if (completed > 0) fprintf(stderr, " steps completed %" PRIu64 ", packets closed %" PRIu64 ",", completed, closed);
    for (int i = 0; i < ANSWERS; i++)
        for (uint32_t kind = TEJBORUN_WHY_ENTRY; kind <= TEJBORUN_WHY_STEP; kind++)
            if (refusals_told[kind][i] > 0) fprintf(stderr, " %s %d: %" PRIu64 ",", kind == TEJBORUN_WHY_STEP ? "step" : "entry", i, refusals_told[kind][i]);
    for (uint32_t kind = 0; kind <= TEJBORUN_CHECK_ENTRIES; kind++)
        for (int i = 0; i < ANSWERS; i++)
            if (verdicts[kind][i] > 0) fprintf(stderr, " kind %" PRIu32 ", %d: %" PRIu64 ",", kind, i, verdicts[kind][i]);
    if (*entries[ENTRY].longest) fprintf(stderr, " %s %" PRIu64 ",", entries[ENTRY].longest, longest_run);
    fprintf(stderr, " nothing differs\n");
}

int LLVMFuzzerTestOneInput(const uint8_t *data, size_t size) {
    static bool begun;
    if (!begun) {
        make_filling();
        atexit(print_counters);
    }
    begun = true;
    struct bytes in = {data, size};
    entries[ENTRY].fuzz(&in);
    drop_all();
    return 0;
}
