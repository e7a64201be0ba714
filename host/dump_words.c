/* Words of main memory as text, by their roles. */
#include <inttypes.h>
#include <stdbool.h>
#include <stdio.h>

#include "dump.h"
#include "roles.h"
#include "shapes.h"
#include "words.h"

/* The shape of a code of VIF1, or of VIF0, which has not all of them; null where it has none. */
static const struct shape *shape_on(uint32_t word, bool vif0)
{
    return vif0 ? vif0_code_shape(word) : code_shape(word);
}

static void print_tag(const uint32_t *words, size_t at, bool vif0)
{
    print_block(stdout, shape_of(dma_tags, words[at]), words + at);
    printf("  # tag at 0x%zX", 4 * at);
    for (size_t i = 2; i < 4; i++) {
        const struct shape *code = shape_on(words[at + i], vif0);
        if (words[at + i] != 0 && code != NULL) {
            printf("; word%zu as a code: ", i);
            print_block(stdout, code, words + at + i);
        }
    }
    putchar('\n');
}

static void print_code(uint32_t word, bool vif0)
{
    const struct shape *shape = shape_on(word, vif0);
    if (shape == NULL) {
        printf("  word 0x%08" PRIX32 "  # no code%s: CMD %02" PRIX32 "\n", word, vif0 ? " of VIF0" : "", word >> 24 & 127);
        return;
    }
    printf("  ");
    print_block(stdout, shape, &word);
    putchar('\n');
}

/* Prints the names of the tag's descriptors. */
static void print_gif_tag(const uint32_t *words)
{
    unsigned nreg = words[1] >> 28 != 0 ? words[1] >> 28 : 16;
    uint64_t descriptors = words[2] | (uint64_t)words[3] << 32;
    printf("    ");
    print_block(stdout, &gif_tags[0], words);
    if ((words[1] >> 26 & 3) < 2) {
        printf("  #");
        for (unsigned i = 0; i < nreg; i++)
            printf(" %s", descriptor_name(descriptors >> 4 * i & 15));
    }
    putchar('\n');
}

static void print_quadword(const uint32_t *words, const char *what)
{
    printf("    word 0x%08" PRIX32 " 0x%08" PRIX32 " 0x%08" PRIX32 " 0x%08" PRIX32 "  # %s\n", words[0], words[1], words[2], words[3], what);
}

/* Prints the words from one on that have its role, to the end of its quadword; how many. */
static size_t print_plain(const uint32_t *words, const uint8_t *roles, size_t at, size_t count)
{
    size_t end = at;
    printf("    word");
    do {
        printf(" 0x%08" PRIX32, words[end++]);
    } while (end < count && end % 4 != 0 && roles[end] == roles[at]);
    putchar('\n');
    return end - at;
}

/* How many words from one on are zero and were not met. */
static size_t unmet_zeros(const uint32_t *words, const uint8_t *roles, size_t at, size_t count)
{
    size_t end = at;
    while (end < count && roles[end] == ROLE_NONE && words[end] == 0)
        end++;
    return end - at;
}

/* Prints what begins at a word; how many words it has. */
static size_t print_at(const uint32_t *words, const uint8_t *roles, size_t at, size_t count)
{
    switch (roles[at]) {
    case ROLE_TAG:
    case ROLE_VIF0_TAG:
        print_tag(words, at, roles[at] == ROLE_VIF0_TAG);
        return 4;
    case ROLE_CODE:
    case ROLE_VIF0_CODE:
        print_code(words[at], roles[at] == ROLE_VIF0_CODE);
        return 1;
    case ROLE_GIF_TAG:
        print_gif_tag(words + at);
        return 4;
    case ROLE_NONE:
    case ROLE_PART:
    case ROLE_PAYLOAD:
        return print_plain(words, roles, at, count);
    case ROLE_REGLIST:
        print_quadword(words + at, "REGLIST");
        return 4;
    case ROLE_IMAGE:
        print_quadword(words + at, "IMAGE");
        return 4;
    default:
        print_quadword(words + at, descriptor_name(roles[at] - ROLE_PACKED));
        return 4;
    }
}

void print_words(const uint32_t *words, const uint8_t *roles, size_t count)
{
    for (size_t at = 0; at < count;) {
        size_t zeros = unmet_zeros(words, roles, at, count);
        if (zeros >= 4 || (zeros > 0 && at + zeros == count)) {
            at += zeros;
            printf("at 0x%zX\n", 4 * at);
        } else {
            at += print_at(words, roles, at, count);
        }
    }
}
