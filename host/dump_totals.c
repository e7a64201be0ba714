/* Totals as text. */
#include <inttypes.h>
#include <stdio.h>

#include "counts.h"
#include "dump.h"
#include "shapes.h"
#include "totals.h"

int dump_totals(const char *name, const struct bytes *file)
{
    struct totals totals;
    int status = parse_totals(name, file, &totals);
    if (status != STATUS_DONE)
        return status;
    const struct totals_file words = totals_file_of(&totals);
    struct share share = nop_share(totals.total);
    print_block(stdout, totals_heads, (const uint32_t *)&words);
    printf("  # NOP share %" PRIu64 "/%" PRIu64 "\n", share.nops, share.words);
    return STATUS_DONE;
}
