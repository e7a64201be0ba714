/* Totals from text: one line. */
#include <string.h>

#include "assemble.h"
#include "shapes.h"
#include "totals.h"

int assemble_totals(struct text *text, struct output *output)
{
    struct totals_file words;
    struct line line;
    bool end;
    int status = next_line(text, &line, &end);
    if (status != STATUS_DONE)
        return status;
    if (end)
        return complain(text->name, "has no line 'totals'");
    if (strcmp(line.item[0], "totals") != 0)
        return complain_at(text, line.number, "'%s': the line is 'totals'", line.item[0]);
    status = read_block(text, &line, totals_heads, (uint32_t *)&words);
    if (status == STATUS_DONE)
        status = next_line(text, &line, &end);
    if (status != STATUS_DONE)
        return status;
    if (!end)
        return complain_at(text, line.number, "'%s': totals are one line", line.item[0]);
    write_words(output, (const uint32_t *)&words, totals_heads[0].words);
    return STATUS_DONE;
}
