/* The pictures of a report, as SVG. */
#include <inttypes.h>
#include <stdlib.h>
#include <string.h>

#include "numbers.h"
#include "report.h"

enum { WIDTH = 512, ROW = 8, LEFT = 56, RIGHT = 12, STRIP = 40, BETWEEN = 6, AXIS = 14 };

/* What a unit of a map is. */
enum cell { CELL_SAME, CELL_DIFFERENT, CELL_UNTOUCHED };
static const char *const cell_classes[] = {"same", "different", "untouched"};

static enum cell cell_of(const struct board *before, const struct board *result, const struct board *board, enum part part, size_t unit)
{
    size_t bytes = part_bytes(part, part_shapes[part].unit_elements);
    if (memcmp(board_unit(result, part, unit), board_unit(board, part, unit), bytes) != 0)
        return CELL_DIFFERENT;
    return memcmp(board_unit(before, part, unit), board_unit(result, part, unit), bytes) == 0 ? CELL_UNTOUCHED : CELL_SAME;
}

void draw_map(FILE *page, const struct board *before, const struct board *result, const struct board *board, enum part part)
{
    size_t columns = part_shapes[part].memory == MEMORY_DATA ? 64 : 128, rows = board_units(result, part) / columns, cell_width = WIDTH / columns;
    fprintf(page, "<svg class=\"map\" viewBox=\"0 0 %d %zu\" role=\"img\">\n", LEFT + WIDTH + RIGHT, rows * ROW + 2);
    for (size_t row = 0; row < rows; row++) {
        if (row % 2 == 0)
            fprintf(page, "<text x=\"%d\" y=\"%zu\">%zu</text>\n", LEFT - 4, row * ROW + ROW, row * columns);
        for (size_t from = 0, to; from < columns; from = to) {
            enum cell cell = cell_of(before, result, board, part, row * columns + from);
            for (to = from + 1; to < columns && cell_of(before, result, board, part, row * columns + to) == cell; to++)
                continue;
            fprintf(page, "<rect class=\"%s\" x=\"%zu\" y=\"%zu\" width=\"%zu\" height=\"%d\"/>\n", cell_classes[cell], LEFT + from * cell_width,
                    row * ROW + 1, (to - from) * cell_width, ROW - 1);
        }
    }
    fprintf(page, "</svg>\n");
}

/* A result and a board whose quadwords are drawn. */
struct drawn {
    const struct board *result, *board;
    enum part part;
    size_t quadwords;
};

static int64_t difference_at(const struct drawn *drawn, size_t quadword, size_t field)
{
    return signed_word(board_quadword(drawn->board, drawn->part, quadword)[field] - board_quadword(drawn->result, drawn->part, quadword)[field]);
}

/* The largest difference of a field, without its sign; 1 where there is none. */
static int64_t largest(const struct drawn *drawn, size_t field)
{
    int64_t most = 1;
    for (size_t i = 0; i < drawn->quadwords; i++) {
        int64_t difference = difference_at(drawn, i, field);
        if (llabs(difference) > most)
            most = llabs(difference);
    }
    return most;
}

/* A strip: bars from the middle line up or down. */
static void draw_strip(FILE *page, const struct drawn *drawn, size_t field, size_t top)
{
    double width = WIDTH / (double)drawn->quadwords, middle = (double)top + STRIP / 2.0;
    int64_t most = largest(drawn, field);
    fprintf(page, "<text x=\"%d\" y=\"%zu\">+%" PRId64 "</text>", LEFT - 4, top + 8, most);
    fprintf(page, "<text x=\"%d\" y=\"%zu\">-%" PRId64 "</text>", LEFT - 4, top + STRIP, most);
    fprintf(page, "<text class=\"field\" x=\"%d\" y=\"%.0f\">%c</text>\n", LEFT - 4, middle + 4, "XYZW"[field]);
    fprintf(page, "<rect class=\"frame\" x=\"%d\" y=\"%zu\" width=\"%d\" height=\"%d\"/>\n", LEFT, top, WIDTH, STRIP);
    fprintf(page, "<path class=\"zero\" d=\"M%d %.1fh%d\"/>\n<path class=\"bars\" d=\"", LEFT, middle, WIDTH);
    for (size_t i = 0; i < drawn->quadwords; i++) {
        int64_t difference = difference_at(drawn, i, field);
        if (difference != 0)
            fprintf(page, "M%.2f %.1fv%.2f", LEFT + ((double)i + 0.5) * width, middle, -(double)difference / (double)most * (STRIP / 2.0));
    }
    fprintf(page, "\"/>\n");
}

void draw_differences(FILE *page, const struct board *result, const struct board *board, enum part part)
{
    const struct drawn drawn = {result, board, part, board_units(result, part)};
    fprintf(page, "<svg class=\"map\" viewBox=\"0 0 %d %d\" role=\"img\">\n", LEFT + WIDTH + RIGHT, 4 * (STRIP + BETWEEN) + AXIS);
    for (size_t field = 0; field < 4; field++)
        draw_strip(page, &drawn, field, field * (STRIP + BETWEEN) + 2);
    for (size_t i = 0; i <= drawn.quadwords; i += drawn.quadwords / 8)
        fprintf(page, "<text class=\"axis\" x=\"%zu\" y=\"%d\">%zu</text>\n", LEFT + i * WIDTH / drawn.quadwords, 4 * (STRIP + BETWEEN) + AXIS - 4, i);
    fprintf(page, "</svg>\n");
}
