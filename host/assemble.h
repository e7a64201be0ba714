/* Files from text (docs/TEXT.md). */
#ifndef ASSEMBLE_H
#define ASSEMBLE_H

#include "fields.h"
#include "files.h"
#include "text.h"

/* Each reads the whole text and writes the file's bytes to the output. A status. */
int assemble_sheet(struct text *text, struct output *output);
int assemble_chain(struct text *text, struct output *output);
int assemble_state(struct text *text, struct output *output);
int assemble_capture(struct text *text, struct output *output);
int assemble_result(struct text *text, struct output *output);
int assemble_totals(struct text *text, struct output *output);

/* Reads a line of main memory: a tag, a code, a GIF tag, word, byte or at. A status; more: what a wrong line is told beside these, or null. */
int memory_line(const struct text *text, const struct line *line, const char *more, struct output *output);

/* Reads the words or bytes of a line that gives them. A status. */
int words_line(const struct text *text, const struct line *line, struct output *output);
int bytes_line(const struct text *text, const struct line *line, struct output *output);

#endif
