/* Files, messages and exit statuses. */
#ifndef FILES_H
#define FILES_H

#include <stdbool.h>
#include <stddef.h>
#include <stdint.h>
#include <stdio.h>

/* exit statuses */
enum { STATUS_DONE = 0, STATUS_REFUSED = 1, STATUS_BAD = 2, STATUS_STOPPED = 3 };

/* The worse of two statuses: bad, stopped, refused, done. */
int worse(int a, int b);

struct bytes {
    uint8_t *at;
    size_t count;
};

/* Prints "tejborun: ABOUT: MESSAGE" to standard error; hands back STATUS_BAD. */
int complain(const char *about, const char *format, ...) __attribute__((format(printf, 2, 3)));

/* Prints what the command says of its work: to standard output, or to standard error where that is taken by the output file. */
void say(const char *format, ...) __attribute__((format(printf, 1, 2)));
void say_to(FILE *stream);
FILE *said_stream(void);

/* Memory of count x size zero bytes, never null; stops the program where there is none. */
void *allocate(size_t count, size_t size);

/* A copy of a text; the caller frees it. */
char *copy_text(const char *text);

/* Whether a name stands for standard input or standard output. */
bool is_dash(const char *name);

/* Reads a whole file of at most so many bytes, with a zero byte after it. A status; the caller frees file->at. */
int read_file(const char *name, size_t most, struct bytes *file);

/* Writes a file as a whole or not at all: beside it first, then renamed. A symbolic link is followed, a mode is kept. A status. */
int write_file(const char *name, const uint8_t *bytes, size_t count);

/* Whether a name stands for a folder. */
bool is_folder(const char *name);

/* Whether two names stand for one regular file, or both for standard input. */
bool same_file(const char *a, const char *b);

#endif
