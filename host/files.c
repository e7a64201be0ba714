/* Files that are read, messages and exit statuses. */
#define _POSIX_C_SOURCE 200809L

#include "files.h"

#include <errno.h>
#include <stdarg.h>
#include <stdlib.h>
#include <string.h>
#include <sys/stat.h>

int worse(int a, int b)
{
    static const int order[] = {[STATUS_DONE] = 0, [STATUS_REFUSED] = 1, [STATUS_STOPPED] = 2, [STATUS_BAD] = 3};
    return order[a] > order[b] ? a : b;
}

int complain(const char *about, const char *format, ...)
{
    va_list values;
    fflush(stdout);
    fprintf(stderr, "tejborun: %s: ", about);
    va_start(values, format);
    vfprintf(stderr, format, values);
    va_end(values);
    fputc('\n', stderr);
    return STATUS_BAD;
}

static FILE *said;

void say_to(FILE *stream)
{
    said = stream;
}

FILE *said_stream(void)
{
    return said != NULL ? said : stdout;
}

void say(const char *format, ...)
{
    va_list values;
    va_start(values, format);
    vfprintf(said_stream(), format, values);
    va_end(values);
}

void *allocate(size_t count, size_t size)
{
    void *memory = calloc(count > 0 ? count : 1, size);
    if (memory == NULL) {
        complain("memory", "%zu x %zu bytes cannot be had", count, size);
        exit(STATUS_BAD);
    }
    return memory;
}

char *copy_text(const char *text)
{
    size_t length = strlen(text);
    char *copy = allocate(length + 1, 1);
    memcpy(copy, text, length);
    return copy;
}

bool is_dash(const char *name)
{
    return strcmp(name, "-") == 0;
}

/* Reads up to most + 1 bytes, so that a longer file shows. */
static int read_stream(const char *name, FILE *stream, size_t most, struct bytes *file)
{
    size_t room = 65536;
    file->at = allocate(room + 1, 1);
    file->count = 0;
    for (;;) {
        size_t got = fread(file->at + file->count, 1, room - file->count, stream);
        file->count += got;
        if (file->count > most)
            return complain(name, "larger than %zu bytes, the most that is read here", most);
        if (got == 0)
            break;
        if (file->count == room) {
            uint8_t *larger = realloc(file->at, 2 * room + 1);
            if (larger == NULL)
                return complain(name, "no memory for %zu bytes", 2 * room);
            file->at = larger;
            room = 2 * room;
        }
    }
    if (ferror(stream))
        return complain(name, "cannot be read: %s", strerror(errno));
    file->at[file->count] = 0;
    return STATUS_DONE;
}

int read_file(const char *name, size_t most, struct bytes *file)
{
    *file = (struct bytes){0};
    FILE *stream = is_dash(name) ? stdin : fopen(name, "rb");
    if (stream == NULL)
        return complain(name, "cannot be opened: %s", strerror(errno));
    int status = read_stream(name, stream, most, file);
    if (stream != stdin)
        fclose(stream);
    if (status != STATUS_DONE) {
        free(file->at);
        *file = (struct bytes){0};
    }
    return status;
}

bool is_folder(const char *name)
{
    struct stat of;
    return stat(name, &of) == 0 && S_ISDIR(of.st_mode);
}

bool same_file(const char *a, const char *b)
{
    struct stat of_a, of_b;
    if (is_dash(a) || is_dash(b))
        return is_dash(a) && is_dash(b);
    if (stat(a, &of_a) != 0 || stat(b, &of_b) != 0)
        return false;
    return S_ISREG(of_a.st_mode) && of_a.st_dev == of_b.st_dev && of_a.st_ino == of_b.st_ino;
}
