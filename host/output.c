/* Files that are written: as a whole or not at all. */
#define _POSIX_C_SOURCE 200809L

#include <errno.h>
#include <fcntl.h>
#include <signal.h>
#include <stdlib.h>
#include <string.h>
#include <sys/stat.h>
#include <unistd.h>

#include "files.h"

enum { MOST_LINKS = 40, MOST_NAMES = 1000, LINK_BYTES = 4096 };

static int cannot_write(const char *name)
{
    return complain(name, "cannot be written: %s", strerror(errno));
}

static bool write_all(int file, const uint8_t *bytes, size_t count)
{
    while (count > 0) {
        ssize_t written = write(file, bytes, count);
        if (written < 0 && errno == EINTR)
            continue;
        if (written < 0)
            return false;
        bytes += written;
        count -= (size_t)written;
    }
    return true;
}

/* Writes to what is not a regular file, such as a pipe: it is not replaced. */
static int write_through(const char *name, const uint8_t *bytes, size_t count)
{
    int file = open(name, O_WRONLY | O_TRUNC);
    if (file < 0)
        return cannot_write(name);
    bool whole = write_all(file, bytes, count);
    int status = whole ? STATUS_DONE : cannot_write(name);
    if (close(file) != 0 && whole)
        status = cannot_write(name);
    return status;
}

static int write_standard_output(const uint8_t *bytes, size_t count)
{
    fflush(stdout);
    return write_all(STDOUT_FILENO, bytes, count) ? STATUS_DONE : cannot_write("standard output");
}

/* The length of a name's folder with the slash behind it. */
static size_t folder_length(const char *name)
{
    const char *slash = strrchr(name, '/');
    return slash == NULL ? 0 : (size_t)(slash - name) + 1;
}

/* A name in the folder of another one. The caller frees it. */
static char *name_beside(const char *name, const char *other)
{
    size_t folder = other[0] == '/' ? 0 : folder_length(name), length = strlen(other);
    char *joined = allocate(folder + length + 1, 1);
    memcpy(joined, name, folder);
    memcpy(joined + folder, other, length);
    return joined;
}

/* The file that a name stands for, also where a symbolic link's target does not exist yet. The caller frees it. */
static char *follow_links(const char *name)
{
    char *target = copy_text(name);
    for (int links = 0; links < MOST_LINKS; links++) {
        char link[LINK_BYTES];
        ssize_t length = readlink(target, link, sizeof link - 1);
        if (length < 0)
            break;
        link[length] = 0;
        char *next = name_beside(target, link);
        free(target);
        target = next;
    }
    return target;
}

/* Makes a file of a name of its own beside the target; -1 where that can't be. The caller frees the name. */
static int make_beside(const char *target, char **beside)
{
    int file = -1;
    *beside = NULL;
    for (int i = 0; i < MOST_NAMES; i++) {
        char name[64];
        snprintf(name, sizeof name, ".tejborun-%ld-%d.partial", (long)getpid(), i);
        free(*beside);
        *beside = name_beside(target, name);
        file = open(*beside, O_WRONLY | O_CREAT | O_EXCL | O_CLOEXEC, 0666);
        if (file >= 0 || errno != EEXIST)
            break;
    }
    return file;
}

/* Fills and closes a file; whether all went well. */
static bool fill(int file, const struct stat *old, const uint8_t *bytes, size_t count)
{
    bool whole = write_all(file, bytes, count) && (old == NULL || fchmod(file, old->st_mode & 07777) == 0);
    int reason = errno;
    bool closed = close(file) == 0;
    if (!whole)
        errno = reason;
    return whole && closed;
}

/* Fills a file beside the target and renames it; removes it where that fails. */
static int replace(const char *target, const struct stat *old, const uint8_t *bytes, size_t count)
{
    char *beside;
    int file = make_beside(target, &beside), status = STATUS_DONE;
    if (file < 0 || !fill(file, old, bytes, count) || rename(beside, target) != 0) {
        status = cannot_write(target);
        if (file >= 0)
            unlink(beside);
    }
    free(beside);
    return status;
}

/* The same, with the signals that end a program held back until it is done. */
static int replace_unbroken(const char *target, const struct stat *old, const uint8_t *bytes, size_t count)
{
    static const int ending[] = {SIGINT, SIGTERM, SIGHUP, SIGQUIT};
    sigset_t held, before;
    sigemptyset(&held);
    for (size_t i = 0; i < sizeof ending / sizeof ending[0]; i++)
        sigaddset(&held, ending[i]);
    sigprocmask(SIG_BLOCK, &held, &before);
    int status = replace(target, old, bytes, count);
    sigprocmask(SIG_SETMASK, &before, NULL);
    return status;
}

int write_file(const char *name, const uint8_t *bytes, size_t count)
{
    struct stat old;
    if (is_dash(name))
        return write_standard_output(bytes, count);
    bool exists = stat(name, &old) == 0;
    if (!exists && errno == ELOOP)
        return cannot_write(name);
    if (exists && S_ISDIR(old.st_mode))
        return complain(name, "cannot be written: it is a directory");
    if (exists && !S_ISREG(old.st_mode))
        return write_through(name, bytes, count);
    if (exists && access(name, W_OK) != 0)
        return cannot_write(name);
    char *target = follow_links(name);
    int status = replace_unbroken(target, exists ? &old : NULL, bytes, count);
    free(target);
    return status;
}
