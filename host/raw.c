/* Raw dumps of memories. */
#include "raw.h"

#include <stdlib.h>

#include "files.h"
#include "kinds.h"
#include "numbers.h"
#include "words.h"

enum { RAW_READ_BYTES = 64 * 1048576 };

/* The same memory of the other VIF. */
static enum part other_part(enum part part)
{
    enum vif other = part_shapes[part].vif == VIF0 ? VIF1 : VIF0;
    return part_shapes[part].memory == MEMORY_DATA ? data_of(other) : code_of(other);
}

/* Complains of a memory's dump of a wrong size; says where it may belong to the other VIF. */
static int complain_of_size(const char *name, size_t count, enum part part, size_t bytes)
{
    const struct part_shape *shape = &part_shapes[part], *other = &part_shapes[other_part(part)];
    size_t others = part_bytes(other_part(part), other->usual);
    if (count == others)
        return complain(name, "no dump of %s: %zu bytes; it has %zu, and %s has %zu: --%s", shape->words, count, bytes, other->words, others, other->name);
    return complain(name, "no dump of %s: %zu bytes; it has %zu", shape->words, count, bytes);
}

enum { LAST_PATH = 3 };

/* The largest of a log's numbers from one on, each so many further. */
static uint64_t largest(const struct bytes *file, size_t from, size_t further)
{
    uint64_t most = 0;
    for (size_t i = from; i < file->count / 8; i += further) {
        uint64_t number = get_number(file->at + 8 * i);
        most = number > most ? number : most;
    }
    return most;
}

/* Whether a dump reads as a log from before the path was logged: whole entries of that time, each with a register that there is, and as entries of today cut
 * or with a path that there is not. */
static bool is_earlier_log(const struct bytes *file)
{
    bool is_whole = file->count % part_bytes(PART_LOG, TEJBORUN_ENTRY_NUMBERS) == 0;
    if (file->count == 0 || file->count % part_bytes(PART_LOG, EARLIER_ENTRY_NUMBERS) != 0 || largest(file, 0, EARLIER_ENTRY_NUMBERS) > LAST_START)
        return false;
    return !is_whole || largest(file, TEJBORUN_ENTRY_PATH, TEJBORUN_ENTRY_NUMBERS) > LAST_PATH;
}

/* What an entry is, for messages. */
#define AN_ENTRY "%u numbers each, path, register and value"

static int check_log(const char *name, const struct bytes *file, size_t bytes)
{
    size_t entry_bytes = part_bytes(PART_LOG, TEJBORUN_ENTRY_NUMBERS), entries = file->count / part_bytes(PART_LOG, EARLIER_ENTRY_NUMBERS);
    if (is_earlier_log(file))
        return complain(name, "no dump of a log: %zu bytes, which read as %zu %s from before the path was logged, %d numbers each, register and value; "
                        "here an entry has %zu bytes, " AN_ENTRY, file->count, entries, plural(entries, "entry", "entries"), EARLIER_ENTRY_NUMBERS,
                        entry_bytes, TEJBORUN_ENTRY_NUMBERS);
    if (file->count > bytes || file->count % entry_bytes != 0)
        return complain(name, "no dump of a log: %zu bytes; a log is whole entries of %zu bytes, " AN_ENTRY ", at most %zu bytes", file->count, entry_bytes,
                        TEJBORUN_ENTRY_NUMBERS, bytes);
    return STATUS_DONE;
}

static int check_raw(const char *name, const struct bytes *file, enum part part, size_t bytes)
{
    if (part == PART_LOG)
        return check_log(name, file, bytes);
    return file->count == bytes ? STATUS_DONE : complain_of_size(name, file->count, part, bytes);
}

int read_raw(const char *name, enum part part, size_t elements, struct board *board, size_t *units)
{
    struct bytes file;
    int status = read_file(name, RAW_READ_BYTES, &file);
    if (status != STATUS_DONE)
        return status;
    status = check_raw(name, &file, part, part_bytes(part, elements));
    if (status == STATUS_DONE) {
        size_t count = file.count / part_shapes[part].element_bytes;
        get_part(file.at, board, part, count);
        *units = count / part_shapes[part].unit_elements;
    }
    free(file.at);
    return status;
}
