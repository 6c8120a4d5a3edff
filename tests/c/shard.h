/* What the programs here share: words of a command line, room, and a shard's index. A refusal ends the program with status 1. */
#include "zarr_sharding.h"
#include <fcntl.h>
#include <stdio.h>
#include <stdlib.h>
#include <string.h>
#include <sys/stat.h>
#include <unistd.h>

enum { MOST_AXES = 16, MOST_ELEMENT = 64 };

static inline void refuse(const char *what, zs_status status)
{
    uint8_t name[40];
    zs_error_name(status, name, sizeof name);
    fprintf(stderr, "%s: %u %s\n", what, status, (char *)name);
    exit(1);
}

static inline size_t axes_of(const char *text, uint64_t *to)
{
    size_t count = 0;
    if (strcmp(text, "-") == 0)
        return 0;
    for (char *end; count < MOST_AXES; text = end + 1) {
        to[count++] = strtoull(text, &end, 10);
        if (*end == 0)
            break;
    }
    return count;
}

static inline void *room_for(uint64_t count, size_t size)
{
    void *room = calloc(count ? count : 1, size);
    if (!room)
        refuse("memory", ZS_OUT_OF_MEMORY);
    return room;
}

static inline void fetch(int file, zs_range range, uint8_t *to)
{
    for (uint64_t done = 0; done < range.size;) {
        ssize_t got = pread(file, to + done, range.size - done, (off_t)(range.offset + done));
        if (got <= 0)
            refuse("pread", 16);
        done += (uint64_t)got;
    }
}

static inline uint64_t *index_of(int file, const zs_layout *layout, uint64_t object_size, uint64_t *count)
{
    zs_range range;
    zs_told told;
    zs_status status = zs_index_range(layout, object_size, &range);
    if (status)
        refuse("zs_index_range", status);
    uint8_t *bytes = room_for(range.size, 1);
    fetch(file, range, bytes);
    if ((status = zs_index_read(layout, bytes, range.size, NULL, 0, &told)) != ZS_ROOM_TOO_SMALL)
        refuse("zs_index_read", status);
    uint64_t *numbers = room_for(told.room, sizeof *numbers);
    if ((status = zs_index_read(layout, bytes, range.size, numbers, told.room, &told)))
        refuse("zs_index_read", status);
    free(bytes);
    *count = told.room;
    return numbers;
}
