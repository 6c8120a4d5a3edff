/* change_shard write|compact|encode FILE SHAPE SUBCHUNK ELEMENT_SIZE INDEX FILL_VALUE [START LENGTHS | SIZES]: writes standard input, the elements of
 * a subset, into a shard whose subchunks are stored as their elements, or compacts it. An absent file is a shard without an object; a shard of which no
 * subchunk is left is removed. Or makes a file of encoded subchunks of these sizes, which standard input has one behind the other. Writes the kind of
 * the change to standard output. Words are those of read_subset. */
#include "shard.h"

static void store(int file, uint64_t offset, const uint8_t *bytes, uint64_t size)
{
    for (uint64_t done = 0; done < size;) {
        ssize_t put = pwrite(file, bytes + done, size - done, (off_t)(offset + done));
        if (put <= 0)
            refuse("pwrite", 16);
        done += (uint64_t)put;
    }
}

static void store_index(int file, const zs_layout *layout, const uint64_t *numbers, uint64_t count, uint64_t object_size)
{
    zs_range range;
    zs_told told;
    zs_status status = zs_index_range(layout, object_size, &range);
    uint8_t *bytes = room_for(range.size, 1);
    if (status || (status = zs_index_write(layout, numbers, count, bytes, range.size, &told)))
        refuse("zs_index_write", status);
    store(file, range.offset, bytes, range.size);
    free(bytes);
}

static void compact(const char *path, int file, const zs_layout *layout, const zs_stored *stored)
{
    uint64_t *numbers = room_for(stored->numbers_count, sizeof *numbers);
    zs_change change;
    zs_status status = zs_compact_plan(layout, stored, numbers, stored->numbers_count, &change);
    if (status)
        refuse("zs_compact_plan", status);
    if (change.kind == ZS_REPLACE) {
        char next[4096];
        snprintf(next, sizeof next, "%s.next", path);
        int other = open(next, O_RDWR | O_CREAT | O_TRUNC, 0600);
        for (uint64_t k = 0; k < stored->numbers_count; k += 2) {
            if (numbers[k] == ZS_ABSENT)
                continue;
            zs_range from = {stored->numbers[k], stored->numbers[k + 1]};
            uint8_t *slice = room_for(from.size, 1);
            fetch(file, from, slice);
            store(other, numbers[k], slice, from.size);
            free(slice);
        }
        store_index(other, layout, numbers, stored->numbers_count, change.object_size);
        if (close(other) || rename(next, path))
            refuse("rename", 16);
    }
    printf("%u\n", change.kind);
    free(numbers);
}

/* The new elements of a row's subchunk, in fresh memory, or NULL where all are the fill value. */
static uint8_t *changed(int file, const zs_layout *layout, const uint64_t *row, const zs_subset *subset, const uint8_t *update, uint64_t update_size,
                        const uint8_t *empty, uint64_t size)
{
    size_t axes = subset->shape_axes;
    uint8_t *elements = room_for(size, 1);
    int is_whole = 1;
    for (size_t a = 0; a < axes; a++)
        is_whole &= row[ZS_ROW_SHAPE(axes) + a] == layout->subchunk_shape[a];
    memcpy(elements, empty, size);
    if (!is_whole && row[ZS_ROW_OFFSET] != ZS_ABSENT) {
        zs_range range = {row[ZS_ROW_OFFSET], row[ZS_ROW_SIZE]};
        if (range.size != size)
            refuse("subchunk", ZS_DAMAGED);
        fetch(file, range, elements);
    }
    zs_status status = zs_put_update(layout, row, ZS_ROW(axes), update, update_size, subset->shape, axes, elements, size);
    if (status)
        refuse("zs_put_update", status);
    if (memcmp(elements, empty, size) == 0) {
        free(elements);
        return NULL;
    }
    return elements;
}

static void write_subset(const char *path, int file, const zs_layout *layout, const zs_stored *stored, const zs_subset *subset, const uint8_t *empty, uint64_t size)
{
    size_t axes = subset->shape_axes;
    uint64_t count = 1;
    for (size_t a = 0; a < axes; a++)
        count *= subset->shape[a];
    uint8_t *update = room_for(count, layout->element_size);
    if (fread(update, layout->element_size, count, stdin) != count)
        refuse("input", 16);
    zs_told told;
    zs_status status = zs_plan_subset(layout, stored->object_size, stored->numbers, stored->numbers_count, subset, NULL, 0, &told);
    uint64_t room = status == ZS_ROOM_TOO_SMALL ? told.room : 0, *plan = room_for(room, sizeof *plan);
    if ((status = zs_plan_subset(layout, stored->object_size, stored->numbers, stored->numbers_count, subset, plan, room, &told)))
        refuse("zs_plan_subset", status);
    uint8_t **slices = room_for(told.room, sizeof *slices);
    uint64_t *sizes = room_for(told.room, sizeof *sizes), *numbers = room_for(stored->numbers_count, sizeof *numbers);
    for (uint64_t i = 0; i < told.room; i++) {
        slices[i] = changed(file, layout, plan + i * ZS_ROW(axes), subset, update, count * layout->element_size, empty, size);
        sizes[i] = slices[i] ? size : ZS_ABSENT;
    }
    zs_change change;
    if ((status = zs_write_plan(layout, stored, subset, sizes, told.room, numbers, stored->numbers_count, &change)))
        refuse("zs_write_plan", status);
    if (change.kind == ZS_REPLACE && ftruncate(file, 0))
        refuse("ftruncate", 16);
    for (uint64_t i = 0; i < told.room; i++) {
        if (slices[i])
            store(file, numbers[2 * plan[i * ZS_ROW(axes)]], slices[i], size);
        free(slices[i]);
    }
    if (change.kind == ZS_ERASE)
        unlink(path);
    else
        store_index(file, layout, numbers, stored->numbers_count, change.object_size);
    printf("%u\n", change.kind);
    free(update), free(plan), free(slices), free(sizes), free(numbers);
}

static void encode(int file, const zs_layout *layout, uint64_t count, const char *words)
{
    uint64_t *sizes = room_for(count, sizeof *sizes), stored = 0;
    char *end = NULL;
    for (uint64_t k = 0; k < count; k++, words = end + (*end == ',')) {
        sizes[k] = strtoull(words, &end, 10);
        stored += sizes[k] == ZS_ABSENT ? 0 : sizes[k];
    }
    uint8_t *encodings = room_for(stored, 1);
    if (fread(encodings, 1, stored, stdin) != stored)
        refuse("input", 16);
    zs_change change;
    zs_status status = zs_encode(layout, sizes, count, NULL, 0, NULL, 0, &change);
    if (status != ZS_ROOM_TOO_SMALL)
        refuse("zs_encode", status);
    uint8_t *object = room_for(change.room, 1);
    if ((status = zs_encode(layout, sizes, count, encodings, stored, object, change.room - 1, &change)) != ZS_ROOM_TOO_SMALL || object[0])
        refuse("zs_encode in less room", status);
    if ((status = zs_encode(layout, sizes, count, encodings, stored, object, change.room, &change)))
        refuse("zs_encode", status);
    store(file, 0, object, change.object_size);
    if (ftruncate(file, (off_t)change.object_size))
        refuse("ftruncate", 16);
    printf("%u\n", change.kind);
    free(sizes), free(encodings), free(object);
}

int main(int argc, char **argv)
{
    uint64_t shard[MOST_AXES], subchunk[MOST_AXES], start[MOST_AXES], shape[MOST_AXES], count = 1, size;
    uint8_t fill_value[MOST_ELEMENT];
    if (argc < 8 || (argc < 9 && strcmp(argv[1], "encode") == 0))
        return 2;
    size_t axes = axes_of(argv[3], shard), fill_size = strlen(argv[7]) / 2;
    zs_layout layout = {shard, axes, subchunk, axes_of(argv[4], subchunk), strtoull(argv[5], NULL, 10), (uint32_t)atoi(argv[6])};
    for (size_t i = 0; i < fill_size && i < MOST_ELEMENT; i++)
        sscanf(argv[7] + 2 * i, "%2hhx", &fill_value[i]);
    size = layout.element_size;
    for (size_t a = 0; a < axes; a++)
        count *= shard[a] / subchunk[a], size *= subchunk[a];
    uint8_t *empty = room_for(size, 1);
    for (uint64_t i = 0; i < size; i++)
        empty[i] = fill_value[i % fill_size];

    int file = open(argv[2], O_RDWR | O_CREAT, 0600);
    struct stat about;
    if (file < 0 || fstat(file, &about))
        refuse("open", 16);
    if (strcmp(argv[1], "encode") == 0) {
        encode(file, &layout, count, argv[8]);
        free(empty);
        close(file);
        return 0;
    }
    zs_stored stored = {(uint64_t)about.st_size, NULL, 2 * count};
    uint64_t *numbers = NULL, read = 0;
    if (about.st_size > 0) {
        numbers = index_of(file, &layout, stored.object_size, &read);
    } else {
        numbers = room_for(2 * count, sizeof *numbers);
        memset(numbers, 255, 2 * count * sizeof *numbers);
    }
    stored.numbers = numbers;
    if (strcmp(argv[1], "compact") == 0) {
        compact(argv[2], file, &layout, &stored);
    } else {
        zs_subset subset = {start, axes_of(argv[8], start), shape, axes_of(argv[9], shape)};
        write_subset(argv[2], file, &layout, &stored, &subset, empty, size);
    }
    free(numbers), free(empty);
    close(file);
    return 0;
}
