/* read_subset FILE SHAPE SUBCHUNK ELEMENT_SIZE INDEX FILL_VALUE START LENGTHS [last]: reads a subset of a shard whose subchunks are stored as
 * their elements, and writes it to standard output. Axes are numbers as 8,8, or - for none; INDEX is the sum of the header's flags; the fill
 * value is hexadecimal. With `last` the rows are put from the last to the first. */
#include "shard.h"

int main(int argc, char **argv)
{
    uint64_t shard[MOST_AXES], subchunk[MOST_AXES], start[MOST_AXES], shape[MOST_AXES];
    uint8_t fill_value[MOST_ELEMENT];
    if (argc < 9 || zs_version() != ZS_VERSION)
        return 2;
    size_t axes = axes_of(argv[2], shard), fill_size = strlen(argv[6]) / 2;
    zs_layout layout = {shard, axes, subchunk, axes_of(argv[3], subchunk), strtoull(argv[4], NULL, 10), (uint32_t)atoi(argv[5])};
    zs_subset subset = {start, axes_of(argv[7], start), shape, axes_of(argv[8], shape)};
    for (size_t i = 0; i < fill_size && i < MOST_ELEMENT; i++)
        sscanf(argv[6] + 2 * i, "%2hhx", &fill_value[i]);
    uint64_t elements = 1, positions = 1, count;
    for (size_t a = 0; a < axes; a++)
        elements *= shape[a], positions *= subchunk[a];

    int file = open(argv[1], O_RDONLY);
    struct stat about;
    if (file < 0 || fstat(file, &about))
        refuse("open", 16);
    uint64_t *numbers = index_of(file, &layout, (uint64_t)about.st_size, &count);
    zs_told told;
    zs_status status = zs_plan_subset(&layout, 0, NULL, 0, &subset, NULL, 0, &told);
    uint64_t *plan = NULL, room = 0;
    if (status == ZS_ROOM_TOO_SMALL)
        plan = room_for(told.room, sizeof *plan), room = told.room;
    else if (status != ZS_INVALID_NUMBER_OF_ELEMENTS)
        refuse("zs_plan_subset", status);
    if ((status = zs_plan_subset(&layout, (uint64_t)about.st_size, numbers, count, &subset, plan, room, &told)))
        refuse("zs_plan_subset", status);
    uint8_t *answer = room_for(elements, layout.element_size), *decoded = room_for(positions, layout.element_size);
    for (uint64_t i = 0; i < told.room; i++) {
        const uint64_t *row = plan + ZS_ROW(axes) * (argc > 9 ? told.room - 1 - i : i);
        zs_range range = {row[ZS_ROW_OFFSET], row[ZS_ROW_SIZE]};
        if (range.offset == ZS_ABSENT) {
            status = zs_put_fill(row, ZS_ROW(axes), fill_value, fill_size, shape, axes, answer, elements * layout.element_size);
        } else if (range.size > positions * layout.element_size) {
            status = ZS_DAMAGED;
        } else {
            fetch(file, range, decoded);
            status = zs_put(&layout, row, ZS_ROW(axes), decoded, range.size, shape, axes, answer, elements * layout.element_size);
        }
        if (status)
            refuse("zs_put", status);
    }
    fwrite(answer, layout.element_size, elements, stdout);
    free(answer), free(decoded), free(plan), free(numbers);
    close(file);
    return fflush(stdout) ? 1 : 0;
}
