/* fuzz SEED ROUNDS: numbers and bytes by chance into every call, in buffers of exact size, to be run under address checks. Writes how often each
 * status was answered. */
#include "zarr_sharding.h"
#include <stdio.h>
#include <stdlib.h>
#include <string.h>

static uint64_t state;
static long seen[80];

static uint64_t any(void)
{
    state ^= state << 13, state ^= state >> 7, state ^= state << 17;
    return state;
}

static uint64_t below(uint64_t n)
{
    return any() % n;
}

/* Mostly a small number, and else one near the ends of 64 bits. */
static uint64_t odd(void)
{
    switch (below(8)) {
    case 0: return UINT64_MAX;
    case 1: return UINT64_MAX - below(3);
    case 2: return (uint64_t)1 << below(64);
    case 3: return any();
    default: return below(9);
    }
}

static void *bytes_of(size_t size)
{
    uint8_t *bytes = malloc(size);
    for (size_t i = 0; i < size; i++)
        bytes[i] = (uint8_t)any();
    return bytes;
}

static zs_status note(zs_status status)
{
    seen[status < 80 ? status : 79]++;
    return status;
}

static void puts_of(const zs_layout *layout, const uint64_t *plan, uint64_t rows, uint64_t *lengths)
{
    size_t axes = layout->subchunk_axes, each = ZS_ROW(axes);
    uint64_t cells = layout->element_size, places = layout->element_size;
    for (size_t a = 0; a < axes; a++)
        cells *= lengths[a], places *= layout->subchunk_shape[a];
    if (layout->element_size > 4000 || cells > 9999 || places > 9999)
        return;
    uint8_t *answer = bytes_of(cells), *decoded = bytes_of(places), *fill = bytes_of(layout->element_size);
    for (uint64_t i = 0; i < rows; i++) {
        uint64_t *row = malloc(8 * each);
        memcpy(row, plan + i * each, 8 * each);
        if (below(3) == 0)
            row[below(each)] = odd();
        if (axes && below(9) == 0)
            lengths[below(axes)] = odd();
        note(zs_put(layout, row, each - (below(9) == 0), decoded, places - (places && below(9) == 0), lengths, axes, answer, cells));
        note(zs_put_update(layout, row, each, answer, cells, lengths, axes, decoded, places - (places && below(9) == 0)));
        note(zs_put_fill(row, each, fill, layout->element_size, lengths, axes, answer, cells));
        free(row);
    }
    free(answer), free(decoded), free(fill);
}

/* The chunks of an array that the shape of a shard, made shorter, is: a row for each that the subset meets, whose part lies in the answer. */
static void meet_of(const zs_layout *layout, const zs_subset *subset)
{
    size_t axes = layout->shape_axes, each = ZS_ROW(axes);
    double chunks = 1; /* at most as many are met, which takes memory */
    for (size_t a = 0; a < axes && a < layout->subchunk_axes; a++)
        chunks *= 2 + (double)subset->shape[a] / (double)(layout->subchunk_shape[a] + 1) * 2;
    if (chunks > 1e4)
        return;
    uint64_t *shape = malloc(8 * axes);
    zs_told told = {0, 0};
    for (size_t a = 0; a < axes; a++)
        shape[a] = layout->shape[a] - below(layout->shape[a] < 4 ? layout->shape[a] + 1 : 4);
    if (note(zs_meet(shape, axes, layout->subchunk_shape, layout->subchunk_axes, subset, NULL, 0, &told)) == ZS_ROOM_TOO_SMALL && told.room < 100000) {
        size_t room = told.room - (below(9) == 0);
        uint64_t *rows = malloc(8 * room);
        if (note(zs_meet(shape, axes, layout->subchunk_shape, layout->subchunk_axes, subset, rows, room, &told)) == 0)
            for (uint64_t i = 0; i < told.room * axes; i++) {
                const uint64_t *row = rows + i / axes * each, a = i % axes;
                if (row[ZS_ROW_IN_ANSWER(axes) + a] + row[ZS_ROW_SHAPE(axes) + a] > subset->shape[a] || row[ZS_ROW_SHAPE(axes) + a] == 0)
                    exit(5);
            }
        free(rows);
    }
    free(shape);
}

/* Points of a shard, and places in buffers of exact size: each is in a subchunk that has a row. */
static void points_of(const zs_layout *layout, const zs_stored *stored)
{
    size_t axes = layout->shape_axes, many = below(6), flat = axes * many, places = 2 * many - (many && below(20) == 0);
    uint64_t *points = malloc(8 * flat), *place = malloc(8 * places), positions = 1;
    zs_told told = {0, 0};
    for (size_t a = 0; a < layout->subchunk_axes; a++)
        positions *= layout->subchunk_shape[a];
    for (size_t i = 0; i < flat; i++)
        points[i] = below(30) && layout->shape[i % axes] ? below(layout->shape[i % axes]) : odd();
    zs_status status = note(zs_plan_points(layout, stored, points, flat, NULL, 0, place, places, &told));
    if (status == ZS_ROOM_TOO_SMALL) {
        size_t room = told.room - (below(9) == 0);
        uint64_t *rows = malloc(8 * room);
        status = note(zs_plan_points(layout, stored, points, flat, rows, room, place, places, &told));
        if (status == 0 || status == ZS_BAD_INDEX_ENTRY)
            for (size_t i = 0; i < many; i++)
                if (place[2 * i] >= told.room || place[2 * i + 1] >= positions || rows[ZS_POINT_ROW * place[2 * i]] >= stored->numbers_count / 2)
                    exit(6);
        free(rows);
    }
    free(points), free(place);
}

static void fetches_of(const uint64_t *numbers, size_t count)
{
    size_t slices = count / 2, room = slices - (slices && below(9) == 0);
    zs_range *ranges = malloc(slices * sizeof *ranges), *fetches = malloc(room * sizeof *fetches);
    uint64_t *fetch_of = malloc(8 * slices);
    zs_told told = {0, 0};
    for (size_t i = 0; i < slices; i++)
        ranges[i] = (zs_range){numbers[2 * i], numbers[2 * i + 1]};
    if (note(zs_fetch_plan(ranges, slices, odd(), fetches, room, fetch_of, slices, &told)) == 0)
        for (size_t i = 0; i < slices; i++)
            if (fetch_of[i] != ZS_ABSENT && (fetches[fetch_of[i]].offset > ranges[i].offset || ranges[i].offset - fetches[fetch_of[i]].offset + ranges[i].size > fetches[fetch_of[i]].size))
                exit(4);
    free(ranges), free(fetches), free(fetch_of);
}

/* Encodings of any sizes in buffers of exact size, of which one may be a byte short. */
static void encodings_of(const zs_layout *layout, const uint64_t *sizes, size_t count)
{
    zs_change change = {0, 0, 0, 0};
    uint64_t stored = 0;
    for (size_t i = 0; i < count; i++)
        stored += sizes[i] == ZS_ABSENT ? 0 : sizes[i];
    if (note(zs_encode(layout, sizes, count - (count && below(20) == 0), NULL, 0, NULL, 0, &change)) != ZS_ROOM_TOO_SMALL || change.room > 100000)
        return;
    size_t room = change.room - (below(9) == 0), given = stored < 100000 ? stored - (stored && below(9) == 0) : 0;
    uint8_t *encodings = bytes_of(given), *object = bytes_of(room);
    if (note(zs_encode(layout, sizes, count, encodings, given, object, room, &change)) == 0 && (given != stored || change.object_size != room))
        exit(8);
    free(encodings), free(object);
}

static void changes_of(const zs_layout *layout, const zs_stored *stored, const zs_subset *subset, uint64_t rows)
{
    size_t room = stored->numbers_count - (stored->numbers_count && below(20) == 0), count = stored->numbers_count / 2;
    uint64_t *numbers = malloc(8 * room), *sizes = malloc(8 * (count > rows ? count : rows));
    zs_change change = {0, 0, 0, 0};
    for (size_t i = 0; i < (count > rows ? count : rows); i++)
        sizes[i] = below(3) ? below(50) : below(9) ? ZS_ABSENT : odd();
    uint8_t *kinds = malloc(count);
    zs_told checked;
    note(zs_check(layout, stored, kinds, count - (count && below(9) == 0), &checked));
    free(kinds);
    note(zs_compact_plan(layout, stored, numbers, room, &change));
    note(zs_lay_out(layout, sizes, count, numbers, room, &change));
    encodings_of(layout, sizes, count);
    if (note(zs_write_plan(layout, stored, subset, sizes, rows, numbers, room, &change)) == 0 && change.kind != ZS_ERASE) {
        zs_range range;
        zs_told told;
        uint8_t *index = NULL;
        if (note(zs_index_range(layout, change.object_size, &range)) || (index = malloc(range.size)) == NULL
            || note(zs_index_write(layout, numbers, stored->numbers_count, index, range.size - below(2), &told)) % 64)
            exit(3);
        free(index);
    }
    free(numbers), free(sizes);
}

/* Plain numbers in the other byte order, and back. */
static void plain_of(void)
{
    size_t size = below(40), room = size - (size && below(9) == 0);
    uint8_t *encoded = bytes_of(size), *elements = bytes_of(room), *again = bytes_of(room);
    uint64_t number = below(9) ? below(5) : odd();
    uint32_t order = (uint32_t)below(3);
    if (note(zs_decode_plain(encoded, size, number, order, elements, room)) == 0
        && (note(zs_decode_plain(elements, room, number, order, again, room)) || memcmp(again, encoded, size)))
        exit(7);
    free(encoded), free(elements), free(again);
}

int main(int argc, char **argv)
{
    if (argc < 3)
        return 2;
    state = (uint64_t)atoll(argv[1]) * 7919 + 1;
    for (long round = atol(argv[2]); round > 0; round--) {
        size_t axes = below(4), other = below(12) ? axes : below(4);
        uint64_t *shape = malloc(8 * axes), *subchunk = malloc(8 * other), *start = malloc(8 * axes), *lengths = malloc(8 * axes);
        int is_sane = below(4) != 0;
        for (size_t a = 0; a < other; a++)
            subchunk[a] = is_sane ? 1 + below(4) : odd();
        for (size_t a = 0; a < axes; a++) {
            shape[a] = is_sane && a < other ? subchunk[a] * (1 + below(4)) : odd();
            start[a] = below(20) ? below(5) : odd(), lengths[a] = below(20) ? below(5) : odd();
        }
        zs_layout layout = {shape, axes, subchunk, other, is_sane ? below(5) : odd(), (uint32_t)below(below(9) ? 8 : 20)};
        zs_subset subset = {start, axes, lengths, axes};
        zs_range range;
        zs_told told = {0, 0};
        meet_of(&layout, &subset);
        plain_of();
        uint64_t size = is_sane ? 400 + below(4000) : odd();
        if (note(zs_index_range(&layout, size, &range)) == 0 && range.size < 20000) {
            size_t count = 2 * (range.size / 16), have = range.size - (below(30) == 0);
            uint64_t *numbers = malloc(8 * count);
            uint8_t *index = bytes_of(have);
            for (size_t i = 0; i < count; i += 2) {
                int kind = (int)below(4);
                numbers[i] = kind == 0 ? ZS_ABSENT : kind < 3 ? below(size) : odd();
                numbers[i + 1] = kind == 0 ? ZS_ABSENT : kind < 3 ? below(40) : odd();
            }
            zs_status written = note(zs_index_write(&layout, numbers, count, index, have, &told));
            note(zs_index_read(&layout, index, have, numbers, count - (count && below(30) == 0), &told));
            if (written == 0 && below(9) == 0)
                numbers[below(count)] = odd();
            zs_stored stored = {size, numbers, count};
            uint64_t rows = 0;
            if (note(zs_plan_subset(&layout, size, numbers, count, &subset, NULL, 0, &told)) == ZS_ROOM_TOO_SMALL && told.room < 100000) {
                size_t room = told.room;
                uint64_t *plan = malloc(8 * room);
                zs_status status = note(zs_plan_subset(&layout, size, numbers, count, &subset, plan, room, &told));
                rows = status == 0 ? told.room : room / ZS_ROW(axes);
                if (status == 0)
                    puts_of(&layout, plan, rows, lengths);
                free(plan);
            }
            points_of(&layout, &stored);
            fetches_of(numbers, count);
            changes_of(&layout, &stored, &subset, rows);
            free(numbers), free(index);
        }
        free(shape), free(subchunk), free(start), free(lengths);
    }
    for (int i = 0; i < 80; i++)
        if (seen[i])
            printf("%d:%ld ", i, seen[i]);
    puts("");
    return 0;
}
