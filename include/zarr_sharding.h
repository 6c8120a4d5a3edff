/* zarr_sharding.h: reads and writes of the Zarr V3 codec `sharding_indexed` as ranges and copies.
 *
 * The caller fetches and decompresses; the library says which bytes to fetch and where each element goes. It opens nothing, starts nothing
 * and keeps nothing between calls.
 *
 * A read: zs_index_range -> fetch these bytes -> zs_index_read (once for a shard) -> zs_plan_subset -> for each row, in any order: fetch its
 * bytes, decode them by the inner codec, and zs_put; or zs_put_fill where the subchunk is absent.
 *
 * A write: zs_plan_subset tells what it touches. For each row: where its shape is the subchunk's, the update covers it; else fetch and decode the
 * old subchunk, or fill it where it is absent; zs_put_update; encode. zs_write_plan takes the sizes of the encodings and gives the new index,
 * which says where each goes; zs_index_write makes its bytes, and zs_index_range of the new length says where these go.
 *
 * WHAT THE CALLER OWES at every call, which no call can test:
 *   1. A pointer is valid for as many elements as the length after it says, and aligned for their type. Lengths count elements: of bytes for
 *      uint8_t, of numbers for uint64_t. A null pointer with length 0 is an empty slice; NULL with another length is not.
 *   2. A pointer without a length after it is never NULL, and points to one initialised struct. So do the pointers in structs, by rule 1.
 *   3. What is written through a pointer that is not const overlaps nothing else that the same call is given, and nobody else reads or writes
 *      it during the call. What is const may overlap what is const, and may be read by others during the call.
 *   4. Room that is written need not be initialised. (The library is not instrumented: MemorySanitizer takes what it writes for
 *      uninitialised. AddressSanitizer, ThreadSanitizer and valgrind need nothing.)
 *   5. A length times the size of an element is at most PTRDIFF_MAX.
 * Everything else is tested: numbers of axes, subsets, counts, sums and products that pass 64 bits, rows of a plan that were changed.
 *
 * WHAT IS KEPT: 1. No call reads or writes outside of what it was given. 2. Threads may call anything at any time, by rule 3, but no call
 * comes from a signal handler, or from the forked child of a process with threads. 3. A call that is refused has written nothing but `told`,
 * or what its description names. 4. Calls never block and never end the process; each ends.
 *
 * ABI: x86-64 System V, little endian, size_t of 64 bits. ZS_VERSION changes where a struct or a signature does.
 */
#ifndef ZARR_SHARDING_H
#define ZARR_SHARDING_H

#include <stddef.h>
#include <stdint.h>

#ifdef __cplusplus
extern "C" {
#endif

#define ZS_VERSION 1

/* A status. 0 is Ok; 1 to 17 are the refusals of the codec, by the numbers of its errors; from 64 on those of this library alone. */
typedef uint32_t zs_status;
enum {
    ZS_OK = 0,
    ZS_OUT_OF_MEMORY = 1,
    ZS_TOO_LARGE = 2,                   /* a count or a size passes 64 bits */
    ZS_INCOMPATIBLE_DIMENSIONALITY = 3, /* numbers of axes differ */
    ZS_OUT_OF_BOUNDS = 4,               /* a subset does not lie in its array */
    ZS_INVALID_NUMBER_OF_ELEMENTS = 5,  /* a buffer of another length than its shape says */
    ZS_INVALID_SUBCHUNK_SHAPE = 6,      /* an axis is 0, or is not divided evenly */
    ZS_SHARD_TOO_SHORT = 7,             /* the object is shorter than its index */
    ZS_BAD_INDEX_ENTRY = 9,             /* an index entry that is half empty or ends after the object: told->subchunk is its number */
    ZS_WRONG_ELEMENT_KIND = 12,         /* an element of no bytes */
    ZS_DAMAGED = 15,                    /* an index or a subchunk of the wrong length, or a wrong checksum of the index */
    ZS_ROOM_TOO_SMALL = 64,             /* told->room is the room that is needed, but of zs_.._decode; nothing was written */
    ZS_BAD_FLAGS = 65                   /* index flags that have no meaning */
};

/* A subchunk that is not stored has these numbers as offset and size: it is all fill value. */
#define ZS_ABSENT UINT64_MAX

/* How the index stands in a shard: 0, or some of these added. */
enum {
    ZS_INDEX_AT_START = 1,   /* else at the end */
    ZS_INDEX_BIG_ENDIAN = 2, /* else little endian */
    ZS_INDEX_CRC32C = 4      /* a CRC-32C of four bytes follows its numbers */
};

/* How a shard is laid out. Both shapes have one number for each axis; no axes are NULL and 0. */
typedef struct zs_layout {
    const uint64_t *shape; /* of the shard: the chunk shape of the array */
    size_t shape_axes;
    const uint64_t *subchunk_shape; /* `chunk_shape` of the codec's configuration */
    size_t subchunk_axes;
    uint64_t element_size; /* bytes of a decoded element */
    uint32_t index;        /* ZS_INDEX_.. */
} zs_layout;

/* A subset of elements: its first element and how many it has along each axis. */
typedef struct zs_subset {
    const uint64_t *start;
    size_t start_axes;
    const uint64_t *shape;
    size_t shape_axes;
} zs_subset;

/* Bytes of an object. */
typedef struct zs_range {
    uint64_t offset;
    uint64_t size;
} zs_range;

/* A stored shard: how long its object is, and the numbers of its index (zs_index_read). Without an object: 0, and ZS_ABSENT everywhere. */
typedef struct zs_stored {
    uint64_t object_size;
    const uint64_t *numbers;
    size_t numbers_count;
} zs_stored;

/* What becomes of an object, beside what zs_told says. Refused: only `room` (64) or `subchunk` (9) is written. */
typedef struct zs_change {
    uint64_t room;        /* how many numbers the index has, also where they need room; of zs_encode how many bytes the object has */
    uint64_t subchunk;    /* whose index entry is bad, the lowest one */
    uint64_t object_size; /* how long the object is then */
    uint32_t kind;        /* ZS_KEEP, ZS_ERASE, ZS_REPLACE or ZS_EXTEND */
} zs_change;

enum {
    ZS_KEEP = 0,    /* the object stays as it is */
    ZS_ERASE = 1,   /* there is to be no object */
    ZS_REPLACE = 2, /* the slices and the index that were told are the object */
    ZS_EXTEND = 3   /* the new slices and the index are written into the object, whose other bytes stay */
};

/* What a call tells beside its status. A call writes only the field that its description names. */
typedef struct zs_told {
    uint64_t room;     /* Ok: how many were written. ZS_ROOM_TOO_SMALL: how many need room */
    uint64_t subchunk; /* ZS_BAD_INDEX_ENTRY: whose index entry is bad, the lowest one that is touched */
} zs_told;

/* ZS_VERSION of the library. */
uint32_t zs_version(void);

/* The bytes of an object of `object_size` bytes that are its index. Refused, in this order, as 65, 3, 6, 2, 7; or as 1. */
zs_status zs_index_range(const zs_layout *layout, uint64_t object_size, zs_range *range);

/* The numbers of an index, two for each subchunk in row-major order: offset and size, or ZS_ABSENT twice. A shard without an object has
 * ZS_ABSENT everywhere (fill with bytes of 255). Ok and ZS_ROOM_TOO_SMALL: told->room is how many they are. Refused, in this order, as the
 * layout is (65, 3, 6, 2), as 64, and as 15 for another length than zs_index_range's, or another checksum; or as 1. */
zs_status zs_index_read(const zs_layout *layout, const uint8_t *index, size_t index_size, uint64_t *numbers, size_t numbers_room, zs_told *told);

/* What an entry of an index says. */
enum {
    ZS_ENTRY_ABSENT = 0,      /* the subchunk is not stored */
    ZS_ENTRY_STORED = 1,      /* its slice lies in the data part: behind an index at the start, or before one at the end */
    ZS_ENTRY_HALF_ABSENT = 2, /* one of its numbers alone is ZS_ABSENT */
    ZS_ENTRY_OUTSIDE = 3      /* its slice does not lie in the data part; reads serve those that lie in the object, writes refuse them */
};

/* What each entry of an index says, for each subchunk in row-major order: ZS_ENTRY_... Ok and ZS_ROOM_TOO_SMALL: told->room is how many they
 * are. Refused, in this order, as the layout is; as 5 for another count of numbers; as 64; or as 1. */
zs_status zs_check(const zs_layout *layout, const zs_stored *stored, uint8_t *kinds, size_t kinds_room, zs_told *told);

/* The numbers of a row of a plan, of so many axes. */
#define ZS_ROW(axes) (3 + 3 * (size_t)(axes))
/* The parts of a row: where the subchunk is stored (ZS_ABSENT twice: nowhere), and for each axis the first element of its part within the
 * subchunk, the first element within the answer, and how many elements. */
#define ZS_ROW_SUBCHUNK 0
#define ZS_ROW_OFFSET 1
#define ZS_ROW_SIZE 2
#define ZS_ROW_IN_SUBCHUNK(axes) 3
#define ZS_ROW_IN_ANSWER(axes) (3 + (size_t)(axes))
#define ZS_ROW_SHAPE(axes) (3 + 2 * (size_t)(axes))

/* What a read of a subset takes: a row of ZS_ROW(axes) numbers for each subchunk that the subset touches, ascending by the subchunks'
 * row-major number. Every element of the answer, an array of the subset's shape, lies in exactly one row's part. `numbers` are those of
 * zs_index_read. Ok: told->room is the count of rows. ZS_ROOM_TOO_SMALL: told->room is the count of numbers that `plan` must have, which
 * depends on the layout and the subset alone: ask with `plan` NULL and 0, also before anything is fetched, with `numbers` NULL and 0. A
 * subset without elements has no row. ZS_BAD_INDEX_ENTRY: the rows before told->subchunk are written, told->room of them, so that who wants
 * the first refusal in the subchunks' order decodes these first. Refused, in this order, as the layout is; as 3, 4, 2; 64; 5 for another
 * count of numbers; then 9; or as 1. */
zs_status zs_plan_subset(const zs_layout *layout, uint64_t object_size, const uint64_t *numbers, size_t numbers_count,
                         const zs_subset *subset, uint64_t *plan, size_t plan_room, zs_told *told);

/* A read of listed elements, in any order and also twice: `points` are their coordinates, one after the other. For each subchunk in which one
 * lies, ascending, a row of three numbers (ZS_ROW_SUBCHUNK, ZS_ROW_OFFSET, ZS_ROW_SIZE), and for each point two numbers: places[2 * i] is the
 * number of its row, and places[2 * i + 1] the row-major number of the element in the subchunk. Ok: told->room is the count of rows.
 * ZS_ROOM_TOO_SMALL: told->room is the count of numbers that `rows` must have, at most three for each point. ZS_BAD_INDEX_ENTRY: all is written,
 * a row with a bad entry as one that is absent; told->room is the count of rows. Refused, in this order, as the layout is; as 5 where `points` and
 * `places` have other than a number for each axis and two for each point; as 4; as 5 for another count of index numbers; as 64; then 9; or as 1. */
#define ZS_POINT_ROW 3
zs_status zs_plan_points(const zs_layout *layout, const zs_stored *stored, const uint64_t *points, size_t points_count, uint64_t *rows,
                         size_t rows_room, uint64_t *places, size_t places_count, zs_told *told);

/* The same as zs_plan_subset without an index, for the chunks of an array, whose shape need not be divided evenly by that of its chunks: a row for each chunk that
 * the subset meets, with its row-major number in the grid of chunks in ZS_ROW_SUBCHUNK and ZS_ABSENT as offset and size. Along axis a its
 * coordinate in the grid, of which its key is made, is (subset->start[a] + row[ZS_ROW_IN_ANSWER(axes) + a]) / chunk_shape[a]. Where chunks are
 * shards, the subset of a shard to plan is ZS_ROW_IN_SUBCHUNK and ZS_ROW_SHAPE; where they are not, zs_put takes the row with a layout whose
 * `subchunk_shape` is the chunk's. Ok: told->room is the count of rows. ZS_ROOM_TOO_SMALL: told->room is the count of numbers that `rows` must
 * have. Refused, in this order, as 3; 6 for an axis of a chunk that is 0; 2 where the chunks have 2^64 elements, or are 2^60; 3, 4, 2; 64; or as
 * 1. */
zs_status zs_meet(const uint64_t *shape, size_t shape_axes, const uint64_t *chunk_shape, size_t chunk_axes, const zs_subset *subset,
                  uint64_t *rows, size_t rows_room, zs_told *told);

/* Puts a row's part of a decoded subchunk into the answer. `decoded` has all elements of the subchunk, in row-major order. The answer is an
 * array of `answer_shape`; a row may be put into another array than its plan's subset, after its "in answer" numbers were moved there. Rows
 * of one plan may be put in any order, and again. Two calls may not run at one time on one answer, also where their rows share no element
 * (rule 3: all of `answer` counts as written): fetch and decode side by side, and put under a lock. Refused, in this order, as 3; 4; 2; 12;
 * 15 where `decoded_size` is not that of a subchunk; 5 where `answer_size` is not that of the answer; or as 1. */
zs_status zs_put(const zs_layout *layout, const uint64_t *row, size_t row_numbers, const uint8_t *decoded, size_t decoded_size,
                 const uint64_t *answer_shape, size_t answer_axes, uint8_t *answer, size_t answer_size);

/* The same of a row whose subchunk is absent: each of its elements becomes the fill value, which has the bytes of one element. Refused, in
 * this order, as 3; 4; 2; 12 for a fill value of no bytes; 5; or as 1. */
zs_status zs_put_fill(const uint64_t *row, size_t row_numbers, const uint8_t *fill_value, size_t fill_size, const uint64_t *answer_shape,
                      size_t answer_axes, uint8_t *answer, size_t answer_size);

/* The ranges of an object in which slices are fetched: those that overlap or lie within `gap` bytes of one another are in one range, so that of
 * other bytes only such gaps are fetched. `fetches` ascend, and are more than `gap` bytes apart; fetch_of[i] is the number of the one in which
 * slice i lies, or ZS_ABSENT where the slice is (ZS_ABSENT twice, as in a row). Ok and ZS_ROOM_TOO_SMALL: told->room is how many ranges they are,
 * at most as many as slices. Refused, in this order, as 9 where a slice ends past 2^64; as 5 where there are other than as many numbers as slices;
 * as 64; or as 1. */
zs_status zs_fetch_plan(const zs_range *slices, size_t slices_count, uint64_t gap, zs_range *fetches, size_t fetches_room,
                        uint64_t *fetch_of, size_t fetch_of_count, zs_told *told);

/* As zs_put of an update that is written: its part, by a row of a plan of the subset that it is written to, into the elements of a subchunk.
 * `update` is an array of `update_shape`, and `decoded` has all elements of the subchunk. Refused, in this order, as 3; 4; 2; 5; 12; 15 where
 * `update_size` is not that of the update; 5 where `decoded_size` is not that of a subchunk; or as 1. */
zs_status zs_put_update(const zs_layout *layout, const uint64_t *row, size_t row_numbers, const uint8_t *update, size_t update_size,
                        const uint64_t *update_shape, size_t update_axes, uint8_t *decoded, size_t decoded_size);

/* The bytes of an index of these numbers, with its checksum if it has one. Ok and ZS_ROOM_TOO_SMALL: told->room is how many they are. Refused,
 * in this order, as the layout is; as 5 for another count of numbers; as 64; or as 1. */
zs_status zs_index_write(const zs_layout *layout, const uint64_t *numbers, size_t numbers_count, uint8_t *index, size_t index_room, zs_told *told);

/* A whole shard of encoded subchunks of these sizes, one of each subchunk; ZS_ABSENT stands for one that is all fill value, and not stored.
 * `numbers` get the index: the slices follow one another in row-major order. change->kind is ZS_REPLACE. Refused, in this order, as the
 * layout is; as 64; as 5 for another count of sizes; as 2; or as 1. */
zs_status zs_lay_out(const zs_layout *layout, const uint64_t *sizes, size_t sizes_count, uint64_t *numbers, size_t numbers_room, zs_change *change);

/* The object of such a shard: `encodings` has the bytes of those that are stored, one behind the other in row-major order, and `object` gets
 * them and the index, which stands before or behind them. change->kind is ZS_REPLACE, also where no subchunk is stored, and change->object_size
 * and change->room are how long the object is; ZS_ROOM_TOO_SMALL: change->room is, which depends on the layout and the sizes alone: ask with
 * `encodings` and `object` NULL and 0. Refused, in this order, as the layout is; as 5 for another count of sizes; as 2; as 64; as 5 where the
 * encodings have other bytes than their sizes say; or as 1. */
zs_status zs_encode(const zs_layout *layout, const uint64_t *sizes, size_t sizes_count, const uint8_t *encodings, size_t encodings_size,
                    uint8_t *object, size_t object_room, zs_change *change);

/* The compaction of a shard. ZS_KEEP: index and slices have as many bytes as the object, and `numbers` were not written. ZS_REPLACE: `numbers`
 * get the new index; each slice is copied from where the old index says to where the new one does, in any order, to another object. Slices that
 * share bytes are copied once each. Refused, in this order, as the layout is; as 64; as 5 for another count of old numbers; as 7; as 9 for the
 * lowest bad entry; as 2; or as 1. */
zs_status zs_compact_plan(const zs_layout *layout, const zs_stored *stored, uint64_t *numbers, size_t numbers_room, zs_change *change);

/* A write over a subset. `sizes` are those of the new encodings of the subchunks that it touches, in the order of zs_plan_subset's rows;
 * ZS_ABSENT stands for one that became all fill value. `numbers` get the new index, which says where each goes. ZS_ERASE: no subchunk is stored
 * any more. ZS_REPLACE: no other is stored; the new slices and the index are the object. ZS_EXTEND: they are written into the object: behind all
 * old slices where the index is at the start, and from where the old index began where it is at the end; write the slices before the index.
 * Refused, in this order, as the layout is; as 64; as 3 and 4 for the subset's start and shape; as 5 for another count of old numbers; as 7; as 9
 * for the lowest entry that does not lie in the data part; as 3, 4; as 5 for another count of sizes; as 2; or as 1. */
zs_status zs_write_plan(const zs_layout *layout, const zs_stored *stored, const zs_subset *subset, const uint64_t *sizes, size_t sizes_count,
                        uint64_t *numbers, size_t numbers_room, zs_change *change);

/* The elements of a subchunk that the codec `bytes` stored: numbers of `number_size` bytes each, least significant byte first, as zs_put takes
 * them, or most significant first where `is_big_endian` is not 0. The same call encodes. A number is a component of an element: of a complex
 * one it has half of its bytes. Refused, in this order, as 12 where a number has no bytes; 15 where `encoded_size` is no multiple of its size; 5
 * where `elements_size` is another one. */
zs_status zs_decode_plain(const uint8_t *encoded, size_t encoded_size, uint64_t number_size, uint32_t is_big_endian, uint8_t *elements,
                          size_t elements_size);

/* Writes the content of a gzip file (RFC 1952), or of a zstd file (RFC 8878), to the front of content; told->room is its length. Refused as 15
 * where the bytes are no such file, as 64 where their content is longer than the room, by any length, and as either where they are damaged
 * after as much content; or as 1. */
zs_status zs_gzip_decode(const uint8_t *encoded, size_t encoded_size, uint8_t *content, size_t content_size, zs_told *told);
zs_status zs_zstd_decode(const uint8_t *encoded, size_t encoded_size, uint8_t *content, size_t content_size, zs_told *told);

/* Writes the name of a status, ended by a zero, where there is room for both, and returns its length without the zero. */
size_t zs_error_name(uint32_t status, uint8_t *name, size_t name_room);

#ifdef __cplusplus
}
#endif
#endif
