"""Reads, writes and compactions by the C library whose elements and bytes were worked by hand. The fill value is 0, the index little endian,
with no checksum."""
import sys

from library_writes import ABSENT, KEEP, applied, fetcher, object_of

NONE = [ABSENT, ABSENT]

# where the index stands, how many bytes an element has, the shape of a shard and that of a subchunk
IN_SQUARES = (True, 1, (4, 4), (2, 2))
IN_WIDE_SQUARES = (True, 2, (4, 4), (2, 2))
IN_PAIRS = (False, 1, (4,), (2,))
EIGHT = (False, 1, (8,), (2,))


def wide(*numbers):
    return b"".join(bytes([number, 0]) for number in numbers)


# the slices of an object, and the numbers of its index; the numbers 0 to 15 stand in squares of four
SQUARES = (bytes([0, 1, 4, 5, 2, 3, 6, 7, 8, 9, 12, 13, 10, 11, 14, 15]), [64, 4, 68, 4, 72, 4, 76, 4])
FIRST_PLANE = [0, 1, 4, 5, 2, 3, 6, 7, 8, 9, 12, 13, 10, 11, 14, 15]
TWO_PLANES = (wide(*FIRST_PLANE, *(16 + it for it in FIRST_PLANE)), [it for k in range(8) for it in (8 * k, 8)])
WIDE_SQUARES = (wide(*FIRST_PLANE), [64, 8, 72, 8, 80, 8, 88, 8])
SECOND_ANEW = (wide(*FIRST_PLANE, 100, 101, 102, 103), [64, 8, 96, 8, 80, 8, 88, 8])
SECOND_IN_PLACE = (wide(0, 1, 4, 5, 100, 101, 102, 103, 8, 9, 12, 13, 10, 11, 14, 15), [64, 8, 72, 8, 80, 8, 88, 8])
HALF_EMPTY = (b"\5\6", [0, 2, ABSENT, 5])
ONE_SHORT = (b"\5", [0, 1, *NONE])
SEVEN = (b"\0\7", [0, 2, *NONE])
EMPTY = (b"", [*NONE, *NONE])
EIGHT_STORED = (bytes([1, 2, 3, 4, 5, 6, 7, 8]), [0, 2, 2, 2, 4, 2, 6, 2])
HALF_ERASED = (bytes([1, 2, 3, 4, 5, 6, 7, 8]), [0, 2, 2, 2, *NONE, *NONE])
WRITTEN_AGAIN = (bytes([1, 2, 3, 4, 5, 6, 7, 8, 9, 9]), [0, 2, 2, 2, 8, 2, *NONE])

# an object, or none; the start of a subset and its shape; and the elements, or the number of a refusal
READS = [
    (IN_SQUARES, SQUARES, (1, 0), (2, 1), b"\4\x08"),
    ((False, 1, (4, 4), (2, 2)), (b"", NONE * 4), (1, 0), (2, 1), b"\0\0"),
    ((False, 2, (2, 4, 4), (1, 2, 2)), TWO_PLANES, (1, 0, 0), (1, 2, 3), wide(16, 17, 18, 20, 21, 22)),
    (IN_PAIRS, HALF_EMPTY, (0,), (2,), b"\5\6"),
    (IN_PAIRS, HALF_EMPTY, (2,), (1,), 9),
    (IN_PAIRS, SEVEN, (3,), (2,), 4),
    (IN_PAIRS, None, (3,), (2,), 4),
    (IN_PAIRS, None, (1,), (3,), b"\0\0\0"),
]

# coordinates, and the elements there
LISTED = [
    (IN_SQUARES, SQUARES, [(3, 3), (0, 0), (3, 3)], bytes([15, 0, 15])),
    (IN_PAIRS, SEVEN, [(3,)], b"\0"),
    (IN_PAIRS, SEVEN, [(1,), (4,)], 4),
]

# an object, or none; the start of a subset, its shape and its new elements; and the object then
WRITES = [
    (IN_WIDE_SQUARES, WIDE_SQUARES, (0, 2), (2, 2), wide(100, 101, 102, 103), SECOND_ANEW),
    (IN_PAIRS, None, (1,), (1,), b"\7", SEVEN),
    (EIGHT, EIGHT_STORED, (4,), (4,), bytes(4), HALF_ERASED),
    (EIGHT, HALF_ERASED, (4,), (2,), b"\x09\x09", WRITTEN_AGAIN),
    (IN_PAIRS, ONE_SHORT, (0,), (1,), b"\x09", 15),
    (IN_PAIRS, ONE_SHORT, (0,), (2,), b"\x09\x09", (b"\x09\x09", [0, 2, *NONE])),
    (IN_PAIRS, EMPTY, (1,), (0,), b"", None),
    (IN_PAIRS, EMPTY, (5,), (0,), b"", 4),
    ((True, 1, (4,), (2,)), None, (2,), (2,), b"\1\2", (b"\1\2", [*NONE, 32, 2])),
]

# an object, and what it is compacted to; None where it is compact
COMPACTIONS = [
    (EIGHT, WRITTEN_AGAIN, (bytes([1, 2, 3, 4, 9, 9]), [0, 2, 2, 2, 4, 2, *NONE])),
    (IN_WIDE_SQUARES, SECOND_ANEW, SECOND_IN_PLACE),
    (IN_WIDE_SQUARES, SECOND_IN_PLACE, None),
]


def try_rows(zarr_sharding):
    count = 0

    def decoded(layout):
        """What decodes a subchunk: its bytes, if they are as many as its elements have."""
        whole = layout.answer_size(layout.subchunk_shape)

        def decode(stored):
            if len(stored) != whole:
                raise zarr_sharding.Refused(15)
            return stored

        return decode

    def read(layout, data, start, shape):
        answer, size = bytearray(b"\x55" * layout.answer_size(shape)), None if data is None else len(data)
        layout.read(fetcher(data), size, start, shape, answer, bytes, bytes(layout.element_size))
        return bytes(answer)

    def listed(layout, data, points):
        return layout.read_points(fetcher(data), len(data), points, bytes, bytes(layout.element_size))

    def written(layout, data, start, shape, update):
        size = None if data is None else len(data)
        change, pieces = layout.write(fetcher(data), size, start, shape, update, decoded(layout), bytes, bytes(layout.element_size))
        return applied(data, change, pieces)

    def compacted(layout, data):
        change, copies = layout.compaction(len(data), layout.index(fetcher(data)(*layout.index_range(len(data)))))
        pieces = [(to, data[source : source + size]) for source, to, size in copies]
        return None if change.kind == KEEP else applied(data, change, pieces + layout.pieces(change, (), ()))

    for call, rows in ((read, READS), (listed, LISTED), (written, WRITES), (compacted, COMPACTIONS)):
        for (at_start, element_size, shape, subchunk_shape), stored, *asked, wanted in rows:
            layout = zarr_sharding.Layout(shape, subchunk_shape, element_size, at_start=at_start)
            data = None if stored is None else object_of(at_start, *stored)
            try:
                answer = call(layout, data, *asked)
            except zarr_sharding.Refused as refused:
                answer = refused.status
            if answer != (object_of(at_start, *wanted) if isinstance(wanted, tuple) else wanted):
                sys.exit(f"{call.__name__} {asked} of {stored} answers {answer}, not {wanted}")
            count += 1
    return count
