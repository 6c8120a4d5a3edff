"""Reads and writes of the Zarr V3 codec `sharding_indexed`, over the C library and ctypes alone.

    layout = Layout((256, 256), (32, 32), element_size=2, crc32c=True)
    answer = bytearray(layout.answer_size((16, 16)))
    layout.read(fetch, object_size, (5, 7), (16, 16), answer, decode, fill_value=bytes(2))

`fetch(offset, size)` gives bytes of the object, and `decode(bytes)` the elements of a subchunk. An answer is any writable object of the buffer
protocol, as a bytearray or a contiguous NumPy array. The library is found by the variable ZARR_SHARDING, or by its name.
"""
import ctypes
import os
import threading

ABSENT = 2**64 - 1
ROOM_TOO_SMALL, BAD_INDEX_ENTRY = 64, 9
KEEP, ERASE, REPLACE, EXTEND = 0, 1, 2, 3

_u64s, _size, _pointer = ctypes.POINTER(ctypes.c_uint64), ctypes.c_size_t, ctypes.c_void_p


class _Layout(ctypes.Structure):
    _fields_ = [
        ("shape", _u64s), ("shape_axes", _size), ("subchunk_shape", _u64s), ("subchunk_axes", _size),
        ("element_size", ctypes.c_uint64), ("index", ctypes.c_uint32),
    ]


class _Subset(ctypes.Structure):
    _fields_ = [("start", _u64s), ("start_axes", _size), ("shape", _u64s), ("shape_axes", _size)]


class _Range(ctypes.Structure):
    _fields_ = [("offset", ctypes.c_uint64), ("size", ctypes.c_uint64)]


class _Stored(ctypes.Structure):
    _fields_ = [("object_size", ctypes.c_uint64), ("numbers", _u64s), ("numbers_count", _size)]


class _Change(ctypes.Structure):
    _fields_ = [("room", ctypes.c_uint64), ("subchunk", ctypes.c_uint64), ("object_size", ctypes.c_uint64), ("kind", ctypes.c_uint32)]


class _Told(ctypes.Structure):
    _fields_ = [("room", ctypes.c_uint64), ("subchunk", ctypes.c_uint64)]


def _loaded():
    library = ctypes.CDLL(os.environ.get("ZARR_SHARDING", "libzarr_sharding.so"))
    calls = {
        "zs_index_range": [_pointer, ctypes.c_uint64, _pointer],
        "zs_index_read": [_pointer, _pointer, _size, _pointer, _size, _pointer],
        "zs_plan_subset": [_pointer, ctypes.c_uint64, _pointer, _size, _pointer, _pointer, _size, _pointer],
        "zs_plan_points": [_pointer, _pointer, _pointer, _size, _pointer, _size, _pointer, _size, _pointer],
        "zs_meet": [_pointer, _size, _pointer, _size, _pointer, _pointer, _size, _pointer],
        "zs_put": [_pointer, _pointer, _size, _pointer, _size, _pointer, _size, _pointer, _size],
        "zs_put_fill": [_pointer, _size, _pointer, _size, _pointer, _size, _pointer, _size],
        "zs_fetch_plan": [_pointer, _size, ctypes.c_uint64, _pointer, _size, _pointer, _size, _pointer],
        "zs_put_update": [_pointer, _pointer, _size, _pointer, _size, _pointer, _size, _pointer, _size],
        "zs_index_write": [_pointer, _pointer, _size, _pointer, _size, _pointer],
        "zs_check": [_pointer, _pointer, _pointer, _size, _pointer],
        "zs_lay_out": [_pointer, _pointer, _size, _pointer, _size, _pointer],
        "zs_encode": [_pointer, _pointer, _size, _pointer, _size, _pointer, _size, _pointer],
        "zs_compact_plan": [_pointer, _pointer, _pointer, _size, _pointer],
        "zs_write_plan": [_pointer, _pointer, _pointer, _pointer, _size, _pointer, _size, _pointer],
        "zs_decode_plain": [_pointer, _size, ctypes.c_uint64, ctypes.c_uint32, _pointer, _size],
        "zs_gzip_decode": [_pointer, _size, _pointer, _size, _pointer],
        "zs_zstd_decode": [_pointer, _size, _pointer, _size, _pointer],
    }
    for name, types in calls.items():
        call = getattr(library, name)
        call.argtypes, call.restype = types, ctypes.c_uint32
    library.zs_version.argtypes, library.zs_version.restype = [], ctypes.c_uint32
    library.zs_error_name.argtypes, library.zs_error_name.restype = [ctypes.c_uint32, _pointer, _size], _size
    if library.zs_version() != 1:
        raise ImportError(f"libzarr_sharding has version {library.zs_version()}, this module is for version 1")
    return library


_library = _loaded()


class Refused(Exception):
    """A call was refused: `status` is the number of the refusal, `subchunk` the one that it names, or None."""

    def __init__(self, status, subchunk=None):
        name = ctypes.create_string_buffer(40)
        _library.zs_error_name(status, name, len(name))
        super().__init__(name.value.decode() + ("" if subchunk is None else f" {subchunk}"))
        self.status, self.subchunk = status, subchunk


def _checked(status, told=None):
    if status:
        raise Refused(status, told.subchunk if status == BAD_INDEX_ENTRY else None)


def _numbers(values):
    return (ctypes.c_uint64 * len(values))(*values)


class _View:
    """The address and the length in bytes of a contiguous buffer, held while the view lives; also of one that is read-only."""

    class _Buffer(ctypes.Structure):
        _fields_ = [
            ("buf", _pointer), ("obj", ctypes.py_object), ("len", ctypes.c_ssize_t), ("itemsize", ctypes.c_ssize_t),
            ("readonly", ctypes.c_int), ("ndim", ctypes.c_int), ("format", ctypes.c_char_p), ("shape", _pointer),
            ("strides", _pointer), ("suboffsets", _pointer), ("internal", _pointer),
        ]

    def __init__(self, of, writable=False):
        self._held = self._Buffer()
        ctypes.pythonapi.PyObject_GetBuffer(ctypes.py_object(of), ctypes.byref(self._held), ctypes.c_int(int(writable)))
        self.at, self.size = self._held.buf, self._held.len

    def __enter__(self):
        return self

    def __exit__(self, *_):
        ctypes.pythonapi.PyBuffer_Release(ctypes.byref(self._held))


def _decoded(call, encoded, size):
    content, told = bytearray(size), _Told()
    with _View(encoded) as data, _View(content, writable=True) as room:
        _checked(call(data.at, data.size, room.at, room.size, ctypes.byref(told)))
    return memoryview(content)[: told.room]


def plain_decode(encoded, number_size, *, big_endian):
    """The elements of numbers that the codec `bytes` stored, each of so many bytes, least significant byte first. It encodes them too."""
    elements = bytearray(len(memoryview(encoded).cast("B")))
    with _View(encoded) as data, _View(elements, writable=True) as room:
        _checked(_library.zs_decode_plain(data.at, data.size, number_size, big_endian, room.at, room.size))
    return elements


def gzip_decode(encoded, size):
    """The content of a gzip file (RFC 1952), of at most `size` bytes."""
    return _decoded(_library.zs_gzip_decode, encoded, size)


def zstd_decode(encoded, size):
    """The content of a zstd file (RFC 8878), of at most `size` bytes."""
    return _decoded(_library.zs_zstd_decode, encoded, size)


class Row:
    """What a read takes from one subchunk: its number, and the offset and size of its slice, ABSENT where it is not stored."""

    def __init__(self, numbers):
        self.numbers = numbers
        self.subchunk, self.offset, self.size = numbers[:3]

    @property
    def is_absent(self):
        return self.offset == ABSENT and self.size == ABSENT


class Chunk:
    """What a subset of an array and one of its chunks have in common: the chunk's coordinates in the grid, the start of the part in the chunk and
    in the answer, and its shape; and the row of numbers, for `Layout.put` of whole chunks."""

    def __init__(self, numbers, start, chunk_shape):
        axes, self.row = len(chunk_shape), Row(numbers)
        self.start, self.in_answer, self.shape = (tuple(numbers[3 + axes * i : 3 + axes * (i + 1)]) for i in range(3))
        self.coordinates = tuple((first + place) // length for first, place, length in zip(start, self.in_answer, chunk_shape))

    def put(self, elements, answer, shape, element_size):
        """Puts the part's elements, an array of its shape, into an answer of a shape."""
        row = Row([*self.row.numbers[:3], *(0 for _ in self.shape), *self.in_answer, *self.shape])
        Layout(self.shape, self.shape, element_size).put(row, elements, answer, shape)


def _rows(call, axes):
    """The rows that a call writes into a room, which it is asked for first."""
    told, room = _Told(), _numbers(())
    status = call(room, told)
    if status == ROOM_TOO_SMALL:
        room = (ctypes.c_uint64 * told.room)()
        status = call(room, told)
    _checked(status, told)
    length = 3 + 3 * axes
    return [room[length * i : length * (i + 1)] for i in range(told.room)]


def meet(shape, chunk_shape, start, lengths):
    """The chunks of an array of a shape that a subset of it meets, ascending by their number in the grid."""
    axes, chunk_axes, first, many = _numbers(shape), _numbers(chunk_shape), _numbers(start), _numbers(lengths)
    subset = _Subset(first, len(first), many, len(many))

    def call(room, told):
        return _library.zs_meet(
            axes, len(axes), chunk_axes, len(chunk_axes), ctypes.addressof(subset), room, len(room), ctypes.addressof(told)
        )

    return [Chunk(row, start, chunk_shape) for row in _rows(call, len(shape))]


class Change:
    """How an object is written: its kind, its length then, and the numbers of its index, which say where each slice goes."""

    def __init__(self, told, numbers):
        self.kind, self.object_size, self.numbers = told.kind, told.object_size, numbers


class Layout:
    """How a shard is laid out. Where its index stands and how its numbers are stored are told by name."""

    def __init__(self, shape, subchunk_shape, element_size, *, at_start=False, big_endian=False, crc32c=False):
        self.shape, self.subchunk_shape, self.element_size = tuple(shape), tuple(subchunk_shape), element_size
        self._shape, self._subchunk_shape = _numbers(shape), _numbers(subchunk_shape)
        self._held = _Layout(
            self._shape, len(shape), self._subchunk_shape, len(subchunk_shape), element_size, at_start + 2 * big_endian + 4 * crc32c
        )
        self._at = ctypes.addressof(self._held)
        self._lock = threading.Lock()

    def answer_size(self, shape):
        """How many bytes the elements of a shape have."""
        size = self.element_size
        for length in shape:
            size *= length
        return size

    def index_range(self, object_size):
        """The offset and the size of the index in an object."""
        found = _Range()
        _checked(_library.zs_index_range(self._at, object_size, ctypes.addressof(found)))
        return found.offset, found.size

    def index(self, data):
        """The numbers of an index, to be kept for any number of plans; `data` is None for a shard without an object."""
        told = _Told()
        status = _library.zs_index_read(self._at, None, 0, None, 0, ctypes.addressof(told))
        if status != ROOM_TOO_SMALL:
            raise Refused(status)
        numbers = (ctypes.c_uint64 * told.room)()
        if data is None:
            ctypes.memset(numbers, 255, ctypes.sizeof(numbers))
            return numbers
        with _View(data) as view:
            _checked(_library.zs_index_read(self._at, view.at, view.size, numbers, len(numbers), ctypes.addressof(told)))
        return numbers

    def check(self, object_size, index):
        """What each entry of an index says: 0 absent, 1 a slice in the data part, 2 half absent, 3 a slice outside of the data part."""
        stored, told, kinds = _Stored(object_size, index, len(index)), _Told(), bytearray(len(index) // 2)
        with _View(kinds, writable=True) as view:
            _checked(_library.zs_check(self._at, ctypes.addressof(stored), view.at, view.size, ctypes.addressof(told)))
        return bytes(kinds)

    def plan(self, object_size, index, start, shape):
        """The rows of a read of a subset, ascending by their subchunks."""
        start, shape = _numbers(start), _numbers(shape)
        subset = _Subset(start, len(start), shape, len(shape))

        def call(room, told):
            return _library.zs_plan_subset(
                self._at, object_size, index, len(index), ctypes.addressof(subset), room, len(room), ctypes.addressof(told)
            )

        return [Row(row) for row in _rows(call, len(shape))]

    def plan_points(self, object_size, index, points):
        """The rows of a read of elements with these coordinates, ascending by their subchunks; and for each element the number of its row, and its
        own row-major number in the subchunk."""
        stored, flat = _Stored(object_size, index, len(index)), _numbers([it for point in points for it in point])
        told, rows, places = _Told(), (ctypes.c_uint64 * (3 * len(points)))(), (ctypes.c_uint64 * (2 * len(points)))()
        _checked(
            _library.zs_plan_points(
                self._at, ctypes.addressof(stored), flat, len(flat), rows, len(rows), places, len(places), ctypes.addressof(told)
            ),
            told,
        )
        return [Row(rows[3 * i : 3 * i + 3]) for i in range(told.room)], [tuple(places[2 * i : 2 * i + 2]) for i in range(len(points))]

    def read_points(self, fetch, object_size, points, decode, fill_value):
        """The elements with these coordinates, one after the other. `object_size` is None for a shard without an object."""
        index, size = self.index(None if object_size is None else fetch(*self.index_range(object_size))), self.element_size
        rows, places = self.plan_points(object_size or 0, index, points)
        decoded = [None if row.is_absent else memoryview(decode(fetch(row.offset, row.size))).cast("B") for row in rows]
        found = (fill_value if decoded[row] is None else decoded[row][size * at : size * (at + 1)] for row, at in places)
        return b"".join(bytes(it) for it in found)

    def put(self, row, decoded, answer, shape):
        """Puts a row's part of a decoded subchunk into an answer of a shape. Threads may call it on one answer."""
        row, axes = _numbers(row.numbers), _numbers(shape)
        with self._lock, _View(decoded) as source, _View(answer, writable=True) as to:
            _checked(
                _library.zs_put(self._at, row, len(row), source.at, source.size, axes, len(axes), to.at, to.size)
            )

    def put_fill(self, row, fill_value, answer, shape):
        """Fills a row's part of an answer with the fill value, the bytes of one element."""
        row, axes = _numbers(row.numbers), _numbers(shape)
        with self._lock, _View(fill_value) as source, _View(answer, writable=True) as to:
            _checked(_library.zs_put_fill(row, len(row), source.at, source.size, axes, len(axes), to.at, to.size))

    def fetches(self, rows, gap):
        """The ranges, ascending, in which the slices of rows are fetched, those within `gap` bytes of one another together, as offsets and sizes;
        and for each row the number of its range, ABSENT where it is not stored."""
        slices, told, held = (_Range * len(rows))(*((it.offset, it.size) for it in rows)), _Told(), (ctypes.c_uint64 * len(rows))()
        ranges = (_Range * len(rows))()
        _checked(_library.zs_fetch_plan(slices, len(rows), gap, ranges, len(rows), held, len(rows), ctypes.addressof(told)))
        return [(it.offset, it.size) for it in ranges[: told.room]], list(held)

    def put_update(self, row, update, shape, decoded):
        """Puts a row's part of an update, an array of a shape, into the elements of a subchunk."""
        row, axes = _numbers(row.numbers), _numbers(shape)
        with self._lock, _View(update) as source, _View(decoded, writable=True) as to:
            _checked(_library.zs_put_update(self._at, row, len(row), source.at, source.size, axes, len(axes), to.at, to.size))

    def covers(self, row):
        """Whether a row's part is its whole subchunk."""
        return tuple(row.numbers[3 + 2 * len(self.shape) :]) == self.subchunk_shape

    def index_bytes(self, numbers):
        """The bytes of an index of these numbers."""
        told = _Told()
        status = _library.zs_index_write(self._at, numbers, len(numbers), None, 0, ctypes.addressof(told))
        if status != ROOM_TOO_SMALL:
            _checked(status)
        index = bytearray(told.room)
        with _View(index, writable=True) as view:
            _checked(_library.zs_index_write(self._at, numbers, len(numbers), view.at, view.size, ctypes.addressof(told)))
        return bytes(index)

    def _change(self, call):
        told, room = _Change(), _numbers(())
        status = call(room, told)
        if status == ROOM_TOO_SMALL:
            room = (ctypes.c_uint64 * told.room)()
            status = call(room, told)
        _checked(status, told)
        return Change(told, room)

    def lay_out(self, sizes):
        """A whole shard of encoded subchunks of these sizes, None where one is all fill value."""
        sizes = _numbers([ABSENT if size is None else size for size in sizes])

        def call(room, told):
            return _library.zs_lay_out(self._at, sizes, len(sizes), room, len(room), ctypes.addressof(told))

        return self._change(call)

    def encode(self, encodings):
        """The object of a whole shard of encoded subchunks, one of each in row-major order, None where one is all fill value."""
        sizes = _numbers([ABSENT if it is None else len(memoryview(it).cast("B")) for it in encodings])
        stored, told = b"".join(it for it in encodings if it is not None), _Change()

        def call(given, room):
            with _View(given) as source, _View(room, writable=True) as to:
                return _library.zs_encode(self._at, sizes, len(sizes), source.at, source.size, to.at, to.size, ctypes.addressof(told))

        whole, status = bytearray(), call(b"", bytearray())
        if status == ROOM_TOO_SMALL:
            whole = bytearray(told.room)
            status = call(stored, whole)
        _checked(status, told)
        return whole

    def compaction(self, object_size, index):
        """The compaction of a shard, and the copies that it takes: from, to and length. Where its kind is KEEP the shard is compact."""
        stored = _Stored(object_size, index, len(index))

        def call(room, told):
            return _library.zs_compact_plan(self._at, ctypes.addressof(stored), room, len(room), ctypes.addressof(told))

        change = self._change(call)
        new = change.numbers if change.kind == REPLACE else ()
        copies = [(index[i], new[i], new[i + 1]) for i in range(0, len(new), 2) if new[i] != ABSENT]
        return change, copies

    def write_plan(self, object_size, index, start, shape, sizes):
        """How an object is written where the subchunks that a subset touches, in the order of `plan`, have new encodings of these sizes, None
        where one became all fill value. `object_size` is None for a shard without an object."""
        start, shape = _numbers(start), _numbers(shape)
        subset, stored = _Subset(start, len(start), shape, len(shape)), _Stored(object_size or 0, index, len(index))
        sizes = _numbers([ABSENT if size is None else size for size in sizes])

        def call(room, told):
            return _library.zs_write_plan(
                self._at, ctypes.addressof(stored), ctypes.addressof(subset), sizes, len(sizes), room, len(room), ctypes.addressof(told)
            )

        return self._change(call)

    def write(self, fetch, object_size, start, shape, update, decode, encode, fill_value):
        """Plans a write of an update over a subset: the change, and the pieces to be stored, each an offset and bytes, the index last. Only
        subchunks that the subset does not cover are fetched."""
        index = self.index(None if object_size is None else fetch(*self.index_range(object_size)))
        empty, rows, slices = self._filled(fill_value), self.plan(object_size or 0, index, start, shape), []
        for row in rows:
            is_new = row.is_absent or self.covers(row)
            decoded = bytearray(empty if is_new else decode(fetch(row.offset, row.size)))
            self.put_update(row, update, shape, decoded)
            slices.append(None if decoded == empty else encode(bytes(decoded)))
        change = self.write_plan(object_size, index, start, shape, [None if it is None else len(it) for it in slices])
        return change, self.pieces(change, [row.subchunk for row in rows], slices)

    def pieces(self, change, subchunks, slices):
        """What is to be stored of these subchunks' encodings by a change, each an offset and bytes, the index last."""
        if change.kind in (KEEP, ERASE):
            return []
        stored = [(change.numbers[2 * k], it) for k, it in zip(subchunks, slices) if it is not None]
        return [*stored, (self.index_range(change.object_size)[0], self.index_bytes(change.numbers))]

    def _filled(self, fill_value):
        return bytes(fill_value) * (self.answer_size(self.subchunk_shape) // self.element_size if self.element_size else 0)

    def read(self, fetch, object_size, start, shape, answer, decode, fill_value, gap=None):
        """Reads a subset into an answer, subchunk by subchunk; with a gap, slices within so many bytes of one another are fetched together.
        `object_size` is None for a shard without an object."""
        index = self.index(None if object_size is None else fetch(*self.index_range(object_size)))
        rows = self.plan(object_size or 0, index, start, shape)
        if gap is not None:
            ranges, held = self.fetches(rows, gap)
            fetched = [memoryview(fetch(*it)) if it[1] else b"" for it in ranges]
        for number, row in enumerate(rows):
            if row.is_absent:
                self.put_fill(row, fill_value, answer, shape)
                continue
            if gap is None:
                data = fetch(row.offset, row.size)
            else:
                first = row.offset - ranges[held[number]][0]
                data = fetched[held[number]][first : first + row.size]
            self.put(row, decode(data), answer, shape)
