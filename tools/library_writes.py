"""Writes and compactions by the C library, from C and from Python, against a shard that is written here by the words of the standard and of
docs/FORMAT.md; and the objects that nobody wrote as a shard."""
import ctypes
import json
import os
import re
import struct
import subprocess
import sys
import zlib

ABSENT = 2**64 - 1
KEEP, ERASE, REPLACE, EXTEND = range(4)
ARRAYS = {"edges": 1, "gaps": 2, "missing": 4, "plain": 2, "shuffled": 1, "gzip_numbers": 2}  # and the bytes of an element
REFUSALS = {"Damaged": (15, None), "BAD_0": (9, 0), "BAD_1": (9, 1)}


class Reference:
    """A shard of plain subchunks: what a write and a compaction make of its object, which is None where there is none."""

    def __init__(self, case, points, product, crc32c):
        self.case, self.points, self.product, self.crc32c = case, points, product, crc32c
        self.at_start, self.order, self.is_checked = case.flags & 1, "<>"[case.flags >> 1 & 1], case.flags & 4
        self.grid = points(case.grid)
        self.index_size = 16 * len(self.grid) + (4 if self.is_checked else 0)
        self.empty = case.fill * product(case.subchunk)

    def entries(self, data):
        if data is None:
            return [None] * len(self.grid)
        index = data[: self.index_size] if self.at_start else data[-self.index_size :]
        numbers = struct.unpack(f"{self.order}{2 * len(self.grid)}Q", index[: 16 * len(self.grid)])
        pairs = zip(numbers[::2], numbers[1::2])
        return [None if pair == (ABSENT, ABSENT) else pair for pair in pairs]

    def index(self, entries):
        numbers = [n for entry in entries for n in entry or (ABSENT, ABSENT)]
        index = struct.pack(f"{self.order}{len(numbers)}Q", *numbers)
        return index + (struct.pack("<I", self.crc32c(index)) if self.is_checked else b"")

    def whole(self, slices):
        """The object of these slices, None where a subchunk is absent, one after the other."""
        place, entries = self.index_size if self.at_start else 0, []
        for it in slices:
            entries.append(None if it is None else (place, len(it)))
            place += len(it or b"")
        data = b"".join(it or b"" for it in slices)
        return self.index(entries) + data if self.at_start else data + self.index(entries)

    def slices(self, data):
        return [None if it is None else data[it[0] : it[0] + it[1]] for it in self.entries(data)]

    def compacted(self, data):
        new = self.whole(self.slices(data))
        return data if len(new) == len(data) else new

    def written(self, data, start, lengths, update):
        """The object with an update, a function of an element's place in the subset, written over it."""
        case, entries, new = self.case, self.entries(data), {}
        for number, at in enumerate(self.grid):
            first = [c * m for c, m in zip(at, case.subchunk)]
            elements, touched = [], False
            for k, place in enumerate(self.points(case.subchunk)):
                point = tuple(f + p for f, p in zip(first, place))
                inside = tuple(p - s for p, s in zip(point, start))
                if all(0 <= i < n for i, n in zip(inside, lengths)):
                    elements.append(update[inside])
                    touched = True
                else:
                    old = entries[number]
                    elements.append(case.fill if old is None else data[old[0] + k * case.size : old[0] + (k + 1) * case.size])
            if touched:
                made = b"".join(elements)
                new[number] = None if made == self.empty else made
        if all(entry is None for number, entry in enumerate(entries) if number not in new):
            return self.whole([new.get(number) for number in range(len(entries))]) if any(new.values()) else None
        total = sum(len(it or b"") for it in new.values())
        if self.at_start:
            place = max([self.index_size, *(offset + size for offset, size in filter(None, entries))])
            out = bytearray(data.ljust(max(len(data), place + total), b"\0"))
        else:
            place = len(data) - self.index_size
            out = bytearray(data[:place].ljust(len(data) + total, b"\0"))
        for number in sorted(new):
            made = new[number]
            entries[number] = None if made is None else (place, len(made))
            out[place : place + len(made or b"")] = made or b""
            place += len(made or b"")
        index = self.index(entries)
        if self.at_start:
            out[: len(index)] = index
        else:
            out[place:] = index
        return bytes(out)


def stored_cases(top, made, helpers):
    """The shards of arrays that other programs wrote, those whose subchunks are stored as their elements and those that gzip compressed, each
    with its elements, which are read here by the words of the standard. `made` gives an empty case."""
    for name, size in ARRAYS.items():
        with open(f"{top}/{name}/zarr.json", encoding="utf-8") as file:
            metadata = json.load(file)
        shape, settings = metadata["chunk_grid"]["configuration"]["chunk_shape"], metadata["codecs"][0]["configuration"]
        for folder, _, names in os.walk(f"{top}/{name}/c"):
            for path in sorted(f"{folder}/{it}" for it in names):
                case = made(path)
                case.shape, case.subchunk, case.size, case.flags = tuple(shape), tuple(settings["chunk_shape"]), size, 4
                case.fill, case.object = metadata["fill_value"].to_bytes(size, "little"), of_file(path)
                case.grid = [n // m for n, m in zip(case.shape, case.subchunk)]
                case.decode = (lambda it: zlib.decompress(it, 31)) if len(settings["codecs"]) > 1 else bytes
                reference, case.elements = Reference(case, *helpers), {}
                for at, it in zip(reference.grid, reference.slices(case.object)):
                    decoded = reference.empty if it is None else case.decode(it)
                    for k, place in enumerate(reference.points(case.subchunk)):
                        point = tuple(c * m + p for c, m, p in zip(at, case.subchunk, place))
                        case.elements[point] = decoded[k * size : (k + 1) * size]
                yield case


def applied(data, change, pieces):
    if change.kind == KEEP:
        return data
    if change.kind == ERASE:
        return None
    out = bytearray((data if change.kind == EXTEND else b"").ljust(change.object_size, b"\0"))
    for offset, piece in pieces:
        out[offset : offset + len(piece)] = piece
    return bytes(out[: change.object_size])


def fetcher(data):
    return lambda offset, size: data[offset : offset + size]


def of_file(path):
    with open(path, "rb") as file:
        return file.read()


def try_encode(layout, reference, slices, path, words):
    """The object of encoded subchunks, some of which are not stored, or none is, from C and from Python."""
    for some in (slices, [None] * len(slices)):
        wanted, sizes = reference.whole(some), ",".join(str(ABSENT if it is None else len(it)) for it in some)
        told = subprocess.run([*words, sizes], input=b"".join(it or b"" for it in some), capture_output=True, check=False)
        if layout.encode(some) != wanted or told.stdout != f"{REPLACE}\n".encode() or of_file(path) != wanted:
            sys.exit(f"{words}: another object of {sizes}, {told.stdout} {told.stderr.decode()}")


# Shards of four elements of one byte in two subchunks: the flags of the index, the encodings, and the object. The checksum of 32 bytes of 255 is
# that of RFC 3720, B.4.
NONE, FIRST = "ff" * 16, "00000000000000000200000000000000"
OBJECTS = [
    (0, [b"\5\6", None], "0506" + FIRST + NONE), (1, [None, b"\7"], NONE + "2000000000000000" + "0100000000000000" + "07"),
    (2, [b"\5\6", b""], "0506" + "0000000000000000" + "0000000000000002" + "0000000000000002" + "0000000000000000"),
    (4, [None, None], NONE + NONE + "43aba862"), (5, [None, None], NONE + NONE + "43aba862"),
]
# the flags, the sizes, how many bytes are given and have room, and the status with the room that is told
ENCODINGS_REFUSED = [
    (8, [2], 0, 0, (65, 0)), (0, [2], 1, 0, (5, 0)), (0, [2, ABSENT, 2], 4, 36, (5, 0)), (0, [2**64 - 2, 2], 0, 0, (2, 0)),
    (0, [2**63, 2**63 - 34], 0, 0, (64, 2**64 - 2)), (0, [2**63, 2**63 - 33], 0, 0, (2, 0)), (0, [2, ABSENT], 2, 33, (64, 34)),
    (4, [2, ABSENT], 1, 37, (64, 38)), (0, [2, ABSENT], 1, 34, (5, 0)), (1, [2, ABSENT], 3, 50, (5, 0)),
]


def try_encodings(zarr_sharding):
    for flags, encodings, wanted in OBJECTS:
        layout = zarr_sharding.Layout((4,), (2,), 1, at_start=flags & 1 > 0, big_endian=flags & 2 > 0, crc32c=flags & 4 > 0)
        if layout.encode(encodings) != bytes.fromhex(wanted):
            sys.exit(f"encode: {layout.encode(encodings).hex()}, not {wanted}")
    for flags, sizes, given, room, wanted in ENCODINGS_REFUSED:
        layout, told = zarr_sharding.Layout((4,), (2,), 1), zarr_sharding._Change()
        layout._held.index = flags
        encodings, object, numbers = bytes(given), bytearray(b"\x55" * room), zarr_sharding._numbers(sizes)
        with zarr_sharding._View(encodings) as source, zarr_sharding._View(object, writable=True) as to:
            status = zarr_sharding._library.zs_encode(
                layout._at, numbers, len(sizes), source.at, source.size, to.at, to.size, ctypes.addressof(told)
            )
        if (status, told.room) != wanted or told.object_size or told.kind or object != b"\x55" * room:
            sys.exit(f"encode {sizes} refused as {status} {told.room}, not as {wanted}")
    return len(ENCODINGS_REFUSED)


def try_writes(zarr_sharding, folder, case, helpers, words):
    """Writes and compactions by chance, one over the other, from C and from Python: each object is the one that is wanted."""
    reference = Reference(case, *helpers)
    at_start, big_endian, checked = (bool(case.flags & it) for it in (1, 2, 4))
    layout = zarr_sharding.Layout(case.shape, case.subchunk, case.size, at_start=at_start, big_endian=big_endian, crc32c=checked)
    slices = reference.slices(case.object)
    laid = layout.lay_out([None if it is None else len(it) for it in slices])
    if applied(None, laid, layout.pieces(laid, range(len(slices)), slices)) != reference.whole(slices):
        sys.exit(f"{words}: another lay-out")
    data, path, turns = case.object, f"{folder}/changed", 20
    try_encode(layout, reference, slices, path, [f"{folder}/change_shard", "encode", path, *words])
    for turn in range(turns):
        if turn == turns // 2:
            data = None
        with open(path, "wb") as file:
            file.write(data or b"")
        if data and case.chance.random() < 0.25:
            wanted, said = reference.compacted(data), [f"{folder}/change_shard", "compact", path, *words]
            change, copies = layout.compaction(len(data), layout.index(fetcher(data)(*layout.index_range(len(data)))))
            pieces = [(to, data[source : source + size]) for source, to, size in copies]
            pieces += layout.pieces(change, (), ())
            given = b""
        else:
            start, lengths = case.subset()
            is_fill = case.chance.random() < 0.3
            if is_fill:
                start, lengths = [0] * len(start), list(case.shape) if case.chance.random() < 0.5 else lengths
            if is_fill and any(s + n > whole for s, n, whole in zip(start, lengths, case.shape)):
                start = [0] * len(start)
            update = {it: case.fill if is_fill else case.chance.randbytes(case.size) for it in reference.points(lengths)}
            given = b"".join(update[it] for it in reference.points(lengths))
            wanted = reference.written(data, start, lengths, update)
            said = [f"{folder}/change_shard", "write", path, *words, *(",".join(map(str, it)) or "-" for it in (start, lengths))]
            fetch, size = fetcher(data or b""), None if data is None else len(data)
            change, pieces = layout.write(fetch, size, start, lengths, given, lambda it: it, lambda it: it, case.fill)
        if applied(data, change, pieces) != wanted:
            sys.exit(f"Python: {said}: kind {change.kind}, {applied(data, change, pieces)}, not {wanted}")
        told = subprocess.run(said, input=given, capture_output=True, check=False)
        made = None if told.stdout == b"1\n" else of_file(path)
        if told.returncode or told.stdout != f"{change.kind}\n".encode() or made != wanted:
            sys.exit(f"{said}: {told.returncode} {told.stdout} {told.stderr.decode()} {made}, not {wanted}")
        data = wanted
    return turns


def hostile_objects(top):
    """The objects of crates/test_helpers, with what is owed to whoever reads, opens and compacts them."""
    with open(f"{top}/crates/test_helpers/src/hostile_objects.rt", encoding="utf-8") as file:
        whole = file.read()
    text = whole.split("const HOSTILE_OBJECTS")[1].split("pub fn hostile_table")[0]

    def numbers(words):
        known = {"ABSENT": ABSENT}
        return [eval(it, {"__builtins__": {}}, known) for it in words.split(",") if it.strip()]  # numbers of our own source

    def stored(words):
        found = re.search(r"slices: &\[(.*?)\],\s*index: \[(.*?)\]", words, re.S)
        return bytes(numbers(found[1])), numbers(found[2])

    def answer(words):
        said = re.match(r"\s*(?:Ok\(&\[(.*?)\]\)|Err\((?:CodecError::)?(\w+)\))", words)
        return REFUSALS[said[2]] if said[2] else bytes(numbers(said[1]))

    def halves(words):
        return [answer(it) for it in re.findall(r"Ok\(&\[.*?\]\)|Err\(.*?\)", words)]

    second_bad = halves(re.search(r"const SECOND_BAD: .*? = \[(.*)\];", whole)[1])
    for block in text.split("HostileObject {")[1:]:
        name, at_start = re.search(r'name: "(.*?)"', block)[1], "at_start: true" in block
        both = re.search(r"halves: (SECOND_BAD|\[(.*)\]),\n", block)
        unopened = re.search(r"unopened: (?:None|Some\((\w+)\))", block)[1]
        compacted = block.split("compacted:")[1]
        refused = re.match(r" Err\((\w+)\)", compacted)
        yield {
            "name": name,
            "at_start": at_start,
            "object": stored(block),
            "elements": answer(block.split(" elements:")[1]),
            "halves": halves(both[2]) if both[2] else second_bad,
            "listed": answer(block.split(" listed:")[1]),
            "unopened": REFUSALS.get(unopened),
            "compacted": REFUSALS[refused[1]] if refused else None if "Ok(None)" in compacted else stored(compacted),
        }


def object_of(at_start, slices, numbers):
    index = struct.pack(f"<{len(numbers)}Q", *numbers)
    return index + slices if at_start else slices + index


def try_hostile(zarr_sharding, top):
    count = 0
    for it in hostile_objects(top):
        data = object_of(it["at_start"], *it["object"])
        layout = zarr_sharding.Layout((4,), (2,), 1, at_start=it["at_start"])
        index = layout.index(fetcher(data)(*layout.index_range(len(data))))

        def decoded(stored):
            if len(stored) != 2:
                raise zarr_sharding.Refused(15)
            return stored

        def read(start=0, count=4):
            answer = bytearray(count)
            layout.read(fetcher(data), len(data), (start,), (count,), answer, bytes, b"\0")
            return bytes(answer)

        def first():
            return read(0, 2)

        def second():
            return read(2, 2)

        def listed():
            return layout.read_points(fetcher(data), len(data), [(3,), (0,), (3,)], decoded, b"\0")

        def opened():
            layout.write_plan(len(data), index, (0,), (1,), [2])

        def compacted():
            change, copies = layout.compaction(len(data), index)
            pieces = [(to, data[source : source + size]) for source, to, size in copies]
            return None if change.kind == KEEP else applied(data, change, pieces + layout.pieces(change, (), ()))

        wanted = it["compacted"]
        if isinstance(wanted, tuple) and isinstance(wanted[0], bytes):
            wanted = object_of(it["at_start"], *wanted)
        reads = ((read, it["elements"]), (first, it["halves"][0]), (second, it["halves"][1]), (listed, it["listed"]))
        for call, owed in (*reads, (opened, it["unopened"]), (compacted, wanted)):
            try:
                answer = call()
            except zarr_sharding.Refused as refused:
                answer = (refused.status, refused.subchunk)
            if answer != owed:
                sys.exit(f"{it['name']}: {call.__name__} answers {answer}, not {owed}")
            count += 1
    return count
