#!/usr/bin/env python3
"""The C library of `sharding_indexed`: made, installed, and tried from C and from Python.

    python3 tools/library.py install DIR   DIR/include, DIR/lib (.a, .so, pkg-config) and DIR/python, after its proof
    python3 tools/library.py               reads of shards that are written here, by a C program under address checks and by the module;
                                           leaves out/libzarr_sharding.so, which tools/packed.py decodes by
    python3 tools/library.py header        status 1 where include/zarr_sharding.h and the exports differ
"""
import ctypes
import os
import random
import re
import shutil
import struct
import subprocess
import sys
import tempfile

import library_decodes
import library_rows
import library_writes

TOP = os.path.dirname(os.path.dirname(os.path.abspath(__file__)))
CRATE = f"{TOP}/crates/sharding_c"
HEADER = f"{TOP}/include/zarr_sharding.h"
STRUCTS = {"Layout": "zs_layout", "Subset": "zs_subset", "Range": "zs_range", "Told": "zs_told", "Stored": "zs_stored", "Change": "zs_change"}
NUMBERS = {"u8": "uint8_t", "u32": "uint32_t", "u64": "uint64_t", "usize": "size_t"}
PKG_CONFIG = """prefix={prefix}
Name: zarr_sharding
Description: Reads and writes of the Zarr V3 codec sharding_indexed as ranges and copies
Version: 1
Cflags: -I${{prefix}}/include
Libs: -L${{prefix}}/lib -lzarr_sharding
"""


def run(*words, **how):
    subprocess.run(words, check=True, **how)


# --- the header ---


def c_types(kind):
    """The C types, one or two, that stand for a Rattle type."""
    kind = re.sub(r"'\w+ |<'\w+>", "", kind.strip())
    if kind == "Global":
        return []
    lent = re.fullmatch(r"&(mut )?(\[?)(\w+)(\]?)", kind)
    if not lent:
        return [NUMBERS[kind]]
    to = NUMBERS.get(lent[3]) or STRUCTS[lent[3]]
    return [("" if lent[1] else "const ") + to + "*"] + (["size_t"] if lent[2] else [])


def header_types(text):
    kinds = []
    for one in filter(None, (it.strip() for it in text.split(","))):
        if one != "void":
            found = re.fullmatch(r"(.*?[\s*])\w+", one, re.S)[1]
            kinds.append(re.sub(r"\s*\*", "*", found).strip().replace("zs_status", "uint32_t"))
    return kinds


def header():
    with open(HEADER, encoding="utf-8") as file:
        text = re.sub(r"/\*.*?\*/", " ", file.read(), flags=re.S)
    source = ""
    for name in ("exports", "decode", "encode", "layout"):
        with open(f"{CRATE}/src/{name}.rt", encoding="utf-8") as file:
            source += re.sub(r"//.*", "", file.read())
    prototypes = re.findall(r"^(zs_status|size_t|uint32_t) (zs_\w+)\(([^)]*)\);", text, re.M)
    told = {name: (header_types(f"{result} x")[0], header_types(given)) for result, name, given in prototypes}
    made = {}
    for name, given, result in re.findall(r'pub extern "C" fn (\w+)\((.*?)\)\s*->\s*(\w+)', source, re.S):
        parameters = [it.split(":", 1)[1] for it in given.split(",") if it.strip()]
        made[name] = (NUMBERS[result], [kind for it in parameters for kind in c_types(it)])
    for rattle, c in STRUCTS.items():
        fields = re.search(rf"pub struct {rattle}\b[^{{]*\{{(.*?)\n\}}", source, re.S)[1]
        made[c] = [kind for it in re.findall(r"pub \w+: ([^,]+),", fields) for kind in c_types(it)]
        told[c] = header_types(re.search(rf"typedef struct {c} \{{(.*?)\}}", text, re.S)[1].replace(";", ","))
    wrong = [it for it in sorted({*told, *made}) if told.get(it) != made.get(it)]
    for name in wrong:
        print(f"include/zarr_sharding.h: {name} is {told.get(name)} there, and {made.get(name)} in crates/sharding_c")
    return 1 if wrong else 0


# --- the library ---


def kit():
    return os.path.dirname(subprocess.run(["rt", "doc"], check=True, capture_output=True, text=True).stdout.strip().split("\n")[0])


def uses(name):
    """The crates that a crate uses, by crates.txt, those of the kit too."""
    with open(f"{TOP}/crates.txt", encoding="utf-8") as file:
        found = re.search(rf"(?m)^{name}\b[^:]*:(.*)$", file.read())
    return found[1].split()


def archive(to):
    """Proves and compiles the crate of the calls: over the libraries that the merge gate proved, where it left them here, else with these."""
    rlibs = {it: f"{TOP}/crates/{it}/out/rlib" for it in uses("sharding_c")}
    if not all(os.path.isdir(f"{at}/{it}.rlib") for it, at in rlibs.items()):
        run("rt", "lib", cwd=CRATE, stdout=subprocess.DEVNULL)
        shutil.copy(f"{CRATE}/out/libsharding_c.a", to)
        return
    known = f"{kit()}/rlibs"
    words = ["--crate-name", "sharding_c", "src/lib.rt", "--crate-type", "staticlib", "--extern", f"std={known}/std.rlib", "-L", f"dependency={known}"]
    for name, at in rlibs.items():
        words += ["--extern", f"{name}={at}/{name}.rlib"]
    for name in sorted(os.listdir(f"{TOP}/crates")):
        words += ["-L", f"dependency={TOP}/crates/{name}/out/rlib"]
    logic = ["--antt-project", f"{kit()}/rattle/logic/antt-project.json", "--logic-built", f"{kit()}/logic_built"]
    made = ["--links", "sharding_c=", "--toolchain", f"{kit()}/toolchain", "--backend", "llvm", "-o", to]
    run(f"{kit()}/bin/rattle", "build", *words, *logic, *made, cwd=CRATE, stdout=subprocess.DEVNULL)


def build(to):
    """The archive, in which only the calls of the header are global, and the shared library."""
    whole, made = f"{to}/zarr_sharding.o", f"{to}/libsharding_c.a"
    archive(made)
    run("ld", "-r", "-o", whole, "--whole-archive", made, "--no-whole-archive", f"{kit()}/c/liblibc_c.a")
    run("objcopy", "--wildcard", "--keep-global-symbol=zs_*", whole)
    if os.path.exists(f"{to}/libzarr_sharding.a"):
        os.remove(f"{to}/libzarr_sharding.a")
    run("ar", "rcs", f"{to}/libzarr_sharding.a", whole)
    run("cc", "-shared", "-o", f"{to}/libzarr_sharding.so", whole, "-Wl,-z,text,--no-undefined,-soname,libzarr_sharding.so")
    os.remove(whole)
    os.remove(made)


def install(prefix):
    prefix = os.path.abspath(os.path.expanduser(prefix))
    for part in ("include", "lib/pkgconfig", "python"):
        os.makedirs(f"{prefix}/{part}", exist_ok=True)
    build(f"{prefix}/lib")
    shutil.copy(HEADER, f"{prefix}/include")
    shutil.copy(f"{TOP}/python/zarr_sharding.py", f"{prefix}/python")
    with open(f"{prefix}/lib/pkgconfig/zarr_sharding.pc", "w", encoding="utf-8") as file:
        file.write(PKG_CONFIG.format(prefix=prefix))
    print(f"installed zarr_sharding.h, libzarr_sharding.a and .so, and zarr_sharding.py in {prefix}")
    return 0


# --- trials ---


def crc32c(data):
    """CRC-32C, bit by bit."""
    register = 0xFFFFFFFF
    for byte in data:
        register ^= byte
        for _ in range(8):
            register = register >> 1 ^ (0x82F63B78 if register & 1 else 0)
    return register ^ 0xFFFFFFFF


def product(numbers):
    result = 1
    for number in numbers:
        result *= number
    return result


def points(shape):
    """The coordinates of a shape, in row-major order."""
    if not shape:
        return [()]
    return [(i, *rest) for i in range(shape[0]) for rest in points(shape[1:])]


class Case:
    """A shard with elements by chance, of which some subchunks are all fill value, written by the standard's words."""

    decode = bytes

    def __init__(self, seed, shape, subchunk, size, flags):
        self.chance = random.Random(seed)
        self.shape, self.subchunk, self.size, self.flags = shape, subchunk, size, flags
        self.fill = bytes(range(1, size + 1))
        self.grid = [n // m for n, m in zip(shape, subchunk)]
        present = {it for it in points(self.grid) if self.chance.random() < 0.7}
        self.elements = {
            it: self.chance.randbytes(size) if tuple(c // m for c, m in zip(it, subchunk)) in present else self.fill for it in points(shape)
        }
        self.object = self.written(present)

    def written(self, present):
        is_start, order, is_checked = self.flags & 1, "<>"[self.flags >> 1 & 1], self.flags & 4
        index_size = 16 * product(self.grid) + (4 if is_checked else 0)
        data, numbers = b"", []
        for number, at in enumerate(points(self.grid)):
            if at not in present:
                numbers += [2**64 - 1] * 2
                continue
            data += b"\xee" * self.chance.randrange(5)
            numbers += [len(data) + (index_size if is_start else 0), product(self.subchunk) * self.size]
            data += b"".join(self.elements[tuple(c * m + p for c, m, p in zip(at, self.subchunk, it))] for it in points(self.subchunk))
        index = struct.pack(f"{order}{len(numbers)}Q", *numbers)
        index += struct.pack("<I", crc32c(index)) if is_checked else b""
        return index + data if is_start else data + index

    def subset(self):
        start = [self.chance.randrange(n) for n in self.shape]
        return start, [self.chance.randint(0 if self.chance.random() < 0.1 else 1, n - s) for n, s in zip(self.shape, start)]

    def answer(self, start, lengths):
        return b"".join(self.elements[tuple(s + p for s, p in zip(start, it))] for it in points(lengths))


CASES = [
    ((8, 8), (4, 4), 1, 0), ((6, 4), (2, 2), 2, 4), ((12,), (3,), 4, 1), ((4, 6, 4), (2, 3, 1), 8, 7), ((), (), 2, 5), ((9, 9), (3, 9), 3, 6),
    ((5, 4, 3), (1, 2, 3), 2, 2), ((2, 4, 2, 4, 2, 2), (1, 2, 2, 2, 1, 2), 1, 3),
]


def words_of(numbers):
    return ",".join(map(str, numbers)) or "-"


def words_of_case(case):
    return [words_of(case.shape), words_of(case.subchunk), str(case.size), str(case.flags), case.fill.hex()]


def test():
    with tempfile.TemporaryDirectory() as folder:
        build(folder)
        os.makedirs(f"{TOP}/out", exist_ok=True)
        shutil.copy(f"{folder}/libzarr_sharding.so", f"{TOP}/out")
        strict = ["-std=c99", "-D_POSIX_C_SOURCE=200809L", "-Wall", "-Wextra", "-Wpedantic", "-Werror", "-g", f"-I{TOP}/include"]
        checks = ["-fsanitize=address,undefined", "-fno-sanitize-recover=all"]
        for name in ("read_subset", "change_shard", "fuzz"):
            run("gcc", *strict, *checks, "-o", f"{folder}/{name}", f"{TOP}/tests/c/{name}.c", f"{folder}/libzarr_sharding.a")
        os.environ["ZARR_SHARDING"] = f"{folder}/libzarr_sharding.so"
        sys.path.insert(0, f"{TOP}/python")
        import zarr_sharding

        helpers = (points, product, crc32c)
        stored = list(library_writes.stored_cases(f"{TOP}/tests/commands", empty_case, helpers))
        cases = [Case(seed, *it) for seed, it in enumerate(CASES)] + stored
        reads = sum(try_case(zarr_sharding, folder, case) for case in cases)
        plain = [case for case in cases if case.decode is bytes]
        changes = sum(library_writes.try_writes(zarr_sharding, folder, case, helpers, words_of_case(case)) for case in plain)
        met = try_chunks(zarr_sharding)
        refused = try_refusals(zarr_sharding) + library_writes.try_encodings(zarr_sharding) + library_writes.try_hostile(zarr_sharding, TOP)
        rows = library_rows.try_rows(zarr_sharding)
        decoded = library_decodes.try_decodes(zarr_sharding, TOP)
        run(f"{folder}/fuzz", "1", "20000", stdout=subprocess.DEVNULL)
    print(f"the C library: {reads} subsets read, {met} met by chunks of arrays, and {changes} objects changed from C and from Python, {refused} refusals, {rows} worked rows, {decoded} decodings, 20000 rounds by chance")
    return 0


def empty_case(path):
    """A case whose elements and object are still to be told, with chances of its own."""
    case = Case.__new__(Case)
    case.chance = random.Random(os.path.relpath(path, TOP))
    return case


def try_case(zarr_sharding, folder, case):
    path = f"{folder}/shard"
    with open(path, "wb") as file:
        file.write(case.object)
    at_start, big_endian, checked = (bool(case.flags & it) for it in (1, 2, 4))
    layout = zarr_sharding.Layout(case.shape, case.subchunk, case.size, at_start=at_start, big_endian=big_endian, crc32c=checked)
    for turn in range(25):
        start, lengths = case.subset()
        wanted = case.answer(start, lengths)
        words = [*words_of_case(case), words_of(start), words_of(lengths)]
        said = subprocess.run([f"{folder}/read_subset", path, *words, *["last"] * (turn % 2)], capture_output=True, check=False)
        if case.decode is bytes and (said.returncode or said.stdout != wanted):
            sys.exit(f"read_subset {' '.join(words)}: {said.returncode} {said.stderr.decode()} {said.stdout.hex()}, not {wanted.hex()}")
        answer = bytearray(len(wanted))
        layout.read(lambda offset, size: case.object[offset : offset + size], len(case.object), start, lengths, answer, case.decode, case.fill)
        if answer != wanted:
            sys.exit(f"Python: {words}: {answer.hex()}, not {wanted.hex()}")
        try_points(layout, case)
        try_fetches(layout, case, start, lengths, wanted, gap=case.chance.choice((0, 0, 1, 3, 20, 2**64 - 1)))
    return 25


def try_points(layout, case):
    """Elements in any order, some of them twice."""
    asked = [tuple(case.chance.randrange(n) for n in case.shape) for _ in range(case.chance.randrange(8))]
    fetched = []

    def fetch(offset, size):
        fetched.append((offset, size))
        return case.object[offset : offset + size]

    found = layout.read_points(fetch, len(case.object), asked, case.decode, case.fill)
    if found != b"".join(case.elements[it] for it in asked) or len(set(fetched)) < len(fetched):
        sys.exit(f"elements {asked}: {found.hex()} by {fetched}")


def try_fetches(layout, case, start, lengths, wanted, gap):
    """The same read by ranges that are merged: just the bytes that the slices and the gaps between them have."""
    fetched, answer = [], bytearray(len(wanted))

    def fetch(offset, size):
        fetched.append((offset, size))
        return case.object[offset : offset + size]

    layout.read(fetch, len(case.object), start, lengths, answer, case.decode, case.fill, gap=gap)
    index, ranges = layout.index(case.object[slice(fetched[0][0], sum(fetched[0]))]), fetched[1:]
    slices = sorted((row.offset, row.size) for row in layout.plan(len(case.object), index, start, lengths) if not row.is_absent)
    merged = []
    for offset, size in slices:
        if merged and offset - sum(merged[-1]) <= gap:
            merged[-1] = (merged[-1][0], max(sum(merged[-1]), offset + size) - merged[-1][0])
        else:
            merged.append((offset, size))
    if answer != wanted or ranges != merged:
        sys.exit(f"fetches with gap {gap}: {ranges}, not {merged}")


# arrays whose shape no chunk need divide evenly, and the shape of a chunk
ARRAYS = [((9, 7), (4, 3)), ((5,), (8,)), ((), ()), ((3, 0), (2, 2)), ((4, 6, 5), (2, 4, 5)), ((10, 3), (1, 3))]


def try_chunks(zarr_sharding):
    """Subsets of arrays, put together from the chunks that they meet; all others are missed."""
    count = 0
    for seed, (shape, chunk) in enumerate(ARRAYS):
        chance, element = random.Random(seed), {it: bytes([k & 255, k >> 8]) for k, it in enumerate(points(shape))}
        layout = zarr_sharding.Layout(chunk, chunk, 2)
        for _ in range(40):
            start = [chance.randint(0, n) for n in shape]
            lengths = [chance.randint(0, n - s) for n, s in zip(shape, start)]
            inside = [tuple(s + p for s, p in zip(start, it)) for it in points(lengths)]
            met, answer, again = zarr_sharding.meet(shape, chunk, start, lengths), bytearray(2 * len(inside)), bytearray(2 * len(inside))
            for part in met:
                first = [c * n for c, n in zip(part.coordinates, chunk)]
                whole = [tuple(f + p for f, p in zip(first, it)) for it in points(chunk)]
                layout.put(part.row, b"".join(element.get(it, b"\xff\xff") for it in whole), answer, lengths)
                some = [tuple(f + s + p for f, s, p in zip(first, part.start, it)) for it in points(part.shape)]
                part.put(b"".join(element[it] for it in some), again, lengths, 2)
            wanted = sorted({tuple(x // n for x, n in zip(it, chunk)) for it in inside})
            numbers = [sum(c * product(-(-n // m) for n, m in zip(shape[a + 1 :], chunk[a + 1 :])) for a, c in enumerate(it)) for it in wanted]
            if [it.coordinates for it in met] != wanted or [it.row.subchunk for it in met] != numbers or not answer == again == b"".join(element[it] for it in inside):
                sys.exit(f"chunks of {shape} in {chunk} that {start} {lengths} meets: {[it.coordinates for it in met]}, not {wanted}")
            count += 1
    return count


def try_refusals(zarr_sharding):
    layout = zarr_sharding.Layout((4, 4), (2, 2), 1, crc32c=True)
    part, numbers = bytes(4), [2**64 - 1] * 8
    index = struct.pack("<8Q", *numbers)
    whole = index + struct.pack("<I", crc32c(index))
    read = layout.index(whole)

    def as_numbers(values):
        return (ctypes.c_uint64 * len(values))(*values)

    wanted = [
        (7, None, lambda: layout.index_range(67)), (15, None, lambda: layout.index(whole[:-1])), (15, None, lambda: layout.index(whole[:-1] + b"\0")),
        (3, None, lambda: layout.plan(68, read, (0,), (4,))), (4, None, lambda: layout.plan(68, read, (3, 3), (1, 2))),
        (5, None, lambda: layout.plan(68, as_numbers(numbers[:-2]), (0, 0), (4, 4))),
        (9, 2, lambda: layout.plan(68, as_numbers([*numbers[:4], 65, 4, 0, 4]), (0, 0), (4, 4))),
        (15, None, lambda: layout.put(layout.plan(68, read, (0, 0), (4, 4))[0], part[1:], bytearray(16), (4, 4))),
        (5, None, lambda: layout.put(layout.plan(68, read, (0, 0), (4, 4))[0], part, bytearray(15), (4, 4))),
        (12, None, lambda: layout.put_fill(layout.plan(68, read, (0, 0), (4, 4))[0], b"", bytearray(16), (4, 4))),
        (6, None, lambda: zarr_sharding.Layout((4, 4), (3, 2), 1).index_range(100)), (6, None, lambda: zarr_sharding.Layout((0,), (1,), 1).index_range(100)),
        (4, None, lambda: layout.plan_points(68, read, [(0, 0), (4, 0)])), (5, None, lambda: layout.plan_points(68, read, [(0, 0), (4,)])),
        (5, None, lambda: layout.plan_points(68, as_numbers(numbers[:-2]), [(0, 0)])),
        (9, 2, lambda: layout.plan_points(68, as_numbers([*numbers[:4], 65, 4, 0, numbers[0]]), [(3, 3), (2, 1), (0, 0)])),
        (3, None, lambda: zarr_sharding.meet((4,), (2, 2), (0,), (1,))), (6, None, lambda: zarr_sharding.meet((4,), (0,), (0,), (1,))),
        (2, None, lambda: zarr_sharding.meet((2**63, 3), (2**62, 2), (0, 0), (1, 1))), (2, None, lambda: zarr_sharding.meet((2**64 - 1,), (2,), (0,), (1,))),
        (2, None, lambda: zarr_sharding.meet((2**61,), (1,), (0,), (1,))), (4, None, lambda: zarr_sharding.meet((5,), (2,), (5,), (1,))),
        (3, None, lambda: zarr_sharding.meet((5,), (2,), (0, 0), (1, 1))),
        (3, None, lambda: zarr_sharding.Layout((4,), (2, 2), 1).index_range(100)), (2, None, lambda: zarr_sharding.Layout((2**63, 2), (1, 1), 1).index_range(100)),
    ]
    entries = as_numbers([*numbers[:2], 0, 4, numbers[0], 5, 65, 4])
    if layout.check(72, entries) != bytes([0, 1, 2, 3]):
        sys.exit(f"check: {layout.check(72, entries)}")
    for status, subchunk, call in wanted:
        try:
            call()
        except zarr_sharding.Refused as refused:
            if (refused.status, refused.subchunk) != (status, subchunk):
                sys.exit(f"refused as {refused.status} {refused}, not as {status}")
        else:
            sys.exit(f"accepted what is refused as {status}")
    return len(wanted)


if __name__ == "__main__":
    if sys.argv[1:] in ([], ["header"]):
        sys.exit(header() if sys.argv[1:] else test())
    if sys.argv[1:2] == ["install"] and len(sys.argv) == 3:
        sys.exit(install(sys.argv[2]))
    sys.exit(__doc__)
