#!/usr/bin/env python3
"""Runs `zarr_shard` on arrays of texts and of bytes, which this script lays out by the Zarr standard and the extensions `string`, `bytes`,
`vlen-utf8`, `vlen-bytes`, `fixed_length_utf32`, `null_terminated_bytes` and `raw_bytes`: whole ones, with chunks that are absent, and with
bytes that are damaged.

    python3 tools/texts.py [PROGRAM]     the program that the merge gate built, if no other is named
"""
import base64
import gzip
import json
import os
import random
import struct
import subprocess
import sys
import tempfile

TOP = os.path.dirname(os.path.dirname(os.path.abspath(__file__)))
BUILT = f"{TOP}/crates/zarr_shard/out/zarr_shard"
MOST = 60  # seconds
ABSENT = struct.pack("<QQ", 2**64 - 1, 2**64 - 1)
PLAIN = [{"name": "vlen-utf8"}]
GZIPPED = [{"name": "vlen-utf8", "configuration": {}}, {"name": "gzip", "configuration": {"level": 1}}]
bad = []


def run(program, *words):
    ran = subprocess.run([program, *words], capture_output=True, timeout=MOST, stdin=subprocess.DEVNULL)
    return ran.returncode, ran.stdout.decode(), ran.stderr.decode(errors="replace")


def compare(what, found, wanted):
    if found != wanted:
        bad.append(f"{what}: {str(found)[:300]}, and {str(wanted)[:300]} was expected")


def encoded(elements):
    """A count of four bytes, and each element behind its length."""
    return struct.pack("<I", len(elements)) + b"".join(struct.pack("<I", len(element)) + element for element in elements)


def shard_of(subchunks):
    """A shard of these subchunks, of which `None` is absent, with its index at the end and no checksum."""
    body, index = b"", b""
    for subchunk in subchunks:
        index += ABSENT if subchunk is None else struct.pack("<QQ", len(body), len(subchunk))
        body += subchunk or b""
    return body + index


def document(shape, chunk, codecs, data_type, fill):
    return {"zarr_format": 3, "node_type": "array", "shape": shape, "data_type": data_type, "fill_value": fill, "codecs": codecs,
            "chunk_grid": {"name": "regular", "configuration": {"chunk_shape": chunk}}, "chunk_key_encoding": {"name": "default"}}


def sharded(subchunk, codecs, index=None):
    index = index or [{"name": "bytes", "configuration": {"endian": "little"}}]
    return [{"name": "sharding_indexed", "configuration": {"chunk_shape": subchunk, "codecs": codecs, "index_codecs": index}}]


def lay_out(path, metadata, chunks):
    for key, content in chunks.items():
        os.makedirs(os.path.dirname(f"{path}/{key}"), exist_ok=True)
        with open(f"{path}/{key}", "wb") as file:
            file.write(content)
    os.makedirs(path, exist_ok=True)
    with open(f"{path}/zarr.json", "w", encoding="utf-8") as file:
        json.dump(metadata, file)
    return path


def cells(program, path, *words):
    status, out, told = run(program, "read", path, "--json", *words)
    return json.loads(out)["cells"] if status == 0 and not told else (status, out, told)


def test_chunks(program, folder):
    """Chunks that are no shards, of which one is absent."""
    words = ["a", "", "grüezi\n\"b\"\\", "\u202e", "e"]
    chunks = {"c/0": encoded([b"a", b""]), "c/2": encoded([words[4].encode(), b"behind the end"])}
    path = lay_out(f"{folder}/chunks", document([5], [2], PLAIN, "string", "n/a"), chunks)
    compare("chunks", cells(program, path), ["a", "", "n/a", "n/a", "e"])
    lay_out(path, document([5], [2], PLAIN, "string", "n/a"), {"c/1": encoded([word.encode() for word in words[2:4]])})
    compare("chunks, all there", cells(program, path), words)
    compare("chunks as text", run(program, "read", path), (0, '"a" "" "grüezi\\n\\"b\\"\\\\" "\\u{202e}" "e"\n', ""))
    compare("one of them", run(program, "read", path, "3..4"), (0, '"\\u{202e}"\n', ""))
    compare("none of them", cells(program, path, "2..2"), [])
    compare("check of chunks", run(program, "check", path)[::2], (0, ""))
    compare("fill value", [line for line in run(program, "info", path)[1].splitlines() if "fill value" in line], ['fill value: "n/a"'])


def test_shards(program, folder):
    """A shard with compressed subchunks: all there but one, which is absent; then one is damaged."""
    rows = [[f"{row},{column}" * (row + 1) for column in range(4)] for row in range(4)]
    parts = [[rows[r][c] for r in (a, a + 1) for c in (b, b + 1)] for a in (0, 2) for b in (0, 2)]
    stored = [gzip.compress(encoded([word.encode() for word in part])) for part in parts]
    metadata = document([4, 4], [4, 4], sharded([2, 2], GZIPPED), "string", "-")
    path = lay_out(f"{folder}/shards", metadata, {"c/0/0": shard_of([stored[0], None, *stored[2:]])})
    wanted = [["-" if row < 2 and column > 1 else word for column, word in enumerate(words)] for row, words in enumerate(rows)]
    compare("a shard", cells(program, path), sum(wanted, []))
    compare("a column", cells(program, path, "1..4,1..3"), [word for row in wanted[1:] for word in row[1:3]])
    hurt = stored[2][:20] + bytes([stored[2][20] ^ 255]) + stored[2][21:]
    lay_out(path, metadata, {"c/0/0": shard_of([stored[0], None, hurt, stored[3]])})
    status, out, told = run(program, "read", path, "--json")
    compare("a damaged subchunk", (status, out, "subchunk 2" in told and "c/0/0" in told), (1, "", True))
    status, out, told = run(program, "read", path, "--json", "--fill-damaged")
    filled = [["-" if row > 1 and column < 2 else word for column, word in enumerate(words)] for row, words in enumerate(wanted)]
    compare("a damaged subchunk that is filled", (status, json.loads(out)["cells"], told.count("filled")), (1, sum(filled, []), 1))
    status, out, told = run(program, "check", path)
    compare("check of a damaged subchunk", (status, "c/0/0: 15 Damaged: subchunk 2" in out, told), (1, True, ""))


def test_no_text(program, folder):
    """Bytes that are no text in UTF-8: told where a text is to be shown. An encoding of another count is damaged."""
    path = lay_out(f"{folder}/no_text", document([2, 2], [2, 2], PLAIN, "string", ""), {"c/0/0": encoded([b"a", b"b", b"c", b"\xff"])})
    compare("no text", run(program, "read", path), (2, "", "zarr_shard: the element at 1,1 is no text: its bytes are not UTF-8\n"))
    compare("texts beside it", cells(program, path, "0..2,0"), ["a", "c"])
    for number, content in enumerate([encoded([b"a"] * 3), encoded([b"a"] * 5), encoded([b"a"] * 4) + b"x", encoded([b"a"] * 4)[:-1], b""]):
        lay_out(path, document([2, 2], [2, 2], PLAIN, "string", ""), {"c/0/0": content})
        compare(f"damaged encoding {number}", run(program, "read", path)[:2], (1, ""))


def test_bytes(program, folder):
    """Bytes of any number, by either name of the type, with a fill value in base64 or as a list."""
    elements = [b"", b"\x00\xff", bytes(range(256))]
    for name, fill in (("bytes", [1, 2]), ("variable_length_bytes", base64.b64encode(b"\x01\x02").decode())):
        metadata = document([4], [3], [{"name": "vlen-bytes"}], name, fill)
        path = lay_out(f"{folder}/{name}", metadata, {"c/0": encoded(elements)})
        compare(name, cells(program, path), [*map(list, elements), [1, 2]])
        compare(f"{name} as text", run(program, "read", path, "0..2"), (0, "0x 0x00ff\n", ""))


def test_refused(program, folder):
    """Types and codecs that do not fit together: a sentence on a line, and nothing on standard output."""
    for number, (data_type, codecs, words) in enumerate([
        ("string", [{"name": "bytes"}], "their codec is vlen-utf8"), ("uint8", PLAIN, "their codec is bytes"),
        ("string", [{"name": "vlen-utf8", "configuration": {"level": 1}}], "level"),
        ("string", sharded([2], PLAIN, PLAIN), "index_codecs"), ("string", PLAIN + PLAIN, "codecs"),
    ]):
        path = lay_out(f"{folder}/refused{number}", document([2], [2], codecs, data_type, "" if data_type == "string" else 0), {})
        status, out, told = run(program, "read", path)
        compare(f"refused {number}", (status, out, words in told, len(told.splitlines())), (2, "", True, 1))
    codecs = sharded([2], [*PLAIN, {"name": "blosc", "configuration": {}}])
    path = lay_out(f"{folder}/blosc", document([2], [2], codecs, "string", ""), {"c/0": shard_of([b"anything"])})
    compare("info of another codec", run(program, "info", path)[0], 0)
    compare("read of another codec", (run(program, "read", path)[0], "blosc" in run(program, "read", path)[2]), (2, True))


def test_compare(program, folder):
    """Two arrays of texts in other chunks, compared: as many differ as were changed, and the first is shown."""
    words = [f"{number}" * (number % 7) for number in range(12)]
    paths = []
    for name, size, changed in (("one", 4, {}), ("other", 3, {}), ("third", 3, {5: "", 10: "x"})):
        told = [changed.get(number, word).encode() for number, word in enumerate(words)]
        chunks = {f"c/{at // size}": encoded(told[at : at + size]) for at in range(0, 12, size)}
        paths.append(lay_out(f"{folder}/{name}", document([12], [size], PLAIN, "string", "3"), chunks))
    compare("texts that are the same", run(program, "compare", *paths[:2]), (0, "no element differs\n", ""))
    wanted = '2 elements differ, the first one at: 5\n"55555"\n""\n'
    compare("texts that differ", run(program, "compare", paths[0], paths[2]), (1, wanted, ""))


def fixed(name, size):
    return {"name": name, "configuration": {"length_bytes": size}}


def raw(program, path, *words):
    return subprocess.run([program, "read", path, "--raw", *words], capture_output=True, timeout=MOST, stdin=subprocess.DEVNULL).stdout


def test_utf32(program, folder):
    """Texts in UTF-32, in either byte order: read, as a file of NumPy's format, written, laid out anew; and what is no character."""
    words = ["Bern", "", "Z\u00fcrch", "\U0001d11e", "\u0100", "x y", "n\u00e9", "n\u00e9"]
    for order in ("little", "big"):
        told = [word.encode(f"utf-32-{order[0]}e").ljust(20, b"\0") for word in words]
        codecs = sharded([2], [{"name": "bytes", "configuration": {"endian": order}}, GZIPPED[1]])
        stored = [gzip.compress(b"".join(told[at : at + 2])) for at in (0, 2, 4)]
        path = lay_out(f"{folder}/{order}", document([8], [4], codecs, fixed("fixed_length_utf32", 20), "n\u00e9"),
                       {"c/0": shard_of(stored[:2]), "c/1": shard_of([stored[2], None])})
        compare(f"UTF-32, {order}", cells(program, path), words)
        compare(f"UTF-32, {order}, as text", run(program, "read", path, "2..5"), (0, '"Z\u00fcrch" "\U0001d11e" "\u0100"\n', ""))
        least = b"".join(word.encode("utf-32-le").ljust(20, b"\0") for word in words)
        compare(f"UTF-32, {order}, raw", raw(program, path), least)
        compare(f"UTF-32, {order}, to NumPy", run(program, "read", path, "--npy", f"{path}.npy"), (0, "", ""))
        with open(f"{path}.npy", "rb") as file:
            content = file.read()
        compare(f"UTF-32, {order}, NumPy's file", (content[:6], b"'descr': '<U5'" in content[:128], content[128:]), (b"\x93NUMPY", True, least))
        compare(f"UTF-32, {order}, laid out anew", run(program, "reshard", path, f"{path}.new", "--shard", "8", "--subchunk", "4")[::2], (0, ""))
        compare(f"UTF-32, {order}, compared", run(program, "compare", path, f"{path}.new"), (0, "no element differs\n", ""))
        with open(f"{path}.npy", "wb") as file:
            file.write(content[:128].replace(b"(8,)", b"(2,)") + least[40:80])
        compare(f"UTF-32, {order}, written", run(program, "write", path, "0..2", "--npy", f"{path}.npy")[::2], (0, ""))
        compare(f"UTF-32, {order}, read again", cells(program, path), words[2:4] + words[2:])
    for code in (0xD800, 0x110000):
        metadata = document([2], [2], [{"name": "bytes", "configuration": {"endian": "little"}}], fixed("fixed_length_utf32", 4), "")
        path = lay_out(f"{folder}/{code}", metadata, {"c/0": struct.pack("<II", 65, code)})
        compare(f"{code:x}", run(program, "read", path), (2, "", "zarr_shard: the element at 1 is no text: its bytes are not UTF-32\n"))
        compare(f"{code:x}, raw", raw(program, path), struct.pack("<II", 65, code))


def test_null_terminated(program, folder):
    """Texts in so many bytes, and raw bits by the name `raw_bytes`."""
    elements = [b"ab", b"", b"a\0b", "gr\u00fc".encode()]
    metadata = document([5], [4], [{"name": "bytes"}], fixed("null_terminated_bytes", 4), base64.b64encode(b"x").decode())
    path = lay_out(f"{folder}/null_terminated", metadata, {"c/0": b"".join(element.ljust(4, b"\0") for element in elements)})
    compare("null-terminated", cells(program, path), [*(element.decode() for element in elements), "x"])
    compare("null-terminated, as text", run(program, "read", path, "1..3"), (0, '"" "a\\u{0}b"\n', ""))
    lay_out(path, metadata, {"c/0": b"\xff" * 16})
    compare("null-terminated, no text", run(program, "read", path), (2, "", "zarr_shard: the element at 0 is no text: its bytes are not UTF-8\n"))
    metadata = document([2], [1], [{"name": "bytes"}], fixed("raw_bytes", 3), "AQID")
    path = lay_out(f"{folder}/raw", metadata, {"c/0": b"\xff\0\x01"})
    compare("raw bytes", cells(program, path), [[255, 0, 1], [1, 2, 3]])


def test_fixed_refused(program, folder):
    """Configurations that do not say how many bytes an element has, and fill values that are none: a sentence, and nothing printed."""
    for number, (data_type, fill, words) in enumerate([
        ("fixed_length_utf32", "", "configuration is missing"), ({"name": "raw_bytes", "configuration": {}}, "", "length_bytes is missing"),
        (fixed("fixed_length_utf32", 6), "", "no multiple of 4 from 4 to 65536"), (fixed("fixed_length_utf32", 0), "", "no multiple of 4"),
        (fixed("null_terminated_bytes", 65537), "", "no multiple of 1 from 1 to 65536"), (fixed("raw_bytes", -1), "", "no multiple of 1"),
        ({"name": "raw_bytes", "configuration": {"length_bytes": 1, "unit": "s"}}, "AA==", "unit"),
        (fixed("fixed_length_utf32", 4), "ab", "no text of at most 1 characters"), (fixed("fixed_length_utf32", 4), 0, "no text"),
        (fixed("null_terminated_bytes", 1), "YWI=", "at most 1 bytes"), (fixed("null_terminated_bytes", 1), "?", "base64"),
        (fixed("raw_bytes", 2), "YQ==", "list of 2 bytes"),
    ]):
        metadata = document([2], [2], [{"name": "bytes", "configuration": {"endian": "little"}}], data_type, fill)
        status, out, told = run(program, "read", lay_out(f"{folder}/fixed{number}", metadata, {}))
        compare(f"of one size, refused {number}", (status, out, words in told, len(told.splitlines())), (2, "", True, 1))


def content_of(stored, codecs):
    """The encoding behind its compression or its checksum."""
    for codec in reversed(codecs[1:]):
        stored = stored[:-4] if codec["name"] == "crc32c" else gzip.decompress(stored)
    return stored


def elements_in(content):
    """The elements of an encoding."""
    elements, at = [], 4
    for _ in range(struct.unpack_from("<I", content)[0]):
        size = struct.unpack_from("<I", content, at)[0]
        elements.append(content[at + 4 : at + 4 + size])
        at += 4 + size
    return elements


def subchunks_in(shard, configuration, count):
    """The subchunks of a shard: their offsets, and their elements; `None` of one that is absent."""
    size = 16 * count + (4 if len(configuration["index_codecs"]) > 1 else 0)
    index = shard[:size] if configuration["index_location"] == "start" else shard[-size:]
    for number in range(count):
        offset, length = struct.unpack_from("<QQ", index, 16 * number)
        if offset == 2**64 - 1:
            yield None, None
        else:
            yield offset, elements_in(content_of(shard[offset : offset + length], configuration["codecs"]))


def decoded(path, fill):
    """The elements of an array of two axes, decoded here, by their coordinates; and the offsets of the subchunks of each shard."""
    with open(f"{path}/zarr.json", encoding="utf-8") as file:
        told = json.load(file)
    configuration, shape = told["codecs"][0]["configuration"], told["shape"]
    chunk, part = told["chunk_grid"]["configuration"]["chunk_shape"], configuration["chunk_shape"]
    grid, found, offsets = [size // of for size, of in zip(chunk, part)], {}, {}
    for key in keys_in(path):
        with open(f"{path}/{key}", "rb") as file:
            shard = file.read()
        start = [int(place) * size for place, size in zip(key.split("/")[1:], chunk)]
        offsets[key] = []
        for number, (offset, elements) in enumerate(subchunks_in(shard, configuration, grid[0] * grid[1])):
            offsets[key].append(offset)
            first = [start[0] + number // grid[1] * part[0], start[1] + number % grid[1] * part[1]]
            for place, element in enumerate(elements or []):
                found[first[0] + place // part[1], first[1] + place % part[1]] = element
    outside = [element for at, element in found.items() if at[0] >= shape[0] or at[1] >= shape[1]]
    compare(f"what {path} has behind its edge", set(outside) - {fill}, set())
    return [found.get((row, column), fill) for row in range(shape[0]) for column in range(shape[1])], offsets


def keys_in(path):
    return sorted(os.path.relpath(f"{place}/{file}", path) for place, _, files in os.walk(path) for file in files if file != "zarr.json")


LAYOUTS = (
    ["--shard", "4,4", "--subchunk", "2,2", "--inner", "gzip", "--index", "start", "--no-crc32c"],
    ["--shard", "3,8", "--subchunk", "1,2", "--inner", "crc32c", "--order", "morton", "--crc32c", "--index", "end"],
    ["--shard", "5,7", "--subchunk", "5,7", "--inner", "none"],
    ["--shard", "16,16", "--subchunk", "8,1", "--inner", "gzip", "--order", "morton", "--index", "start"],
    ["--shard", "2,3", "--subchunk", "1,3", "--inner", "none", "--index", "end", "--no-crc32c"],
)


def test_reshard(program, folder):
    """Elements of many lengths laid out anew in five ways, one made of the other: from chunks that are no shards, of which some are absent,
    with elements behind the array's edge, none of a byte, one of a mebibyte, and bytes that are no text."""
    dice = random.Random(11)
    long = bytes(dice.randrange(256) for _ in range(1 << 20))
    choices = [b"", b"fill", b"a", "grüezi".encode(), b"\xff\xfe", b"x" * 300]
    for data_type, name, fill in (("string", "vlen-utf8", "fill"), ("bytes", "vlen-bytes", list(b"fill"))):
        rows = [[dice.choice(choices) for _ in range(8)] for _ in range(6)]
        rows[1][4] = long if data_type == "bytes" else "\u6771".encode() * 350_000
        chunks = {f"c/{row}/{column}": encoded([*rows[2 * row][3 * column : 3 * column + 3], *rows[2 * row + 1][3 * column : 3 * column + 3]])
                  for row in range(3) for column in range(2) if (row, column) != (1, 0)}
        metadata = document([5, 6], [2, 3], [{"name": name}, {"name": "gzip", "configuration": {"level": 1}}], data_type, fill)
        old = lay_out(f"{folder}/{data_type}", metadata, {key: gzip.compress(content) for key, content in chunks.items()})
        wanted = [rows[row][column] if (row // 2, column // 3) != (1, 0) else b"fill" for row in range(5) for column in range(6)]
        reshard_each(program, old, wanted)
        told = run(program, "reshard", old, f"{old}.same")[1]
        compare("reshard to shards of one chunk", told.split(":")[0], f"{len(chunks)} shards")


def reshard_each(program, path, wanted):
    old = path
    for number, layout in enumerate(LAYOUTS):
        new = f"{path}.{number}"
        status, out, told = run(program, "reshard", old, new, *layout)
        compare(f"reshard {layout}", (status, told), (0, ""))
        elements, offsets = decoded(new, b"fill")
        compare(f"elements of {layout}", elements == wanted, True)
        sizes = sum(os.path.getsize(f"{new}/{key}") for key in offsets)
        compare(f"what is told of {layout}", out, f"{len(offsets)} shard{'' if len(offsets) == 1 else 's'}: {sizes} bytes\n")
        compare(f"comparison of {layout}", run(program, "compare", path, new), (0, "no element differs\n", ""))
        compare(f"check of {layout}", run(program, "check", new)[::2], (0, ""))
        old = new


def test_reshard_order(program, folder):
    """Subchunks along the Z-curve, an absent one, and shards of fill values alone, which are not written."""
    chunks = {"c/0/0": encoded([b"a", b"b", b"c", b"d"]), "c/0/1": encoded([b"-"] * 4), "c/1/1": encoded([b"e", b"-", b"-", b"f"])}
    old = lay_out(f"{folder}/order", document([4, 8], [2, 2], PLAIN, "string", "-"), {**chunks, "c/0/3": encoded([b"-"] * 4)})
    new = f"{folder}/order.new"
    words = ["--shard", "4,4", "--subchunk", "1,2", "--order", "morton", "--index", "end", "--inner", "none"]
    compare("reshard along the Z-curve", run(program, "reshard", old, new, *words)[::2], (0, ""))
    wanted = [b"a", b"b", b"-", b"-", b"c", b"d", b"-", b"-", b"-", b"-", b"e", b"-", b"-", b"-", b"-", b"f"]
    elements, offsets = decoded(new, b"-")
    compare("elements along the Z-curve", [elements[row * 8 : row * 8 + 4] for row in range(4)], [wanted[row * 4 : row * 4 + 4] for row in range(4)])
    compare("shards that are written", list(offsets), ["c/0/0"])
    there = [number for number in (0, 1, 2, 3, 4, 5, 6, 7) if offsets["c/0/0"][number] is not None]
    compare("subchunks that are there", there, [0, 2, 5, 7])
    compare("their order in the file", sorted(there, key=lambda number: offsets["c/0/0"][number]), [0, 2, 5, 7])


def test_reshard_nested(program, folder):
    """Shards in a shard, laid out anew as they are, and with texts that are compressed in their place."""
    parts = [shard_of([encoded([b"a", b""]), None]), shard_of([None, encoded([b"b", b"c"])])]
    old = lay_out(f"{folder}/nested", document([7], [8], sharded([4], sharded([2], PLAIN)), "string", "-"), {"c/0": shard_of(parts)})
    wanted = ["a", "", "-", "-", "-", "-", "b"]
    for number, (layout, codecs) in enumerate(((["--shard", "4"], ["sharding_indexed"]), (["--inner", "gzip"], ["vlen-utf8", "gzip"]))):
        new = f"{old}.{number}"
        compare(f"reshard {layout} of shards in a shard", run(program, "reshard", old, new, *layout)[::2], (0, ""))
        compare(f"elements of {layout} of shards in a shard", cells(program, new), wanted)
        with open(f"{new}/zarr.json", encoding="utf-8") as file:
            told = json.load(file)["codecs"][0]["configuration"]["codecs"]
        compare(f"codecs of {layout} of shards in a shard", [codec["name"] for codec in told], codecs)


def test_reshard_refused(program, folder):
    """A damaged chunk and a damaged subchunk: told with its place, and nothing is left; and words that cannot stand there."""
    hurt = encoded([b"a", b"b", b"c"])[:-1]
    path = lay_out(f"{folder}/hurt", document([7], [3], PLAIN, "string", ""), {"c/0": encoded([b"a"] * 3), "c/1": hurt})
    refused_anew(program, path, "zarr_shard: c/1: 15 Damaged")
    parts = [gzip.compress(encoded([b"a", b"b"])), gzip.compress(encoded([b"c", b"d"]))[:-3]]
    metadata = document([4], [4], sharded([2], GZIPPED), "string", "")
    path = lay_out(f"{folder}/hurt_shard", metadata, {"c/0": shard_of(parts)})
    refused_anew(program, path, "zarr_shard: c/0: 15 Damaged: subchunk 1")
    refused_anew(program, path, "is none of the words", "--inner", "vlen-utf8")
    refused_anew(program, path, "/zarr.json: ", "--shard", "5")


def refused_anew(program, path, wanted, *layout):
    new = f"{path}.new"
    status, out, told = run(program, "reshard", path, new, *layout)
    compare(f"reshard of {path}", (status, out, wanted in told), (2 if layout else 1, "", True))
    compare(f"what is left of {path}", [os.path.exists(new + end) for end in ("", ".partial")], [False] * 2)


def test_create(program, folder):
    """Arrays of such elements that are created: of fill values, and with elements that another program writes."""
    shapes = ["--shape", "5", "--shard", "4", "--subchunk", "2", "--inner", "gzip"]
    for data_type, fill, wanted, shown in (("string", '"n/a"', "n/a", '"n/a"'), ("string", None, "", '""'), ("bytes", "[1,2]", [1, 2], "0x0102"),
                                           ("variable_length_bytes", None, [], "0x"), ("bytes", '"AQI="', [1, 2], "0x0102")):
        path = f"{folder}/created_{data_type}_{len(os.listdir(folder))}"
        made = run(program, "create", path, *shapes, "--type", data_type, *(["--fill", fill] if fill else []))
        compare(f"create {data_type} {fill}", made, (0, "", ""))
        compare(f"elements of {data_type} {fill}", run(program, "read", path), (0, " ".join([shown] * 5) + "\n", ""))
        with open(f"{path}/zarr.json", encoding="utf-8") as file:
            metadata = json.load(file)
        told = metadata["codecs"][0]["configuration"]
        name = "vlen-utf8" if data_type == "string" else "vlen-bytes"
        compare(f"codecs of {data_type}", [codec["name"] for codec in told["codecs"]], [name, "gzip"])
        told["index_codecs"] = told["index_codecs"][:1]
        lay_out(path, metadata, {"c/0": shard_of([gzip.compress(encoded([b"a", b"b"])), None])})
        texts = ["a", "b"] if data_type == "string" else [[97], [98]]
        compare(f"elements written into {data_type}", cells(program, path), [*texts, *[wanted] * 3])
        status, out, told = run(program, "write", path, "--raw", f"{path}/zarr.json")
        compare(f"write into {data_type}", (status, out, "have lengths of their own" in told), (2, "", True))


def test_many(program, folder):
    """100,000 texts in 100 shards, which one thread reads, whatever `-j` says."""
    dice = random.Random(7)
    words = ["".join(chr(dice.choice([65, 228, 0x6771, 0x1F30D])) for _ in range(dice.randrange(20))) for _ in range(100_000)]
    chunks = {}
    for shard in range(100):
        parts = [words[at : at + 100] for at in range(1000 * shard, 1000 * shard + 1000, 100)]
        chunks[f"c/{shard}"] = shard_of([gzip.compress(encoded([word.encode() for word in part]), 1) for part in parts])
    path = lay_out(f"{folder}/many", document([100_000], [1000], sharded([100], GZIPPED), "string", ""), chunks)
    for jobs in ("1", "4"):
        compare(f"many texts by {jobs}", cells(program, path, "-j", jobs), words)
    compare("some of them", cells(program, path, "12345..54321"), words[12345:54321])
    for jobs in ("1", "4"):
        new = f"{path}.{jobs}"
        anew = run(program, "reshard", path, new, "--shard", "1500", "--subchunk", "250", "--inner", "zstd", "-j", jobs)
        compare(f"many texts laid out anew by {jobs}", (anew[0], anew[1].split(":")[0], anew[2]), (0, "67 shards", ""))
        compare(f"elements laid out anew by {jobs}", cells(program, new), words)


TESTS = (test_chunks, test_shards, test_no_text, test_bytes, test_refused, test_compare, test_reshard, test_reshard_order,
         test_reshard_nested, test_reshard_refused, test_create, test_utf32, test_null_terminated, test_fixed_refused, test_many)


def main(program):
    with tempfile.TemporaryDirectory() as folder:
        for test in TESTS:
            os.mkdir(f"{folder}/{test.__name__}")
            test(program, f"{folder}/{test.__name__}")
    for line in bad:
        print(line)
    print(f"arrays of texts and bytes: {len(bad)} differences")
    return 1 if bad else 0


if __name__ == "__main__":
    sys.exit(main(os.path.abspath(sys.argv[1]) if len(sys.argv) > 1 else BUILT))
