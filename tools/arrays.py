#!/usr/bin/env python3
"""Runs `zarr_shard` on the arrays of tests/arrays, which are laid out as other writers do, and compares with what is expected of each:
lengths, present, absent and dead bytes of each shard, which subchunks are damaged, each shard compacted, and the elements.

    python3 tools/arrays.py [PROGRAM]     the program that the merge gate built, if no other is named
"""
import hashlib
import json
import os
import random
import re
import shutil
import struct
import subprocess
import sys
import tempfile

TOP = os.path.dirname(os.path.dirname(os.path.abspath(__file__)))
BUILT = f"{TOP}/crates/zarr_shard/out/zarr_shard"
ARRAYS = f"{TOP}/tests/arrays"
MOST = 60  # seconds
SERVED = [["bytes"], ["bytes", "crc32c"], ["bytes", "gzip"], ["bytes", "zstd"], ["bytes", "zstd", "crc32c"], ["transpose", "bytes"], ["transpose", "bytes", "gzip"],
          ["bytes", "numcodecs.zlib"], ["bytes", "crc32c", "gzip", "zstd"], ["vlen-utf8", "zstd"], ["vlen-bytes", "gzip"], ["vlen-utf8"],
          ["sharding_indexed"]]
VARYING = ("string", "bytes")  # types whose elements have lengths of their own
FORMATS = {"bool": "B", "int8": "b", "uint8": "B", "int16": "h", "uint16": "H", "int32": "i", "uint32": "I", "int64": "q", "uint64": "Q",
           "float32": "f", "float64": "d", "float16": "e", "bfloat16": "H", "numpy.datetime64": "q", "numpy.timedelta64": "q",
           "complex64": "ff", "complex128": "dd"}
INDEXES = {"checksum": "15 Damaged", "short": "7 ShardTooShort"}
bad = []


def run(program, *words):
    ran = subprocess.run([program, *words], capture_output=True, timeout=MOST, stdin=subprocess.DEVNULL)
    return ran.returncode, ran.stdout, ran.stderr.decode(errors="replace")


def compare(name, what, found, wanted):
    if found != wanted:
        bad.append(f"{name}: {what}: {str(found)[:300]}, and {str(wanted)[:300]} was expected")


def refused(name, command, ran):
    """A command that is refused: status 2, nothing on standard output, and a sentence on a line for each thing that is in the way."""
    status, out, told = ran
    lines = told.splitlines()
    if status != 2 or out or not 1 <= len(lines) <= 6 or not lines[0].startswith("zarr_shard: ") or any("/zarr.json: " not in line for line in lines[1:]):
        bad.append(f"{name}: {command}: status {status}, {out[:200]!r}, {told[:300]!r}")


def test_info(program, name, path, shards):
    status, out, told = run(program, "info", path)
    lines = dict(line.split(": ", 1) for line in out.decode().splitlines() if ": " in line)
    there = {key: shard for key, shard in shards.items() if shard != "absent"}
    refusals = any(shard["index"] != "ok" for shard in there.values())
    compare(name, "status of info", (status, told), (1 if refusals else 0, ""))
    with open(f"{path}/zarr.json", encoding="utf-8") as text:
        document = json.load(text)
    keys = document["chunk_key_encoding"]
    separator = keys.get("configuration", {}).get("separator", "." if keys["name"] == "v2" else "/")
    compare(name, "keys", lines.get("keys"), f"{keys['name']} with {separator}")
    names = json.loads(lines.get("dimension names", "null"))
    compare(name, "names of dimensions", names, document.get("dimension_names"))
    for key, shard in shards.items():
        if shard == "absent":
            compare(name, f"info of {key}", lines.get(key), None)
        elif shard["index"] == "ok":
            said = "{length} bytes, {present} present, {absent} absent, {dead} dead bytes".format(**shard)
            compare(name, f"info of {key}", lines.get(key), said)
        elif not lines.get(key, "").startswith(f"{shard['length']} bytes, refused: {INDEXES.get(shard['index'], '9 BadIndexEntry')}: "):
            bad.append(f"{name}: info of {key}: {lines.get(key)}")


def lines_of(ran):
    """The objects of an answer that is lines of JSON."""
    return [json.loads(line) for line in ran[1].decode().splitlines()]


def test_lines(program, name, path, shards):
    """What `info` tells in JSON, at once and in three parts."""
    told = {line["key"]: line for line in lines_of(run(program, "info", path, "--json")) if line["kind"] == "shard"}
    compare(name, "shards in JSON", sorted(told), sorted(key for key, shard in shards.items() if shard != "absent"))
    for key, line in told.items():
        wanted = shards[key]
        members = {it: wanted[it] for it in ("present", "absent", "dead")} if wanted["index"] == "ok" else {}
        compare(name, f"{key} in JSON", {it: line.get(it) for it in members}, members)
        compare(name, f"length of {key} in JSON", line["bytes"], wanted["length"])
        compare(name, f"refusal of {key} in JSON", "number" in line, wanted["index"] != "ok")
    parts = [run(program, "info", path, "--json", "--part", f"{part}/3") for part in (1, 2, 3)]
    dealt = [line["key"] for part in parts for line in lines_of(part) if line["kind"] == "shard"]
    compare(name, "shards of three parts", sorted(dealt), sorted(told))


def test_map(program, name, path, expected, is_decoded):
    """The marks of each shard's map, counted."""
    for key, shard in expected["shards"].items():
        if shard == "absent" or shard["index"] != "ok":
            continue
        out = run(program, "map", path, key)[1].decode()
        grid = out[out.index("refused\n") + 8 : out.index("0 to z slices")] if "0 to z slices" in out else ""
        hurt = sum(place == key for place, _, _ in expected["damaged"]) if is_decoded else 0
        wanted = (shard["present"] - hurt, shard["absent"], hurt)
        compare(name, f"map of {key}", tuple(grid.count(mark) for mark in "#.x"), wanted)


def test_extract(program, name, path, shards):
    """The bytes of each shard's first and last subchunk that is present, where `info` says that they lie."""
    for key, shard in shards.items():
        if shard == "absent" or shard["index"] != "ok":
            continue
        with open(f"{path}/{key}", "rb") as file:
            content = file.read()
        found = [line for line in lines_of(run(program, "info", path, key, "--json")) if line["kind"] == "subchunk"]
        compare(name, f"subchunks of {key}", len(found), shard["present"])
        for line in found[:1] + found[1:][-1:]:
            wanted = content[line["offset"] : line["offset"] + line["size"]]
            compare(name, f"subchunk {line['number']} of {key}", run(program, "extract", path, key, str(line["number"])), (0, wanted, ""))


def test_filled(program, name, path, expected):
    """A read in which what is damaged has the fill value."""
    status, out, told = run(program, "read", path, "--raw", "--fill-damaged")
    cells = [expected["fill_value"] if cell is None else cell for cell in expected["cells"]]
    compare(name, "read with fill values", (status, out), (1, bytes_of(cells, expected["data_type"])))
    compare(name, "what is filled", told.count(": filled: "), len(expected["damaged"]))


def test_copy(program, name, path, shards):
    """A compacted copy, which leaves the array as it is."""
    copy = f"{path}.copy"
    run(program, "compact", path, "--output", copy)
    for key, shard in shards.items():
        if shard != "absent":
            with open(f"{path}/{key}", "rb") as old, open(f"{copy}/{key}", "rb") as new:
                old, new = old.read(), new.read()
            compare(name, f"length of {key} behind a copy", len(old), shard["length"])
            wanted = shard["compacted_sha256"] or hashlib.sha256(old).hexdigest()
            compare(name, f"{key} copied", hashlib.sha256(new).hexdigest(), wanted)
    with open(f"{path}/zarr.json", "rb") as old, open(f"{copy}/zarr.json", "rb") as new:
        compare(name, "zarr.json copied", new.read(), old.read())
    refused(name, "compact into an array", run(program, "compact", path, "--output", copy))


def words(shape):
    return ",".join(map(str, shape))


def whole(program, path, data_type):
    """All elements of an array, as far as they are read: as a checksum of their bytes, or as JSON where they have lengths of their own."""
    if data_type in VARYING:
        status, out, told = run(program, "read", path, "--json")
        return status, out and json.loads(out)["cells"], told
    status, out, told = run(program, "read", path, "--raw")
    return status, hashlib.sha256(out).hexdigest(), told


def layouts_of(chunk, part):
    """Three other layouts of an array, and two with shards and subchunks as they were; of one that has no axis only what has no shape."""
    if not chunk:
        return [["--inner", "zstd", "--index", "start"], ["--inner", "crc32c", "--no-crc32c"], ["--index", "end", "--crc32c"]]
    rows = [1] * (len(chunk) - 1) + chunk[-1:]
    return [
        ["--subchunk", words(chunk), "--inner", "none", "--index", "start", "--no-crc32c"],
        ["--shard", words(chunk), "--subchunk", words(rows), "--inner", "zstd", "--order", "morton"],
        ["--shard", words([3 * size for size in part]), "--subchunk", words(part), "--inner", "gzip", "--index", "end", "--crc32c"],
        ["--shard", words(chunk), "--subchunk", words(part), "--inner", "crc32c"],
        ["--shard", words(chunk), "--subchunk", words(rows), "--inner", "zlib"],
        ["--shard", words(chunk), "--subchunk", words(part), "--inner", "none"],
    ]


def test_reshard(program, name, path, expected):
    """The array in other layouts, one made of the other, and back to its own: the elements stay."""
    data_type, old = expected["data_type"], path
    cells = [as_json(cell, data_type) for cell in expected["cells"]] if data_type in VARYING else expected["raw_sha256"]
    for number, layout in enumerate(layouts_of(expected["chunk_shape"], expected["subchunk_shape"])):
        new = f"{path}.{number}"
        compare(name, f"reshard {layout}", run(program, "reshard", old, new, *layout)[::2], (0, ""))
        compare(name, f"elements of {layout}", whole(program, new, data_type), (0, cells, ""))
        compare(name, f"text of {layout}", run(program, "read", new), run(program, "read", path))
        compare(name, f"comparison of {layout}", run(program, "compare", path, new)[:2], (0, b"no element differs\n"))
        compare(name, f"check of {layout}", run(program, "check", new)[0], 0)
        old = new


def test_reshard_damaged(program, name, path, expected):
    """An array of which something is damaged is not laid out anew: the first shard that is, is told, and nothing is left."""
    new = f"{path}.new"
    status, out, told = run(program, "reshard", path, new)
    keys = [place[0] for place in expected["damaged"]]
    compare(name, "reshard of what is damaged", (status, out, any(told.startswith(f"zarr_shard: {key}: ") for key in keys)), (1, b"", True))
    compare(name, "what is left of it", [os.path.exists(new + end) for end in ("", ".partial")], [False] * 2)


def test_write(program, name, path, expected):
    """The array made anew by `create` and `write`, and a subset of it written over."""
    with open(f"{path}/zarr.json", encoding="utf-8") as text:
        document = json.load(text)
    shape, new, file = expected["shape"], f"{path}.made", f"{path}.raw"
    if not isinstance(document["data_type"], str):
        return
    shapes = ["--shape", words(shape), "--shard", words(expected["chunk_shape"]), "--subchunk", words(expected["subchunk_shape"])]
    made = run(program, "create", new, *shapes, "--type", document["data_type"], "--fill", json.dumps(document["fill_value"]))
    compare(name, "create", made, (0, b"", ""))
    whole = run(program, "read", path, "--raw")[1]
    compare(name, "what is to be written", hashlib.sha256(whole).hexdigest(), expected["raw_sha256"])
    write(program, name, new, file, [], whole)
    compare(name, "what was written", run(program, "compare", path, new), (0, b"no element differs\n", ""))
    update(program, name, new, expected, whole)
    compare(name, "check of what was written", run(program, "check", new)[::2], (0, ""))


def update(program, name, path, expected, whole):
    """A subset of the array, whose elements are these, written over by chance: the other elements stay."""
    shape, size, dice = expected["shape"], len(whole) // max(len(expected["cells"]), 1), random.Random(name)
    starts, ends, subset = by_chance(shape, dice)
    places, cells = numbers(shape, starts, ends), [whole[place * size : (place + 1) * size] for place in range(len(expected["cells"]))]
    new = [cells[-1 - place] for place in places]
    write(program, name, path, f"{path}.raw", [subset] if shape else [], b"".join(new))
    for place, cell in zip(places, new):
        cells[place] = cell
    compare(name, f"elements behind a write of {subset}", run(program, "read", path, "--raw"), (0, b"".join(cells), ""))


def write(program, name, path, file, subset, content):
    with open(file, "wb") as raw:
        raw.write(content)
    compare(name, f"write of {subset}", run(program, "write", path, *subset, "--raw", file)[::2], (0, ""))


def test_check(program, name, path, expected, is_decoded):
    status, out, told = run(program, "check", path)
    found = set()
    for line in out.decode().splitlines():
        place = re.match(r"(\S+): \d+ \w+: (?:the index|the file|subchunk (\d+))", line)
        if place:
            found.add((place[1], int(place[2]) if place[2] else "index"))
    wanted = {(key, number) for key, number, _ in expected["damaged"]}
    if is_decoded:
        compare(name, "refusals of check", found, wanted)
        compare(name, "status of check", (status, told), (1 if wanted else 0, ""))
    elif not any(number == "index" for _, number in wanted):
        present = sum(shard["present"] for shard in expected["shards"].values() if shard != "absent")
        said = f"{present} subchunk{'s' if present > 1 else ''} not looked into: the codec " in out.decode() + told
        compare(name, "check of what is not looked into", (status, said), (2 if present else 0, bool(present)))


def test_compact(program, name, path, shards):
    were = {}
    for key, shard in shards.items():
        if shard != "absent":
            with open(f"{path}/{key}", "rb") as file:
                were[key] = file.read()
    run(program, "compact", path)
    for key, old in were.items():
        with open(f"{path}/{key}", "rb") as file:
            new = file.read()
        wanted = shards[key]["compacted_sha256"] or hashlib.sha256(old).hexdigest()
        compare(name, f"{key} compacted", hashlib.sha256(new).hexdigest(), wanted)


def by_chance(shape, dice):
    """A subset of a shape: where it starts, where it ends, and how it is written."""
    starts = [dice.randrange(length) if length else 0 for length in shape]
    ends = [dice.randrange(start, length) + 1 if length else 0 for start, length in zip(starts, shape)]
    return starts, ends, ",".join(f"{start}..{end}" for start, end in zip(starts, ends))


def test_subsets(program, name, path, expected, whole):
    """Eight subsets by chance, of an array whose elements have these bytes."""
    shape, size, dice = expected["shape"], len(whole) // max(len(expected["cells"]), 1), random.Random(f"{name}, read")
    for _ in range(8 if shape else 0):
        starts, ends, subset = by_chance(shape, dice)
        wanted = b"".join(whole[place * size : (place + 1) * size] for place in numbers(shape, starts, ends))
        compare(name, f"read of {subset}", run(program, "read", path, subset, "--raw"), (0, wanted, ""))


def boxes(expected):
    """The subchunks of an array, as subsets, each with its cells."""
    shape, part = expected["shape"], expected["subchunk_shape"]
    starts = [()]
    for length, size in zip(shape, part):
        starts = [(*start, place) for start in starts for place in range(0, length, size)]
    for start in starts:
        ends = [min(place + size, length) for place, size, length in zip(start, part, shape)]
        cells = [expected["cells"][number] for number in numbers(shape, start, ends)]
        yield ",".join(f"{a}..{b}" for a, b in zip(start, ends)), cells


def numbers(shape, starts, ends):
    found = [0]
    for length, start, end in zip(shape, starts, ends):
        found = [number * length + place for number in found for place in range(start, end)]
    return found


def is_raw(data_type):
    return bool(re.fullmatch(r"r\d+", data_type))


def bytes_of(cells, data_type):
    if is_raw(data_type):
        return b"".join(map(bytes.fromhex, cells))
    form = FORMATS[data_type]
    if len(form) == 2:
        return b"".join(struct.pack("<" + form, *map(float, cell)) for cell in cells)
    return b"".join(struct.pack("<" + form, cell if form not in "efd" else float(cell)) for cell in cells)


def test_read(program, name, path, expected, is_read):
    ran = run(program, "read", path, "--raw")
    if not is_read:
        refused(name, "read", ran)
    elif not expected["damaged"]:
        compare(name, "status of read", (ran[0], ran[2]), (0, ""))
        compare(name, "bytes read", hashlib.sha256(ran[1]).hexdigest(), expected["raw_sha256"])
        test_subsets(program, name, path, expected, ran[1])
    else:
        compare(name, "status of read", (ran[0], ran[1]), (1, b""))
        for subset, cells in boxes(expected):
            status, out, _ = run(program, "read", path, subset, "--raw")
            if None in cells:
                compare(name, f"read of {subset}", (status, out), (1, b""))
            else:
                compare(name, f"read of {subset}", (status, out), (0, bytes_of(cells, expected["data_type"])))


def test_json(program, name, path, expected):
    status, out, _ = run(program, "read", path, "--json")
    told = json.loads(out) if status == 0 else {}
    cells = told.get("cells")
    compare(name, "data type in JSON", told.get("data_type"), expected["data_type"])
    if is_raw(expected["data_type"]):
        compare(name, "elements in JSON", cells, [list(bytes.fromhex(cell)) for cell in expected["cells"]])
        lines = run(program, "read", path)[1].decode().split()
        compare(name, "elements as text", lines, ["0x" + cell for cell in expected["cells"]])
    elif len(FORMATS[expected["data_type"]]) == 2:
        both = [[[str(float(part)) for part in cell] for cell in these] for these in (cells or [], expected["cells"])]
        compare(name, "elements in JSON", both[0], both[1])
        lines = [line[1:-1].split(",") for line in run(program, "read", path)[1].decode().split()]
        compare(name, "elements as text", [[str(float(part)) for part in cell] for cell in lines], both[1])
    elif expected["data_type"] in FORMATS and FORMATS[expected["data_type"]] in "fd":
        both = [[str(float(cell)) for cell in part] for part in (cells or [], expected["cells"])]
        compare(name, "elements in JSON", both[0], both[1])
    elif expected["data_type"] in FORMATS and FORMATS[expected["data_type"]] in "bBhHiIqQ" and "float" not in expected["data_type"]:
        wanted = [-(2**63) if cell == "NaT" else cell for cell in expected["cells"]]
        compare(name, "elements in JSON", cells, wanted)


def as_json(cell, data_type):
    return cell if data_type == "string" else list(bytes.fromhex(cell))


def test_varying(program, name, path, expected):
    """Elements that have lengths of their own: as JSON, whole and subchunk by subchunk, as text, by one thread, and nothing else."""
    data_type, shape = expected["data_type"], expected["shape"]
    wanted = [as_json(cell, data_type) for cell in expected["cells"]]
    for jobs in ((), ("-j", "1")):
        ran = run(program, "read", path, "--json", *jobs)
        compare(name, "elements in JSON", (ran[0], ran[1] and json.loads(ran[1]), ran[2]), (0, {"cells": wanted, "data_type": data_type, "shape": shape}, ""))
    for subset, cells in boxes(expected):
        out = run(program, "read", path, subset, "--json")[1]
        compare(name, f"elements of {subset}", out and json.loads(out)["cells"], [as_json(cell, data_type) for cell in cells])
    lines = run(program, "read", path)[1].decode().splitlines()
    row = shape[-1]
    shown = [shown_text(cell) if data_type == "string" else "0x" + cell for cell in expected["cells"]]
    compare(name, "elements as text", lines, [" ".join(shown[at : at + row]) for at in range(0, len(shown), row)])
    compare(name, "compare", run(program, "compare", path, path), (0, b"no element differs\n", ""))
    for words in (["read", path, "--raw"], ["read", path, "--npy", f"{path}.npy"], ["write", path, "--raw", f"{path}/zarr.json"]):
        status, out, told = run(program, *words)
        compare(name, words[0], (status, out, "have lengths of their own" in told), (2, b"", True))
    compare(name, "what is left", os.path.exists(f"{path}.npy"), False)


def shown_text(text):
    """A text between quotes, as docs/CLI.md says that a terminal is shown it."""
    escapes = {'"': '\\"', "\\": "\\\\", "\n": "\\n", "\r": "\\r", "\t": "\\t"}
    return '"' + "".join(escapes.get(c) or (c if ord(c) >= 32 and ord(c) != 127 else f"\\u{{{ord(c):x}}}") for c in text) + '"'


def take_as_shards(expected):
    """Chunks that are no shards: each is one subchunk, whose bytes are the file's, and is never compacted."""
    expected["subchunk_shape"] = expected["chunk_shape"]
    for shard in expected["shards"].values():
        if shard != "absent":
            shard.update(index="ok", present=1, absent=0, dead=0, compacted_sha256=None)


def test_array(program, name, folder, expected):
    path = f"{folder}/{name}"
    os.makedirs(os.path.dirname(path), exist_ok=True)
    shutil.copytree(f"{ARRAYS}/{name}", path)
    if expected["index_codecs"] is None and expected["inner_codecs"] in SERVED:
        take_as_shards(expected)
    is_transposed = expected["before_sharding"] == ["transpose"]
    if expected["zarr_format"] != 3 or expected["subchunk_shape"] is None or expected["before_sharding"] and not is_transposed:
        for command in ("info", "check", "read", "compact"):
            refused(name, command, run(program, command, path))
        return False
    is_decoded = expected["inner_codecs"] in SERVED and not is_transposed
    is_read = is_decoded and (expected["data_type"] in FORMATS or is_raw(expected["data_type"]))
    test_info(program, name, path, expected["shards"])
    test_check(program, name, path, expected, is_decoded)
    is_varying = is_decoded and expected["data_type"] in VARYING
    if is_varying:
        test_varying(program, name, path, expected)
    else:
        test_read(program, name, path, expected, is_read)
    if is_read and not expected["damaged"]:
        test_json(program, name, path, expected)
    elif is_read:
        test_filled(program, name, path, expected)
    test_lines(program, name, path, expected["shards"])
    test_map(program, name, path, expected, is_decoded)
    test_extract(program, name, path, expected["shards"])
    test_copy(program, name, path, expected["shards"])
    if (is_read or is_varying) and not expected["damaged"]:
        test_reshard(program, name, path, expected)
    elif is_read:
        test_reshard_damaged(program, name, path, expected)
    if is_read and not expected["damaged"]:
        test_write(program, name, path, expected)
    test_compact(program, name, path, expected["shards"])
    if is_varying:
        test_varying(program, name, path, expected)
    elif not expected["damaged"]:
        test_read(program, name, path, expected, is_read)
    if is_read and not expected["damaged"]:
        update(program, name, path, expected, run(program, "read", path, "--raw")[1])
    return is_read or is_varying


def main(program):
    arrays, read = 0, 0
    with tempfile.TemporaryDirectory() as folder:
        for file in sorted(os.listdir(ARRAYS)):
            if not file.endswith(".expected.json"):
                continue
            name = file[: -len(".expected.json")]
            with open(f"{ARRAYS}/{file}", encoding="utf-8") as text:
                expected = json.load(text)
            if expected.get("node_type") == "group":
                refused(name, "info", run(program, "info", f"{ARRAYS}/{name}"))
            members = expected["arrays"] if expected.get("node_type") == "group" else {"": expected}
            for member, wanted in (members or {}).items():
                arrays += 1
                read += test_array(program, f"{name}/{member}".rstrip("/"), folder, wanted)
    for line in bad:
        print(line)
    print(f"{arrays} arrays of other writers, of which {read} are read: {len(bad)} differences")
    return 1 if bad else 0


if __name__ == "__main__":
    sys.exit(main(os.path.abspath(sys.argv[1]) if len(sys.argv) > 1 else BUILT))
