#!/usr/bin/env python3
"""Runs `zarr_shard` on folders that a repository cannot hold: a FIFO, a socket or a link to nothing in place of a file, a pipe that
nobody reads, a compaction that is killed, a shard of 1 GiB, a long index, another owner, 40,000 axes. Each command must end in time with
this status and sentence.

    python3 tools/strangers.py [PROGRAM]     the program that the merge gate built, if no other is named
"""
import contextlib
import gzip
import json
import os
import random
import re
import shutil
import signal
import socket
import struct
import subprocess
import sys
import tempfile
import zlib

TOP = os.path.dirname(os.path.dirname(os.path.abspath(__file__)))
BUILT = f"{TOP}/crates/zarr_shard/out/zarr_shard"
MOST = 10  # seconds
MOST_MEMORY = 40_000_000  # bytes
MIB = 1 << 20
GIB = 1 << 30
bad = []


def array(path, shape, chunk, subchunk, *compression):
    """An array of bytes, whose chunks are files in its folder: `0`, `1`, .."""
    os.makedirs(path)
    inner = [{"name": "bytes"}, *compression]
    index = {"name": "bytes", "configuration": {"endian": "little"}}
    shards = {"chunk_shape": subchunk, "codecs": inner, "index_codecs": [index]}
    metadata = {
        "zarr_format": 3,
        "node_type": "array",
        "shape": shape,
        "data_type": "uint8",
        "fill_value": 0,
        "chunk_grid": {"name": "regular", "configuration": {"chunk_shape": chunk}},
        "chunk_key_encoding": {"name": "v2"},
        "codecs": [{"name": "sharding_indexed", "configuration": shards}],
    }
    with open(f"{path}/zarr.json", "w", encoding="utf-8") as file:
        json.dump(metadata, file)


def shard(path, parts, dead):
    """A shard of subchunks with these bytes, of which dead ones stand before each."""
    with open(path, "wb") as file:
        index = b""
        for part in parts:
            file.write(b"\xee" * dead)
            index += struct.pack("<QQ", file.tell(), len(part))
            file.write(part)
        file.write(index)


def expect(words, status, text, **how):
    """Runs a command, which must end with this status and have this text in its output or its messages."""
    try:
        ran = subprocess.run(words, capture_output=True, timeout=MOST, stdin=subprocess.DEVNULL, **how)
    except subprocess.TimeoutExpired:
        bad.append(f"{words[1:]}: did not end in {MOST} s")
        return
    said = (ran.stdout + ran.stderr).decode(errors="replace")
    if ran.returncode != status or text not in said:
        bad.append(f"{words[1:]}: status {ran.returncode}, {said[:1000]!r}")


def strangers(program, top):
    """What is no regular file in the place of one."""
    array(f"{top}/fifo", [4], [4], [2])
    os.mkfifo(f"{top}/fifo/0")
    array(f"{top}/socket", [4], [4], [2])
    array(f"{top}/link", [4], [4], [2])
    os.symlink("nowhere", f"{top}/link/0")
    os.makedirs(f"{top}/fifo_metadata")
    os.mkfifo(f"{top}/fifo_metadata/zarr.json")
    os.makedirs(f"{top}/link_metadata")
    os.symlink("nowhere", f"{top}/link_metadata/zarr.json")
    os.symlink("nowhere", f"{top}/link_array")
    os.makedirs(f"{top}/socket_metadata")
    with socket.socket(socket.AF_UNIX) as one, socket.socket(socket.AF_UNIX) as two:
        one.bind(f"{top}/socket/0")
        two.bind(f"{top}/socket_metadata/zarr.json")
    for command in (["info"], ["check"], ["read"], ["compact"], ["compact", "--dry-run"]):
        expect([program, *command, f"{top}/fifo"], 2, "0: is a FIFO, not a regular file")
        expect([program, *command, f"{top}/socket"], 2, "0: is a socket, not a regular file")
        expect([program, *command, f"{top}/link"], 2, "0: is a link to nothing")
        expect([program, *command, f"{top}/link_metadata"], 2, "zarr.json: is a link to nothing")
        expect([program, *command, f"{top}/link_array"], 2, "link_array: is a link to nothing")
        expect([program, *command, f"{top}/fifo_metadata"], 2, "zarr.json: is a FIFO, not a regular file")
        expect([program, *command, f"{top}/socket_metadata"], 2, "zarr.json: is a socket, not a regular file")
    expect([program, "info", b"\xff"], 2, "an argument is not UTF-8")
    expect([program, "info", "no\x1bwhere\n"], 2, "no\\u{1b}where\\n: No such file")
    expect([program, "no\x1bwork"], 2, "no\\u{1b}work")


def places(value, path=()):
    """The places of the members and elements in a JSON value."""
    found = []
    items = value.items() if isinstance(value, dict) else enumerate(value) if isinstance(value, list) else ()
    for key, item in items:
        found += [(*path, key), *places(item, (*path, key))]
    return found


def changed(document, place, value):
    """A JSON value with another one at a place, or with none where that is `places` itself."""
    copy = json.loads(json.dumps(document))
    inner = copy
    for key in place[:-1]:
        inner = inner[key]
    if value is places:
        del inner[place[-1]]
    else:
        inner[place[-1]] = value
    return copy


def malformed_texts():
    """1,000 texts made from metadata that is served: each member and element left out or replaced, and the text cut or with a byte changed."""
    dice, texts = random.Random(3), []
    others = [places, None, True, -1, 0, 2**64, 1.5, "", "\u001bx", [], {}, [[]], {"name": "x"}, "0x" + "f" * 70, [1] * 70]
    for name in ("heights", "damaged"):
        with open(f"{TOP}/examples/{name}/zarr.json", encoding="utf-8") as file:
            whole = file.read()
        document = json.loads(whole)
        for place in places(document):
            texts += [json.dumps(changed(document, place, other)).encode() for other in others]
        for _ in range(400):
            at = dice.randrange(len(whole))
            texts.append(whole.encode()[:at])
            texts.append(whole.encode()[:at] + bytes([dice.randrange(256)]) + whole.encode()[at + 1 :])
    return dice.sample(sorted(set(texts)), 1000)


def malformed(program, top):
    """Metadata that is wrong in one place is refused in sentences, with nothing written, or it is served as it is."""
    path, served = f"{top}/malformed", 0
    os.makedirs(path)
    for text in malformed_texts():
        with open(f"{path}/zarr.json", "wb") as file:
            file.write(text)
        ran = subprocess.run([program, "info", path], capture_output=True, timeout=MOST, stdin=subprocess.DEVNULL)
        lines = ran.stderr.decode(errors="replace").splitlines()
        is_told = lines and all(it.isprintable() and len(it) < 600 for it in lines) and len(lines) < 10
        is_refused = ran.returncode == 2 and not ran.stdout and is_told
        is_served = ran.returncode == 0 and ran.stdout and not lines
        served += is_served
        if not is_refused and not is_served:
            bad.append(f"info of {text[:300]!r}: status {ran.returncode}, {ran.stderr[:600]!r}")
    if not 20 <= served <= 500:
        bad.append(f"{served} of 1000 malformed documents were served")


def closed(program, top):
    """A pipe whose reader is gone: the program ends silently, with the status of what was done."""
    array(f"{top}/large", [1000, 1000], [1000, 1000], [10, 10])
    with subprocess.Popen([program, "read", f"{top}/large"], stdout=subprocess.PIPE, stderr=subprocess.PIPE) as ran:
        ran.stdout.readline()
        ran.stdout.close()
        said = ran.stderr.read()
        if ran.wait(MOST) not in (0, -signal.SIGPIPE) or said:
            bad.append(f"read into a closed pipe: status {ran.returncode}, {said!r}")


def closed_write(program, top):
    """A write that nobody reads of any more goes on: each shard is written, and the status is that of what was done."""
    path, count = f"{top}/unread", 2000
    array(path, [count], [1], [1])
    with open(f"{top}/unread.raw", "wb") as file:
        file.write(bytes(1 + number % 255 for number in range(count)))
    words = [program, "write", path, "--raw", f"{top}/unread.raw"]
    with subprocess.Popen(words, stdout=subprocess.PIPE, stderr=subprocess.PIPE) as ran:
        ran.stdout.close()
        said = ran.stderr.read()
        status = ran.wait(MOST)
    with open(f"{top}/unread.raw", "rb") as file:
        if status not in (0, -signal.SIGPIPE) or said or cells(program, path) != file.read():
            bad.append(f"write into a closed pipe: status {status}, {said!r}, or not all shards are written")


def cells(program, path):
    return subprocess.run([program, "read", "--raw", path], capture_output=True, timeout=MOST).stdout


def killed(program, top):
    """A compaction that is killed leaves each shard as it was or compacted, and at most one new file for each thread, which is named."""
    dice, path, size = random.Random(1), f"{top}/killed", 32768
    array(path, [32 * size], [size], [size // 2])
    shards = [[dice.randbytes(size // 2), dice.randbytes(size // 2)] for _ in range(32)]
    whole = b"".join(part for parts in shards for part in parts)
    for time in range(1, 15):
        jobs = 1 + time % 4
        for number, parts in enumerate(shards):
            shard(f"{path}/{number}", parts, 500)
        with contextlib.suppress(subprocess.TimeoutExpired):
            subprocess.run([program, "compact", path, "-j", str(jobs)], stdout=subprocess.DEVNULL, timeout=time * dice.random() / 100)
        left = [name for name in os.listdir(path) if name.endswith(".replacing")]
        if cells(program, path) != whole or len(left) > jobs:
            bad.append(f"a compaction by {jobs} threads that was killed: other cells, or too many new files: {left}")
        for name in left:
            for command in ("info", "check"):
                expect([program, command, path], 0, f"{name}, ")
        if left:
            expect([program, "compact", path], 2, f"{path}/{left[0]} stands there")
        for name in left:
            os.remove(f"{path}/{name}")
        expect([program, "compact", path], 0, "bytes saved in ")
        expect([program, "compact", path], 0, "0 bytes saved in 0 of 32 shards")
        if cells(program, path) != whole:
            bad.append("a compaction after one that was killed: other cells")


def resharded(program, top):
    """A `reshard` that is killed leaves the old array as it was, and the new one absent or whole; the next one says what is left."""
    dice, path, size = random.Random(2), f"{top}/old", 16384
    array(path, [16 * size], [size], [size // 4])
    for number in range(16):
        shard(f"{path}/{number}", [dice.randbytes(size // 4) for _ in range(4)], 3)
    whole, new = cells(program, path), f"{top}/new"
    layout = ["reshard", path, new, "--shard", str(3 * size), "--subchunk", str(size // 8), "--crc32c"]
    for time in range(1, 101):
        with contextlib.suppress(subprocess.TimeoutExpired):
            subprocess.run([program, *layout], stdout=subprocess.DEVNULL, timeout=time * dice.random() / 800)
        if os.path.exists(new):
            if cells(program, new) != whole:
                bad.append("a reshard that was killed left another array under the name")
            shutil.rmtree(new)
        if os.path.exists(f"{new}.partial"):
            expect([program, *layout], 2, f"{new}.partial: stands there; if no program writes it, remove it")
            shutil.rmtree(f"{new}.partial")
        if cells(program, path) != whole:
            bad.append("a reshard that was killed changed the old array")
    expect([program, *layout], 0, "6 shards: ")
    expect([program, *layout], 2, f"{new}: stands there already")
    expect([program, "compare", path, new], 0, "no element differs")
    with open(f"{new}/0", "r+b") as file:
        file.seek(5)
        file.write(bytes([whole[5] ^ 1]))
    expect([program, "compare", path, new], 1, f"1 element differs, at: 5\n{whole[5]}\n{whole[5] ^ 1}\n")
    with open(f"{path}/3", "r+b") as file:
        file.truncate(40)
    shutil.rmtree(new)
    expect([program, *layout], 1, "3: 7 ShardTooShort: the file is shorter than its index")
    if os.path.exists(new) or os.path.exists(f"{new}.partial"):
        bad.append("a reshard of a damaged array left something")


def written(program, top):
    """A `write` that is killed leaves each shard as it was or as it is to be, and at most one new file, which is named."""
    dice, path, size = random.Random(4), f"{top}/written", 4096
    array(path, [32 * size], [size], [size // 2])
    for number in range(32):
        shard(f"{path}/{number}", [dice.randbytes(size // 2), dice.randbytes(size // 2)], 0)
    old = cells(program, path)
    for time in range(1, 101):
        new = dice.randbytes(32 * size)
        with open(f"{top}/new.raw", "wb") as file:
            file.write(new)
        with contextlib.suppress(subprocess.TimeoutExpired):
            subprocess.run([program, "write", path, "--raw", f"{top}/new.raw"], stdout=subprocess.DEVNULL, timeout=time * dice.random() / 1000)
        found = cells(program, path)
        parts = [it[number * size : (number + 1) * size] for it in (old, new, found) for number in range(32)]
        if len(found) != len(new) or any(parts[64 + number] not in (parts[number], parts[32 + number]) for number in range(32)):
            bad.append("a write that was killed: a shard is neither as before nor as after")
        left = [name for name in os.listdir(path) if name.endswith(".replacing")]
        if len(left) > 1:
            bad.append(f"a write that was killed: more than one new file: {left}")
        for name in left:
            expect([program, "write", path, "--raw", f"{top}/new.raw"], 2, f"{path}/{name}: stands there; if no program writes it, remove it")
            os.remove(f"{path}/{name}")
        old = cells(program, path)
    expect([program, "write", path, "--raw", f"{top}/new.raw"], 0, "32 shards written")
    if cells(program, path) != new:
        bad.append("a write: other cells")
    with open(f"{path}/3", "r+b") as file:
        file.truncate(20)
    with open(f"{top}/new.raw", "wb") as file:
        file.write(bytes(range(10)))
    expect([program, "write", path, f"{3 * size}..{3 * size + 10}", "--raw", f"{top}/new.raw"], 1, "3: 7 ShardTooShort: the file is shorter")
    expect([program, "write", path, f"{2 * size}..{2 * size + 11}", "--raw", f"{top}/new.raw"], 2, "has 10 bytes of elements, and 11 are wanted")
    with open(f"{top}/new.raw", "wb") as file:
        file.write(new[3 * size : 4 * size])
    expect([program, "write", path, f"{3 * size}..{4 * size}", "--raw", f"{top}/new.raw"], 0, "1 shard written")
    if cells(program, path) != new:
        bad.append("a write of a shard that was damaged: other cells")


def compressed(program, top):
    """Subchunks that `reshard` compresses are files that zlib reads, and no longer than its own by more than a tenth and 10 bytes."""
    dice, count = random.Random(3), MIB // 2
    words = [dice.randbytes(dice.randrange(2, 9)).hex().encode() for _ in range(500)]
    contents = {
        "words": b" ".join(dice.choice(words) for _ in range(count))[:count],
        "random": dice.randbytes(count),
        "sevens": b"\7" * count,
        "numbers": b"".join(struct.pack("<H", (number // 3 + dice.randrange(8)) % 65536) for number in range(count // 2)),
    }
    for name, content in contents.items():
        old = f"{top}/{name}"
        array(old, [count], [count], [count])
        shard(f"{old}/0", [content], 0)
        for part, inner in ((256, "gzip"), (4096, "gzip"), (4096, "zlib"), (count, "gzip")):
            new = f"{old}.{part}.{inner}"
            expect([program, "reshard", old, new, "--subchunk", str(part), "--inner", inner], 0, "1 shard")
            expect([program, "compare", old, new], 0, "no element differs")
            with open(f"{new}/0", "rb") as file:
                whole = file.read()
            subchunks = count // part
            index = struct.unpack(f"<{2 * subchunks}Q", whole[-16 * subchunks :])
            for number in range(0, subchunks, max(1, subchunks // 64)):
                wanted = content[number * part : (number + 1) * part]
                offset, size = index[2 * number : 2 * number + 2]
                if offset == 2**64 - 1:
                    found, size = bytes(part), 0
                else:
                    found = zlib.decompress(whole[offset : offset + size], 31 if inner == "gzip" else 15)
                if found != wanted or size > 1.1 * len(gzip.compress(wanted, 5)) + 10:
                    bad.append(f"{name} in subchunks of {part} by {inner}: subchunk {number} has {size} bytes, or zlib reads it otherwise")


def told_at_once(program, top):
    """`check` by one thread prints a refusal as it comes: it stands there while a long shard is read."""
    path = f"{top}/told"
    array(path, [2 * GIB], [GIB], [GIB // 2])
    with open(f"{path}/0", "wb") as file:
        file.write(b"short")
    with open(f"{path}/1", "wb") as file:
        file.truncate(GIB)
        file.seek(0, os.SEEK_END)
        file.write(struct.pack("<4Q", 0, GIB // 2, GIB // 2, GIB // 2))
    with subprocess.Popen([program, "check", "-j", "1", path], stdout=subprocess.PIPE, text=True) as ran:
        first = ran.stdout.readline()
        ran.kill()
        rest = ran.stdout.read()
    if not first.startswith("0: 7 ShardTooShort") or rest:
        bad.append(f"check told {first!r}, and then {rest!r}")
    shutil.rmtree(path)


def expect_small(words, status, most=MOST_MEMORY):
    """Runs a command, which must end with this status and take so little memory."""
    with subprocess.Popen(words, stdout=subprocess.DEVNULL, stderr=subprocess.DEVNULL) as ran:
        _, how, used = os.wait4(ran.pid, 0)
        ran.returncode = os.waitstatus_to_exitcode(how)
    if ran.returncode != status or used.ru_maxrss * 1024 > most:
        bad.append(f"{words[1:]}: status {ran.returncode}, {used.ru_maxrss} KiB of memory")


def large(program, top):
    """A shard of 1 GiB with a dead byte, and metadata of 1 GiB: both take little memory."""
    path = f"{top}/long"
    array(path, [GIB], [GIB], [GIB // 2])
    with open(f"{path}/0", "wb") as file:
        file.truncate(GIB + 1)
        file.seek(0, os.SEEK_END)
        file.write(struct.pack("<4Q", 0, GIB // 2, GIB // 2 + 1, GIB // 2))
    expect_small([program, "compact", "--dry-run", path], 0)
    expect_small([program, "compact", path], 0)
    if os.path.getsize(f"{path}/0") != GIB + 32:
        bad.append("compact left a shard of 1 GiB with its dead byte")
    os.remove(f"{path}/0")
    os.truncate(f"{path}/zarr.json", GIB)
    expect_small([program, "info", path], 2)


def banded(program, top):
    """An array of 40 MB is read in bands of rows of shards, so that it takes little memory."""
    path, rows, row = f"{top}/banded", 40, 1_000_000
    array(path, [rows, row], [1, row], [1, row // 4])
    line = bytes(number % 251 for number in range(row))
    for number in range(rows):
        parts = [line[start : start + row // 4] for start in range(0, row, row // 4)]
        shard(f"{path}/{number}.0", [bytes([number]) + part[1:] for part in parts], 0)
    expect_small([program, "read", "--raw", path], 0, 64_000_000)


def cut_along_rows(program, top):
    """Bands that are cut along the last axis, at each index of the axes before it, have the elements, by one thread and by several."""
    dice, path, length = random.Random(7), f"{top}/deep", 400_000
    array(path, [2, 3, length], [1, 1, length], [1, 1, length // 4])
    rows = [dice.randbytes(length) for _ in range(6)]
    for number, row in enumerate(rows):
        parts = [row[start : start + length // 4] for start in range(0, length, length // 4)]
        shard(f"{path}/{number // 3}.{number % 3}.0", parts, 0)
    for jobs in "14":
        for first, last in ((0, length), (7, length - 1)):
            words = [path, f":,:,{first}..{last}", "-j", jobs]
            wanted = [row[first:last] for row in rows]
            raw = subprocess.run([program, "read", "--raw", *words], capture_output=True, timeout=MOST, check=False).stdout
            text = subprocess.run([program, "read", *words], capture_output=True, timeout=MOST, check=False).stdout
            lines = [bytes(map(int, line.split())) for line in text.split(b"\n") if line]
            if raw != b"".join(wanted) or lines != wanted:
                bad.append(f"read {' '.join(words[1:])} of bands that are cut along rows: other elements")


def alike(program, path):
    """Commands that go over shards say the same by three threads as by one."""
    for command in (["info"], ["info", "--json"], ["check"], ["map"], ["compact", "--dry-run"], ["compact", "--dry-run", "--json"]):
        one, several = (subprocess.run([program, *command, path, "-j", jobs], capture_output=True, timeout=MOST, check=False) for jobs in "13")
        if (one.returncode, one.stdout, one.stderr) != (several.returncode, several.stdout, several.stderr):
            bad.append(f"{' '.join(command)} by three threads says another thing than by one")


def joined(program, top):
    """The bands of that array have its elements, in each form the same by one thread and by several; a shard that is damaged in the last
    band stops the command behind the bands before it."""
    path, rows, row, whole = f"{top}/banded", 40, 1_000_000, b""
    line = bytes(number % 251 for number in range(row))
    for number in range(rows):
        for start in range(0, row, row // 4):
            whole += bytes([number]) + line[start + 1 : start + row // 4]
    for jobs in ("1", "3"):
        if subprocess.run([program, "read", "--raw", path, "-j", jobs], capture_output=True, timeout=MOST, check=False).stdout != whole:
            bad.append(f"read --raw -j {jobs} of several bands: other elements")
        expect([program, "read", "--npy", f"{top}/banded.npy", path, "-j", jobs], 0, "")
        with open(f"{top}/banded.npy", "rb") as file:
            if file.read()[-len(whole) :] != whole:
                bad.append(f"read --npy -j {jobs} of several bands: other elements")
        narrow = b"".join(whole[number * row + 249_998 : number * row + 250_003] for number in range(rows))
        text = "".join(" ".join(map(str, narrow[at : at + 5])) + "\n" for at in range(0, len(narrow), 5))
        expect([program, "read", path, ":,249998:250003", "-j", jobs], 0, text)
        expect([program, "check", path, "-j", jobs], 0, "40 shards, 160 subchunks: all sound")
    large = subprocess.run([program, "read", "--json", path, "17:40", "-j", "3"], capture_output=True, timeout=60, check=False).stdout
    if json.loads(large) != {"cells": list(whole[17 * row :]), "data_type": "uint8", "shape": [23, row]}:
        bad.append("read --json of several bands: other elements")
    expect([program, "read", path, "-j", "0"], 2, "0 is none of the words that can stand there")
    alike(program, path)
    os.truncate(f"{path}/39.0", 10)
    for jobs in ("1", "3"):
        ran = subprocess.run([program, "read", "--raw", path, "-j", jobs], capture_output=True, timeout=MOST, check=False)
        if ran.returncode != 1 or b"39.0: 7 ShardTooShort" not in ran.stderr or ran.stdout != whole[: 38 * row]:
            bad.append(f"a read -j {jobs} whose last band is refused: status {ran.returncode}, {len(ran.stdout)} bytes, {ran.stderr!r}")
    expect([program, "read", "--npy", f"{top}/banded.npy", path], 1, "39.0: 7 ShardTooShort")
    if os.path.exists(f"{top}/banded.npy.replacing") or os.path.getsize(f"{top}/banded.npy") < len(whole):
        bad.append("a refused read into a file left a new one, or took the old one")
    os.truncate(f"{path}/5.0", 100)
    alike(program, path)
    array(f"{top}/boundless", [2**62], [1], [1])
    expect([program, "read", f"{top}/boundless"], 2, "the subset has more elements than this program can hold")


def indexed(program, top):
    """A shard of 2^20 subchunks, of which the last one is stored behind a dead byte: each command holds the index of 16 MiB once, but
    one that writes a new index four times."""
    path, count = f"{top}/indexed", MIB
    array(path, [16 * count], [16 * count], [16])
    with open(f"{path}/0", "wb") as file:
        file.write(b"\xee" + bytes(range(16)) + b"\xff" * (MIB - 16))
        for _ in range(15):
            file.write(b"\xff" * MIB)
        file.write(struct.pack("<QQ", 1, 16))
    last = f"{16 * count - 1}..{16 * count}"
    expect([program, "read", path, last], 0, "15")
    expect_small([program, "read", path, last], 0, 24_000_000)
    expect([program, "info", path], 0, f"0: {16 * count + 17} bytes, 1 present, {count - 1} absent, 1 dead bytes")
    for command in (["info"], ["check"], ["compact", "--dry-run"]):
        expect_small([program, *command, path], 0, 24_000_000)
    expect_small([program, "compact", path], 0, 74_000_000)
    if os.path.getsize(f"{path}/0") != 16 * count + 16:
        bad.append("compact left a shard with a long index and a dead byte")
    expect([program, "read", path, last], 0, "15")


def bombs(program, top):
    """Gzip files of 100 MiB of zeros in place of subchunks of four bytes: each is damaged, and takes no more memory than another one."""
    path, bomb = f"{top}/bombs", gzip.compress(bytes(100 * MIB), 9)
    array(path, [8], [8], [4], {"name": "gzip", "configuration": {"level": 9}})
    shard(f"{path}/0", [bomb, gzip.compress(b"abcd")], 0)
    expect([program, "check", path], 1, "0: 15 Damaged: subchunk 0 (elements 0..4) does not decode")
    expect_small([program, "check", path], 1, 24_000_000)
    expect([program, "read", path, "4..8"], 0, "97 98 99 100")
    expect_small([program, "read", path, "0..1"], 1, 24_000_000)
    # One inside another: what lies between is no subchunk, and may be longer, but not by as much.
    path, packs = f"{top}/bombs_again", {"name": "gzip", "configuration": {"level": 9}}
    array(path, [8], [8], [4], packs, packs)
    shard(f"{path}/0", [gzip.compress(gzip.compress(bytes(MIB))), gzip.compress(gzip.compress(b"abcd"))], 0)
    expect([program, "read", path, "4..8"], 0, "97 98 99 100")
    expect([program, "read", path, "0..1"], 1, "0: 15 Damaged: subchunk 0 (elements 0..4) does not decode")
    os.remove(f"{path}/0")
    shard(f"{path}/0", [bomb, gzip.compress(gzip.compress(b"abcd"))], 0)
    expect([program, "read", path, "4..8"], 0, "97 98 99 100")
    expect([program, "read", path, "0..1"], 2, "out of memory")
    expect_small([program, "read", path, "0..1"], 2, 24_000_000)


def unpacked(file, size):
    """The content of a gzip file by zlib, or nothing if it is damaged or of another size."""
    content = b""
    try:
        while file or not content:
            member = zlib.decompressobj(31)
            content += member.decompress(file, size + 1)
            if not member.eof:
                return None
            file = member.unused_data
    except zlib.error:
        return None
    return content if len(content) == size else None


def unpacked_stream(file, size):
    """The content of a zlib stream by zlib, or nothing if it is damaged, of another size, or bytes follow it."""
    stream = zlib.decompressobj()
    try:
        content = stream.decompress(file, size + 1)
    except zlib.error:
        return None
    return content if stream.eof and not stream.unused_data and len(content) == size else None


def damaged(file):
    """A file with each of its bits flipped, and cut after each of its bytes."""
    number = int.from_bytes(file, "little")
    flipped = [(number ^ 1 << bit).to_bytes(len(file), "little") for bit in range(8 * len(file))]
    return flipped + [file[:length] for length in range(len(file))]


def compare_damage(program, path, codec, files, contents):
    """Files in place of subchunks of 64 bytes: `check` names those that have no content by another reader, and all others are read."""
    size, wanted = 64, {number for number, content in enumerate(contents) if content is None}
    for name, parts in (("damaged", files), ("whole", [files[i] for i in range(len(files)) if i not in wanted])):
        array(f"{path}.{name}", [size * len(parts)], [size * len(parts)], [size], codec)
        shard(f"{path}.{name}/0", parts, 0)
    said = subprocess.run([program, "check", f"{path}.damaged"], capture_output=True, timeout=MOST, check=False).stdout.decode()
    named = {int(number) for number in re.findall(r"15 Damaged: subchunk (\d+) ", said)}
    if len(files) < 5000 or named != wanted:
        bad.append(f"{len(files)} files of {codec['name']}: check and zlib differ on {sorted(named ^ wanted)[:20]}")
    read = subprocess.run([program, "read", "--raw", f"{path}.whole"], capture_output=True, timeout=MOST, check=False).stdout
    if read != b"".join(content for content in contents if content is not None):
        bad.append(f"files of {codec['name']} that zlib reads are read otherwise")


def damaged_gzip(program, top):
    """Gzip files and zlib streams with each of their bits flipped, cut after each of their bytes, and with bytes behind: `check` names
    those that zlib refuses, and all others are read."""
    files, streams = [], []
    text = b"a subchunk of sixty-four bytes, of which some are written again."
    for content in (text, bytes(64), bytes(range(64)), random.Random(1).randbytes(64)):
        for level in (0, 1, 9):
            file, stream = gzip.compress(content, level, mtime=0), zlib.compress(content, level)
            files += damaged(file) + [file + tail for tail in (b"", b"\0", b"\x1f", b"\x1f\x8b", bytes(8), file, gzip.compress(b""))]
            streams += damaged(stream) + [stream + tail for tail in (b"", b"\0", b"x", stream)]
    compare_damage(program, f"{top}/gzip", {"name": "gzip", "configuration": {"level": 9}}, files, [unpacked(it, 64) for it in files])
    codec = {"name": "numcodecs.zlib", "configuration": {"level": 9}}
    compare_damage(program, f"{top}/zlib", codec, streams, [unpacked_stream(it, 64) for it in streams])


def owners(program, top):
    """A compaction keeps owner, group and permissions where the system lets it, and else says so. Only the superuser can try it."""
    if os.geteuid():
        return
    path = f"{top}/owners"
    array(path, [4], [4], [2])
    os.chmod(top, 0o711)
    refused = "0: this program may not give its new file the owner and group of the old one"
    for user, text, want in ((0, "0: 6 bytes saved", (1234, 4321, 0o664)), (2000, refused, (2000, 2000, 0o644))):
        shard(f"{path}/0", [b"ab", b"cd"], 3)
        os.chmod(f"{path}/0", 0o664)
        os.chown(f"{path}/0", 1234, 4321)
        os.chown(path, user, user)
        expect([program, "compact", path], 0, text, user=user, group=user, extra_groups=[])
        found = os.stat(f"{path}/0")
        kept = (found.st_uid, found.st_gid, found.st_mode & 0o777)
        if kept != want:
            bad.append(f"compact by user {user}: owner, group and permissions {kept}, wanted {want}")


def unsharded(program, top):
    """Chunks that are no shards: one that is whole, one too short, one too long, none, a folder, and one that unpacks to far more."""
    path = f"{top}/unsharded"
    array(path, [24], [4], [4])
    with open(f"{path}/zarr.json", encoding="utf-8") as text:
        document = json.load(text)
    zipped, document["codecs"] = document["codecs"], [{"name": "bytes"}]
    with open(f"{path}/zarr.json", "w", encoding="utf-8") as text:
        json.dump(document, text)
    for key, content in (("0", b"abcd"), ("1", b"abc"), ("2", b"abcde"), ("5", b"")):
        with open(f"{path}/{key}", "wb") as file:
            file.write(content)
    expect([program, "info", path], 0, "subchunks: none, since the chunks are no shards")
    expect([program, "check", path], 1, "4 shards: 3 are refused")
    for chunk in (1, 2, 5):
        elements = f"elements {4 * chunk}..{4 * chunk + 4}"
        expect([program, "check", path], 1, f"{chunk}: 15 Damaged: subchunk 0 ({elements}) does not decode")
        expect([program, "read", path, f"{4 * chunk}"], 1, f"{chunk}: 15 Damaged: subchunk 0 ({elements}) does not decode")
        expect([program, "reshard", path, f"{path}.new"], 1, "1: 15 Damaged: subchunk 0")
    expect([program, "read", path, "2..4"], 0, "99 100")
    expect([program, "read", path, "12..16"], 0, "0 0 0 0")
    os.mkdir(f"{path}/4")
    expect([program, "read", path, "16"], 2, "4: is a folder, not a regular file")
    document["codecs"] = [{"name": "bytes"}, {"name": "gzip", "configuration": {"level": 9}}]
    with open(f"{path}/zarr.json", "w", encoding="utf-8") as text:
        json.dump(document, text)
    with open(f"{path}/0", "wb") as file:
        file.write(gzip.compress(bytes(100 * MIB)))
    expect([program, "read", path, "0"], 1, "0: 15 Damaged: subchunk 0 (elements 0..4) does not decode")
    expect_small([program, "read", path, "0"], 1)
    for beside in ([{"name": "bytes"}, *zipped], [*zipped, {"name": "crc32c"}], ["transpose", *zipped, "crc32c"]):
        document["codecs"] = beside
        with open(f"{path}/zarr.json", "w", encoding="utf-8") as text:
            json.dump(document, text)
        expect([program, "info", path], 2, "in codecs: sharding_indexed is read where no other codec stands beside it")


def limits(program, top):
    """What would take long or much memory if it were done for each axis, each slice, each chunk, or for a whole answer at once."""
    many = [1] * 40_000
    array(f"{top}/axes", many, many, many)
    expect([program, "read", f"{top}/axes"], 2, "arrays of more than 64 axes are not read, and this has 40000")
    path = f"{top}/overlap"
    array(path, [4096 * MIB], [4096 * MIB], [MIB])
    with open(f"{path}/0", "wb") as file:
        file.write(bytes(MIB) + struct.pack("<2Q", 0, MIB) * 4096)
    for command in (["compact", "--dry-run"], ["compact"]):
        expect([program, *command, path], 0, f"0: {4095 * MIB} bytes longer if compacted: overlapping slices")
        expect_small([program, *command, path], 0, 24_000_000)
    if os.path.getsize(f"{path}/0") != MIB + 4096 * 16:
        bad.append("compact changed a shard whose slices overlap")
    array(f"{top}/absent", [400_000], [1], [1])
    expect_small([program, "read", f"{top}/absent"], 0, 24_000_000)
    array(f"{top}/streamed", [8000, 1000], [8000, 1000], [80, 10])
    expect_small([program, "read", "--json", f"{top}/streamed"], 0, 24_000_000)


if __name__ == "__main__":
    built = os.path.abspath(sys.argv[1]) if sys.argv[1:] else BUILT
    if not os.path.isfile(built):
        sys.exit(f"{built}: no such program; the merge gate, `rt ci`, leaves one there")
    signal.signal(signal.SIGPIPE, signal.SIG_IGN)
    with tempfile.TemporaryDirectory(prefix="strangers-") as folder:
        shutil.copyfile(built, f"{folder}/zarr_shard")
        os.chmod(f"{folder}/zarr_shard", 0o755)
        # The last four take memory of their own, and a command is said to take as much as the process that starts it.
        for case in (strangers, malformed, closed, closed_write, killed, resharded, written, told_at_once, large, banded, indexed, bombs, unsharded, owners, limits, damaged_gzip, compressed, joined, cut_along_rows):
            case(f"{folder}/zarr_shard", folder)
    print("\n".join(bad) or "each command ended as it must")
    sys.exit(bool(bad))
