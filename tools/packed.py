#!/usr/bin/env python3
"""Compares what decodes and compresses gzip files, zlib streams and zstd files with other programs: whole files of each have the contents that they
were made of, damaged ones are refused or read as zlib and libzstd do, and what `zarr_shard` compresses is read by these and hardly longer than
theirs. Where zlib or libzstd takes another file, a slow decoder must name the rule of which docs/DECISIONS.md says so.

    python3 tools/packed.py [PROGRAM [LIBRARY]]   the program that the merge gate built and the C library that tools/library.py left, if no others are named
"""
import collections
import contextlib
import faulthandler
import gzip
import json
import os
import random
import resource
import shutil
import struct
import subprocess
import sys
import tempfile
import zlib

import packed_files
import packed_inflate
import packed_libzstd
import packed_reference
from packed_files import KINDS, flags, in_pieces, length, member, skippable
from packed_reference import Broken
from strangers import array, damaged, shard

TOP = os.path.dirname(os.path.dirname(os.path.abspath(__file__)))
BUILT = f"{TOP}/crates/zarr_shard/out/zarr_shard"
LIBRARY = f"{TOP}/out/libzarr_sharding.so"
MOST = 600  # seconds for a line of what is said
SPARE = 64_000_000  # bytes of address space while damaged files are decoded
ROOM_TOO_SMALL, OUT_OF_MEMORY = 64, 1
GZIP_LEVELS = 1, 6, 9  # by which the contents of the gzip files are compressed here; the longest ones not by the last, which takes long
bad = []


class Decoder:
    """A decoder of the C library: what it says of a file is its content, or the number of a refusal."""

    def __init__(self, module, name):
        self._module, self._call = module, getattr(module, name)

    def __call__(self, file, most):
        try:
            return bytes(self._call(file, most))
        except self._module.Refused as refused:
            return refused.status


def shown(file):
    return file.hex() if len(file) < 600 else f"{file[:300].hex()} and {len(file) - 300} bytes more"


def differ(text):
    """Notes what differs, and stops where that is too much to read."""
    bad.append(text)
    if len(bad) == 40:
        sys.exit("\n".join(bad))


def say(text):
    """Says how far this is. What comes next must end in time, or else where it hangs is shown."""
    print(text, flush=True)
    faulthandler.dump_traceback_later(MOST, exit=True)


# --- whole files ---


def whole(decode, files):
    """Files are decoded to their contents, and refused where the room is a byte too small. How many they were, and of how many bytes."""
    count = total = 0
    for name, file, content in files:
        found = decode(file, len(content))
        if found != content:
            differ(f"{name}, {len(content)} bytes: {found if isinstance(found, int) else 'another content'}: {shown(file)}")
        if content and len(content) < 1_000_000 and decode(file, len(content) - 1) != ROOM_TOO_SMALL:
            differ(f"{name}, {len(content)} bytes: taken into less room: {shown(file)}")
        count, total = count + 1, total + len(content)
    return count, total


def whole_streams(program, folder):
    """zlib streams in place of subchunks are read."""
    size = 3000
    streams, contents = zip(*packed_files.zlib_streams(size))
    array(f"{folder}/zlib", [size * len(streams)], [size * len(streams)], [size], {"name": "numcodecs.zlib", "configuration": {"level": 1}})
    shard(f"{folder}/zlib/0", streams, 0)
    ran = subprocess.run([program, "read", "--raw", f"{folder}/zlib"], capture_output=True, timeout=MOST, check=False)
    if ran.stdout != b"".join(contents):
        differing = [at for at, content in enumerate(contents) if ran.stdout[size * at : size * (at + 1)] != content]
        differ(f"zlib streams: {len(differing)} are read otherwise, {ran.stderr[:300]!r}: {shown(streams[differing[0]]) if differing else ''}")
    return len(streams)


# --- damaged files ---


class OneKind:
    """Files of one format, how they are decoded here and elsewhere, and by rules: which of them the other decoder alone asks for, and which it
    does not test."""

    def __init__(self, name, decode, other, by_rules, not_asked):
        self.name, self.decode, self.other, self._by_rules, self.not_asked = name, decode, other, by_rules, not_asked
        self.let_go = self.not_read = ()
        self.counts, self.rules = collections.Counter(), collections.Counter()

    def content(self, file, without=()):
        """The content of a file by the slow decoder, or the rule that it breaks."""
        try:
            return self._by_rules(file, without)
        except Broken as broken:
            return broken.args[0]

    def told(self, file):
        """What the slow decoder says of a file."""
        content = self.content(file)
        return f"against the rule that {content}" if isinstance(content, str) else f"by the rules {len(content)} bytes with the CRC-32 {zlib.crc32(content):08x}"


def by_chance(dice, file):
    """A file with a piece of it replaced, cut out, written twice or reversed."""
    start = dice.randrange(len(file))
    end = min(len(file), start + dice.randrange(1, 9))
    piece = file[start:end]
    return file[:start] + dice.choice((dice.randbytes(len(piece)), b"", piece * 2, piece[::-1])) + file[end:]


def try_damaged(kind, file, room, is_checked):
    """A damaged file, of which both decoders say the same, or one breaks a rule that is named."""
    ours, (theirs, why) = kind.decode(file, room), kind.other(file, room)
    if ours == OUT_OF_MEMORY:
        differ(f"{kind.name}: out of memory: {shown(file)}")
    elif isinstance(ours, int) and theirs is None:
        kind.counts["refused"] += 1
    elif ours == theirs:
        kind.counts["read"] += 1
        if is_checked and kind.content(file, kind.not_asked) != ours:
            differ(f"{kind.name}: read here and elsewhere, {kind.told(file)}: {shown(file)}")
    elif is_named(kind, file, ours, theirs):
        kind.counts["differing"] += 1
        kind.rules[kind.content(file)] += 1
    else:
        here = f"refused as {ours}" if isinstance(ours, int) else "read"
        differ(f"{kind.name}: {here} here, {why or 'read'} elsewhere, {kind.told(file)}: {shown(file)}")


def is_named(kind, file, ours, theirs):
    """Whether a file that the decoders differ on breaks a rule that one of them does not ask for, and has its content without that."""
    rule, is_refused = kind.content(file), isinstance(ours, int)
    content = kind.content(file, kind.let_go if is_refused else kind.not_asked)
    if is_refused:
        return rule in (*kind.let_go, *kind.not_read) and (content == theirs or content in kind.not_read)
    return rule in kind.not_asked and content == ours and theirs is None


def try_kind(kind, bases, tails, dice):
    """Files with each bit flipped, each length cut, bytes behind, and damage by chance, in little memory."""
    number = 0
    limited(SPARE)
    for file, size in bases:
        several = damaged(file) if len(file) < 300 else []
        several += [file + tail for tail in (b"", *tails, file, file[:9])] + [by_chance(dice, file) for _ in range(40)]
        for one in several:
            number += 1
            try_damaged(kind, one, 2 * size + 100, number % 40 == 0 or one == file and size < 3000)
    unlimited()


def told(kind, other):
    counts, rules = kind.counts, ", ".join(f"{count} where {rule}" for rule, count in sorted(kind.rules.items()))
    return (
        f"{sum(counts.values())} damaged {kind.name} files: {counts['refused']} are refused, {counts['read']} read as by {other}, and"
        f" {counts['differing']} otherwise, as they break a rule that is named: {rules or 'none'}"
    )


def gzip_elsewhere(file, most):
    """The content of a gzip file by zlib, or why there is none."""
    content = b""
    try:
        while file or not content:
            stream = zlib.decompressobj(31)
            content += stream.decompress(file, most + 1 - len(content))
            if not stream.eof or len(content) > most:
                return None, "too short or too long"
            file = stream.unused_data
            if not file:
                break
    except zlib.error as error:
        return None, str(error)
    return content, ""


def damaged_gzip(decode):
    dice, bases = random.Random(6), []
    for make in KINDS.values():
        for level, strategy in ((0, 0), (1, 0), (6, 0), (9, 0), (9, 2), (6, 4)):
            for most in (60, 400, 4000, 30_000):
                content = make(dice, dice.randrange(most // 8, most))
                announced = dice.choice((0, 0, 0, dice.randrange(32)))
                file = member(content, packed_files.deflated(content, level, strategy=strategy), announced, b"ab", b"name", b"said")
                bases.append((file if dice.randrange(6) else file + gzip.compress(b"behind", 9), len(content) + 6))
    kind = OneKind("gzip", decode, gzip_elsewhere, packed_inflate.gzip_content, packed_inflate.NOT_ASKED)
    for file in packed_files.gzip_by_hand():
        try_damaged(kind, file, 100, True)
    try_kind(kind, bases, (b"\0", b"\x1f", b"\x1f\x8b", bytes(8), gzip.compress(b""), gzip.compress(bytes(100_000))), dice)
    return told(kind, "zlib")


def damaged_zstd(decode, zstd):
    dice, bases = random.Random(7), []
    kind = OneKind("zstd", decode, zstd_elsewhere(zstd) if zstd else zstd_by_rules, packed_reference.zstd_content, packed_reference.NOT_ASKED)
    if zstd:
        bases += zstd_bases(zstd, dice)
        kind.let_go, kind.not_read = packed_reference.LET_GO, packed_reference.NOT_READ
    else:
        bases += [(file, len(content)) for _, file, content in packed_files.zstd_by_hand(dice)]
    try_kind(kind, bases, (b"\0", b"\x28", b"\x28\xb5\x2f\xfd", bytes(8), skippable(dice, 3), skippable(dice, 300)[:200]), dice)
    return told(kind, f"libzstd {zstd.version}" if zstd else "the rules alone")


def zstd_bases(zstd, dice):
    """Frames of few bytes with each kind of literals, table and block, and some of more; each with how long its content is."""
    for make in KINDS.values():
        for level in (-5, 1, 3, 6, 9, 19):
            for most in (60, 400, 2000, 30_000):
                content = make(dice, dice.randrange(most // 8, most))
                yield zstd.frame(content, level=level, **flags(dice)), len(content)
                yield zstd.streamed(in_pieces(dice, content, 5), level=level, **flags(dice)), len(content)
    for distance in range(1021, 1029):
        content = dice.randbytes(distance) * 2
        file = zstd.streamed([content[start : start + 600] for start in range(0, len(content), 600)], level=3, says_size=0)
        yield file[:5] + b"\0" + file[6:], len(content)  # a window of 1024 bytes
    content = KINDS["text"](dice, 2000)
    yield zstd.frame(content, level=9, window=10), len(content)
    yield skippable(dice, 9) + zstd.frame(content[:50]) + zstd.frame(b"") + skippable(dice, 0) + zstd.frame(content[:300]), 350


def zstd_by_rules(file, most):
    try:
        content = packed_reference.zstd_content(file, packed_reference.NOT_ASKED)
    except Broken as broken:
        return None, broken.args[0]
    return (content, "") if len(content) <= most else (None, "too long")


def zstd_elsewhere(zstd):
    def content(file, most):
        try:
            return zstd.content(file, most), ""
        except packed_libzstd.Refused as refused:
            return None, str(refused)

    return content


# --- bombs ---


def limited(spare):
    """Lets this process take so many bytes of address space more, and no more."""
    with open("/proc/self/statm", encoding="ascii") as file:
        used = int(file.read().split()[0]) * resource.getpagesize()
    resource.setrlimit(resource.RLIMIT_AS, (used + spare, resource.getrlimit(resource.RLIMIT_AS)[1]))


def unlimited():
    most = resource.getrlimit(resource.RLIMIT_AS)[1]
    resource.setrlimit(resource.RLIMIT_AS, (most, most))


def bombs(gunzip, unzstd, zstd):
    """10 MB of zeros in few bytes have no room in 100 bytes, and take hardly any memory to find that."""
    stream, size = zlib.compressobj(9, zlib.DEFLATED, 31), 10_000_000
    file = b"".join(stream.compress(bytes(100_000)) for _ in range(size // 100_000)) + stream.flush()
    header = struct.pack("<IBB", 0xFD2FB528, 0, 0xF8)
    block, last = (100_000 << 3 | 2).to_bytes(3, "little") + b"\0", (100_000 << 3 | 3).to_bytes(3, "little") + b"\0"
    tried = [(gunzip, file), (unzstd, header + block * (size // 100_000) + last)]
    tried += [(unzstd, zstd.streamed([bytes(100_000)] * (size // 100_000), level=1))] if zstd else []
    for decode, file in tried:
        limited(1_000_000)
        found = decode(file, 100)
        unlimited()
        if found != ROOM_TOO_SMALL:
            differ(f"10 MB of zeros in {len(file)} bytes: {found}")


# --- what is written here ---


def levels(dice):
    """Codecs of metadata by which a content is compressed: those whose lengths are compared, and others by chance."""
    return [
        ("gzip", 1), ("gzip", 6), ("gzip", dice.randrange(10)), ("numcodecs.zlib", dice.randrange(10)), ("zstd", 1),
        ("zstd", dice.choice((-100, -5, -1, 0, 2, 3, 5, 8, 12))), ("zstd", dice.randrange(13, 23)),
    ]


def compressed(program, folder, content, name, configuration):
    """The file of an array whose only chunk is a content."""
    path = f"{folder}/compressed"
    os.makedirs(path, exist_ok=True)
    document = {
        "zarr_format": 3, "node_type": "array", "shape": [len(content)], "data_type": "uint8", "fill_value": (content[0] + 1) % 256,
        "chunk_grid": {"name": "regular", "configuration": {"chunk_shape": [len(content)]}}, "chunk_key_encoding": {"name": "v2"},
        "codecs": [{"name": "bytes"}, {"name": name, "configuration": configuration}],
    }
    with open(f"{path}/zarr.json", "w", encoding="utf-8") as file:
        json.dump(document, file)
    with contextlib.suppress(FileNotFoundError):
        os.remove(f"{path}/0")
    with open(f"{path}/raw", "wb") as file:
        file.write(content)
    subprocess.run([program, "write", path, "--raw", f"{path}/raw"], stdout=subprocess.DEVNULL, timeout=MOST, check=True)
    with open(f"{path}/0", "rb") as file:
        return file.read()


def readers(name, zstd, module):
    """What reads files of a codec elsewhere, each by its name: a call that gives the content."""
    if name == "gzip":
        found = {"Python's gzip": gzip.decompress}
    elif name == "zstd":
        found = {"libzstd": lambda file: zstd.content(file, 1 << 24)} if zstd else {}
        found.update({"the module zstandard": lambda file: module.ZstdDecompressor().decompress(file)} if module else {})
    else:
        found = {"zlib": zlib.decompress}
    if shutil.which(name):
        found[f"the command {name}"] = lambda file: packed_files.piped([name, "-d", "-c"], file)
    return found


def read_by(call, file):
    """The content of a file by another program, or what it refuses it with."""
    try:
        return call(file)
    except Exception as error:  # of each its own
        return repr(error)


def read_back(calls, file, content, how):
    """A file that is written here is read as its content by each of these calls."""
    for reader, call in calls.items():
        found = read_by(call, file)
        if found != content:
            said = found if isinstance(found, str) else "another content"
            differ(f"{len(content)} bytes {how}: {said} by {reader}: {shown(file)}")


def written(program, folder, zstd, module):
    """Contents of each kind, compressed at several levels, and read by others. How many files they were of each codec."""
    dice, counts = random.Random(8), collections.Counter()
    for kind, make in KINDS.items():
        for most in (20, 2000, 50_000, 300_000):
            content = make(dice, dice.randrange(most // 4, most) + 1)
            for name, level in levels(dice):
                configuration = {"level": level, **({"checksum": level % 2 == 0} if name == "zstd" else {})}
                file = compressed(program, folder, content, name, configuration)
                counts[name] += 1
                read_back(readers(name, zstd, module), file, content, f"of {kind} by {name}, level {level}")
    return ", ".join(f"{count} by {name}" for name, count in sorted(counts.items()))


def written_gzip(program, folder, files):
    """The content of each gzip file that was decoded, compressed at several levels: Python's gzip and zlib read the files, and `gzip -t`, in one
    call, takes them. How many they were, and of how many contents: all but that of no bytes, which no chunk has."""
    calls = {"Python's gzip": gzip.decompress, "zlib": lambda file: zlib.decompress(file, 31)}
    made, contents = f"{folder}/files", [content for content in dict.fromkeys(content for _, _, content in files) if content]
    os.mkdir(made)
    for number, content in enumerate(contents):
        for level in GZIP_LEVELS if len(content) < 1_000_000 else GZIP_LEVELS[:-1]:
            file = compressed(program, folder, content, "gzip", {"level": level})
            read_back(calls, file, content, f"of file {number}, level {level}")
            with open(f"{made}/{number}.{level}.gz", "wb") as out:
                out.write(file)
    names = os.listdir(made)
    if shutil.which("gzip"):
        ran = subprocess.run(["gzip", "-t", *names], cwd=made, capture_output=True, timeout=MOST, check=False)
        if ran.returncode:
            differ(f"gzip -t: {ran.stderr[:1000]!r}")
    return len(names), len(contents)


def lengths(program, folder, zstd):
    """Text and numbers are compressed to hardly more bytes than by others."""
    dice, rows = random.Random(9), []
    wanted = [("gzip", 6, 1.05), ("gzip", 1, 1.1), *([("zstd", 1, 1.15)] if zstd or shutil.which("zstd") else [])]
    for kind in ("text", "uint16", "uint32", "float64"):
        content = KINDS[kind](dice, 1_000_000)
        for name, level, most in wanted:
            size = len(compressed(program, folder, content, name, {"level": level, **({"checksum": False} if name == "zstd" else {})}))
            other = len(gzip.compress(content, level) if name == "gzip" else zstd.frame(content, level=level) if zstd else packed_files.piped(["zstd", "-1", "-c"], content))
            rows.append(f"{kind} {name} {level} {size / other:.3f}")
            if size > most * other:
                differ(f"{kind} by {name}, level {level}: {size} bytes, and {other} by another program")
    return "lengths beside those of zlib and libzstd: " + ", ".join(rows)


# --- all of them ---


def zstandard():
    """Python's module for zstd, or None."""
    try:
        import zstandard as module
    except ImportError:
        return None
    return module


def main(program, library):
    os.environ["ZARR_SHARDING"] = library
    sys.path.insert(0, f"{TOP}/python")
    import zarr_sharding

    gunzip, unzstd = Decoder(zarr_sharding, "gzip_decode"), Decoder(zarr_sharding, "zstd_decode")
    zstd, module = packed_libzstd.libzstd(), zstandard()
    missing = [name for name, is_there in (("libzstd.so.1", zstd), ("Python's module zstandard", module)) if not is_there]
    missing += [f"the command {name}" for name in ("gzip", "zstd") if not shutil.which(name)]
    say(f"not here, and so not tried: {', '.join(missing) or 'nothing'}")
    bombs(gunzip, unzstd, zstd)
    say(damaged_gzip(gunzip))
    say(damaged_zstd(unzstd, zstd))
    with tempfile.TemporaryDirectory(prefix="packed-") as folder:
        say(f"{whole_streams(program, folder)} zlib streams are read")
        files = list(packed_files.gzip_files(1))
        say("{} gzip files of {} bytes are decoded".format(*whole(gunzip, files)))
        say("{} zstd files of {} bytes are decoded".format(*whole(unzstd, packed_files.zstd_files(2, zstd, module))))
        say(f"files are written, and read by others: {written(program, folder, zstd, module)}")
        say("{} gzip files of {} of these contents are written, and read by others".format(*written_gzip(program, folder, files)))
        say(lengths(program, folder, zstd))
    say("\n".join(bad) or "each file is read as it must be")
    return bool(bad)


if __name__ == "__main__":
    here = [os.path.abspath(given) for given in sys.argv[1:]] + [BUILT, LIBRARY][len(sys.argv) - 1 :]
    for path, made_by in zip(here, ("the merge gate, `rt ci`", "tools/library.py")):
        if not os.path.isfile(path):
            sys.exit(f"{path}: is not there; {made_by}, leaves one")
    sys.exit(main(*here))
