"""Contents of many kinds and lengths, and the gzip files, zlib streams and zstd frames that other programs make of them."""
import gzip
import io
import random
import shutil
import struct
import subprocess
import zlib

# --- contents ---

LETTERS = bytes(min(number & -number, 64) + 33 if number else 97 for number in range(256))  # each seen half as often as the one before
NIBBLES = bytes(number & 15 for number in range(256))
EXPONENTS = bytes(0x3F + (number > 200) for number in range(256))


def zeros(dice, size):
    return bytes(size)


def noise(dice, size):
    return dice.randbytes(size)


def text(dice, size):
    words = [dice.randbytes(dice.randrange(1, 5)).hex() for _ in range(400)]
    return " ".join(dice.choices(words, [1 / (rank + 1) for rank in range(400)], k=size // 3 + 1)).encode()[:size]


def letters(dice, size):
    """Letters that are seen half as often each as the one before: a content of entropy alone."""
    return dice.randbytes(size).translate(LETTERS)


def columns(size, *parts):
    """Bytes of numbers, of which each part is one place."""
    found = bytearray(size + len(parts))
    for place, part in enumerate(parts):
        count = len(range(place, len(found), len(parts)))
        found[place :: len(parts)] = (part * (count // max(len(part), 1) + 1))[:count]
    return bytes(found[:size])


def slow(dice, size):
    """A byte that stays for a while, and then goes up or down by one."""
    found, value = [], 100
    while size > 0:
        steps = dice.randrange(1, 700)
        found.append(bytes([value]) * steps)
        size, value = size - steps, (value + dice.choice((-1, 1))) % 256
    return b"".join(found)


def uint16(dice, size):
    return columns(size, dice.randbytes(size // 2 + 1).translate(NIBBLES), slow(dice, size // 2 + 1))


def uint32(dice, size):
    count = size // 4 + 1
    return columns(size, dice.randbytes(count), dice.randbytes(count).translate(NIBBLES), slow(dice, count), b"\0")


def float64(dice, size):
    count = size // 8 + 1
    high = dice.randbytes(count)
    return columns(size, b"\0", b"\0", b"\0", b"\0", dice.randbytes(count), dice.randbytes(count), slow(dice, count), high.translate(EXPONENTS))


def runs(dice, size):
    """Runs of a byte each, of which many are short and some long."""
    found, left = [], size
    while left > 0:
        run = min(left, int(dice.paretovariate(0.7)))
        found.append(bytes([dice.randrange(256)]) * run)
        left -= run
    return b"".join(found)


def distant(dice, size):
    """Noise that comes again, from as far as a third of the content away."""
    return (dice.randbytes(size // 3 + 1) * 3)[:size]


def edited(dice, size):
    """A line that is written again and again, with a byte put in or left out each time, so that matches go on from a byte nearer or farther."""
    line, found = bytearray(dice.randbytes(min(size, 90) + 10)), b""
    while len(found) < size:
        place = dice.randrange(len(line))
        line[place : place + 1] = line[place : place + 1] * dice.choice((0, 2)) if len(line) > 10 else dice.randbytes(60)
        found += line * (1 + size // 200_000)
    return found[:size]


def mixed(dice, size):
    """Stretches of the other kinds."""
    kinds, found, left = [it for name, it in KINDS.items() if name != "mixed"], [], size
    while left > 0:
        part = min(left, dice.randrange(1, size // 4 + 2))
        found.append(dice.choice(kinds)(dice, part))
        left -= part
    return b"".join(found)


KINDS = {
    "zeros": zeros, "noise": noise, "text": text, "letters": letters, "uint16": uint16, "uint32": uint32, "float64": float64, "runs": runs,
    "distant": distant, "edited": edited, "mixed": mixed,
}


def length(dice, most):
    """A length from 0 on, of which each order of magnitude comes as often."""
    return int((most + 1) ** dice.random()) - dice.randrange(2)


def in_pieces(dice, content, most):
    """The pieces of a content, which may be empty."""
    ends = sorted(dice.randrange(len(content) + 1) for _ in range(dice.randrange(most)))
    return [content[start:end] for start, end in zip([0, *ends], [*ends, len(content)])]


def piped(words, content):
    """What a command makes of a content, or None if it refuses, as an old one does an option that it does not know."""
    ran = subprocess.run(words, input=content, capture_output=True, check=False)
    return None if ran.returncode else ran.stdout


def by_command(name, words, content):
    """The file that a command makes, if it makes one."""
    file = piped(words, content)
    if file is not None:
        yield name, file, content


# --- gzip files ---

FTEXT, FHCRC, FEXTRA, FNAME, FCOMMENT = 1, 2, 4, 8, 16


def deflated(content, level=6, window=15, memory=8, strategy=0):
    stream = zlib.compressobj(level, zlib.DEFLATED, -window, memory, strategy)
    return stream.compress(content) + stream.flush()


def member(content, stream, flags=0, extra=b"", name=b"", comment=b""):
    """A member whose header has the fields of its flags (RFC 1952, 2.3)."""
    header = b"\x1f\x8b\x08" + bytes([flags]) + b"\1\2\3\4\2\xff"
    header += struct.pack("<H", len(extra)) + extra if flags & FEXTRA else b""
    header += name + b"\0" if flags & FNAME else b""
    header += comment + b"\0" if flags & FCOMMENT else b""
    header += struct.pack("<H", zlib.crc32(header) & 0xFFFF) if flags & FHCRC else b""
    return header + stream + struct.pack("<II", zlib.crc32(content), len(content) & 0xFFFFFFFF)


def gzip_by_parameters(dice):
    """Each level, strategy, window and memory of zlib, on each kind."""
    for level in range(10):
        for strategy in range(5):
            for kind in dice.sample(sorted(KINDS), 6):
                content = KINDS[kind](dice, length(dice, 60_000))
                yield f"{kind} by zlib, level {level}, strategy {strategy}", member(content, deflated(content, level, strategy=strategy)), content
    for window in range(9, 16):
        for memory in range(1, 10):
            kind = dice.choice(sorted(KINDS))
            content = KINDS[kind](dice, length(dice, 100_000))
            yield f"{kind} by zlib, window {window}, memory {memory}", member(content, deflated(content, 9, window, memory)), content


def gzip_headers(dice):
    """Each set of fields in the header, with fields that are empty, short, and as long as they may be."""
    for flags in range(32):
        for size in (0, 1, 40, 65535):
            content = text(dice, dice.randrange(200))
            field = bytes(1 + byte % 255 for byte in dice.randbytes(size))
            file = member(content, deflated(content), flags, dice.randbytes(size), field, field[::-1])
            yield f"a header with flags {flags} and fields of {size} bytes", file, content


def dynamic(literals, distances, content):
    """A last block by the code lengths of its literals and distances, each of which takes four bits, without matches (RFC 1951, 3.2.7)."""
    counts = (len(literals) - 257, 5), (len(distances) - 1, 5), (15, 4), *[(0 if place < 3 else 4, 3) for place in range(19)]
    bits = "101" + "".join(f"{number:0{width}b}"[::-1] for number, width in counts) + "".join(f"{it:04b}" for it in [*literals, *distances])
    codes, number = {}, 0
    for width, symbol in sorted((width, symbol) for symbol, width in enumerate(literals) if width):
        number <<= width - len(codes[last]) if codes else 0
        codes[symbol], last, number = f"{number:0{width}b}"[-width:], symbol, number + 1
    bits += "".join(codes[symbol] for symbol in (*content, 256))
    return int(bits[::-1], 2).to_bytes((len(bits) + 7) // 8, "little")


def gzip_by_hand():
    """Blocks whose codes are just as many as their lengths allow, fewer and more, and that name few and many distances."""
    for one, other, end in ((1, 2, 2), (2, 2, 2), (3, 3, 1), (1, 1, 1), (1, 0, 2), (1, 0, 1), (15, 15, 15)):
        for distances in ([0], [1], [2], [1, 1], [1, 2], [1, 1, 1], [5] * 30, [5] * 31, [5] * 32, [5] * 30 + [1, 0], [15] * 30):
            literals = [0] * 257
            literals[97], literals[98], literals[256] = one, other, end
            content = b"abba" if other else b"aaa"
            yield member(content, dynamic(literals, distances, content))


def gzip_in_pieces(dice):
    """Streams that are flushed in each way, so that blocks are empty, short and of all kinds, and files of several members."""
    for how in (zlib.Z_PARTIAL_FLUSH, zlib.Z_SYNC_FLUSH, zlib.Z_FULL_FLUSH, zlib.Z_BLOCK):
        for kind, make in KINDS.items():
            content, stream = make(dice, length(dice, 60_000)), zlib.compressobj(dice.randrange(1, 10), zlib.DEFLATED, -15)
            made = b"".join(stream.compress(piece) + stream.flush(how) for piece in in_pieces(dice, content, 12)) + stream.flush()
            yield f"{kind} by zlib, flushed by {how}", member(content, made), content
    for count in range(2, 52):
        parts = [KINDS[dice.choice(sorted(KINDS))](dice, length(dice, 3000)) for _ in range(count)]
        yield f"{count} members", b"".join(gzip.compress(part, dice.randrange(10)) for part in parts), b"".join(parts)


def gzip_by_programs(dice):
    """Files by the command, and by Python's own writer, in the buffer of which a file is written piece by piece."""
    for kind, make in KINDS.items():
        for level in (1, 4, 6, 9) if shutil.which("gzip") else ():
            content = make(dice, length(dice, 200_000))
            words = ["gzip", "-c", f"-{level}", *(["--rsyncable"] if level == 6 else [])]
            yield from by_command(f"{kind} by the command gzip, level {level}", words, content)
        content, file = make(dice, length(dice, 200_000)), io.BytesIO()
        with gzip.GzipFile("a name", "wb", 9, file, 0) as writer:
            for piece in in_pieces(dice, content, 5):
                writer.write(piece)
        yield f"{kind} by Python's gzip", file.getvalue(), content


def gzip_files(seed):
    """Names of gzip files, the files, and their contents."""
    dice = random.Random(seed)
    for source in (gzip_by_parameters, gzip_headers, gzip_in_pieces, gzip_by_programs):
        yield from source(dice)
    for kind in ("text", "uint16", "float64", "zeros", "noise", "mixed"):
        content = KINDS[kind](dice, 10_000_000 if kind == "mixed" else 2_000_000)
        yield f"{kind}, long", gzip.compress(content, 4), content


def zlib_streams(size):
    """Streams of contents of a size, by each level, strategy and window, and these contents."""
    dice = random.Random(size)
    for level in range(10):
        for strategy in range(5):
            for kind in sorted(KINDS):
                content = KINDS[kind](dice, size)
                stream = zlib.compressobj(level, zlib.DEFLATED, dice.randrange(9, 16), dice.randrange(1, 10), strategy)
                yield stream.compress(content) + stream.flush(), content


# --- zstd frames ---

LEVELS = [-100, -20, -5, -1, *range(1, 23)]


def skippable(dice, size):
    """A skippable frame (RFC 8878, 3.1.2)."""
    return struct.pack("<II", 0x184D2A50 + dice.randrange(16), size) + dice.randbytes(size)


def flags(dice):
    return {"checksum": dice.randrange(2), "says_size": dice.randrange(2)}


def zstd_by_level(zstd, dice):
    for level in LEVELS:
        for kind, make in KINDS.items():
            for most in (300, 30_000) if level > 12 else (300, 30_000, 300_000):
                content = make(dice, length(dice, most))
                yield f"{kind} by libzstd, level {level}", zstd.frame(content, level=level, **flags(dice)), content


def zstd_by_parameters(zstd, dice):
    """Each strategy, with windows that are shorter than the content, and matches from three bytes on."""
    for strategy in range(1, 10):
        for window, kind in [(window, kind) for window in range(10, 20) for kind in ("edited", *dice.sample(sorted(KINDS), 3))]:
            content = KINDS[kind](dice, length(dice, 200_000))
            how = {"strategy": strategy, "window": window, "shortest": dice.randrange(3, 8), "search": dice.randrange(1, 6)}
            yield f"{kind} by libzstd, {how}", zstd.frame(content, **how, **flags(dice)), content
    for window in (20, 24, 27):
        content = distant(dice, 2_000_000)
        yield f"distant by libzstd, long, window {window}", zstd.frame(content, level=3, long=1, window=window), content


def zstd_in_pieces(zstd, dice):
    """Frames whose blocks end where pieces end, some of them empty: tables of one block are used again by the next."""
    for level in (-3, 1, 2, 3, 5, 7, 9, 12, 15, 19):
        for kind, make in KINDS.items():
            content = make(dice, length(dice, 60_000))
            yield f"{kind} by libzstd, in pieces, level {level}", zstd.streamed(in_pieces(dice, content, 20), level=level, **flags(dice)), content


def zstd_of_several(zstd, dice):
    """Frames one after the other, with skippable and empty ones between them."""
    for count in range(1, 61):
        file, contents = b"", []
        for _ in range(count):
            content = KINDS[dice.choice(sorted(KINDS))](dice, length(dice, 2000))
            file += skippable(dice, length(dice, 50)) if dice.randrange(3) == 0 else b""
            file += zstd.frame(content, level=dice.choice(LEVELS[:20]), **flags(dice))
            contents.append(content)
        yield f"{count} frames", file + (skippable(dice, 5) if count % 2 else b""), b"".join(contents)


def zstd_short(zstd, dice):
    """Each length from 0 on, of what has matches and what has none."""
    for size in range(64):
        for make in (letters, runs):
            content = make(dice, size)
            yield f"{size} bytes by libzstd", zstd.frame(content, level=19, **flags(dice)), content


def zstd_long(zstd, dice):
    for kind, level, size in (("mixed", 3, 20_000_000), ("uint16", 1, 8_000_000), ("text", 7, 3_000_000), ("float64", 5, 3_000_000), ("letters", 19, 1_000_000)):
        content = KINDS[kind](dice, size)
        yield f"{kind} by libzstd, level {level}, long", zstd.frame(content, level=level, checksum=1), content


def zstd_by_hand(dice):
    """Blocks without compression and of one byte, behind each form of the header (RFC 8878, 3.1.1.1)."""
    for descriptor in [it | bits for it in (0x00, 0x20, 0x40, 0x60, 0x80, 0xA0, 0xC0, 0xE0) for bits in (0, 1, 2, 3, 0x10)]:
        parts = [dice.randbytes(dice.randrange(400)) if dice.randrange(2) else dice.randbytes(1) * dice.randrange(400) for _ in range(3)]
        content = b"".join(parts) + bytes(256)
        single, size = descriptor & 0x20, (1 if descriptor & 0x20 else 0, 2, 4, 8)[descriptor >> 6]
        if size == 1:
            parts, content = [content[:200]], content[:200]
        else:
            parts.append(bytes(256))
        header = struct.pack("<IB", 0xFD2FB528, descriptor) + (b"" if single else b"\x10") + bytes((0, 1, 2, 4)[descriptor & 3])
        header += (len(content) - (256 if size == 2 else 0)).to_bytes(size, "little") if size else b""
        blocks = b""
        for number, part in enumerate(parts):
            is_run = len(set(part)) == 1
            blocks += (len(part) << 3 | is_run << 1 | (number == len(parts) - 1)).to_bytes(3, "little") + (part[:1] if is_run else part)
        yield f"a frame by hand, descriptor {descriptor}", header + blocks, content


COMMANDS = [
    "-1", "-2", "-3", "-5", "-9", "-13", "-16", "-19", "--ultra -20 --stream-size=40000", "--ultra -22 --stream-size=40000", "--fast=1", "--fast=3",
    "--fast=50", "-3 --long", "-3 --long=20", "-3 --no-check", "-T2 -4", "-3 --rsyncable", "-6 --zstd=wlog=10,strat=7", "-1 --no-compress-literals",
    "-1 --compress-literals", "-3 --target-compressed-block-size=2000",
]


def zstd_by_command(dice):
    for options in COMMANDS:
        for kind in dice.sample(sorted(KINDS), 3):
            content = KINDS[kind](dice, 40_000 if "stream" in options else length(dice, 100_000))
            yield from by_command(f"{kind} by the command zstd {options}", ["zstd", "-q", "-c", *options.split()], content)


def zstd_by_module(module, dice):
    """Frames by Python's module `zstandard`, which has a libzstd of its own."""
    for level in (-7, 1, 3, 6, 10, 19, 22):
        for kind, make in KINDS.items():
            content = make(dice, length(dice, 40_000))
            makes = module.ZstdCompressor(level=level, write_checksum=bool(dice.randrange(2)), write_content_size=bool(dice.randrange(2)))
            yield f"{kind} by the module zstandard, level {level}", makes.compress(content), content


def zstd_files(seed, zstd, module):
    """Names of zstd files, the files, and their contents: by libzstd, the command and Python's module, where these are there."""
    dice = random.Random(seed)
    yield from zstd_by_hand(dice)
    for source in (zstd_by_level, zstd_by_parameters, zstd_in_pieces, zstd_of_several, zstd_short, zstd_long) if zstd else ():
        yield from source(zstd, dice)
    yield from zstd_by_command(dice) if shutil.which("zstd") else ()
    yield from zstd_by_module(module, dice) if module else ()
