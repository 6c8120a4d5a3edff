"""Shards of the arrays in tests/arrays whose subchunks gzip or zstd compressed, read by the module for Python, and decodings that are refused."""
import json
import os
import struct
import sys
import zlib

ARRAYS = {
    "ts_u16_gzip5": "H", "zp30_f32_zstd": "f", "zp31_i64_zstd_blocks": "q", "xr_f64_tiny_fill": "d", "hand_zstd_tables": "B",
}


def numbers_of(shape, start, counts):
    """The row-major numbers of a subset's elements, where the subset may pass the array: None of such an element."""
    found = [0]
    for length, first, count in zip(shape, start, counts):
        places = [place if place < length else None for place in range(first, first + count)]
        found = [None if number is None or place is None else number * length + place for number in found for place in places]
    return found


def try_array(zarr_sharding, folder, form):
    name = os.path.basename(folder)
    with open(f"{folder}.expected.json", encoding="utf-8") as file:
        expected = json.load(file)
    size, codec = struct.calcsize(form), expected["inner_codecs"][-1]
    decode = {"gzip": zarr_sharding.gzip_decode, "zstd": zarr_sharding.zstd_decode}[codec]
    chunk, subchunk = expected["chunk_shape"], expected["subchunk_shape"]
    layout = zarr_sharding.Layout(chunk, subchunk, size, crc32c=True)
    fill = bytes.fromhex(expected["fill_bytes"])
    tried = 0
    for key, shard in expected["shards"].items():
        if shard == "absent":
            continue
        with open(f"{folder}/{key}", "rb") as file:
            data = file.read()
        answer = bytearray(layout.answer_size(chunk))
        layout.read(
            lambda offset, count: data[offset : offset + count], len(data), [0] * len(chunk), chunk, answer,
            lambda slice: decode(slice, layout.answer_size(subchunk)), fill,
        )
        start = [int(place) * length for place, length in zip(key.split("/")[1:], chunk)]
        for position, number in enumerate(numbers_of(expected["shape"], start, chunk)):
            if number is None:
                continue
            cell = expected["cells"][number]
            wanted = struct.unpack("<" + form, struct.pack("<" + form, float(cell) if form in "fd" else int(cell)))[0]
            found = struct.unpack_from("<" + form, answer, position * size)[0]
            if found != wanted and not (found != found and wanted != wanted):
                sys.exit(f"{name}: element {number} is {found}, not {wanted}")
        tried += 1
    return tried


def try_decodes(zarr_sharding, top):
    """How many shards were read and decodings refused."""
    tried = sum(try_array(zarr_sharding, f"{top}/tests/arrays/{name}", form) for name, form in ARRAYS.items())
    packed = zlib.compressobj(6, zlib.DEFLATED, 31)
    file = packed.compress(b"abcd" * 10) + packed.flush()
    if bytes(zarr_sharding.gzip_decode(file, 50)) != b"abcd" * 10:
        sys.exit("gzip_decode gives another content")
    for form, numbers in {"B": (1, 2), "h": (-2, 3, 500), "I": (), "q": (-5, 2**40), "d": (1.5, -0.25, 3e300)}.items():
        size, little, big = struct.calcsize(form), *(struct.pack(f"{order}{len(numbers)}{form}", *numbers) for order in "<>")
        found = [zarr_sharding.plain_decode(it, size, big_endian=it is big) for it in (little, big)]
        if found != [little, little] or zarr_sharding.plain_decode(little, size, big_endian=True) != big:
            sys.exit(f"plain_decode of {numbers}: {found}")
        tried += 1
    wanted = [
        (64, lambda: zarr_sharding.gzip_decode(file, 39)), (15, lambda: zarr_sharding.gzip_decode(file[:-1], 40)),
        (12, lambda: zarr_sharding.plain_decode(b"", 0, big_endian=True)), (15, lambda: zarr_sharding.plain_decode(b"abc", 2, big_endian=False)),
        (15, lambda: zarr_sharding.zstd_decode(file, 40)), (15, lambda: zarr_sharding.zstd_decode(b"", 40)),
    ]
    for status, call in wanted:
        try:
            call()
        except zarr_sharding.Refused as refused:
            if refused.status != status:
                sys.exit(f"a decoding is refused as {refused.status}, not as {status}")
        else:
            sys.exit(f"a decoding is accepted that is refused as {status}")
    return tried + len(wanted)
