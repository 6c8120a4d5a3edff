#!/usr/bin/env python3
"""Writes the arrays `examples/heights` and `examples/damaged`, from the Zarr V3 specification and its codec `sharding_indexed`.

    python3 tools/example_array.py           writes both, and their copies in tests/commands
    python3 tools/example_array.py --check   compares them with what it would write; status 1 where a file differs

The element at [row, column] is 100 * row + column, but for a block of fill values (0). The first shard is what a writer
leaves that rewrote a subchunk: the new slice stands after the others, and the old one is still there, as dead bytes. The damaged
array is the same, except for one bit of the index of its second shard.
"""
import json
import os
import struct
import sys

TOP = os.path.dirname(os.path.dirname(os.path.abspath(__file__)))
PLACES = ["examples", "tests/commands/examples"]

SHAPE, SHARD, SUBCHUNK = (8, 12), (8, 6), (4, 3)
ABSENT = 2**64 - 1
NUMBERS = {"name": "bytes", "configuration": {"endian": "little"}}


def metadata():
    sharding = {
        "chunk_shape": SUBCHUNK,
        "codecs": [NUMBERS],
        "index_codecs": [NUMBERS, {"name": "crc32c"}],
        "index_location": "end",
    }
    return {
        "zarr_format": 3,
        "node_type": "array",
        "shape": SHAPE,
        "data_type": "uint16",
        "chunk_grid": {"name": "regular", "configuration": {"chunk_shape": SHARD}},
        "chunk_key_encoding": {"name": "default", "configuration": {"separator": "/"}},
        "fill_value": 0,
        "codecs": [{"name": "sharding_indexed", "configuration": sharding}],
        "dimension_names": ["row", "column"],
        "attributes": {"units": "m"},
    }


def crc32c(data):
    """The checksum of RFC 3720: polynomial 0x1EDC6F41, bits reversed, started and ended with all ones."""
    rest = 0xFFFFFFFF
    for byte in data:
        rest ^= byte
        for _ in range(8):
            rest = rest >> 1 ^ (0x82F63B78 if rest & 1 else 0)
    return struct.pack("<I", rest ^ 0xFFFFFFFF)


def subchunk(column, number):
    """The bytes of a subchunk, by its number in the grid of the shard whose first column is given."""
    row, column = number // 2 * SUBCHUNK[0], column + number % 2 * SUBCHUNK[1]
    elements = [100 * (row + r) + column + c for r in range(SUBCHUNK[0]) for c in range(SUBCHUNK[1])]
    return struct.pack(f"<{len(elements)}H", *elements)


def shard(column, old, order):
    """A shard: `old` bytes that nothing points to, the slices of some subchunks in this order, and the index."""
    data, index = old, [(ABSENT, ABSENT)] * 4
    for number in order:
        slice = subchunk(column, number)
        index[number] = (len(data), len(slice))
        data += slice
    index = b"".join(struct.pack("<QQ", *entry) for entry in index)
    return data + index + crc32c(index)


def files():
    text = (json.dumps(metadata(), indent=2) + "\n").encode()
    first = shard(0, struct.pack("<12H", *[9999] * 12), [1, 2, 0])
    second = shard(6, b"", [0, 1, 2, 3])
    offset = 96 + 16  # of the index entry of subchunk 1
    damaged = second[:offset] + bytes([second[offset] ^ 1]) + second[offset + 1 :]
    return {
        "heights/zarr.json": text,
        "heights/c/0/0": first,
        "heights/c/0/1": second,
        "damaged/zarr.json": text,
        "damaged/c/0/0": first,
        "damaged/c/0/1": damaged,
    }


def main():
    differs = False
    for place in PLACES:
        for name, data in files().items():
            path = f"{TOP}/{place}/{name}"
            if "--check" in sys.argv[1:]:
                if not os.path.isfile(path) or open(path, "rb").read() != data:
                    print(f"{place}/{name} is not what tools/example_array.py writes")
                    differs = True
                continue
            os.makedirs(os.path.dirname(path), exist_ok=True)
            with open(path, "wb") as file:
                file.write(data)
    return differs


if __name__ == "__main__":
    sys.exit(main())
