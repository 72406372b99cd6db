#!/usr/bin/env python3
"""Writes stars.csv and stars.parquet beside this file: a small catalogue over the whole sky with one dense clump.

Columns: id, _healpix_29 (the nested HEALPix pixel at order 29), cx, cy, cz (the unit vector in 10^-9). The Parquet file has
the same rows in two row groups, as optional 64-bit integers, uncompressed.
Standard library alone; the same seed gives the same bytes.
"""
import math
import os
import random
import struct

SEED = 29
WHOLE_SKY = 320
CLUMP = 100
CLUMP_RADIUS = math.radians(1.0)
NAMES = ["id", "_healpix_29", "cx", "cy", "cz"]
GROUP_ROWS = 250
ORDER = 29
NSIDE = 1 << ORDER


def spread(value):
    """The bits of a number at the even places."""
    return sum((value >> bit & 1) << 2 * bit for bit in range(ORDER))


def pixel_of(x, y, z):
    """The nested pixel of order 29 that holds a unit vector (Gorski et al. 2005, section 4)."""
    quarter = math.atan2(y, x) / (math.pi / 2) % 4
    if abs(z) <= 2 / 3:
        ascending = int(NSIDE * (0.5 + quarter - 0.75 * z))
        descending = int(NSIDE * (0.5 + quarter + 0.75 * z))
        a, d = ascending >> ORDER, descending >> ORDER
        face = a | 4 if a == d else a if a < d else d + 8
        column = descending & NSIDE - 1
        row = NSIDE - 1 - (ascending & NSIDE - 1)
    else:
        side = min(3, int(quarter))
        part = quarter - side
        width = NSIDE * math.sqrt(3 * (1 - abs(z)))
        ascending = min(NSIDE - 1, int(part * width))
        descending = min(NSIDE - 1, int((1 - part) * width))
        if z > 0:
            face, column, row = side, NSIDE - 1 - descending, NSIDE - 1 - ascending
        else:
            face, column, row = side + 8, ascending, descending
    return face << 2 * ORDER | spread(row) << 1 | spread(column)


def unit(x, y, z):
    length = math.sqrt(x * x + y * y + z * z)
    return x / length, y / length, z / length


def anywhere(rng):
    return unit(rng.gauss(0, 1), rng.gauss(0, 1), rng.gauss(0, 1))


def near(rng, centre):
    return unit(*(c + rng.gauss(0, CLUMP_RADIUS / 2) for c in centre))


# Thrift's compact protocol, of which a Parquet file's footer and page headers are made.

I32, I64, BINARY, LIST, STRUCT = 5, 6, 8, 9, 12


def varint(number):
    groups = bytearray()
    while number >= 128:
        groups.append(number & 127 | 128)
        number >>= 7
    groups.append(number)
    return bytes(groups)


def integer(number):
    return varint(number << 1 if number >= 0 else -number * 2 - 1)


def binary(text):
    return varint(len(text)) + text


def sequence(kind, items):
    head = bytes([len(items) << 4 | kind]) if len(items) < 15 else bytes([240 | kind]) + varint(len(items))
    return head + b"".join(items)


def record(*fields):
    """A struct of fields (id, kind, body), ascending by id."""
    out, last = b"", 0
    for number, kind, body in fields:
        out += bytes([number - last << 4 | kind]) + body
        last = number
    return out + b"\0"


def page(values):
    """A data page of optional numbers that are all there: one run of levels, then the numbers."""
    levels = varint(len(values) << 1) + b"\1"
    body = struct.pack("<I", len(levels)) + levels + struct.pack(f"<{len(values)}q", *values)
    data = record((1, I32, integer(len(values))), (2, I32, integer(0)), (3, I32, integer(3)), (4, I32, integer(3)))
    size = integer(len(body))
    return record((1, I32, integer(0)), (2, I32, size), (3, I32, size), (5, STRUCT, data)) + body


def parquet(rows):
    """A file of the rows, group after group, each column in one page."""
    out, groups = b"PAR1", []
    for first in range(0, len(rows), GROUP_ROWS):
        part, chunks = rows[first : first + GROUP_ROWS], []
        for column, name in enumerate(NAMES):
            place, body = len(out), page([row[column] for row in part])
            out += body
            meta = record(
                (1, I32, integer(2)),
                (2, LIST, sequence(I32, [integer(0), integer(3)])),
                (3, LIST, sequence(BINARY, [binary(name.encode())])),
                (4, I32, integer(0)),
                (5, I64, integer(len(part))),
                (6, I64, integer(len(body))),
                (7, I64, integer(len(body))),
                (9, I64, integer(place)),
            )
            chunks.append(record((2, I64, integer(place)), (3, STRUCT, meta)))
        groups.append(record((1, LIST, sequence(STRUCT, chunks)), (2, I64, integer(0)), (3, I64, integer(len(part)))))
    root = record((4, BINARY, binary(b"schema")), (5, I32, integer(len(NAMES))))
    leaves = [record((1, I32, integer(2)), (3, I32, integer(1)), (4, BINARY, binary(name.encode()))) for name in NAMES]
    footer = record(
        (1, I32, integer(1)),
        (2, LIST, sequence(STRUCT, [root] + leaves)),
        (3, I64, integer(len(rows))),
        (4, LIST, sequence(STRUCT, groups)),
    )
    return out + footer + struct.pack("<I", len(footer)) + b"PAR1"


def main():
    rng = random.Random(SEED)
    centre = anywhere(rng)
    stars = [anywhere(rng) for _ in range(WHOLE_SKY)] + [near(rng, centre) for _ in range(CLUMP)]
    rng.shuffle(stars)
    rows = [(number, pixel_of(*star), *(round(c * 10**9) for c in star)) for number, star in enumerate(stars, 1)]
    folder = os.path.dirname(os.path.abspath(__file__))
    with open(os.path.join(folder, "stars.csv"), "w", newline="") as out:
        out.write(",".join(NAMES) + "\n")
        for row in rows:
            out.write(",".join(map(str, row)) + "\n")
    with open(os.path.join(folder, "stars.parquet"), "wb") as out:
        out.write(parquet(rows))


if __name__ == "__main__":
    main()
