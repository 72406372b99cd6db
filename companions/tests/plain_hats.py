#!/usr/bin/python3
"""A plain stand-in for hats: histogram, import and xmatch by the rules of the formats, in memory.

The tests make their catalogues, journals and matches with it, and try the companions with it where the variable HATS names no
program. It has no coverage test, no resuming and no refusals: what it is given has to be in order.
"""
import argparse
import csv
import os
import struct
import sys
from collections import Counter

import numpy
from astropy_healpix import neighbours

sys.path.insert(0, os.path.join(os.path.dirname(os.path.realpath(__file__)), ".."))
from shared import parquet

NAMES = ["_healpix_29", "id", "cx", "cy", "cz"]
ORDER = 29


def pixel(row, order):
    return row[0] >> 2 * (ORDER - order)


# Files.


def read_rows(path):
    """The rows (hp, id, x, y, z) of an input, in its order."""
    if path.endswith(".parquet"):
        return list(zip(*(read_columns(path)[name] for name in NAMES)))
    with open(path, newline="") as file:
        return [tuple(int(record[name]) for name in NAMES) for record in csv.DictReader(file)]


def read_columns(path):
    """The columns of a plain Parquet file, by name."""
    with open(path, "rb") as file:
        data = file.read()
    length = struct.unpack("<I", data[-8:-4])[0]
    footer = parquet.Reader(data[-8 - length : -8]).struct()
    columns = {leaf[4].decode(): [] for leaf in footer[2][1:]}
    for group in footer.get(4, []):
        for values, chunk in zip(columns.values(), group[1]):
            values += chunk_values(data, chunk[3])
    return columns


def chunk_values(data, meta):
    assert meta[1] == parquet.INT64 and meta[4] == parquet.UNCOMPRESSED and 11 not in meta
    values, at = [], meta[9]
    while len(values) < meta[5]:
        reader = parquet.Reader(data, at)
        head = reader.struct()
        assert head[1] == parquet.DATA_PAGE and head[2] == head[3] == 8 * head[5][1] and head[5][2] == parquet.PLAIN
        at = reader.at + head[2]
        values += numpy.frombuffer(data[reader.at : at], "<i8").tolist()
    assert at - meta[9] == meta[6] == meta[7]
    return values


def write_rows(path, rows):
    os.makedirs(os.path.dirname(path), exist_ok=True)
    writer = parquet.Writer(open(path, "wb"), NAMES)
    if rows:
        writer.add([numpy.array(column, "i8") for column in zip(*rows)])
    writer.close()


def write_text(path, text):
    os.makedirs(os.path.dirname(path) or ".", exist_ok=True)
    with open(path, "w") as file:
        file.write(text)


# A histogram.


def histogram(given):
    counts = Counter(pixel(row, given.order) for path in given.files for row in read_rows(path))
    for number, count in sorted(counts.items()):
        print(f"{number},{count}")


# An import.


def partitions_of(rows, lowest, highest, threshold):
    """The partitions (order, pixel) of rows, in order of their positions."""
    counts = [Counter(pixel(row, order) for row in rows) for order in range(highest + 1)]
    found = []
    for order in range(lowest, highest + 1):
        for number, count in counts[order].items():
            if count <= threshold and (order == lowest or counts[order - 1][number >> 2] > threshold):
                found.append((order, number))
    return sorted(found, key=lambda part: part[1] << 2 * (ORDER - part[0]))


def holder(parts, number, order):
    """The partition that contains a pixel of an order that none of them passes, or None."""
    return next(
        ((k, number >> 2 * (order - k)) for k in range(order + 1) if (k, number >> 2 * (order - k)) in parts), None
    )


def margins_of(rows, parts, margin_order):
    """For each partition the rows that it doesn't contain and that lie at its border."""
    found, every = {part: [] for part in parts}, set(parts)
    owns = [pixel(row, margin_order) for row in rows]
    touched = neighbours(numpy.array(owns, "i8"), 1 << margin_order, order="nested").T.tolist() if rows else []
    for row, own, around in zip(rows, owns, touched):
        for part in {holder(every, number, margin_order) for number in around if number >= 0}:
            if part not in (None, holder(every, own, margin_order)):
                found[part].append(row)
    return found


def properties_text(given, kind, rows, partitions):
    lines = ["format=hats-profile-1", f"name={given.name}", f"kind={kind}", f"rows={rows}", f"lowest={given.lowest}"]
    lines += [f"highest={given.highest}", f"threshold={given.threshold}", f"margin_order={given.margin_order}"]
    return "\n".join([*lines, f"partitions={partitions}", ""])


def import_catalogue(given):
    rows = sorted(row for path in given.files for row in read_rows(path))
    parts = partitions_of(rows, given.lowest, given.highest, given.threshold)
    margins = margins_of(rows, parts, given.margin_order)
    listed = "Norder,Npix\n" + "".join(f"{order},{number}\n" for order, number in parts)
    for name in (given.name, given.name + "_margin"):
        write_text(f"{name}/partition_info.csv", listed)
    held = {part: [] for part in parts}
    for row in rows:
        held[holder(held, pixel(row, given.highest), given.highest)].append(row)
    for order, number in parts:
        place = f"dataset/Norder={order}/Dir={number // 10000 * 10000}/Npix={number}.parquet"
        write_rows(f"{given.name}/{place}", held[order, number])
        write_rows(f"{given.name}_margin/{place}", margins[order, number])
    beside = sum(map(len, margins.values()))
    write_journal(given, len(rows), parts, held, margins)
    write_text(f"{given.name}_margin/hats.properties", properties_text(given, "margin", beside, len(parts)))
    write_text(f"{given.name}/hats.properties", properties_text(given, "object", len(rows), len(parts)))
    print(f"{given.name} rows {len(rows)} partitions {len(parts)} margin {beside}")


def journal_head(given):
    lines = ["hats-journal 1", f"name {given.name}", f"lowest {given.lowest}", f"highest {given.highest}"]
    lines += [f"threshold {given.threshold}", f"margin_order {given.margin_order}", f"inputs {len(given.files)}"]
    lines += [f"input {os.path.getsize(path)} {path}" for path in given.files]
    return "\n".join([*lines, "end", ""]).encode()


def journal_body(kind, number, rows):
    """A record's 32 bytes. The length of the task's file isn't looked at by any companion."""
    return struct.pack("<BIQQ", kind, number, 0, rows) + bytes(11)


def write_journal(given, rows, parts, held, margins):
    inputs = range(len(given.files))
    bodies = [journal_body(1, number, len(read_rows(given.files[number]))) for number in inputs]
    bodies += [journal_body(2, 0, len(parts))] + [journal_body(3, number, 0) for number in inputs]
    for kind, values in ((4, held), (5, margins), (6, margins)):
        bodies += [journal_body(kind, number, len(values[part])) for number, part in enumerate(parts)]
    bodies += [journal_body(7, number, 0) for number in range(3)] + [journal_body(8, 0, 0)]
    os.makedirs(f"{given.name}.work", exist_ok=True)
    with open(f"{given.name}.work/journal", "wb") as file:
        file.write(journal_head(given) + b"".join(b"\1" + body for body in bodies) + b"\0")


# A cross-match.


def catalogue_rows(name):
    """The rows of a catalogue, partition after partition."""
    rows = []
    with open(f"{name}/partition_info.csv") as file:
        for line in file.read().splitlines()[1:]:
            order, number = map(int, line.split(","))
            rows += read_rows(f"{name}/dataset/Norder={order}/Dir={number // 10000 * 10000}/Npix={number}.parquet")
    return rows


def cross_match(given):
    left, right = catalogue_rows(given.left), sorted(catalogue_rows(given.right), key=lambda row: (row[1], row))
    places = numpy.array([row[2:] for row in right], "i8").reshape(-1, 3)
    lines, matched = ["id,_healpix_29,match_id,match_healpix_29,chord2"], 0
    for row in left:
        chord2 = ((places - numpy.array(row[2:], "i8")) ** 2).sum(axis=1)
        best = int(chord2.argmin()) if len(right) else None
        if best is None or chord2[best] > given.radius**2:
            lines.append(f"{row[1]},{row[0]},,,")
        else:
            lines.append(f"{row[1]},{row[0]},{right[best][1]},{right[best][0]},{chord2[best]}")
            matched += 1
    write_text(f"{given.out}.csv", "\n".join([*lines, ""]))
    print(f"{given.left} {given.right} rows {len(left)} matched {matched}")


def main():
    parser = argparse.ArgumentParser()
    commands = parser.add_subparsers(required=True)
    counts = commands.add_parser("histogram")
    counts.add_argument("order", type=int)
    counts.add_argument("files", nargs="+")
    counts.set_defaults(do=histogram)
    catalogue = commands.add_parser("import")
    for option, default in (
        ("lowest", 0),
        ("highest", 7),
        ("threshold", 1000000),
        ("margin-order", 10),
        ("workers", 1),
    ):
        catalogue.add_argument(f"--{option}", type=int, default=default)
    catalogue.add_argument("name")
    catalogue.add_argument("files", nargs="+")
    catalogue.set_defaults(do=import_catalogue)
    match = commands.add_parser("xmatch")
    match.add_argument("--workers", type=int)
    match.add_argument("left")
    match.add_argument("right")
    match.add_argument("radius", type=int)
    match.add_argument("out")
    match.set_defaults(do=cross_match)
    given = parser.parse_args()
    given.do(given)


if __name__ == "__main__":
    main()
