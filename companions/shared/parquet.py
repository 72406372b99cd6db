"""Parquet in its plainest form: flat columns of required 64-bit integers, without compression or dictionaries.

hats reads and writes this form. No library that Debian packages writes Parquet, so it is written here, by the Parquet format
(structs of its `parquet.thrift` in Thrift's compact protocol), a row group a block of rows.
"""
import os
import struct

MARK = b"PAR1"
INT64, REQUIRED, PLAIN, RLE, UNCOMPRESSED, DATA_PAGE = 2, 0, 0, 3, 0, 0
I32, I64, BINARY, LIST, STRUCT = 5, 6, 8, 9, 12
VALUE_BYTES = 8


# Thrift's compact protocol.


def varint(number):
    out = bytearray()
    while number >= 128:
        out.append(number & 127 | 128)
        number >>= 7
    out.append(number)
    return bytes(out)


def integer(number):
    """A signed number, whose zigzag is its varint."""
    return varint(2 * number if number >= 0 else -2 * number - 1)


def binary(text):
    return varint(len(text)) + text


def sequence(kind, items):
    head = bytes([len(items) << 4 | kind]) if len(items) < 15 else bytes([240 | kind]) + varint(len(items))
    return head + b"".join(items)


def record(*fields):
    """A struct of fields (id, kind, body), ids ascending by at most 15."""
    out, last = b"", 0
    for number, kind, body in fields:
        out += bytes([number - last << 4 | kind]) + body
        last = number
    return out + b"\0"


# A file, as it grows.


class Writer:
    """Writes the columns `names` of a file, a row group for each block."""

    def __init__(self, file, names):
        self.file, self.names = file, [name.encode() for name in names]
        self.place, self.rows, self.groups = 0, 0, []
        self.put(MARK)

    def put(self, data):
        self.file.write(data)
        self.place += len(data)

    def add(self, columns):
        """A row group of one block: as many columns as there are names, int64 arrays of one length above 0."""
        rows, first, chunks = len(columns[0]), self.place, []
        for name, values in zip(self.names, columns):
            place = self.place
            self.put(page_header(rows))
            self.put(values.astype("<i8").tobytes())
            chunks.append(chunk(name, rows, place, self.place - place))
        size = self.place - first
        self.groups.append(
            record((1, LIST, sequence(STRUCT, chunks)), (2, I64, integer(size)), (3, I64, integer(rows)))
        )
        self.rows += rows

    def footer(self):
        root = record((4, BINARY, binary(b"schema")), (5, I32, integer(len(self.names))))
        kinds = ((1, I32, integer(INT64)), (3, I32, integer(REQUIRED)))
        leaves = [record(*kinds, (4, BINARY, binary(name))) for name in self.names]
        body = record(
            (1, I32, integer(1)),
            (2, LIST, sequence(STRUCT, [root, *leaves])),
            (3, I64, integer(self.rows)),
            (4, LIST, sequence(STRUCT, self.groups)),
            (6, BINARY, binary(b"hats companions")),
        )
        return body + struct.pack("<I", len(body)) + MARK

    def most_size(self, rows):
        """The file's size with one more group of so many rows, or somewhat more."""
        group = len(self.names) * (VALUE_BYTES * rows + 256)
        return self.place + group + sum(map(len, self.groups)) + 1024

    def close(self):
        self.put(self.footer())
        self.file.close()


def page_header(rows):
    head = record((1, I32, integer(rows)), (2, I32, integer(PLAIN)), (3, I32, integer(RLE)), (4, I32, integer(RLE)))
    size = integer(VALUE_BYTES * rows)
    return record((1, I32, integer(DATA_PAGE)), (2, I32, size), (3, I32, size), (5, STRUCT, head))


def chunk(name, rows, place, size):
    meta = record(
        (1, I32, integer(INT64)),
        (2, LIST, sequence(I32, [integer(PLAIN), integer(RLE)])),
        (3, LIST, sequence(BINARY, [binary(name)])),
        (4, I32, integer(UNCOMPRESSED)),
        (5, I64, integer(rows)),
        (6, I64, integer(size)),
        (7, I64, integer(size)),
        (9, I64, integer(place)),
    )
    return record((2, I64, integer(place)), (3, STRUCT, meta))


# A file's number of rows.


class Reader:
    """Reads structs of Thrift's compact protocol as maps from a field's id to its value."""

    def __init__(self, data, at=0):
        self.data, self.at = data, at

    def byte(self):
        self.at += 1
        return self.data[self.at - 1]

    def varint(self):
        number, shift = 0, 0
        while True:
            byte = self.byte()
            number |= (byte & 127) << shift
            if byte < 128:
                return number
            shift += 7

    def integer(self):
        number = self.varint()
        return number >> 1 if number % 2 == 0 else -(number >> 1) - 1

    def bytes(self, length):
        if self.at + length > len(self.data):
            raise IndexError("a binary that ends too early")
        self.at += length
        return self.data[self.at - length : self.at]

    def value(self, kind):
        if kind in (1, 2, 3):
            return self.byte()
        if kind in (4, 5, 6):
            return self.integer()
        if kind == 7:
            return self.bytes(8)
        if kind == 8:
            return self.bytes(self.varint())
        if kind in (9, 10):
            head = self.byte()
            size = head >> 4 if head >> 4 < 15 else self.varint()
            return [self.value(head & 15) for _ in range(size)]
        if kind == 12:
            return self.struct()
        raise ValueError(f"Thrift's kind {kind} is not read")

    def struct(self):
        fields, last = {}, 0
        while head := self.byte():
            last = last + (head >> 4) if head >> 4 else self.integer()
            kind = head & 15
            fields[last] = kind == 1 if kind in (1, 2) else self.value(kind)
        return fields


def row_count(path):
    """The number of rows that a file's footer tells. Raises OSError, or ValueError where it is no Parquet file."""
    size = os.path.getsize(path)
    with open(path, "rb") as file:
        file.seek(max(0, size - 8))
        length, mark = file.read(4), file.read(4)
        if size < 12 or mark != MARK or struct.unpack("<I", length)[0] > size - 12:
            raise ValueError(f"{path} is no Parquet file")
        file.seek(size - 8 - struct.unpack("<I", length)[0])
        try:
            return Reader(file.read()).struct()[3]
        except (IndexError, KeyError) as fault:
            raise ValueError(f"{path} is no Parquet file") from fault
