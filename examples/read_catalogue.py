#!/usr/bin/env python3
"""read_catalogue.py NAME: prints the rows of each partition of a catalogue, by Python's standard library alone.

The lists are CSV, the properties are lines `key=value`, and the files of rows are plain Parquet: how many rows one has stands
in its footer, a struct of the Thrift compact protocol, whose third field counts them. Any reader of Parquet reads the columns.
"""
import csv
import sys
from pathlib import Path

# kinds of values in the Thrift compact protocol
BYTE, I16, I32, I64, DOUBLE, BINARY, LIST, SET, STRUCT = 3, 4, 5, 6, 7, 8, 9, 10, 12


class Thrift:
    """The values of some bytes, one behind another."""

    def __init__(self, data):
        self.data, self.at = data, 0

    def byte(self):
        self.at += 1
        return self.data[self.at - 1]

    def varint(self):
        value = shift = 0
        while True:
            byte = self.byte()
            value |= (byte & 127) << shift
            if byte < 128:
                return value
            shift += 7

    def signed(self):
        value = self.varint()
        return value >> 1 ^ -(value & 1)

    def fields(self):
        """The fields of a struct, by id."""
        found, field = {}, 0
        while (head := self.byte()) != 0:
            field = field + (head >> 4) if head >> 4 else self.signed()
            found[field] = self.value(head & 15)
        return found

    def value(self, kind):
        if kind in (I16, I32, I64):
            return self.signed()
        if kind == STRUCT:
            return self.fields()
        if kind in (LIST, SET):
            head = self.byte()
            count = head >> 4 if head >> 4 < 15 else self.varint()
            return [self.value(head & 15) for _ in range(count)]
        size = {BYTE: 1, DOUBLE: 8, BINARY: None}.get(kind, 0)
        size = self.varint() if size is None else size
        self.at += size
        return self.data[self.at - size:self.at]


def rows_of(path):
    data = path.read_bytes()
    if data[:4] != b'PAR1' or data[-4:] != b'PAR1':
        sys.exit(f'{path}: not Parquet')
    length = int.from_bytes(data[-8:-4], 'little')
    return Thrift(data[-8 - length:-8]).fields()[3]


def partition_file(root, order, pixel):
    folder = root / 'dataset' / f'Norder={order}' / f'Dir={pixel // 10000 * 10000}'
    return folder / f'Npix={pixel}.parquet'


def main():
    if len(sys.argv) != 2:
        sys.exit(__doc__)
    name = sys.argv[1]
    own, margin = Path(name), Path(f'{name}_margin')
    properties = dict(line.split('=', 1) for line in (own / 'hats.properties').read_text().splitlines())
    print(f"{properties['name']}: {properties['rows']} rows in {properties['partitions']} partitions")
    with open(own / 'partition_info.csv', newline='') as listed:
        for line in csv.DictReader(listed):
            order, pixel = int(line['Norder']), int(line['Npix'])
            counts = [rows_of(partition_file(root, order, pixel)) for root in (own, margin)]
            print(f'order {order} pixel {pixel}: {counts[0]} rows, margin {counts[1]}')


if __name__ == '__main__':
    main()
