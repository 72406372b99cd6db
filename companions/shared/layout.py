"""The files of a catalogue and of an import, as hats writes them: properties, list of partitions, journal, match text."""
import csv
import os
from typing import NamedTuple

import numpy

from shared import parquet
from shared.command import Refused

ORDER = 29
MATCH_HEADER = "id,_healpix_29,match_id,match_healpix_29,chord2\n"
PROPERTIES = ["format", "name", "kind", "rows", "lowest", "highest", "threshold", "margin_order", "partitions"]
MATCH_BLOCK = 65536


def read_bytes(path):
    try:
        with open(path, "rb") as file:
            return file.read()
    except OSError as fault:
        raise Refused(f"{path} can't be read: {fault.strerror}") from fault


def read_lines(path):
    """The lines of a text, each ended by a newline."""
    data = read_bytes(path)
    if data and not data.endswith(b"\n"):
        raise Refused(f"{path}: its last line has no end")
    return data.decode("ascii", "replace").splitlines()


# A catalogue.


def properties(folder, name):
    """What `hats.properties` of a catalogue says, by key; numbers as numbers."""
    path = os.path.join(folder, name, "hats.properties")
    pairs = [line.partition("=")[::2] for line in read_lines(path)]
    if [key for key, _ in pairs] != PROPERTIES or pairs[0][1] != "hats-profile-1":
        raise Refused(f"{path} is no properties file of hats")
    if not all(value.isascii() and value.isdigit() for _, value in pairs[3:]):
        raise Refused(f"{path}: a number is none")
    return {key: value if place < 3 else int(value) for place, (key, value) in enumerate(pairs)}


class Partition(NamedTuple):
    """A partition's HEALPix order and nested pixel."""

    order: int
    pixel: int

    def file(self, folder, name):
        """Its Parquet file."""
        parts = [f"Norder={self.order}", f"Dir={self.pixel // 10000 * 10000}", f"Npix={self.pixel}.parquet"]
        return os.path.join(folder, name, "dataset", *parts)

    def rows(self, folder, name):
        """The number of its rows, by the footer of its file."""
        path = self.file(folder, name)
        try:
            return parquet.row_count(path)
        except (OSError, ValueError) as fault:
            raise Refused(f"{path} can't be read: {fault}") from fault

    def first(self):
        """Its first position, a nested pixel of order 29."""
        return self.pixel << 2 * (ORDER - self.order)

    def end(self):
        """The position behind its last one."""
        return self.pixel + 1 << 2 * (ORDER - self.order)


def partitions(folder, name):
    """A catalogue's partitions, by its list, in order of their positions."""
    path = os.path.join(folder, name, "partition_info.csv")
    lines = read_lines(path)
    if lines[:1] != ["Norder,Npix"]:
        raise Refused(f"{path} is no list of partitions")
    return [partition(path, number, line) for number, line in enumerate(lines[1:], 1)]


def partition(path, row, line):
    words = line.split(",")
    if len(words) != 2 or not all(word.isascii() and word.isdigit() for word in words):
        raise Refused(f"{path}: row {row}: {line!r} is no order and pixel")
    order, pixel = map(int, words)
    if order > ORDER or pixel >= 12 << 2 * order:
        raise Refused(f"{path}: row {row}: there is no pixel {pixel} of order {order}")
    return Partition(order, pixel)


# A match.


class Matches(NamedTuple):
    """Rows of a match: left ids, which of them have a match, and the ids and squared chords in 10^-18 of the matches."""

    left: numpy.ndarray
    matched: numpy.ndarray
    right: numpy.ndarray
    chord2: numpy.ndarray


def matches(path):
    """The rows of a match text."""
    try:
        with open(path, encoding="ascii", errors="replace", newline="") as file:
            if file.readline() != MATCH_HEADER:
                raise Refused(f"{path} is no match of hats: its first line is not {MATCH_HEADER.strip()}")
            blocks = list(match_blocks(path, csv.reader(file)))
    except OSError as fault:
        raise Refused(f"{path} can't be read: {fault.strerror}") from fault
    empty = [numpy.empty(0, dtype) for dtype in ("i8", "?", "i8", "u8")]
    return Matches(*(numpy.concatenate(columns) for columns in zip(empty, *blocks)))


def match_blocks(path, records):
    row, block = 0, []
    for row, record in enumerate(records, 1):
        block.append(match_row(path, row, record))
        if len(block) == MATCH_BLOCK:
            yield match_columns(block)
            block = []
    if block:
        yield match_columns(block)


def match_columns(block):
    left, matched, right, chord2 = zip(*block)
    return numpy.array(left, "i8"), numpy.array(matched, "?"), numpy.array(right, "i8"), numpy.array(chord2, "u8")


def match_row(path, row, record):
    """A row's left id, whether it has a match, and the match's id and squared chord, else 0."""
    if len(record) != 5:
        raise Refused(f"{path}: row {row} has {len(record)} cells, not 5")
    matched = any(record[2:])
    names = MATCH_HEADER.strip().split(",")
    numbers = [match_number(path, row, names[place], record[place]) for place in ((0, 2, 4) if matched else (0,))]
    return (numbers[0], True, *numbers[1:]) if matched else (numbers[0], False, 0, 0)


def match_number(path, row, name, cell):
    digits = cell[1:] if cell.startswith("-") and name != "chord2" else cell
    least, most = (0, 2**64 - 1) if name == "chord2" else (-(2**63), 2**63 - 1)
    if not digits.isascii() or not digits.isdigit() or not least <= int(cell) <= most:
        raise Refused(f"{path}: row {row}, column {name}: {cell!r} is no number of it")
    return int(cell)


# A journal.

GATE_OPEN = 1
BODY_BYTES = 32
STEP_BYTES = BODY_BYTES + 1
KINDS = ["map", "plan", "split", "reduce", "margin split", "margin reduce", "lists", "properties"]


class Record(NamedTuple):
    """A recorded task: its kind from 1, its number, the bytes of its file, and the file's rows."""

    kind: int
    number: int
    length: int
    rows: int


class Journal:
    """A journal as it grows: `records` so far; `read_on` takes what was added since. It only reads."""

    def __init__(self, path):
        self.path = path
        data = read_bytes(path)
        self.settings, self.inputs, self.gate = header(path, data)
        self.head = data[: self.gate]
        self.records = []
        self.take(data[self.gate :])

    def read_on(self):
        """Reads what was recorded since. Answers false where the file is another job's by now."""
        try:
            with open(self.path, "rb") as file:
                if file.read(len(self.head)) != self.head:
                    return False
                file.seek(self.gate)
                self.take(file.read())
        except OSError:
            return False
        return True

    def take(self, data):
        at = 0
        while at < len(data) and data[at] == GATE_OPEN and at + STEP_BYTES <= len(data):
            self.records.append(journal_record(self.path, self.gate + at, data[at + 1 : at + STEP_BYTES]))
            at += STEP_BYTES
        self.gate += at


def header(path, data):
    """The settings of a journal's header by key, its inputs' words, and the place of its first gate."""
    end = data.find(b"\nend\n")
    lines = data[: max(end, 0)].decode("utf-8", "replace").split("\n")
    keys = ["name", "lowest", "highest", "threshold", "margin_order", "inputs"]
    pairs = dict(line.partition(" ")[::2] for line in lines[1:7])
    words = [line.split(" ", 2) for line in lines[7:]]
    if (
        lines[0] != "hats-journal 1"
        or list(pairs) != keys
        or any(len(word) != 3 or word[0] != "input" for word in words)
    ):
        raise Refused(f"{path} is no journal of hats")
    if pairs["inputs"] != str(len(words)):
        raise Refused(f"{path}: its header has not as many inputs as it says")
    return pairs, [word[2] for word in words], end + len("\nend\n")


def journal_record(path, place, body):
    kind, zeros = body[0], body[21:]
    if not 1 <= kind <= len(KINDS) or any(zeros):
        raise Refused(f"{path}: the record at {place} is damaged")
    number, length, rows = (int.from_bytes(body[a:b], "little") for a, b in ((1, 5), (5, 13), (13, 21)))
    return Record(kind, number, length, rows)
