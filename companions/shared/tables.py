"""Tables of a survey, read in blocks of rows so that memory stays flat: FITS, VOTable, ECSV and CSV.

A table tells its columns' names, units and, where the format has them, types. `blocks` gives the asked columns block after
block, each as numbers (a numpy array, masked where values are absent) or as texts (a list of cells).
"""
import csv
import io
import os
import warnings

import numpy
from astropy.io import ascii as text_tables
from astropy.io import fits, votable
from astropy.utils.xml.iterparser import get_xml_iterator

from shared.command import Refused

BLOCK_ROWS = 65536
SUFFIXES = {
    ".fits": "fits",
    ".fit": "fits",
    ".fits.gz": "fits",
    ".vot": "votable",
    ".votable": "votable",
    ".xml": "votable",
    ".ecsv": "ecsv",
    ".csv": "csv",
}
LARGEST_CELL = 1 << 24


def kind_of(path, asked=None):
    """The format of a table by its name's suffix, where none is asked for."""
    name = os.path.basename(path).lower()
    kind = asked or next((kind for suffix, kind in SUFFIXES.items() if name.endswith(suffix)), None)
    if kind is None:
        raise Refused(f"{path}: its suffix names no format, --from fits, votable, ecsv or csv does")
    return kind


def open_table(path, asked=None):
    """The table of a file; refused where it can't be read."""
    kind = kind_of(path, asked)
    try:
        return READERS[kind](path)
    except Refused:
        raise
    except OSError as fault:
        raise Refused(f"{path} can't be read: {fault.strerror or fault}") from fault
    except Exception as fault:  # the readers' libraries raise what they like at bytes of another form
        raise Refused(f"{path} can't be read as {kind}: {fault}") from fault


class Table:
    """A table of named columns. `total` is the size of the work in rows or bytes (`measure`), `done` what was read of it."""

    measure = "row"

    def __init__(self, path):
        self.path = path
        self.names = []
        self.units = {}
        self.total = None
        self.done = 0

    def column(self, asked, defaults):
        """The name of a column: the asked one, or the first of the defaults that is there, whatever its case."""
        wanted = [asked] if asked is not None else defaults
        for name in wanted:
            if self.names.count(name) == 1:
                return name
            alike = [other for other in self.names if other.lower() == name.lower()]
            if len(alike) == 1:
                return alike[0]
            if alike:
                raise Refused(f"{self.path}: several columns are named {name}")
        raise Refused(f"{self.path}: no column {' or '.join(wanted)}; its columns are {', '.join(self.names)}")

    def blocks(self, columns):
        """Blocks of the columns, each a pair: its first row's number, from 1, and for each column its numbers or texts."""
        try:
            yield from self.read_blocks(columns)
        except Refused:
            raise
        except OSError as fault:
            raise Refused(f"{self.path} can't be read: {fault.strerror or fault}") from fault
        except Exception as fault:  # as in `open_table`
            raise Refused(f"{self.path} can't be read: {fault}") from fault

    def refuse_text(self, name):
        raise Refused(f"{self.path}: column {name} holds text, not numbers")

    def refuse_lists(self, name):
        raise Refused(f"{self.path}: column {name} holds lists, not single numbers")


class FitsTable(Table):
    """The first table of a FITS file, whose bytes the system maps."""

    def __init__(self, path):
        super().__init__(path)
        self.file = fits.open(path, memmap=True)
        tables = [part for part in self.file if isinstance(part, (fits.BinTableHDU, fits.TableHDU))]
        if not tables:
            raise Refused(f"{path}: no table in it")
        self.part = tables[0]
        self.total = self.part.header["NAXIS2"]
        for column in self.part.columns:
            self.names.append(column.name)
            self.units[column.name] = column.unit

    def read_blocks(self, columns):
        for first in range(0, self.total, BLOCK_ROWS):
            part = self.part.data[first : first + BLOCK_ROWS]
            yield first + 1, [self.numbers(part, name) for name in columns]
            self.done = min(self.total, first + BLOCK_ROWS)

    def numbers(self, part, name):
        values = part.field(name)
        if values.dtype.kind in "SU":
            self.refuse_text(name)
        if values.ndim != 1 or values.dtype.kind not in "iuf":
            self.refuse_lists(name)
        column = self.part.columns[name]
        if values.dtype.kind == "f" or column.null in (None, ""):
            return values
        absent = values == values.dtype.type(int(column.null) + int(column.bzero or 0))
        return numpy.ma.masked_array(values, absent)


class TextTable(Table):
    """Records of text with a delimiter, behind lines that a format may have before them."""

    measure = "B"

    def open_records(self, delimiter):
        csv.field_size_limit(LARGEST_CELL)
        self.total = os.path.getsize(self.path)
        self.bytes = open(self.path, "rb")
        self.lines = io.TextIOWrapper(self.bytes, "utf-8-sig", "surrogateescape", newline="")
        return csv.reader(self.skip_comments(self.lines), delimiter=delimiter, strict=True)

    def skip_comments(self, lines):
        return lines

    def read_header(self, delimiter):
        self.records = self.open_records(delimiter)
        self.names = [name.strip() for name in next((record for record in self.records if record), [])]
        if not self.names:
            raise Refused(f"{self.path}: no header and no row in it")

    def read_blocks(self, columns):
        places = [self.names.index(name) for name in columns]
        row, cells = 0, [[] for _ in places]
        try:
            for record in self.records:
                if not record:
                    continue
                row += 1
                if len(record) != len(self.names):
                    raise Refused(f"{self.path}: row {row} has {len(record)} cells, the header {len(self.names)}")
                for place, column in zip(places, cells):
                    column.append(record[place])
                if len(cells[0]) == BLOCK_ROWS:
                    self.done = self.bytes.tell()
                    yield row - BLOCK_ROWS + 1, cells
                    cells = [[] for _ in places]
        except csv.Error as fault:
            raise Refused(f"{self.path}: row {row + 1}: {fault}") from fault
        self.done = self.bytes.tell()
        if cells[0]:
            yield row - len(cells[0]) + 1, cells


class CsvTable(TextTable):
    """A CSV text with a header, which tells no units and no types."""

    def __init__(self, path):
        super().__init__(path)
        self.read_header(",")


class EcsvTable(TextTable):
    """An enhanced CSV text: its comment lines tell the delimiter, units and types."""

    def __init__(self, path):
        super().__init__(path)
        head = self.read_head()
        delimiter = head.meta.pop("__delimiter__")
        self.read_header(delimiter)
        self.texts = {name for name in head.colnames if head[name].dtype.kind not in "iuf"}
        self.lists = {name for name in head.colnames if head[name].ndim != 1}
        self.units = {name: getattr(head[name], "unit", None) for name in head.colnames}

    def read_head(self):
        """The table of the head alone, without rows; its delimiter stands in its `meta`."""
        lines, delimiter = [], " "
        with open(self.path, encoding="utf-8-sig", errors="surrogateescape", newline="") as file:
            for line in file:
                lines.append(line.rstrip("\r\n"))
                if line.startswith("# delimiter:"):
                    delimiter = line.split(":", 1)[1].strip().strip("'\"") or " "
                if not line.startswith("#"):
                    break
        head = text_tables.read(lines, format="ecsv", fill_values=[])
        head.meta["__delimiter__"] = delimiter
        return head

    def skip_comments(self, lines):
        return (line for line in lines if not line.startswith("#"))

    def read_blocks(self, columns):
        for name in columns:
            if name in self.texts:
                self.refuse_text(name)
            if name in self.lists:
                self.refuse_lists(name)
        return super().read_blocks(columns)


class VoTable(Table):
    """The first table of a VOTable. Rows of elements are streamed; binary rows are held whole by astropy's reader."""

    def __init__(self, path):
        super().__init__(path)
        self.fields, self.form = [], None
        self.total = None
        with get_xml_iterator(path) as events:
            self.read_fields(events)
        for field in self.fields:
            name = field.get("name") or field.get("ID") or ""
            self.names.append(name)
            self.units[name] = field.get("unit")
        if not self.fields:
            raise Refused(f"{path}: no table in it")

    def read_fields(self, events):
        inside, described = False, {}
        for start, tag, data, _ in events:
            if start and tag == "TABLE":
                inside = True
            elif start and tag in ("FIELD", "PARAM") and inside:
                described = dict(data)
                self.fields += [described] if tag == "FIELD" else []
            elif start and tag == "VALUES" and inside:
                described.setdefault("null", data.get("null"))
            elif start and tag in ("TABLEDATA", "BINARY", "BINARY2", "FITS") and inside:
                self.form = tag
                return
            elif not start and tag == "TABLE":
                return

    def read_blocks(self, columns):
        places = [self.names.index(name) for name in columns]
        for place, name in zip(places, columns):
            if self.fields[place].get("datatype") in ("char", "unicodeChar"):
                self.refuse_text(name)
            if self.fields[place].get("arraysize") not in (None, "1"):
                self.refuse_lists(name)
        if self.form == "TABLEDATA":
            return self.streamed(places)
        return self.held(places)

    def streamed(self, places):
        nulls = [self.fields[place].get("null") for place in places]
        row, cell, cells = 0, 0, [[] for _ in places]
        with get_xml_iterator(self.path) as events:
            for start, tag, data, _ in events:
                if start and tag == "TR":
                    row, cell, texts = row + 1, 0, {}
                elif not start and tag == "TD":
                    texts[cell] = data
                    cell += 1
                elif not start and tag == "TR":
                    if cell != len(self.fields):
                        raise Refused(f"{self.path}: row {row} has {cell} cells, the table {len(self.fields)} columns")
                    for place, null, column in zip(places, nulls, cells):
                        column.append("" if texts[place] == null else texts[place])
                    if len(cells[0]) == BLOCK_ROWS:
                        yield row - BLOCK_ROWS + 1, cells
                        self.done, cells = row, [[] for _ in places]
                elif not start and tag == "TABLEDATA":
                    break
        self.done = row
        if cells[0]:
            yield row - len(cells[0]) + 1, cells

    def held(self, places):
        if self.form is None:
            return
        with warnings.catch_warnings():
            warnings.simplefilter("ignore")
            table = votable.parse(self.path, columns=places).get_first_table().array
        self.total = len(table)
        names = [table.dtype.names[place] for place in places]
        for first in range(0, self.total, BLOCK_ROWS):
            yield first + 1, [table[name][first : first + BLOCK_ROWS] for name in names]
            self.done = min(self.total, first + BLOCK_ROWS)


READERS = {"fits": FitsTable, "votable": VoTable, "ecsv": EcsvTable, "csv": CsvTable}
