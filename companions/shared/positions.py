"""The ids and positions of a table's rows, block after block, and which rows have none that can be used."""
import re
from typing import NamedTuple

import astropy.units
import numpy

from shared import sky
from shared.command import Refused

LEAST_ID, MOST_ID = -(2**63), 2**63 - 1
WHOLE = re.compile(r"[+-]?[0-9]+", re.ASCII)
ABSENT = ("", "--")
"""A blank cell of text, and what numpy prints of a masked number."""

ROUNDING = 1e-12
"""In degrees: by so much a limit may be passed where a unit was converted."""


class Fault(NamedTuple):
    """A row, numbered from 1, whose position can't be used, and its three cells as they stand."""

    row: int
    why: str
    cells: list


class Block(NamedTuple):
    """The rows of a block that can be used: their ids, nested pixels and vectors; and the other rows."""

    ids: numpy.ndarray
    pixels: numpy.ndarray
    vectors: numpy.ndarray
    faults: list


class Positions:
    """The id and the position columns of a table, with the units of the two."""

    def __init__(self, table, id_name=None, ra_name=None, dec_name=None, ra_unit=None, dec_unit=None):
        self.table = table
        self.id = table.column(id_name, ["source_id", "id"])
        self.ra = table.column(ra_name, ["ra"])
        self.dec = table.column(dec_name, ["dec"])
        self.degrees = [self.in_degrees(self.ra, ra_unit), self.in_degrees(self.dec, dec_unit)]

    def in_degrees(self, name, unit):
        """How many degrees a column's unit has."""
        unit = unit or self.table.units.get(name) or "deg"
        try:
            return astropy.units.Unit(unit).to(astropy.units.deg)
        except (ValueError, TypeError) as fault:
            raise Refused(f"{self.table.path}: column {name} has the unit {unit}, which is no angle") from fault

    def blocks(self):
        """All rows of the table, in order. Refuses at the first id that isn't one."""
        for first, (ids, ra, dec) in self.table.blocks([self.id, self.ra, self.dec]):
            yield self.block(first, ids, ra, dec)

    def block(self, first, id_cells, ra_cells, dec_cells):
        ids = self.read_ids(first, id_cells)
        ra = self.read_angles(self.ra, ra_cells) * self.degrees[0]
        dec = self.read_angles(self.dec, dec_cells) * self.degrees[1]
        usable = is_within(ra, 0, 360) & is_within(dec, -90, 90)
        ra, dec = numpy.clip(ra, 0, 360), numpy.clip(dec, -90, 90)
        faults = []
        for place in numpy.flatnonzero(~usable):
            cells = [str(column[place]) for column in (id_cells, ra_cells, dec_cells)]
            faults.append(Fault(first + int(place), self.why(cells[1], cells[2]), cells))
        ra, dec = ra[usable], dec[usable]
        vectors = sky.vectors(ra, dec)
        assert sky.keeps_length(vectors).all()
        return Block(ids[usable], sky.pixels(ra, dec), vectors, faults)

    def why(self, ra, dec):
        """Why a position can't be used, by its first cell that can't be."""
        limits = ((self.ra, ra, self.degrees[0], 0, 360), (self.dec, dec, self.degrees[1], -90, 90))
        for name, cell, degrees, least, most in limits:
            number = angle(cell)
            if number is None:
                return f"column {name}: {cell!r} is no number"
            if not numpy.isfinite(number):
                return f"column {name}: {'absent' if cell.strip() in ABSENT else number}"
            if not is_within(number * degrees, least, most):
                return f"column {name}: {number} is not within {least} to {most} degrees"
        raise AssertionError("a usable position")

    def read_ids(self, first, cells):
        if isinstance(cells, list):
            return self.read_id_texts(first, cells)
        if cells.dtype.kind not in "iu":
            raise Refused(f"{self.table.path}: column {self.id} holds {cells.dtype.name} numbers, not whole ones")
        for place in numpy.flatnonzero(numpy.ma.getmaskarray(cells)):
            self.refuse_id(first + int(place), "absent")
        values = numpy.ma.getdata(cells)
        for place in numpy.flatnonzero(values > MOST_ID) if values.dtype.kind == "u" else ():
            self.refuse_id(first + int(place), f"{values[place]} is past a signed 64-bit number")
        return values.astype(numpy.int64)

    def read_id_texts(self, first, cells):
        if are_plain(cells):
            try:
                return numpy.array(list(map(int, cells)), dtype=numpy.int64)
            except (ValueError, OverflowError):
                pass  # the cells are looked at one by one, so that the first wrong one is told
        return numpy.array([self.read_id(first + place, cell) for place, cell in enumerate(cells)], dtype=numpy.int64)

    def read_id(self, row, cell):
        text = cell.strip()
        if not text:
            self.refuse_id(row, "absent")
        if not WHOLE.fullmatch(text):
            self.refuse_id(row, f"{text!r} is no whole number")
        if not LEAST_ID <= int(text) <= MOST_ID:
            self.refuse_id(row, f"{text} is past a signed 64-bit number")
        return int(text)

    def refuse_id(self, row, why):
        raise Refused(f"{self.table.path}: row {row}, column {self.id}: {why}")

    def read_angles(self, name, cells):
        """A column's numbers as they stand, not finite where there is none."""
        if not isinstance(cells, list):
            if cells.dtype.kind not in "iuf":
                self.table.refuse_text(name)
            return numpy.ma.filled(numpy.ma.asarray(cells).astype(float), numpy.nan)
        if are_plain(cells):
            try:
                return numpy.array(list(map(float, cells)))
            except ValueError:
                pass
        read = [angle(cell) for cell in cells]
        return numpy.array([numpy.nan if number is None else number for number in read])


def are_plain(cells):
    """Whether Python reads no more as numbers in them than digits, signs, points and exponents."""
    text = "".join(cells)
    return text.isascii() and "_" not in text


def angle(cell):
    """The number in a cell of text, NaN where it is blank or masked, None where it is no number."""
    text = cell.strip()
    if text in ABSENT:
        return numpy.nan
    try:
        return float(text) if are_plain([text]) else None
    except ValueError:
        return None


def is_within(degrees, least, most):
    """Whether angles are numbers within limits, a unit's rounding aside."""
    return (degrees >= least - ROUNDING) & (degrees <= most + ROUNDING)
