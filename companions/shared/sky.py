"""Positions as hats takes them: nested HEALPix pixels of order 29 and unit vectors in 10^-9; radii as chords."""
import math

import astropy.units
import numpy
from astropy_healpix import healpix_to_lonlat, lonlat_to_healpix

ORDER = 29
UNIT = 10**9
LENGTH_TOLERANCE = 4 * 10**9
ARCSECONDS = 180 * 3600 / math.pi
LEAST_MARGIN_ORDER = 1
MOST_MARGIN_ORDER = 24
MOST_CHORD = 2 * UNIT
"""The greatest radius that hats takes, the sky's diameter."""

ROUNDED = 2
"""More than two boxes come nearer where each coordinate is rounded: the square root of 3."""

LEAST_GAP = 0.368
"""Times 2^-M and the sphere's radius: less than the least gap between the boxes of two cover pixels, of order M + 2, that
aren't near at margin order M. Found by numbers, no proof: over the pairs that are next to near ones, at the orders 1 to 7, the
least gap falls from 0.581 to 0.371; at the places where it is least, where three base pixels meet, it falls to 0.3683 at order
24. Tests look at these pairs at the lowest orders."""


def pixels(ra, dec):
    """The nested pixels of order 29 that contain positions, which are in degrees."""
    degree = astropy.units.deg
    return lonlat_to_healpix(ra * degree, dec * degree, 1 << ORDER, order="nested")


def directions(positions):
    """The RA and Dec in degrees of the middles of nested pixels of order 29."""
    longitude, latitude = healpix_to_lonlat(positions, 1 << ORDER, order="nested")
    return longitude.to_value("deg"), latitude.to_value("deg")


def vectors(ra, dec):
    """The unit vectors of positions in degrees, times 10^9 and rounded: an array of shape (rows, 3)."""
    longitude, latitude = numpy.radians(ra), numpy.radians(dec)
    parallel = numpy.cos(latitude)
    exact = [parallel * numpy.cos(longitude), parallel * numpy.sin(longitude), numpy.sin(latitude)]
    return numpy.rint(UNIT * numpy.stack(exact, axis=1)).astype(numpy.int64)


def keeps_length(vector):
    """Whether each vector keeps hats' rule on its length. Rounding misses it by at most 1.8 * 10^9."""
    return numpy.abs((vector * vector).sum(axis=1) - UNIT * UNIT) <= LENGTH_TOLERANCE


def chord_of(arcseconds):
    """The chord in 10^-9, rounded, between two directions that are so far apart."""
    return round(2 * UNIT * math.sin(arcseconds / ARCSECONDS / 2))


def arcseconds_of(chord):
    """How far apart two directions are whose chord is so long; numbers or arrays, chords in 10^-9."""
    return 2 * ARCSECONDS * numpy.arcsin(numpy.minimum(1, numpy.asarray(chord, dtype=float) / (2 * UNIT)))


def greatest_chord(margin_order):
    """The greatest radius, as a chord, that the coverage test allows at a margin order whatever the rows are."""
    return math.floor(UNIT * LEAST_GAP / 2**margin_order) - ROUNDED


def finest_margin_order(chord):
    """The greatest margin order, whose margins are the least, that allows a radius whatever the rows are; or None."""
    orders = range(MOST_MARGIN_ORDER, LEAST_MARGIN_ORDER - 1, -1)
    return next((order for order in orders if greatest_chord(order) >= chord), None)
