"""radius: chords and arcseconds, and what the coverage test allows."""
import math

import numpy
import pytest
from astropy import units
from astropy_healpix import neighbours
from astropy_healpix.core import boundaries_lonlat

from shared import sky


@pytest.mark.parametrize(
    "arcseconds, chord",
    [("0", 0), ("1", 4848), ("3", 14544), ("3600", 17453071), ("216000", 1000000000), ("648000", 2000000000)],
)
def test_chords_by_hand(companion, arcseconds, chord):
    """A degree's chord is 2 sin(0.5 degrees), sixty degrees' is the radius, half a circle's the diameter."""
    assert companion("radius", "chord", arcseconds) == f"{chord}\n"


@pytest.mark.parametrize(
    "chord, arcseconds",
    [("0", "0.000000"), ("1000000000", "216000.000000"), ("2000000000", "648000.000000"), ("4848", "0.999972")],
)
def test_arcseconds_by_hand(companion, chord, arcseconds):
    assert companion("radius", "arcsec", chord) == f"{arcseconds}\n"


def test_there_and_back():
    for chord in (1, 4848, 14544, 10**6, 10**9, 2 * 10**9):
        assert sky.chord_of(float(sky.arcseconds_of(chord))) == chord


def test_margin_and_most_agree(companion):
    for order in range(1, 25):
        chord, arcseconds = companion("radius", "most", order).split()
        assert int(chord) == sky.greatest_chord(order)
        assert float(arcseconds) == pytest.approx(float(sky.arcseconds_of(int(chord))), abs=1e-6)
        assert sky.finest_margin_order(int(chord)) == order
        assert sky.finest_margin_order(int(chord) + 1) == (order - 1 or None)
    assert companion("radius", "margin", "3") == "14\n"


@pytest.mark.parametrize(
    "words",
    [
        ["chord", "-1"],
        ["chord", "x"],
        ["chord", "nan"],
        ["arcsec", "2000000001"],
        ["arcsec", "1.5"],
        ["most", "25"],
        ["most", "0"],
        ["margin"],
        [],
    ],
)
def test_wrong_words(refused, words):
    refused(1, "radius", *words)


def test_a_radius_that_no_order_allows(refused):
    assert "no margin order allows 100000 arcseconds" in refused(2, "radius", "margin", "100000")


def boxes(order):
    """The least and greatest x, y and z of each pixel of an order, by points of its border, the bulge between them aside."""
    longitude, latitude = boundaries_lonlat(numpy.arange(12 << 2 * order), 8, 1 << order, order="nested")
    x = numpy.stack(
        [numpy.cos(latitude) * numpy.cos(longitude), numpy.cos(latitude) * numpy.sin(longitude), numpy.sin(latitude)]
    )
    return x.min(axis=2).T.to_value(units.one), x.max(axis=2).T.to_value(units.one)


def not_near(own, touched):
    """The pixels that neither are one nor touch it, but touch one that does: none that is farther away lies nearer."""
    around = set(touched[own].tolist()) - {-1} | {own}
    return numpy.array(sorted({int(far) for near in around for far in touched[near]} - around - {-1}))


@pytest.mark.parametrize("margin_order", [1, 2, 3, 4])
def test_the_greatest_radius_is_covered(margin_order):
    """No two cover pixels that aren't near have boxes nearer than the greatest radius, whatever rows they hold.

    The first of the two lies in base pixel 0 or 4: turning and mirroring the axes takes the others there.
    """
    least, most = boxes(margin_order + 2)
    touched = neighbours(numpy.arange(12 << 2 * margin_order), 1 << margin_order, order="nested").T
    gap, size = math.inf, 1 << 2 * margin_order
    for own in (*range(size), *range(4 * size, 5 * size)):
        here = 16 * own + numpy.arange(16)
        there = (not_near(own, touched)[:, None] * 16 + numpy.arange(16)).ravel()
        apart = numpy.maximum(least[there, None] - most[here], least[here] - most[there, None])
        gap = min(gap, math.sqrt((numpy.maximum(0, apart) ** 2).sum(axis=2).min()))
    assert gap * sky.UNIT > sky.greatest_chord(margin_order) + sky.ROUNDED
    assert gap < 2 * sky.LEAST_GAP / 2**margin_order
