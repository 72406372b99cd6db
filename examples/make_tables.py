#!/usr/bin/python3
"""Writes optical.fits and radio.vot beside this file: two small surveys, of which many rows lie within an arcsecond of each other.

Optical sources stand all over the sky and in one dense clump; most radio sources are optical ones, moved by some tenths of an
arcsecond. Columns: an id, ra and dec in degrees, and a magnitude or a flux. Needs astropy; the same seed gives the same rows.
"""
import os

import numpy
from astropy.table import Table

SEED = 29
WHOLE_SKY, CLUMP = 400, 200
OF_OPTICAL, OTHERS = 220, 60
AWAY = 0.4 / 3600
"""Degrees by which a radio source lies beside its optical one, on each of two axes."""


def anywhere(rng, count):
    return rng.uniform(0, 360, count), numpy.degrees(numpy.arcsin(rng.uniform(-1, 1, count)))


def moved(rng, ra, dec, degrees):
    """Positions beside these, by so many degrees on each of two axes; none stands near a pole."""
    across = rng.normal(0, degrees, len(ra)) / numpy.cos(numpy.radians(dec))
    return (ra + across) % 360, numpy.clip(dec + rng.normal(0, degrees, len(dec)), -90, 90)


def optical(rng):
    sky, clump = anywhere(rng, WHOLE_SKY), moved(rng, numpy.full(CLUMP, 83.8), numpy.full(CLUMP, -5.4), 1.0)
    ra, dec = (numpy.concatenate(both) for both in zip(sky, clump))
    ids = 10**15 + rng.permutation(len(ra))
    magnitudes = rng.normal(17, 2, len(ra)).round(3).astype("f4")
    return Table(
        {"source_id": ids, "ra": ra, "dec": dec, "mag": magnitudes}, units={"ra": "deg", "dec": "deg", "mag": "mag"}
    )


def radio(rng, seen):
    which = rng.choice(len(seen), OF_OPTICAL, replace=False)
    beside = moved(rng, numpy.array(seen["ra"][which]), numpy.array(seen["dec"][which]), AWAY)
    ra, dec = (numpy.concatenate(both) for both in zip(beside, anywhere(rng, OTHERS)))
    flux = rng.exponential(3, len(ra)).round(3)
    order = rng.permutation(len(ra))
    columns = {"id": numpy.arange(1, len(ra) + 1), "ra": ra[order], "dec": dec[order], "flux": flux}
    return Table(columns, units={"ra": "deg", "dec": "deg", "flux": "mJy"})


def main():
    rng = numpy.random.default_rng(SEED)
    folder = os.path.dirname(os.path.abspath(__file__))
    seen = optical(rng)
    seen.write(os.path.join(folder, "optical.fits"), overwrite=True)
    radio(rng, seen).write(os.path.join(folder, "radio.vot"), format="votable", overwrite=True)


if __name__ == "__main__":
    main()
