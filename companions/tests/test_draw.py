"""draw: each picture is there and shows something; the map by hand. The pictures are to be looked at as well."""
import runpy
import os

import matplotlib.image
import numpy
import pytest
from astropy.table import Table

from conftest import COMPANIONS

HEADER = "id,_healpix_29,match_id,match_healpix_29,chord2\n"
draw = runpy.run_path(os.path.join(COMPANIONS, "draw"))


def colours(path):
    """How many colours a picture has, and which share of it is white."""
    picture = matplotlib.image.imread(path)[:, :, :3]
    flat = (picture.reshape(-1, 3) * 255).astype(int)
    return len(numpy.unique(flat, axis=0)), float((flat == 255).all(axis=1).mean())


def make_catalogue(folder, companion, hats, rows=4000):
    rng = numpy.random.default_rng(2)
    ra, dec = rng.uniform(0, 360, rows), numpy.degrees(numpy.arcsin(rng.uniform(-1, 1, rows)))
    ra[: rows // 2], dec[: rows // 2] = rng.normal(150, 5, rows // 2), rng.normal(20, 5, rows // 2)
    Table({"id": numpy.arange(rows), "ra": ra, "dec": dec}).write(folder / "t.fits")
    companion("to_input", "t.fits", "t")
    hats("import", "--threshold", "300", "t", "t-0000.csv")


def test_a_catalogue(tmp_path, companion, hats):
    make_catalogue(tmp_path, companion, hats)
    companion("draw", "catalogue", "t", "t.png")
    count, white = colours(tmp_path / "t.png")
    assert count > 50 and white < 0.8


def test_part_of_the_sky_and_tiny_partitions(tmp_path, companion, hats):
    """One partition of order 20, which no dot of the map lies in."""
    (tmp_path / "a.csv").write_text("id,_healpix_29,cx,cy,cz\n7,0,1000000000,0,0\n8,4000000,1000000000,0,0\n")
    hats("import", "--lowest", "19", "--highest", "20", "--margin-order", "21", "t", "a.csv")
    companion("draw", "catalogue", "t", "t.png")
    assert colours(tmp_path / "t.png")[0] > 10


def test_an_empty_catalogue(tmp_path, companion, hats):
    (tmp_path / "a.csv").write_text("id,_healpix_29,cx,cy,cz\n")
    hats("import", "t", "a.csv")
    companion("draw", "catalogue", "t", "t.png")
    assert colours(tmp_path / "t.png")[0] > 10


def test_a_match(tmp_path, companion):
    lines = [f"{n},0,{n},0,{(n * 40) ** 2}\n" for n in range(500)] + ["9,0,,,\n"] * 100
    (tmp_path / "m.csv").write_text(HEADER + "".join(lines))
    companion("draw", "match", "m.csv", "m.png")
    assert colours(tmp_path / "m.png")[0] > 10


@pytest.mark.parametrize("lines", [[], ["9,0,,,\n"], ["9,0,1,0,0\n"]])
def test_matches_with_little_in_them(tmp_path, companion, lines):
    (tmp_path / "m.csv").write_text(HEADER + "".join(lines))
    companion("draw", "match", "m.csv", "m.png")
    assert colours(tmp_path / "m.png")[0] > 5


def test_the_projection():
    """The middle, the poles and the ends of the equator by hand, and there and back."""
    place_of, sky_of = draw["place_of"], draw["sky_of"]
    for ra, dec, x, y in (
        (0, 0, 0, 0),
        (90, 0, -1, 0),
        (270, 0, 1, 0),
        (33, 90, 0, 1),
        (33, -90, 0, -1),
        (180, 0, 2, 0),
    ):
        found = place_of(float(ra), float(dec))
        assert (abs(found[0]), found[1]) == (pytest.approx(abs(x), abs=2e-3), pytest.approx(y, abs=1e-3))
        assert x in (0, 2) or found[0] == pytest.approx(x)
    rng = numpy.random.default_rng(6)
    ra, dec = rng.uniform(1, 179, 500), rng.uniform(-85, 85, 500)
    back = sky_of(*place_of(ra, dec))
    assert numpy.abs(back[0] - ra).max() < 1e-6 and numpy.abs(back[1] - dec).max() < 1e-6 and back[2].all()


def test_faults(tmp_path, refused, companion, hats):
    assert "t/hats.properties can't be read" in refused(2, "draw", "catalogue", "t", "t.png")
    make_catalogue(tmp_path, companion, hats, 600)
    assert "t.png can't be written" in refused(7, "draw", "catalogue", "t", "none/t.png")
    (tmp_path / "t" / "partition_info.csv").write_text("Norder,Npix\n0,0\n0,12\n")
    assert "t/partition_info.csv: row 2: there is no pixel 12 of order 0" in refused(
        2, "draw", "catalogue", "t", "t.png"
    )
    (tmp_path / "t" / "partition_info.csv").write_text("Norder,Npix\n0,0\n")
    assert "the list has 1 partitions, the properties say" in refused(2, "draw", "catalogue", "t", "t.png")
    (tmp_path / "t" / "hats.properties").write_text("format=hats-profile-2\n")
    assert "t/hats.properties is no properties file" in refused(2, "draw", "catalogue", "t", "t.png")
    refused(1, "draw", "t", "t.png")
    refused(2, "draw", "match", "none.csv", "m.png")
