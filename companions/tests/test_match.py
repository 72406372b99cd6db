"""From tables to a match, against astropy's own; and join_match."""
import os

import numpy
import pytest
from astropy import units
from astropy.coordinates import SkyCoord
from astropy.table import Table

RADIUS = 3 * units.arcsec
HEADER = "id,_healpix_29,match_id,match_healpix_29,chord2\n"


def surveys(rows=1500, seed=8):
    """Two tables: of three right rows two are left rows moved by up to 6 arcseconds, none near the radius' end."""
    rng = numpy.random.default_rng(seed)
    ra, dec = rng.uniform(0, 360, rows), numpy.degrees(numpy.arcsin(rng.uniform(-1, 1, rows)))
    ra[:6], dec[:6] = [0, 360, 0, 90, 180, 45], [0, 0, 89.9999, -89.9999, 41.8103, 0]
    left = SkyCoord(ra, dec, unit="deg")
    away = rng.uniform(0, 6, rows)
    away[abs(away - RADIUS.value) < 0.01] = 0.5
    moved = left.directional_offset_by(rng.uniform(0, 360, rows) * units.deg, away * units.arcsec)
    right = SkyCoord(
        numpy.where(rng.random(rows) < 0.67, moved.ra.deg, rng.uniform(0, 360, rows)), moved.dec.deg, unit="deg"
    )
    ids = rng.permutation(rows)
    one = Table({"source_id": ids + 10**15, "ra": ra * units.deg, "dec": dec * units.deg, "g": rng.normal(size=rows)})
    two = Table(
        {
            "id": rng.permutation(rows) - 700,
            "ra": right.ra,
            "dec": right.dec,
            "flux": rng.random(rows),
            "note": [f"n{n}" for n in range(rows)],
        }
    )
    return one, two


@pytest.fixture
def matched(tmp_path, companion, hats):
    one, two = surveys()
    one.write(tmp_path / "one.fits")
    two.write(tmp_path / "two.vot", format="votable")
    companion("to_input", "one.fits", "one")
    companion("to_input", "two.vot", "two", "--to", "parquet")
    hats("import", "--threshold", "300", "one", "one-0000.csv")
    hats(
        "import",
        "--threshold",
        "200",
        "--margin-order",
        companion("radius", "margin", "3").strip(),
        "two",
        "two-0000.parquet",
    )
    hats("xmatch", "one", "two", companion("radius", "chord", "3").strip(), "out")
    return one, two


def test_each_row_as_astropy_matches_it(tmp_path, companion, matched):
    one, two = matched
    assert companion("join_match", "out.csv", "one.fits", "two.vot", "out.ecsv").startswith(
        "out.ecsv rows 1500 matched "
    )
    joined = Table.read(tmp_path / "out.ecsv")
    left, right = (SkyCoord(table["ra"], table["dec"]) for table in (one, two))
    nearest, apart, _ = left.match_to_catalog_sky(right)
    places = {number: place for place, number in enumerate(one["source_id"].tolist())}
    found = joined["id"].filled(-(10**6)).tolist()
    separations = numpy.ma.filled(numpy.ma.asarray(joined["separation"]), -1)
    assert sorted(joined["source_id"].tolist()) == sorted(places)
    for number, other, separation in zip(joined["source_id"].tolist(), found, separations):
        place = places[number]
        if apart[place] <= RADIUS:
            assert other == two["id"][nearest[place]] and separation == pytest.approx(apart[place].arcsec, abs=0.001)
        else:
            assert other == -(10**6) and separation == -1
    assert 400 < sum(number != -(10**6) for number in found) < 700
    assert joined["separation"].unit == units.arcsec
    assert joined["g"].tolist() == [one["g"][places[number]] for number in joined["source_id"]]
    assert {"ra_left", "dec_left", "ra_right", "dec_right", "flux", "note"} <= set(joined.colnames)


@pytest.mark.parametrize("name", ["out.fits", "out.vot", "out.csv2", "out.ecsv"])
def test_formats_and_columns(tmp_path, companion, matched, name):
    form = {"out.vot": ["--format", "votable"], "out.csv2": ["--format", "ascii.csv"]}.get(name, [])
    companion(
        "join_match",
        "out.csv",
        "one.fits",
        "two.vot",
        name,
        "--matched",
        "--left-columns",
        "source_id,g",
        "--right-columns",
        "note",
        *form,
    )
    joined = Table.read(tmp_path / name, **({"format": form[1]} if form else {}))
    assert joined.colnames == ["source_id", "g", "note", "separation"]
    assert 400 < len(joined) < 700 and joined["separation"].max() <= 3


def write_case(folder, *lines, left=None, right=None):
    (folder / "m.csv").write_text(HEADER + "".join(line + "\n" for line in lines))
    Table(left or {"id": [1, 2], "a": [5, 6]}).write(folder / "l.csv")
    Table(right or {"id": [7, 8], "a": ["x", "y"]}).write(folder / "r.csv")


def test_by_hand(tmp_path, companion):
    """A chord of 10^9 is sixty degrees."""
    write_case(tmp_path, "2,5,7,9,1000000000000000000", "1,6,,,", "2,6,8,9,0")
    companion("join_match", "m.csv", "l.csv", "r.csv", "o.ecsv")
    joined = Table.read(tmp_path / "o.ecsv")
    assert joined.colnames == ["id_left", "a_left", "id_right", "a_right", "separation"]
    assert joined["id_left"].tolist() == [2, 1, 2] and joined["a_left"].tolist() == [6, 5, 6]
    assert joined["id_right"].tolist() == [7, None, 8] and joined["a_right"].tolist() == ["x", None, "y"]
    assert joined["separation"].tolist() == [pytest.approx(216000), None, 0]


def test_no_rows_and_an_empty_right_table(tmp_path, companion):
    write_case(tmp_path, "1,6,,,", right={"id": numpy.zeros(0, int), "a": numpy.zeros(0, int)})
    companion("join_match", "m.csv", "l.csv", "r.csv", "o.ecsv")
    assert Table.read(tmp_path / "o.ecsv")["separation"].tolist() == [None]
    assert companion("join_match", "m.csv", "l.csv", "r.csv", "p.ecsv", "--matched") == "p.ecsv rows 0 matched 0\n"


@pytest.mark.parametrize(
    "lines, tables, said",
    [
        (["3,5,,,"], {}, "l.csv: no row has the id 3, which m.csv has"),
        (["1,5,9,9,0"], {}, "r.csv: no row has the id 9"),
        (["1,5,,,"], {"left": {"id": [1, 2, 1], "a": [0, 0, 0]}}, "l.csv: column id: the id 1 stands in the rows 1, 3"),
        (
            ["1,5,7,9,0"],
            {"right": {"id": [8, 7, 7], "a": [0, 0, 0]}},
            "r.csv: column id: the id 7 stands in the rows 2, 3",
        ),
        (["1,5,7,9,x"], {}, "m.csv: row 1, column chord2: 'x'"),
        (["1,5,,,", "1,5,7,9"], {}, "m.csv: row 2 has 4 cells"),
        (["1,5,7,9,-1"], {}, "m.csv: row 1, column chord2"),
        (["1,5,,9,0"], {}, "m.csv: row 1, column match_id: ''"),
        (["1,5,,,"], {"left": {"id": ["p", "q"], "a": [0, 0]}}, "l.csv: column id doesn't hold whole numbers"),
        (["1,5,,,"], {"left": {"key": [1], "a": [0]}}, "l.csv: no column source_id or id; its columns are key, a"),
    ],
)
def test_faults(tmp_path, refused, lines, tables, said):
    write_case(tmp_path, *lines, **tables)
    assert said in refused(2, "join_match", "m.csv", "l.csv", "r.csv", "o.ecsv")


def test_other_faults(tmp_path, refused):
    write_case(tmp_path, "1,5,,,")
    assert "no column b; its columns are id, a" in refused(
        2, "join_match", "m.csv", "l.csv", "r.csv", "o.ecsv", "--left-columns", "a,b"
    )
    assert "can't be read" in refused(2, "join_match", "none.csv", "l.csv", "r.csv", "o.ecsv")
    assert "is no match of hats" in refused(2, "join_match", "l.csv", "l.csv", "r.csv", "o.ecsv")
    assert "o.xyz can't be written" in refused(7, "join_match", "m.csv", "l.csv", "r.csv", "o.xyz")
    assert "l.csv exists" in refused(7, "join_match", "m.csv", "l.csv", "r.csv", "l.csv")
    refused(1, "join_match", "m.csv", "l.csv", "r.csv")
    assert os.path.getsize(tmp_path / "l.csv") > 0
