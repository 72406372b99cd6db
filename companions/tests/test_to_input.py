"""to_input: pixels, vectors, formats, faults, sizes."""
import csv
import os
from collections import Counter

import astropy_healpix
import numpy
import pytest
from astropy.table import MaskedColumn, Table
from astropy_healpix.core import boundaries_lonlat

from conftest import COMPANIONS, call
from plain_hats import read_columns, read_rows
from shared import sky

POLES_AND_ENDS = [(0, 90), (0, -90), (123.4, 90), (359.9, -90), (0, 0), (360, 0), (0, 41.8), (360, -41.8), (360, 89.9)]


def base_corners():
    """The directions of all corners of the twelve base pixels, and of their middles."""
    lon, lat = boundaries_lonlat(numpy.arange(12), 1, 1, order="nested")
    corners = zip(lon.to_value("deg").ravel() % 360, numpy.clip(lat.to_value("deg").ravel(), -90, 90))
    middles = zip(
        *(angle.to_value("deg") for angle in astropy_healpix.healpix_to_lonlat(numpy.arange(12), 1, order="nested"))
    )
    return [*corners, *middles]


def survey(rows=10000, seed=5):
    """A table of random positions with the poles, both ends of the right ascension and the base pixels' corners among them."""
    rng = numpy.random.default_rng(seed)
    special = numpy.array(POLES_AND_ENDS + base_corners())
    ra = numpy.concatenate([special[:, 0], rng.uniform(0, 360, rows - len(special))])
    dec = numpy.concatenate([special[:, 1], numpy.degrees(numpy.arcsin(rng.uniform(-1, 1, rows - len(special))))])
    ids = rng.integers(-(2**63), 2**63 - 1, rows)
    return Table(
        {"source_id": ids, "ra": ra, "dec": dec, "name": [f"s {n}" for n in range(rows)]},
        units={"ra": "deg", "dec": "deg"},
    )


def small(**columns):
    table = {"id": [11, 12, 13], "ra": [10.0, 20.0, 30.0], "dec": [-5.0, 0.0, 5.0]}
    return Table({**table, **columns})


def keeps_rules(row):
    hp, _, x, y, z = row
    return 0 <= hp < 12 * 4**29 and abs(x * x + y * y + z * z - 10**18) <= 4 * 10**9


def test_pixels_and_vectors(tmp_path, companion, hats):
    table = survey()
    table.write(tmp_path / "t.fits")
    assert companion("to_input", "t.fits", "in") == "in rows 10000 files 1 skipped 0\n"
    rows = read_rows(str(tmp_path / "in-0000.csv"))
    assert [row[1] for row in rows] == table["source_id"].tolist()
    pixels = astropy_healpix.lonlat_to_healpix(table["ra"].quantity, table["dec"].quantity, 2**29, order="nested")
    assert [row[0] for row in rows] == pixels.tolist()
    assert all(map(keeps_rules, rows))
    ra, dec = numpy.radians(table["ra"]), numpy.radians(table["dec"])
    exact = numpy.array([numpy.cos(dec) * numpy.cos(ra), numpy.cos(dec) * numpy.sin(ra), numpy.sin(dec)]).T
    assert numpy.abs(numpy.array([row[2:] for row in rows]) - exact * 1e9).max() <= 0.5001
    counts = sorted(Counter(pixels.tolist()).items())
    assert hats("histogram", "29", "in-0000.csv") == "".join(f"{pixel},{count}\n" for pixel, count in counts)


@pytest.mark.parametrize(
    "ra, dec, vector",
    [
        (0, 90, (0, 0, 10**9)),
        (0, 0, (10**9, 0, 0)),
        (360, 0, (10**9, 0, 0)),
        (90, 0, (0, 10**9, 0)),
        (180, 0, (-(10**9), 0, 0)),
        (45, 0, (707106781, 707106781, 0)),
        (77, -90, (0, 0, -(10**9))),
    ],
)
def test_vectors_by_hand(ra, dec, vector):
    assert sky.vectors(numpy.array([float(ra)]), numpy.array([float(dec)])).tolist() == [list(vector)]


def test_base_pixels_by_hand():
    """The middles of the base pixels of the nested scheme: four at Dec 41.81, four on the equator, four at -41.81."""
    ra = numpy.array([45.0, 135, 225, 315, 0, 90, 180, 270, 45, 135, 225, 315])
    dec = numpy.repeat([41.8103, 0, -41.8103], 4)
    assert (sky.pixels(ra, dec) >> 58).tolist() == list(range(12))


FORMATS = [
    ("t.vot", {"format": "votable"}),
    ("b.vot", {"format": "votable", "tabledata_format": "binary"}),
    ("t.ecsv", {}),
    ("b2.xml", {"format": "votable", "tabledata_format": "binary2"}),
    ("c.ecsv", {"delimiter": ","}),
    ("t.csv", {}),
]


@pytest.mark.parametrize("name, form", FORMATS)
def test_formats_give_equal_inputs(tmp_path, companion, name, form):
    table = survey(1500)
    table.write(tmp_path / "t.fits")
    table.write(tmp_path / name, **form)
    companion("to_input", "t.fits", "fits")
    companion("to_input", name, "other")
    assert (tmp_path / "fits-0000.csv").read_bytes() == (tmp_path / "other-0000.csv").read_bytes()


def test_parquet_has_the_same_rows(tmp_path, companion, hats):
    survey(3000).write(tmp_path / "t.fits")
    companion("to_input", "t.fits", "c", "--most-bytes", "60000")
    companion("to_input", "t.fits", "p", "--most-bytes", "60000", "--to", "parquet")
    names = {kind: sorted(n for n in os.listdir(tmp_path) if n.endswith(kind)) for kind in ("csv", "parquet")}
    assert len(names["csv"]) > 2 and len(names["parquet"]) > 2
    assert all(os.path.getsize(tmp_path / name) <= 60000 for kind in names.values() for name in kind)
    rows = {kind: [row for name in names[kind] for row in read_rows(str(tmp_path / name))] for kind in names}
    assert rows["csv"] == rows["parquet"] and len(rows["csv"]) == 3000
    assert list(read_columns(tmp_path / "p-0000.parquet")) == ["_healpix_29", "id", "cx", "cy", "cz"]
    assert hats("histogram", "29", *names["csv"]) == hats("histogram", "29", *names["parquet"])


@pytest.mark.parametrize("kind", ["csv", "parquet"])
@pytest.mark.parametrize("bytes_", [4096, 5000, 65536])
def test_no_input_is_longer_than_asked(tmp_path, companion, kind, bytes_):
    survey(900).write(tmp_path / "t.fits")
    companion("to_input", "t.fits", "in", "--to", kind, "--most-bytes", bytes_)
    names = sorted(name for name in os.listdir(tmp_path) if name.startswith("in-"))
    assert max(os.path.getsize(tmp_path / name) for name in names) <= bytes_
    assert [row[1] for name in names for row in read_rows(str(tmp_path / name))] == survey(900)["source_id"].tolist()


def test_several_blocks_of_rows(tmp_path, companion):
    count = 70001
    rng = numpy.random.default_rng(1)
    table = Table({"id": numpy.arange(count), "ra": rng.uniform(0, 360, count), "dec": rng.uniform(-90, 90, count)})
    table.write(tmp_path / "t.fits")
    table.write(tmp_path / "t.csv")
    for name in ("fits", "csv"):
        assert companion("to_input", f"t.{name}", name) == f"{name} rows {count} files 1 skipped 0\n"
    assert (tmp_path / "fits-0000.csv").read_bytes() == (tmp_path / "csv-0000.csv").read_bytes()
    companion("to_input", "t.csv", "p", "--to", "parquet")
    assert read_columns(tmp_path / "p-0000.parquet")["id"] == list(range(count))


def test_units(tmp_path, companion):
    table = survey(300)
    table.write(tmp_path / "deg.ecsv")
    turned = table.copy()
    turned["ra"], turned["dec"] = table["ra"].to("hourangle"), table["dec"].to("rad")
    turned.write(tmp_path / "other.ecsv")
    companion("to_input", "deg.ecsv", "deg")
    companion("to_input", "other.ecsv", "other")
    for name in ("ra", "dec"):
        turned[name].unit = None
    turned.write(tmp_path / "none.csv")
    companion("to_input", "none.csv", "none", "--ra-unit", "hourangle", "--dec-unit", "rad")
    first = numpy.array(read_rows(str(tmp_path / "deg-0000.csv")))
    for name in ("other", "none"):
        assert numpy.abs(numpy.array(read_rows(str(tmp_path / f"{name}-0000.csv")))[:, 2:] - first[:, 2:]).max() <= 1


def test_columns_by_name(tmp_path, companion):
    Table({"obj": [5], "RA": [1.0], "Decl": [2.0]}).write(tmp_path / "t.fits")
    companion("to_input", "t.fits", "in", "--id", "obj", "--dec", "Decl")
    assert read_rows(str(tmp_path / "in-0000.csv"))[0][1] == 5


NAN = float("nan")
FAULTS = [
    ("NaN", small(ra=[10.0, NAN, 30.0]), "row 2, column ra: nan"),
    ("infinite", small(dec=[-5.0, 0.0, float("inf")]), "row 3, column dec: inf"),
    ("dec too great", small(dec=[91.0, 0.0, 5.0]), "row 1, column dec: 91.0 is not within -90 to 90 degrees"),
    ("ra below 0", small(ra=[10.0, 20.0, -0.5]), "row 3, column ra: -0.5 is not within 0 to 360 degrees"),
    ("ra above 360", small(ra=[10.0, 360.5, 30.0]), "row 2, column ra: 360.5"),
    ("no ra", Table({"id": [1], "dec": [2.0]}), "no column ra; its columns are id, dec"),
    ("no id", Table({"ra": [1.0], "dec": [2.0]}), "no column source_id or id; its columns are ra, dec"),
    ("no rows", small()[:0], "no row in it"),
]


@pytest.mark.parametrize("suffix", ["fits", "vot", "ecsv", "csv"])
@pytest.mark.parametrize("table, said", [pytest.param(*fault[1:], id=fault[0]) for fault in FAULTS])
def test_faults_in_each_format(tmp_path, refused, table, said, suffix):
    table.write(tmp_path / f"t.{suffix}", **({"format": "votable"} if suffix == "vot" else {}))
    text = refused(2, "to_input", f"t.{suffix}", "in")
    assert f"t.{suffix}" in text and said in text


IDS = [
    ("text", "t.fits", small(id=["a", "b", "c"]), "column id holds text"),
    ("text of digits", "t.vot", small(id=["1", "2", "3"]), "column id holds text"),
    ("text in ECSV", "t.ecsv", small(id=["a", "b", "c"]), "column id holds text"),
    ("text in CSV", "t.csv", small(id=["7", "b", "c"]), "row 2, column id: 'b' is no whole number"),
    ("floats", "t.fits", small(id=[1.0, 2.0, 3.0]), "column id holds float64 numbers, not whole ones"),
    ("a float in CSV", "t.csv", small(id=[1.5, 2.0, 3.0]), "row 1, column id: '1.5' is no whole number"),
    (
        "too great",
        "t.fits",
        small(id=numpy.array([1, 2**63, 3], "u8")),
        "row 2, column id: 9223372036854775808 is past a signed",
    ),
    (
        "too great in CSV",
        "t.csv",
        small(id=numpy.array([1, 2, 2**64 - 1], "u8")),
        "row 3, column id: 18446744073709551615 is past",
    ),
    (
        "too small in CSV",
        "t.csv",
        small(id=[str(-(2**63) - 1), "1", "2"]),
        "row 1, column id: -9223372036854775809 is past",
    ),
    ("absent in CSV", "t.csv", small(id=["1", "", "2"]), "row 2, column id: absent"),
    (
        "masked",
        "t.fits",
        small(id=MaskedColumn([1, 2, 3], mask=[False, False, True], fill_value=-9)),
        "row 3, column id: absent",
    ),
    (
        "masked in VOTable",
        "t.vot",
        small(id=MaskedColumn([1, 2, 3], mask=[True, False, False])),
        "row 1, column id: absent",
    ),
]


@pytest.mark.parametrize("skip", [[], ["--skip-bad", "bad.csv"]])
@pytest.mark.parametrize("name, table, said", [pytest.param(*fault[1:], id=fault[0]) for fault in IDS])
def test_bad_ids_refuse(tmp_path, refused, name, table, said, skip):
    table.write(tmp_path / name, **({"format": "votable"} if name.endswith("vot") else {}))
    text = refused(2, "to_input", name, "in", *skip)
    assert name in text and said in text


def test_largest_ids(tmp_path, companion):
    ids = [-(2**63), 2**63 - 1, 0]
    small(id=ids).write(tmp_path / "t.fits")
    small(id=ids).write(tmp_path / "t.csv")
    for name in ("fits", "csv"):
        companion("to_input", f"t.{name}", name)
        assert [row[1] for row in read_rows(str(tmp_path / f"{name}-0000.csv"))] == ids


def test_all_bad_rows_are_counted(tmp_path, refused):
    Table({"id": range(100), "ra": [NAN] * 100, "dec": [0.0] * 100}).write(tmp_path / "t.csv")
    text = refused(2, "to_input", "t.csv", "in")
    assert (
        "rows without a usable position: 100" in text
        and "row 20," in text
        and "and 80 more" in text
        and "row 21," not in text
    )


def test_bad_rows_set_aside(tmp_path, companion):
    table = Table({"id": [1, 2, 3, 4, 5], "ra": ["1", "x", "3", "", "5"], "dec": [0.0, 0.0, 99.0, 0.0, 1.0]})
    table.write(tmp_path / "t.csv")
    assert companion("to_input", "t.csv", "in", "--skip-bad", "bad.csv") == "in rows 2 files 1 skipped 3\n"
    assert [row[1] for row in read_rows(str(tmp_path / "in-0000.csv"))] == [1, 5]
    with open(tmp_path / "bad.csv", newline="") as file:
        assert list(csv.reader(file)) == [
            ["row", "id", "ra", "dec", "why"],
            ["2", "2", "x", "0.0", "column ra: 'x' is no number"],
            ["3", "3", "3", "99.0", "column dec: 99.0 is not within -90 to 90 degrees"],
            ["4", "4", "", "0.0", "column ra: absent"],
        ]


def test_no_row_is_left(tmp_path, refused):
    small(ra=[NAN] * 3).write(tmp_path / "t.fits")
    assert "no row is left" in refused(2, "to_input", "t.fits", "in", "--skip-bad", "bad.csv")


@pytest.mark.parametrize(
    "name, data, said",
    [
        ("t.csv", b"", "no header"),
        ("t.csv", b"id,ra,dec\n1,2,3\n4,5\n", "row 2 has 2 cells, the header 3"),
        ("t.csv", b'id,ra,dec\n1,2,"3\n', "row 1: unexpected end of data"),
        ("t.fits", b"SIMPLE  =", "can't be read"),
        ("t.vot", b"<VOTABLE><RESOURCE><TABLE>", "can't be read"),
        ("t.vot", b"<VOTABLE/>", "no table"),
        ("t.ecsv", b"id ra dec\n1 2 3\n", "can't be read as ecsv"),
        ("t.dat", b"", "its suffix names no format"),
    ],
)
def test_files_that_are_no_tables(tmp_path, refused, name, data, said):
    (tmp_path / name).write_bytes(data)
    text = refused(2, "to_input", name, "in")
    assert name in text and said in text


def test_a_file_cut_short(tmp_path, refused):
    for name, form in (("t.fits", {}), ("t.vot", {"format": "votable"})):
        survey(500).write(tmp_path / name, **form)
        data = (tmp_path / name).read_bytes()
        (tmp_path / name).write_bytes(data[: len(data) * 2 // 3])
        assert name in refused(2, "to_input", name, "in")


def test_units_that_are_no_angles(tmp_path, refused):
    table = small()
    table["ra"].unit = "Jy"
    table.write(tmp_path / "t.ecsv")
    assert "column ra has the unit Jy, which is no angle" in refused(2, "to_input", "t.ecsv", "in")


def test_files_of_a_former_run(tmp_path, companion, refused):
    survey(900).write(tmp_path / "t.fits")
    companion("to_input", "t.fits", "in", "--most-bytes", "20000")
    before = {name: (tmp_path / name).read_bytes() for name in os.listdir(tmp_path)}
    assert len(before) > 3
    assert "in-0000.csv exists" in refused(7, "to_input", "t.fits", "in")
    assert {name: (tmp_path / name).read_bytes() for name in os.listdir(tmp_path)} == before
    assert companion("to_input", "t.fits", "in", "--overwrite") == "in rows 900 files 1 skipped 0\n"
    assert sorted(os.listdir(tmp_path)) == ["in-0000.csv", "t.fits"]


def test_a_refusal_keeps_the_former_files(tmp_path, companion, refused):
    small().write(tmp_path / "t.fits")
    small(ra=[NAN] * 3).write(tmp_path / "bad.fits")
    companion("to_input", "t.fits", "in")
    kept = (tmp_path / "in-0000.csv").read_bytes()
    refused(2, "to_input", "bad.fits", "in", "--overwrite")
    assert (tmp_path / "in-0000.csv").read_bytes() == kept


@pytest.mark.parametrize(
    "words",
    [
        [],
        ["t.fits"],
        ["t.fits", "in", "--to", "fits"],
        ["t.fits", "in", "--most-bytes", "67108865"],
        ["t.fits", "a\nb"],
        ["t.fits", ""],
        ["t.fits", "--", "-x"],
    ],
)
def test_wrong_words(tmp_path, refused, words):
    small().write(tmp_path / "t.fits")
    refused(1, "to_input", *words)


def test_as_a_program(tmp_path):
    small().write(tmp_path / "t.fits")
    program = os.path.join(COMPANIONS, "to_input")
    done = call(program, "t.fits", "in", folder=tmp_path)
    assert (done.status, done.out, done.err) == (0, "in rows 3 files 1 skipped 0\n", "")
    assert call(program, "t.fits", folder=tmp_path).status == 1
    assert call(program, "none.fits", "other", folder=tmp_path).status == 2
    assert call(program, "--help", folder=tmp_path).status == 0


def test_a_folder_that_is_not_there(tmp_path, refused):
    small().write(tmp_path / "t.fits")
    assert "can't be written" in refused(7, "to_input", "t.fits", "none/in")
    assert "can't be read" in refused(2, "to_input", "none.fits", "in")
