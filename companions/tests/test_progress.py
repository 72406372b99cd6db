"""progress: what a journal records."""
import os
import pty
import subprocess
import threading
import time
from types import SimpleNamespace

import pytest

from conftest import COMPANIONS
from plain_hats import journal_body, journal_head

PROGRAM = os.path.join(COMPANIONS, "progress")


def head(folder, inputs=2):
    names = [str(folder / f"a{number}.csv") for number in range(inputs)]
    for name in names:
        with open(name, "w") as file:
            file.write("x")
    return journal_head(SimpleNamespace(name="t", lowest=0, highest=7, threshold=10, margin_order=10, files=names))


def write_journal(folder, bodies, end=b"\0", start=None):
    os.makedirs(folder / "t.work", exist_ok=True)
    text = (head(folder) if start is None else start) + b"".join(b"\1" + body for body in bodies) + end
    (folder / "t.work" / "journal").write_bytes(text)


MAPS = [journal_body(1, 0, 100), journal_body(1, 1, 50)]
PLAN = [journal_body(2, 0, 3)]
SPLITS = [journal_body(3, number, 0) for number in range(2)]
REST = [journal_body(kind, number, 0) for kind in (4, 5, 6) for number in range(3)]
LISTS = [journal_body(7, number, 0) for number in range(3)]


@pytest.mark.parametrize(
    "bodies, counts, rows",
    [
        ([], ["0 of 2", "0 of 1", "0 of 2", "0 of ?", "0 of ?", "0 of ?", "0 of 3", "0 of 1"], 0),
        (MAPS[:1], ["1 of 2", "0 of 1", "0 of 2", "0 of ?", "0 of ?", "0 of ?", "0 of 3", "0 of 1"], 100),
        (
            MAPS + PLAN + SPLITS + REST[:4],
            ["2 of 2", "1 of 1", "2 of 2", "3 of 3", "1 of 3", "0 of 3", "0 of 3", "0 of 1"],
            150,
        ),
        (
            MAPS + PLAN + SPLITS + REST + LISTS + [journal_body(8, 0, 0)],
            ["2 of 2", "1 of 1", "2 of 2", "3 of 3", "3 of 3", "3 of 3", "3 of 3", "1 of 1"],
            150,
        ),
    ],
)
@pytest.mark.parametrize("end", [b"", b"\0", b"\x37 rubbish", b"\0" + b"\1" * 40, b"\1 a record cut short"])
def test_counts_by_hand(tmp_path, companion, bodies, counts, rows, end):
    write_journal(tmp_path, bodies, end)
    before = (tmp_path / "t.work" / "journal").read_bytes()
    kinds = ["map", "plan", "split", "reduce", "margin split", "margin reduce", "lists", "properties"]
    expected = [f"{kind}: {count}" for kind, count in zip(kinds, counts)] + [f"rows read: {rows}"]
    assert companion("progress", "t").splitlines() == expected
    assert (tmp_path / "t.work" / "journal").read_bytes() == before


def test_a_finished_import(tmp_path, companion, hats):
    (tmp_path / "a.csv").write_text("id,_healpix_29,cx,cy,cz\n7,0,1000000000,0,0\n")
    hats("import", "t", "a.csv")
    said = companion("progress", "t").splitlines()
    assert said[:4] == ["map: 1 of 1", "plan: 1 of 1", "split: 1 of 1", "reduce: 1 of 1"] and said[-1] == "rows read: 1"


def test_a_bar_as_the_journal_grows(tmp_path):
    """On a terminal the bar goes on until all is recorded."""
    write_journal(tmp_path, MAPS)
    ours, theirs = pty.openpty()
    running = subprocess.Popen([PROGRAM, "t"], cwd=tmp_path, stdout=subprocess.PIPE, stderr=theirs, text=True)
    os.close(theirs)
    seen = []

    def read():
        try:
            while data := os.read(ours, 4096):
                seen.append(data.decode(errors="replace"))
        except OSError:
            pass

    reader = threading.Thread(target=read)
    reader.start()
    until = time.time() + 60
    while "t: plan" not in "".join(seen) and time.time() < until:
        time.sleep(0.1)
    write_journal(tmp_path, MAPS + PLAN + SPLITS + REST + LISTS)
    while "t: properties" not in "".join(seen) and time.time() < until:
        time.sleep(0.1)
    write_journal(tmp_path, MAPS + PLAN + SPLITS + REST + LISTS + [journal_body(8, 0, 0)])
    out, _ = running.communicate(timeout=60)
    reader.join(10)
    os.close(ours)
    text = "".join(seen)
    assert running.returncode == 0 and out.splitlines()[-2:] == ["properties: 1 of 1", "rows read: 150"]
    assert "t: plan" in text and "17/18" in text and "18/18" in text and "task/s" in text


@pytest.mark.parametrize(
    "data, said",
    [
        (b"", "is no journal of hats"),
        (b"hats-journal 0\nend\n\0", "is no journal of hats"),
        (
            b"hats-journal 1\nname t\nlowest 0\nhighest 7\nthreshold 1\nmargin_order 10\ninputs 2\ninput 1 a.csv\nend\n\0",
            "not as many inputs",
        ),
    ],
)
def test_damaged_heads(tmp_path, refused, data, said):
    write_journal(tmp_path, [], b"", data)
    assert said in refused(2, "progress", "t")


def test_a_damaged_record(tmp_path, refused):
    start = head(tmp_path)
    for body in (journal_body(9, 0, 0), journal_body(0, 0, 0), journal_body(1, 0, 0)[:-1] + b"\1"):
        write_journal(tmp_path, [*MAPS, body], start=start)
        assert f"t.work/journal: the record at {len(start) + 66} is damaged" in refused(2, "progress", "t")


def test_no_journal(tmp_path, refused):
    assert "no import was begun" in refused(2, "progress", "t")
    os.makedirs(tmp_path / "t")
    (tmp_path / "t" / "hats.properties").write_text("")
    assert "the catalogue is finished" in refused(2, "progress", "t")
    refused(1, "progress")
