"""many: as one process, line by line; failures, refusals, other jobs."""
import os
import shutil
import stat

import numpy
import pytest

pytest.importorskip("distributed", reason="the package python3-distributed is missing")

from conftest import COMPANIONS, HATS, call, call_here
from astropy.table import Table

RADIUS = "2000000"
MANY = os.path.join(COMPANIONS, "many")


def many(folder, *words, status=0, hats=HATS, quiet=True):
    done = call(MANY, "--hats", hats, *words, folder=folder)
    assert done.status == status, (done.out, done.err)
    assert "Traceback" not in done.err or quiet is False
    return done.out if status == 0 else done.err


def make_inputs(folder, rows=600, parts=4):
    """Right rows, and left ones in several inputs, of which many match at a radius of about 400 arcseconds."""
    rng = numpy.random.default_rng(4)
    ra, dec = rng.uniform(0, 360, rows), numpy.degrees(numpy.arcsin(rng.uniform(-1, 1, rows)))
    Table({"id": numpy.arange(rows), "ra": ra, "dec": dec}).write(folder / "right.csv")
    moved = numpy.clip(dec + rng.uniform(-0.2, 0.2, rows), -90, 90)
    for part in range(parts):
        at = slice(part * rows // parts, (part + 1) * rows // parts)
        Table({"id": rng.permutation(rows)[at], "ra": ra[at], "dec": moved[at]}).write(folder / f"left{part}.csv")
        assert call_here("to_input", f"left{part}.csv", f"left{part}", folder=folder).status == 0
    assert call_here("to_input", "right.csv", "right", folder=folder).status == 0
    return [f"left{part}-0000.csv" for part in range(parts)]


@pytest.fixture
def job(tmp_path, hats):
    names = make_inputs(tmp_path)
    hats("import", "--highest", "3", "--margin-order", "4", "--threshold", "100", "right", "right-0000.csv")
    return ["right", RADIUS, "out", *names]


def other_hats(folder, body):
    """A program in place of hats, which may hand its words on."""
    path = folder / "other_hats"
    path.write_text(f"#!/bin/sh\n{body}\n")
    path.chmod(path.stat().st_mode | stat.S_IXUSR)
    return str(path)


def test_two_processes_as_one(tmp_path, job, hats):
    said = many(tmp_path, "--processes", "2", *job)
    assert said.startswith("out inputs 4 rows 600 matched ")
    by_two = (tmp_path / "out.csv").read_bytes()
    one_by_one = [*job[:2], "alone", *job[3:]]
    for number in range(4):
        assert many(tmp_path, "--only", number, *one_by_one) == f"{job[3 + number]} done\n"
    assert many(tmp_path, "--join", *one_by_one) == said.replace("out", "alone")
    assert (tmp_path / "alone.csv").read_bytes() == by_two
    hats("import", "--threshold", "100", "whole", *job[3:])
    hats("xmatch", "whole", "right", RADIUS, "all")
    head, *lines = (tmp_path / "all.csv").read_text().splitlines()
    assert by_two.decode().splitlines()[0] == head and len(lines) == 600
    assert sorted(by_two.decode().splitlines()[1:]) == sorted(lines)
    assert 100 < sum(not line.endswith(",,,") for line in lines) < 600


def test_failed_tasks_are_run_again(tmp_path, job):
    many(tmp_path, "--processes", "2", *job)
    expected = (tmp_path / "out.csv").read_bytes()
    shutil.rmtree(tmp_path / "out.many")
    os.remove(tmp_path / "out.csv")
    fails_once = other_hats(
        tmp_path, f'if [ ! -e "failed-$1" ]; then : > "failed-$1"; echo store fault >&2; exit 5; fi\nexec {HATS} "$@"'
    )
    many(tmp_path, "--processes", "2", *job, hats=fails_once)
    assert (tmp_path / "out.csv").read_bytes() == expected


def test_a_process_that_is_killed(tmp_path, job):
    """The first hats kills the process that called it; the task is run again by another. Dask may log what it met."""
    kills = other_hats(
        tmp_path, f'if mkdir "{tmp_path}/killed" 2>/dev/null; then kill -9 $PPID; sleep 2; exit 5; fi\nexec {HATS} "$@"'
    )
    said = many(tmp_path, "--processes", "2", *job, hats=kills, quiet=False)
    assert said.startswith("out inputs 4 rows 600 matched ") and (tmp_path / "killed").is_dir()
    many(tmp_path, "--processes", "1", *job[:2], "again", *job[3:])
    assert (tmp_path / "out.csv").read_bytes() == (tmp_path / "again.csv").read_bytes()


def test_a_scheduler_that_is_not_there(tmp_path, job):
    os.environ["DASK_DISTRIBUTED__COMM__TIMEOUTS__CONNECT"] = "1s"
    try:
        assert "can't be reached" in many(tmp_path, "--scheduler", "tcp://127.0.0.1:9", *job, status=75)
    finally:
        del os.environ["DASK_DISTRIBUTED__COMM__TIMEOUTS__CONNECT"]


def test_a_program_that_is_not_there(tmp_path, job):
    for alone in ([], ["--only", "0"]):
        assert "./none is no program" in many(tmp_path, *alone, *job, hats="./none", status=1)


def test_a_failure_that_stays(tmp_path, job):
    fails = other_hats(
        tmp_path, f'case "$(readlink input.csv)" in *left2*) echo store fault >&2; exit 5;; esac\nexec {HATS} "$@"'
    )
    said = many(tmp_path, "--processes", "2", "--retries", "1", *job, hats=fails, status=75)
    assert "left2-0000.csv: failed, also when it was run again: hats import ended with status 5: store fault" in said
    assert not (tmp_path / "out.csv").exists()
    assert "left2-0000.csv: hats import ended with status 5" in many(
        tmp_path, "--only", "2", *job, hats=fails, status=75
    )
    assert many(tmp_path, "--processes", "1", *job).startswith("out inputs 4 ")


def test_the_first_refusal_is_told(tmp_path, job):
    refuses = other_hats(
        tmp_path,
        f'case "$1$(readlink input.csv)" in import*left[13]*) echo bad input 0 row 5 why 3 >&2; exit 2;; esac\nexec {HATS} "$@"',
    )
    said = many(tmp_path, "--processes", "2", *job, hats=refuses, status=2)
    assert "left1-0000.csv: hats import ended with status 2: bad input 0 row 5 why 3" in said and "left3" not in said
    assert not (tmp_path / "out.csv").exists()


def test_another_job(tmp_path, job):
    many(tmp_path, "--only", "0", *job)
    assert "out.many is of another job" in many(tmp_path, "--only", "0", "right", "5", *job[2:], status=2)
    assert "out.many is of another job" in many(tmp_path, "--join", *job[:-1], status=2)
    assert "out.many/00001/match.csv isn't there" in many(tmp_path, "--join", *job, status=2)
    with open(tmp_path / job[-1], "a") as file:
        file.write("1,0,1000000000,0,0\n")
    assert "out.many is of another job, or its inputs changed" in many(tmp_path, "--only", "0", *job, status=2)


@pytest.mark.parametrize(
    "words, status, said",
    [
        (["none", "5", "out", "left0-0000.csv"], 2, "none/hats.properties can't be read"),
        (["right", "5", "out", "none.csv"], 2, "none.csv can't be read"),
        (["right", "5", "out", "left.fits"], 1, "ends neither in .csv nor in .parquet"),
        (["right", "2000000001", "out", "left0-0000.csv"], 1, "is not a whole number from 0 to 2000000000"),
        (["right", "5", "o/t", "left0-0000.csv"], 1, "'o/t' is no name"),
        (["a_margin", "5", "out", "left0-0000.csv"], 1, "'a_margin' is no name"),
        (["--only", "1", "right", "5", "out", "left0-0000.csv"], 1, "there is no input 1"),
        (["right", "5", "out"], 1, "required"),
    ],
)
def test_wrong_words(tmp_path, job, words, status, said):
    done = call_here("many", *words, folder=tmp_path)
    assert (done.status, done.out) == (status, "") and said in done.err
