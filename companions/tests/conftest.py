"""What the tests of the companions share. They are skipped where a package is missing."""
import contextlib
import io
import os
import runpy
import signal
import subprocess
import sys
from types import SimpleNamespace

import pytest

HERE = os.path.dirname(os.path.realpath(__file__))
COMPANIONS = os.path.dirname(HERE)
PLAIN_HATS = os.path.join(HERE, "plain_hats.py")
HATS = os.path.abspath(os.environ["HATS"]) if os.environ.get("HATS") else PLAIN_HATS
NEEDED = ["numpy", "astropy", "astropy_healpix", "matplotlib", "tqdm"]

sys.path[:0] = [COMPANIONS, HERE]
sys.dont_write_bytecode = True
os.environ["PYTHONDONTWRITEBYTECODE"] = "1"


def missing():
    for name in NEEDED:
        try:
            __import__(name)
        except ImportError:
            yield name


MISSING = list(missing())
collect_ignore_glob = ["test_*.py"] if MISSING else []


def pytest_terminal_summary(terminalreporter):
    if MISSING:
        terminalreporter.write_line(f"skipped: all tests, since these packages are missing: {', '.join(MISSING)}")
    elif HATS == PLAIN_HATS:
        terminalreporter.write_line("hats was the plain stand-in of the tests: the variable HATS names a program")
    else:
        terminalreporter.write_line(f"hats was {HATS}")


def pytest_sessionfinish(session):
    if MISSING:
        session.exitstatus = 0


def call(program, *words, folder):
    """Runs a program by its path; answers its status and what it said."""
    done = subprocess.run([program, *map(str, words)], cwd=folder, capture_output=True, text=True, timeout=600)
    return SimpleNamespace(status=done.returncode, out=done.stdout, err=done.stderr)


def call_here(name, *words, folder):
    """Runs a companion in this process, which has its packages loaded already; answers as `call`."""
    out, err, status = io.StringIO(), io.StringIO(), 0
    before, words_before, ended_before = os.getcwd(), sys.argv, signal.getsignal(signal.SIGTERM)
    path = os.path.join(COMPANIONS, name)
    sys.argv = [path, *map(str, words)]
    os.chdir(folder)
    try:
        with contextlib.redirect_stdout(out), contextlib.redirect_stderr(err):
            runpy.run_path(path, run_name="__main__")
    except SystemExit as ended:
        status = ended.code or 0
    finally:
        os.chdir(before)
        sys.argv = words_before
        signal.signal(signal.SIGTERM, ended_before)
    return SimpleNamespace(status=status, out=out.getvalue(), err=err.getvalue())


@pytest.fixture
def companion(tmp_path):
    """Runs a companion in the test's folder; it has to end with status 0."""

    def run(name, *words):
        done = call_here(name, *words, folder=tmp_path)
        assert done.status == 0, done.err
        return done.out

    return run


@pytest.fixture
def refused(tmp_path):
    """Runs a companion in the test's folder; it has to end with the status and to leave no file but those that were there."""

    def run(status, name, *words):
        before = sorted(os.listdir(tmp_path))
        done = call_here(name, *words, folder=tmp_path)
        assert done.status == status, (done.out, done.err)
        assert "Traceback" not in done.err
        assert sorted(os.listdir(tmp_path)) == before
        return done.err

    return run


@pytest.fixture
def hats(tmp_path):
    """Runs hats, or its plain stand-in, in the test's folder; it has to end with status 0."""

    def run(*words):
        done = call(HATS, *words, folder=tmp_path)
        assert done.status == 0, (words, done.err)
        return done.out

    return run
