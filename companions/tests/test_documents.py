"""The manual page has its form, and README's six lines from a table to a match run as they stand."""
import os
import shutil
import subprocess

import pytest
from astropy.table import Table

from conftest import COMPANIONS, HATS

REPOSITORY = os.path.dirname(COMPANIONS)
HEADING = "## From your table to a match\n"


@pytest.mark.skipif(shutil.which("mandoc") is None, reason="the package mandoc is missing")
def test_the_manual_page():
    page = os.path.join(REPOSITORY, "docs", "hats.1")
    done = subprocess.run(["mandoc", "-Tlint", page], capture_output=True, text=True)
    assert (done.returncode, done.stdout) == (0, "")


def test_the_lines_of_readme(tmp_path):
    with open(os.path.join(REPOSITORY, "README.md"), encoding="utf-8") as file:
        section = file.read().split(HEADING)[1]
    lines = section.split("```sh\n")[1].split("```")[0]
    assert len(lines.splitlines()) == 6
    for name in ("companions", "examples"):
        os.symlink(os.path.join(REPOSITORY, name), tmp_path / name)
    os.symlink(HATS, tmp_path / "hats")
    done = subprocess.run(["sh", "-e", "-c", lines], cwd=tmp_path, capture_output=True, text=True)
    assert done.returncode == 0, done.stderr
    assert done.stdout.splitlines()[-2:] == ["optical radio rows 600 matched 220", "matched.fits rows 600 matched 220"]
    joined = Table.read(tmp_path / "matched.fits")
    assert len(joined) == 600 and joined["separation"].max() < 3
