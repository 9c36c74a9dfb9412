"""What the tests of the package share: the command called as it is typed, from the repository's root; and how sites are written."""

from __future__ import annotations

import io
import sys
from pathlib import Path
from typing import NamedTuple

import pytest
from hypothesis import HealthCheck, settings
from hypothesis.configuration import set_hypothesis_home_dir

ROOT = Path(__file__).resolve().parents[2]
sys.path[:0] = [str(ROOT / "python"), str(Path(__file__).resolve().parent)]

from shahfureel import commands  # noqa: E402

set_hypothesis_home_dir(str(ROOT / "target/hypothesis"))
# how fast a machine is, and what runs beside the tests, is none of their business
settings.register_profile("gate", deadline=None, max_examples=60, database=None, suppress_health_check=[HealthCheck.too_slow])
settings.load_profile("gate")

HEADER = "name,A,B,C,L,least,greatest,previous,up,down,must run,zones"
GOOD = "a,1,2,0.01,0.00001,3,10,8,2,2,yes,4.5-5.5"
COLUMNS = (
    "the columns, with commas between: name, A, B, C, L, least, greatest, previous, up, down, must run, zones;"
    " also L1 where losses have a linear part"
)


class Said(NamedTuple):
    status: int
    out: str
    err: str


@pytest.fixture(autouse=True)
def at_root(monkeypatch):
    monkeypatch.chdir(ROOT)


@pytest.fixture
def say(capsys, monkeypatch):
    """say(WORD..., stdin=BYTES): the status, standard output and standard error of a command."""

    def run(*words, stdin=None):
        if stdin is not None:
            monkeypatch.setattr(sys, "stdin", io.TextIOWrapper(io.BytesIO(stdin)))
        capsys.readouterr()
        try:
            status = commands.main([str(word) for word in words], "python3 -m shahfureel")
        except SystemExit as end:
            status = end.code
        return Said(status, *capsys.readouterr())

    return run


@pytest.fixture
def site(tmp_path):
    """site(LINE...): a CSV file of these lines behind the header; site(bytes) one of these bytes."""

    def write(*lines, header=HEADER, name="site.csv"):
        path = tmp_path / name
        if lines and isinstance(lines[0], bytes):
            path.write_bytes(lines[0])
        else:
            path.write_text("".join(f"{line}\n" for line in (header, *lines)), encoding="utf-8")
        return path

    return write
