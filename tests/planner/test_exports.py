"""Files as spreadsheets save them, kept byte by byte in exports/: LibreOffice 7.4 and Gnumeric 1.12 wrote them of one sheet, with a column
that the package does not know, a name that is not ASCII, empty cells and quotes in a text."""

from __future__ import annotations

from pathlib import Path

import pytest
from conftest import ROOT

from shahfureel import Faults, read, table

EXPORTS = Path(__file__).resolve().parent / "exports"
SAME = sorted(path.name for path in EXPORTS.glob("libreoffice-*"))
HYDRO = ("diesel 1", "diesel 2", "standby", "hydro \u00e9")
PASSED = 'line 1: there is no column "remark": it is passed over'


@pytest.mark.parametrize("name", SAME)
def test_libreoffice(name):
    """Commas and points, tabs with every field in quotes, semicolons and decimal commas, in UTF-8 and in Windows-1252."""
    site, notes = table.read_site(name, (EXPORTS / name).read_bytes())
    assert site.names == HYDRO and site.case("23.5") == (ROOT / "examples/harbour.case").read_bytes()
    assert notes[-1] == PASSED and len(notes) == (2 if "1252" in name else 1)


@pytest.mark.parametrize("name", ["gnumeric-comma.csv", "gnumeric-tab-quoted.txt"])
def test_gnumeric(name):
    """Numbers such as 3.2E-05; of this sheet the hydro set's C is 0.0125."""
    site, notes = table.read_site(name, (EXPORTS / name).read_bytes())
    assert site.names == HYDRO and notes == [PASSED]
    assert [one.row() for one in site.sets[:3]] == [one.row() for one in read(ROOT / "examples/harbour.csv").sets[:3]]
    assert site.sets[3].row()[:4] == [2_000_000, 300_000, 125, 800]


def test_gnumeric_and_a_long_fraction():
    """Gnumeric wrote a cell of 0.01 as 0.0099999999999999999998. That is not 0.01, and no number is rounded unseen."""
    with pytest.raises(Faults) as fault:
        read(EXPORTS / "gnumeric-long-fraction.csv")
    assert fault.value.lines == [
        "line 5, column C: 0.0099999999999999999998 is not a whole number of 0.0001: 0.01 is, if a program has written it so"]
