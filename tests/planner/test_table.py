"""CSV: every message by line and column, every form that is taken, and what must never be taken."""

from __future__ import annotations

from decimal import Decimal

import pytest
from conftest import COLUMNS, GOOD, HEADER, ROOT

from shahfureel import Faults, read, table

NO_NUMBER = "is not a number like 12 or 12.5"
RISE = (
    "least, the edges of the zones and greatest must rise, from 0.1 MW or more (a zone may start where the one before ends); they are"
)
EXCESS = "L1 + 1999.9 L is not below 1: near 1,000 MW its losses would grow as fast as its output"
FEW = "it has 11 fields, and the header has 12"


def row(**values):
    """The good set with other values."""
    fields = dict(zip(HEADER.split(","), GOOD.split(",")))
    fields.update({key.replace("_", " "): value for key, value in values.items()})
    return ",".join(fields.values())


def refused(path):
    with pytest.raises(Faults) as fault:
        read(path)
    return fault.value.lines


VALUES = [
    (row(up="2.55"), "line 2, column up: 2.55 is not a whole number of 0.1 MW"),
    (row(A="0.0000001"), "line 2, column A: 0.0000001 is not a whole number of 0.000001"),
    (row(B="2.000001"), "line 2, column B: 2.000001 is not a whole number of 0.00001"),
    (row(C="0.00005"), "line 2, column C: 0.00005 is not a whole number of 0.0001"),
    (row(L="0.00000001"), "line 2, column L: 0.00000001 is not a whole number of 0.0000001"),
    (row(A="1000000000001"), "line 2, column A: 1000000000001 is above 1,000,000,000,000"),
    (row(B="1e11", A="1E400"), "line 2, column A: 1E400 is above 1,000,000,000,000"),
    (row(C="100000000.1"), "line 2, column C: 100000000.1 is above 100,000,000"),
    (row(L="0.0005001"), "line 2, column L: 0.0005001 is above 0.0005"),
    (row(least="1000.1"), "line 2, column least: 1000.1 is above 1,000 MW"),
    (row(greatest="9" * 26), f"line 2, column greatest: {'9' * 26} is above 1,000 MW"),
    (row(previous="4294967296"), "line 2, column previous: 4294967296 is above 1,000 MW"),
    (row(up="1001"), "line 2, column up: 1001 is above 1,000 MW"),
    (row(down="1000.1"), "line 2, column down: 1000.1 is above 1,000 MW"),
    (row(zones="4.5-1000.1"), "line 2, column zones: 1000.1 is above 1,000 MW"),
    (row(A="-1"), f"line 2, column A: -1 {NO_NUMBER}"),
    (row(A="1.2.3"), f"line 2, column A: 1.2.3 {NO_NUMBER}"),
    (row(A="."), f"line 2, column A: . {NO_NUMBER}"),
    (row(A="+1"), f"line 2, column A: +1 {NO_NUMBER}"),
    (row(A="1e"), f"line 2, column A: 1e {NO_NUMBER}"),
    (row(A="NaN"), f"line 2, column A: NaN {NO_NUMBER}"),
    (row(A="inf"), f"line 2, column A: inf {NO_NUMBER}"),
    (row(A="1 000"), f"line 2, column A: 1 000 {NO_NUMBER}"),
    (row(A="\u0661\u0662"), f"line 2, column A: \u0661\u0662 {NO_NUMBER}"),
    (row(A='"79,5"'), f"line 2, column A: 79,5 {NO_NUMBER}"),
    (row(A="1e-999999999999999999999"), "line 2, column A: 1e-999999999999999999999 is not a whole number of 0.000001"),
    (row(A="1e999999999999999999999"), "line 2, column A: 1e999999999999999999999 is above 1,000,000,000,000"),
    (row(A="9" * 5000), f"line 2, column A: {'9' * 40}... (5000 characters) is above 1,000,000,000,000"),
    (row(C="0.0099999999999999999998"), "line 2, column C: 0.0099999999999999999998 is not a whole number of 0.0001: 0.01 is, if a program"
     " has written it so"),
    (row(up="0.30000000000000004"), "line 2, column up: 0.30000000000000004 is not a whole number of 0.1 MW: 0.3 is, if a program has"
     " written it so"),
    (row(previous=""), f"line 2, column previous: nothing stands there, and that {NO_NUMBER}"),
    (row(must_run="maybe"), "line 2, column must run: maybe is neither yes nor no"),
    (row(must_run=""), "line 2, column must run: nothing stands there, and that is neither yes nor no"),
    (row(zones="4.5"), "line 2, column zones: 4.5 is not a zone like 4.5-5.5"),
    (row(zones="4.5-"), "line 2, column zones: 4.5- is not a zone like 4.5-5.5"),
    (row(zones="-5.5"), "line 2, column zones: -5.5 is not a zone like 4.5-5.5"),
    (row(zones="7to7.4"), "line 2, column zones: 7to7.4 is not a zone like 4.5-5.5"),
    (row(zones="5-Mar"), "line 2, column zones: 5-Mar is not a zone like 4.5-5.5: a spreadsheet makes a date of such a zone; give the"
     " column the format text"),
    (row(zones="2026-03-05"), "line 2, column zones: 2026-03-05 is not a zone like 4.5-5.5: a spreadsheet makes a date of such a zone; give"
     " the column the format text"),
    (row(zones="4.5-5.55"), "line 2, column zones: 5.55 is not a whole number of 0.1 MW"),
    (row(name=""), "line 2, column name: nothing stands there, and that is no name"),
    (row(zones="5.5-4.5"), f"line 2, set a: {RISE} 3.0 5.5 4.5 10.0"),
    (row(zones="1-2"), f"line 2, set a: {RISE} 3.0 1.0 2.0 10.0"),
    (row(zones="9-11"), f"line 2, set a: {RISE} 3.0 9.0 11.0 10.0"),
    (row(zones="4-6 5-7"), f"line 2, set a: {RISE} 3.0 4.0 6.0 5.0 7.0 10.0"),
    (row(least="0"), f"line 2, set a: {RISE} 0.0 4.5 5.5 10.0"),
    (row(least="1", zones="2-3 3.5-4 4.5-5 5.5-6 6.5-7 7.5-8"), "line 2, set a: it has more than four zones: join some of them"),
    ("a,1,2,0.01,0.00001,3,10,8,2,2,yes", f"line 2: {FEW}"),
    (GOOD + ",", "line 2: it has 13 fields, and the header has 12"),
    ('"' + GOOD, "line 2: a quoted field does not end in its line"),
    ('"a"b' + GOOD[1:], "line 2: a quoted field goes on behind its quotes"),
]


@pytest.mark.parametrize("line, message", VALUES, ids=[message[:60] for _, message in VALUES])
def test_a_wrong_value_is_named(site, line, message):
    assert refused(site(line)) == [message]


LOSSES = [
    ("0", "0.10000001", "line 2, column L1: 0.10000001 is above 0.1"),
    ("0", "-0.10000001", "line 2, column L1: -0.10000001 is below -0.1"),
    ("0", "-" + "9" * 20, f"line 2, column L1: -{'9' * 20} is below -0.1"),
    ("0", "0.000000001", "line 2, column L1: 0.000000001 is not a whole number of 0.00000001"),
    ("0", "-0.000000001", "line 2, column L1: -0.000000001 is not a whole number of 0.00000001"),
    ("0", "-", "line 2, column L1: - is not a number like 0.02 or -0.02"),
    ("0", "--0.1", "line 2, column L1: --0.1 is not a number like 0.02 or -0.02"),
    ("0", "+0.1", "line 2, column L1: +0.1 is not a number like 0.02 or -0.02"),
    ("-0.0001", "0", f"line 2, column L: -0.0001 {NO_NUMBER}"),
    ("0.0005", "0.00005", f"line 2, set a: {EXCESS}"),
    ("0.0004501", "0.1", f"line 2, set a: {EXCESS}"),
]


@pytest.mark.parametrize("square, linear, message", LOSSES)
def test_wrong_losses_are_named(site, square, linear, message):
    assert refused(site(f"{row(L=square)},{linear}", header=f"{HEADER},L1")) == [message]


TAKEN = [
    ("0.00001", "0.1", "0064", "00989680"),
    ("0.00001", "-0.1", "0064", "ff676980"),
    ("0.00001", "0.00000001", "0064", "00000001"),
    ("0.00001", "-0.00000001", "0064", "ffffffff"),
    ("0.00001", "-1E-8", "0064", "ffffffff"),
    ("0.00001", "-.05", "0064", "ffb3b4c0"),
    ("0.00001", "0", "0064", "00000000"),
    ("0.00001", "-0", "0064", "00000000"),
    ("0.00001", "", "0064", "00000000"),
    ("0.0005", "0.00004999", "1388", "00001387"),
]


@pytest.mark.parametrize("square, linear, b, b1", TAKEN)
def test_losses_as_they_stand_in_a_case_file(site, square, linear, b, b1):
    before, between, behind = "0002000100000032000c0022000f424000030d400064", "001e006400500014001400010001", "002d0037"
    case = read(site(f"{row(L=square)},{linear}", header=f"{HEADER},L1")).case(5)
    assert case.hex() == before + b + between + b1 + behind
    first = site(f"{linear},{row(L=square)}", header=f"L1,{HEADER}", name="first.csv")
    assert read(first).case("5") == case


def test_all_faults_at_once_in_the_order_of_the_lines(site):
    lines = [row(A="x", up="2.55"), "# b", row(name="b", zones="5-4"), row(name="c", must_run="?"), "d", row(name="b")]
    assert refused(site(*lines)) == [
        f"line 2, column A: x {NO_NUMBER}",
        "line 2, column up: 2.55 is not a whole number of 0.1 MW",
        f"line 4, set b: {RISE} 3.0 5.0 4.0 10.0",
        "line 5, column must run: ? is neither yes nor no",
        "line 6: it has 1 fields, and the header has 12",
        "line 7, column name: b is the name of another set too",
    ]


def test_names(site):
    assert refused(site(GOOD, GOOD)) == ["line 3, column name: a is the name of another set too"]
    marked = site("yes,#a,1,2,0.01,0.00001,3,10,8,2,2,", header="must run," + HEADER.replace(",must run", ""))
    assert refused(marked) == ["line 2, column name: #a begins with #: put the # before the whole line, to take the set out"]
    assert read(site('"old ""A"", left",0,2,0,0,3,10,0,,,no,')).names == ('old "A", left',)


def test_headers(site):
    assert refused(site(GOOD, header=HEADER.replace("up", "ramp"))) == [
        'line 1: there is no column "ramp"', "line 1: column up is missing", COLUMNS]
    assert refused(site(GOOD, header=HEADER.replace(",L", "", 1))) == ["line 1: column L is missing", COLUMNS]
    assert refused(site(GOOD, header=HEADER + ",B")) == ["line 1: column B is there twice", COLUMNS]
    assert refused(site(GOOD + ",0,0", header=HEADER + ",L1,l1")) == ["line 1: column L1 is there twice", COLUMNS]
    assert refused(site(GOOD, header=HEADER + ",L1")) == ["line 2: it has 12 fields, and the header has 13"]
    none = ["line 1: it is no line of columns, and the first line must be one", COLUMNS]
    assert refused(site(GOOD, header=GOOD)) == none
    assert refused(site(GOOD, header="a sheet")) == none
    any_case = site(GOOD, header="NAME,a,b,c,l,Least (MW),GREATEST,Previous,Up,down [MW],Must_Run,Zones")
    assert read(any_case).case(5) == read(site(GOOD)).case(5)


def test_unknown_columns_are_passed_over_with_a_note(site):
    path = site(GOOD + ",new,", header=HEADER + ",remark,")
    assert table.read_site("x", path.read_bytes())[1] == ['line 1: there is no column "remark": it is passed over']
    with pytest.warns(UserWarning) as warned:
        read(path)
    assert [str(one.message) for one in warned] == [f'{path}: line 1: there is no column "remark": it is passed over']
    assert [one.filename for one in warned] == [__file__]


def test_33_sets(site):
    assert refused(site(*(f"{i}{GOOD[1:]}" for i in range(33)))) == ["line 34: a 33rd set, and a site has at most 32"]


def test_32_sets_with_all_numbers_at_their_limits(site):
    path = site(*(f"set {i},1000,100,0.1,0.0005,999.9,1000,1000,1000,1000,yes," for i in range(32)))
    assert len(read(path).case(10000)) == 8 + 32 * (4 + 26)


FILES = [
    (b"", "{}: it has no line of columns"),
    (b"# only\n  # comments\n\n,,;\n", "{}: it has no line of columns"),
    (f"{HEADER}\n# nothing\n".encode(), "{}: it has no sets"),
    (b"n\0a\0", "line 1: it holds a character that is no text: save the sheet as CSV, in UTF-8"),
    (f"{HEADER}\n{GOOD}\x1b\n".encode(), "line 2: it holds a character that is no text: save the sheet as CSV, in UTF-8"),
    (f"{HEADER}\n{GOOD}\n".encode("utf-16"),
     "{}: it is in UTF-16, which some programs call Unicode text: save the sheet as CSV, in UTF-8"),
    (b"\0" * 1_000_001, "{}: it has more than 1,000,000 bytes"),
    (f"sep=|\n{HEADER}\n".encode(), "{}: its first line names | as separator; a comma, a semicolon or a tab is taken"),
]


@pytest.mark.parametrize("data, message", FILES, ids=[message[:40] for _, message in FILES])
def test_files_that_are_no_table(site, data, message):
    path = site(data)
    assert refused(path) == [message.format(path)]


def test_forms_of_the_harbour(site):
    """Columns in another order, quotes, CRLF, a byte order mark, empty rows, zeros before and behind, no last line end."""
    text = (
        '\ufeff"must run",zones,name,A,B,C,L,down,up,previous,greatest,least\r\n,,,,,,,,,,,\r\n# a comment\r\n\r\n'
        'yes,4.5-5.5,"diesel 1",120,62,0.09,.00003,2,2,8,10,3\r\n'
        'no, 4.50-5.5  7.-7.4 ,diesel 2 , 120,"63.5" ,0.0850000000000000000000,0.000032,2,2,7.5,0000000000000010,3\r\n'
        "no,,standby,45,79,0.06,0.000045,,1000,0,6,1.5\r\nno,2-2.8,hydro,2,3,0.01,0.00008,5,5,3,5,1"
    )
    assert read(site(text.encode())).case("23.5") == (ROOT / "examples/harbour.case").read_bytes()


@pytest.mark.parametrize("zones", ["4.5-5.5 7-7.4", "4.5..5.5 7..7.4", "4.5 to 5.5 7 TO 7.4", "4.5 - 5.5; 7\u20137.4", "4.50\u20145.5;7...7.4"])
def test_zones_as_people_write_them(site, zones):
    (one,) = read(site(row(zones=f'"{zones}"'))).sets
    assert one.zones == ((Decimal("4.5"), Decimal("5.5")), (Decimal(7), Decimal("7.4")))


@pytest.mark.parametrize("word, mark", [("yes", True), ("Yes", True), ("TRUE", True), ("1", True), ("no", False), ("False", False), ("0", False)])
def test_marks(site, word, mark):
    assert read(site(row(must_run=word))).sets[0].must_run is mark


@pytest.mark.parametrize("word, value", [("3E-05", "0.00003"), ("3e-5", "0.00003"), ("0.3E-4", "0.00003"), ("0.00003", "0.00003"),
                                         ("0.00003E+0000000000", "0.00003"), ("0.000003E+0000000001", "0.00003"),
                                         ("0.0003e-00000000000000000001", "0.00003"), ("3e-0000000005", "0.00003"), ("0.00003E00", "0.00003")])
def test_powers_of_ten_are_read_exactly(site, word, value):
    assert read(site(row(L=word))).sets[0].L == Decimal(value)


@pytest.mark.parametrize("out", ["#a", " #a", "\t# a", '"#a"', '"# a"', ' " # a"', '"#a, old"'])
def test_sets_that_are_taken_out(site, out):
    path = site(HEADER, out + GOOD[1:], "b" + GOOD[1:], header='"# sets, some of them out"')
    assert read(path).names == ("b",)


SEPARATED = {
    "semicolons": ";",
    "tabs": "\t",
}


@pytest.mark.parametrize("separator", SEPARATED.values(), ids=SEPARATED)
@pytest.mark.parametrize("first", ["", "sep={}\n", '"sep={}"\r\n'])
def test_other_separators_with_decimal_commas(site, separator, first):
    text = (HEADER + "\n" + GOOD + "\n").replace(",", separator).replace(".", ",")
    assert read(site((first.format(separator) + text).encode())).case(5) == read(site(GOOD)).case(5)


def test_other_separators_with_points(site):
    text = (HEADER + "\n" + GOOD + "\n").replace(",", ";")
    assert read(site(text.encode())).case(5) == read(site(GOOD)).case(5)


def test_commas_that_can_be_read_in_two_ways(site):
    def given(*lines):
        return site("\n".join(line.replace(",", ";").replace("|", ",") for line in (HEADER, *lines)).encode())

    assert refused(given(row(A="1|200", C="0", L="0", zones=""))) == [
        "line 2, column A: 1,200 can be read as 1200 or as 1.200: write it without a comma"]
    assert refused(given(row(A="1|2"))) == [
        "line 2, column A: 1,2 has a comma, and other numbers of this file have a point: write all of them alike"]
    assert read(given(row(A="1|200", C="0|01", L="0", zones=""))).sets[0].A == Decimal("1.2")


def test_points_that_can_be_read_in_two_ways(site):
    """Between semicolons 1.200 may be 1200, unless a number of the file shows what its points are."""

    def given(separator=";", **values):
        plain = {"A": "0", "C": "0", "L": "0", "zones": "", **values}
        return site("\n".join(line.replace(",", separator) for line in (HEADER, row(**plain))).encode())

    why = "can be read as {} or as {}: write it in one of these ways"
    assert refused(given(A="1.200")) == [f"line 2, column A: 1.200 {why.format('1200', '1.2000')}"]
    assert refused(given(A="1.200", B="62.125", greatest="999.000", zones="4.000-5.000")) == [
        f"line 2, column {column}: {text} {why.format(text.replace('.', ''), text + '0')}"
        for column, text in [("A", "1.200"), ("B", "62.125"), ("greatest", "999.000"), ("zones", "4.000"), ("zones", "5.000")]]
    assert [read(given(A=text)).sets[0].A for text in ("1200", "1.2000", "1.2", "0.200", "1.200E0")] == [
        Decimal(text) for text in ("1200", "1.2", "1.2", "0.2", "1.2")]
    assert read(given(A="1.200", C="0.01")).sets[0].A == Decimal("1.2")
    for separator in (",", "\t"):
        assert read(given(separator, A="1.200")).sets[0].A == Decimal("1.2")
    with pytest.raises(Faults) as fault:
        demands("00:00;1.200\n01:00;900\n")
    assert fault.value.lines == [f"line 1, column MW: 1.200 {why.format('1200', '1.2000')}"]
    assert demands("00:00;1.200\n01:00;9.5\n")[0] == [("00:00", "1.2"), ("01:00", "9.5")]
    assert demands("00:00,1.200\n01:00,905\n")[0] == [("00:00", "1.2"), ("01:00", "905")]


def test_other_bytes_than_utf_8(site):
    path = site(f"{HEADER}\nDi\u00e9sel{GOOD[1:]}\n".encode("latin-1"))
    assert table.read_site("x", path.read_bytes())[1] == [
        "line 2: it is not in UTF-8, and is read as Windows-1252: look at the names, or save the sheet in UTF-8"]
    with pytest.warns(UserWarning, match="site.csv: line 2: it is not in UTF-8, and is read as Windows-1252"):
        assert read(path).names == ("Di\u00e9sel",)


# ---- costs above the limits of a case file


def test_costs_are_divided_and_multiplied_again(site):
    path = site("a,1200,150,0.09,0,3,10,0,,,no,", "b,120,62.5,0.085,0,3,10,0,,,no,")
    found = read(path)
    assert found.money == 2
    assert [one.row(found.money)[:3] for one in found.sets] == [[600_000_000, 7_500_000, 450], [60_000_000, 3_125_000, 425]]


def test_costs_that_cannot_be_divided_exactly(site):
    path = site("a,1,150,0.0101,0,3,10,8,2,2,yes,", "b,1.000001,20,0.01,0,3,10,8,2,2,yes,")
    why = (
        "B of a, 150, is above 100, so that a case file holds the costs of all sets divided by 10; round it, if the costs may change by"
        " that"
    )
    assert refused(path) == [
        f"line 2, column C: 0.0101 is not a whole number of 0.001, and must be: {why}",
        f"line 3, column A: 1.000001 is not a whole number of 0.00001, and must be: {why}",
    ]


def test_costs_are_never_divided_by_much_more_than_is_needed(site):
    """853 divides all, but a price found to 8.53 would be of little use: it is refused, and 10 is what rounding would need."""
    lines = refused(site("a,853,170.6,0.0853,0,3,10,0,,,no,"))
    assert len(lines) == 1 and lines[0].startswith("line 2, column C: 0.0853 is not a whole number of 0.001, and must be: B of a, 170.6")
    assert read(site("a,0,20000,0,0,3,10,0,,,no,")).money == 200
    assert read(site("a,1e12,1e11,1e8,0,3,10,0,,,no,", name="c.csv")).money == 10**9


# ---- the demands of a day


def demands(text, name="d"):
    slots, notes = table.read_demands(name, text.encode())
    return [(time, str(mw)) for time, mw in slots], notes


@pytest.mark.parametrize("text", [
    "time,MW\n00:00,16.5\n01:00,14\n", "Time;Demand MW\n00:00;16,5\n01:00;14\n", "MW\ttime\n16.5\t00:00\n14\t01:00\n",
    "00:00,16.5\n01:00,14\n", "00:00;16,5\r\n01:00;14\r\n", "# a day\nsep=;\nhour;load\n00:00;16,5\n01:00;14",
])
def test_demands_of_a_day(text):
    assert demands(text) == ([("00:00", "16.5"), ("01:00", "14")], [])


def test_a_demand_without_a_time_has_its_number():
    assert demands("MW\n5\n6\n") == ([("1", "5"), ("2", "6")], [])
    assert demands("time,MW,wind\n1,5,9\n") == ([("1", "5")], ['line 1: there is no column "wind": it is passed over'])


@pytest.mark.parametrize("text, lines", [
    ("time,MW\n", ["d: it has no demands"]),
    ("", ["d: it has no line of columns"]),
    ("time,power\n1,2\n", ['line 1: there is no column "power"', "line 1: column MW is missing", "the columns, with commas between: time, MW"]),
    ("date,hour,demand\n1,2,3\n", ['line 1: "date" and "hour" are both column time: give one of them another title, and it is passed over',
                                   "the columns, with commas between: time, MW"]),
    ("time,Load (MW),MW\n1,2,3\n", ['line 1: "Load (MW)" and "MW" are both column MW: give one of them another title, and it is passed over',
                                    "the columns, with commas between: time, MW"]),
    ("hour,Hour,MW\n1,2,3\n", ["line 1: column time is there twice", "the columns, with commas between: time, MW"]),
    ("time,MW\n1,x\n2,23.55\n3,-1\n4,32000.1\n5\n6,\n", [
        f"line 2, column MW: x {NO_NUMBER}",
        "line 3, column MW: 23.55 is not a whole number of 0.1 MW: the nearest are 23.5 and 23.6",
        f"line 4, column MW: -1 {NO_NUMBER}",
        "line 5, column MW: 32000.1 is above 32,000 MW",
        "line 6: it has 1 fields, and the header has 2",
        f"line 7, column MW: nothing stands there, and that {NO_NUMBER}",
    ]),
])
def test_wrong_demands_are_named(text, lines):
    with pytest.raises(Faults) as fault:
        demands(text)
    assert fault.value.lines == lines
