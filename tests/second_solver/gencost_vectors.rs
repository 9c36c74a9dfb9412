//! Cost rows with the answers that are stated for them; `gencost_misread` has the wrong rules that they tell apart.

use crate::gencost::{gencost, Rules, PAPER};
use crate::solver::Refused;

/// A row by its name, which is mostly the row itself, with so much room and the answers c0, c1 and c2.
pub struct Stated {
    pub name: &'static str,
    pub row: Vec<u8>,
    pub room: usize,
    expected: Result<[i64; 3], Refused>,
}

impl Stated {
    pub fn answer(&self, rules: &Rules) -> Result<[i64; 3], Refused> {
        gencost(&self.row, self.room, rules)
    }
}

fn stated(name: &'static str, row: impl Into<Vec<u8>>, expected: Result<[i64; 3], Refused>) -> Stated {
    Stated { name, row: row.into(), room: 3, expected }
}

/// A row that gives c2, c1 and c0.
fn reads(row: &'static str, [c2, c1, c0]: [i64; 3]) -> Stated {
    stated(row, row, Ok([c0, c1, c2]))
}

fn refuses(row: &'static str, number: u32) -> Stated {
    stated(row, row, Err(Refused(number)))
}

fn with_room(row: Stated, name: &'static str, room: usize, expected: Result<[i64; 3], Refused>) -> Stated {
    Stated { name, room, expected, ..row }
}

fn zeros(count: usize) -> String {
    "0".repeat(count)
}

fn square(word: String) -> String {
    format!("2 0 0 3 {} 0 0", word)
}

fn constant(word: String) -> String {
    format!("2 0 0 3 0 0 {}", word)
}

/// Bytes behind the start of a row, and the rest of it.
fn parted_by(byte: u8) -> Vec<u8> {
    [b"2 0 0", &[byte][..], b"3 0 0 0"].concat()
}

fn read_rows() -> Vec<Stated> {
    vec![
        reads("2 0 0 3 0.1 0 0", [1_000, 0, 0]),
        reads("2 1500 0 3 0.085 1.2 600", [850, 120_000, 600_000_000]),
        reads("2 0 0 3 00.0500 01.20 600", [500, 120_000, 600_000_000]),
        reads("2 0 0 3 0.1 00000100 1000.0", [1_000, 10_000_000, 1_000_000_000]),
        reads("2 0 0 3 0 100 0", [0, 10_000_000, 0]),
        reads("2 0 0 3 0 0 1000", [0, 0, 1_000_000_000]),
        reads("2\t0  0 \t3\t\t0.01 0.5   7", [100, 50_000, 7_000_000]),
        reads("2 0  0 3 0.01 0.5 7", [100, 50_000, 7_000_000]),
        reads("2 0 0 3 0.0001 0.00001 0.000001", [1, 1, 1]),
        reads("2 0 0 3 0 1.15 0", [0, 115_000, 0]),
        reads("2 99999999999999999999999999 0.00000000000000000000001 3 0.1 0 0", [1_000, 0, 0]),
        stated("0.1 with 100 zeros behind", square(format!("0.1{}", zeros(100))), Ok([0, 0, 1_000])),
        stated("0.1 with 100 zeros before", square(format!("{}0.1", zeros(100))), Ok([0, 0, 1_000])),
        stated("256 bytes", constant(format!("{}1", zeros(243))), Ok([1_000_000, 0, 0])),
        with_room(reads("2 1500 0 3 0.085 1.2 600", [0; 3]), "room 4", 4, Ok([600_000_000, 120_000, 850])),
    ]
}

fn rows_of_another_form() -> Vec<Stated> {
    [
        "",
        "2",
        "2 0 0 3 0 0",
        "2 0 0 3 0 0 0 0",
        " 2 0 0 3 0 0 0",
        "2 0 0 3 0 0 0 ",
        "\t2 0 0 3 0 0 0",
        "2 0 0 3 0 0 0\t",
        "2 0 0 3 0 0 0\n",
        "2 0 0 3 0 0 0\r",
        "2 0 0 3 0 0 0;",
        "2 0 0\n3 0 0 0",
        "2 0 0\r3 0 0 0",
        "2.0 0 0 3 0 0 0",
        "02 0 0 3 0 0 0",
        "1 0 0 3 0 0 0",
        "2 0 0 3.0 0 0 0",
        "2 0 0 03 0 0 0",
        "2 0 0 2 0 0 0",
        "2 0 0 3 0 0 .5",
        "2 0 0 3 0 0 5.",
        "2 0 0 3 0 0 0.0.1",
        "2 0 0 3 0 0 -0",
        "2 0 0 3 0 0 +0",
        "2 0 0 3 0 0 1e-2",
        "2 0 0 3 0 0 1,0",
        "2 0 0 3 0 0 0.05/",
        "2 0 0 3 0 0 0.05:",
        "2 0 0 3 0.05: 0 0",
        "2 0 0 3 0 5. 0",
        "2 x 0 3 0 0 0",
        "2 -5 0 3 0 0 0",
        "2 0 5. 3 0 0 0",
        "2 0 0 3 0.00001 0 x",
        "2 0 0 3 0.2 0 x",
    ]
    .into_iter()
    .map(|row| refuses(row, 26))
    .chain([
        stated("byte 11 between", parted_by(11), Err(Refused(26))),
        stated("byte 160 between", parted_by(160), Err(Refused(26))),
        stated("byte 0 behind", "2 0 0 3 0 0 0\0", Err(Refused(26))),
        stated("257 bytes", constant(format!("{}1", zeros(244))), Err(Refused(26))),
        stated("257 bytes, not whole", constant(format!("0.{}1", zeros(242))), Err(Refused(26))),
        stated("257 bytes, above the limit", constant(format!("1{}", zeros(244))), Err(Refused(26))),
        stated("65,549 bytes", constant(format!("{}1", zeros(65_536))), Err(Refused(26))),
    ])
    .collect()
}

fn other_refused_rows() -> Vec<Stated> {
    vec![
        refuses("2 0 0 3 0.00001 0 0", 27),
        refuses("2 0 0 3 0.00834 0 0", 27),
        refuses("2 0 0 3 0 99.999999 0", 27),
        refuses("2 0 0 3 0 0 1000.0000001", 27),
        refuses("2 0 0 3 0 0 0.0000001", 27),
        stated("0.1 with 99 zeros and a 1 behind", square(format!("0.1{}1", zeros(99))), Err(Refused(27))),
        refuses("2 0 0 3 0.2 0.000001 0", 27),
        refuses("2 0 0 3 0.2 0 0.0000001", 27),
        refuses("2 0 0 3 0.00001 200 0", 27),
        refuses("2 0 0 3 0.1001 0 0", 28),
        refuses("2 0 0 3 0 100.00001 0", 28),
        refuses("2 0 0 3 0 0 1000.000001", 28),
        refuses("2 0 0 3 0.11 0 0", 28),
        stated("1 with 200 zeros", constant(format!("1{}", zeros(200))), Err(Refused(28))),
        refuses("2 0 0 3 0 42949.67296 0", 28),
        refuses("2 0 0 3 0 184467440737095.51616 0", 28),
        refuses("2 0 0 3 429496.7296 0 0", 28),
        refuses("2 0 0 3 1844674407370955.1616 0 0", 28),
        refuses("2 0 0 3 0 0 4294.967296", 28),
        refuses("2 0 0 3 0 0 18446744073709.551616", 28),
        with_room(reads("2 0 0 3 0 0 0", [0; 3]), "room 2", 2, Err(Refused(1))),
        with_room(refuses("", 26), "no bytes, room 2", 2, Err(Refused(1))),
        with_room(refuses("2 0 0 3 0.00001 0 0", 27), "not whole, room 2", 2, Err(Refused(1))),
        with_room(refuses("2 0 0 3 0.2 0 0", 28), "above the limit, room 0", 0, Err(Refused(1))),
    ]
}

/// The stated rows: those that are read, and those that each number refuses.
pub fn rows() -> Vec<Stated> {
    read_rows().into_iter().chain(rows_of_another_form()).chain(other_refused_rows()).collect()
}

/// Asserts every answer that is stated; tells how many rows there are.
pub fn check() -> usize {
    let rows = rows();
    for row in &rows {
        assert_eq!(row.answer(&PAPER), row.expected, "{:?}", row.name);
    }
    rows.len()
}
