//! The branches of cost rows, which the counts of numbers do not tell apart.

use crate::calls::Gencost;
use crate::gencost::{self, Decimal, Rules, Scaled, PAPER};
use crate::gencost_misread::replaced;
use crate::solver::Refused;
use crate::tally::Branches;

/// A call and the number of its refusal, or none; of a row of the form also its words, its numbers and their results.
pub struct Seen<'a> {
    call: &'a Gencost,
    number: Option<u32>,
    /// The number with which the row is refused, whatever the room.
    fault: Option<u32>,
    formed: Option<Formed<'a>>,
}

struct Formed<'a> {
    words: Vec<&'a [u8]>,
    numbers: [Decimal; 3],
    results: Vec<Scaled>,
}

type Branch = (&'static str, fn(&Seen) -> bool);

const COEFFICIENTS: [&str; 3] = ["square", "linear", "constant"];

/// Of each coefficient.
const OF_COEFFICIENTS: [(&str, fn(&Seen, usize) -> bool); 18] = [
    ("read, 0", |seen, place| seen.reads(place, |value, _| value == 0)),
    ("read, 1", |seen, place| seen.reads(place, |value, _| value == 1)),
    ("read, its limit", |seen, place| seen.reads(place, |value, limit| value == limit)),
    ("read, without a point", |seen, place| seen.gave(0) && seen.formed(|formed| formed.numbers[place].decimals == 0)),
    ("read, fewer decimals than places", |seen, place| {
        seen.read_as(place, |number, places| (1..places).contains(&number.decimals))
    }),
    ("read, as many decimals as places", |seen, place| seen.read_as(place, |number, places| number.decimals == places)),
    ("read, one decimal more than places", |seen, place| seen.read_as(place, |number, places| number.decimals == places + 1)),
    ("read, many decimals", |seen, place| seen.read_as(place, |number, _| number.decimals > 40)),
    ("read, more than 20 digits before the point", |seen, place| {
        seen.read_as(place, |number, _| number.digits.len() - number.decimals > 20)
    }),
    ("27 for it alone", |seen, place| seen.gave(27) && seen.faults(|result| !result.is_whole) == [place]),
    ("27 for the decimal behind its places", |seen, place| seen.finer(place, |behind| behind.first() != Some(&0))),
    ("27 for a decimal far behind its places", |seen, place| {
        seen.finer(place, |behind| behind.len() > 20 && behind[..20].iter().all(|digit| *digit == 0))
    }),
    ("27 for it, 28 for another", |seen, place| {
        seen.gave(27)
            && seen.faults(|result| !result.is_whole) == [place]
            && seen.faults(|result| result.is_above).iter().any(|other| *other != place)
    }),
    ("27 for it before its own 28", |seen, place| {
        seen.gave(27) && seen.formed(|formed| !formed.results[place].is_whole && formed.results[place].is_above)
    }),
    ("28 for it alone", |seen, place| seen.gave(28) && seen.faults(|result| result.is_above) == [place]),
    ("28 for one above its limit", |seen, place| {
        let above = u64::from(PAPER.scales[place].limit) + 1;
        seen.gave(28) && seen.formed(|formed| formed.results[place].value.low_bits() == above)
    }),
    ("28 for what 32 bits would cut to a number that is read", |seen, place| {
        seen.gave(28) && seen.formed(|formed| formed.results[place].is_above && cut(&formed.results[place], 32, place))
    }),
    ("28 for what 64 bits would cut to a number that is read", |seen, place| {
        seen.gave(28) && seen.formed(|formed| formed.results[place].is_above && cut(&formed.results[place], 64, place))
    }),
];

const BRANCHES: [Branch; 45] = [
    ("read, 256 bytes", |seen| seen.gave(0) && seen.length() == 256),
    ("read, the shortest row", |seen| seen.gave(0) && seen.length() == 13),
    ("read, a tab in a gap", |seen| seen.gave(0) && seen.call.row.contains(&b'\t')),
    ("read, two blanks in a gap", |seen| seen.gave(0) && seen.has_pair(b"  ")),
    ("read, a tab behind a space", |seen| seen.gave(0) && seen.has_pair(b" \t")),
    ("read, zeros before a digit", |seen| seen.gave(0) && seen.has_word(4, |word| word.starts_with(b"00"))),
    ("read, a startup above 64 bits", |seen| {
        seen.gave(0) && seen.has_word(1, |word| word.len() > 25 && !word.contains(&b'.') && word[0] > b'1')
    }),
    ("read, a startup of many decimals", |seen| seen.gave(0) && seen.has_word(1, |word| decimals(word) > 20)),
    ("read, a shutdown of many decimals", |seen| seen.gave(0) && seen.has_word(2, |word| decimals(word) > 20)),
    ("read, all three at their limits", |seen| {
        seen.gave(0) && seen.formed(|formed| (0..3).all(|place| value(formed, place) == u64::from(PAPER.scales[place].limit)))
    }),
    ("read, room for 3", |seen| seen.gave(0) && seen.call.room == 3),
    ("read, room for 4", |seen| seen.gave(0) && seen.call.room == 4),
    ("read, room for 40", |seen| seen.gave(0) && seen.call.room == 40),
    ("27 for two coefficients", |seen| seen.gave(27) && seen.faults(|result| !result.is_whole).len() == 2),
    ("27 for three coefficients", |seen| seen.gave(27) && seen.faults(|result| !result.is_whole).len() == 3),
    ("27 of 256 bytes", |seen| seen.gave(27) && seen.length() == 256),
    ("28 for two coefficients", |seen| seen.gave(28) && seen.faults(|result| result.is_above).len() == 2),
    ("28 for three coefficients", |seen| seen.gave(28) && seen.faults(|result| result.is_above).len() == 3),
    ("28 of 256 bytes", |seen| seen.gave(28) && seen.length() == 256),
    ("28 for more than 100 digits", |seen| {
        seen.gave(28) && seen.formed(|formed| formed.numbers.iter().any(|number| number.digits.len() > 100))
    }),
    ("26 for no bytes", |seen| seen.gave(26) && seen.length() == 0),
    ("26 for a row that 257 bytes would let be read", |seen| seen.only_too_long(257, 0)),
    ("26 before 27 for 257 bytes", |seen| seen.only_too_long(257, 27)),
    ("26 before 28 for 257 bytes", |seen| seen.only_too_long(257, 28)),
    ("26 for a blank before", |seen| seen.only_by(|row| row.strip_prefix(b" "))),
    ("26 for a tab before", |seen| seen.only_by(|row| row.strip_prefix(b"\t"))),
    ("26 for a blank behind", |seen| seen.only_by(|row| row.strip_suffix(b" "))),
    ("26 for a tab behind", |seen| seen.only_by(|row| row.strip_suffix(b"\t"))),
    ("26 for a line feed behind", |seen| seen.only_by(|row| row.strip_suffix(b"\n"))),
    ("26 for a line feed behind a carriage return", |seen| seen.only_by(|row| row.strip_suffix(b"\r\n"))),
    ("26 for a semicolon behind", |seen| seen.only_by(|row| row.strip_suffix(b";"))),
    ("26 for a zero byte behind", |seen| seen.only_by(|row| row.strip_suffix(b"\0"))),
    ("26 for a byte order mark", |seen| seen.only_by(|row| row.strip_prefix(b"\xef\xbb\xbf"))),
    ("26 for a word too many", |seen| seen.only_by(|row| row.strip_suffix(b" 0"))),
    ("26 for a word too few", |seen| seen.by_other(|_| true, |row| [row, b" 0"].concat())),
    ("26 for another blank", |seen| {
        seen.by_other(|byte| b"\n\r\x0b\x0c\xa0".contains(&byte), |row| replaced(row, b"\n\r\x0b\x0c\xa0", b' '))
    }),
    ("26 for a comma", |seen| seen.by_other(|byte| byte == b',', |row| replaced(row, b",", b'.'))),
    ("26 for a byte beside the digits", |seen| seen.by_other(|byte| b"/:".contains(&byte), |row| replaced(row, b"/:", b'0'))),
    ("26 for a sign", |seen| seen.by_other(|byte| b"-+".contains(&byte), |row| replaced(row, b"-+", b'0'))),
    ("26 for an exponent", |seen| seen.by_other(|byte| b"eE".contains(&byte), |row| replaced(row, b"eE", b'0'))),
    ("26 for another first word", |seen| seen.by_rule(&Rules { is_first: |_| true, ..PAPER })),
    ("26 for another fourth word", |seen| seen.by_rule(&Rules { is_fourth: |_| true, ..PAPER })),
    ("26 for startup or shutdown", |seen| seen.by_rule(&Rules { is_ignored: |_| true, ..PAPER })),
    ("26 for no digit before a point", |seen| {
        seen.by_rule(&Rules { number: |word| gencost::number(&[b"0", word].concat()), ..PAPER })
    }),
    ("26 for no digit behind a point", |seen| {
        seen.by_rule(&Rules { number: |word| gencost::number(&[word, b"0"].concat()), ..PAPER })
    }),
];

fn value(formed: &Formed, place: usize) -> u64 {
    formed.results[place].value.low_bits()
}

/// Whether so many bits of a result are within its limit.
fn cut(result: &Scaled, bits: u32, place: usize) -> bool {
    result.value.low_bits() & (u64::MAX >> (64 - bits)) <= u64::from(PAPER.scales[place].limit)
}

fn decimals(word: &[u8]) -> usize {
    word.iter().position(|byte| *byte == b'.').map_or(0, |point| word.len() - point - 1)
}

impl<'a> Seen<'a> {
    pub fn new(call: &'a Gencost, number: Option<Refused>) -> Seen<'a> {
        let numbers = gencost::coefficients(&call.row, &PAPER);
        let formed = numbers.map(|numbers| Formed {
            words: gencost::words(&call.row, PAPER.is_blank).expect("words of a row"),
            results: gencost::results(&numbers, &PAPER),
            numbers,
        });
        let fault = match &formed {
            None => Some(26),
            Some(formed) => gencost::check(&formed.results).err().map(|refused| refused.0),
        };
        Seen { call, number: number.map(|refused| refused.0), fault, formed }
    }

    /// Whether it was refused with this number; for 0, whether it was read.
    fn gave(&self, number: u32) -> bool {
        self.number.unwrap_or(0) == number
    }

    fn length(&self) -> usize {
        self.call.row.len()
    }

    fn formed(&self, condition: impl Fn(&Formed) -> bool) -> bool {
        self.formed.as_ref().map_or(false, condition)
    }

    fn has_pair(&self, pair: &[u8; 2]) -> bool {
        self.call.row.windows(2).any(|bytes| bytes == pair)
    }

    fn has_word(&self, place: usize, condition: fn(&[u8]) -> bool) -> bool {
        self.formed(|formed| condition(formed.words[place]))
    }

    /// Whether a coefficient is read, and its result and its limit meet a condition.
    fn reads(&self, place: usize, condition: fn(u64, u64) -> bool) -> bool {
        self.gave(0) && self.formed(|formed| condition(value(formed, place), u64::from(PAPER.scales[place].limit)))
    }

    /// Whether a coefficient above 0 is read, and as it is written and its places meet a condition.
    fn read_as(&self, place: usize, condition: fn(&Decimal, usize) -> bool) -> bool {
        let places = PAPER.scales[place].places();
        self.gave(0) && self.formed(|formed| value(formed, place) > 0 && condition(&formed.numbers[place], places))
    }

    /// The coefficients whose results have a fault.
    fn faults(&self, is_fault: fn(&Scaled) -> bool) -> Vec<usize> {
        let results = self.formed.as_ref().map_or(&[][..], |formed| &formed.results);
        (0..results.len()).filter(|place| is_fault(&results[*place])).collect()
    }

    /// Whether a coefficient is too fine, and the decimals behind its places meet a condition.
    fn finer(&self, place: usize, condition: fn(&[u8]) -> bool) -> bool {
        self.gave(27)
            && self.formed(|formed| {
                let number = &formed.numbers[place];
                let behind = number.digits.len() - number.decimals + PAPER.scales[place].places();
                !formed.results[place].is_whole && condition(&number.digits[behind..])
            })
    }

    /// Whether the row is refused with 26, and by other rules would give a number that is not 26.
    fn by_rule(&self, rules: &Rules) -> bool {
        self.gave(26) && (rules.read)(&self.call.row, rules) != Err(gencost::MALFORMED)
    }

    /// Whether it has so many bytes, and would give this number if that were permitted.
    fn only_too_long(&self, length: usize, number: u32) -> bool {
        let rules = Rules { most_bytes: length, ..PAPER };
        let answer = || gencost::read(&self.call.row, &rules).err().map_or(0, |refused| refused.0);
        self.gave(26) && self.length() == length && answer() == number
    }

    /// Whether 26 is given, and a part of the row would be of the form.
    fn only_by(&self, part: fn(&[u8]) -> Option<&[u8]>) -> bool {
        let is_formed = |row: &[u8]| gencost::coefficients(row, &PAPER).is_some();
        self.gave(26) && part(&self.call.row).map_or(false, is_formed)
    }

    /// Whether 26 is given, the row has such a byte, and another row would be of the form.
    fn by_other(&self, is_byte: fn(u8) -> bool, other: fn(&[u8]) -> Vec<u8>) -> bool {
        let has_byte = || self.call.row.iter().any(|byte| is_byte(*byte));
        self.gave(26) && self.length() <= 256 && has_byte() && gencost::coefficients(&other(&self.call.row), &PAPER).is_some()
    }

    /// Of each branch whether it is reached, in the order of `names`.
    fn reached(&self) -> Vec<bool> {
        let mut reached: Vec<bool> = BRANCHES.iter().map(|(_, is_reached)| is_reached(self)).collect();
        for place in 0..3 {
            reached.extend(OF_COEFFICIENTS.iter().map(|(_, is_reached)| is_reached(self, place)));
        }
        reached.extend(HIDDEN.map(|(room, hidden)| self.gave(1) && self.call.room == room && self.fault == hidden));
        reached
    }
}

/// Too little room, and the number that it hides.
const HIDDEN: [(usize, Option<u32>); 12] = [
    (0, None),
    (0, Some(26)),
    (0, Some(27)),
    (0, Some(28)),
    (1, None),
    (1, Some(26)),
    (1, Some(27)),
    (1, Some(28)),
    (2, None),
    (2, Some(26)),
    (2, Some(27)),
    (2, Some(28)),
];

fn names() -> Vec<String> {
    let mut names: Vec<String> = BRANCHES.iter().map(|(name, _)| name.to_string()).collect();
    for coefficient in COEFFICIENTS {
        names.extend(OF_COEFFICIENTS.iter().map(|(name, _)| format!("{}: {}", coefficient, name)));
    }
    let hidden = |number: Option<u32>| number.map_or("a row that would be read".to_string(), |number| number.to_string());
    names.extend(HIDDEN.map(|(room, number)| format!("1 for room for {} before {}", room, hidden(number))));
    names
}

/// How often calls came to each branch.
pub struct Rows(pub Branches);

impl Default for Rows {
    fn default() -> Rows {
        Rows(Branches::new(names()))
    }
}

impl Rows {
    pub fn count(&mut self, seen: &Seen) {
        self.0.count(seen.reached());
    }
}
