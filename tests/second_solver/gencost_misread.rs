//! Wrong readings of a cost row, each beside a stated row that tells it from the paper's.

use crate::gencost::{check, coefficients, number, read, results, scaled, words};
use crate::gencost::{Decimal, Rules, Scale, Scaled, ABOVE_LIMIT, MALFORMED, NOT_WHOLE, PAPER};
use crate::gencost_vectors;
use crate::solver::Refused;

/// A wrong reading, the name of a stated row, and the rules.
type Wrong = (&'static str, &'static str, Rules);

const WRONG: [Wrong; 65] = [
    ("a blank before passed over", " 2 0 0 3 0 0 0", Rules { words: without_first_blank, ..PAPER }),
    ("a tab before passed over", "\t2 0 0 3 0 0 0", Rules { words: without_first_blank, ..PAPER }),
    ("a blank behind passed over", "2 0 0 3 0 0 0 ", Rules { words: |row, is_blank| without_last(row, is_blank, b' '), ..PAPER }),
    ("a tab behind passed over", "2 0 0 3 0 0 0\t", Rules { words: |row, is_blank| without_last(row, is_blank, b'\t'), ..PAPER }),
    (
        "a line feed behind passed over",
        "2 0 0 3 0 0 0\n",
        Rules { words: |row, is_blank| without_last(row, is_blank, b'\n'), ..PAPER },
    ),
    (
        "a carriage return behind passed over",
        "2 0 0 3 0 0 0\r",
        Rules { words: |row, is_blank| without_last(row, is_blank, b'\r'), ..PAPER },
    ),
    (
        "a semicolon behind passed over",
        "2 0 0 3 0 0 0;",
        Rules { words: |row, is_blank| without_last(row, is_blank, b';'), ..PAPER },
    ),
    ("a zero byte behind passed over", "byte 0 behind", Rules { words: |row, is_blank| without_last(row, is_blank, 0), ..PAPER }),
    ("a line feed parts words", "2 0 0\n3 0 0 0", Rules { is_blank: |byte| b" \t\n".contains(&byte), ..PAPER }),
    ("a carriage return parts words", "2 0 0\r3 0 0 0", Rules { is_blank: |byte| b" \t\r".contains(&byte), ..PAPER }),
    ("a vertical tab parts words", "byte 11 between", Rules { is_blank: |byte| b" \t\x0b".contains(&byte), ..PAPER }),
    ("byte 160 parts words", "byte 160 between", Rules { is_blank: |byte| b" \t\xa0".contains(&byte), ..PAPER }),
    ("a tab parts no words", "2\t0  0 \t3\t\t0.01 0.5   7", Rules { is_blank: |byte| byte == b' ', ..PAPER }),
    ("one blank between words", "2 0  0 3 0.01 0.5 7", Rules { words: parted_by_one, ..PAPER }),
    ("words behind the seventh passed over", "2 0 0 3 0 0 0 0", Rules { words: first_seven, ..PAPER }),
    ("a constant that is missing is 0", "2 0 0 3 0 0", Rules { words: with_constant, ..PAPER }),
    ("2.0 for 2", "2.0 0 0 3 0 0 0", Rules { is_first: |word| spells(word, 2), ..PAPER }),
    ("02 for 2", "02 0 0 3 0 0 0", Rules { is_first: |word| spells(word, 2), ..PAPER }),
    ("any model", "1 0 0 3 0 0 0", Rules { is_first: |word| number(word).is_some(), ..PAPER }),
    ("3.0 for 3", "2 0 0 3.0 0 0 0", Rules { is_fourth: |word| spells(word, 3), ..PAPER }),
    ("03 for 3", "2 0 0 03 0 0 0", Rules { is_fourth: |word| spells(word, 3), ..PAPER }),
    ("any number of coefficients", "2 0 0 2 0 0 0", Rules { is_fourth: |word| number(word).is_some(), ..PAPER }),
    ("no digit before the point", "2 0 0 3 0 0 .5", Rules { number: |word| number(&[b"0", word].concat()), ..PAPER }),
    ("no digit behind the point", "2 0 0 3 0 0 5.", Rules { number: |word| number(&[word, b"0"].concat()), ..PAPER }),
    ("no digit behind the point of a linear", "2 0 0 3 0 5. 0", Rules { number: |word| number(&[word, b"0"].concat()), ..PAPER }),
    ("a second point", "2 0 0 3 0 0 0.0.1", Rules { number: to_second_point, ..PAPER }),
    ("a minus", "2 0 0 3 0 0 -0", Rules { number: |word| number(word.strip_prefix(b"-").unwrap_or(word)), ..PAPER }),
    ("a plus", "2 0 0 3 0 0 +0", Rules { number: |word| number(word.strip_prefix(b"+").unwrap_or(word)), ..PAPER }),
    ("an exponent", "2 0 0 3 0 0 1e-2", Rules { number: |word| number(word.strip_suffix(b"e-2").unwrap_or(word)), ..PAPER }),
    ("a comma", "2 0 0 3 0 0 1,0", Rules { number: |word| number(&replaced(word, b",", b'.')), ..PAPER }),
    ("the byte before 0 a digit", "2 0 0 3 0 0 0.05/", Rules { number: |word| number(&replaced(word, b"/", b'0')), ..PAPER }),
    ("the byte behind 9 a digit", "2 0 0 3 0 0 0.05:", Rules { number: |word| number(&replaced(word, b":", b'0')), ..PAPER }),
    ("startup not looked at", "2 x 0 3 0 0 0", Rules { is_ignored: |_| true, ..PAPER }),
    (
        "a startup below 0",
        "2 -5 0 3 0 0 0",
        Rules { is_ignored: |word| number(word.strip_prefix(b"-").unwrap_or(word)).is_some(), ..PAPER },
    ),
    ("shutdown not looked at", "2 0 5. 3 0 0 0", Rules { is_ignored: |_| true, ..PAPER }),
    (
        "a startup within its limits",
        "2 99999999999999999999999999 0.00000000000000000000001 3 0.1 0 0",
        Rules { is_ignored: is_small, ..PAPER },
    ),
    ("257 bytes taken", "257 bytes", Rules { most_bytes: 257, ..PAPER }),
    ("256 bytes not taken", "256 bytes", Rules { most_bytes: 255, ..PAPER }),
    ("16 bits of the length", "65,549 bytes", Rules { read: with_16_bits_of_length, ..PAPER }),
    ("27 before the length", "257 bytes, not whole", Rules { read: length_last, ..PAPER }),
    ("28 before the length", "257 bytes, above the limit", Rules { read: length_last, ..PAPER }),
    ("constant, linear, square", "2 1500 0 3 0.085 1.2 600", Rules { read: reversed, ..PAPER }),
    ("c2 as the first answer", "2 1500 0 3 0.085 1.2 600", Rules { places: [0, 1, 2], ..PAPER }),
    ("a factor of 100,000 for the square", "2 0 0 3 0.00001 0 0", Rules { scales: with_factor(0, 100_000), ..PAPER }),
    ("a factor of 1,000 for the square", "2 0 0 3 0.0001 0.00001 0.000001", Rules { scales: with_factor(0, 1_000), ..PAPER }),
    ("a limit refused", "2 0 0 3 0.1 0 0", Rules { scales: with_limits(-1), ..PAPER }),
    ("a linear at its limit refused", "2 0 0 3 0 100 0", Rules { scales: with_limits(-1), ..PAPER }),
    ("a constant at its limit refused", "2 0 0 3 0 0 1000", Rules { scales: with_limits(-1), ..PAPER }),
    ("a limit one higher", "2 0 0 3 0.1001 0 0", Rules { scales: with_limits(1), ..PAPER }),
    ("a linear one above its limit", "2 0 0 3 0 100.00001 0", Rules { scales: with_limits(1), ..PAPER }),
    ("a constant one above its limit", "2 0 0 3 0 0 1000.000001", Rules { scales: with_limits(1), ..PAPER }),
    (
        "cut where it is not whole",
        "2 0 0 3 0.00834 0 0",
        Rules { check: |results| check_each(results, |result| !result.is_above), ..PAPER },
    ),
    (
        "the decimals behind the places not all looked at",
        "0.1 with 99 zeros and a 1 behind",
        Rules { scaled: of_first_decimals, ..PAPER },
    ),
    ("no zeros behind the places", "0.1 with 100 zeros behind", Rules { scaled: without_further_decimals, ..PAPER }),
    ("no zeros before the first digit", "2 0 0 3 00.0500 01.20 600", Rules { number: without_first_zeros, ..PAPER }),
    ("28 before 27", "2 0 0 3 0 0 1000.0000001", Rules { check: above_first, ..PAPER }),
    ("one coefficient after the other", "2 0 0 3 0.2 0.000001 0", Rules { check: one_by_one, ..PAPER }),
    ("32 bits", "2 0 0 3 0 42949.67296 0", Rules { scaled: |number, scale| in_bits(number, scale, 32), ..PAPER }),
    ("64 bits", "2 0 0 3 0 184467440737095.51616 0", Rules { scaled: |number, scale| in_bits(number, scale, 64), ..PAPER }),
    ("binary floating point", "2 0 0 3 0 1.15 0", Rules { scaled: in_floating_point, ..PAPER }),
    ("27 of the square before 26 of what is behind", "2 0 0 3 0.00001 0 x", Rules { read: as_it_comes, ..PAPER }),
    ("28 of the square before 26 of what is behind", "2 0 0 3 0.2 0 x", Rules { read: as_it_comes, ..PAPER }),
    ("four answers needed", "2 0 0 3 0.1 0 0", Rules { least_room: 4, ..PAPER }),
    ("two answers enough", "room 2", Rules { least_room: 2, ..PAPER }),
    ("26 before 1", "no bytes, room 2", Rules { is_room_first: false, ..PAPER }),
];

/// Asserts that each wrong reading is told apart; tells how many there are.
pub fn check_all() -> usize {
    let rows = gencost_vectors::rows();
    for (name, row, rules) in &WRONG {
        let row = rows.iter().find(|other| other.name == *row).expect(row);
        assert_ne!(row.answer(rules), row.answer(&PAPER), "{} is not seen by {:?}", name, row.name);
    }
    WRONG.len()
}

// ---- words

fn without_first_blank(row: &[u8], is_blank: fn(u8) -> bool) -> Option<Vec<&[u8]>> {
    let starts = row.first().map_or(false, |byte| is_blank(*byte));
    words(&row[usize::from(starts)..], is_blank)
}

fn without_last(row: &[u8], is_blank: fn(u8) -> bool, last: u8) -> Option<Vec<&[u8]>> {
    words(row.strip_suffix(&[last]).unwrap_or(row), is_blank)
}

fn parted_by_one(row: &[u8], is_blank: fn(u8) -> bool) -> Option<Vec<&[u8]>> {
    Some(row.split(|byte| is_blank(*byte)).collect())
}

fn first_seven(row: &[u8], is_blank: fn(u8) -> bool) -> Option<Vec<&[u8]>> {
    words(row, is_blank).map(|words| words.into_iter().take(7).collect())
}

fn with_constant(row: &[u8], is_blank: fn(u8) -> bool) -> Option<Vec<&[u8]>> {
    words(row, is_blank).map(|words| words.into_iter().chain([&b"0"[..]]).take(7).collect())
}

// ---- numbers

/// Whether a word is this number, written in any way.
fn spells(word: &[u8], wanted: u64) -> bool {
    let value = |number: Decimal| scaled(&number, Scale { factor: 1, limit: u32::MAX });
    number(word).map(value).map_or(false, |result| result.is_whole && result.value.low_bits() == wanted)
}

fn is_small(word: &[u8]) -> bool {
    number(word).map_or(false, |number| number.digits.len() < 20)
}

/// The text with another byte for each of some bytes.
pub fn replaced(text: &[u8], bytes: &[u8], by: u8) -> Vec<u8> {
    text.iter().map(|byte| if bytes.contains(byte) { by } else { *byte }).collect()
}

fn to_second_point(word: &[u8]) -> Option<Decimal> {
    let pieces: Vec<&[u8]> = word.split(|byte| *byte == b'.').take(2).collect();
    number(&pieces.join(&b'.'))
}

fn without_first_zeros(word: &[u8]) -> Option<Decimal> {
    let starts = word.len() > 1 && word[0] == b'0' && word[1] != b'.';
    number(word).filter(|_| !starts)
}

// ---- results

const fn with_factor(place: usize, factor: u32) -> [Scale; 3] {
    let mut scales = PAPER.scales;
    scales[place].factor = factor;
    scales
}

const fn with_limits(more: i32) -> [Scale; 3] {
    let [mut square, mut linear, mut constant] = PAPER.scales;
    square.limit = square.limit.wrapping_add(more as u32);
    linear.limit = linear.limit.wrapping_add(more as u32);
    constant.limit = constant.limit.wrapping_add(more as u32);
    [square, linear, constant]
}

/// One decimal behind the places, and no further one.
fn of_first_decimals(number: &Decimal, scale: Scale) -> Scaled {
    let decimals = number.decimals.min(scale.places() + 1);
    let digits = number.digits[..number.digits.len() - number.decimals + decimals].to_vec();
    scaled(&Decimal { digits, decimals }, scale)
}

fn without_further_decimals(number: &Decimal, scale: Scale) -> Scaled {
    Scaled { is_whole: number.decimals <= scale.places(), ..scaled(number, scale) }
}

fn in_bits(number: &Decimal, scale: Scale, bits: u32) -> Scaled {
    let result = scaled(number, scale);
    let value = result.value.low_bits() & (u64::MAX >> (64 - bits));
    Scaled { is_above: value > u64::from(scale.limit), ..result }
}

fn in_floating_point(number: &Decimal, scale: Scale) -> Scaled {
    let value = number.digits.iter().fold(0.0, |value, digit| 10.0 * value + f64::from(*digit));
    let result = value / 10_f64.powi(number.decimals as i32) * f64::from(scale.factor);
    Scaled { is_whole: result.fract() == 0.0, ..scaled(number, scale) }
}

// ---- refusals

fn check_each(results: &[Scaled], is_right: fn(&Scaled) -> bool) -> Result<(), Refused> {
    results.iter().all(is_right).then_some(()).ok_or(ABOVE_LIMIT)
}

fn above_first(results: &[Scaled]) -> Result<(), Refused> {
    check_each(results, |result| !result.is_above)?;
    check(results)
}

fn one_by_one(results: &[Scaled]) -> Result<(), Refused> {
    results.iter().try_for_each(|result| check(std::slice::from_ref(result)))
}

fn with_16_bits_of_length(row: &[u8], rules: &Rules) -> Result<[i64; 3], Refused> {
    if row.len() % 65_536 > rules.most_bytes {
        return Err(MALFORMED);
    }
    read(row, &Rules { most_bytes: usize::MAX, ..*rules })
}

fn length_last(row: &[u8], rules: &Rules) -> Result<[i64; 3], Refused> {
    read(row, &Rules { most_bytes: usize::MAX, ..*rules })?;
    read(row, rules)
}

fn reversed(row: &[u8], rules: &Rules) -> Result<[i64; 3], Refused> {
    let mut numbers = coefficients(row, rules).ok_or(MALFORMED)?;
    numbers.reverse();
    let results = results(&numbers, rules);
    (rules.check)(&results)?;
    Ok([0, 1, 2].map(|place: usize| results[2 - place].value.low_bits() as i64))
}

/// Each coefficient judged before the next is looked at.
fn as_it_comes(row: &[u8], rules: &Rules) -> Result<[i64; 3], Refused> {
    for (word, scale) in words(row, rules.is_blank).ok_or(MALFORMED)?.into_iter().skip(4).zip(rules.scales) {
        let result = scaled(&number(word).ok_or(MALFORMED)?, scale);
        if !result.is_whole {
            return Err(NOT_WHOLE);
        }
        check(&[result])?;
    }
    read(row, rules)
}
