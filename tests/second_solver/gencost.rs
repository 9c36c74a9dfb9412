//! A cost row of MATPOWER (S-14), from the paper, with numbers of any size: its rules and the call.

use crate::solver::Refused;

/// A whole number of any size: its digits to the base 2^32, the least first, without zeros at the end.
#[derive(Clone, Debug, Default)]
pub struct Natural(Vec<u32>);

impl Natural {
    fn multiply_and_add(&mut self, factor: u32, addend: u32) {
        let mut carry = u64::from(addend);
        for digit in &mut self.0 {
            carry += u64::from(*digit) * u64::from(factor);
            *digit = carry as u32;
            carry >>= 32;
        }
        if carry > 0 {
            self.0.push(carry as u32);
        }
    }

    /// Divides it, and gives the remainder.
    fn divide(&mut self, divisor: u32) -> u32 {
        let mut remainder = 0;
        for digit in self.0.iter_mut().rev() {
            let dividend = remainder << 32 | u64::from(*digit);
            *digit = (dividend / u64::from(divisor)) as u32;
            remainder = dividend % u64::from(divisor);
        }
        if self.0.last() == Some(&0) {
            self.0.pop();
        }
        remainder as u32
    }

    pub fn is_above(&self, limit: u32) -> bool {
        self.0.len() > 1 || self.low_bits() > u64::from(limit)
    }

    /// The number modulo 2^64.
    pub fn low_bits(&self) -> u64 {
        self.0.iter().take(2).rev().fold(0, |bits, digit| bits << 32 | u64::from(*digit))
    }
}

/// A number as it is written: its digits, of which so many are decimals.
#[derive(Clone, Debug)]
pub struct Decimal {
    pub digits: Vec<u8>,
    pub decimals: usize,
}

/// What a coefficient is multiplied by, and what it may come to.
#[derive(Clone, Copy)]
pub struct Scale {
    pub factor: u32,
    pub limit: u32,
}

impl Scale {
    /// How many decimals the factor, a power of ten, leaves whole.
    pub fn places(self) -> usize {
        self.factor.to_string().len() - 1
    }
}

/// A coefficient times its factor, and its value without what is behind the point.
#[derive(Clone, Debug)]
pub struct Scaled {
    pub is_whole: bool,
    pub is_above: bool,
    pub value: Natural,
}

/// The rules of the paper, and what wrong readings put in their place. Words are parted by `is_blank`; the scales are those of the
/// square, the linear and the constant coefficient, and so are the places of their results among the answers.
#[derive(Clone, Copy)]
pub struct Rules {
    pub least_room: usize,
    pub is_room_first: bool,
    pub most_bytes: usize,
    pub is_blank: fn(u8) -> bool,
    pub words: fn(&[u8], fn(u8) -> bool) -> Option<Vec<&[u8]>>,
    pub is_first: fn(&[u8]) -> bool,
    pub is_fourth: fn(&[u8]) -> bool,
    pub is_ignored: fn(&[u8]) -> bool,
    pub number: fn(&[u8]) -> Option<Decimal>,
    pub scales: [Scale; 3],
    pub scaled: fn(&Decimal, Scale) -> Scaled,
    pub check: fn(&[Scaled]) -> Result<(), Refused>,
    pub read: fn(&[u8], &Rules) -> Result<[i64; 3], Refused>,
    pub places: [usize; 3],
}

pub const PAPER: Rules = Rules {
    least_room: 3,
    is_room_first: true,
    most_bytes: 256,
    is_blank: |byte| byte == b' ' || byte == b'\t',
    words,
    is_first: |word| word == b"2",
    is_fourth: |word| word == b"3",
    is_ignored: |word| number(word).is_some(),
    number,
    scales: [
        Scale { factor: 10_000, limit: 1_000 },
        Scale { factor: 100_000, limit: 10_000_000 },
        Scale { factor: 1_000_000, limit: 1_000_000_000 },
    ],
    scaled,
    check,
    read,
    places: [2, 1, 0],
};

pub const MALFORMED: Refused = Refused(26);
pub const NOT_WHOLE: Refused = Refused(27);
pub const ABOVE_LIMIT: Refused = Refused(28);

// ---- words and numbers

/// The words of a row; none if it begins or ends with a blank, or has no byte.
pub fn words(row: &[u8], is_blank: fn(u8) -> bool) -> Option<Vec<&[u8]>> {
    let is_end = |byte: Option<&u8>| byte.map_or(true, |byte| is_blank(*byte));
    if is_end(row.first()) || is_end(row.last()) {
        return None;
    }
    Some(row.split(|byte| is_blank(*byte)).filter(|piece| !piece.is_empty()).collect())
}

/// Digits, or digits, a point and digits.
pub fn number(word: &[u8]) -> Option<Decimal> {
    match word.iter().position(|byte| *byte == b'.') {
        None => Some(Decimal { digits: digits(word)?, decimals: 0 }),
        Some(point) => {
            let (before, behind) = (digits(&word[..point])?, digits(&word[point + 1..])?);
            Some(Decimal { decimals: behind.len(), digits: [before, behind].concat() })
        }
    }
}

fn digits(text: &[u8]) -> Option<Vec<u8>> {
    let is_spelled = !text.is_empty() && text.iter().all(u8::is_ascii_digit);
    is_spelled.then(|| text.iter().map(|byte| byte - b'0').collect())
}

// ---- results

/// The number times the factor: its digits times the factor, divided by ten for each decimal.
pub fn scaled(number: &Decimal, scale: Scale) -> Scaled {
    let mut value = Natural::default();
    for digit in &number.digits {
        value.multiply_and_add(10, u32::from(*digit));
    }
    value.multiply_and_add(scale.factor, 0);
    let mut is_whole = true;
    for _ in 0..number.decimals {
        is_whole &= value.divide(10) == 0;
    }
    // a number that is not whole is above the limit also where it is the limit and a part of one
    let most = scale.limit - u32::from(!is_whole);
    Scaled { is_whole, is_above: value.is_above(most), value }
}

/// 27 over all, then 28 over any.
pub fn check(results: &[Scaled]) -> Result<(), Refused> {
    if results.iter().any(|result| !result.is_whole) {
        return Err(NOT_WHOLE);
    }
    if results.iter().any(|result| result.is_above) {
        return Err(ABOVE_LIMIT);
    }
    Ok(())
}

// ---- the call

/// The square, linear and constant coefficients as they are written.
pub fn coefficients(row: &[u8], rules: &Rules) -> Option<[Decimal; 3]> {
    if row.len() > rules.most_bytes {
        return None;
    }
    let words: [&[u8]; 7] = (rules.words)(row, rules.is_blank)?.try_into().ok()?;
    let [first, startup, shutdown, fourth, square, linear, constant] = words;
    let is_formed = (rules.is_first)(first) && (rules.is_fourth)(fourth) && [startup, shutdown].into_iter().all(rules.is_ignored);
    is_formed.then_some(())?;
    Some([(rules.number)(square)?, (rules.number)(linear)?, (rules.number)(constant)?])
}

pub fn results(numbers: &[Decimal], rules: &Rules) -> Vec<Scaled> {
    numbers.iter().zip(rules.scales).map(|(number, scale)| (rules.scaled)(number, scale)).collect()
}

/// What a row gives: the answers of the call.
pub fn read(row: &[u8], rules: &Rules) -> Result<[i64; 3], Refused> {
    let numbers = coefficients(row, rules).ok_or(MALFORMED)?;
    let results = results(&numbers, rules);
    (rules.check)(&results)?;
    let mut answers = [0; 3];
    for (result, place) in results.iter().zip(rules.places) {
        answers[place] = result.value.low_bits() as i64;
    }
    Ok(answers)
}

fn check_room(room: usize, rules: &Rules) -> Result<(), Refused> {
    if room < rules.least_room {
        return Err(Refused(1));
    }
    Ok(())
}

/// The answers of the call where a list of so many is lent.
pub fn gencost(row: &[u8], room: usize, rules: &Rules) -> Result<[i64; 3], Refused> {
    if rules.is_room_first {
        check_room(room, rules)?;
    }
    let answers = (rules.read)(row, rules)?;
    check_room(room, rules)?;
    Ok(answers)
}

/// The call in C.
pub fn panel_gencost(row: &[u8], answers: &mut [i64]) -> u32 {
    match gencost(row, answers.len(), &PAPER) {
        Err(Refused(number)) => number,
        Ok(read) => {
            answers[..3].copy_from_slice(&read);
            0
        }
    }
}
