//! Cost rows: well-formed ones of any coefficients, written in any way; rows of about 256 bytes; damaged ones; short ones of few
//! characters.

use crate::calls::Gencost;
use crate::gencost::{Scale, PAPER};
use crate::gencost_vectors;
use crate::random::Random;

type Kind = fn(&mut Random) -> Gencost;

/// The kinds of rows; two of them are named twice, to be made more often.
pub const KINDS: [Kind; 7] = [readable, any_coefficients, any_coefficients, about_the_length, damaged, damaged, of_few_characters];

pub fn stated() -> Vec<Gencost> {
    let of = |row: gencost_vectors::Stated| Gencost { row: row.row, room: row.room, made_of: None };
    gencost_vectors::rows().into_iter().map(of).collect()
}

// ---- the kinds

/// A row of coefficients within their limits, and of at most 256 bytes.
fn readable(random: &mut Random) -> Gencost {
    let [c2, c1, c0] = PAPER.scales.map(|scale| within(scale, random));
    let coefficients = [(c2, 0), (c1, 1), (c0, 2)].map(|(result, place)| spelled(result, PAPER.scales[place].places(), random));
    let row = joined(&words_of(coefficients, random), random);
    let made_of = Some([c0, c1, c2].map(|result| result as i64)).filter(|_| row.len() <= PAPER.most_bytes);
    Gencost { row, room: room(random), made_of }
}

fn any_coefficients(random: &mut Random) -> Gencost {
    unread(joined(&any_words(random), random), random)
}

/// A row of 254 to 258 bytes: zeros or blanks put into it at a place where they do no harm.
fn about_the_length(random: &mut Random) -> Gencost {
    let mut row = any_coefficients(random).row;
    let length = random.pick(&[254, 255, 256, 256, 257, 257, 258]);
    let missing = usize::saturating_sub(length, row.len());
    let blank = row.iter().position(|byte| *byte == b' ' || *byte == b'\t').unwrap_or(0);
    let (place, byte) = random.pick(&[(blank, b' '), (blank, b'\t'), (blank + 1, b'0'), (row.len(), b'0')]);
    row.splice(place..place, vec![byte; missing]);
    unread(row, random)
}

/// A row of the other kinds that is changed in one place to three.
fn damaged(random: &mut Random) -> Gencost {
    let mut row = random.pick(&[readable, any_coefficients, about_the_length])(random).row;
    for _ in 0..random.pick(&[1, 1, 1, 2, 3]) {
        random.pick(&DAMAGES)(&mut row, random);
    }
    unread(row, random)
}

/// A short row of characters that rows are made of, at times behind the start of a good one.
fn of_few_characters(random: &mut Random) -> Gencost {
    let start = random.pick(&[&b""[..], b"2 0 0 3 ", b"2 0 0 3 0 0 "]);
    let rest = (0..random.below(12)).map(|_| random.pick(b"23  \t..0019")).collect();
    unread([start.to_vec(), rest].concat(), random)
}

fn unread(row: Vec<u8>, random: &mut Random) -> Gencost {
    Gencost { row, room: room(random), made_of: None }
}

fn room(random: &mut Random) -> usize {
    if random.chance(10) {
        return random.pick(&[0, 1, 2]);
    }
    random.pick(&[3, 3, 3, 4, 40])
}

// ---- words

fn joined(words: &[Vec<u8>; 7], random: &mut Random) -> Vec<u8> {
    let mut row = words[0].clone();
    for word in &words[1..] {
        let gap = random.pick(&[&b" "[..], b" ", b" ", b"\t", b"\t", b"  ", b"\t\t", b" \t", b"\t ", b"    "]);
        row.extend_from_slice(gap);
        row.extend_from_slice(word);
    }
    row
}

fn words_of(coefficients: [Vec<u8>; 3], random: &mut Random) -> [Vec<u8>; 7] {
    let [square, linear, constant] = coefficients;
    [b"2".to_vec(), ignored(random), ignored(random), b"3".to_vec(), square, linear, constant]
}

fn any_words(random: &mut Random) -> [Vec<u8>; 7] {
    let coefficients = PAPER.scales.map(|scale| coefficient(scale, random));
    words_of(coefficients, random)
}

/// Startup or shutdown: a number of any value.
fn ignored(random: &mut Random) -> Vec<u8> {
    let mut word = some_digits(random);
    if random.chance(3) {
        word.push(b'.');
        word.extend(some_digits(random));
    }
    word
}

fn some_digits(random: &mut Random) -> Vec<u8> {
    let count = random.pick(&[1, 1, 1, 2, 3, 4, 30]);
    (0..count).map(|_| digit(random)).collect()
}

fn digit(random: &mut Random) -> u8 {
    b'0' + random.below(10) as u8
}

// ---- coefficients

/// Mostly whole and within its limit, so that a row's answer often hangs on one coefficient.
fn coefficient(scale: Scale, random: &mut Random) -> Vec<u8> {
    let result = if random.chance(6) { above(scale, random) } else { within(scale, random) };
    let mut word = if random.chance(40) { some_digits(random).repeat(5) } else { spelled(result, scale.places(), random) };
    if random.chance(6) {
        make_finer(&mut word, random);
    }
    word
}

fn within(scale: Scale, random: &mut Random) -> u128 {
    let limit = i128::from(scale.limit);
    let any = random.between(0, limit);
    let round = any - any % random.pick(&[10, 100, 1_000]);
    random.pick(&[0, 1, limit - 1, limit, any, any, any, round, round]) as u128
}

/// Just above the limit, or what 32 or 64 bits would cut to a number within it.
fn above(scale: Scale, random: &mut Random) -> u128 {
    let limit = u128::from(scale.limit);
    let (low, times) = (within(scale, random), random.below(9) as u128 + 1);
    random.pick(&[limit + 1, limit + 1, limit + 1 + low, 10 * limit, 10 * limit + 9, (times << 32) + low, (times << 64) + low])
}

/// A result as the number that it comes from: with zeros before and behind, and with the zeros at its end left out, more or less.
fn spelled(result: u128, places: usize, random: &mut Random) -> Vec<u8> {
    let mut word = format!("{:01$}", result, places + 1).into_bytes();
    word.insert(word.len() - places, b'.');
    while word.last() == Some(&b'0') && !random.chance(12) {
        word.pop();
    }
    if word.last() == Some(&b'.') {
        word.pop();
    } else {
        word.extend(zeros(random));
    }
    [zeros(random), word].concat()
}

fn zeros(random: &mut Random) -> Vec<u8> {
    let count = random.pick(&[0, 0, 0, 0, 0, 0, 0, 0, 0, 0, 1, 1, 2, 3, 20, 60]);
    vec![b'0'; count]
}

/// Puts a digit that is not 0 far enough behind the point, and at times zeros behind that.
fn make_finer(word: &mut Vec<u8>, random: &mut Random) {
    if !word.contains(&b'.') {
        word.push(b'.');
    }
    let decimals = word.iter().rev().take_while(|byte| **byte != b'.').count();
    let wanted = random.pick(&[4, 5, 6, 6, 7, 8, 12, 90]);
    word.extend(vec![b'0'; usize::saturating_sub(wanted, decimals)]);
    word.push(b'1' + random.below(9) as u8);
    word.extend(zeros(random));
}

// ---- damages

type Damage = fn(&mut Vec<u8>, &mut Random);

const DAMAGES: [Damage; 9] =
    [byte_changed, byte_put_in, byte_put_in, byte_taken_out, cut, end_added, start_added, word_changed, word_changed];

/// Bytes that a careless reader takes: blanks of other kinds, line ends, signs, exponents, neighbours of digits, zero, the point.
const BYTES: &[u8] = b" \t\n\r\x0b\x0c\x00\xa0;,.-+eE/:0123456789";

fn byte(random: &mut Random) -> u8 {
    if random.chance(8) {
        return random.next() as u8;
    }
    random.pick(BYTES)
}

fn byte_changed(row: &mut Vec<u8>, random: &mut Random) {
    if !row.is_empty() {
        let place = random.below(row.len());
        row[place] = byte(random);
    }
}

fn byte_put_in(row: &mut Vec<u8>, random: &mut Random) {
    row.insert(random.below(row.len() + 1), byte(random));
}

fn byte_taken_out(row: &mut Vec<u8>, random: &mut Random) {
    if !row.is_empty() {
        row.remove(random.below(row.len()));
    }
}

fn cut(row: &mut Vec<u8>, random: &mut Random) {
    row.truncate(random.below(row.len() + 1));
}

fn end_added(row: &mut Vec<u8>, random: &mut Random) {
    row.extend_from_slice(random.pick(&[&b" "[..], b"\t", b"\n", b"\r\n", b";", b" 0", b"\0", b"."]));
}

fn start_added(row: &mut Vec<u8>, random: &mut Random) {
    row.splice(0..0, random.pick(&[&b" "[..], b"\t", b"2 ", b"0", b".", b"\xef\xbb\xbf"]).to_vec());
}

/// One of the seven words, or what is between two single blanks, left out, doubled or another.
fn word_changed(row: &mut Vec<u8>, random: &mut Random) {
    let mut words: Vec<Vec<u8>> = row.split(|byte| *byte == b' ').map(<[u8]>::to_vec).collect();
    let place = random.below(words.len());
    match random.below(5) {
        0 => drop(words.remove(place)),
        1 => words.insert(place, words[place].clone()),
        _ => {
            words[place] = random
                .pick(&[&b"2"[..], b"3", b"1", b"2.0", b"3.0", b"02", b"03", b".5", b"5.", b".", b"-1", b"1e3", b"x", b"0.1.2"])
                .to_vec()
        }
    }
    *row = words.join(&b' ');
}
