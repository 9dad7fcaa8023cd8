//! Writing calls as lines in every way that is read, and in ways that are not.

use reference::call::Call;

use crate::batches::OPERATION;
use crate::common::draws::Draws;
use crate::common::{line_of, BATCH_LIMIT};

/// Bytes of which no call has one anywhere.
const FOREIGN: &[u8] = b"\t\r\0\x0b\x1b+-.,_:/;bigsfcexXAO\x7f\x80\xa0\xc2\xd9\xef\xff";
/// Around the longest set up, which has 177 bytes, around the longest call, a batch of 716, and around what programs
/// may read at once.
const LENGTHS: [usize; 16] = [11, 64, 176, 177, 178, 179, 255, 256, 257, 715, 716, 717, 718, 1000, 4095, 4096];
const TEN_DIGITS: usize = 10;
/// The most numbers of a set up.
const MOST_KINDS: usize = 16;
/// The most numbers of a batch: a transaction's and those of its operations.
const MOST_OF_BATCH: usize = 1 + BATCH_LIMIT * OPERATION;

/// A line that stands for the call.
pub fn written(draws: &mut Draws, call: &Call) -> Vec<u8> {
    let mut fields: Vec<String> = line_of(call).split(' ').map(String::from).collect();
    if draws.percent(90) {
        drop_last_zeros(&mut fields);
    }
    let chance = draws.pick(&[0, 0, 0, 0, 0, 0, 0, 30, 100]);
    let width = if draws.percent(50) { TEN_DIGITS } else { 1 + draws.below(TEN_DIGITS) };
    for field in &mut fields[1..] {
        if draws.percent(chance) {
            *field = format!("{field:0>width$}");
        }
    }
    fields.join(" ").into_bytes()
}

/// Kinds that are missing are 0.
fn drop_last_zeros(fields: &mut Vec<String>) {
    while fields[0] == "S" && fields.last().map_or(false, |field| field == "0") {
        fields.pop();
    }
}

/// A line that stands for no call, made of one that does.
pub fn damaged(draws: &mut Draws, line: &[u8]) -> Vec<u8> {
    match draws.below(7) {
        0 => with_foreign_byte(draws, line),
        1 => with_foreign_byte(draws, b""),
        2 => with_space_too_many(draws, line),
        3 => with_wrong_fields(draws, line),
        4 | 5 => with_wrong_number(draws, line),
        _ => other_line(draws),
    }
}

/// A foreign byte put in, or instead of another.
fn with_foreign_byte(draws: &mut Draws, line: &[u8]) -> Vec<u8> {
    let start = draws.below(line.len() + 1);
    let end = (start + draws.below(2)).min(line.len());
    [&line[..start], &[draws.pick(FOREIGN)], &line[end..]].concat()
}

/// A space before the line, after it, or beside another.
fn with_space_too_many(draws: &mut Draws, line: &[u8]) -> Vec<u8> {
    let spaces = (0..line.len()).filter(|&index| line[index] == b' ');
    let places: Vec<usize> = spaces.chain([0, line.len()]).collect();
    let place = draws.pick(&places);
    [&line[..place], b" ", &line[place..]].concat()
}

/// A field too few or too many.
fn with_wrong_fields(draws: &mut Draws, line: &[u8]) -> Vec<u8> {
    let text = String::from_utf8_lossy(line);
    let numbers = text.matches(' ').count();
    let filled = |count: usize| format!("{text}{}", " 0".repeat(count - numbers)).into_bytes();
    match (text.chars().next(), text.rsplit_once(' ')) {
        (Some('S'), _) => filled(MOST_KINDS + 1),
        (Some('G'), _) => with_wrong_operations(draws, &text),
        (_, Some((before, _))) if draws.percent(50) => before.as_bytes().to_vec(),
        _ => filled(numbers + 1),
    }
}

/// A batch with a part of an operation, with more than it may have, or with no number at all.
fn with_wrong_operations(draws: &mut Draws, text: &str) -> Vec<u8> {
    let mut fields: Vec<&str> = text.split(' ').collect();
    let part = 1 + draws.below(OPERATION - 1);
    match draws.below(4) {
        0 if fields.len() > 2 => fields.truncate(fields.len() - part),
        0 => fields.truncate(1),
        1 | 2 => fields.resize(fields.len() + part, "0"),
        _ => fields.resize(1 + MOST_OF_BATCH + draws.pick(&[1, OPERATION, 2 * OPERATION]), "0"),
    }
    fields.join(" ").into_bytes()
}

/// A number too long or too large, or one with a sign.
fn with_wrong_number(draws: &mut Draws, line: &[u8]) -> Vec<u8> {
    let text = String::from_utf8_lossy(line);
    let mut fields: Vec<String> = text.split(' ').map(String::from).collect();
    let range: u64 = if fields[0] == "S" { 256 } else { 1 << 32 };
    if fields.len() == 1 {
        fields.push("0".to_string());
    }
    let place = 1 + draws.below(fields.len() - 1);
    let field = &mut fields[place];
    let number: u64 = field.parse().expect("a field of a call is a number");
    let width = TEN_DIGITS + 1 + draws.below(3);
    *field = match draws.below(6) {
        0 => format!("{number:0>width$}"),
        1 => format!("{}", range + number), // the same number to whoever drops the digits that do not fit
        2 => "9999999999".to_string(),
        3 => format!("+{number}"),
        4 => format!("-{number}"),
        _ => format!("{}", range),
    };
    fields.join(" ").into_bytes()
}

/// A line that comes from no call in particular.
fn other_line(draws: &mut Draws) -> Vec<u8> {
    let length = draws.pick(&LENGTHS);
    let ten_digits = format!(" {:0>TEN_DIGITS$}", draws.below(4));
    let (letter, most) = draws.pick(&[('S', MOST_KINDS), ('G', MOST_OF_BATCH)]);
    let longest = format!("{letter}{}", ten_digits.repeat(most));
    match draws.below(6) {
        0 => Vec::new(),
        1 => vec![draws.pick(b"0 SG9B\0\xff"); length],
        2 => [b"B ".to_vec(), vec![b'0'; length], b"1".to_vec()].concat(),
        3 => [b"B 1".to_vec(), vec![b' '; length]].concat(),
        4 => (longest + &ten_digits).into_bytes(),
        _ => [longest.into_bytes(), vec![draws.pick(b"0 \r1\0")]].concat(), // one byte more than a call has
    }
}

/// A line with a digit or a space put in, left out or changed: perhaps a call.
pub fn mutated(draws: &mut Draws, line: &[u8]) -> Vec<u8> {
    let start = draws.below(line.len() + 1);
    let end = (start + draws.below(2)).min(line.len());
    let byte = [draws.pick(b"0123456789  ")];
    let instead = if draws.percent(70) { &byte[..] } else { b"" };
    [&line[..start], instead, &line[end..]].concat()
}
