//! Rows as they are written, eight bytes at a time and by comparing with what was read before. None
//! is the answer for a row that differs in any way: the reader of JSON takes it.

use crate::checks::{is_message_id, MAX_TEXTS, MAX_TEXT_LEN};
use crate::json::{Input, Span};
use crate::site::{Known, Last, Names, Row};
use crate::words::{before_mark, is_same, word_at, ONES, TOPS};

/// How many bytes are before the first quote, backslash or control character, or before the end.
#[inline(always)]
pub fn string_len(text: &[u8]) -> usize {
    let mut rest = text;
    loop {
        let (word, left) = match rest.split_first_chunk() {
            Some((eight, left)) => (u64::from_le_bytes(*eight), left),
            None => (word_at(rest, 0), rest),
        };
        let quote = (word ^ (ONES * u64::from(b'"'))).wrapping_sub(ONES);
        let backslash = (word ^ (ONES * u64::from(b'\\'))).wrapping_sub(ONES);
        let control = word.wrapping_sub(ONES * 0x20);
        let marks = (quote | backslash | control) & !word & TOPS;
        if marks != 0 {
            return text.len() - rest.len() + before_mark(marks);
        }
        rest = left;
    }
}

/// The first eight bytes.
#[inline(always)]
fn word(rest: &[u8]) -> u64 {
    match rest.first_chunk() {
        Some(eight) => u64::from_le_bytes(*eight),
        None => word_at(rest, 0),
    }
}

/// What follows a text.
#[inline(always)]
fn after<'a>(rest: &'a [u8], wanted: &[u8]) -> Option<&'a [u8]> {
    let (front, left) = rest.split_at_checked(wanted.len())?;
    is_same(front, wanted).then_some(left)
}

/// The value of eight digits without their high bits, the first one lowest.
#[inline(always)]
fn value_of(digits: u64) -> u64 {
    let pairs = digits.wrapping_mul(2561) >> 8 & 0x00FF_00FF_00FF_00FF;
    let fours = pairs.wrapping_mul(6_553_601) >> 16 & 0x0000_FFFF_0000_FFFF;
    fours.wrapping_mul(42_949_672_960_001) >> 32
}

/// A number of at most 15 digits, and what follows it.
#[inline(always)]
fn number(rest: &[u8]) -> Option<(u64, &[u8])> {
    let [first, second, ..] = *rest else {
        return None;
    };
    if !second.is_ascii_digit() {
        let digit = first.wrapping_sub(b'0');
        return (digit <= 9).then(|| (u64::from(digit), &rest[1..]));
    }
    let (front, count) = digits(rest);
    if first == b'0' || count == 0 {
        return None;
    }
    let left = &rest[count..];
    if count < 8 {
        return Some((front, left));
    }
    let (back, more) = digits(left);
    let number = front * 10_u64.pow(more as u32) + back;
    (more < 8).then(|| (number, &left[more..]))
}

/// The value of up to eight digits, and how many they are.
#[inline(always)]
fn digits(rest: &[u8]) -> (u64, usize) {
    let digits = word(rest) ^ (ONES * u64::from(b'0'));
    let others = (((digits & !TOPS) + ONES * 0x76) | digits) & TOPS;
    let count = before_mark(others);
    let digits = digits.checked_shl(64 - 8 * count as u32);
    (value_of(digits.unwrap_or(0)), count)
}

/// The text before a quote, and what follows that.
#[inline(always)]
fn text(rest: &[u8]) -> Option<(&[u8], &[u8])> {
    let (text, left) = rest.split_at_checked(string_len(rest))?;
    Some((text, left.strip_prefix(b"\"")?))
}

/// How many texts a label has, and what follows it.
#[inline(always)]
fn label(rest: &[u8]) -> Option<(u8, &[u8])> {
    let Some(mut left) = rest.strip_prefix(b"[\"") else {
        return Some((0, rest.strip_prefix(b"null")?));
    };
    for texts in 1..=MAX_TEXTS {
        let (text, rest) = text(left)?;
        if text.len() > MAX_TEXT_LEN {
            return None;
        }
        match rest.strip_prefix(b"]") {
            Some(left) => return Some((texts as u8, left)),
            None => left = rest.strip_prefix(b",\"")?,
        }
    }
    None
}

/// A row as it is written at the place of an input, and whether it is of the message of the last
/// one. Its language and its site are such as were read before.
#[inline(always)]
pub fn row<'a>(
    input: &mut Input<'a>,
    has_labels: bool,
    last: Option<&Last<'a>>,
    known: &mut Known,
    names: &Names<'a>,
) -> Option<(Row, bool)> {
    let begun = input.rest();
    let place = input.place();
    let at = |rest: &[u8]| place + (begun.len() - rest.len());
    let span = |from: &[u8], to: &[u8]| Span::of(at(from), from.len() - to.len());
    let rest = begun.strip_prefix(b"[\"")?;
    let same = last.and_then(|last| Some((last.id, after(rest, last.quoted?)?)));
    let (id, rest) = match same {
        Some(same) => same,
        None => {
            let (id, left) = text(rest)?;
            if !is_message_id(id) {
                return None;
            }
            (Span::of(at(rest), id.len()), left)
        }
    };
    let rest = rest.strip_prefix(b",\"")?;
    let (number_of_lang, left) = known.first_of(rest)?;
    let lang = span(rest, left);
    let (time, rest) = number(left.strip_prefix(b"\",")?)?;
    let (quoted, site) = names.last()?;
    let rest = after(rest.strip_prefix(b",\"")?, quoted)?;
    let (count, mut rest) = number(rest.strip_prefix(b",")?)?;
    let count = u32::try_from(count).ok()?;
    let (mut label_span, mut texts) = (Span::NONE, 0);
    if has_labels {
        let from = rest.strip_prefix(b",")?;
        (texts, rest) = label(from)?;
        label_span = span(from, rest);
    }
    let rest = rest.strip_prefix(b"]")?;
    known.took(number_of_lang);
    input.go_back(at(rest));
    let row = Row {
        time,
        id,
        lang,
        label: label_span,
        whole: span(begun, rest),
        count,
        site,
        texts,
        known: number_of_lang,
    };
    Some((row, same.is_some()))
}
