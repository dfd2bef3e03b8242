//! The documents that the commands read, made by arithmetic alone.

use std::fmt::Write as _;

const LANGUAGES: [&str; 10] = [
    "de", "en", "es", "fr", "it", "ja", "nl", "pt-br", "sr-latn", "zh-hant",
];

/// A document of rows, with what follows them.
fn closed(mut rows: String, tail: &str) -> String {
    rows.pop();
    format!("{{\"cells\":[{rows}],{tail},\"version\":2}}\n")
}

fn site_of(rows: String, name: &str) -> String {
    closed(rows, &format!("\"kind\":\"site\",\"site\":\"{name}\""))
}

/// The message and the language of a cell: ten languages a message.
fn key(number: u64, first: u64, step: u64) -> (u64, &'static str) {
    (
        first + number / 10 * step,
        LANGUAGES[(number % 10) as usize],
    )
}

/// The key and the stamp of a cell, as a row begins with them.
fn write_stamp(rows: &mut String, key: (u64, &str), time: u64, name: &str, count: u64) {
    let (message, language) = key;
    let _ = write!(
        rows,
        "[\"page/message-{message:08}\",\"{language}\",{time},\"{name}\",{count}"
    );
}

fn is_deleted(number: u64) -> bool {
    number % 16 == 15
}

/// A site of so many cells, ten languages a message.
pub fn load(size: u64, first: u64, step: u64, name: &str) -> String {
    let mut rows = String::new();
    for number in 0..size {
        let key = key(number, first, step);
        write_stamp(&mut rows, key, 1_000_000 + number, name, number % 7);
        if is_deleted(number) {
            rows.push_str(",null],");
        } else {
            let _ = write!(rows, ",[\"label {number} of the page\"]],");
        }
    }
    site_of(rows, name)
}

/// Whether a cell is one of the hundredth that differs.
fn is_other(number: u64) -> bool {
    number % 100 == 50
}

/// A summary of `load` that lacks a hundredth.
pub fn summary(size: u64, first: u64, step: u64, name: &str) -> String {
    let mut rows = String::new();
    for number in (0..size).filter(|number| !is_other(*number)) {
        let key = key(number, first, step);
        write_stamp(&mut rows, key, 1_000_000 + number, name, number % 7);
        rows.push_str("],");
    }
    rows.pop();
    format!("{{\"kind\":\"summary\",\"owner\":\"{name}\",\"stamps\":[{rows}],\"version\":2}}\n")
}

/// A delta for the site of `load` by another site: new labels of a hundredth.
pub fn delta(size: u64, first: u64, step: u64, name: &str) -> String {
    let mut rows = String::new();
    for number in (0..size).filter(|number| is_other(*number)) {
        let key = key(number, first, step);
        write_stamp(&mut rows, key, 2_000_000 + number, "lyon", 0);
        let _ = write!(rows, ",[\"other label {number} of the page\"]],");
    }
    closed(rows, &format!("\"kind\":\"delta\",\"to\":\"{name}\""))
}

pub fn short(size: u64, first: u64, step: u64, name: &str) -> String {
    let mut rows = String::new();
    for number in 0..size {
        let _ = write!(
            rows,
            "[\"{:07}\",\"de\",1,\"{name}\",0,[\"x\"]],",
            first + number * step
        );
    }
    site_of(rows, name)
}

/// So many letters that rise with the number.
fn letters(number: u64, count: u32) -> String {
    (0..count)
        .rev()
        .map(|place| char::from(b'a' + (number / 26_u64.pow(place) % 26) as u8))
        .collect()
}

pub fn single(size: u64, name: &str) -> String {
    let mut rows = String::new();
    for number in 0..size {
        let _ = write!(
            rows,
            "[\"{}\",\"de\",1,\"{name}\",0,null],",
            letters(number, 5)
        );
    }
    site_of(rows, name)
}

/// Language maps of some of so many labels.
fn maps_of(size: u64, label_of: impl Fn(u64) -> Option<String>) -> String {
    let mut text = String::from("{");
    let mut last = None;
    for number in 0..size {
        let Some(label) = label_of(number) else {
            continue;
        };
        let (message, language) = key(number, 0, 3);
        if last == Some(message) {
            text.push(',');
        } else {
            text.push_str(if last.is_none() { "\"" } else { "},\"" });
            let _ = write!(text, "page/message-{message:08}\":{{");
            last = Some(message);
        }
        let _ = write!(text, "\"{language}\":\"{label}\"");
    }
    text.push_str("}}\n");
    text
}

pub fn maps(size: u64) -> String {
    maps_of(size, |number| Some(format!("label {number}")))
}

fn live_label(number: u64) -> Option<String> {
    (!is_deleted(number)).then(|| format!("label {number} of the page"))
}

/// The labels of `load`.
pub fn old_maps(size: u64) -> String {
    maps_of(size, live_label)
}

/// The labels of `load`, where a hundredth was edited: of four of them three have another text, and
/// one was deleted.
pub fn new_maps(size: u64) -> String {
    maps_of(size, |number| match number % 400 {
        50 => None,
        _ if is_other(number) => Some(format!("other label {number} of the page")),
        _ => live_label(number),
    })
}

pub fn single_maps(size: u64) -> String {
    let members: Vec<String> = (0..size)
        .map(|number| format!("\"{}\":{{\"de\":\"x\"}}", letters(number, 5)))
        .collect();
    format!("{{{}}}\n", members.join(","))
}

pub fn passed_over(size: usize) -> String {
    format!(
        "{{\"@graph\":[0{}],\"a\":{{\"de\":\"x\"}}}}\n",
        ",0".repeat(size / 2)
    )
}

/// A field of so many bytes: ranges that no message has, half of which lookup cuts to a language
/// that the field refuses, and one at the end that the messages have.
pub fn field(size: usize) -> String {
    const LAST: &str = "en;q=0,de;q=0.9";
    let mut field = String::new();
    for number in 0.. {
        let letters = letters(number, 3);
        let range = if number % 2 == 0 {
            format!("{letters},")
        } else {
            format!("en-{letters}00,")
        };
        if field.len() + range.len() + LAST.len() > size {
            break;
        }
        field.push_str(&range);
    }
    field + LAST
}
