//! Questions of one message, and of the whole site: a site is read once, and no row is kept that is
//! not asked for.

use crate::json::{Input, Read, Span};
use crate::lang_core::Lang;
use crate::nego_core::{self, Found, PriorityList, Scheme};
use crate::site::{name_text, read_document, stamp_of, Head, Row, SITE};
use std::fmt::Write as _;

/// The live rows of a message, with what they point into.
struct Message<'a> {
    head: Head<'a>,
    rows: Vec<Row>,
}

impl Message<'_> {
    fn read<'a>(text: &'a [u8], id: &[u8]) -> Read<Message<'a>> {
        let mut rows = Vec::new();
        let mut last = Span::NONE;
        let mut is_wanted = false;
        let head = read_document(text, &SITE, |input, _, row| {
            if row.id != last {
                last = row.id;
                is_wanted = input.get(row.id) == id;
            }
            if is_wanted && row.is_live() {
                rows.push(row);
            }
        })?;
        Ok(Message { head, rows })
    }

    fn text(&self, span: Span) -> &str {
        let text = std::str::from_utf8(self.head.input.get(span));
        text.unwrap_or_default()
    }

    fn langs(&self) -> Vec<Lang> {
        langs_of(&self.head.input, &self.rows)
    }
}

/// The languages of rows, which were tested when they were read.
fn langs_of(input: &Input, rows: &[Row]) -> Vec<Lang> {
    let langs = rows.iter().map(|row| Lang::parse(input.get(row.lang)));
    langs.filter_map(Result::ok).collect()
}

/// The line of a lookup, or none where nothing is found.
pub fn lookup(text: &[u8], id: &str, list: &PriorityList) -> Read<Option<String>> {
    let message = Message::read(text, id.as_bytes())?;
    let Found::Matched(place) = nego_core::lookup(list, &message.langs()) else {
        return Ok(None);
    };
    let row = &message.rows[place];
    let (lang, label) = (message.text(row.lang), message.text(row.label));
    Ok(Some(format!("matched {lang} {label}\n")))
}

/// The lines of a filter, or none where nothing is found.
pub fn filter(text: &[u8], id: &str, list: &PriorityList) -> Read<Option<String>> {
    let message = Message::read(text, id.as_bytes())?;
    let picks = nego_core::filter(list, Scheme::Basic, &message.langs());
    if picks.is_empty() {
        return Ok(None);
    }
    let mut lines = format!("filter {}\n", picks.len());
    for pick in picks {
        let row = &message.rows[pick.place];
        let (lang, label) = (message.text(row.lang), message.text(row.label));
        let _ = writeln!(lines, "{lang} {} {label}", pick.weight);
    }
    Ok(Some(lines))
}

pub fn status(text: &[u8]) -> Read<String> {
    let (mut cells, mut labels) = (0, 0);
    let (mut time, mut last) = (0, None);
    let head = read_document(text, &SITE, |_, sites, row| {
        cells += 1;
        labels += usize::from(row.is_live());
        if row.time >= time {
            time = row.time;
            last = last.max(Some(stamp_of(&row, sites)));
        }
    })?;
    let name = String::from_utf8_lossy(head.name());
    let last = match last {
        Some(last) => format!("{} {} {}", last.time, name_text(&last.site), last.count),
        None => "none".to_string(),
    };
    Ok(format!(
        "site {name} cells {cells} labels {labels} last {last}\n"
    ))
}
