//! Edits of a site: `put`, `import` and `update`.

use crate::json::write_string;
use crate::langmaps::{is_same_label, Entry, LangMaps};
use crate::site::{Row, Site, Stamp, Writer};
use std::cmp::Ordering;
use std::io::{self, Write};

fn next(site: &Site, now: u64) -> io::Result<Stamp> {
    site.next(now).ok_or(io::Error::other("clock"))
}

/// The stamp of the first of these edits, if there is one.
fn first_stamp<E>(site: &Site, now: u64, edits: &[E]) -> io::Result<Stamp> {
    if edits.is_empty() {
        Ok(Stamp::default())
    } else {
        next(site, now)
    }
}

pub fn put(
    site: &Site,
    now: u64,
    key: (&str, &str),
    label: &str,
    out: &mut impl Write,
) -> io::Result<()> {
    let (id, lang) = (key.0.as_bytes(), key.1.as_bytes());
    let stamp = next(site, now)?;
    let mut written = vec![b'['];
    write_string(&mut written, label.as_bytes());
    written.push(b']');
    let (place, is_there) = site.find(0, id, lang);
    let mut writer = Writer::new(out);
    writer.open();
    writer.rows(site, 0..place)?;
    writer.new_row(id, lang, stamp, &written)?;
    writer.rows(site, place + usize::from(is_there)..site.len())?;
    writer.close(site.name());
    writer.flush()
}

pub fn import(site: &Site, now: u64, maps: &LangMaps, out: &mut impl Write) -> io::Result<()> {
    let mut stamp = first_stamp(site, now, &maps.entries)?;
    let mut writer = Writer::new(out);
    writer.open();
    let mut at = 0;
    for entry in &maps.entries {
        let (id, lang) = maps.key(entry);
        let (place, is_there) = site.find(at, id, lang);
        writer.rows(site, at..place)?;
        writer.new_row(id, lang, stamp, maps.label(entry))?;
        at = place + usize::from(is_there);
        stamp.count += 1;
    }
    writer.rows(site, at..site.len())?;
    writer.close(site.name());
    writer.flush()
}

/// A label to put, or none to delete, at a place among the rows, with whether the key is there.
struct Edit<'a> {
    key: (&'a [u8], &'a [u8]),
    label: Option<&'a [u8]>,
    place: usize,
    is_there: bool,
}

/// What an editor changed between two states of language maps, key by key: a label that is new, or
/// none where it was deleted.
fn changed<'a>(
    old: &'a LangMaps,
    new: &'a LangMaps,
    mut take: impl FnMut((&'a [u8], &'a [u8]), Option<&'a [u8]>),
) {
    let mut news = new.entries.iter().peekable();
    let put = |entry: &Entry, take: &mut dyn FnMut(_, _)| {
        take(new.key(entry), Some(new.label(entry)));
    };
    for entry in &old.entries {
        let key = old.key(entry);
        let order = loop {
            let Some(next) = news.peek() else {
                break Ordering::Greater;
            };
            match new.key(next).cmp(&key) {
                Ordering::Less => put(next, &mut take),
                order => break order,
            }
            news.next();
        };
        if order != Ordering::Equal {
            take(key, None);
        } else if let Some(next) = news.next() {
            if !is_same_label(old.label(entry), new.label(next)) {
                put(next, &mut take);
            }
        }
    }
    for entry in news {
        put(entry, &mut take);
    }
}

pub fn update(
    site: &Site,
    now: u64,
    old: &LangMaps,
    new: &LangMaps,
    out: &mut impl Write,
) -> io::Result<()> {
    let mut edits = Vec::new();
    let mut from = 0;
    changed(old, new, |key, label| {
        let (place, is_there) = site.find(from, key.0, key.1);
        from = place;
        let row = is_there.then(|| &site.rows[place]);
        let held = row.filter(|row| row.is_live());
        let held_label = |row: &Row| site.head.input.get(row.label);
        let is_edit = match (held, label) {
            (None, label) => label.is_some(),
            (Some(_), None) => true,
            (Some(row), Some(label)) => !is_same_label(held_label(row), label),
        };
        if is_edit {
            edits.push(Edit {
                key,
                label,
                place,
                is_there,
            });
        }
    });
    let mut stamp = first_stamp(site, now, &edits)?;
    let mut writer = Writer::new(out);
    writer.open();
    let mut at = 0;
    for edit in edits {
        writer.rows(site, at..edit.place)?;
        writer.new_row(edit.key.0, edit.key.1, stamp, edit.label.unwrap_or(b"null"))?;
        at = edit.place + usize::from(edit.is_there);
        stamp.count += 1;
    }
    writer.rows(site, at..site.len())?;
    writer.close(site.name());
    writer.flush()
}
