//! What sites exchange: `summary`, `delta`, `take` and `sync`.

use crate::json::Read;
use crate::site::{read_document, stamp_of, write_stamp, Head, Site, Writer, SITE, SUMMARY};
use std::io::{self, Write};
use std::ops::Range;

/// The keys and stamps of a site, which is read once: a row that is as it would be written is
/// copied up to its label.
pub fn summary(text: &[u8], out: &mut impl Write) -> io::Result<Read<()>> {
    let mut stamps = Vec::with_capacity(text.len() / 2);
    let read = read_document(text, &SITE, |input, sites, row| {
        if row.whole.is_empty() {
            let (id, lang) = (input.get(row.id), input.get(row.lang));
            write_stamp(&mut stamps, id, lang, stamp_of(&row, sites));
        } else {
            let end = input.get(row.whole).len() - input.get(row.label).len() - 2;
            stamps.extend_from_slice(input.get(row.whole.first(end)));
        }
        stamps.extend_from_slice(b"],");
    });
    let head = match read {
        Ok(head) => head,
        Err(refused) => return Ok(Err(refused)),
    };
    stamps.pop();
    out.write_all(b"{\"kind\":\"summary\",\"owner\":\"")?;
    out.write_all(head.name())?;
    out.write_all(b"\",\"stamps\":[")?;
    out.write_all(&stamps)?;
    out.write_all(b"],\"version\":2}\n")?;
    Ok(Ok(()))
}

/// The rows of a site that a summary lacks or has with an older stamp.
pub struct Lacking<'a> {
    summary: Head<'a>,
    ranges: Vec<Range<usize>>,
}

/// Reads a summary beside a site: no row of it is kept.
pub fn lacking<'a>(site: &Site, text: &'a [u8]) -> Read<Lacking<'a>> {
    let mut ranges: Vec<Range<usize>> = Vec::new();
    let mut at = 0;
    let mut send = |places: Range<usize>| match ranges.last_mut() {
        _ if places.is_empty() => {}
        Some(last) if last.end == places.start => last.end = places.end,
        _ => ranges.push(places),
    };
    let summary = read_document(text, &SUMMARY, |input, sites, row| {
        let (place, is_there) = site.find(at, input.get(row.id), input.get(row.lang));
        send(at..place);
        at = place + usize::from(is_there);
        if is_there && site.stamp(&site.rows[place]) > stamp_of(&row, sites) {
            send(place..at);
        }
    })?;
    send(at..site.len());
    Ok(Lacking { summary, ranges })
}

pub fn delta(site: &Site, lacking: &Lacking, out: &mut impl Write) -> io::Result<()> {
    let mut writer = Writer::new(out);
    writer.open();
    for places in &lacking.ranges {
        writer.rows(site, places.clone())?;
    }
    writer.close_kind("\"kind\":\"delta\",\"to\":\"", lacking.summary.name());
    writer.flush()
}

/// The rows of a site with those of a delta that are later.
pub fn take(site: &Site, delta: &Site, out: &mut impl Write) -> io::Result<()> {
    if site.name() != delta.name() {
        return Err(io::Error::other("delta is for another site"));
    }
    let input = &delta.head.input;
    let mut later = Vec::with_capacity(delta.len());
    let mut from = 0;
    for (at, row) in delta.rows.iter().enumerate() {
        let (place, is_there) = site.find(from, input.get(row.id), input.get(row.lang));
        from = place;
        let wins = if is_there {
            let is_won = site.is_won(place, delta, at);
            is_won.ok_or(io::Error::other("clash"))?
        } else {
            true
        };
        if wins {
            later.push((place, is_there, at));
        }
    }
    let mut writer = Writer::new(out);
    writer.open();
    let mut from = 0;
    for (place, is_there, at) in later {
        writer.rows(site, from..place)?;
        writer.rows(delta, at..at + 1)?;
        from = place + usize::from(is_there);
    }
    writer.rows(site, from..site.len())?;
    writer.close(site.name());
    writer.flush()
}

pub fn sync(one: &Site, two: &Site, out: &mut impl Write) -> io::Result<()> {
    let Some(joined) = one.joined(two) else {
        return Err(io::Error::other("clash"));
    };
    let mut writer = Writer::new(out);
    for site in [one, two] {
        writer.open();
        writer.joined(one, two, &joined)?;
        writer.close(site.name());
    }
    writer.flush()
}
