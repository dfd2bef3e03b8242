//! The documents of rows: sites, deltas and summaries. Rows point into the input, and those in
//! the form in which they would be written are copied as they are.

use crate::as_written;
use crate::checks::{is_message_id, is_site_name, MAX_TEXTS, MAX_TEXT_LEN};
use crate::json::{write_number, write_string, Input, Read, Span};
use crate::lang_core::Lang;
use crate::words::{first_bytes, is_same, word_at};
use std::cmp::Ordering;
use std::io::{self, Write};
use std::ops::Range;

const ROOM: usize = 1 << 18;

pub type SiteName = [u8; 16];

#[derive(Clone, Copy, Default, PartialEq, Eq, PartialOrd, Ord)]
pub struct Stamp {
    pub time: u64,
    pub site: SiteName,
    pub count: u32,
}

/// A kind of document, and the names of its members.
pub struct Kind {
    name: &'static [u8],
    owner: &'static [u8],
    rows: &'static [u8],
    has_labels: bool,
}

pub const SITE: Kind = Kind {
    name: b"site",
    owner: b"site",
    rows: b"cells",
    has_labels: true,
};

pub const DELTA: Kind = Kind {
    name: b"delta",
    owner: b"to",
    rows: b"cells",
    has_labels: true,
};

pub const SUMMARY: Kind = Kind {
    name: b"summary",
    owner: b"owner",
    rows: b"stamps",
    has_labels: false,
};

/// A row; its label is the text that is written for it. Rows of one message that follow each other
/// have one span for its id.
#[derive(Clone, Copy)]
pub struct Row {
    pub time: u64,
    pub id: Span,
    pub lang: Span,
    pub label: Span,
    /// The row, if it is as it would be written.
    pub whole: Span,
    pub count: u32,
    pub site: u16,
    /// How many texts the label has: none where it was deleted.
    pub texts: u8,
    /// The number of the language among the first that the document has, or `MANY`.
    pub known: u8,
}

impl Row {
    pub fn is_live(&self) -> bool {
        self.texts > 0
    }
}

/// The number of languages that are numbered, and that of all others.
pub const MANY: u8 = 16;

/// A language that was read before, of at most 16 bytes: two words.
struct KnownLang {
    words: [u64; 2],
    masks: [u64; 2],
    len: usize,
}

impl KnownLang {
    const LEN: usize = 16;

    fn new(text: &[u8]) -> KnownLang {
        let mask = |count: usize| first_bytes(u64::MAX, count);
        KnownLang {
            words: [word_at(text, 0), word_at(text, 8)],
            masks: [mask(text.len()), mask(text.len().saturating_sub(8))],
            len: text.len(),
        }
    }

    /// Whether these words begin with the language.
    #[inline(always)]
    fn is_at(&self, first: u64, second: u64) -> bool {
        let [one, other] = self.words;
        let [first_mask, second_mask] = self.masks;
        ((first & first_mask) ^ one) | ((second & second_mask) ^ other) == 0
    }

    #[inline(always)]
    fn is(&self, text: &[u8]) -> bool {
        text.len() == self.len && self.is_at(word_at(text, 0), word_at(text, 8))
    }

    /// What languages are compared by.
    #[inline(always)]
    fn order(&self) -> (u64, u64) {
        let [one, other] = self.words;
        (one.swap_bytes(), other.swap_bytes())
    }
}

/// Languages that were read before. They mostly come in the same order, message after message, so
/// that the one after the last is tried first.
#[derive(Default)]
pub struct Known {
    langs: Vec<KnownLang>,
    next: usize,
}

impl Known {
    /// Reads a language, and gives its number; one that has upper case letters is written anew.
    #[inline(always)]
    pub fn read(&mut self, input: &mut Input) -> Read<(Span, u8)> {
        let span = input.string()?;
        self.check(input, span)
    }

    /// The number of the language that a text begins with, up to a quote, and what follows it.
    #[inline(always)]
    pub fn first_of<'a>(&self, text: &'a [u8]) -> Option<(u8, &'a [u8])> {
        let (first, second) = (word_at(text, 0), word_at(text, 8));
        let after = |lang: &KnownLang| {
            let left = text.get(lang.len..)?;
            (lang.is_at(first, second) && left.first() == Some(&b'"')).then_some(left)
        };
        if let Some(left) = after(self.langs.get(self.next)?) {
            return Some((self.next as u8, left));
        }
        let mut langs = (0..).zip(&self.langs);
        langs.find_map(|(number, lang)| Some((number, after(lang)?)))
    }

    /// Expects the language after one that was read.
    #[inline(always)]
    pub fn took(&mut self, number: u8) {
        let next = usize::from(number) + 1;
        self.next = if next < self.langs.len() { next } else { 0 };
    }

    /// Whether a language is below another one, by their numbers.
    #[inline(always)]
    fn is_below(&self, one: u8, other: u8) -> Option<bool> {
        let one = self.langs.get(usize::from(one))?;
        let other = self.langs.get(usize::from(other))?;
        Some(one.order() < other.order())
    }

    #[inline(always)]
    pub fn check(&mut self, input: &mut Input, span: Span) -> Read<(Span, u8)> {
        let text = input.get(span);
        let place = self.next;
        if self.langs.get(place).is_some_and(|lang| lang.is(text)) {
            self.took(place as u8);
            return Ok((span, place as u8));
        }
        self.seek(input, span)
    }

    fn seek(&mut self, input: &mut Input, span: Span) -> Read<(Span, u8)> {
        let text = input.get(span);
        if let Some(place) = self.langs.iter().position(|lang| lang.is(text)) {
            self.took(place as u8);
            return Ok((span, place as u8));
        }
        let Ok(lang) = Lang::parse(text) else {
            return input.refused();
        };
        if lang.as_bytes() != text {
            input.differs();
            let lowered = input.written(|out| out.extend_from_slice(lang.as_bytes()));
            return Ok((lowered, MANY));
        }
        if text.len() > KnownLang::LEN || self.langs.len() == usize::from(MANY) {
            return Ok((span, MANY));
        }
        self.langs.push(KnownLang::new(text));
        Ok((span, self.langs.len() as u8 - 1))
    }
}

/// The row before another one.
pub struct Last<'a> {
    pub id: Span,
    /// The id with the quote that ends it, if it is a piece of the input.
    pub quoted: Option<&'a [u8]>,
    lang: Span,
    known: u8,
}

pub struct Site<'a> {
    pub head: Head<'a>,
    pub rows: Vec<Row>,
}

/// A label: null, or texts. What is written for it, and how many texts it has.
#[inline(always)]
fn label(input: &mut Input) -> Read<(Span, u8)> {
    if input.peek() == b'n' {
        let start = input.begin();
        input.null()?;
        let null = input.since(start).unwrap_or(Span::NONE);
        return Ok((null, 0));
    }
    let start = input.begin();
    let mut count = 0;
    input.items(|input| {
        let text = input.string()?;
        count += 1;
        if count > MAX_TEXTS || input.get(text).len() > MAX_TEXT_LEN {
            return input.refused();
        }
        Ok(())
    })?;
    if count == 0 {
        return input.refused();
    }
    match input.since(start) {
        Some(label) => Ok((label, count as u8)),
        None => Ok((label_anew(input, start)?, count as u8)),
    }
}

/// Reads the texts of a label at a place again, and writes them.
#[cold]
fn label_anew(input: &mut Input, start: usize) -> Read<Span> {
    let mut texts = Vec::new();
    input.go_back(start);
    input.items(|input| {
        texts.push(input.string()?);
        Ok(())
    })?;
    Ok(write_label(input, &texts))
}

/// Writes a label; of one text alone the brackets may be missing.
fn write_texts(out: &mut Vec<u8>, label: &[u8]) {
    if label.first() == Some(&b'"') {
        out.push(b'[');
        out.extend_from_slice(label);
        out.push(b']');
    } else {
        out.extend_from_slice(label);
    }
}

/// What is written for texts as a label.
pub fn write_label(input: &mut Input, texts: &[Span]) -> Span {
    let mut written = vec![b'['];
    for text in texts {
        write_string(&mut written, input.get(*text));
        written.push(b',');
    }
    written.pop();
    written.push(b']');
    input.written(|out| out.extend_from_slice(&written))
}

/// The names of sites that were read, with the text of the last one.
#[derive(Default)]
pub struct Names<'a> {
    sites: Vec<SiteName>,
    last: Span,
    /// The last one with the quote that ends it, if it is a piece of the input.
    quoted: Option<&'a [u8]>,
    number: u16,
}

impl<'a> Names<'a> {
    /// The name that was read last, with the quote that ends it, and its number.
    #[inline(always)]
    pub fn last(&self) -> Option<(&'a [u8], u16)> {
        Some((self.quoted?, self.number))
    }

    /// Reads a site's name, and gives its number.
    #[inline(always)]
    fn read(&mut self, input: &mut Input<'a>) -> Read<u16> {
        let text = input.string()?;
        if !is_same(input.get(self.last), input.get(text)) {
            let Some(number) = self.number_of(input.get(text)) else {
                return input.refused();
            };
            self.last = text;
            self.quoted = input.quoted(text);
            self.number = number;
        }
        Ok(self.number)
    }

    fn number_of(&mut self, name: &[u8]) -> Option<u16> {
        let mut filled = [0; 16];
        filled.get_mut(..name.len())?.copy_from_slice(name);
        if let Some(place) = self.sites.iter().position(|site| *site == filled) {
            return Some(place as u16);
        }
        if !is_site_name(name) {
            return None;
        }
        self.sites.push(filled);
        Some(self.sites.len() as u16 - 1)
    }
}

fn name_of(site: &SiteName) -> &[u8] {
    site.split(|byte| *byte == 0).next().unwrap_or(&[])
}

/// What is known of a document when it is read, but its rows.
pub struct Head<'a> {
    pub input: Input<'a>,
    name: u16,
    sites: Vec<SiteName>,
}

impl Head<'_> {
    /// The name of the site that it is of, or for.
    pub fn name(&self) -> &[u8] {
        name_of(&self.sites[usize::from(self.name)])
    }
}

/// Reads a document, and gives each row that is read, with the names of the sites by number.
#[inline(always)]
pub fn read_document<'a>(
    text: &'a [u8],
    kind: &Kind,
    mut take: impl FnMut(&Input, &[SiteName], Row),
) -> Read<Head<'a>> {
    let mut input = Input::new(text)?;
    let mut names = Names::default();
    let (mut name, mut seen) = (0, [false; 4]);
    input.members(|input, member| {
        let member = input.get(member);
        let place = if member == kind.rows {
            read_rows(input, &mut names, kind, &mut take)?;
            0
        } else if member == kind.owner {
            name = names.read(input)?;
            1
        } else if member == b"kind" {
            let kind_read = input.string()?;
            if input.get(kind_read) != kind.name {
                return input.refused();
            }
            2
        } else if member == b"version" {
            if input.number()? != 2 {
                return input.refused();
            }
            3
        } else {
            return input.refused();
        };
        let twice = std::mem::replace(&mut seen[place], true);
        if twice {
            return input.refused();
        }
        Ok(())
    })?;
    input.ends()?;
    if seen != [true; 4] {
        return input.refused();
    }
    Ok(Head {
        input,
        name,
        sites: names.sites,
    })
}

/// The stamp of a row, with the names of the sites by number.
pub fn stamp_of(row: &Row, sites: &[SiteName]) -> Stamp {
    Stamp {
        time: row.time,
        site: sites[usize::from(row.site)],
        count: row.count,
    }
}

impl<'a> Site<'a> {
    pub fn read(text: &'a [u8]) -> Read<Site<'a>> {
        Site::read_kind(text, &SITE)
    }

    /// The cells for a site, with its name.
    pub fn read_delta(text: &'a [u8]) -> Read<Site<'a>> {
        Site::read_kind(text, &DELTA)
    }

    #[inline(always)]
    fn read_kind(text: &'a [u8], kind: &Kind) -> Read<Site<'a>> {
        let mut rows = Vec::new();
        let head = read_document(text, kind, |_, _, row| rows.push(row))?;
        Ok(Site { head, rows })
    }

    pub fn name(&self) -> &[u8] {
        self.head.name()
    }

    pub fn len(&self) -> usize {
        self.rows.len()
    }

    pub fn stamp(&self, row: &Row) -> Stamp {
        stamp_of(row, &self.head.sites)
    }

    /// The greatest stamp, with the name of its site.
    pub fn last(&self) -> Option<Stamp> {
        let mut rows = self.rows.iter();
        let first = rows.next()?;
        let row = rows.fold(first, |last, row| {
            let is_later = row.time > last.time
                || row.time == last.time && self.stamp_order(row, self, last) == Ordering::Greater;
            if is_later {
                row
            } else {
                last
            }
        });
        Some(self.stamp(row))
    }

    #[inline(always)]
    fn stamp_order(&self, own: &Row, other: &Site, row: &Row) -> Ordering {
        let (own_sites, sites) = (&self.head.sites, &other.head.sites);
        let by_site = || own_sites[usize::from(own.site)].cmp(&sites[usize::from(row.site)]);
        own.time
            .cmp(&row.time)
            .then_with(by_site)
            .then(own.count.cmp(&row.count))
    }

    /// The stamp that the site gives next.
    pub fn next(&self, now: u64) -> Option<Stamp> {
        let site = self.head.sites[usize::from(self.head.name)];
        let Some(last) = self.last().filter(|last| last.time >= now) else {
            return Some(Stamp {
                time: now,
                site,
                count: 0,
            });
        };
        let least = Stamp {
            time: last.time,
            site,
            count: 0,
        };
        if least > last {
            return Some(least);
        }
        match last.count.checked_add(1).filter(|_| last.site == site) {
            Some(count) => Some(Stamp {
                time: last.time,
                site,
                count,
            }),
            None => Some(Stamp {
                time: last.time.checked_add(1)?,
                site,
                count: 0,
            }),
        }
    }

    #[inline(always)]
    fn order(&self, row: &Row, id: &[u8], lang: &[u8]) -> Ordering {
        let input = &self.head.input;
        let order = input.get(row.id).cmp(id);
        order.then_with(|| input.get(row.lang).cmp(lang))
    }

    /// The place of the first row that is not below a key, from a place on, and whether it has the
    /// key.
    #[inline(always)]
    pub fn find(&self, from: usize, id: &[u8], lang: &[u8]) -> (usize, bool) {
        let Some(row) = self.rows.get(from) else {
            return (from, false);
        };
        match self.order(row, id, lang) {
            Ordering::Less => self.find_above(from, id, lang),
            order => (from, order == Ordering::Equal),
        }
    }

    /// The same where a row is below the key: steps are doubled, and the last one is cut in halves.
    fn find_above(&self, below: usize, id: &[u8], lang: &[u8]) -> (usize, bool) {
        let (mut below, mut step) = (below, 1);
        let mut above = loop {
            let place = below + step;
            match self.rows.get(place).map(|row| self.order(row, id, lang)) {
                Some(Ordering::Less) => below = place,
                Some(Ordering::Equal) => return (place, true),
                Some(Ordering::Greater) => break place,
                None => break self.rows.len(),
            }
            step *= 2;
        };
        while below + 1 < above {
            let place = below + (above - below) / 2;
            match self.order(&self.rows[place], id, lang) {
                Ordering::Less => below = place,
                Ordering::Equal => return (place, true),
                Ordering::Greater => above = place,
            }
        }
        (above, false)
    }

    /// The rows of the join: those of the other with a mark. None where one stamp has two
    /// labels.
    pub fn joined(&self, other: &Site) -> Option<Vec<Joined>> {
        let mut joined = Vec::with_capacity(self.rows.len().max(other.rows.len()));
        let (mut i, mut j) = (0, 0);
        while i < self.rows.len() || j < other.rows.len() {
            let order = match (self.rows.get(i), other.rows.get(j)) {
                (Some(own), Some(row)) => {
                    let input = &other.head.input;
                    self.order(own, input.get(row.id), input.get(row.lang))
                }
                (Some(_), None) => Ordering::Less,
                _ => Ordering::Greater,
            };
            let wins = match order {
                Ordering::Equal => self.is_won(i, other, j)?,
                order => order == Ordering::Greater,
            };
            joined.push(Joined(
                (if wins { j } else { i }) as u32 | if wins { Joined::OTHER } else { 0 },
            ));
            i += usize::from(order != Ordering::Greater);
            j += usize::from(order != Ordering::Less);
        }
        Some(joined)
    }

    /// Whether of two rows of one key the other's is the later. None where one stamp has two
    /// labels.
    #[inline(always)]
    pub fn is_won(&self, place: usize, other: &Site, at: usize) -> Option<bool> {
        let (own, row) = (&self.rows[place], &other.rows[at]);
        let stamps = self.stamp_order(own, other, row);
        let is_clash = stamps == Ordering::Equal
            && self.head.input.get(own.label) != other.head.input.get(row.label);
        (!is_clash).then_some(stamps == Ordering::Less)
    }
}

/// A row of the one or the other site.
#[derive(Clone, Copy)]
pub struct Joined(u32);

impl Joined {
    const OTHER: u32 = 1 << 31;
}

#[inline(always)]
fn read_rows<'a>(
    input: &mut Input<'a>,
    names: &mut Names<'a>,
    kind: &Kind,
    take: &mut impl FnMut(&Input, &[SiteName], Row),
) -> Read<()> {
    let mut known = Known::default();
    let mut last: Option<Last<'a>> = None;
    input.items(|input| {
        input.begin();
        let read = as_written::row(input, kind.has_labels, last.as_ref(), &mut known, names);
        let (row, is_same_message) = match read {
            Some(read) => read,
            None => read_row(input, kind.has_labels, last.as_ref(), &mut known, names)?,
        };
        let is_below = match &last {
            None => true,
            Some(last) if !is_same_message => input.get(last.id) < input.get(row.id),
            Some(last) => known
                .is_below(last.known, row.known)
                .unwrap_or_else(|| input.get(last.lang) < input.get(row.lang)),
        };
        if !is_below {
            return input.refused();
        }
        let quoted = match &last {
            Some(last) if is_same_message => last.quoted,
            _ => input.quoted(row.id),
        };
        last = Some(Last {
            id: row.id,
            quoted,
            lang: row.lang,
            known: row.known,
        });
        take(input, &names.sites, row);
        Ok(())
    })
}

/// A row with blanks, escapes or upper case, or of another language or site than were read before,
/// and whether it is of the message of the last one.
#[inline(never)]
fn read_row<'a>(
    input: &mut Input<'a>,
    has_labels: bool,
    last: Option<&Last>,
    known: &mut Known,
    names: &mut Names<'a>,
) -> Read<(Row, bool)> {
    let start = input.begin();
    input.expect(b'[')?;
    let mut id = input.string()?;
    let same = last.filter(|last| input.is_same(last.id, id));
    match same {
        Some(last) => id = last.id,
        None if !is_message_id(input.get(id)) => return input.refused(),
        None => {}
    }
    input.expect(b',')?;
    let (lang, known) = known.read(input)?;
    input.expect(b',')?;
    let time = input.number()?;
    input.expect(b',')?;
    let site = names.read(input)?;
    input.expect(b',')?;
    let Ok(count) = u32::try_from(input.number()?) else {
        return input.refused();
    };
    let (mut before, mut label_read, mut texts) = (true, Span::NONE, 0);
    if has_labels {
        input.expect(b',')?;
        input.peek();
        before = input.since(start).is_some();
        (label_read, texts) = label(input)?;
    }
    input.expect(b']')?;
    let whole = input.since(start).filter(|_| before).unwrap_or(Span::NONE);
    let row = Row {
        time,
        id,
        lang,
        label: label_read,
        whole,
        count,
        site,
        texts,
        known,
    };
    Ok((row, same.is_some()))
}

/// A document of a site that is written row by row.
pub struct Writer<W: Write> {
    out: W,
    text: Vec<u8>,
    first: bool,
}

impl<W: Write> Writer<W> {
    pub fn new(out: W) -> Writer<W> {
        Writer {
            out,
            text: Vec::with_capacity(2 * ROOM),
            first: true,
        }
    }

    pub fn open(&mut self) {
        self.text.extend_from_slice(b"{\"cells\":[");
        self.first = true;
    }

    fn separate(&mut self) {
        if !self.first {
            self.text.push(b',');
        }
        self.first = false;
    }

    #[inline(always)]
    fn row(&mut self, write: impl FnOnce(&mut Vec<u8>)) -> io::Result<()> {
        self.separate();
        write(&mut self.text);
        if self.text.len() > ROOM {
            self.flush()?;
        }
        Ok(())
    }

    /// The rows of a site in a range of places. Those that are side by side, as they would be
    /// written, are copied at once.
    pub fn rows(&mut self, site: &Site, places: Range<usize>) -> io::Result<()> {
        let mut rows = &site.rows[places];
        while let Some((row, mut left)) = rows.split_first() {
            let mut run = row.whole;
            if run.is_empty() {
                self.held(site, row)?;
                rows = left;
                continue;
            }
            while let Some((next, later)) = left.split_first() {
                if !run.grows(next.whole) {
                    break;
                }
                left = later;
            }
            rows = left;
            self.run(site.head.input.get(run))?;
        }
        Ok(())
    }

    fn run(&mut self, run: &[u8]) -> io::Result<()> {
        self.separate();
        if self.text.len() + run.len() > ROOM {
            self.flush()?;
        }
        if run.len() > ROOM {
            self.out.write_all(run)
        } else {
            self.text.extend_from_slice(run);
            Ok(())
        }
    }

    pub fn joined(&mut self, own: &Site, other: &Site, rows: &[Joined]) -> io::Result<()> {
        for Joined(place) in rows {
            if place & Joined::OTHER == 0 {
                self.held(own, &own.rows[*place as usize])?;
            } else {
                self.held(other, &other.rows[(place & !Joined::OTHER) as usize])?;
            }
        }
        Ok(())
    }

    #[inline(always)]
    fn held(&mut self, site: &Site, row: &Row) -> io::Result<()> {
        let input = &site.head.input;
        if row.whole.is_empty() {
            let (id, lang) = (input.get(row.id), input.get(row.lang));
            return self.new_row(id, lang, site.stamp(row), input.get(row.label));
        }
        self.row(|text| text.extend_from_slice(input.get(row.whole)))
    }

    pub fn new_row(
        &mut self,
        id: &[u8],
        lang: &[u8],
        stamp: Stamp,
        label: &[u8],
    ) -> io::Result<()> {
        self.row(|text| {
            write_stamp(text, id, lang, stamp);
            text.push(b',');
            write_texts(text, label);
            text.push(b']');
        })
    }

    /// The end of a site's document.
    pub fn close(&mut self, name: &[u8]) {
        self.close_kind("\"kind\":\"site\",\"site\":\"", name);
    }

    pub fn close_kind(&mut self, members: &str, name: &[u8]) {
        self.text.extend_from_slice(b"],");
        self.text.extend_from_slice(members.as_bytes());
        self.text.extend_from_slice(name);
        self.text.extend_from_slice(b"\",\"version\":2}\n");
    }

    pub fn flush(&mut self) -> io::Result<()> {
        self.out.write_all(&self.text)?;
        self.text.clear();
        Ok(())
    }
}

pub fn name_text(site: &SiteName) -> String {
    String::from_utf8_lossy(name_of(site)).into_owned()
}

/// A row up to its stamp.
pub fn write_stamp(text: &mut Vec<u8>, id: &[u8], lang: &[u8], stamp: Stamp) {
    text.push(b'[');
    write_string(text, id);
    text.extend_from_slice(b",\"");
    text.extend_from_slice(lang);
    text.extend_from_slice(b"\",");
    write_number(text, stamp.time);
    text.extend_from_slice(b",\"");
    text.extend_from_slice(name_of(&stamp.site));
    text.extend_from_slice(b"\",");
    write_number(text, u64::from(stamp.count));
}
