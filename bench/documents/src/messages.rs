//! Language maps of a site: `export`, `missing`, `outdated` and `bundle`. The site is read once.

use crate::json::{Input, Read, Span};
use crate::lang_core::Lang;
use crate::nego_core::{lookup, Found, PriorityList};
use crate::site::{read_document, Row, MANY, SITE};
use crate::words::is_same;

/// Language maps that are written row by row.
struct Maps {
    text: Vec<u8>,
    message: Option<Span>,
}

impl Maps {
    fn new() -> Maps {
        Maps {
            text: vec![b'{'],
            message: None,
        }
    }

    /// A label of the message that was written last, or of another one.
    #[inline(always)]
    fn label(&mut self, input: &Input, row: &Row) {
        let text = &mut self.text;
        if self.message == Some(row.id) {
            text.extend_from_slice(b",\"");
        } else {
            if self.message.is_some() {
                text.extend_from_slice(b"},");
            }
            input.write_string(text, row.id);
            text.extend_from_slice(b":{\"");
            self.message = Some(row.id);
        }
        text.extend_from_slice(input.get(row.lang));
        text.extend_from_slice(b"\":");
        let label = input.get(row.label);
        text.extend_from_slice(if row.texts == 1 {
            &label[1..label.len() - 1]
        } else {
            label
        });
    }

    /// The document, and whether it has a message.
    fn closed(mut self) -> (Vec<u8>, bool) {
        let is_any = self.message.is_some();
        self.text
            .extend_from_slice(if is_any { b"}}\n" } else { b"}\n" });
        (self.text, is_any)
    }
}

/// A document, and whether it has a message.
pub type Written = (Vec<u8>, bool);

pub fn export(text: &[u8]) -> Read<Written> {
    let mut maps = Maps::new();
    read_document(text, &SITE, |input, _, row| {
        if row.is_live() {
            maps.label(input, &row);
        }
    })?;
    Ok(maps.closed())
}

/// The messages whose live rows are wanted, which are never none.
#[inline(always)]
fn wanted(text: &[u8], is_wanted: impl Fn(&Input, &[Row]) -> bool) -> Read<Written> {
    let mut maps = Maps::new();
    let mut rows: Vec<Row> = Vec::new();
    let mut ended = |input: &Input, rows: &mut Vec<Row>| {
        if !rows.is_empty() && is_wanted(input, rows) {
            for row in rows.iter() {
                maps.label(input, row);
            }
        }
        rows.clear();
    };
    let head = read_document(text, &SITE, |input, _, row| {
        if rows.first().is_some_and(|first| first.id != row.id) {
            ended(input, &mut rows);
        }
        if row.is_live() {
            rows.push(row);
        }
    })?;
    ended(&head.input, &mut rows);
    Ok(maps.closed())
}

fn row_of<'a>(input: &Input, rows: &'a [Row], lang: &[u8]) -> Option<&'a Row> {
    rows.iter().find(|row| is_same(input.get(row.lang), lang))
}

pub fn missing(text: &[u8], lang: &Lang) -> Read<Written> {
    let lang = lang.as_bytes();
    wanted(text, |input, rows| row_of(input, rows, lang).is_none())
}

pub fn outdated(text: &[u8], lang: &Lang, source: &Lang) -> Read<Written> {
    let (lang, source) = (lang.as_bytes(), source.as_bytes());
    wanted(text, |input, rows| {
        let time_of = |lang| row_of(input, rows, lang).map(|row| row.time);
        match (time_of(lang), time_of(source)) {
            (Some(time), Some(source)) => source > time,
            _ => false,
        }
    })
}

/// No language that the list finds.
const UNFIT: u8 = u8::MAX;

/// The languages of a site in the order in which a lookup by the list answers them. Those that have
/// a number are ranked once.
struct Ranks<'a> {
    list: &'a PriorityList,
    best_first: Vec<(Lang, u8)>,
    ranks: Vec<u8>,
}

impl Ranks<'_> {
    fn is_better(&self, one: &Lang, other: &Lang) -> bool {
        lookup(self.list, &[one.clone(), other.clone()]) == Found::Matched(0)
    }

    /// Ranks the language of the next number.
    #[cold]
    fn add(&mut self, lang: Lang) {
        let number = self.ranks.len() as u8;
        self.ranks.push(UNFIT);
        if lookup(self.list, std::slice::from_ref(&lang)) == Found::Nothing {
            return;
        }
        let worse = |(other, _): &(Lang, u8)| self.is_better(&lang, other);
        let place = self.best_first.iter().position(worse);
        let place = place.unwrap_or(self.best_first.len());
        self.best_first.insert(place, (lang, number));
        for (rank, (_, number)) in (0..).zip(&self.best_first) {
            self.ranks[usize::from(*number)] = rank;
        }
    }

    /// Ranks the language of a row, if it is the first one of a number.
    #[inline(always)]
    fn meet(&mut self, input: &Input, row: &Row) {
        if usize::from(row.known) == self.ranks.len() && row.known < MANY {
            if let Ok(lang) = Lang::parse(input.get(row.lang)) {
                self.add(lang);
            }
        }
    }

    /// Whether the language of a row is found, and before that of another one.
    #[inline(always)]
    fn takes(&self, input: &Input, row: &Row, before: Option<&Row>) -> bool {
        let rank_of = |row: &Row| self.ranks.get(usize::from(row.known));
        match (rank_of(row), before.map(rank_of)) {
            (Some(rank), None) => *rank != UNFIT,
            (Some(rank), Some(Some(best))) => rank < best,
            _ => self.takes_unknown(input, row, before),
        }
    }

    #[cold]
    fn takes_unknown(&self, input: &Input, row: &Row, before: Option<&Row>) -> bool {
        let lang_of = |row: &Row| Lang::parse(input.get(row.lang)).ok();
        match (lang_of(row), before.and_then(lang_of)) {
            (Some(lang), None) => lookup(self.list, &[lang]) != Found::Nothing,
            (Some(lang), Some(best)) => self.is_better(&lang, &best),
            (None, _) => false,
        }
    }
}

pub fn bundle(text: &[u8], list: &PriorityList) -> Read<Written> {
    let mut maps = Maps::new();
    let mut ranks = Ranks {
        list,
        best_first: Vec::new(),
        ranks: Vec::new(),
    };
    let mut best: Option<Row> = None;
    let mut message = Span::NONE;
    let head = read_document(text, &SITE, |input, _, row| {
        if row.id != message {
            message = row.id;
            if let Some(best) = best.take() {
                maps.label(input, &best);
            }
        }
        ranks.meet(input, &row);
        if row.is_live() && ranks.takes(input, &row, best.as_ref()) {
            best = Some(row);
        }
    })?;
    if let Some(best) = best {
        maps.label(&head.input, &best);
    }
    Ok(maps.closed())
}
