//! Language maps (JSON-LD 1.1, section 9.8): message id to language to text or texts.

use crate::checks::{is_message_id, MAX_TEXTS, MAX_TEXT_LEN};
use crate::json::{Input, Read, Span};
use crate::site::{write_label, Known};
use crate::words::is_same;

/// A label with its key; the label is the text that is written for it, and none where there is no
/// text.
#[derive(Clone, Copy)]
pub struct Entry {
    id: Span,
    lang: Span,
    label: Span,
}

/// The labels in order of key.
pub struct LangMaps<'a> {
    input: Input<'a>,
    pub entries: Vec<Entry>,
}

/// What is written for a text, for texts, or for null. A text that is alone and in place is given
/// so, without brackets.
#[inline(always)]
fn label(input: &mut Input) -> Read<Span> {
    if input.peek() != b'"' {
        return texts(input);
    }
    let start = input.begin();
    let text = input.string()?;
    if input.get(text).len() > MAX_TEXT_LEN {
        return input.refused();
    }
    match input.since(start) {
        Some(alone) => Ok(alone),
        None => Ok(write_label(input, &[text])),
    }
}

fn texts(input: &mut Input) -> Read<Span> {
    let mut texts = Vec::new();
    let mut take = |input: &mut Input| {
        if input.peek() == b'n' {
            return input.null();
        }
        let text = input.string()?;
        if texts.len() == MAX_TEXTS || input.get(text).len() > MAX_TEXT_LEN {
            return input.refused();
        }
        texts.push(text);
        Ok(())
    };
    if input.peek() == b'[' {
        input.items(take)?;
    } else {
        take(input)?;
    }
    Ok(if texts.is_empty() {
        Span::NONE
    } else {
        write_label(input, &texts)
    })
}

impl<'a> LangMaps<'a> {
    pub fn read(text: &'a [u8]) -> Read<LangMaps<'a>> {
        let mut input = Input::new(text)?;
        let mut entries: Vec<Entry> = Vec::new();
        let mut known = Known::default();
        let mut rising = true;
        input.members(|input, id| {
            if input.get(id).first() == Some(&b'@') {
                return input.pass();
            }
            if !is_message_id(input.get(id)) {
                return input.refused();
            }
            rising = rising
                && entries
                    .last()
                    .is_none_or(|last| input.get(last.id) < input.get(id));
            let first = entries.len();
            input.members(|input, lang| {
                let (lang, _) = known.check(input, lang)?;
                let last = entries.get(first..).and_then(<[Entry]>::last);
                let is_below = |last: &Entry| input.get(last.lang) < input.get(lang);
                rising = rising && last.is_none_or(is_below);
                let label = label(input)?;
                entries.push(Entry { id, lang, label });
                Ok(())
            })
        })?;
        input.ends()?;
        if !rising {
            // Of entries with one key the last one counts.
            entries.reverse();
            entries.sort_by(|one, other| key(&input, one).cmp(&key(&input, other)));
            entries.dedup_by(|one, other| key(&input, one) == key(&input, other));
        }
        entries.retain(|entry| !entry.label.is_empty());
        Ok(LangMaps { input, entries })
    }

    pub fn key(&self, entry: &Entry) -> (&[u8], &[u8]) {
        key(&self.input, entry)
    }

    pub fn label(&self, entry: &Entry) -> &[u8] {
        self.input.get(entry.label)
    }
}

fn key<'a>(input: &'a Input, entry: &Entry) -> (&'a [u8], &'a [u8]) {
    (input.get(entry.id), input.get(entry.lang))
}

/// Whether two labels as they are written are the same; of one text alone the brackets may be
/// missing.
pub fn is_same_label(one: &[u8], other: &[u8]) -> bool {
    let is_bare = |label: &[u8]| label.first() == Some(&b'"');
    match (is_bare(one), is_bare(other)) {
        (true, false) => is_bare_of(one, other),
        (false, true) => is_bare_of(other, one),
        _ => is_same(one, other),
    }
}

/// Whether a label in brackets has this text alone.
fn is_bare_of(bare: &[u8], label: &[u8]) -> bool {
    label.len() == bare.len() + 2 && is_same(&label[1..label.len() - 1], bare)
}
