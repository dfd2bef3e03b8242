//! Priority lists (RFC 9110 section 12.5.4, RFC 4647 section 3). A list that is asked puts its
//! ranges into one tree of subtags, so that a language meets all that match it in one walk, however
//! many they are.

use crate::lang_core::Lang;
use crate::words::{
    before_mark, below_mark, folded, letters_and_digits, marks_of, word_at, ONES, TOPS,
};
use std::sync::OnceLock;

const MAX_FIELD_LEN: usize = 65_535;
const MAX_RANGE_LEN: usize = 255;

/// So many ranges that are read say how much room the others need.
const FEW: usize = 32;

#[derive(Debug, Clone, Copy, PartialEq, Eq)]
pub enum NegoFault {
    FieldTooLong,
    FieldMalformed { offset: usize },
}

#[derive(Clone, Copy, PartialEq)]
pub enum Scheme {
    Basic,
    Extended,
}

/// A range as lookup takes it is a piece of the list's text; its subtags other than "*" are a piece
/// of its words.
#[derive(Clone, Copy)]
pub struct Item {
    at: u32,
    len: u16,
    pub weight: u16,
    words: u32,
    named: u16,
    /// The range begins with "*".
    star: bool,
}

impl Item {
    /// Whether lookup tries the range.
    fn is_tried(&self) -> bool {
        self.weight > 0 && !self.star
    }

    /// Where its first named subtag is in the tree.
    fn top(&self) -> u32 {
        if self.star {
            STAR
        } else {
            TOP
        }
    }
}

const NONE: u16 = u16::MAX;

/// A sequence of subtags with which ranges begin.
#[derive(Clone, Copy)]
struct Node {
    word: u64,
    parent: u32,
    /// The first range that is this sequence.
    item: u16,
    /// The first turn of lookup that asks for this sequence.
    turn: u16,
}

const FREE: Node = Node {
    word: 0,
    parent: 0,
    item: NONE,
    turn: NONE,
};
/// Above the first subtags, and above those that follow a first "*".
const TOP: u32 = u32::MAX;
const STAR: u32 = u32::MAX - 1;

/// The nodes in a hash table, by parent and subtag; the number of a node is its place.
struct Tree {
    nodes: Vec<Node>,
    shift: u32,
    /// A bit for each letter that ranges begin with.
    letters: u32,
    /// The first range that is "*" alone.
    star: u16,
}

impl Tree {
    /// The ranges of a list, and the turns of those that lookup tries.
    #[inline(never)]
    fn of(list: &PriorityList) -> Tree {
        let size = (list.words.len() * 3 / 2 + 2).next_power_of_two();
        let mut tree = Tree {
            nodes: vec![FREE; size],
            shift: 64 - size.trailing_zeros(),
            letters: 0,
            star: NONE,
        };
        let in_order = list.in_order;
        let mut last = Path::default();
        let mut turn = 0;
        let mut left = list.words.as_slice();
        for (place, item) in (0..).zip(&list.items) {
            let is_tried = item.is_tried();
            let now = if in_order && is_tried { turn } else { NONE };
            turn += u16::from(is_tried);
            let (words, later) = left.split_at(usize::from(item.named));
            left = later;
            let held = match words {
                [] => &mut tree.star,
                _ => {
                    let node = tree.add(item.top(), words, now, &mut last);
                    &mut tree.nodes[node].item
                }
            };
            *held = (*held).min(place);
        }
        if !in_order {
            for (turn, place) in (0..).zip(&list.order) {
                let words = list.words_of(&list.items[usize::from(*place)]);
                tree.add(TOP, words, turn, &mut last);
            }
        }
        tree
    }

    /// The place of a child, or the free place for it.
    #[inline(always)]
    fn place(&self, parent: u32, word: u64) -> usize {
        let last = self.nodes.len() - 1;
        let mut place = (folded(word, u64::from(parent)) >> self.shift) as usize & last;
        loop {
            let node = &self.nodes[place];
            if node.word == word && node.parent == parent || node.word == 0 {
                return place;
            }
            place = (place + 1) & last;
        }
    }

    #[inline(always)]
    fn child(&self, parent: u32, word: u64) -> Option<(u32, &Node)> {
        let place = self.place(parent, word);
        let node = &self.nodes[place];
        (node.word != 0).then_some((place as u32, node))
    }

    /// The place of a child, which is added.
    #[inline(always)]
    fn add_child(&mut self, parent: u32, word: u64) -> u32 {
        let place = self.place(parent, word);
        let node = &mut self.nodes[place];
        node.word = word;
        node.parent = parent;
        place as u32
    }

    /// The place of a sequence, which is added. Ranges that follow each other often begin alike:
    /// the first subtag of the last one is at hand. Lookup never cuts to a single letter or digit
    /// (RFC 4647 section 3.4).
    #[inline(always)]
    fn add(&mut self, top: u32, words: &[u64], turn: u16, last: &mut Path) -> usize {
        let mut parent = top;
        for (depth, word) in words.iter().enumerate() {
            parent = if depth > 0 {
                self.add_child(parent, *word)
            } else {
                if last.top != top || last.word != *word {
                    self.letters |= letter_bit(*word);
                    let place = self.add_child(top, *word);
                    *last = Path {
                        top,
                        word: *word,
                        place,
                    };
                }
                last.place
            };
            if *word > 0xff || depth + 1 == words.len() {
                let node = &mut self.nodes[parent as usize];
                node.turn = node.turn.min(turn);
            }
        }
        parent as usize
    }

    /// Goes down the tree along the subtags of a text.
    #[inline(always)]
    fn walk(&self, len: usize, word_at: impl Fn(usize) -> u64) -> Walk {
        let mut walk = Walk {
            item: NONE,
            turn: NONE,
            depth: 0,
        };
        if self.letters & letter_bit(word_at(0)) == 0 {
            return walk;
        }
        let mut parent = TOP;
        let mut at = 0;
        loop {
            let word = word_at(at);
            let hyphen = marks_of(word, b'-');
            let Some((place, node)) = self.child(parent, word & below_mark(hyphen)) else {
                return walk;
            };
            if node.item != NONE {
                walk.item = node.item;
            }
            at += before_mark(hyphen) + 1;
            walk.depth += 1;
            if at >= len {
                walk.turn = node.turn;
                return walk;
            }
            parent = place;
        }
    }

    #[inline(always)]
    fn walk_lang(&self, lang: &Lang) -> Walk {
        self.walk(lang.as_bytes().len(), |at| lang.word_at(at))
    }

    /// The item that decides a language under the scheme.
    #[inline(always)]
    fn item_for(&self, scheme: Scheme, lang: &Lang) -> u16 {
        match scheme {
            Scheme::Basic => match self.walk_lang(lang).item {
                NONE => self.star,
                item => item,
            },
            Scheme::Extended => self.extended_item(lang),
        }
    }

    fn extended_item(&self, lang: &Lang) -> u16 {
        let mut words = [0; 128];
        let count = split(lang, &mut words);
        let Some((first, rest)) = words[..count].split_first() else {
            return NONE;
        };
        let mut best = (0, self.star);
        if let Some((place, node)) = self.child(TOP, *first) {
            take_better(&mut best, 1, node.item);
            self.descend(place, rest, 1, &mut best);
        }
        self.descend(STAR, rest, 0, &mut best);
        best.1
    }

    /// Each range whose further subtags are in this order in the words. None is sought behind a
    /// single letter or digit, and each at the first place that it has, so that no node is met
    /// twice.
    fn descend(&self, parent: u32, words: &[u64], depth: usize, best: &mut (usize, u16)) {
        for (at, word) in words.iter().enumerate() {
            if let Some((place, node)) = self.child(parent, *word) {
                if !words[..at].contains(word) {
                    take_better(best, depth + 1, node.item);
                    self.descend(place, &words[at + 1..], depth + 1, best);
                }
            }
            if *word <= 0xff {
                break;
            }
        }
    }
}

/// The first subtag of a range that was added, with its place.
#[derive(Default)]
struct Path {
    top: u32,
    word: u64,
    place: u32,
}

/// The bit of the letter that a subtag begins with.
#[inline(always)]
fn letter_bit(word: u64) -> u32 {
    1 << (word & 31)
}

pub struct PriorityList {
    text: Vec<u8>,
    pub items: Vec<Item>,
    words: Vec<u64>,
    /// Whether no item has a greater weight than one before it.
    in_order: bool,
    /// Places of the items that lookup tries, by weight downwards.
    order: Vec<u16>,
    /// Made when the list is asked first.
    tree: OnceLock<Tree>,
}

/// What a list says of a language that begins with its ranges.
struct Walk {
    /// The item that decides, if one matches.
    item: u16,
    /// The first turn of lookup that asks for the language itself, if one does.
    turn: u16,
    /// How many of its subtags are in the tree.
    depth: usize,
}

fn is_blank(byte: u8) -> bool {
    byte == b' ' || byte == b'\t'
}

fn after_blanks(field: &[u8], mut at: usize) -> usize {
    while field.get(at).is_some_and(|byte| is_blank(*byte)) {
        at += 1;
    }
    at
}

fn after_separators(field: &[u8], mut at: usize) -> usize {
    loop {
        match field.get(at) {
            Some(b',') => at = after_commas(field, at + 1),
            Some(b' ' | b'\t') => at += 1,
            _ => return at,
        }
    }
}

#[inline(always)]
fn after_commas(field: &[u8], mut at: usize) -> usize {
    if field.get(at) != Some(&b',') {
        return at;
    }
    while field
        .get(at..at + 64)
        .is_some_and(|more| more == [b','; 64])
    {
        at += 64;
    }
    while field.get(at..at + 8).is_some_and(|more| more == [b','; 8]) {
        at += 8;
    }
    at
}

/// A field that is read, with what was read of it.
struct Reader<'a> {
    field: &'a [u8],
    scheme: Scheme,
    items: Vec<Item>,
    words: Vec<u64>,
}

impl Reader<'_> {
    /// The item that begins at a place, and its end.
    #[inline(always)]
    fn item(&mut self, start: usize) -> Option<(Item, usize)> {
        let field = self.field;
        let first = self.words.len();
        let star = field.get(start) == Some(&b'*');
        let mut at = start;
        loop {
            if field.get(at) == Some(&b'*') && (at == start || self.scheme == Scheme::Extended) {
                at += 1;
            } else {
                let word = word_at(field, at);
                let (letters, digits) = letters_and_digits(word);
                let end = !(letters | digits) & TOPS;
                let subtag = below_mark(end);
                if subtag == 0 || at == start && digits & subtag != 0 {
                    return None;
                }
                self.words.push((word | ONES * 0x20) & subtag);
                at += before_mark(end);
            }
            if at - start > MAX_RANGE_LEN {
                return None;
            }
            if field.get(at) != Some(&b'-') || star && self.scheme == Scheme::Basic {
                break;
            }
            at += 1;
        }
        let len = (at - start) as u16;
        let (weight, end) = self.weight(at)?;
        let named = (self.words.len() - first) as u16;
        Some((
            Item {
                at: start as u32,
                len,
                weight,
                words: first as u32,
                named,
                star,
            },
            end,
        ))
    }

    /// The weight that stands behind a range, and the end of the element.
    #[inline(always)]
    fn weight(&self, at: usize) -> Option<(u16, usize)> {
        let field = self.field;
        let mut at = after_blanks(field, at);
        let mut weight = 1000;
        if field.get(at) == Some(&b';') && self.scheme == Scheme::Basic {
            at = after_blanks(field, at + 1);
            weight = match field.get(at..at + 3)? {
                [b'q' | b'Q', b'=', whole @ b'0'..=b'1'] => u16::from(whole - b'0') * 1000,
                _ => return None,
            };
            at += 3;
            if field.get(at) == Some(&b'.') {
                at += 1;
                for unit in [100, 10, 1] {
                    let Some(digit @ b'0'..=b'9') = field.get(at) else {
                        break;
                    };
                    weight += u16::from(digit - b'0') * unit;
                    at += 1;
                }
            }
            at = after_blanks(field, at);
        }
        (weight <= 1000 && matches!(field.get(at), None | Some(b','))).then_some((weight, at))
    }

    /// Makes room for what is likely to come, by what was read before a place.
    #[cold]
    fn reserve_after(&mut self, at: usize) {
        let left = self.field.len() - at.min(self.field.len());
        let more = |count: usize| count * left / at + count;
        self.items.reserve_exact(more(self.items.len()));
        self.words.reserve_exact(more(self.words.len()));
    }

    fn read(&mut self) -> Result<(), NegoFault> {
        let mut at = after_separators(self.field, 0);
        while at < self.field.len() {
            let Some((item, end)) = self.item(at) else {
                return Err(NegoFault::FieldMalformed { offset: at });
            };
            self.items.push(item);
            at = after_separators(self.field, end);
            if self.items.len() == FEW {
                self.reserve_after(at);
            }
        }
        Ok(())
    }
}

impl PriorityList {
    pub fn parse(field: &[u8], scheme: Scheme) -> Result<PriorityList, NegoFault> {
        if field.len() > MAX_FIELD_LEN {
            return Err(NegoFault::FieldTooLong);
        }
        let few = (field.len() / 6).min(FEW);
        let (items, words) = (Vec::with_capacity(few), Vec::with_capacity(few));
        let mut reader = Reader {
            field,
            scheme,
            items,
            words,
        };
        reader.read()?;
        let Reader {
            mut items, words, ..
        } = reader;
        let mut text = if items.is_empty() {
            Vec::new()
        } else {
            field.to_ascii_lowercase()
        };
        if scheme == Scheme::Extended {
            cut_stars(&mut text, &mut items);
        }
        let mut order: Vec<u16> = Vec::with_capacity(items.len());
        let tried = (0..).zip(&items).filter(|(_, item)| item.is_tried());
        order.extend(tried.map(|(place, _)| place));
        let in_order = items.is_sorted_by(|first, second| first.weight >= second.weight);
        if !in_order {
            order.sort_by_key(|place| 1000 - items[usize::from(*place)].weight);
        }
        Ok(PriorityList {
            text,
            items,
            words,
            in_order,
            order,
            tree: OnceLock::new(),
        })
    }

    #[inline(always)]
    fn tree(&self) -> &Tree {
        self.tree.get_or_init(|| Tree::of(self))
    }

    fn words_of(&self, item: &Item) -> &[u64] {
        &self.words[item.words as usize..][..usize::from(item.named)]
    }

    fn lookup_text(&self, place: u16) -> &[u8] {
        let item = &self.items[usize::from(place)];
        &self.text[item.at as usize..][..usize::from(item.len)]
    }

    fn is_refusal(&self, item: u16) -> bool {
        item != NONE && self.items[usize::from(item)].weight == 0
    }
}

/// Takes an item of more named subtags, or an earlier one of as many.
fn take_better(best: &mut (usize, u16), depth: usize, item: u16) {
    if item != NONE && (depth > best.0 || depth == best.0 && item < best.1) {
        *best = (depth, item);
    }
}

/// The subtags of a language, and how many they are.
fn split(lang: &Lang, words: &mut [u64; 128]) -> usize {
    let len = lang.as_bytes().len();
    let (mut at, mut count) = (0, 0);
    while at < len {
        let word = lang.word_at(at);
        let hyphen = marks_of(word, b'-');
        words[count] = word & below_mark(hyphen);
        count += 1;
        at += before_mark(hyphen) + 1;
    }
    count
}

/// Gives the ranges that have a "*" inside the text without it, by which lookup takes them.
fn cut_stars(text: &mut Vec<u8>, items: &mut [Item]) {
    for item in items {
        let range = item.at as usize..item.at as usize + usize::from(item.len);
        if item.star || !text[range.clone()].contains(&b'*') {
            continue;
        }
        let start = text.len();
        for at in range {
            let stands = text[at] != b'*' && !(text[at] == b'-' && text.get(at + 1) == Some(&b'*'));
            if stands {
                text.push(text[at]);
            }
        }
        item.at = start as u32;
        item.len = (text.len() - start) as u16;
    }
}

#[derive(Clone, Copy)]
pub struct Pick {
    pub place: usize,
    pub weight: u16,
}

/// What a language is ranked by: what its item lacks in weight, the item, and its first twelve
/// bytes.
#[inline(always)]
fn rank_of(lack: u16, item: u16, lang: &Lang) -> u128 {
    let (front, back) = (
        lang.word_at(0).swap_bytes(),
        lang.word_at(8).swap_bytes() >> 32,
    );
    u128::from(lack) << 112 | u128::from(item) << 96 | u128::from(front) << 32 | u128::from(back)
}

pub fn filter(list: &PriorityList, scheme: Scheme, langs: &[Lang]) -> Vec<Pick> {
    let tree = list.tree();
    let mut ranked: Vec<(u128, usize)> = Vec::with_capacity(langs.len());
    for (place, lang) in langs.iter().enumerate() {
        if lang.is_none() {
            continue;
        }
        let item = tree.item_for(scheme, lang);
        if item != NONE && !list.is_refusal(item) {
            ranked.push((
                rank_of(1000 - list.items[usize::from(item)].weight, item, lang),
                place,
            ));
        }
    }
    ranked.sort_unstable_by(|(first, one), (second, other)| {
        first
            .cmp(second)
            .then_with(|| langs[*one].cmp(&langs[*other]).then(one.cmp(other)))
    });
    ranked
        .iter()
        .map(|(rank, place)| Pick {
            place: *place,
            weight: 1000 - (rank >> 112) as u16,
        })
        .collect()
}

#[derive(Clone, Copy, PartialEq, Eq)]
pub enum Found {
    Matched(usize),
    Nothing,
}

/// Lookup over languages: the one that the earliest turn asks for, and of those of one turn the
/// longest.
pub fn lookup(list: &PriorityList, langs: &[Lang]) -> Found {
    let tree = list.tree();
    let mut found = Found::Nothing;
    let mut best = (NONE, 0);
    for (place, lang) in langs.iter().enumerate() {
        let walk = tree.walk_lang(lang);
        if walk.turn == NONE || walk.turn > best.0 {
            continue;
        }
        let better = walk.turn < best.0 || walk.depth > best.1;
        if better && !list.is_refusal(walk.item) {
            best = (walk.turn, walk.depth);
            found = Found::Matched(place);
        }
    }
    found
}

/// The text cut at its last subtag, with a single letter or digit before it.
fn truncated(text: &[u8]) -> Option<&[u8]> {
    let mut end = text.iter().rposition(|byte| *byte == b'-')?;
    while end >= 2 && text[end - 2] == b'-' {
        end -= 2;
    }
    (end > 1).then_some(&text[..end])
}

/// Lookup over a holder of languages, who is asked for one text after another.
pub fn choose<R>(list: &PriorityList, mut held: impl FnMut(&[u8]) -> Option<R>) -> Option<R> {
    for place in &list.order {
        let mut candidate = Some(list.lookup_text(*place));
        while let Some(text) = candidate {
            if let Some(found) = held(text) {
                if !list.is_refusal(list.tree().walk(text.len(), |at| word_at(text, at)).item) {
                    return Some(found);
                }
            }
            candidate = truncated(text);
        }
    }
    None
}
