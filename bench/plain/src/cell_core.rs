//! Maps of cells that join key by key. All keys and labels of a map are in one text, each label
//! after its key, and the cells are of equal size, so that a copy copies memory and a join is one
//! walk; a hash table finds keys that are put.

use crate::words::{first_bytes, hash_of, is_same, word_at};
use std::cmp::Ordering;

pub type SiteName = [u8; 16];

#[derive(Debug, Clone, Copy, PartialEq, Eq, PartialOrd, Ord)]
pub struct Stamp {
    pub time: u64,
    pub site: SiteName,
    pub count: u32,
}

/// A hash table of numbers. A slot is half of a hash above a number that is greater by one, so that
/// the table grows without another look at what is numbered, and begins with zeros.
#[derive(Debug, Default)]
pub struct Index {
    slots: Vec<u64>,
    count: usize,
    /// How many more there may be before the table grows.
    room: usize,
}

const FREE: u64 = 0;

impl Index {
    /// An empty table with room for so many, and as many more.
    pub fn with_room_for(count: usize) -> Index {
        let size = (4 * count).next_power_of_two().max(32);
        Index {
            slots: vec![FREE; size],
            count: 0,
            room: size / 2,
        }
    }

    pub fn len(&self) -> usize {
        self.count
    }

    /// The number that a slot has.
    fn number(slot: u64) -> usize {
        slot as u32 as usize - 1
    }

    /// The place of the number that has this hash and is the one that is sought, or of the free
    /// slot for it.
    #[inline(always)]
    fn place(&self, hash: u64, is_sought: impl Fn(usize) -> bool) -> usize {
        let last = self.slots.len() - 1;
        let mut place = (hash >> 32) as usize & last;
        loop {
            let slot = self.slots[place];
            if slot == FREE || (slot ^ hash) >> 32 == 0 && is_sought(Index::number(slot)) {
                return place;
            }
            place = (place + 1) & last;
        }
    }

    #[inline(always)]
    pub fn find(&self, hash: u64, is_sought: impl Fn(usize) -> bool) -> Option<usize> {
        if self.slots.is_empty() {
            return None;
        }
        let slot = self.slots[self.place(hash, is_sought)];
        (slot != FREE).then_some(Index::number(slot))
    }

    /// The number that is sought; where there is none, the given one is added.
    #[inline(always)]
    pub fn find_or_add(
        &mut self,
        hash: u64,
        number: usize,
        is_sought: impl Fn(usize) -> bool,
    ) -> usize {
        if self.room == 0 {
            self.grow();
        }
        let place = self.place(hash, is_sought);
        if self.slots[place] == FREE {
            self.slots[place] = hash >> 32 << 32 | (number as u64 + 1);
            self.count += 1;
            self.room -= 1;
            return number;
        }
        Index::number(self.slots[place])
    }

    #[inline(never)]
    fn grow(&mut self) {
        let size = (4 * self.slots.len()).max(32);
        self.room = size / 2 - self.count;
        let slots = std::mem::replace(&mut self.slots, vec![FREE; size]);
        for slot in slots.into_iter().filter(|slot| *slot != FREE) {
            let place = self.place(slot, |_| false);
            self.slots[place] = slot;
        }
    }

    /// Puts new numbers, by the old ones, in place of those.
    fn renumber(&mut self, numbers: &[u32]) {
        for slot in self.slots.iter_mut().filter(|slot| **slot != FREE) {
            *slot = *slot >> 32 << 32 | (u64::from(numbers[Index::number(*slot)]) + 1);
        }
    }
}

/// How many bytes all of the texts begin with alike.
fn common<'a>(count: usize, text: &impl Fn(usize) -> &'a [u8]) -> usize {
    let first = if count > 0 { text(0) } else { &[] };
    (1..count).map(text).fold(first.len(), |len, other| {
        let mut at = 0;
        while at < len && word_at(first, at) == word_at(other, at) {
            at += 8;
        }
        let alike = |at: &usize| first.get(*at) == other.get(*at);
        (at..len).take_while(alike).count() + at.min(len)
    })
}

/// The numbers of so many texts, which mostly begin alike, in the order of the texts.
fn in_order<'a>(count: usize, text: impl Fn(usize) -> &'a [u8]) -> Vec<u32> {
    let skipped = common(count, &text);
    let mut ranked: Vec<(u64, u32)> = (0..count as u32)
        .map(|number| (word_at(text(number as usize), skipped).swap_bytes(), number))
        .collect();
    ranked.sort_unstable_by(|(first, one), (second, other)| {
        first
            .cmp(second)
            .then_with(|| text(*one as usize).cmp(text(*other as usize)))
    });
    ranked.iter().map(|(_, number)| *number).collect()
}

/// The new numbers by the old ones, where these are the old ones in the new order.
fn numbers_of(order: &[u32]) -> Vec<u32> {
    let mut numbers = vec![0; order.len()];
    for (new, old) in (0..).zip(order) {
        numbers[*old as usize] = new;
    }
    numbers
}

/// Texts, each with a number. While they came in rising order, the numbers are in the order of the
/// texts.
#[derive(Debug)]
pub struct Names {
    bytes: Vec<u8>,
    spans: Vec<(u32, u32)>,
    rising: bool,
    /// Empty until a text is added.
    index: Index,
}

impl Default for Names {
    fn default() -> Names {
        Names {
            bytes: Vec::new(),
            spans: Vec::new(),
            rising: true,
            index: Index::default(),
        }
    }
}

/// The numbers that two sequences of texts have in their join, by their own.
pub struct Numbers {
    pub own: Vec<u32>,
    pub others: Vec<u32>,
}

impl Names {
    /// The number of a text that is not there.
    pub const NONE: u32 = u32::MAX;

    /// A copy of rising texts, which are found without the index.
    pub fn copy(&self) -> Names {
        assert!(self.rising);
        Names {
            bytes: self.bytes.clone(),
            spans: self.spans.clone(),
            ..Names::default()
        }
    }

    pub fn len(&self) -> usize {
        self.spans.len()
    }

    pub fn is_rising(&self) -> bool {
        self.rising
    }

    #[inline(always)]
    pub fn get(&self, number: usize) -> &[u8] {
        let (at, len) = self.spans[number];
        &self.bytes[at as usize..][..len as usize]
    }

    #[inline(always)]
    pub fn find(&self, text: &[u8]) -> Option<u32> {
        if self.index.count == 0 {
            return self.search(text).ok().map(|number| number as u32);
        }
        self.index
            .find(hash_of(text), |number| is_same(self.get(number), text))
            .map(|number| number as u32)
    }

    fn search(&self, text: &[u8]) -> Result<usize, usize> {
        self.spans
            .binary_search_by(|(at, len)| self.bytes[*at as usize..][..*len as usize].cmp(text))
    }

    /// Puts a text behind all others.
    #[inline(always)]
    pub fn push(&mut self, text: &[u8]) {
        if let Some(last) = self.len().checked_sub(1).filter(|_| self.rising) {
            self.rising = self.get(last) < text;
        }
        self.spans
            .push((self.bytes.len() as u32, text.len() as u32));
        self.bytes.extend_from_slice(text);
    }

    #[inline(never)]
    fn fill_index(&mut self) {
        self.index = Index::with_room_for(self.len());
        for number in 0..self.len() {
            let hash = hash_of(self.get(number));
            self.index.find_or_add(hash, number, |_| false);
        }
    }

    /// The number of a text, which is put where it is new.
    #[inline(always)]
    pub fn add(&mut self, text: &[u8]) -> u32 {
        if self.index.count < self.len() {
            self.fill_index();
        }
        let (bytes, spans) = (&self.bytes, &self.spans);
        let number = self
            .index
            .find_or_add(hash_of(text), spans.len(), |number| {
                let (at, len) = spans[number];
                is_same(&bytes[at as usize..][..len as usize], text)
            });
        if number == self.len() {
            self.push(text);
        }
        number as u32
    }

    /// Numbers the texts by their order. The new numbers, by the old ones.
    pub fn settle(&mut self) -> Vec<u32> {
        let order = in_order(self.len(), |number| self.get(number));
        let numbers = numbers_of(&order);
        self.spans = order.iter().map(|old| self.spans[*old as usize]).collect();
        self.index.renumber(&numbers);
        self.rising = true;
        numbers
    }

    /// The join of rising texts with others, and the numbers of both in it.
    pub fn joined(&self, other: &Names) -> (Names, Numbers) {
        let mut numbers = Numbers {
            own: Vec::with_capacity(self.len()),
            others: Vec::with_capacity(other.len()),
        };
        let mut bytes = joined_bytes(&self.bytes, &other.bytes);
        let mut spans = Vec::with_capacity(self.len() + other.len());
        let mut taken = Taken::of(&other.bytes);
        let (mut i, mut j) = (0, 0);
        while i < self.len() || j < other.len() {
            let order = if i == self.len() {
                Ordering::Greater
            } else if j == other.len() {
                Ordering::Less
            } else {
                self.get(i).cmp(other.get(j))
            };
            let number = spans.len() as u32;
            if order == Ordering::Greater {
                let (at, len) = other.spans[j];
                spans.push((taken.take(&mut bytes, at, len), len));
            } else {
                spans.push(self.spans[i]);
                numbers.own.push(number);
                i += 1;
            }
            if order != Ordering::Less {
                numbers.others.push(number);
                j += 1;
            }
        }
        taken.copy(&mut bytes);
        let names = Names {
            bytes,
            spans,
            ..Names::default()
        };
        (names, numbers)
    }

    /// The numbers of rising texts among others, by their own.
    pub fn numbers_in(&self, other: &Names) -> Vec<u32> {
        let mut j = 0;
        let place = |number| {
            while j < other.len() {
                match other.get(j).cmp(self.get(number)) {
                    Ordering::Less => j += 1,
                    Ordering::Equal => return j as u32,
                    Ordering::Greater => break,
                }
            }
            Names::NONE
        };
        (0..self.len()).map(place).collect()
    }
}

/// A copy of bytes, with room for others.
fn joined_bytes(own: &[u8], other: &[u8]) -> Vec<u8> {
    let mut bytes = Vec::with_capacity(own.len() + other.len());
    bytes.extend_from_slice(own);
    bytes
}

/// Pieces of a buffer that are taken one after another; those that are side by side are copied at
/// once.
pub struct Taken<'a> {
    from: &'a [u8],
    start: usize,
    end: usize,
}

impl<'a> Taken<'a> {
    pub fn of(from: &'a [u8]) -> Taken<'a> {
        Taken {
            from,
            start: 0,
            end: 0,
        }
    }

    /// The place that a piece will have in the buffer that it is taken to.
    #[inline(always)]
    fn take(&mut self, to: &mut Vec<u8>, at: u32, len: u32) -> u32 {
        if at as usize != self.end {
            self.copy(to);
            self.start = at as usize;
            self.end = self.start;
        }
        let place = to.len() + self.end - self.start;
        self.end += len as usize;
        place as u32
    }

    fn copy(&mut self, to: &mut Vec<u8>) {
        to.extend_from_slice(&self.from[self.start..self.end]);
        self.start = self.end;
    }
}

/// A cell; its site and label are in the heap of its map, and before the label the key, where the
/// map keeps no keys of its own.
#[derive(Debug, Clone, Copy)]
pub struct Cell {
    pub time: u64,
    label: u32,
    label_len: u32,
    count: u32,
    site: u16,
    /// The number of texts, and of a cell without label a number that no label has.
    texts: u8,
    key_len: u8,
}

const NO_LABEL: u8 = u8::MAX;

impl Cell {
    pub fn is_live(&self) -> bool {
        self.texts != NO_LABEL
    }

    pub fn without_label(self) -> Cell {
        Cell {
            label: 0,
            label_len: 0,
            texts: NO_LABEL,
            ..self
        }
    }
}

/// The names of sites, and the texts of labels one behind another, each with its length before it,
/// and a key before those of its label.
#[derive(Debug, Clone, Default)]
pub struct Heap {
    sites: Vec<SiteName>,
    text: Vec<u8>,
}

impl Heap {
    pub fn without_labels(&self) -> Heap {
        Heap {
            sites: self.sites.clone(),
            text: Vec::new(),
        }
    }

    /// A copy, with room for what another has, and the numbers of the other's sites in it.
    pub fn with_room_for(&self, other: &Heap) -> (Heap, Vec<u16>) {
        let mut heap = Heap {
            sites: self.sites.clone(),
            text: joined_bytes(&self.text, &other.text),
        };
        let sites = heap.site_numbers(other);
        (heap, sites)
    }

    #[inline(always)]
    fn site_number(&mut self, site: SiteName) -> u16 {
        let place = self.sites.iter().position(|held| *held == site);
        place.unwrap_or_else(|| {
            self.sites.push(site);
            self.sites.len() - 1
        }) as u16
    }

    /// The numbers of another's sites, and one above all of a site that is not here.
    pub fn site_numbers_of(&self, other: &Heap) -> Vec<u16> {
        let place = |site| self.sites.iter().position(|held| held == site);
        let number = |site| place(site).map_or(u16::MAX, |place| place as u16);
        other.sites.iter().map(number).collect()
    }

    /// The numbers of another's sites, which are added.
    pub fn site_numbers(&mut self, other: &Heap) -> Vec<u16> {
        other
            .sites
            .iter()
            .map(|site| self.site_number(*site))
            .collect()
    }

    #[inline(always)]
    pub fn add(&mut self, key: &[u8], stamp: Stamp, label: Option<&[String]>) -> Cell {
        self.text.extend_from_slice(key);
        let at = self.text.len();
        for text in label.unwrap_or(&[]) {
            self.text
                .extend_from_slice(&(text.len() as u16).to_le_bytes());
            self.text.extend_from_slice(text.as_bytes());
        }
        Cell {
            time: stamp.time,
            label: at as u32,
            label_len: (self.text.len() - at) as u32,
            count: stamp.count,
            site: self.site_number(stamp.site),
            texts: label.map_or(NO_LABEL, |texts| texts.len() as u8),
            key_len: key.len() as u8,
        }
    }

    /// Keys and labels, to be taken.
    pub fn taken(&self) -> Taken<'_> {
        Taken::of(&self.text)
    }

    /// Takes a cell of another heap, whose sites have these numbers here.
    #[inline(always)]
    pub fn take(&mut self, taken: &mut Taken, sites: &[u16], cell: &Cell) -> Cell {
        let key_len = u32::from(cell.key_len);
        let key = taken.take(
            &mut self.text,
            cell.label - key_len,
            key_len + cell.label_len,
        );
        Cell {
            label: key + key_len,
            site: sites[usize::from(cell.site)],
            ..*cell
        }
    }

    /// Copies what was taken last.
    pub fn finish(&mut self, mut taken: Taken) {
        taken.copy(&mut self.text);
    }

    /// Gives the room of the cell that was added last back.
    pub fn forget(&mut self, cell: &Cell) {
        self.text
            .truncate(cell.label as usize - usize::from(cell.key_len));
    }

    #[inline(always)]
    fn key(&self, cell: &Cell) -> &[u8] {
        let label = cell.label as usize;
        &self.text[label - usize::from(cell.key_len)..label]
    }

    pub fn stamp(&self, cell: &Cell) -> Stamp {
        Stamp {
            time: cell.time,
            site: self.sites[usize::from(cell.site)],
            count: cell.count,
        }
    }

    /// The order of the stamps of two cells, where the other's sites have these numbers here.
    #[inline(always)]
    pub fn order(&self, own: &Cell, other: &Heap, cell: &Cell, sites: &[u16]) -> Ordering {
        let of_other = usize::from(cell.site);
        let names = || {
            if own.site == sites[of_other] {
                Ordering::Equal
            } else {
                self.sites[usize::from(own.site)].cmp(&other.sites[of_other])
            }
        };
        own.time
            .cmp(&cell.time)
            .then_with(names)
            .then(own.count.cmp(&cell.count))
    }

    #[inline(always)]
    pub fn same_label(&self, own: &Cell, other: &Heap, cell: &Cell) -> bool {
        if own.texts != cell.texts || own.label_len != cell.label_len {
            return false;
        }
        let len = own.label_len as usize;
        let (at, of_other) = (own.label as usize, cell.label as usize);
        if len <= 8 {
            let (word, other) = (word_at(&self.text, at), word_at(&other.text, of_other));
            return first_bytes(word ^ other, len) == 0;
        }
        self.text[at..][..len] == other.text[of_other..][..len]
    }

    /// Which of two cells has the greater stamp, where the other's sites have these numbers here;
    /// none where one stamp has two labels.
    #[inline(always)]
    pub fn winner(&self, own: &Cell, other: &Heap, cell: &Cell, sites: &[u16]) -> Option<Winner> {
        match self.order(own, other, cell, sites) {
            Ordering::Less => Some(Winner::Other),
            Ordering::Equal if !self.same_label(own, other, cell) => None,
            _ => Some(Winner::Own),
        }
    }
}

/// Which of two cells stays in a join.
pub enum Winner {
    Own,
    Other,
}

/// Cells by key; they are in order of key while the keys came so, and after `settle`.
#[derive(Debug)]
pub struct Keyed {
    cells: Vec<Cell>,
    heap: Heap,
    rising: bool,
    /// Empty until a key is put.
    index: Index,
}

impl Default for Keyed {
    fn default() -> Keyed {
        Keyed {
            cells: Vec::new(),
            heap: Heap::default(),
            rising: true,
            index: Index::default(),
        }
    }
}

impl Keyed {
    pub fn len(&self) -> usize {
        self.cells.len()
    }

    /// A copy of a map in order of key, whose keys are found without the index.
    pub fn copy(&self) -> Keyed {
        assert!(self.rising);
        Keyed {
            cells: self.cells.clone(),
            heap: self.heap.clone(),
            ..Keyed::default()
        }
    }

    #[inline(always)]
    pub fn get(&self, key: &[u8]) -> Option<&Cell> {
        if self.index.count == 0 {
            return self.search(key);
        }
        self.index
            .find(hash_of(key), |place| {
                is_same(self.heap.key(&self.cells[place]), key)
            })
            .map(|place| &self.cells[place])
    }

    fn search(&self, key: &[u8]) -> Option<&Cell> {
        self.cells
            .binary_search_by(|cell| self.heap.key(cell).cmp(key))
            .ok()
            .map(|place| &self.cells[place])
    }

    #[inline(never)]
    fn fill_index(&mut self) {
        self.index = Index::with_room_for(self.len());
        for (place, cell) in self.cells.iter().enumerate() {
            let hash = hash_of(self.heap.key(cell));
            self.index.find_or_add(hash, place, |_| false);
        }
    }

    /// Puts a cell, in place of one that its key has.
    #[inline(always)]
    pub fn put(&mut self, key: &[u8], stamp: Stamp, label: Option<&[String]>) {
        if self.index.count < self.len() {
            self.fill_index();
        }
        let (cells, heap) = (&self.cells, &self.heap);
        let place = self.index.find_or_add(hash_of(key), cells.len(), |place| {
            is_same(heap.key(&cells[place]), key)
        });
        let cell = self.heap.add(key, stamp, label);
        match self.cells.get_mut(place) {
            Some(held) => *held = cell,
            None => self.push(cell),
        }
    }

    #[inline(always)]
    fn push(&mut self, cell: Cell) {
        if let Some(last) = self.cells.last().filter(|_| self.rising) {
            self.rising = self.heap.key(last) < self.heap.key(&cell);
        }
        self.cells.push(cell);
    }

    pub fn settle(&mut self) {
        if !self.rising {
            let order = in_order(self.len(), |place| self.heap.key(&self.cells[place]));
            self.cells = order.iter().map(|old| self.cells[*old as usize]).collect();
            self.index.renumber(&numbers_of(&order));
            self.rising = true;
        }
    }

    /// The cells in order of key.
    pub fn cells(&self) -> &[Cell] {
        assert!(self.rising);
        &self.cells
    }

    /// The join with another map, both in order; none where one stamp is in both with two labels.
    pub fn joined(&self, other: &Keyed) -> Option<Keyed> {
        assert!(self.rising && other.rising);
        let (mut heap, sites) = self.heap.with_room_for(&other.heap);
        let mut taken = other.heap.taken();
        let mut cells = Vec::with_capacity(self.len() + other.len());
        let (mut own, mut others) = (self.cells.as_slice(), other.cells.as_slice());
        while let [of_other, other_later @ ..] = others {
            let key = other.heap.key(of_other);
            let mut order = Ordering::Greater;
            let is_before = |cell: &&Cell| {
                order = self.heap.key(cell).cmp(key);
                order == Ordering::Less
            };
            let count = own.iter().take_while(is_before).count();
            let (before, rest) = own.split_at(count);
            cells.extend_from_slice(before);
            own = rest;
            let winner = match rest {
                [cell, later @ ..] if order == Ordering::Equal => {
                    own = later;
                    self.heap.winner(cell, &other.heap, of_other, &sites)?
                }
                [_, ..] => Winner::Other,
                [] => break,
            };
            cells.push(match winner {
                Winner::Own => rest[0],
                Winner::Other => heap.take(&mut taken, &sites, of_other),
            });
            others = other_later;
        }
        cells.extend_from_slice(own);
        cells.extend(
            others
                .iter()
                .map(|cell| heap.take(&mut taken, &sites, cell)),
        );
        heap.finish(taken);
        Some(Keyed {
            cells,
            heap,
            ..Keyed::default()
        })
    }
}
