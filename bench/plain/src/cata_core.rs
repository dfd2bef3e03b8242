//! Catalogues, sites, deltas and runs. Messages and languages are numbered in the order of their
//! texts, and all cells stand in one row by message and language, so that merges and deltas are
//! walks over numbers.

use crate::cell_core::{Cell, Heap, Index, Names, SiteName, Stamp, Taken, Winner};
use crate::lang_core::Lang;
use crate::nego_core::{choose, PriorityList};
use crate::words::folded;
use std::cmp::Ordering;

pub type Label = Vec<String>;

#[derive(Debug, PartialEq, Eq)]
pub enum CataFault {
    StampReused { place: usize, stamp: Stamp },
    ClockSpent,
}

#[derive(Debug, Clone)]
pub struct Edit {
    pub id: String,
    pub lang: Lang,
    pub stamp: Stamp,
    pub label: Option<Label>,
}

/// A cell with the numbers of its message and language.
#[derive(Debug, Clone, Copy)]
struct Row {
    message: u32,
    lang: u32,
    cell: Cell,
}

#[inline(always)]
fn key_of(message: u32, lang: u32) -> u64 {
    u64::from(message) << 32 | u64::from(lang)
}

impl Row {
    #[inline(always)]
    fn key(&self) -> u64 {
        key_of(self.message, self.lang)
    }
}

#[inline(always)]
fn hash_of(key: u64) -> u64 {
    folded(key, 0)
}

/// Rows that are gone over, with the numbers that their messages and languages have elsewhere.
struct Numbered<'a> {
    rows: &'a [Row],
    heap: &'a Heap,
    messages: &'a [u32],
    langs: &'a [u32],
}

impl<'a> Numbered<'a> {
    #[inline(always)]
    fn row(&self, row: &Row, cell: Cell) -> Row {
        Row {
            message: self.messages[row.message as usize],
            lang: self.langs[row.lang as usize],
            cell,
        }
    }

    /// The number of the next row's message, and one above all where there is no row.
    #[inline(always)]
    fn message(&self) -> u32 {
        self.rows
            .first()
            .map_or(u32::MAX, |row| self.messages[row.message as usize])
    }

    /// Goes past the rows of messages below a number.
    #[inline(always)]
    fn rows_before(&mut self, message: u32) -> &'a [Row] {
        if message == u32::MAX {
            return std::mem::take(&mut self.rows);
        }
        let is_before = |row: &&Row| self.messages[row.message as usize] < message;
        let count = self.rows.iter().take_while(is_before).count();
        self.split(count)
    }

    /// Goes past the rows of the next message.
    #[inline(always)]
    fn rows_of_message(&mut self) -> &'a [Row] {
        let message = self.rows.first().map(|row| row.message);
        let is_of_it = |row: &&Row| Some(row.message) == message;
        self.split(self.rows.iter().take_while(is_of_it).count())
    }

    #[inline(always)]
    fn split(&mut self, count: usize) -> &'a [Row] {
        let (before, later) = self.rows.split_at(count);
        self.rows = later;
        before
    }
}

/// Two catalogues that are joined, message by message.
struct Joining<'a> {
    own: Numbered<'a>,
    others: Numbered<'a>,
    /// The numbers of the other's sites in the join.
    sites: &'a [u16],
    taken: Taken<'a>,
    rows: Vec<Row>,
    heap: Heap,
}

impl<'a> Joining<'a> {
    /// Takes the own messages that come before the other's next one.
    #[inline(always)]
    fn take_own(&mut self) {
        let rows = self.own.rows_before(self.others.message());
        let own = &self.own;
        self.rows
            .extend(rows.iter().map(|row| own.row(row, row.cell)));
    }

    /// Takes the other's messages that come before the next own one.
    #[inline(always)]
    fn take_others(&mut self) {
        let rows = self.others.rows_before(self.own.message());
        let (heap, taken) = (&mut self.heap, &mut self.taken);
        let (others, sites) = (&self.others, self.sites);
        self.rows.extend(
            rows.iter()
                .map(|row| others.row(row, heap.take(taken, sites, &row.cell))),
        );
    }

    /// Joins the rows of a message that is next in both, language by language; refused at an own
    /// row whose stamp the other has with another label.
    #[inline(always)]
    fn take_both(&mut self) -> Result<(), &'a Row> {
        let message = self.own.message();
        if message != self.others.message() || message == u32::MAX {
            return Ok(());
        }
        let mut own = self.own.rows_of_message();
        let mut others = self.others.rows_of_message();
        while let ([row, later @ ..], [of_other, other_later @ ..]) = (own, others) {
            let lang = self.own.langs[row.lang as usize];
            match lang.cmp(&self.others.langs[of_other.lang as usize]) {
                Ordering::Less => {
                    self.push_own(message, row);
                    own = later;
                }
                Ordering::Greater => {
                    self.push_other(message, of_other);
                    others = other_later;
                }
                Ordering::Equal => {
                    let (cell, other) = (&row.cell, &of_other.cell);
                    let heap = self.own.heap;
                    match heap.winner(cell, self.others.heap, other, self.sites) {
                        Some(Winner::Own) => self.push_own(message, row),
                        Some(Winner::Other) => self.push_other(message, of_other),
                        None => return Err(row),
                    }
                    (own, others) = (later, other_later);
                }
            }
        }
        own.iter().for_each(|row| self.push_own(message, row));
        others.iter().for_each(|row| self.push_other(message, row));
        Ok(())
    }

    #[inline(always)]
    fn push_own(&mut self, message: u32, row: &Row) {
        self.rows.push(Row {
            message,
            lang: self.own.langs[row.lang as usize],
            cell: row.cell,
        });
    }

    #[inline(always)]
    fn push_other(&mut self, message: u32, row: &Row) {
        self.rows.push(Row {
            message,
            lang: self.others.langs[row.lang as usize],
            cell: self.heap.take(&mut self.taken, self.sites, &row.cell),
        });
    }

    fn finish(mut self) -> (Vec<Row>, Heap) {
        self.heap.finish(self.taken);
        (self.rows, self.heap)
    }
}

/// Places in order of a number below a bound that each has; those of one number stay in order.
fn ordered_by(places: &[u32], bound: usize, number: impl Fn(u32) -> u32) -> Vec<u32> {
    let mut firsts = vec![0_u32; bound + 1];
    for place in places {
        firsts[number(*place) as usize + 1] += 1;
    }
    for number in 1..firsts.len() {
        firsts[number] += firsts[number - 1];
    }
    let mut ordered = vec![0; places.len()];
    for place in places {
        let first = &mut firsts[number(*place) as usize];
        ordered[*first as usize] = *place;
        *first += 1;
    }
    ordered
}

#[derive(Debug)]
pub struct Catalogue {
    langs: Names,
    messages: Names,
    rows: Vec<Row>,
    heap: Heap,
    /// Whether numbers and rows are in order.
    settled: bool,
    /// Places of rows by key; empty until an edit is applied.
    places: Index,
}

impl Default for Catalogue {
    fn default() -> Catalogue {
        Catalogue {
            langs: Names::default(),
            messages: Names::default(),
            rows: Vec::new(),
            heap: Heap::default(),
            settled: true,
            places: Index::default(),
        }
    }
}

impl Catalogue {
    pub fn len(&self) -> usize {
        self.rows.len()
    }

    /// A copy of a catalogue that is in order, whose cells are found without the index.
    fn copy(&self) -> Catalogue {
        assert!(self.settled);
        Catalogue {
            langs: self.langs.copy(),
            messages: self.messages.copy(),
            rows: self.rows.clone(),
            heap: self.heap.clone(),
            ..Catalogue::default()
        }
    }

    /// The cells in order of message and language.
    pub fn cells(&self) -> impl Iterator<Item = &Cell> {
        assert!(self.settled);
        self.rows.iter().map(|row| &row.cell)
    }

    /// Puts numbers and rows in order.
    pub fn settle(&mut self) {
        if self.settled {
            return;
        }
        if !self.messages.is_rising() {
            let numbers = self.messages.settle();
            self.rows
                .iter_mut()
                .for_each(|row| row.message = numbers[row.message as usize]);
        }
        if !self.langs.is_rising() {
            let numbers = self.langs.settle();
            self.rows
                .iter_mut()
                .for_each(|row| row.lang = numbers[row.lang as usize]);
        }
        let is_before = |pair: &&[Row]| pair[0].key() < pair[1].key();
        let in_order = self.rows.windows(2).take_while(is_before).count();
        if 2 * in_order > self.rows.len() {
            self.rows.sort_by_key(Row::key);
        } else {
            self.rows = self.rows_in_order();
        }
        self.places = Index::default();
        self.settled = true;
    }

    /// The rows by message and language, where few are in order.
    fn rows_in_order(&self) -> Vec<Row> {
        let rows = &self.rows;
        let places: Vec<u32> = (0..rows.len() as u32).collect();
        let places = ordered_by(&places, self.langs.len(), |place| rows[place as usize].lang);
        let places = ordered_by(&places, self.messages.len(), |place| {
            rows[place as usize].message
        });
        places.iter().map(|place| rows[*place as usize]).collect()
    }

    #[inline(never)]
    fn fill_places(&mut self) {
        self.places = Index::with_room_for(self.rows.len());
        for (place, row) in self.rows.iter().enumerate() {
            self.places
                .find_or_add(hash_of(row.key()), place, |_| false);
        }
    }

    /// The place of a message and language, and their numbers. Where the place is new, the row has
    /// to be pushed.
    #[inline(always)]
    fn place(&mut self, id: &str, lang: &Lang) -> (usize, u32, u32) {
        let message = self.messages.add(id.as_bytes());
        let lang = self.langs.add(lang.as_bytes());
        if self.places.len() < self.rows.len() {
            self.fill_places();
        }
        let (key, rows) = (key_of(message, lang), &self.rows);
        let place = self
            .places
            .find_or_add(hash_of(key), rows.len(), |place| rows[place].key() == key);
        (place, message, lang)
    }

    fn push(&mut self, row: Row) {
        let rising = self.messages.is_rising() && self.langs.is_rising();
        let last = self.rows.last().is_none_or(|last| last.key() < row.key());
        self.settled = self.settled && rising && last;
        self.rows.push(row);
    }

    pub fn apply(&mut self, edit: &Edit) -> Result<(), CataFault> {
        let cell = self.heap.add(b"", edit.stamp, edit.label.as_deref());
        let (place, message, lang) = self.place(&edit.id, &edit.lang);
        let Some(row) = self.rows.get_mut(place) else {
            self.push(Row {
                message,
                lang,
                cell,
            });
            return Ok(());
        };
        match self.heap.stamp(&row.cell).cmp(&edit.stamp) {
            Ordering::Less => row.cell = cell,
            Ordering::Equal if !self.heap.same_label(&row.cell, &self.heap, &cell) => {
                self.settle();
                return Err(CataFault::StampReused {
                    place: self.place_in_order(&edit.id, &edit.lang),
                    stamp: edit.stamp,
                });
            }
            _ => self.heap.forget(&cell),
        }
        Ok(())
    }

    /// The place of a message and language that have a cell, in a settled catalogue.
    fn place_in_order(&self, id: &str, lang: &Lang) -> usize {
        let message = self.messages.find(id.as_bytes()).unwrap_or(u32::MAX);
        let lang = self.langs.find(lang.as_bytes()).unwrap_or(u32::MAX);
        let key = key_of(message, lang);
        self.rows.partition_point(|row| row.key() < key)
    }

    /// Writes a cell over what its key has.
    fn write(&mut self, id: &str, lang: &Lang, stamp: Stamp, label: Option<&[String]>) {
        let cell = self.heap.add(b"", stamp, label);
        let (place, message, lang) = self.place(id, lang);
        match self.rows.get_mut(place) {
            Some(row) => row.cell = cell,
            None => self.push(Row {
                message,
                lang,
                cell,
            }),
        }
    }

    /// The join with another catalogue, both settled, as a new one. It is refused at the first cell
    /// of this one that has a stamp which the other has with another label.
    pub fn joined(&self, other: &Catalogue) -> Result<Catalogue, CataFault> {
        assert!(self.settled && other.settled);
        if other.rows.is_empty() {
            return Ok(self.copy());
        }
        let (messages, message_numbers) = self.messages.joined(&other.messages);
        let (langs, lang_numbers) = self.langs.joined(&other.langs);
        let (heap, sites) = self.heap.with_room_for(&other.heap);
        let mut joining = Joining {
            own: Numbered {
                rows: &self.rows,
                heap: &self.heap,
                messages: &message_numbers.own,
                langs: &lang_numbers.own,
            },
            others: Numbered {
                rows: &other.rows,
                heap: &other.heap,
                messages: &message_numbers.others,
                langs: &lang_numbers.others,
            },
            sites: &sites,
            taken: other.heap.taken(),
            rows: Vec::with_capacity(self.rows.len() + other.rows.len()),
            heap,
        };
        while !joining.own.rows.is_empty() || !joining.others.rows.is_empty() {
            joining.take_own();
            joining.take_others();
            if let Err(clash) = joining.take_both() {
                return Err(CataFault::StampReused {
                    place: self.rows.partition_point(|row| row.key() < clash.key()),
                    stamp: self.heap.stamp(&clash.cell),
                });
            }
        }
        let (rows, heap) = joining.finish();
        Ok(Catalogue {
            langs,
            messages,
            rows,
            heap,
            ..Catalogue::default()
        })
    }

    #[inline(always)]
    fn find(&self, message: u32, lang: u32) -> Option<&Cell> {
        let key = u64::from(message) << 32 | u64::from(lang);
        let place = self.rows.binary_search_by_key(&key, Row::key).ok()?;
        Some(&self.rows[place].cell)
    }

    /// The language that a list looks up among the live labels of a message of a settled catalogue.
    pub fn ask_lookup(&self, id: &str, list: &PriorityList) -> Option<&[u8]> {
        assert!(self.settled);
        let message = self.messages.find(id.as_bytes())?;
        choose(list, |text| {
            let lang = self.langs.find(text)?;
            self.find(message, lang)
                .filter(|cell| cell.is_live())
                .map(|_| self.langs.get(lang as usize))
        })
    }

    /// The cells whose key a summary lacks or has with a lesser stamp; both are settled.
    fn missing_cells(&self, told: &Catalogue) -> Catalogue {
        assert!(self.settled && told.settled);
        let messages = told.messages.numbers_in(&self.messages);
        let langs = told.langs.numbers_in(&self.langs);
        let mut missing = Catalogue {
            langs: self.langs.copy(),
            ..Catalogue::default()
        };
        let sites = missing.heap.site_numbers(&self.heap);
        let told_sites = self.heap.site_numbers_of(&told.heap);
        let mut taken = self.heap.taken();
        let mut told_rows = told.rows.iter().filter_map(|row| {
            let (message, lang) = (messages[row.message as usize], langs[row.lang as usize]);
            let held = message != Names::NONE && lang != Names::NONE;
            held.then_some((key_of(message, lang), &row.cell))
        });
        let mut next = told_rows.next();
        let mut message = None;
        for row in &self.rows {
            while next.is_some_and(|(key, _)| key < row.key()) {
                next = told_rows.next();
            }
            let is_told = next.is_some_and(|(key, cell)| {
                key == row.key()
                    && self.heap.order(&row.cell, &told.heap, cell, &told_sites)
                        != Ordering::Greater
            });
            if is_told {
                continue;
            }
            if message != Some(row.message) {
                message = Some(row.message);
                missing
                    .messages
                    .push(self.messages.get(row.message as usize));
            }
            let cell = missing.heap.take(&mut taken, &sites, &row.cell);
            missing.rows.push(Row {
                message: missing.messages.len() as u32 - 1,
                lang: row.lang,
                cell,
            });
        }
        missing.heap.finish(taken);
        missing
    }
}

/// The stamps of a site's cells.
pub struct Summary {
    pub owner: SiteName,
    told: Catalogue,
}

impl Summary {
    pub fn of(owner: SiteName, catalogue: &Catalogue) -> Summary {
        let told = Catalogue {
            langs: catalogue.langs.copy(),
            messages: catalogue.messages.copy(),
            rows: catalogue
                .rows
                .iter()
                .map(|row| Row {
                    cell: row.cell.without_label(),
                    ..*row
                })
                .collect(),
            heap: catalogue.heap.without_labels(),
            settled: catalogue.settled,
            places: Index::default(),
        };
        Summary { owner, told }
    }
}

pub struct Delta {
    #[allow(dead_code)]
    pub addressee: SiteName,
    pub cells: Catalogue,
}

pub struct Site {
    name: SiteName,
    pub catalogue: Catalogue,
    last: Option<Stamp>,
}

impl Site {
    pub fn new(name: SiteName) -> Site {
        Site {
            name,
            catalogue: Catalogue::default(),
            last: None,
        }
    }

    pub fn from_catalogue(name: SiteName, catalogue: Catalogue) -> Site {
        let last = catalogue
            .rows
            .iter()
            .map(|row| catalogue.heap.stamp(&row.cell))
            .max();
        Site {
            name,
            catalogue,
            last,
        }
    }

    fn next_stamp(&self, now: u64) -> Result<Stamp, CataFault> {
        let site = self.name;
        let Some(last) = self.last.filter(|last| last.time >= now) else {
            return Ok(Stamp {
                time: now,
                site,
                count: 0,
            });
        };
        let least = Stamp {
            time: last.time,
            site,
            count: 0,
        };
        if least > last {
            return Ok(least);
        }
        if last.site == site {
            if let Some(count) = last.count.checked_add(1) {
                return Ok(Stamp {
                    time: last.time,
                    site,
                    count,
                });
            }
        }
        match last.time.checked_add(1) {
            Some(time) => Ok(Stamp {
                time,
                site,
                count: 0,
            }),
            None => Err(CataFault::ClockSpent),
        }
    }

    pub fn put(
        &mut self,
        now: u64,
        id: &str,
        lang: &Lang,
        label: &Label,
    ) -> Result<Stamp, CataFault> {
        let stamp = self.next_stamp(now)?;
        self.catalogue.write(id, lang, stamp, Some(label));
        self.last = Some(stamp);
        Ok(stamp)
    }

    pub fn summary(&self) -> Summary {
        Summary::of(self.name, &self.catalogue)
    }

    pub fn delta_for(&self, summary: &Summary) -> Delta {
        Delta {
            addressee: summary.owner,
            cells: self.catalogue.missing_cells(&summary.told),
        }
    }
}

pub enum Step {
    Edit { site: usize, edit: Edit },
    Merge { into: usize, source: usize },
    AskCells { site: usize },
    Tell { site: usize },
    Post { site: usize, told: usize },
    Deliver { post: usize },
}

#[derive(Debug)]
#[allow(dead_code)]
pub enum PlayFault {
    StampReused {
        step: usize,
        place: usize,
        stamp: Stamp,
    },
    ClockSpent {
        step: usize,
    },
    NoSuchSite {
        step: usize,
    },
    NoSuchPost {
        step: usize,
    },
}

struct World {
    sites: Vec<Catalogue>,
    told: Vec<(usize, Summary)>,
    posts: Vec<(usize, Catalogue)>,
    answers: Vec<Catalogue>,
}

fn at_step(step: usize) -> impl Fn(CataFault) -> PlayFault {
    move |fault| match fault {
        CataFault::StampReused { place, stamp } => PlayFault::StampReused { step, place, stamp },
        CataFault::ClockSpent => PlayFault::ClockSpent { step },
    }
}

fn site_name(place: usize) -> SiteName {
    let mut name = [0; 16];
    name[..10].copy_from_slice(&format!("{place:010}").as_bytes()[..10]);
    name
}

impl World {
    fn site(&mut self, place: usize, step: usize) -> Result<&mut Catalogue, PlayFault> {
        self.sites
            .get_mut(place)
            .ok_or(PlayFault::NoSuchSite { step })
    }

    /// A site with its cells in order.
    fn settled(&mut self, place: usize, step: usize) -> Result<&mut Catalogue, PlayFault> {
        let site = self.site(place, step)?;
        site.settle();
        Ok(site)
    }

    fn take(&mut self, n: usize, step: &Step) -> Result<(), PlayFault> {
        match step {
            Step::Edit { site, edit } => self.site(*site, n)?.apply(edit).map_err(at_step(n))?,
            Step::Merge { into, source } => {
                self.settled(*source, n)?;
                self.settled(*into, n)?;
                let joined = self.sites[*into].joined(&self.sites[*source]);
                self.sites[*into] = joined.map_err(at_step(n))?;
            }
            Step::AskCells { site } => {
                let cells = self.settled(*site, n)?.copy();
                self.answers.push(cells);
            }
            Step::Tell { site } => {
                let summary = Summary::of(site_name(*site), self.settled(*site, n)?);
                self.told.push((*site, summary));
            }
            Step::Post { site, told } => {
                self.settled(*site, n)?;
                let (teller, summary) = self
                    .told
                    .get(*told)
                    .ok_or(PlayFault::NoSuchPost { step: n })?;
                self.posts
                    .push((*teller, self.sites[*site].missing_cells(&summary.told)));
            }
            Step::Deliver { post } => {
                let addressee = self
                    .posts
                    .get(*post)
                    .ok_or(PlayFault::NoSuchPost { step: n })?
                    .0;
                self.settled(addressee, n)?;
                let joined = self.sites[addressee].joined(&self.posts[*post].1);
                self.sites[addressee] = joined.map_err(at_step(n))?;
            }
        }
        Ok(())
    }
}

/// The answers of a run over sites that begin empty.
pub fn play(sites: usize, steps: &[Step]) -> Result<Vec<Catalogue>, PlayFault> {
    let mut world = World {
        sites: (0..sites).map(|_| Catalogue::default()).collect(),
        told: Vec::new(),
        posts: Vec::new(),
        answers: Vec::new(),
    };
    for (n, step) in steps.iter().enumerate() {
        world.take(n, step)?;
    }
    Ok(world.answers)
}
