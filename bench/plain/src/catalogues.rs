//! Works over catalogues of 100,000 cells.

use crate::cata_core::{Catalogue, Label, Site, Summary};
use crate::checksum::mixed;
use crate::lang_core::Lang;
use crate::makers::{
    catalogue_of, edit_of, id_of, ids_of, label, langs_of_tags, many_langs, name, numbered_lang,
    scattered, stamp_of,
};
use crate::nego_core::{PriorityList, Scheme};
use std::hint::black_box;

const TURNS: u64 = 100_000;

const MESSAGES: u64 = 10_000;

const LANGUAGES: u64 = 800_000;

/// Most of its ranges are held by no message, so that lookup has to try several of them.
const SELDOM: &str =
    "af-ZA, eu-Latn-ES;q=0.9, ga-IE;q=0.8, cy-GB;q=0.8, is;q=0.7, mt-MT;q=0.6, lb-LU;q=0.5, \
    uk-Cyrl-UA;q=0.4, gd-GB;q=0.3, ja-Latn-JP-x-private1;q=0.2";

/// 10,000 messages from a number on, in ten languages.
fn whole(from: u64) -> Catalogue {
    catalogue_of(from, MESSAGES, &langs_of_tags(), 0)
}

/// The length of the join with another catalogue, which is a new catalogue.
fn merged(own: &Catalogue, other: &Catalogue) -> u64 {
    own.joined(other)
        .map_or(0, |joined| black_box(joined).len() as u64)
}

pub fn sum_of_walk(catalogue: &Catalogue) -> u64 {
    catalogue.cells().fold(0, |sum, cell| mixed(sum, cell.time))
}

/// The second catalogue of a merge.
fn other_of(work: &str) -> Catalogue {
    match work {
        "catalogue-equal" => whole(0),
        "catalogue-half" => whole(MESSAGES / 2),
        "catalogue-disjoint" => whole(MESSAGES),
        _ => Catalogue::default(),
    }
}

fn repeated(turns: u64, found: impl Fn() -> u64) -> u64 {
    (0..turns).fold(0, |sum, _| mixed(sum, found()))
}

fn run_merges(work: &str, turns: u64) -> u64 {
    let own = whole(0);
    let other = other_of(work);
    repeated(turns, || merged(&own, &other))
}

fn run_walks(turns: u64) -> u64 {
    let own = whole(0);
    repeated(turns, || sum_of_walk(black_box(&own)))
}

/// What a site told of the cells, before one in a hundred changed.
fn told_before() -> Summary {
    Site::from_catalogue(name("rome"), whole(0)).summary()
}

fn run_deltas(turns: u64) -> u64 {
    let summary = told_before();
    let newer = catalogue_of(0, MESSAGES, &langs_of_tags(), 1);
    let site = Site::from_catalogue(name("paris"), newer);
    repeated(turns, || sum_of_walk(&site.delta_for(&summary).cells))
}

/// Puts the label at a key that looks random.
fn put_one(site: &mut Site, turn: u64, ids: &[String], langs: &[Lang], label: &Label) -> u64 {
    let number = scattered(turn);
    let id = &ids[(number % 10_000) as usize];
    let lang = &langs[(number / 16_384 % 10) as usize];
    match site.put(turn / 3, id, lang, label) {
        Ok(stamp) => mixed(mixed(0, stamp.time), u64::from(stamp.count)),
        Err(_) => 1,
    }
}

/// All puts, and the cells put in order.
fn put_all(ids: &[String], langs: &[Lang]) -> u64 {
    let mut site = Site::new(name("rome"));
    let label = label();
    let sum = (0..TURNS).fold(0, |sum, turn| {
        mixed(sum, put_one(&mut site, turn, ids, langs, &label))
    });
    site.catalogue.settle();
    mixed(sum, site.catalogue.len() as u64)
}

fn run_puts(turns: u64) -> u64 {
    let ids = ids_of(MESSAGES, 1);
    let langs = langs_of_tags();
    repeated(turns, || put_all(&ids, &langs))
}

fn sum_of_reply(sum: u64, reply: Option<&[u8]>) -> u64 {
    match reply {
        Some(lang) => mixed(mixed(sum, 1), lang.len() as u64),
        None => mixed(sum, 3),
    }
}

fn look_up_all(catalogue: &Catalogue, ids: &[String], list: &PriorityList) -> u64 {
    ids.iter().fold(0, |sum, id| {
        sum_of_reply(sum, catalogue.ask_lookup(id, list))
    })
}

/// One message in so many languages.
fn message_of(langs: u64) -> Catalogue {
    let mut catalogue = Catalogue::default();
    let id = id_of(0);
    for lang in (0..langs).filter_map(numbered_lang) {
        if catalogue
            .apply(&edit_of(&id, &lang, stamp_of(0, 0)))
            .is_err()
        {
            return Catalogue::default();
        }
    }
    catalogue
}

fn run_lookups(own: &Catalogue, ids: &[String], field: &str, turns: u64) -> u64 {
    match PriorityList::parse(field.as_bytes(), Scheme::Basic) {
        Ok(list) => repeated(turns, || look_up_all(own, ids, &list)),
        Err(_) => 0,
    }
}

fn run_few_lookups(turns: u64) -> u64 {
    let own = catalogue_of(0, 2_000, &many_langs(), 0);
    run_lookups(&own, &ids_of(100, 17), SELDOM, turns)
}

/// A field of many ranges, looked up in one message of many languages.
fn run_long_lookups(load: &str, turns: u64) -> u64 {
    let own = message_of(LANGUAGES);
    run_lookups(&own, &ids_of(1, 1), load, turns)
}

/// The checksum of so many turns of a work.
pub fn run(work: &str, load: &str, turns: u64) -> u64 {
    match work {
        "catalogue-walk" => run_walks(turns),
        "catalogue-delta" => run_deltas(turns),
        "catalogue-puts" => run_puts(turns),
        "catalogue-lookup" => run_few_lookups(turns),
        "catalogue-long-lookup" => run_long_lookups(load, turns),
        _ => run_merges(work, turns),
    }
}
