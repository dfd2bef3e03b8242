//! Maps of cells that join key by key.

use crate::cell_core::{Keyed, Stamp};
use crate::checksum::{mixed, mixed_place};
use crate::makers::{id_of, label, name, scattered};
use std::cmp::Ordering;
use std::hint::black_box;

const SIZE: u64 = 100_000;

fn stamp_of(number: u64) -> Stamp {
    Stamp {
        time: number % 1000,
        site: name("paris"),
        count: (number % 7) as u32,
    }
}

/// So many entries from a number on, so far apart.
fn rising(from: u64, step: u64, count: u64) -> Keyed {
    let label = label();
    let mut map = Keyed::default();
    for number in (0..count).map(|turn| from + turn * step) {
        map.put(id_of(number).as_bytes(), stamp_of(number), Some(&label));
    }
    map
}

/// The first map of a work.
fn own_of(work: &str) -> Keyed {
    match work {
        "keyed-copy" | "keyed-equal" | "keyed-disjoint" | "keyed-interleaved" => rising(0, 2, SIZE),
        "keyed-few" | "keyed-walk" => rising(0, 2, SIZE),
        _ => Keyed::default(),
    }
}

/// The map that it is joined with.
fn other_of(work: &str) -> Keyed {
    match work {
        "keyed-equal" => rising(0, 2, SIZE),
        "keyed-disjoint" => rising(2 * SIZE, 2, SIZE),
        "keyed-interleaved" => rising(1, 2, SIZE),
        "keyed-few" => rising(1, 2000, 100),
        _ => Keyed::default(),
    }
}

fn copy_length(own: &Keyed) -> u64 {
    black_box(own.copy()).len() as u64
}

/// The length of the join with another map, which is a new map; 0 where the two do not agree.
fn joined_length(own: &Keyed, other: &Keyed) -> u64 {
    own.joined(other)
        .map_or(0, |joined| black_box(joined).len() as u64)
}

fn sum_of_walk(own: &Keyed) -> u64 {
    own.cells()
        .iter()
        .fold(0, |sum, cell| mixed(sum, cell.time))
}

/// Keys in rising order, or such as look random.
fn keys_put(random: bool) -> Vec<String> {
    (0..SIZE)
        .map(|turn| id_of(if random { scattered(turn) } else { turn }))
        .collect()
}

/// Puts copies of the keys, each with a stamp that tells its turn.
fn put_all(keys: &[String]) -> u64 {
    let mut map = Keyed::default();
    for (turn, key) in (0..).zip(keys) {
        map.put(key.as_bytes(), stamp_of(turn), None);
    }
    map.settle();
    map.cells()
        .iter()
        .fold(mixed_place(0, map.len()), |sum, cell| mixed(sum, cell.time))
}

fn stamps_held() -> Keyed {
    let mut map = Keyed::default();
    for turn in 0..SIZE {
        map.put(id_of(2 * turn).as_bytes(), stamp_of(2 * turn), None);
    }
    map
}

fn keys_asked() -> Vec<String> {
    (0..SIZE)
        .map(|turn| id_of(scattered(turn) % (2 * SIZE)))
        .collect()
}

fn get_all(map: &Keyed, keys: &[String]) -> u64 {
    keys.iter().fold(0, |sum, key| {
        mixed(sum, map.get(key.as_bytes()).map_or(1, |cell| cell.time))
    })
}

fn stamps_of() -> Vec<Stamp> {
    (0..SIZE)
        .map(|turn| stamp_of(scattered(turn) % 3000))
        .collect()
}

fn compare_all(stamps: &[Stamp]) -> u64 {
    stamps
        .windows(2)
        .fold(0, |sum, pair| match pair[0].cmp(&pair[1]) {
            Ordering::Less => mixed(sum, 1),
            Ordering::Equal => mixed(sum, 2),
            Ordering::Greater => mixed(sum, 3),
        })
}

fn repeated(turns: u64, found: impl Fn() -> u64) -> u64 {
    (0..turns).fold(0, |sum, _| mixed(sum, found()))
}

fn run_joins(work: &str, turns: u64) -> u64 {
    let own = own_of(work);
    let other = other_of(work);
    repeated(turns, || match work {
        "keyed-copy" => copy_length(&own),
        "keyed-walk" => sum_of_walk(&own),
        _ => joined_length(&own, &other),
    })
}

fn run_puts(random: bool, turns: u64) -> u64 {
    let keys = keys_put(random);
    repeated(turns, || put_all(&keys))
}

fn run_gets(turns: u64) -> u64 {
    let map = stamps_held();
    let keys = keys_asked();
    repeated(turns, || get_all(&map, &keys))
}

fn run_order(turns: u64) -> u64 {
    let stamps = stamps_of();
    repeated(turns, || compare_all(&stamps))
}

/// The checksum of so many turns of a work over maps of 100,000 entries.
pub fn run(work: &str, turns: u64) -> u64 {
    match work {
        "keyed-put-rising" => run_puts(false, turns),
        "keyed-put-random" => run_puts(true, turns),
        "keyed-get" => run_gets(turns),
        "stamp-order" => run_order(turns),
        _ => run_joins(work, turns),
    }
}
