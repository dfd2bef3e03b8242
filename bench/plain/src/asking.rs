//! Filtering and lookup by a list.

use crate::checksum::{mixed, mixed_place};
use crate::held::Held;
use crate::lang_core::Lang;
use crate::nego_core::{choose, filter, lookup, Found, PriorityList, Scheme};

/// The checksum after the places and weights of a filter.
pub fn sum_of_filter(sum: u64, list: &PriorityList, scheme: Scheme, langs: &[Lang]) -> u64 {
    let picks = filter(list, scheme, langs);
    picks.iter().fold(sum, |sum, pick| {
        mixed(mixed_place(sum, pick.place), u64::from(pick.weight))
    })
}

/// The checksum after a lookup without default.
pub fn sum_of_lookup(sum: u64, list: &PriorityList, langs: &[Lang]) -> u64 {
    match lookup(list, langs) {
        Found::Matched(place) => mixed_place(mixed(sum, 1), place),
        Found::Nothing => mixed(sum, 3),
    }
}

/// The checksum after a choice without default.
pub fn sum_of_choice(sum: u64, list: &PriorityList, held: &Held) -> u64 {
    match choose(list, |text| held.holds(text).then_some(text.len())) {
        Some(len) => mixed_place(mixed(sum, 1), len),
        None => mixed(sum, 3),
    }
}
