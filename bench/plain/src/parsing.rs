//! Reading of tags and fields.

use crate::checksum::{mixed, mixed_place};
use crate::lang_core::{Lang, Tag};
use crate::nego_core::{NegoFault, PriorityList, Scheme};

/// Parses each line of the load as a tag.
pub fn parse_lines(load: &str, sum: u64) -> u64 {
    load.lines()
        .fold(sum, |sum, line| match Tag::parse(line.as_bytes()) {
            Ok(tag) => mixed_place(mixed(sum, 0), tag.as_bytes().len()),
            Err(fault) => mixed(mixed(sum, 1), u64::from(fault.number())),
        })
}

/// The languages of the lines that are one.
pub fn langs_of(text: &str) -> Vec<Lang> {
    text.lines()
        .filter_map(|line| Lang::parse(line.as_bytes()).ok())
        .collect()
}

pub fn list_of(scheme: Scheme, field: &str) -> Result<PriorityList, NegoFault> {
    PriorityList::parse(field.as_bytes(), scheme)
}

/// The checksum after a list, or after its refusal.
pub fn sum_of_list(sum: u64, list: &Result<PriorityList, NegoFault>) -> u64 {
    match list {
        Ok(list) => {
            let sum = mixed_place(sum, list.items.len());
            list.items
                .iter()
                .fold(sum, |sum, item| mixed(sum, u64::from(item.weight)))
        }
        Err(NegoFault::FieldTooLong) => mixed(sum, 8),
        Err(NegoFault::FieldMalformed { offset }) => mixed_place(mixed(sum, 9), *offset),
    }
}
