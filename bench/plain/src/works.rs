//! The works by name. Each turn does one thing to the load.

use crate::asking::{sum_of_choice, sum_of_filter, sum_of_lookup};
use crate::held::Held;
use crate::lang_core::Lang;
use crate::nego_core::{NegoFault, PriorityList, Scheme};
use crate::parsing::{langs_of, list_of, parse_lines, sum_of_list};
use crate::{catalogues, keyed, playing};

/// A list that was read from a field, with what it is asked over.
struct Asked<'a> {
    scheme: Scheme,
    field: &'a str,
    list: Result<PriorityList, NegoFault>,
    langs: &'a [Lang],
    held: &'a Held,
}

/// Reads the field and asks the list for all that it is asked for.
fn read_and_ask(asked: &Asked, sum: u64) -> u64 {
    let list = list_of(asked.scheme, asked.field);
    let sum = sum_of_list(sum, &list);
    match &list {
        Ok(list) => sum_of_lookup(
            sum_of_filter(sum, list, asked.scheme, asked.langs),
            list,
            asked.langs,
        ),
        Err(_) => sum,
    }
}

/// One turn of a work over a field and languages.
fn turn(work: &str, asked: &Asked, sum: u64) -> u64 {
    match (work, &asked.list) {
        ("field", _) => sum_of_list(sum, &list_of(asked.scheme, asked.field)),
        ("filter-basic" | "filter-extended", Ok(list)) => {
            sum_of_filter(sum, list, asked.scheme, asked.langs)
        }
        ("lookup", Ok(list)) => sum_of_lookup(sum, list, asked.langs),
        ("choose", Ok(list)) => sum_of_choice(sum, list, asked.held),
        _ => read_and_ask(asked, sum),
    }
}

fn scheme_of(work: &str) -> Scheme {
    if work.ends_with("extended") {
        Scheme::Extended
    } else {
        Scheme::Basic
    }
}

/// The turns of a work whose load is a field on a line of its own, then languages.
fn ask(work: &str, load: &str, turns: u64) -> u64 {
    let (field, rest) = load.split_once('\n').unwrap_or((load, ""));
    let scheme = scheme_of(work);
    let langs = langs_of(rest);
    let held = Held::of_langs(&langs);
    let asked = Asked {
        scheme,
        field,
        list: list_of(scheme, field),
        langs: &langs,
        held: &held,
    };
    (0..turns).fold(0, |sum, _| turn(work, &asked, sum))
}

/// The checksum of so many turns of a work.
pub fn run(work: &str, load: &str, turns: u64) -> u64 {
    match work {
        "tags" | "long-tag" => (0..turns).fold(0, |sum, _| parse_lines(load, sum)),
        "play" => playing::run(turns),
        _ if work.starts_with("catalogue-") => catalogues::run(work, load, turns),
        _ if work.starts_with("keyed-") || work.starts_with("stamp-") => keyed::run(work, turns),
        _ => ask(work, load, turns),
    }
}
