//! A run of 100,000 edits over 1,000 messages in ten languages at ten sites.

use crate::cata_core::{play, Step};
use crate::catalogues::sum_of_walk;
use crate::checksum::mixed;
use crate::lang_core::Lang;
use crate::makers::{edit_of, ids_of, langs_of_tags, scattered, stamp_of};

const ROUNDS: u64 = 100;

const EDITS: u64 = 1_000;

/// The places below 10 that are so far on.
fn place(number: u64) -> usize {
    (number % 10) as usize
}

/// An edit that looks random; no two have one stamp.
fn edit_step(turn: u64, ids: &[String], langs: &[Lang]) -> Step {
    let number = scattered(turn);
    let id = &ids[(number % 1_000) as usize];
    let lang = &langs[place(number / 16_384)];
    let edit = edit_of(id, lang, stamp_of(number / 1_024 % 1_000_000, turn));
    Step::Edit {
        site: place(number / 131_072),
        edit,
    }
}

/// A merge, and a summary told, posted against and delivered.
fn exchange(round: u64) -> [Step; 4] {
    let told = round as usize;
    [
        Step::Merge {
            into: place(round),
            source: place(round + 3),
        },
        Step::Tell {
            site: place(round + 1),
        },
        Step::Post {
            site: place(round + 5),
            told,
        },
        Step::Deliver { post: told },
    ]
}

fn steps_of() -> Vec<Step> {
    let ids = ids_of(1_000, 1);
    let langs = langs_of_tags();
    let mut steps = Vec::new();
    for round in 0..ROUNDS {
        steps
            .extend((round * EDITS..(round + 1) * EDITS).map(|turn| edit_step(turn, &ids, &langs)));
        steps.extend(exchange(round));
    }
    steps.push(Step::AskCells { site: 0 });
    steps
}

fn played(steps: &[Step]) -> u64 {
    match play(10, steps) {
        Ok(answers) => answers.first().map_or(2, sum_of_walk),
        Err(_) => 1,
    }
}

/// The checksum of so many runs.
pub fn run(turns: u64) -> u64 {
    let steps = steps_of();
    (0..turns).fold(0, |sum, _| mixed(sum, played(&steps)))
}
