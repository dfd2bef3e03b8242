//! The works of `bench/proved` in plain Rust with std alone, as fast as it may be: `bench/run`
//! compares the two.
//!
//! `plain load WORK` writes the load of a work; `plain WORK TURNS` reads it from standard input and
//! prints a checksum of what so many turns found. A file here does what the file of this name does
//! in `bench/proved`, and `lang_core` to `cata_core` stand for the crates of these names.

mod asking;
mod cata_core;
mod catalogues;
mod cell_core;
mod checksum;
mod held;
mod keyed;
mod lang_core;
mod load;
mod makers;
mod nego_core;
mod parsing;
mod playing;
mod words;
mod works;

use std::io::{self, Read, Write};
use std::process::ExitCode;

fn run(work: &str, turns: u64) -> io::Result<()> {
    let mut load = String::new();
    io::stdin().read_to_string(&mut load)?;
    writeln!(io::stdout(), "{}", works::run(work, &load, turns))
}

fn main() -> ExitCode {
    let words: Vec<String> = std::env::args().skip(1).collect();
    let words: Vec<&str> = words.iter().map(String::as_str).collect();
    let done = match (
        words.as_slice(),
        words.get(1).and_then(|turns| turns.parse().ok()),
    ) {
        (["load", work], _) => match load::load(work) {
            Some(load) => io::stdout().write_all(load.as_bytes()),
            None => return ExitCode::from(2),
        },
        ([work, _], Some(turns)) => run(work, turns),
        _ => return ExitCode::from(2),
    };
    match done {
        Ok(()) => ExitCode::SUCCESS,
        Err(_) => ExitCode::from(4),
    }
}
