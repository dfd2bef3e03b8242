//! The commands of `lexicat` on large documents, in plain Rust with std alone: each reads the same
//! standard input and writes the same bytes. The text is kept once, and what was read points into
//! it; a question that needs no row kept reads the site once and keeps none.
//!
//! `documents status`, `put --now N --id ID --lang LANG TEXT`, `import --now N`, `sync`,
//! `update --now N`, `lookup --id ID FIELD`, `filter --id ID FIELD`, `bundle FIELD`, `export`,
//! `missing --lang LANG`, `outdated --lang LANG --source LANG`, `summary`, `delta` and `take` do
//! what the commands of these names do, with their options in this order.
//!
//! What they read is made by `load SIZE FIRST STEP SITE` (a site with rows of some 76 bytes),
//! `summary-of` and `delta-for` (a summary of the same that lacks a hundredth, and a delta of a
//! hundredth for it), `short` (a site with rows of 31 bytes, one for each message), `single SIZE
//! SITE` (rows of 28 bytes), `maps SIZE` and `single-maps SIZE` (language maps for the first and
//! the last), `old-maps SIZE` and `new-maps SIZE` (those of a load, and the same after edits),
//! `passed-over SIZE` (language maps with a member of so many bytes that says nothing), and
//! `field SIZE` (a field of so many bytes). `given KIND SEED` is a random document of a kind, and
//! `written KIND SEED` what a writer has to give for it.

mod as_written;
mod checks;
mod edits;
mod exchange;
mod json;
#[path = "../../plain/src/lang_core.rs"]
#[allow(dead_code)]
mod lang_core;
mod langmaps;
mod loads;
mod messages;
#[path = "../../plain/src/nego_core.rs"]
#[allow(dead_code)]
mod nego_core;
mod questions;
mod random;
mod site;
#[path = "../../plain/src/words.rs"]
#[allow(dead_code)]
mod words;

use json::Read as Reading;
use lang_core::Lang;
use langmaps::LangMaps;
use messages::Written;
use nego_core::{PriorityList, Scheme};
use site::Site;
use std::io::{self, Read, Write};
use std::process::ExitCode;

fn refused<T>(read: Reading<T>) -> io::Result<T> {
    read.map_err(|refused| io::Error::other(format!("refused at {}", refused.0)))
}

/// The first line, and what is below it.
fn lines(input: &[u8]) -> (&[u8], &[u8]) {
    let (pieces, _) = input.as_chunks::<64>();
    let has_feed = |piece: &[u8; 64]| piece.iter().fold(false, |has, byte| has | (*byte == b'\n'));
    let start = 64 * pieces.iter().take_while(|piece| !has_feed(piece)).count();
    let feed = input[start..].iter().position(|byte| *byte == b'\n');
    let at = feed.map_or(input.len(), |feed| start + feed);
    (&input[..at], input.get(at + 1..).unwrap_or(&[]))
}

fn number<N: std::str::FromStr>(word: &str) -> io::Result<N> {
    word.parse().map_err(|_| io::Error::other("number"))
}

fn lang_of(word: &str) -> io::Result<Lang> {
    Lang::parse(word.as_bytes()).map_err(|_| io::Error::other("language"))
}

fn list_of(field: &str) -> io::Result<PriorityList> {
    let list = PriorityList::parse(field.as_bytes(), Scheme::Basic);
    list.map_err(|_| io::Error::other("field"))
}

/// The status of an answer that is something, or nothing.
fn status_of(is_any: bool) -> ExitCode {
    ExitCode::from(u8::from(!is_any))
}

fn line(read: Reading<Option<String>>, none: &str, out: &mut impl Write) -> io::Result<ExitCode> {
    let answer = refused(read)?;
    out.write_all(answer.as_deref().unwrap_or(none).as_bytes())?;
    Ok(status_of(answer.is_some()))
}

fn maps(read: Reading<Written>, out: &mut impl Write) -> io::Result<ExitCode> {
    let (text, is_any) = refused(read)?;
    out.write_all(&text)?;
    Ok(status_of(is_any))
}

/// The answer of a question that reads one site once.
fn question(words: &[&str], input: &[u8], out: &mut impl Write) -> io::Result<ExitCode> {
    match words {
        ["lookup", "--id", id, field] => {
            let answer = questions::lookup(input, id, &list_of(field)?);
            line(answer, "nothing\n", out)
        }
        ["filter", "--id", id, field] => {
            let answer = questions::filter(input, id, &list_of(field)?);
            line(answer, "filter 0\n", out)
        }
        ["bundle", field] => maps(messages::bundle(input, &list_of(field)?), out),
        ["missing", "--lang", lang] => maps(messages::missing(input, &lang_of(lang)?), out),
        ["outdated", "--lang", lang, "--source", source] => {
            let (lang, source) = (lang_of(lang)?, lang_of(source)?);
            maps(messages::outdated(input, &lang, &source), out)
        }
        _ => Err(io::Error::other("words")),
    }
}

/// What a command writes that reads several documents.
fn command(words: &[&str], input: &[u8], out: &mut impl Write) -> io::Result<()> {
    let (first, second) = lines(input);
    match words {
        ["import", "--now", now] => {
            let site = refused(Site::read(first))?;
            let maps = refused(LangMaps::read(second))?;
            edits::import(&site, number(now)?, &maps, out)
        }
        ["update", "--now", now] => {
            let (second, third) = lines(second);
            let site = refused(Site::read(first))?;
            let old = refused(LangMaps::read(second))?;
            let new = refused(LangMaps::read(third))?;
            edits::update(&site, number(now)?, &old, &new, out)
        }
        ["delta"] => {
            let site = refused(Site::read(first))?;
            let lacking = refused(exchange::lacking(&site, second))?;
            exchange::delta(&site, &lacking, out)
        }
        ["take"] => {
            let site = refused(Site::read(first))?;
            let delta = refused(Site::read_delta(second))?;
            exchange::take(&site, &delta, out)
        }
        ["sync"] => {
            let site = refused(Site::read(first))?;
            exchange::sync(&site, &refused(Site::read(second))?, out)
        }
        _ => Err(io::Error::other("words")),
    }
}

fn answer(words: &[&str], input: &[u8], out: &mut impl Write) -> io::Result<ExitCode> {
    match words {
        ["status"] => out.write_all(refused(questions::status(input))?.as_bytes())?,
        ["summary"] => refused(exchange::summary(input, out)?)?,
        // a site without labels is exported with status 0
        ["export"] => {
            maps(messages::export(input), out)?;
        }
        ["put", "--now", now, "--id", id, "--lang", lang, label] => {
            let site = refused(Site::read(input))?;
            edits::put(&site, number(now)?, (id, lang), label, out)?;
        }
        ["import" | "update" | "delta" | "take" | "sync", ..] => {
            command(words, input, out)?;
        }
        _ => return question(words, input, out),
    }
    Ok(ExitCode::SUCCESS)
}

/// A document to read, if the words ask for one.
fn made(words: &[&str]) -> io::Result<Option<String>> {
    let made = match words {
        [kind @ ("load" | "summary-of" | "delta-for" | "short"), size, first, step, name] => {
            let make = match *kind {
                "load" => loads::load,
                "summary-of" => loads::summary,
                "delta-for" => loads::delta,
                _ => loads::short,
            };
            make(number(size)?, number(first)?, number(step)?, name)
        }
        ["single", size, name] => loads::single(number(size)?, name),
        ["maps", size] => loads::maps(number(size)?),
        ["old-maps", size] => loads::old_maps(number(size)?),
        ["new-maps", size] => loads::new_maps(number(size)?),
        ["single-maps", size] => loads::single_maps(number(size)?),
        ["passed-over", size] => loads::passed_over(number(size)?),
        ["field", size] => loads::field(number(size)?),
        ["given", kind, seed] => random::document(kind, number(seed)?).given,
        ["written", kind, seed] => random::document(kind, number(seed)?).written,
        _ => return Ok(None),
    };
    Ok(Some(made))
}

/// A document to read, or what a command writes.
fn run(words: &[&str], out: &mut impl Write) -> io::Result<ExitCode> {
    if let Some(made) = made(words)? {
        out.write_all(made.as_bytes())?;
        return Ok(ExitCode::SUCCESS);
    }
    let mut input = Vec::new();
    io::stdin().read_to_end(&mut input)?;
    answer(words, &input, out)
}

fn main() -> ExitCode {
    let words: Vec<String> = std::env::args().skip(1).collect();
    let words: Vec<&str> = words.iter().map(String::as_str).collect();
    run(&words, &mut io::stdout().lock()).unwrap_or_else(|fault| {
        eprintln!("{fault}");
        ExitCode::from(3)
    })
}
