//! The rules of the RFCs in plain Rust, as an adapter for `run.rs`.
use crate::{Adapter, Json};
use std::collections::BTreeMap;

const IRREGULAR: &str =
    " en-gb-oed i-ami i-bnn i-default i-enochian i-hak i-klingon i-lux i-mingo \
    i-navajo i-pwn i-tao i-tay i-tsu sgn-be-fr sgn-be-nl sgn-ch-de ";

/// An adapter that answers all.
pub struct Plain;

type Items = Vec<(String, i64)>;

fn letters(it: &str, least: usize, most: usize) -> bool {
    (least..=most).contains(&it.len()) && it.bytes().all(|it| it.is_ascii_alphabetic())
}

fn alphanums(it: &str, least: usize, most: usize) -> bool {
    (least..=most).contains(&it.len()) && it.bytes().all(|it| it.is_ascii_alphanumeric())
}

fn starts_with_digit(it: &str) -> bool {
    it.as_bytes().first().map_or(false, u8::is_ascii_digit)
}

fn is_region(it: &str) -> bool {
    letters(it, 2, 2) || it.len() == 3 && it.bytes().all(|it| it.is_ascii_digit())
}

fn is_variant(it: &str) -> bool {
    alphanums(it, 5, 8) || alphanums(it, 4, 4) && starts_with_digit(it)
}

/// Takes the subtags at the front that have a form, at most some of them.
fn taken<'a>(left: &mut &[&'a str], most: usize, form: impl Fn(&str) -> bool) -> Vec<&'a str> {
    let count = left.iter().take(most).take_while(|it| form(it)).count();
    let (found, rest) = left.split_at(count);
    *left = rest;
    found.to_vec()
}

fn parts(name: &str) -> Option<BTreeMap<String, Json>> {
    let subtags: Vec<&str> = name.split('-').collect();
    let mut left = &subtags[..];
    let mut parts = BTreeMap::new();
    let mut put = |name: &str, value: Json| {
        if value != Json::List(Vec::new()) {
            parts.insert(name.to_string(), value);
        }
    };
    if subtags[0] != "x" {
        let language = taken(&mut left, 1, |it| letters(it, 2, 8)).first().copied()?;
        put("language", Json::text(language));
        let most = if language.len() < 4 { 3 } else { 0 };
        put("extlangs", Json::texts(&taken(&mut left, most, |it| letters(it, 3, 3))));
        for it in taken(&mut left, 1, |it| letters(it, 4, 4)) {
            put("script", Json::text(it));
        }
        for it in taken(&mut left, 1, is_region) {
            put("region", Json::text(it));
        }
        put("variants", Json::texts(&taken(&mut left, usize::MAX, is_variant)));
        let mut extensions = Vec::new();
        while let [one] = taken(&mut left, 1, |it| it != "x" && alphanums(it, 1, 1))[..] {
            let more = taken(&mut left, usize::MAX, |it| alphanums(it, 2, 8));
            more.first()?;
            extensions.push(Json::texts(&[vec![one], more].concat()));
        }
        put("extensions", Json::List(extensions));
    }
    if !taken(&mut left, 1, |it| it == "x").is_empty() {
        let private = taken(&mut left, usize::MAX, |it| alphanums(it, 1, 8));
        private.first()?;
        put("private", Json::texts(&private));
    }
    left.is_empty().then_some(parts)
}

fn is_basic(text: &str) -> bool {
    text == "*"
        || text.split('-').enumerate().all(|(at, it)| match at {
            0 => letters(it, 1, 8),
            _ => alphanums(it, 1, 8),
        })
}

fn is_extended(text: &str) -> bool {
    text.split('-')
        .enumerate()
        .all(|(at, it)| it == "*" || if at == 0 { letters(it, 1, 8) } else { alphanums(it, 1, 8) })
}

/// A weight in thousandths.
fn thousandths(text: &str) -> Option<i64> {
    let value = text.strip_prefix("q=").or(text.strip_prefix("Q="))?;
    let (whole, digits) = value.split_once('.').unwrap_or((value, ""));
    if !(digits.is_empty() || alphanums(digits, 1, 3)) {
        return None;
    }
    match whole {
        "1" if digits.bytes().all(|it| it == b'0') => Some(1000),
        "0" if digits.bytes().all(|it| it.is_ascii_digit()) => format!("{digits:0<3}").parse().ok(),
        _ => None,
    }
}

fn is_blank(it: char) -> bool {
    it == ' ' || it == '\t'
}

fn element(text: &str) -> Option<(String, i64)> {
    let (range, weight) = match text.split_once(';') {
        None => (text, 1000),
        Some((range, weight)) => {
            (range.trim_end_matches(is_blank), thousandths(weight.trim_start_matches(is_blank))?)
        }
    };
    is_basic(range).then(|| (range.to_ascii_lowercase(), weight))
}

/// The items of a field, or the place where it is malformed.
fn items(text: &str) -> Result<Items, usize> {
    let (mut items, mut place) = (Vec::new(), 0);
    for piece in text.split(',') {
        let from = piece.len() - piece.trim_start_matches(is_blank).len();
        let trimmed = piece.trim_matches(is_blank);
        if !trimmed.is_empty() {
            items.push(element(trimmed).ok_or(place + from)?);
        }
        place += piece.len() + 1;
    }
    Ok(items)
}

fn basic_match(range: &str, tag: &str) -> bool {
    let rest = tag.strip_prefix(range);
    range == "*" || rest.map_or(false, |it| it.is_empty() || it.starts_with('-'))
}

/// RFC 4647 section 3.3.2, by its steps.
fn extended_match(range: &str, tag: &str) -> bool {
    let (range, tag) = (range.to_ascii_lowercase(), tag.to_ascii_lowercase());
    let (mut wanted, mut given) = (range.split('-'), tag.split('-'));
    let (first, head) = (wanted.next(), given.next());
    if first != Some("*") && first != head {
        return false;
    }
    for one in wanted.filter(|it| *it != "*") {
        loop {
            match given.next() {
                Some(it) if it == one => break,
                Some(it) if it.len() > 1 => {}
                _ => return false,
            }
        }
    }
    true
}

/// The longest range that matches, and the first of these.
fn deciding<'a>(items: &'a Items, tag: &str) -> Option<&'a (String, i64)> {
    let tag = tag.to_ascii_lowercase();
    let length = |it: &str| if it == "*" { 0 } else { it.split('-').count() };
    let matching = items.iter().filter(|it| basic_match(&it.0, &tag));
    matching.reduce(|best, it| if length(&it.0) > length(&best.0) { it } else { best })
}

fn is_refused(items: &Items, tag: &str) -> bool {
    deciding(items, tag).map_or(false, |it| it.1 == 0)
}

fn truncations(range: &str) -> Vec<&str> {
    let (mut found, mut left) = (Vec::new(), Some(range));
    while let Some(text) = left {
        found.push(text);
        left = text.rsplit_once('-').map(|it| it.0);
        while let Some(it) = left {
            if it.rsplit('-').next().map_or(false, |it| it.len() > 1) {
                break;
            }
            left = it.rsplit_once('-').map(|it| it.0);
        }
    }
    found
}

fn looked_up(items: Items, tags: &[&str], default: Option<&str>) -> Json {
    let named: Items = items.iter().filter(|it| it.0 != "*").cloned().collect();
    let mut order: Vec<_> = named.iter().filter(|it| it.1 > 0).collect();
    order.sort_by_key(|it| -it.1);
    for text in order.iter().flat_map(|it| truncations(&it.0)) {
        match tags.iter().find(|it| it.eq_ignore_ascii_case(text)) {
            Some(tag) if !is_refused(&named, text) => return Json::text(tag),
            _ => {}
        }
    }
    let is_held = |it: &&str| tags.iter().any(|tag| tag.eq_ignore_ascii_case(it));
    default.filter(is_held).filter(|it| !is_refused(&items, it)).map_or(Json::Null, Json::text)
}

impl Adapter for Plain {
    fn tag(&self, text: &str) -> Option<Json> {
        let name = text.to_ascii_lowercase();
        if IRREGULAR.contains(&format!(" {name} ")) && !name.contains(' ') {
            let members = BTreeMap::from([("grandfathered".to_string(), Json::text(&name))]);
            return Some(Json::Members(members));
        }
        Some(parts(&name).map_or(Json::Null, Json::Members))
    }

    fn basic_range(&self, text: &str) -> Option<bool> {
        Some(is_basic(text))
    }

    fn extended_range(&self, text: &str) -> Option<bool> {
        Some(is_extended(text))
    }

    fn field(&self, text: &str) -> Option<Json> {
        let listed = |it: &(String, i64)| Json::List(vec![Json::text(&it.0), Json::Number(it.1)]);
        Some(match items(text) {
            Ok(items) => Json::List(items.iter().map(listed).collect()),
            Err(place) => Json::malformed(Some(place)),
        })
    }

    fn basic_filtering<'a>(&self, field: &str, tags: &[&'a str]) -> Option<Vec<&'a str>> {
        let items = items(field).ok()?;
        let is_wanted = |it: &&&str| deciding(&items, it).map_or(false, |it| it.1 > 0);
        Some(tags.iter().filter(is_wanted).copied().collect())
    }

    fn extended_filtering<'a>(&self, ranges: &[&str], tags: &[&'a str]) -> Option<Vec<&'a str>> {
        let is_wanted = |tag: &&&str| ranges.iter().any(|it| extended_match(it, tag));
        Some(tags.iter().filter(is_wanted).copied().collect())
    }

    fn lookup(&self, field: &str, tags: &[&str], default: Option<&str>) -> Option<Json> {
        Some(looked_up(items(field).ok()?, tags, default))
    }

    fn extended_lookup(&self, of: &[&str], tags: &[&str], default: Option<&str>) -> Option<Json> {
        let as_basic = |it: &&str| {
            let subtags: Vec<_> = it.split('-').filter(|it| *it != "*").collect();
            let text = if it.starts_with('*') { "*".to_string() } else { subtags.join("-") };
            (text.to_ascii_lowercase(), 1000)
        };
        Some(looked_up(of.iter().map(as_basic).collect(), tags, default))
    }
}
