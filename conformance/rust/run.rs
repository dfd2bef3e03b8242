//! Asks a library the vectors, and prints of each file how many answers agree, how many differ, and
//! how many vectors it has no call for; then each answer that differs.
//!
//! usage: run VECTORS    asks the adapter of `plain.rs`; another library takes its place by an
//!                       `impl Adapter`
//!
//! `rustc --edition 2021 -O run.rs` builds it. It needs nothing else.
use std::collections::{BTreeMap, BTreeSet};
use std::path::PathBuf;
use std::{env, fs, process};

#[cfg(oxilangtag)]
mod peer_oxilangtag;
mod plain;

/// A value of JSON, as vectors and answers have it.
#[derive(Clone, Debug, PartialEq, Eq, PartialOrd, Ord)]
pub enum Json {
    Null,
    Bool(bool),
    Number(i64),
    Text(String),
    List(Vec<Json>),
    Members(BTreeMap<String, Json>),
}

impl Json {
    pub fn text(text: &str) -> Json {
        Json::Text(text.to_string())
    }

    pub fn texts<T: AsRef<str>>(texts: &[T]) -> Json {
        Json::List(texts.iter().map(|it| Json::text(it.as_ref())).collect())
    }

    /// A field that is malformed at the place of an element, in bytes from 0; or it is not known.
    pub fn malformed(place: Option<usize>) -> Json {
        let place = place.map_or(Json::Null, |it| Json::Number(it as i64));
        Json::Members(BTreeMap::from([("malformed".to_string(), place)]))
    }

    fn get(&self, name: &str) -> Option<&Json> {
        match self {
            Json::Members(it) => it.get(name),
            _ => None,
        }
    }

    fn as_text(&self) -> &str {
        match self {
            Json::Text(it) => it,
            _ => "",
        }
    }

    fn as_list(&self) -> &[Json] {
        match self {
            Json::List(it) => it,
            _ => &[],
        }
    }

    /// Without case; a set of tags has no order.
    fn lowered(&self) -> Json {
        match self {
            Json::Text(it) => Json::Text(it.to_lowercase()),
            Json::List(items) => {
                let made: Vec<Json> = items.iter().map(Json::lowered).collect();
                let is_set = items.iter().all(|it| matches!(it, Json::Text(_)));
                let set = || made.iter().cloned().collect::<BTreeSet<_>>().into_iter().collect();
                Json::List(if is_set { set() } else { made })
            }
            Json::Members(it) => {
                Json::Members(it.iter().map(|(name, it)| (name.clone(), it.lowered())).collect())
            }
            it => it.clone(),
        }
    }
}

/// What a library answers, as vectors have it; `None` is not asked.
pub trait Adapter {
    /// The parts of a tag, or `Null`. `Bool(true)` is for parts and items that it does not tell.
    fn tag(&self, _text: &str) -> Option<Json> {
        None
    }
    fn basic_range(&self, _text: &str) -> Option<bool> {
        None
    }
    fn extended_range(&self, _text: &str) -> Option<bool> {
        None
    }
    /// The items of a field, each a range and a weight in thousandths, or `Json::malformed`.
    fn field(&self, _text: &str) -> Option<Json> {
        None
    }
    /// The tags that match. A list of basic ranges comes as a field with falling weights.
    fn basic_filtering<'a>(&self, _field: &str, _tags: &[&'a str]) -> Option<Vec<&'a str>> {
        None
    }
    fn extended_filtering<'a>(&self, _ranges: &[&str], _tags: &[&'a str]) -> Option<Vec<&'a str>> {
        None
    }
    /// The tag that is found, or `Null`.
    fn lookup(&self, _field: &str, _tags: &[&str], _default: Option<&str>) -> Option<Json> {
        None
    }
    fn extended_lookup(&self, _of: &[&str], _in: &[&str], _default: Option<&str>) -> Option<Json> {
        None
    }
}

struct Reader<'a> {
    bytes: &'a [u8],
    at: usize,
}

impl Reader<'_> {
    fn next(&mut self) -> u8 {
        while self.bytes[self.at].is_ascii_whitespace() {
            self.at += 1;
        }
        self.bytes[self.at]
    }

    fn takes(&mut self, wanted: u8) -> bool {
        let is_so = self.next() == wanted;
        self.at += usize::from(is_so);
        is_so
    }

    fn value(&mut self) -> Json {
        match self.next() {
            b'"' => Json::Text(self.string()),
            b'[' => {
                self.at += 1;
                let mut items = Vec::new();
                while !self.takes(b']') {
                    items.push(self.value());
                    self.takes(b',');
                }
                Json::List(items)
            }
            b'{' => {
                self.at += 1;
                let mut members = BTreeMap::new();
                while !self.takes(b'}') {
                    self.next();
                    let name = self.string();
                    self.takes(b':');
                    members.insert(name, self.value());
                    self.takes(b',');
                }
                Json::Members(members)
            }
            _ => {
                let from = self.at;
                while !b",]} \n".contains(&self.bytes[self.at]) {
                    self.at += 1;
                }
                match std::str::from_utf8(&self.bytes[from..self.at]).unwrap() {
                    "null" => Json::Null,
                    "true" => Json::Bool(true),
                    "false" => Json::Bool(false),
                    number => Json::Number(number.parse().expect("a whole number")),
                }
            }
        }
    }

    /// (the files are ASCII, so each character is a byte or an escape)
    fn string(&mut self) -> String {
        let mut units: Vec<u16> = Vec::new();
        self.at += 1;
        while self.bytes[self.at] != b'"' {
            let mut one = u16::from(self.bytes[self.at]);
            if one == u16::from(b'\\') {
                self.at += 1;
                one = match self.bytes[self.at] {
                    b'u' => {
                        let digits = &self.bytes[self.at + 1..self.at + 5];
                        self.at += 4;
                        u16::from_str_radix(std::str::from_utf8(digits).unwrap(), 16).unwrap()
                    }
                    b'b' => 8,
                    b'f' => 12,
                    b'n' => 10,
                    b'r' => 13,
                    b't' => 9,
                    it => u16::from(it),
                };
            }
            units.push(one);
            self.at += 1;
        }
        self.at += 1;
        String::from_utf16(&units).expect("a text of Unicode")
    }
}

/// The list of a vector as a field: a list of ranges is one of falling weights.
fn field_of(vector: &Json) -> String {
    if let Some(it) = vector.get("field") {
        return it.as_text().to_string();
    }
    let ranges = texts(vector, "ranges").into_iter().enumerate().map(|(at, it)| match at {
        0 => it.to_string(),
        _ => format!("{it};q={:.3}", (1000 - at) as f64 / 1000.0),
    });
    ranges.collect::<Vec<_>>().join(", ")
}

fn texts<'a>(vector: &'a Json, name: &str) -> Vec<&'a str> {
    vector.get(name).map_or(&[][..], Json::as_list).iter().map(Json::as_text).collect()
}

fn asked(it: &dyn Adapter, subject: &str, vector: &Json) -> Option<Json> {
    let text = |name| vector.get(name).map_or("", Json::as_text);
    let (ranges, tags) = (texts(vector, "ranges"), texts(vector, "tags"));
    let default = vector.get("default").map(Json::as_text);
    match subject {
        "tags" => it.tag(text("tag")),
        "basic-ranges" => it.basic_range(text("range")).map(Json::Bool),
        "extended-ranges" => it.extended_range(text("range")).map(Json::Bool),
        "fields" => it.field(text("field")),
        "basic-filtering" => {
            it.basic_filtering(&field_of(vector), &tags).map(|it| Json::texts(&it))
        }
        "extended-filtering" => it.extended_filtering(&ranges, &tags).map(|it| Json::texts(&it)),
        "lookup" => it.lookup(&field_of(vector), &tags, default),
        "extended-lookup" => it.extended_lookup(&ranges, &tags, default),
        _ => panic!("{subject}"),
    }
}

fn agrees(given: &Json, answer: &Json) -> bool {
    let (wanted, refused) = (answer.get("malformed"), answer.get("refused"));
    match (given, given.get("malformed")) {
        (_, Some(place)) => {
            wanted.map_or(refused.is_some(), |it| *place == Json::Null || place == it)
        }
        (Json::Bool(true), _) if matches!(answer, Json::Members(_) | Json::List(_)) => {
            wanted.or(refused).is_none()
        }
        _ => given.lowered() == answer.lowered(),
    }
}

fn adapter() -> Box<dyn Adapter> {
    #[cfg(oxilangtag)]
    return Box::new(peer_oxilangtag::Oxilangtag);
    #[cfg(not(oxilangtag))]
    Box::new(plain::Plain)
}

fn main() {
    let folder = env::args().nth(1).expect("the folder of the vectors");
    let found = fs::read_dir(&folder).expect("a folder").map(|it| it.unwrap().path());
    let is_json = |it: &PathBuf| it.extension().map_or(false, |it| it == "json");
    let mut paths: Vec<_> = found.filter(is_json).collect();
    paths.sort();
    let (adapter, mut differing) = (adapter(), Vec::new());
    for path in paths {
        let bytes = fs::read(&path).expect("a file");
        let document = Reader { bytes: &bytes, at: 0 }.value();
        let subject = document.get("subject").expect("a subject").as_text();
        let (mut agreed, mut differed, mut left) = (0, 0, 0);
        for vector in document.get("vectors").expect("vectors").as_list() {
            let one = [vector.get("answer").cloned().unwrap_or(Json::Null)];
            let wanted = vector.get("admits").map_or(&one[..], Json::as_list);
            match asked(adapter.as_ref(), subject, vector) {
                None => left += 1,
                Some(given) if wanted.iter().any(|it| agrees(&given, it)) => agreed += 1,
                Some(given) => {
                    differed += 1;
                    differing.push(format!("{given:?}, and not {wanted:?}: {vector:?}"));
                }
            }
        }
        let name = path.file_stem().unwrap().to_string_lossy();
        println!("{name}\t{agreed}\t{differed}\t{left}");
    }
    differing.iter().for_each(|it| println!("{it}"));
    process::exit(i32::from(!differing.is_empty()));
}
