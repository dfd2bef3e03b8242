//! Random documents: the text that is handed in, with blanks, escapes and members in any order, and
//! the text that a writer has to give for the same value.

const LANGUAGES: [&str; 8] = [
    "@none",
    "de",
    "de-ch-1996",
    "en-gb-oed",
    "fr",
    "i-klingon",
    "sr-latn",
    "zh-hant",
];
const NAMES: [&str; 4] = ["a", "paris", "0000000007", "z-9-z-9-z-9-z-9-"];
const TEXTS: [&str; 7] = [
    "",
    "Hello",
    "Grüße",
    "日本語",
    "a\"b\\c/d",
    "line\nnext\ttab\u{1}",
    "\u{1F600} \u{7f}",
];

pub struct Numbers(u64);

impl Numbers {
    pub fn new(seed: u64) -> Numbers {
        Numbers(
            seed.wrapping_mul(2_862_933_555_777_941_757)
                .wrapping_add(3_037_000_493),
        )
    }

    fn next(&mut self, below: u64) -> u64 {
        self.0 = self
            .0
            .wrapping_mul(6_364_136_223_846_793_005)
            .wrapping_add(1_442_695_040_888_963_407);
        (self.0 >> 33) % below
    }

    fn pick<'a>(&mut self, words: &[&'a str]) -> &'a str {
        words[self.next(words.len() as u64) as usize]
    }
}

/// A text in both forms.
pub struct Both {
    pub given: String,
    pub written: String,
}

fn blank(numbers: &mut Numbers) -> &'static str {
    numbers.pick(&["", "", "", " ", "\n", "\t ", "\r\n"])
}

/// A string with the shortest escapes.
fn shortest(text: &str) -> String {
    let escaped = |c: char| match c {
        '"' => "\\\"".to_string(),
        '\\' => "\\\\".to_string(),
        '\n' => "\\n".to_string(),
        '\t' => "\\t".to_string(),
        c if c < ' ' => format!("\\u{:04x}", c as u32),
        c => c.to_string(),
    };
    format!("\"{}\"", text.chars().map(escaped).collect::<String>())
}

/// A string as it is written, and as others may write it.
fn string(numbers: &mut Numbers, text: &str) -> Both {
    let written = shortest(text);
    let mut given = String::from("\"");
    for c in text.chars() {
        if numbers.next(4) == 0 || c < ' ' || c == '"' || c == '\\' {
            let mut units = [0; 2];
            for unit in c.encode_utf16(&mut units) {
                given.push_str(&format!("\\u{unit:04X}"));
            }
        } else {
            given.push(c);
        }
    }
    given.push('"');
    Both { given, written }
}

fn upper(numbers: &mut Numbers, lang: &str) -> String {
    if lang.starts_with('@') {
        return lang.to_string();
    }
    lang.chars()
        .map(|c| {
            if numbers.next(3) == 0 {
                c.to_ascii_uppercase()
            } else {
                c
            }
        })
        .collect()
}

fn array(numbers: &mut Numbers, items: Vec<Both>) -> Both {
    let given: Vec<String> = items
        .iter()
        .map(|item| format!("{}{}{}", blank(numbers), item.given, blank(numbers)))
        .collect();
    let written: Vec<&str> = items.iter().map(|item| item.written.as_str()).collect();
    Both {
        given: format!("[{}]", given.join(",")),
        written: format!("[{}]", written.join(",")),
    }
}

/// The members stand in the order that is written; the given text has them in any order.
fn object(numbers: &mut Numbers, members: Vec<(Both, Both)>) -> Both {
    let written: Vec<String> = members
        .iter()
        .map(|(k, v)| format!("{}:{}", k.written, v.written))
        .collect();
    let mut given: Vec<String> = Vec::new();
    for (key, value) in &members {
        let text = format!(
            "{}{}{}:{}{}",
            blank(numbers),
            key.given,
            blank(numbers),
            blank(numbers),
            value.given
        );
        let place = numbers.next(given.len() as u64 + 1) as usize;
        given.insert(place, text);
    }
    Both {
        given: format!("{{{}}}", given.join(",")),
        written: format!("{{{}}}", written.join(",")),
    }
}

fn plain(text: String) -> Both {
    Both {
        given: text.clone(),
        written: text,
    }
}

/// A site's name: in version 1 its number stands for its name of ten digits.
fn name(numbers: &mut Numbers, version: u64) -> Both {
    if version == 1 {
        let number = numbers.next(1 << 31) * 2;
        Both {
            given: number.to_string(),
            written: format!("\"{number:010}\""),
        }
    } else {
        let name = numbers.pick(&NAMES);
        string(numbers, name)
    }
}

fn texts(numbers: &mut Numbers) -> Vec<&'static str> {
    (0..1 + numbers.next(3))
        .map(|_| numbers.pick(&TEXTS))
        .collect()
}

fn label(numbers: &mut Numbers) -> Both {
    if numbers.next(4) == 0 {
        return plain("null".to_string());
    }
    let texts = texts(numbers)
        .into_iter()
        .map(|text| string(numbers, text))
        .collect();
    array(numbers, texts)
}

fn keys(numbers: &mut Numbers) -> Vec<(String, &'static str)> {
    let mut keys = Vec::new();
    for message in 0..numbers.next(5) {
        for lang in LANGUAGES {
            if numbers.next(3) == 0 {
                keys.push((format!("m{message}é"), lang));
            }
        }
    }
    keys
}

fn rows(numbers: &mut Numbers, version: u64, with_label: bool) -> Both {
    let mut rows = Vec::new();
    for (id, lang) in keys(numbers) {
        let given = upper(numbers, lang);
        let given = string(numbers, &given).given;
        let written = string(numbers, lang).written;
        let time = if numbers.next(5) == 0 {
            u64::MAX
        } else {
            numbers.next(1 << 40)
        };
        let mut row = vec![
            string(numbers, &id),
            Both { given, written },
            plain(time.to_string()),
            name(numbers, version),
            plain(numbers.next(1 << 31).to_string()),
        ];
        if with_label {
            row.push(label(numbers));
        }
        rows.push(array(numbers, row));
    }
    array(numbers, rows)
}

fn langmaps(numbers: &mut Numbers) -> Both {
    let mut members: Vec<(Both, Both)> = Vec::new();
    let mut before = String::new();
    let mut languages: Vec<(Both, Both)> = Vec::new();
    let mut all = keys(numbers);
    all.push((String::new(), "@none"));
    for (id, lang) in all {
        if id != before && !languages.is_empty() {
            let key = string(numbers, &before);
            let value = object(numbers, std::mem::take(&mut languages));
            members.push((key, value));
        }
        before = id;
        let given = upper(numbers, lang);
        let key = Both {
            given: string(numbers, &given).given,
            written: string(numbers, lang).written,
        };
        let mut texts: Vec<Both> = texts(numbers)
            .into_iter()
            .map(|text| string(numbers, text))
            .collect();
        let value = if texts.len() == 1 && numbers.next(2) == 0 {
            texts.swap_remove(0)
        } else {
            let written = if texts.len() == 1 {
                texts[0].written.clone()
            } else {
                array(numbers, copies(&texts)).written
            };
            texts.insert(0, plain("null".to_string()));
            Both {
                given: array(numbers, texts).given,
                written,
            }
        };
        languages.push((key, value));
    }
    object(numbers, members)
}

fn copies(items: &[Both]) -> Vec<Both> {
    items
        .iter()
        .map(|item| Both {
            given: item.given.clone(),
            written: item.written.clone(),
        })
        .collect()
}

/// A document of this kind.
pub fn document(kind: &str, seed: u64) -> Both {
    let numbers = &mut Numbers::new(seed);
    let mut value = if kind == "langmaps" {
        langmaps(numbers)
    } else {
        let version = 1 + numbers.next(2);
        let member = |name: &str| plain(format!("\"{name}\""));
        let kind_member = (member("kind"), plain(format!("\"{kind}\"")));
        let version_member = (
            member("version"),
            Both {
                given: version.to_string(),
                written: "2".to_string(),
            },
        );
        let named = name(numbers, version);
        let rows = rows(numbers, version, kind != "summary");
        let members = match kind {
            "summary" => vec![
                kind_member,
                (member("owner"), named),
                (member("stamps"), rows),
                version_member,
            ],
            "delta" => vec![
                (member("cells"), rows),
                kind_member,
                (member("to"), named),
                version_member,
            ],
            _ => vec![
                (member("cells"), rows),
                kind_member,
                (member("site"), named),
                version_member,
            ],
        };
        object(numbers, members)
    };
    value.given = format!("{}{}{}", blank(numbers), value.given, blank(numbers));
    value.written.push('\n');
    value
}
