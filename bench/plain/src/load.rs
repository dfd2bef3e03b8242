//! The loads of the works: the same bytes for both programs, made by arithmetic alone.

/// A sequence of numbers that look random (Knuth's MMIX constants).
struct Numbers(u64);

impl Numbers {
    fn next(&mut self, below: usize) -> usize {
        self.0 = self
            .0
            .wrapping_mul(6_364_136_223_846_793_005)
            .wrapping_add(1_442_695_040_888_963_407);
        ((self.0 >> 33) as usize) % below
    }

    fn pick<'a>(&mut self, words: &[&'a str]) -> &'a str {
        words[self.next(words.len())]
    }
}

const LANGUAGES: [&str; 24] = [
    "en", "de", "fr", "zh", "ja", "pt", "es", "sr", "az", "hy", "sl", "nan", "yue", "cmn", "ar",
    "he", "hi", "ru", "ko", "it", "nl", "pl", "sv", "uk",
];
const SCRIPTS: [&str; 6] = ["Latn", "Cyrl", "Hant", "Hans", "Arab", "Deva"];
const REGIONS: [&str; 12] = [
    "US", "GB", "DE", "CH", "AT", "CN", "TW", "BR", "419", "IN", "FR", "JP",
];
const VARIANTS: [&str; 5] = ["1996", "1901", "rozaj", "nedis", "valencia"];

fn tag(numbers: &mut Numbers) -> String {
    let mut tag = numbers.pick(&LANGUAGES).to_string();
    for (words, one_in) in [(&SCRIPTS[..], 4), (&REGIONS[..], 2), (&VARIANTS[..], 8)] {
        if numbers.next(one_in) == 0 {
            tag.push('-');
            tag.push_str(numbers.pick(words));
        }
    }
    match numbers.next(16) {
        0 => tag.push_str("-u-ca-gregory"),
        1 => tag.push_str("-x-private1"),
        _ => {}
    }
    tag
}

fn tags(count: usize) -> String {
    let mut numbers = Numbers(1);
    (0..count).map(|_| tag(&mut numbers) + "\n").collect()
}

/// 200 tags, some of them irregular, some no tags at all.
fn mixed_tags() -> String {
    let mut text = tags(180);
    for other in [
        "i-klingon",
        "en-GB-oed",
        "sgn-BE-FR",
        "zh-min-nan",
        "x-whatever",
        "art-lojban",
        "i-default",
        "en-x-a-b",
        "de-a-bbb-c-dd-x-y",
        "zh-cmn-Hans-CN",
        "en--us",
        "en_US",
        "a-DE",
        "abcd-xyz",
        "en-toolongsub",
        "de-419-DE",
        "",
        "en-",
        "-en",
        "x",
    ] {
        text.push_str(other);
        text.push('\n');
    }
    text
}

fn long_tag() -> String {
    format!("x{}-a\n", "-aaaaaaaa".repeat(28))
}

const FIELD: &str = "de-CH, de;q=0.9, en-GB;q=0.8, en;q=0.7, fr-CA;q=0.6, fr;q=0.5, zh-Hant;q=0.4, pt-BR;q=0.3, es;q=0.2, *;q=0.1";
/// Most of its ranges are held by no site, so that lookup has to try several of them.
const SELDOM: &str = "af-ZA, eu-Latn-ES;q=0.9, ga-IE;q=0.8, cy-GB;q=0.8, is;q=0.7, mt-MT;q=0.6, lb-LU;q=0.5, *;q=0.4, gd-GB;q=0.3, pt-Latn-BR-x-private1;q=0.2";
const RANGES: &str =
    "de-*-CH, zh-*-CN, en-GB, *-Latn, fr-*-FR, sr-Cyrl-*, pt, es-419, ja, *-x-private1";

const MAX_FIELD_LEN: usize = 65_535;

/// So many letters, others for each number.
fn letters(number: usize, count: u32) -> impl Iterator<Item = char> {
    (0..count).map(move |place| char::from(b'a' + (number / 26_usize.pow(place) % 26) as u8))
}

/// Different ranges of equal weight, as many as so many bytes hold.
fn ranges(len: usize, first: &str, last: &str) -> String {
    let mut field = String::new();
    for place in 0.. {
        let mut name = String::from(first);
        name.extend(letters(place, 3));
        name.push_str(last);
        if field.len() + name.len() + 1 > len {
            break;
        }
        if !field.is_empty() {
            field.push(',');
        }
        field.push_str(&name);
    }
    field
}

fn many_ranges(first: &str) -> String {
    ranges(MAX_FIELD_LEN, first, "")
}

/// Many ranges, then a last element.
fn ranges_before(last: &str) -> String {
    format!("{},{last}", ranges(MAX_FIELD_LEN - 1 - last.len(), "", ""))
}

fn asked(field: &str) -> String {
    format!("{field}\n{}", tags(200))
}

/// So many languages that end alike.
fn alike(count: usize) -> String {
    (0..count)
        .flat_map(|place| letters(place, 5).chain("-latn-zz\n".chars()))
        .collect()
}

/// The load of a work.
pub fn load(work: &str) -> Option<String> {
    Some(match work {
        "tags" => mixed_tags(),
        "long-tag" => long_tag(),
        "field" => format!("{FIELD}\n"),
        "filter-basic" => asked(FIELD),
        "lookup" | "choose" => asked(SELDOM),
        "filter-extended" => asked(RANGES),
        "hostile-many" => asked(&many_ranges("")),
        "hostile-language" => asked(&many_ranges("en-")),
        "hostile-extended" => asked(&many_ranges("*-")),
        "hostile-two" => format!("{}\nde-at\nen-gb\n", many_ranges("")),
        "hostile-alike-extended" => {
            format!("{}\n{}", ranges(MAX_FIELD_LEN, "*-", "-zz"), alike(10_000))
        }
        "refused-at-end" => format!("{}\n", ranges_before("en;q=2")),
        "refused-weight" => format!("{}\n", ranges_before("en;q=0.0001")),
        "refused-subtag" => format!("{}\n", ranges_before("en-abcdefghi")),
        "refused-long-range" => format!("en{}\n", "-abcdefgh".repeat(7_281)),
        "refused-too-long" => format!("{}\n", ",".repeat(MAX_FIELD_LEN + 1)),
        "catalogue-long-lookup" => ranges_before("x-799999"),
        "hostile-endless" => asked(&"a".repeat(65_535)),
        "hostile-commas" => asked(&",".repeat(65_535)),
        "play" => String::new(),
        _ if ["keyed-", "stamp-", "catalogue-"]
            .iter()
            .any(|front| work.starts_with(front)) =>
        {
            String::new()
        }
        _ => return None,
    })
}
