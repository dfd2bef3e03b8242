//! Makes catalogues of known size.

use crate::cata_core::{Catalogue, Edit, Label};
use crate::cell_core::{SiteName, Stamp};
use crate::lang_core::Lang;

const TAGS: &str = "@none de en es fr ja pt-br ru sr-latn zh-hant";

const MANY: &str = "de en es fr ja it nl pl ru zh";

const REGIONS: &str = " -at -ch -us -x-a";

/// A number that looks random.
pub fn scattered(turn: u64) -> u64 {
    turn.wrapping_mul(6_364_136_223_846_793_005)
        .wrapping_add(1_442_695_040_888_963_407)
        >> 20
}

pub fn name(text: &str) -> SiteName {
    let mut name = [0; 16];
    name[..text.len()].copy_from_slice(text.as_bytes());
    name
}

pub fn id_of(number: u64) -> String {
    format!("message/{number:020}")
}

/// So many ids, so far apart.
pub fn ids_of(count: u64, step: u64) -> Vec<String> {
    (0..count).map(|turn| id_of(turn * step)).collect()
}

pub fn langs_of_tags() -> Vec<Lang> {
    TAGS.split(' ')
        .filter_map(|tag| Lang::parse(tag.as_bytes()).ok())
        .collect()
}

/// 50 languages.
pub fn many_langs() -> Vec<Lang> {
    let texts = MANY.split(' ').flat_map(|tag| {
        REGIONS
            .split(' ')
            .map(move |region| format!("{tag}{region}"))
    });
    texts
        .filter_map(|text| Lang::parse(text.as_bytes()).ok())
        .collect()
}

/// A language that is private, in the order of its number.
pub fn numbered_lang(number: u64) -> Option<Lang> {
    Lang::parse(format!("x-{number:06}").as_bytes()).ok()
}

pub fn label() -> Label {
    vec!["label".to_string()]
}

pub fn stamp_of(time: u64, count: u64) -> Stamp {
    Stamp {
        time,
        site: name("paris"),
        count: count as u32,
    }
}

pub fn edit_of(id: &str, lang: &Lang, stamp: Stamp) -> Edit {
    Edit {
        id: id.to_string(),
        lang: lang.clone(),
        stamp,
        label: Some(label()),
    }
}

/// So many messages from a number on in each of the languages; every hundredth message is later by
/// so much.
pub fn catalogue_of(from: u64, messages: u64, langs: &[Lang], later: u64) -> Catalogue {
    let mut catalogue = Catalogue::default();
    for number in from..from + messages {
        let late = if number % 100 == 0 { later } else { 0 };
        let stamp = stamp_of(number % 1000 + late, number % 7);
        let id = id_of(number);
        for lang in langs {
            if catalogue.apply(&edit_of(&id, lang, stamp)).is_err() {
                return Catalogue::default();
            }
        }
    }
    catalogue.settle();
    catalogue
}
