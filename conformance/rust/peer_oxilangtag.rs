//! oxilangtag's `LanguageTag::parse`, as an adapter for `run.rs`.
use crate::{Adapter, Json};
use oxilangtag::LanguageTag;
use std::collections::BTreeMap;

pub struct Oxilangtag;

impl Adapter for Oxilangtag {
    fn tag(&self, text: &str) -> Option<Json> {
        let name = text.to_ascii_lowercase();
        let tag = match LanguageTag::parse(name.as_str()) {
            Ok(tag) => tag,
            Err(_) => return Some(Json::Null),
        };
        let mut parts = BTreeMap::new();
        let mut put = |name: &str, value: Option<Json>| {
            if let Some(value) = value.filter(|it| *it != Json::List(Vec::new())) {
                parts.insert(name.to_string(), value);
            }
        };
        // (a private use tag and an irregular one are their own language there)
        let language = tag.primary_language();
        if language == name && language.contains('-') && !name.starts_with("x-") {
            put("grandfathered", Some(Json::text(language)));
            return Some(Json::Members(parts));
        }
        if !name.starts_with("x-") {
            put("language", Some(Json::text(language)));
        }
        put("extlangs", Some(Json::texts(&tag.extended_language_subtags().collect::<Vec<_>>())));
        put("script", tag.script().map(Json::text));
        put("region", tag.region().map(Json::text));
        put("variants", Some(Json::texts(&tag.variant_subtags().collect::<Vec<_>>())));
        let extensions = tag.extension_subtags().map(|(singleton, rest)| {
            let singleton = singleton.to_string();
            Json::texts(&[vec![singleton.as_str()], rest.split('-').collect()].concat())
        });
        put("extensions", Some(Json::List(extensions.collect())));
        put("private", Some(Json::texts(&tag.private_use_subtags().collect::<Vec<_>>())));
        Some(Json::Members(parts))
    }
}
