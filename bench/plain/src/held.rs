//! Languages in a hash table, as a holder of labels may keep them.

use crate::cell_core::Names;
use crate::lang_core::Lang;

/// The texts of the languages that are held.
pub struct Held {
    names: Names,
}

impl Held {
    pub fn of_langs(langs: &[Lang]) -> Held {
        let mut names = Names::default();
        for lang in langs {
            names.add(lang.as_bytes());
        }
        Held { names }
    }

    pub fn holds(&self, lang: &[u8]) -> bool {
        self.names.find(lang).is_some()
    }
}
