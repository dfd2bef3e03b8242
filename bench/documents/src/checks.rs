//! What ids, site names and labels may hold.

use crate::words::{first_bytes, marks_of, word_at, ONES, TOPS};

pub const MAX_TEXTS: usize = 64;
pub const MAX_TEXT_LEN: usize = 65_535;

const SPACES: u64 = ONES * 0x20;

pub fn is_message_id(text: &[u8]) -> bool {
    (1..=128).contains(&text.len()) && text[0] != b'@' && !has_control(text)
}

/// Whether a byte is below 32 or is 127.
fn has_control(text: &[u8]) -> bool {
    let mut at = 0;
    while at < text.len() {
        let word = word_at(text, at) | SPACES & !first_bytes(u64::MAX, text.len() - at);
        if (word.wrapping_sub(SPACES) & !word & TOPS) | marks_of(word, 127) != 0 {
            return true;
        }
        at += 8;
    }
    false
}

pub fn is_site_name(text: &[u8]) -> bool {
    let allowed = |byte: &u8| byte.is_ascii_lowercase() || byte.is_ascii_digit() || *byte == b'-';
    (1..=16).contains(&text.len()) && text.iter().all(allowed)
}
