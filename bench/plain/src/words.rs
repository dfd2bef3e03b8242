//! Eight bytes at a time: the first is lowest, and zeros follow the end.

pub const ONES: u64 = 0x0101_0101_0101_0101;
pub const TOPS: u64 = 0x8080_8080_8080_8080;

/// The eight bytes from a place on.
#[inline(always)]
pub fn word_at(bytes: &[u8], at: usize) -> u64 {
    if let Some(Ok(eight)) = bytes.get(at..at + 8).map(<[u8; 8]>::try_from) {
        return u64::from_le_bytes(eight);
    }
    last_word(bytes.get(at..).unwrap_or(&[]))
}

/// Fewer than eight bytes.
#[inline(always)]
fn last_word(bytes: &[u8]) -> u64 {
    match bytes {
        [] => 0,
        [a] => u64::from(*a),
        [a, b] => u64::from(*a) | u64::from(*b) << 8,
        [a, b, c] => u64::from(*a) | u64::from(*b) << 8 | u64::from(*c) << 16,
        [a, b, c, d, rest @ ..] => {
            let four = u64::from(u32::from_le_bytes([*a, *b, *c, *d]));
            let rest = match rest {
                [] => 0,
                [e] => u64::from(*e),
                [e, f] => u64::from(*e) | u64::from(*f) << 8,
                [e, f, g, ..] => u64::from(*e) | u64::from(*f) << 8 | u64::from(*g) << 16,
            };
            four | rest << 32
        }
    }
}

/// The first bytes of a word, at most eight of them.
#[inline(always)]
pub fn first_bytes(word: u64, count: usize) -> u64 {
    if count >= 8 {
        word
    } else {
        word & ((1 << (8 * count)) - 1)
    }
}

/// The bits of the bytes before the first that is marked at its top bit.
#[inline(always)]
pub fn below_mark(marks: u64) -> u64 {
    let lowest = marks & marks.wrapping_neg();
    (lowest >> 7).wrapping_sub(1)
}

/// How many bytes are before the first that is marked at its top bit: eight where none is.
#[inline(always)]
pub fn before_mark(marks: u64) -> usize {
    marks.trailing_zeros() as usize / 8
}

/// The top bit of each byte that is the given one; above the first that is, others may be marked.
#[inline(always)]
pub fn marks_of(word: u64, byte: u8) -> u64 {
    let other = word ^ (ONES * u64::from(byte));
    other.wrapping_sub(ONES) & !other & TOPS
}

/// The top bits of the letters and of the digits.
#[inline(always)]
pub fn letters_and_digits(word: u64) -> (u64, u64) {
    let within = |low: u64, from: u8, to: u8| {
        let from_on = low + ONES * u64::from(0x80 - from);
        let above = low + ONES * u64::from(0x7f - to);
        from_on & !above & !word & TOPS
    };
    (
        within((word | ONES * 0x20) & !TOPS, b'a', b'z'),
        within(word & !TOPS, b'0', b'9'),
    )
}

/// A number that two values are folded to. A service would draw the odd factors when it starts.
#[inline(always)]
pub fn folded(first: u64, second: u64) -> u64 {
    let product =
        u128::from(first ^ 0x9E37_79B9_7F4A_7C15) * u128::from(second ^ 0xA076_1D64_78BD_642F);
    (product as u64) ^ ((product >> 64) as u64)
}

/// The words of a text, and its last eight bytes, or all of fewer.
#[inline(always)]
fn words_of(text: &[u8]) -> (&[[u8; 8]], u64) {
    let (words, rest) = text.as_chunks();
    let last = match text.last_chunk() {
        Some(last) => u64::from_le_bytes(*last),
        None => last_word(rest),
    };
    (words, last)
}

/// A number that a text is folded to.
#[inline(always)]
pub fn hash_of(text: &[u8]) -> u64 {
    let (words, last) = words_of(text);
    let fold = |hash, word: &[u8; 8]| folded(hash, u64::from_le_bytes(*word));
    folded(words.iter().fold(text.len() as u64, fold), last)
}

/// Whether two texts are equal.
#[inline(always)]
pub fn is_same(one: &[u8], other: &[u8]) -> bool {
    if one.len() != other.len() {
        return false;
    }
    let ((words, last), (other_words, other_last)) = (words_of(one), words_of(other));
    let mut differing = last ^ other_last;
    for (word, other_word) in words.iter().zip(other_words) {
        differing |= u64::from_le_bytes(*word) ^ u64::from_le_bytes(*other_word);
    }
    differing == 0
}
