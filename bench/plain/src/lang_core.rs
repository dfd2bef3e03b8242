//! Language tags (RFC 5646 section 2.1): an automaton that is built when this is compiled takes a
//! step a byte.

use crate::words::word_at;
use std::cmp::Ordering;

pub const MAX_LEN: usize = 255;

const IRREGULAR: [&[u8]; 17] = [
    b"en-gb-oed",
    b"i-ami",
    b"i-bnn",
    b"i-default",
    b"i-enochian",
    b"i-hak",
    b"i-klingon",
    b"i-lux",
    b"i-mingo",
    b"i-navajo",
    b"i-pwn",
    b"i-tao",
    b"i-tay",
    b"i-tsu",
    b"sgn-be-fr",
    b"sgn-be-nl",
    b"sgn-ch-de",
];

#[derive(Debug, Clone, Copy, PartialEq, Eq)]
pub enum LangFault {
    TagEmpty,
    TagTooLong,
    TagSubtag { offset: usize },
    TagNotWellFormed,
}

impl LangFault {
    pub fn number(self) -> u8 {
        match self {
            LangFault::TagEmpty => 1,
            LangFault::TagTooLong => 2,
            LangFault::TagSubtag { .. } => 3,
            LangFault::TagNotWellFormed => 4,
        }
    }
}

/// What stands before a subtag. After a language three extended languages may follow, or fewer.
#[derive(Clone, Copy, PartialEq)]
#[repr(u8)]
enum Stage {
    Start,
    Language3,
    Language2,
    Language1,
    Language0,
    Script,
    Region,
    Singleton,
    Extension,
    PrivateStart,
    Private,
}

/// What is known of the bytes of a subtag so far.
#[derive(Clone, Copy, PartialEq)]
#[repr(u8)]
enum Bytes {
    Letters,
    Digits,
    FirstDigit,
    X,
    Any,
}

const LETTER: usize = 0;
const DIGIT: usize = 1;
const X: usize = 2;
const HYPHEN: usize = 3;
const OTHER: usize = 4;

const CLASSES: [u8; 256] = {
    let mut classes = [OTHER as u8; 256];
    let mut byte = 0;
    while byte < 256 {
        classes[byte] = match byte as u8 {
            b'x' | b'X' => X as u8,
            b'a'..=b'z' | b'A'..=b'Z' => LETTER as u8,
            b'0'..=b'9' => DIGIT as u8,
            b'-' => HYPHEN as u8,
            _ => OTHER as u8,
        };
        byte += 1;
    }
    classes
};

/// The stage after a subtag of so many bytes.
const fn after(stage: Stage, len: usize, bytes: Bytes) -> Option<Stage> {
    let letters = matches!(bytes, Bytes::Letters | Bytes::X);
    let is_x = matches!(bytes, Bytes::X);
    let variant = len >= 5 || len == 4 && matches!(bytes, Bytes::Digits | Bytes::FirstDigit);
    let region = len == 2 && letters || len == 3 && matches!(bytes, Bytes::Digits);
    let next = match stage {
        Stage::Start if is_x => Stage::PrivateStart,
        Stage::Start if letters && len >= 4 => Stage::Language0,
        Stage::Start if letters && len >= 2 => Stage::Language3,
        Stage::Start => return None,
        Stage::Language3 if len == 3 && letters => Stage::Language2,
        Stage::Language2 if len == 3 && letters => Stage::Language1,
        Stage::Language1 if len == 3 && letters => Stage::Language0,
        Stage::Language3 | Stage::Language2 | Stage::Language1 | Stage::Language0
            if len == 4 && letters =>
        {
            Stage::Script
        }
        Stage::PrivateStart | Stage::Private => Stage::Private,
        Stage::Singleton | Stage::Extension if len >= 2 => Stage::Extension,
        Stage::Singleton => return None,
        Stage::Region | Stage::Extension if is_x => Stage::PrivateStart,
        Stage::Region | Stage::Extension if len == 1 => Stage::Singleton,
        Stage::Region if variant => Stage::Region,
        Stage::Region | Stage::Extension => return None,
        _ if region || variant => Stage::Region,
        _ if is_x => Stage::PrivateStart,
        _ if len == 1 => Stage::Singleton,
        _ => return None,
    };
    Some(next)
}

/// What is known after one more byte; what no stage asks for is forgotten, so that there are few
/// states.
const fn with_byte(stage: Stage, len: usize, bytes: Bytes, class: usize) -> Bytes {
    let now = match (len, class) {
        (0, X) => Bytes::X,
        (0, DIGIT) => Bytes::Digits,
        (0, _) => Bytes::Letters,
        (_, DIGIT) => match bytes {
            Bytes::Digits => Bytes::Digits,
            Bytes::FirstDigit => Bytes::FirstDigit,
            _ => Bytes::Any,
        },
        _ => match bytes {
            Bytes::Letters | Bytes::X => Bytes::Letters,
            Bytes::Digits | Bytes::FirstDigit => Bytes::FirstDigit,
            Bytes::Any => Bytes::Any,
        },
    };
    match stage {
        Stage::Start => now,
        Stage::Singleton | Stage::PrivateStart | Stage::Private => Bytes::Any,
        Stage::Extension if !matches!(now, Bytes::X) => Bytes::Any,
        _ if len >= 4 => Bytes::Any,
        _ => now,
    }
}

const STATES: usize = 256;
const ROW: usize = 8;
const DEAD: u16 = 0;
const START: u16 = ROW as u16;

/// For each state and class the next state, as the place of its row; and whether a tag may end in
/// it.
struct Automaton {
    next: [u16; STATES * ROW],
    ends: [bool; STATES],
}

const fn automaton() -> Automaton {
    let mut known = [(Stage::Start, 0, Bytes::Letters); STATES];
    let mut count = 2;
    let mut made = Automaton {
        next: [DEAD; STATES * ROW],
        ends: [false; STATES],
    };
    let mut state = 1;
    while state < count {
        let (stage, len, bytes) = known[state];
        let ended = if len > 0 {
            after(stage, len, bytes)
        } else {
            None
        };
        made.ends[state] = !matches!(ended, None | Some(Stage::Singleton | Stage::PrivateStart));
        let mut class = 0;
        while class < OTHER {
            let target = match ended {
                Some(stage) if class == HYPHEN => Some((stage, 0, Bytes::Letters)),
                _ if class == HYPHEN || len == 8 => None,
                _ => Some((stage, len + 1, with_byte(stage, len, bytes, class))),
            };
            if let Some((stage, len, bytes)) = target {
                let mut found = 1;
                while found < count {
                    let one = known[found];
                    if one.0 as u8 == stage as u8 && one.1 == len && one.2 as u8 == bytes as u8 {
                        break;
                    }
                    found += 1;
                }
                if found == count {
                    known[count] = (stage, len, bytes);
                    count += 1;
                }
                made.next[state * ROW + class] = (found * ROW) as u16;
            }
            class += 1;
        }
        state += 1;
    }
    made
}

static AUTOMATON: Automaton = automaton();

fn is_langtag(bytes: &[u8]) -> bool {
    let mut state = START;
    for byte in bytes {
        let place = usize::from(state) + usize::from(CLASSES[usize::from(*byte)]);
        state = AUTOMATON.next[place % (STATES * ROW)];
    }
    AUTOMATON.ends[usize::from(state) / ROW]
}

/// What is wrong with bytes that the automaton refuses, if anything is.
#[cold]
fn fault_of(bytes: &[u8]) -> Option<LangFault> {
    if bytes.is_empty() {
        return Some(LangFault::TagEmpty);
    }
    let mut offset = 0;
    for piece in bytes.split(|byte| *byte == b'-') {
        if !(1..=8).contains(&piece.len()) || !piece.iter().all(u8::is_ascii_alphanumeric) {
            return Some(LangFault::TagSubtag { offset });
        }
        offset += piece.len() + 1;
    }
    let irregular = IRREGULAR.iter().any(|tag| tag.eq_ignore_ascii_case(bytes));
    (!irregular).then_some(LangFault::TagNotWellFormed)
}

const SHORT: usize = 22;

/// A text of at most 255 bytes. Up to 22 of them stand in place; behind them are at least eight
/// zeros.
#[derive(Clone, Debug)]
enum Text {
    Short(u8, [u8; SHORT + 8]),
    Long(Box<[u8]>),
}

impl Text {
    #[inline(always)]
    fn lowered(bytes: &[u8]) -> Text {
        if bytes.len() > SHORT {
            return Text::Long(bytes.to_ascii_lowercase().into_boxed_slice());
        }
        let mut short = [0; SHORT + 8];
        short[..bytes.len()].copy_from_slice(bytes);
        short.make_ascii_lowercase();
        Text::Short(bytes.len() as u8, short)
    }

    #[inline(always)]
    fn as_bytes(&self) -> &[u8] {
        match self {
            Text::Short(len, short) => &short[..usize::from(*len).min(SHORT)],
            Text::Long(long) => long,
        }
    }

    /// The eight bytes from a place on, zeros behind the end.
    #[inline(always)]
    fn word_at(&self, at: usize) -> u64 {
        match self {
            Text::Short(_, short) => word_at(short, at),
            Text::Long(long) => word_at(long, at),
        }
    }
}

impl PartialEq for Text {
    fn eq(&self, other: &Text) -> bool {
        self.as_bytes() == other.as_bytes()
    }
}

impl Eq for Text {}

impl PartialOrd for Text {
    fn partial_cmp(&self, other: &Text) -> Option<Ordering> {
        Some(self.cmp(other))
    }
}

impl Ord for Text {
    fn cmp(&self, other: &Text) -> Ordering {
        self.as_bytes().cmp(other.as_bytes())
    }
}

#[derive(Clone, Debug, PartialEq, Eq, PartialOrd, Ord)]
pub struct Tag(Text);

impl Tag {
    #[inline(always)]
    pub fn parse(bytes: &[u8]) -> Result<Tag, LangFault> {
        if bytes.len() > MAX_LEN {
            return Err(LangFault::TagTooLong);
        }
        if !is_langtag(bytes) {
            if let Some(fault) = fault_of(bytes) {
                return Err(fault);
            }
        }
        Ok(Tag(Text::lowered(bytes)))
    }

    pub fn as_bytes(&self) -> &[u8] {
        self.0.as_bytes()
    }
}

/// A tag, or `@none`.
#[derive(Clone, Debug, PartialEq, Eq, PartialOrd, Ord)]
pub struct Lang(Text);

impl Lang {
    pub fn parse(bytes: &[u8]) -> Result<Lang, LangFault> {
        if bytes == b"@none" {
            Ok(Lang(Text::lowered(bytes)))
        } else {
            Ok(Lang(Tag::parse(bytes)?.0))
        }
    }

    #[inline(always)]
    pub fn as_bytes(&self) -> &[u8] {
        self.0.as_bytes()
    }

    /// The eight bytes from a place on, zeros behind the end.
    #[inline(always)]
    pub fn word_at(&self, at: usize) -> u64 {
        self.0.word_at(at)
    }

    pub fn is_none(&self) -> bool {
        self.as_bytes().first() == Some(&b'@')
    }
}
