//! Reads JSON (RFC 8259) in place: a text is a piece of the input, or of a second buffer where it
//! had escapes.

use crate::as_written::string_len;
use crate::words::is_same;

const DEPTH: usize = 127;

/// So many digits are below 2^64.
const SURELY_FITS: usize = 19;

/// Why a text is refused: the place where it went wrong.
#[derive(Debug, PartialEq, Eq)]
pub struct Refused(pub usize);

pub type Read<T> = Result<T, Refused>;

/// A piece of the input, or of the second buffer.
#[derive(Clone, Copy, Default, PartialEq, Eq)]
pub struct Span {
    at: u32,
    len: u32,
}

const SECOND: u32 = 1 << 31;

impl Span {
    pub const NONE: Span = Span { at: 0, len: 0 };

    pub fn is_empty(&self) -> bool {
        self.len == 0
    }

    /// A piece of the input.
    #[inline(always)]
    pub fn of(at: usize, len: usize) -> Span {
        Span {
            at: at as u32,
            len: len as u32,
        }
    }

    /// The first bytes of a piece.
    pub fn first(&self, len: usize) -> Span {
        Span {
            at: self.at,
            len: len as u32,
        }
    }

    /// Takes in another piece, if it is the next but one byte.
    #[inline(always)]
    pub fn grows(&mut self, next: Span) -> bool {
        let is_next = self.at + self.len + 1 == next.at;
        if is_next {
            self.len += 1 + next.len;
        }
        is_next
    }
}

/// An input that is read, with what of it had to be written anew.
pub struct Input<'a> {
    bytes: &'a [u8],
    at: usize,
    second: Vec<u8>,
    /// Whether all since `begin` is as it would be written.
    as_written: bool,
}

impl<'a> Input<'a> {
    pub fn new(bytes: &'a [u8]) -> Read<Input<'a>> {
        std::str::from_utf8(bytes).map_err(|fault| Refused(fault.valid_up_to()))?;
        Ok(Input {
            bytes,
            at: 0,
            second: Vec::new(),
            as_written: true,
        })
    }

    #[inline(always)]
    pub fn get(&self, span: Span) -> &[u8] {
        let buffer = if span.at & SECOND == 0 {
            self.bytes
        } else {
            &self.second
        };
        &buffer[(span.at & !SECOND) as usize..][..span.len as usize]
    }

    /// The place that is read next.
    #[inline(always)]
    pub fn place(&self) -> usize {
        self.at
    }

    /// What is not read yet.
    #[inline(always)]
    pub fn rest(&self) -> &'a [u8] {
        self.bytes.get(self.at..).unwrap_or(&[])
    }

    /// A text of the input, with the quote that ends it.
    pub fn quoted(&self, span: Span) -> Option<&'a [u8]> {
        let start = span.at as usize;
        self.bytes.get(start..=start + span.len as usize)
    }

    #[inline(always)]
    pub fn is_same(&self, one: Span, other: Span) -> bool {
        is_same(self.get(one), self.get(other))
    }

    /// A text that is written to the second buffer.
    pub fn written(&mut self, write: impl FnOnce(&mut Vec<u8>)) -> Span {
        let at = self.second.len();
        write(&mut self.second);
        Span {
            at: at as u32 | SECOND,
            len: (self.second.len() - at) as u32,
        }
    }

    /// Writes a text as a string: one that was read without escapes needs none.
    #[inline(always)]
    pub fn write_string(&self, out: &mut Vec<u8>, span: Span) {
        if span.at & SECOND == 0 {
            out.push(b'"');
            out.extend_from_slice(self.get(span));
            out.push(b'"');
        } else {
            write_string(out, self.get(span));
        }
    }

    pub fn refused<T>(&self) -> Read<T> {
        Err(Refused(self.at))
    }

    #[inline(always)]
    fn next(&self) -> u8 {
        self.bytes.get(self.at).copied().unwrap_or(0)
    }

    /// The next byte that is no blank.
    #[inline(always)]
    pub fn peek(&mut self) -> u8 {
        loop {
            match self.next() {
                b' ' | b'\t' | b'\n' | b'\r' => {
                    self.at += 1;
                    self.as_written = false;
                }
                byte => return byte,
            }
        }
    }

    #[inline(always)]
    pub fn takes(&mut self, byte: u8) -> bool {
        let is_next = self.next() == byte || self.peek() == byte;
        self.at += usize::from(is_next);
        is_next
    }

    #[inline(always)]
    pub fn expect(&mut self, byte: u8) -> Read<()> {
        if self.takes(byte) {
            Ok(())
        } else {
            self.refused()
        }
    }

    pub fn ends(&mut self) -> Read<()> {
        self.peek();
        if self.at == self.bytes.len() {
            Ok(())
        } else {
            self.refused()
        }
    }

    /// Goes back to a place, to read what is there again.
    pub fn go_back(&mut self, place: usize) {
        self.at = place;
    }

    /// The place of the next value.
    #[inline(always)]
    pub fn begin(&mut self) -> usize {
        self.peek();
        self.as_written = true;
        self.at
    }

    /// What was read since a place, if it is as it would be written.
    #[inline(always)]
    pub fn since(&self, place: usize) -> Option<Span> {
        self.as_written.then_some(Span {
            at: place as u32,
            len: (self.at - place) as u32,
        })
    }

    /// Marks what was read since `begin` as written otherwise.
    pub fn differs(&mut self) {
        self.as_written = false;
    }

    /// A string without its quotes and escapes.
    #[inline(always)]
    pub fn string(&mut self) -> Read<Span> {
        self.expect(b'"')?;
        let start = self.at;
        self.at += string_len(self.rest());
        match self.next() {
            b'"' => {
                self.at += 1;
                Ok(Span {
                    at: start as u32,
                    len: (self.at - 1 - start) as u32,
                })
            }
            b'\\' => self.escaped(start),
            _ => self.refused(),
        }
    }

    /// The rest of a string from its first escape on.
    #[cold]
    fn escaped(&mut self, start: usize) -> Read<Span> {
        self.as_written = false;
        let begun = self.second.len();
        let mut copied = start;
        loop {
            match self.next() {
                b'"' => {
                    self.second.extend_from_slice(&self.bytes[copied..self.at]);
                    self.at += 1;
                    return Ok(Span {
                        at: begun as u32 | SECOND,
                        len: (self.second.len() - begun) as u32,
                    });
                }
                b'\\' => {
                    self.second.extend_from_slice(&self.bytes[copied..self.at]);
                    self.at += 1;
                    let c = self.escape()?;
                    self.second
                        .extend_from_slice(c.encode_utf8(&mut [0; 4]).as_bytes());
                    copied = self.at;
                }
                0..=0x1f => return self.refused(),
                _ => self.at += 1,
            }
        }
    }

    fn escape(&mut self) -> Read<char> {
        let letter = self.next();
        self.at += 1;
        let c = match letter {
            b'"' | b'\\' | b'/' => char::from(letter),
            b'b' => '\u{8}',
            b'f' => '\u{c}',
            b'n' => '\n',
            b'r' => '\r',
            b't' => '\t',
            b'u' => return self.unicode(),
            _ => return self.refused(),
        };
        Ok(c)
    }

    fn unicode(&mut self) -> Read<char> {
        let first = self.hex()?;
        let mut units = vec![first];
        if (0xD800..0xDC00).contains(&first) {
            if self.next() != b'\\' || self.bytes.get(self.at + 1) != Some(&b'u') {
                return self.refused();
            }
            self.at += 2;
            units.push(self.hex()?);
        }
        match char::decode_utf16(units).next() {
            Some(Ok(c)) => Ok(c),
            _ => self.refused(),
        }
    }

    fn hex(&mut self) -> Read<u16> {
        let mut unit = 0;
        for _ in 0..4 {
            match char::from(self.next()).to_digit(16) {
                Some(digit) => unit = unit << 4 | digit as u16,
                None => return self.refused(),
            }
            self.at += 1;
        }
        Ok(unit)
    }

    /// A number that is a natural number below 2^64.
    #[inline(always)]
    pub fn number(&mut self) -> Read<u64> {
        let first = self.peek();
        let start = self.at;
        let mut number: u64 = 0;
        while let digit @ b'0'..=b'9' = self.next() {
            let digit = u64::from(digit - b'0');
            if self.at - start < SURELY_FITS {
                number = number * 10 + digit;
            } else {
                let tens = number.checked_mul(10);
                let Some(next) = tens.and_then(|tens| tens.checked_add(digit)) else {
                    return self.refused();
                };
                number = next;
            }
            self.at += 1;
        }
        let digits = self.at - start;
        if digits == 0 || first == b'0' && digits > 1 || matches!(self.next(), b'.' | b'e' | b'E') {
            return self.refused();
        }
        Ok(number)
    }

    pub fn null(&mut self) -> Read<()> {
        self.word(b"null")
    }

    fn word(&mut self, word: &[u8]) -> Read<()> {
        if !self.bytes[self.at..].starts_with(word) {
            return self.refused();
        }
        self.at += word.len();
        Ok(())
    }

    /// Passes over any value.
    pub fn pass(&mut self) -> Read<()> {
        self.pass_within(DEPTH)
    }

    fn pass_within(&mut self, depth: usize) -> Read<()> {
        match self.peek() {
            b'"' => self.string().map(|_| ()),
            b'[' if depth > 0 => self.items(|input| input.pass_within(depth - 1)),
            b'{' if depth > 0 => self.members(|input, _| input.pass_within(depth - 1)),
            b't' => self.word(b"true"),
            b'f' => self.word(b"false"),
            b'n' => self.word(b"null"),
            _ => self.pass_number(),
        }
    }

    fn digits(&mut self) -> Read<()> {
        if !self.next().is_ascii_digit() {
            return self.refused();
        }
        while self.next().is_ascii_digit() {
            self.at += 1;
        }
        Ok(())
    }

    fn pass_number(&mut self) -> Read<()> {
        self.at += usize::from(self.next() == b'-');
        if self.next() == b'0' {
            self.at += 1;
        } else {
            self.digits()?;
        }
        if self.next() == b'.' {
            self.at += 1;
            self.digits()?;
        }
        if matches!(self.next(), b'e' | b'E') {
            self.at += 1;
            self.at += usize::from(matches!(self.next(), b'+' | b'-'));
            self.digits()?;
        }
        Ok(())
    }

    #[inline(always)]
    pub fn items(&mut self, mut item: impl FnMut(&mut Self) -> Read<()>) -> Read<()> {
        self.expect(b'[')?;
        if self.takes(b']') {
            return Ok(());
        }
        loop {
            item(self)?;
            if self.takes(b']') {
                return Ok(());
            }
            self.expect(b',')?;
        }
    }

    #[inline(always)]
    pub fn members(&mut self, mut member: impl FnMut(&mut Self, Span) -> Read<()>) -> Read<()> {
        self.expect(b'{')?;
        if self.takes(b'}') {
            return Ok(());
        }
        loop {
            let name = self.string()?;
            self.expect(b':')?;
            member(self, name)?;
            if self.takes(b'}') {
                return Ok(());
            }
            self.expect(b',')?;
        }
    }
}

/// Writes a string with the shortest escapes.
pub fn write_string(out: &mut Vec<u8>, text: &[u8]) {
    out.push(b'"');
    let mut rest = text;
    loop {
        let (plain, left) = rest.split_at(string_len(rest));
        out.extend_from_slice(plain);
        let Some((byte, left)) = left.split_first() else {
            break;
        };
        write_escape(out, *byte);
        rest = left;
    }
    out.push(b'"');
}

/// The escape of a quote, of a backslash or of a control character.
#[cold]
fn write_escape(out: &mut Vec<u8>, byte: u8) {
    let letter = match byte {
        8 => b'b',
        12 => b'f',
        b'\n' => b'n',
        b'\r' => b'r',
        b'\t' => b't',
        0..=0x1f => {
            out.extend_from_slice(format!("\\u{byte:04x}").as_bytes());
            return;
        }
        _ => byte,
    };
    out.extend_from_slice(&[b'\\', letter]);
}

pub fn write_number(out: &mut Vec<u8>, mut number: u64) {
    let mut digits = [0; 20];
    let mut at = digits.len();
    loop {
        at -= 1;
        digits[at] = b'0' + (number % 10) as u8;
        number /= 10;
        if number == 0 {
            break;
        }
    }
    out.extend_from_slice(&digits[at..]);
}
