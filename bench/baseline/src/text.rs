//! What texts of every format share: kinds of fault, places in a text, and which fault is told.
//!
//! The first faulty line is told, and of its kinds of fault the first in the order of `Kind`.
//! The text is read with a line feed at its end, so that each scan stops by itself.

use std::fmt;

/// What there can be too many of, in the order in which several are told.
#[derive(Clone, Copy, Debug, PartialEq, Eq, PartialOrd, Ord)]
pub enum What {
    Points,
    Edges,
    Universals,
    Regions,
    Constraints,
    Variables,
    Structs,
}

/// What is wrong with a line, in the order in which several are told.
#[derive(Clone, Copy, Debug, PartialEq, Eq, PartialOrd, Ord)]
pub enum Kind {
    NotUtf8,
    Header,
    Syntax,
    Unknown,
    Duplicate,
    Range,
    Shape,
    TypeSize,
    Limit(What),
    End,
}

impl fmt::Display for What {
    fn fmt(&self, f: &mut fmt::Formatter) -> fmt::Result {
        f.write_str(match self {
            What::Points => "points",
            What::Edges => "edges",
            What::Universals => "universals",
            What::Regions => "regions",
            What::Constraints => "constraints",
            What::Variables => "variables",
            What::Structs => "structs",
        })
    }
}

impl fmt::Display for Kind {
    fn fmt(&self, f: &mut fmt::Formatter) -> fmt::Result {
        match self {
            Kind::NotUtf8 => f.write_str("not utf-8"),
            Kind::Header => f.write_str("header"),
            Kind::Syntax => f.write_str("syntax"),
            Kind::Unknown => f.write_str("unknown"),
            Kind::Duplicate => f.write_str("duplicate"),
            Kind::Range => f.write_str("range"),
            Kind::Shape => f.write_str("shape"),
            Kind::TypeSize => f.write_str("type size"),
            Kind::Limit(what) => write!(f, "limit {what}"),
            Kind::End => f.write_str("end"),
        }
    }
}

/// A refusal of a text.
pub struct Fault {
    pub line: u64,
    pub kind: Kind,
}

pub const POINTS: u32 = 1_048_576;
pub const EDGES: usize = 4_194_304;
pub const REGIONS: usize = 65_536;
pub const UNIVERSALS: u32 = 256;
pub const CONSTRAINTS: usize = 1_048_576;

fn is_blank(byte: u8) -> bool {
    matches!(byte, b' ' | b'\t' | b'\r')
}

/// For each byte whether it is a letter, a digit or `_`.
const WORD_BYTES: [bool; 256] = {
    let mut table = [false; 256];
    let mut byte = 0;
    while byte < 256 {
        table[byte] = (byte as u8).is_ascii_alphanumeric() || byte as u8 == b'_';
        byte += 1;
    }
    table
};

fn is_word_byte(byte: u8) -> bool {
    WORD_BYTES[byte as usize]
}

/// A place in a text that ends with a line feed; no scan goes past a line feed.
pub struct Cursor<'t> {
    text: &'t [u8],
    at: usize,
}

impl<'t> Cursor<'t> {
    pub fn peek(&self) -> u8 {
        self.text[self.at]
    }

    pub fn skip_blanks(&mut self) {
        while is_blank(self.peek()) {
            self.at += 1;
        }
    }

    /// The longest word that stands here, perhaps none.
    pub fn word(&mut self) -> &'t [u8] {
        let start = self.at;
        while is_word_byte(self.peek()) {
            self.at += 1;
        }
        &self.text[start..self.at]
    }

    /// The next token, where it is a region name, without its quote.
    pub fn region(&mut self) -> Result<&'t [u8], Kind> {
        self.skip_blanks();
        if self.peek() != b'\'' {
            return Err(Kind::Syntax);
        }
        self.at += 1;
        let name = self.word();
        if name.is_empty() { Err(Kind::Syntax) } else { Ok(name) }
    }

    /// The next token, where it is a number: 1 to 9 digits without a leading zero, or `0`.
    pub fn number(&mut self) -> Result<u32, Kind> {
        self.skip_blanks();
        self.digits()
    }

    /// The number that stands here, and behind which the word ends.
    fn digits(&mut self) -> Result<u32, Kind> {
        let start = self.at;
        let mut number = 0u32;
        while self.peek().is_ascii_digit() {
            number = number.wrapping_mul(10).wrapping_add(u32::from(self.peek() - b'0'));
            self.at += 1;
        }
        let length = self.at - start;
        let leading_zero = length > 1 && self.text[start] == b'0';
        if length == 0 || length > 9 || leading_zero || is_word_byte(self.peek()) {
            return Err(Kind::Syntax);
        }
        Ok(number)
    }

    /// The next token, where it is a word of this prefix and a number.
    pub fn numbered(&mut self, prefix: &[u8]) -> Result<u32, Kind> {
        self.skip_blanks();
        if !self.text[self.at..].starts_with(prefix) {
            return Err(Kind::Syntax);
        }
        self.at += prefix.len();
        self.digits()
    }

    /// Whether the next token is this sign; then it is taken.
    pub fn has_sign(&mut self, sign: u8) -> bool {
        self.skip_blanks();
        let found = self.peek() == sign;
        self.at += usize::from(found);
        found
    }

    pub fn sign(&mut self, sign: u8) -> Result<(), Kind> {
        if self.has_sign(sign) { Ok(()) } else { Err(Kind::Syntax) }
    }

    /// Whether the next token is the sign `-`, which isn't the first byte of an arrow; then it is
    /// taken.
    pub fn has_dash(&mut self) -> bool {
        self.skip_blanks();
        !self.text[self.at..].starts_with(b"->") && self.has_sign(b'-')
    }

    pub fn arrow(&mut self) -> Result<(), Kind> {
        self.skip_blanks();
        if !self.text[self.at..].starts_with(b"->") {
            return Err(Kind::Syntax);
        }
        self.at += 2;
        Ok(())
    }

    /// Whether the next token is this word; then it is taken.
    pub fn has_word(&mut self, word: &[u8]) -> bool {
        self.skip_blanks();
        let start = self.at;
        let found = self.peek() == word[0] && self.word() == word;
        self.at = if found { self.at } else { start };
        found
    }

    /// Whether nothing but blanks is left of the line.
    pub fn is_closed(&mut self) -> bool {
        self.skip_blanks();
        self.peek() == b'\n'
    }

    /// Asks that nothing but blanks is left of the line.
    pub fn close(&mut self) -> Result<(), Kind> {
        if self.is_closed() { Ok(()) } else { Err(Kind::Syntax) }
    }

    /// Goes to the line feed that ends the line.
    fn to_line_end(&mut self) {
        while self.peek() != b'\n' {
            self.at += 1;
        }
    }
}

/// What the lines of a text say, as one of the formats.
pub trait Format<'t> {
    /// The name in the header.
    const NAME: &'static [u8];

    /// The versions that are read.
    const VERSIONS: &'static [&'static [u8]] = &[b"1"];

    /// Begins a text of a version, by its number among these.
    fn begin(&mut self, _version: usize) {}

    /// Reads a line that isn't skipped; on Ok the cursor stands at its line feed or before blanks.
    fn line(&mut self, cursor: &mut Cursor<'t>) -> Result<(), Kind>;

    /// Whether a line ended the text.
    fn is_ended(&self) -> bool;
}

/// Which version of a format a first line names: two runs of bytes that aren't blanks, its name and
/// the version.
fn version_of<'t, F: Format<'t>>(line: &[u8]) -> Option<usize> {
    let runs = || line.split(|&byte| is_blank(byte)).filter(|run| !run.is_empty());
    F::VERSIONS.iter().position(|&version| runs().eq([F::NAME, version]))
}

/// Whether the header of a text names this format.
pub fn is_of<'t, F: Format<'t>>(text: &[u8]) -> bool {
    let end = text.iter().position(|&byte| byte == b'\n').unwrap_or(text.len());
    version_of::<F>(&text[..end]).is_some()
}

/// Reads a text of a format that ends with a line feed.
pub fn read<'t, F: Format<'t>>(text: &'t [u8], said: &mut F) -> Result<(), Fault> {
    // The first byte that isn't UTF-8. Its line is faulty, because no sequence spans a line feed.
    let valid = std::str::from_utf8(text).map_or_else(|error| error.valid_up_to(), str::len);
    let mut cursor = Cursor { text, at: 0 };
    cursor.to_line_end();
    if valid < cursor.at {
        return Err(Fault { line: 1, kind: Kind::NotUtf8 });
    }
    match version_of::<F>(&text[..cursor.at]) {
        None => return Err(Fault { line: 1, kind: Kind::Header }),
        Some(version) => said.begin(version),
    }
    let mut line = 1;
    while cursor.at + 1 < text.len() {
        cursor.at += 1;
        line += 1;
        cursor.skip_blanks();
        let result = match cursor.peek() {
            b'\n' => continue,
            b'#' => Ok(()),
            _ => said.line(&mut cursor),
        };
        cursor.to_line_end();
        if valid < cursor.at {
            return Err(Fault { line, kind: Kind::NotUtf8 });
        }
        result.map_err(|kind| Fault { line, kind })?;
    }
    if !said.is_ended() {
        return Err(Fault { line, kind: Kind::End });
    }
    Ok(())
}
