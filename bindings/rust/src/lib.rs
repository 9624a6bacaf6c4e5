//! Whether bytes begin with a value of a type, in the default layout of bincode 1, by a reader that is proved.
//!
//! A type is a text, as Rust writes it. Bytes of strangers are checked before another reader sees them:
//!
//! ```
//! use wincode_check::{Kind, Type};
//!
//! let orders = Type::parse("Vec<(u64, String)>")?;
//! assert_eq!(orders.check(&[0; 8])?.length, 8);
//! let refused = orders.check(&[1, 0, 0, 0, 0, 0, 0, 0, 7]).unwrap_err();
//! assert_eq!((refused.kind, refused.offset), (Kind::TooFewBytes(8), 8));
//! # Ok::<(), Box<dyn std::error::Error>>(())
//! ```
#![deny(unsafe_op_in_unsafe_fn)]
#![warn(missing_docs)]

use std::fmt;

/// As `struct wincode_report` of `bindings/c/wincode.h`.
#[repr(C)]
#[derive(Default)]
struct Report {
    length: usize,
    parts: usize,
    behind: usize,
    place: usize,
    first: usize,
    second: usize,
    depth: usize,
}

/// As `struct wincode_page`.
#[repr(C)]
#[derive(Default)]
struct Page {
    length: usize,
    lines: usize,
    behind: usize,
}

type Call = unsafe extern "C" fn(*const u8, usize, *const u8, usize, *mut Report) -> i32;

extern "C" {
    fn wincode_check(text: *const u8, text_length: usize, bytes: *const u8, length: usize, report: *mut Report) -> i32;
    fn wincode_check_exact(text: *const u8, text_length: usize, bytes: *const u8, length: usize, report: *mut Report) -> i32;
    fn wincode_explain(
        text: *const u8,
        text_length: usize,
        bytes: *const u8,
        length: usize,
        from: usize,
        room: *mut u8,
        room_length: usize,
        report: *mut Report,
        page: *mut Page,
    ) -> i32;
    fn wincode_layout(
        source: *const u8,
        source_length: usize,
        text: *const u8,
        text_length: usize,
        room: *mut u8,
        room_length: usize,
        length: *mut usize,
    ) -> i32;
}

/// How many bytes of lines are asked for at first.
const ROOM: usize = 65_536;

const TEXT_OUT_OF_MEMORY: i32 = -5;

const TOO_LITTLE_ROOM: i32 = -6;

/// A type of values.
#[derive(Debug, Clone, PartialEq, Eq)]
pub struct Type {
    text: String,
}

/// The value at the front of bytes.
#[derive(Debug, Clone, Copy, PartialEq, Eq)]
pub struct Checked {
    /// How many bytes it has.
    pub length: usize,
    /// How many parts it has: numbers, flags, characters, texts, lists of bytes, lengths and tags.
    pub parts: usize,
    /// How many bytes are behind it.
    pub behind: usize,
}

/// Why no value was read.
#[derive(Debug, Clone, Copy, PartialEq, Eq)]
#[non_exhaustive]
pub enum Kind {
    /// So many bytes were to be read, and fewer were left.
    TooFewBytes(usize),
    /// Of a text so many bytes are UTF-8. Behind these so many are no character, or the text ends within one.
    NotUtf8 {
        /// How many bytes are characters.
        valid_up_to: usize,
        /// How many bytes behind these are none.
        error_len: Option<usize>,
    },
    /// A list needs so many bytes of memory, and may take so many.
    PastLimit {
        /// How many it needs.
        needed: usize,
        /// How many it may.
        limit: usize,
    },
    /// The tag names no case.
    NoSuchTag(usize),
    /// The byte is neither 0 nor 1.
    NoBool(usize),
    /// A length is past what its scheme can say, or a size past what can be counted.
    LengthOverflow {
        /// Whether it is a short length.
        is_short: bool,
    },
    /// No character begins with this byte.
    NoCharacter(usize),
    /// Memory was refused.
    OutOfMemory,
    /// So many bytes are behind the value.
    BytesBehind(usize),
    /// A number that this version doesn't know.
    Other(i32),
}

/// No value was read.
#[derive(Debug, Clone, Copy, PartialEq, Eq)]
pub struct Refused {
    /// Why.
    pub kind: Kind,
    /// How many bytes stand before the part that was refused.
    pub offset: usize,
    /// How many bytes were read.
    pub place: usize,
    /// How many items deep the part is: of how many lists, sets, maps and arrays it stands in an item.
    pub depth: usize,
}

/// A text describes no type.
#[derive(Debug, Clone, Copy, PartialEq, Eq)]
pub struct NoType {
    /// The byte of the text where something else is wanted.
    pub at: usize,
    /// Whether the type there is more than 128 levels deep.
    pub is_too_deep: bool,
    /// Whether memory for the type was refused.
    pub is_memory: bool,
}

impl Type {
    /// The type that the text describes.
    pub fn parse(text: &str) -> Result<Type, NoType> {
        let (number, report) = call(wincode_check, text, &[]);
        if number < 0 {
            return Err(NoType::of(number, report.place));
        }
        Ok(Type { text: text.to_owned() })
    }

    /// The type of that name, where the structs and enums that a Rust source declares have theirs: `Vec<Account>` too.
    pub fn of_declarations(source: &str, text: &str) -> Result<Type, NoType> {
        let mut room = vec![0; 1_024];
        loop {
            let mut length = 0;
            // SAFETY: as in `call`; the room is a vector's, and nothing else holds it or the length.
            let number = unsafe {
                let (source, source_length) = (source.as_ptr(), source.len());
                wincode_layout(
                    source,
                    source_length,
                    text.as_ptr(),
                    text.len(),
                    room.as_mut_ptr(),
                    room.len(),
                    &mut length,
                )
            };
            match number {
                0 => room.truncate(length),
                TOO_LITTLE_ROOM => {
                    room.resize(length, 0);
                    continue;
                }
                number => return Err(NoType::of(number, length)),
            }
            let text = String::from_utf8(room).map_err(|_| NoType::of(-2, 0))?;
            return Ok(Type { text });
        }
    }

    /// The lines that explain the value at the front of the bytes, one for each part: its offset, its bytes, its place and
    /// its value. Of a refusal the last line has the offset, the place and why.
    pub fn explain(&self, bytes: &[u8]) -> Result<Lines, Refused> {
        let mut room = vec![0; ROOM];
        loop {
            let (mut report, mut page) = (Report::default(), Page::default());
            // SAFETY: as in `call`; the room is a vector's, and nothing else holds it, the report or the page.
            let number = unsafe {
                let (text, bytes, length) = (&self.text, bytes.as_ptr(), bytes.len());
                wincode_explain(
                    text.as_ptr(),
                    text.len(),
                    bytes,
                    length,
                    0,
                    room.as_mut_ptr(),
                    room.len(),
                    &mut report,
                    &mut page,
                )
            };
            if number == TEXT_OUT_OF_MEMORY {
                return Err(Refused {
                    kind: Kind::OutOfMemory,
                    offset: report.length,
                    place: report.place,
                    depth: report.depth,
                });
            }
            if page.behind == 0 {
                room.truncate(page.length);
                return Ok(Lines {
                    text: String::from_utf8_lossy(&room).into_owned(),
                    at: 0,
                });
            }
            room.resize(page.length + page.behind, 0);
        }
    }

    /// The value at the front of the bytes.
    pub fn check(&self, bytes: &[u8]) -> Result<Checked, Refused> {
        self.read(wincode_check, bytes)
    }

    /// The value that is all of the bytes.
    pub fn check_exact(&self, bytes: &[u8]) -> Result<Checked, Refused> {
        self.read(wincode_check_exact, bytes)
    }

    fn read(&self, check: Call, bytes: &[u8]) -> Result<Checked, Refused> {
        let (number, report) = call(check, &self.text, bytes);
        if number == 0 {
            return Ok(Checked {
                length: report.length,
                parts: report.parts,
                behind: report.behind,
            });
        }
        Err(Refused {
            kind: Kind::of(number, &report),
            offset: report.length,
            place: report.place,
            depth: report.depth,
        })
    }
}

/// Lines that explain a value, without their line breaks.
#[derive(Debug, Clone)]
pub struct Lines {
    text: String,
    at: usize,
}

impl Iterator for Lines {
    type Item = String;

    fn next(&mut self) -> Option<String> {
        let rest = &self.text[self.at..];
        let end = rest.find('\n')?;
        self.at += end + 1;
        Some(rest[..end].to_owned())
    }
}

/// What the call answers of the bytes by the type of the text, and what it reports.
fn call(check: Call, text: &str, bytes: &[u8]) -> (i32, Report) {
    let mut report = Report::default();
    // SAFETY: the pointers and lengths are those of two slices, which are borrowed for the call and never null, and of a
    // report that nothing else holds. The declarations above are those of `wincode.h`, and Rust's own allocator on Linux is
    // the C library's, which aligns as the header asks.
    let number = unsafe { check(text.as_ptr(), text.len(), bytes.as_ptr(), bytes.len(), &mut report) };
    (number, report)
}

impl Kind {
    fn of(number: i32, report: &Report) -> Kind {
        match number {
            1 => Kind::TooFewBytes(report.first),
            4 | 14 | -4 => Kind::OutOfMemory,
            5 => Kind::NotUtf8 {
                valid_up_to: report.first,
                error_len: (report.second > 0).then_some(report.second),
            },
            7 => Kind::PastLimit {
                needed: report.first,
                limit: report.second,
            },
            8 => Kind::NoSuchTag(report.first),
            9 => Kind::NoBool(report.first),
            10 | 16 => Kind::LengthOverflow { is_short: number == 16 },
            11 => Kind::NoCharacter(report.first),
            15 => Kind::BytesBehind(report.first),
            number => Kind::Other(number),
        }
    }
}

/// As the Rust crate's errors print.
impl fmt::Display for Kind {
    fn fmt(&self, to: &mut fmt::Formatter<'_>) -> fmt::Result {
        match self {
            Kind::TooFewBytes(wanted) => write!(to, "Attempting to read {wanted} bytes"),
            Kind::NotUtf8 {
                valid_up_to,
                error_len: Some(count),
            } => {
                write!(to, "invalid utf-8 sequence of {count} bytes from index {valid_up_to}")
            }
            Kind::NotUtf8 {
                valid_up_to,
                error_len: None,
            } => {
                write!(to, "incomplete utf-8 byte sequence from index {valid_up_to}")
            }
            Kind::PastLimit { needed, limit } => {
                write!(
                    to,
                    "Encoded sequence length exceeded preallocation limit of {limit} bytes (needed {needed} bytes)"
                )
            }
            Kind::NoSuchTag(tag) => write!(to, "Invalid tag encoding: {tag}"),
            Kind::NoBool(byte) => write!(to, "Invalid bool encoding: {byte}"),
            Kind::LengthOverflow { is_short } => {
                let most = if *is_short { "u16::MAX" } else { "usize::MAX" };
                write!(to, "Sequence length would overflow length encoding scheme: {most}")
            }
            Kind::NoCharacter(byte) => write!(to, "Invalid char lead: {byte}"),
            Kind::OutOfMemory => write!(to, "Out of memory"),
            Kind::BytesBehind(count) => write!(to, "Bytes behind the value: {count}"),
            Kind::Other(number) => write!(to, "refused: {number}"),
        }
    }
}

impl fmt::Display for Refused {
    fn fmt(&self, to: &mut fmt::Formatter<'_>) -> fmt::Result {
        write!(to, "{} at offset {}", self.kind, self.offset)
    }
}

impl std::error::Error for Refused {}

impl NoType {
    fn of(number: i32, at: usize) -> NoType {
        NoType {
            at,
            is_too_deep: number == -3,
            is_memory: number == -4 || number == TEXT_OUT_OF_MEMORY,
        }
    }
}

impl fmt::Display for NoType {
    fn fmt(&self, to: &mut fmt::Formatter<'_>) -> fmt::Result {
        match (self.is_memory, self.is_too_deep) {
            (true, _) => write!(to, "Out of memory"),
            (false, true) => write!(to, "the type at byte {} is more than 128 levels deep", self.at),
            (false, false) => write!(to, "no type at byte {}", self.at),
        }
    }
}

impl std::error::Error for NoType {}
