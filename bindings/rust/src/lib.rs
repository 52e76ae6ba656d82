//! The formatter for Cedar policies.
//!
//! ```
//! use cedar_formatter::{format, Config};
//!
//! let layout = format("permit(principal,action,resource);", &Config::default())?;
//! assert_eq!(layout, "permit (principal, action, resource);\n");
//! # Ok::<(), cedar_formatter::Error>(())
//! ```
//!
//! The crate uses the proved library for C, which it links statically. It has no state, so its calls may run on several
//! threads at the same time. A call needs 1 MiB of stack, and with less the process may end by SIGSEGV; by default a thread of
//! the standard library has 2 MiB.
#![warn(missing_docs)]

use std::fmt;
use std::ops::Range;

mod ffi;

/// How policies are laid out.
#[derive(Clone, Copy, Debug, PartialEq, Eq, Hash)]
pub struct Config {
    /// Columns per line.
    pub line_width: usize,
    /// Columns per level; a negative number moves to the left.
    pub indent_width: isize,
}

impl Default for Config {
    /// 80 columns per line, and 2 per level.
    fn default() -> Self {
        Config {
            line_width: 80,
            indent_width: 2,
        }
    }
}

/// Why there is no result. `at` is a byte of the text, counted from 0; [`place`] gives its line and column.
#[derive(Clone, Copy, Debug, PartialEq, Eq, Hash)]
pub enum Error {
    /// No blank, comment or token begins at the byte.
    UnknownCharacter {
        /// The byte.
        at: usize,
    },
    /// The string that begins at the byte has no end.
    UnfinishedString {
        /// The byte.
        at: usize,
    },
    /// The number that begins at the byte is above 18446744073709551615.
    NumberTooLarge {
        /// The byte.
        at: usize,
    },
    /// The token that begins at the byte isn't allowed there; at the length of the text, one is missing.
    Grammar {
        /// The byte.
        at: usize,
    },
    /// The token that begins at the byte is nested more than 128 deep.
    TooDeep {
        /// The byte.
        at: usize,
    },
    /// Out of memory.
    OutOfMemory,
}

impl Error {
    /// The byte at which the text is refused, if it is.
    pub fn at(&self) -> Option<usize> {
        match *self {
            Error::UnknownCharacter { at }
            | Error::UnfinishedString { at }
            | Error::NumberTooLarge { at }
            | Error::Grammar { at }
            | Error::TooDeep { at } => Some(at),
            Error::OutOfMemory => None,
        }
    }
}

impl fmt::Display for Error {
    fn fmt(&self, f: &mut fmt::Formatter<'_>) -> fmt::Result {
        f.write_str(match self {
            Error::UnknownCharacter { .. } => "unknown character",
            Error::UnfinishedString { .. } => "unfinished string",
            Error::NumberTooLarge { .. } => "number too large",
            Error::Grammar { .. } => "not in the grammar",
            Error::TooDeep { .. } => "nested too deeply",
            Error::OutOfMemory => "out of memory",
        })?;
        match self.at() {
            Some(at) => write!(f, " at byte {at}"),
            None => Ok(()),
        }
    }
}

impl std::error::Error for Error {}

/// A fault of a text. Bytes are counted from 0; [`place`] gives their lines and columns.
#[derive(Clone, Debug, PartialEq, Eq, Hash)]
pub struct Fault {
    /// Why no accepted text continues at the byte that it names; never [`Error::OutOfMemory`].
    pub error: Error,
    /// The first of the bytes that the fault is about: a token's, say, or the last one's if something is missing at the end.
    pub start: usize,
    /// The byte after the last of them.
    pub end: usize,
    /// The innermost bracket of the policy that is still open, if the fault is the end of the text, a `;` or a closing bracket of
    /// another kind.
    pub unclosed: Option<Range<usize>>,
    /// What is wrong, for people: `expected an operand, found ')'`.
    pub message: String,
}

/// The faults of a text, one after the other; see [`faults`].
#[derive(Clone, Debug)]
pub struct Faults<'a> {
    text: &'a str,
    // Where the search goes on, unless it has ended.
    from: Option<usize>,
}

impl Iterator for Faults<'_> {
    type Item = Result<Fault, Error>;

    fn next(&mut self) -> Option<Self::Item> {
        let from = self.from.take()?;
        let (fault, next) = match ffi::next_fault(self.text, from) {
            Ok(found) => found?,
            Err(error) => return Some(Err(error)),
        };
        self.from = Some(next);
        Some(Ok(fault))
    }
}

/// Where a byte is in a text.
#[derive(Clone, Copy, Debug, PartialEq, Eq, PartialOrd, Ord, Hash)]
pub struct Place {
    /// The line, from 1. Only a line feed ends a line.
    pub line: usize,
    /// The column, from 1, in characters.
    pub column: usize,
}

impl fmt::Display for Place {
    /// Writes `LINE:COLUMN`.
    fn fmt(&self, f: &mut fmt::Formatter<'_>) -> fmt::Result {
        write!(f, "{}:{}", self.line, self.column)
    }
}

/// Lays out policies.
///
/// # Errors
///
/// Why the text is refused, or [`Error::OutOfMemory`].
pub fn format(text: &str, config: &Config) -> Result<String, Error> {
    ffi::format(text, config)
}

/// Whether a text is as [`format()`] lays it out.
///
/// # Errors
///
/// Those of [`format()`].
pub fn is_formatted(text: &str, config: &Config) -> Result<bool, Error> {
    ffi::is_formatted(text, config)
}

/// Whether two texts are laid out alike, with whatever [`Config`]: their tokens and comments are the same, up to trailing commas
/// and leading zeros of numbers.
///
/// # Errors
///
/// Those of [`format()`]; a refusal of `a` comes before one of `b`.
pub fn same_layout(a: &str, b: &str) -> Result<bool, Error> {
    ffi::same_layout(a, b)
}

/// All faults of a text, in order: for each policy that isn't accepted, the first. An accepted text has none.
///
/// A text that isn't Cedar at all can have one for each semicolon, and each takes time in proportion to the text; take as many as
/// you show. Where memory is refused the last item is [`Error::OutOfMemory`].
pub fn faults(text: &str) -> Faults<'_> {
    Faults {
        text,
        from: Some(0),
    }
}

/// The version of the library that is linked: `noblesilk 1.0.0, proved with KIT`, or `.., not proved, built with KIT`.
pub fn version() -> String {
    ffi::version()
}

/// The line and the column of a byte, counted from 0. A byte inside a character has the place of that character, and one
/// past the end has the place of the end.
pub fn place(text: &str, at: usize) -> Place {
    ffi::place(text, at)
}
