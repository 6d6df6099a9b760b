//! Reads the text of site rules (Rune scripts) into tokens, by a library that is proved: every call answers on every
//! input, and as document 01 of the project says.
//!
//! A source is up to [`LARGEST_SOURCE`] bytes of UTF-8. What cannot be read is a [`Refusal`], with its number, its place
//! and what to do about it; nothing is passed over without a word. No call allocates, keeps memory or panics: what is
//! written goes to slices that the caller lends.
//!
//! ```
//! use puffsatchel::{Kind, Lexer, Reading};
//!
//! let kinds: Result<Vec<Kind>, _> = Lexer::new("a;", Reading::rune()).map(|token| Ok(token?.kind)).collect();
//! assert_eq!(kinds?, [Kind::Ident, Kind::SemiColon]);
//! # Ok::<(), puffsatchel::Refusal>(())
//! ```
//!
//! Every call that reads a source is told how, by a [`Reading`]: as the running rune does, or with comments that end where
//! a reader thinks that they do.
//!
//! [`Lexer`] reads token by token. [`list`] puts all tokens into a lent store, three words each, in one call, which is
//! the faster way; [`Tokens`] reads such a list. [`findings`] tells what the writer of a source would want to know: comments
//! that run on over a rule, and text that is in force though it looks like a comment. [`outline`] hides what stands inside strings, comments and templates,
//! [`unescape`] reads the escapes of a literal's body, [`store`] and [`load`] carry a list to bytes and back, and a
//! [`Lookahead`] answers what a parser asks of a list.

#![no_std]
#![deny(missing_docs, unsafe_code)]
#![forbid(unsafe_op_in_unsafe_fn)]

#[allow(unsafe_code)]
mod calls;
mod code;
mod findings;
mod kind;
mod lent;
mod lexer;
mod lists;
mod lookahead;
mod reading;
mod refusal;
mod texts;

pub use self::code::Code;
pub use self::findings::{findings, Finding, Findings};
pub use self::kind::{Delimiter, Kind};
pub use self::lexer::{read, test, Lexer, Span, Token};
pub use self::lists::{list, load, store, Stopped, Tokens};
pub use self::lookahead::{Lookahead, Whitespace};
pub use self::reading::Reading;
pub use self::refusal::{Reason, Refusal};
pub use self::texts::{outline, unescape, Form};

/// The bytes of the largest source that is read.
pub const LARGEST_SOURCE: usize = 65_536;

/// The words of a token in a list: its kind's number, its start, its end.
pub const WORDS_PER_TOKEN: usize = 3;

/// The words of a store that is enough for every source, since a token is a byte or more.
pub const LARGEST_LIST: usize = WORDS_PER_TOKEN * LARGEST_SOURCE;

/// The words of a finding: its code's number, start and end of its token, start and end of its stretch.
pub const FINDING_WORDS: usize = 5;

/// The words of a store that is enough for what is found in any source: there are no more findings than bytes.
pub const LARGEST_FINDINGS: usize = FINDING_WORDS * LARGEST_SOURCE;

/// The bytes of a token in a stored list.
pub const BYTES_PER_RECORD: usize = 11;

/// The bytes that are enough for the stored list of every source.
pub const LARGEST_STORED: usize = BYTES_PER_RECORD * LARGEST_SOURCE;

/// The version of the face that this wrapper is written for.
pub const VERSION: u32 = 6;

/// The version of the archive that is linked. Where it is not [`VERSION`], build wrapper and archive from one commit.
#[must_use]
pub fn version() -> u32 {
    calls::version()
}
