//! Calls that write text: the outline of a source, and what the body of a literal stands for.

use crate::calls;
use crate::reading::Reading;
use crate::refusal::Refusal;

/// Writes the source to the front of `out`, with `x` over every byte inside strings, byte strings, comments and templates.
///
/// From a token that cannot be read on, the source is copied, and that token's refusal (10 to 19) is the answer. The
/// refusals 1, 2, and 3 for an `out` shorter than the source, have written nothing. Later bytes are unchanged.
///
/// ```
/// use puffsatchel::{outline, Reading};
///
/// let mut out = [0; 6];
/// outline("a\"bc\";", Reading::rune(), &mut out)?;
/// assert_eq!(&out, b"a\"xx\";");
/// # Ok::<(), puffsatchel::Refusal>(())
/// ```
pub fn outline<S: AsRef<[u8]> + ?Sized>(source: &S, reading: Reading, out: &mut [u8]) -> Result<(), Refusal> {
    calls::outline(source.as_ref(), reading, out).or_refusal().map(drop)
}

/// What a body is read as: what stands between the quotes of which literal.
#[derive(Debug, Clone, Copy, PartialEq, Eq, Hash)]
pub enum Form {
    /// Of a string.
    Text = 1,
    /// Of a template, between its backticks and its `${..}`.
    Template = 2,
    /// Of a char: one scalar.
    Char = 3,
    /// Of a byte string.
    ByteText = 4,
    /// Of a byte: one byte.
    Byte = 5,
}

/// Writes what a body stands for, its escapes read, to the front of `out`, and answers the number of bytes.
///
/// That is never more than the body has. A refusal has written nothing; bytes after what is written are unchanged.
///
/// ```
/// use puffsatchel::{unescape, Form};
///
/// let mut out = [0; 8];
/// let count = unescape(Form::Text, r"a\u{e9}", &mut out)?;
/// assert_eq!(&out[..count], "aé".as_bytes());
/// # Ok::<(), puffsatchel::Refusal>(())
/// ```
pub fn unescape<S: AsRef<[u8]> + ?Sized>(form: Form, body: &S, out: &mut [u8]) -> Result<usize, Refusal> {
    calls::unescape(body.as_ref(), form as u32, out).or_refusal().map(|answer| answer.count)
}
