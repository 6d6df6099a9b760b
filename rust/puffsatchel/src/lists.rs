//! Whole token lists: into a lent store, and to bytes and back.

use core::fmt;
use core::iter::FusedIterator;
use core::slice::ChunksExact;

use crate::calls;
use crate::lexer::{numbered, Span, Token};
use crate::reading::Reading;
use crate::refusal::Refusal;
use crate::WORDS_PER_TOKEN;

/// A listing, of tokens or of findings, that stopped at a refusal.
#[derive(Debug, Clone, Copy, PartialEq, Eq)]
pub struct Stopped {
    /// The tokens or the findings before the refusal; they are in the store.
    pub count: usize,
    /// Why it stopped.
    pub refusal: Refusal,
}

impl fmt::Display for Stopped {
    fn fmt(&self, f: &mut fmt::Formatter<'_>) -> fmt::Result {
        write!(f, "after {} stored: {}", self.count, self.refusal)
    }
}

impl core::error::Error for Stopped {
    fn source(&self) -> Option<&(dyn core::error::Error + 'static)> {
        Some(&self.refusal)
    }
}

/// Lists the tokens of a source into a lent store, three words each from its first word on, and answers their count.
///
/// The words after the last token stored are unchanged. A store of three words for each byte of the source, or of
/// [`LARGEST_LIST`](crate::LARGEST_LIST) words, is always enough.
///
/// ```
/// use puffsatchel::{list, Kind, Reading, Tokens};
///
/// let mut store = [0; 12];
/// let count = list("...", Reading::rune(), &mut store)?;
/// assert_eq!(store[..3 * count], [52, 0, 2, 28, 2, 3]);
/// let kinds: Result<Vec<Kind>, _> = Tokens::of(&store[..3 * count]).map(|token| token.map(|token| token.kind)).collect();
/// assert_eq!(kinds?, [Kind::DotDot, Kind::Dot]);
/// # Ok::<(), Box<dyn std::error::Error>>(())
/// ```
pub fn list<S: AsRef<[u8]> + ?Sized>(source: &S, reading: Reading, store: &mut [u32]) -> Result<usize, Stopped> {
    let answered = calls::list(source.as_ref(), reading, store);
    let count = answered.answer.count;

    match answered.refusal {
        None => Ok(count),
        Some(refusal) => Err(Stopped { count, refusal }),
    }
}

/// Writes a token list, as [`list`] stores it, as records of 11 bytes, and answers the number of bytes.
///
/// A refusal names the record, from 0 on, in its span's start, and has written nothing.
pub fn store(list: &[u32], out: &mut [u8]) -> Result<usize, Refusal> {
    calls::store(list, out).or_refusal().map(|answer| answer.count)
}

/// Reads records back into a token list, and answers the number of words.
///
/// A refusal names the record, from 0 on, in its span's start, and has written nothing.
pub fn load(bytes: &[u8], out: &mut [u32]) -> Result<usize, Refusal> {
    calls::load(bytes, out).or_refusal().map(|answer| answer.count)
}

/// The tokens of a list, as [`list`] stores it. After a refusal and at the end it gives none for ever.
///
/// The only refusal is [`Reason::OtherVersion`](crate::Reason::OtherVersion), of a number that is no kind's: no list of
/// ours has one.
#[derive(Debug, Clone)]
pub struct Tokens<'a>(ChunksExact<'a, u32>);

impl<'a> Tokens<'a> {
    /// The tokens in these words; one or two words left over at the end are no token.
    #[must_use]
    pub fn of(words: &'a [u32]) -> Self {
        Self(words.chunks_exact(WORDS_PER_TOKEN))
    }
}

impl Iterator for Tokens<'_> {
    type Item = Result<Token, Refusal>;

    fn next(&mut self) -> Option<Self::Item> {
        let &[number, start, end] = self.0.next()? else {
            return None;
        };

        let span = Span { start: start as usize, end: end as usize };
        let item = numbered(number, span, span.end);

        if item.is_err() {
            *self = Self::of(&[]);
        }

        Some(item)
    }
}

impl FusedIterator for Tokens<'_> {}
