//! Token by token.

use core::iter::FusedIterator;
use core::ops::Range;

use crate::calls::{self, Answer};
use crate::kind::Kind;
use crate::reading::Reading;
use crate::refusal::{Reason, Refusal};

/// From `start` to before `end`, in bytes of the source.
#[derive(Debug, Clone, Copy, PartialEq, Eq, Hash, Default)]
pub struct Span {
    /// The first byte.
    pub start: usize,
    /// The byte after the last.
    pub end: usize,
}

impl Span {
    /// The span as a range: `source.get(span.range())` is its text.
    #[must_use]
    pub const fn range(self) -> Range<usize> {
        self.start..self.end
    }
}

/// A kind at its place.
#[derive(Debug, Clone, Copy, PartialEq, Eq, Hash)]
pub struct Token {
    /// What it is.
    pub kind: Kind,
    /// Where it stands.
    pub span: Span,
}

/// The tokens of a source, one after the other. After a refusal and at the end it gives none for ever.
///
/// The spans of the tokens cover the source from its start on with no gap.
///
/// ```
/// use puffsatchel::{Lexer, Reading, Reason};
///
/// let mut lexer = Lexer::new(r"b'\''", Reading::rune());
/// assert_eq!(lexer.next().map(|token| token.map(|token| token.span.range())), Some(Ok(0..4)));
/// assert_eq!(lexer.next().and_then(Result::err).map(|refusal| refusal.reason), Some(Reason::ExpectedCharOrLabel));
/// assert_eq!(lexer.next(), None);
/// ```
#[derive(Debug, Clone)]
pub struct Lexer<'a> {
    source: &'a [u8],
    reading: Reading,
    state: State,
}

#[derive(Debug, Clone)]
enum State {
    /// The test of the whole source has refused it, and nobody has heard of it yet.
    Refused(Refusal),
    /// The source can be read, and the next token starts here.
    At(usize),
    Over,
}

impl<'a> Lexer<'a> {
    /// A lexer over text or bytes. The source is tested here, once; what the test refuses is the lexer's first item.
    #[must_use]
    pub fn new<S: AsRef<[u8]> + ?Sized>(source: &'a S, reading: Reading) -> Self {
        Self::over(source.as_ref(), reading)
    }

    fn over(source: &'a [u8], reading: Reading) -> Self {
        let state = match calls::test(source).refusal {
            None => State::At(0),
            Some(refusal) => State::Refused(refusal),
        };

        Self { source, reading, state }
    }
}

impl Iterator for Lexer<'_> {
    type Item = Result<Token, Refusal>;

    fn next(&mut self) -> Option<Self::Item> {
        let item = match self.state {
            State::Refused(refusal) => Err(refusal),
            State::At(place) => next_at(self.source, self.reading, place),
            State::Over => return None,
        };

        self.state = State::Over;

        match item {
            Ok(Token { kind: Kind::Eof, .. }) => None,
            Ok(token) => {
                self.state = State::At(token.span.end);
                Some(Ok(token))
            }
            Err(refusal) => Some(Err(refusal)),
        }
    }
}

impl FusedIterator for Lexer<'_> {}

/// Tests a source as every call that takes one does: 1 and 2, or nothing for a source that can be read.
pub fn test<S: AsRef<[u8]> + ?Sized>(source: &S) -> Result<(), Refusal> {
    calls::test(source.as_ref()).or_refusal().map(drop)
}

/// Reads the one token at a place. At the end of the source it is [`Kind::Eof`], with a point as its span.
///
/// The source is tested each time: [`Lexer`] is the way to read it whole.
pub fn read<S: AsRef<[u8]> + ?Sized>(source: &S, reading: Reading, at: usize) -> Result<Token, Refusal> {
    calls::read(source.as_ref(), reading, at).or_refusal().and_then(token)
}

fn next_at(source: &[u8], reading: Reading, place: usize) -> Result<Token, Refusal> {
    calls::next(source, reading, place).or_refusal().and_then(token)
}

pub(crate) fn token(answer: Answer) -> Result<Token, Refusal> {
    let span = Span { start: answer.start, end: answer.end };
    let number = u32::try_from(answer.value).unwrap_or(u32::MAX);
    numbered(number, span, answer.reached)
}

/// The token of a kind's number at its place; refused where the number is no kind's.
pub(crate) fn numbered(number: u32, span: Span, reached: usize) -> Result<Token, Refusal> {
    match Kind::from_number(number) {
        Some(kind) => Ok(Token { kind, span }),
        None => Err(Refusal { reason: Reason::OtherVersion(number), span, reached }),
    }
}
