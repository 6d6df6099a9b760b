//! What a parser asks of a token list: looking ahead, and emitting.

use crate::calls::{self, Ahead, Tested};
use crate::kind::Kind;
use crate::lexer::{token, Token};
use crate::refusal::Refusal;

/// What becomes of white space: the kinds for which [`Kind::is_whitespace`] holds, comments among them.
#[derive(Debug, Clone, Copy, PartialEq, Eq, Hash)]
pub enum Whitespace {
    /// It is emitted with the token after it.
    Keep,
    /// It is passed over.
    Drop,
}

/// A parser's view of a token list, as [`list`](crate::list) stores it: up to 8 tokens are held, and up to 256 of white
/// space wait before them.
///
/// What is emitted goes to the front of a lent store, three words a token; what a call answers as a count is of tokens.
/// With white space kept, all that was ever emitted is a front part of the list. A refusal leaves everything as it was.
///
/// ```
/// use puffsatchel::{list, Kind, Lookahead, Reading, Whitespace};
///
/// let mut words = [0; 9];
/// let count = list("a b", Reading::rune(), &mut words)?;
/// let mut ahead = Lookahead::new(&words[..3 * count], Whitespace::Keep)?;
/// let mut out = [0; 6];
/// assert_eq!(ahead.nth(1)?, Kind::Ident);
/// assert_eq!(ahead.glued(1)?, Kind::Eof, "white space stands before it");
/// assert_eq!(ahead.bump(&mut out)?.0, 1);
/// assert_eq!(ahead.bump(&mut out)?.0, 2);
/// assert_eq!(out, [1, 1, 2, 6, 2, 3]);
/// # Ok::<(), Box<dyn std::error::Error>>(())
/// ```
#[derive(Debug, Clone)]
pub struct Lookahead<'a> {
    list: &'a [u32],
    state: Ahead,
}

impl<'a> Lookahead<'a> {
    /// Stands before the list's first token. The list is tested here, once: 34 where it is faulty.
    pub fn new(list: &'a [u32], whitespace: Whitespace) -> Result<Self, Refusal> {
        let mut state = Ahead::fresh(whitespace == Whitespace::Keep);

        // To advance by none is to test the list, and moves nothing.
        calls::advance(&mut state, Tested::No, 0, list, &mut []).or_refusal()?;
        Ok(Self { list, state })
    }

    /// Reads until `n + 1` tokens are held or the list ends.
    pub fn fill(&mut self, n: usize) -> Result<(), Refusal> {
        calls::fill(&mut self.state, Tested::Before, n, self.list).or_refusal().map(drop)
    }

    /// The kind of the next token; [`Kind::Eof`] past the end.
    pub fn peek(&mut self) -> Result<Kind, Refusal> {
        let answer = calls::peek(&mut self.state, Tested::Before, self.list).or_refusal()?;
        token(answer).map(|token| token.kind)
    }

    /// The kind of the token that is `n` after the next; [`Kind::Eof`] past the end.
    pub fn nth(&mut self, n: usize) -> Result<Kind, Refusal> {
        let answer = calls::nth(&mut self.state, Tested::Before, n, self.list).or_refusal()?;
        token(answer).map(|token| token.kind)
    }

    /// That token with its place; past the end a point there.
    pub fn nth_token(&mut self, n: usize) -> Result<Token, Refusal> {
        calls::nth_token(&mut self.state, Tested::Before, n, self.list).or_refusal().and_then(token)
    }

    /// Its kind where no white space that still waits stands before it, else [`Kind::Eof`].
    pub fn glued(&mut self, n: usize) -> Result<Kind, Refusal> {
        let answer = calls::glued(&mut self.state, Tested::Before, n, self.list).or_refusal()?;
        token(answer).map(|token| token.kind)
    }

    /// Whether no token is left.
    pub fn is_eof(&mut self) -> Result<bool, Refusal> {
        let answer = calls::is_eof(&mut self.state, Tested::Before, self.list).or_refusal()?;
        Ok(answer.value != 0)
    }

    /// Emits the white space before the next token, and answers its count and where that token starts, or the list ends.
    pub fn flush_ws(&mut self, out: &mut [u32]) -> Result<(usize, usize), Refusal> {
        let answer = calls::flush_ws(&mut self.state, Tested::Before, self.list, out).or_refusal()?;
        Ok((answer.count, answer.start))
    }

    /// Emits the next token and the white space before it; at the end an end-of-file token each time.
    pub fn bump(&mut self, out: &mut [u32]) -> Result<(usize, Token), Refusal> {
        let answer = calls::bump(&mut self.state, Tested::Before, self.list, out).or_refusal()?;
        let count = answer.count;
        token(answer).map(|token| (count, token))
    }

    /// Does so if the next token is of the kind; else nothing is emitted, and none is answered.
    pub fn bump_if(&mut self, kind: Kind, out: &mut [u32]) -> Result<Option<usize>, Refusal> {
        let answer = calls::bump_if(&mut self.state, Tested::Before, kind.number(), self.list, out).or_refusal()?;
        Ok((answer.value != 0).then_some(answer.count))
    }

    /// Does so while the next token is of the kind. Of [`Kind::Eof`] at the end it is refused with 33: it would not stop.
    pub fn bump_while(&mut self, kind: Kind, out: &mut [u32]) -> Result<usize, Refusal> {
        let answer = calls::bump_while(&mut self.state, Tested::Before, kind.number(), self.list, out).or_refusal()?;
        Ok(answer.count)
    }

    /// Emits `n` tokens that are held, each with the white space before it.
    pub fn advance(&mut self, n: usize, out: &mut [u32]) -> Result<usize, Refusal> {
        let answer = calls::advance(&mut self.state, Tested::Before, n, self.list, out).or_refusal()?;
        Ok(answer.count)
    }

    /// Writes the next `n` tokens, up to 8, and emits none of them.
    pub fn array(&mut self, n: usize, out: &mut [u32]) -> Result<usize, Refusal> {
        let answer = calls::array(&mut self.state, Tested::Before, n, self.list, out).or_refusal()?;
        Ok(answer.count)
    }
}
