//! What the writer of a source would want to know.

use core::iter::FusedIterator;
use core::slice::ChunksExact;

use crate::calls;
use crate::code::Code;
use crate::lexer::Span;
use crate::lists::Stopped;
use crate::reading::Reading;
use crate::refusal::{Reason, Refusal};
use crate::FINDING_WORDS;

/// A token that is not what it seems, or that nothing closes.
#[derive(Debug, Clone, Copy, PartialEq, Eq, Hash)]
pub struct Finding {
    /// What was found.
    pub code: Code,
    /// The token.
    pub span: Span,
    /// Where a token runs on, what stands between its two ends; for [`Code::ReadAsCode`] the comment that the token seems
    /// to be inside; else a point at the token's end.
    pub stretch: Span,
}

/// Finds what the writer of a source would want to know, in the order of places, by way of a lent store.
///
/// The tokens are those of the reading named. Where that is [`Reading::rune`], they are compared with those of
/// [`Reading::first_close`], which are what a person sees: with nothing found both readings list the same tokens.
///
/// ```
/// use puffsatchel::{findings, Code, Reading};
///
/// let source = "/**/ const QUIET = true;\n/**/ const RETRIES = 3;\n";
/// let mut store = [0; 10];
/// for finding in findings(source, Reading::rune(), &mut store)? {
///     let finding = finding?;
///     assert_eq!(finding.code, Code::CommentRunsOn);
///     assert_eq!(&source[finding.stretch.range()], " const QUIET = true;\n/**/");
/// }
/// # Ok::<(), Box<dyn std::error::Error>>(())
/// ```
///
/// A refusal is the answer where reading stops, or where a finding has no five words in the store. What was found before
/// it is in the store, and [`Findings::of`] reads it:
///
/// ```
/// use puffsatchel::{findings, Findings, Reading, Reason, FINDING_WORDS};
///
/// let source = "/**/a/**/ \"";
/// let mut store = [0; 10];
/// let stopped = findings(source, Reading::rune(), &mut store).unwrap_err();
/// assert_eq!(stopped.refusal.reason, Reason::UnterminatedStrLit);
///
/// for finding in Findings::of(source, &store[..FINDING_WORDS * stopped.count]) {
///     assert_eq!(finding?.code.name(), "comment-runs-on");
/// }
/// # Ok::<(), puffsatchel::Refusal>(())
/// ```
///
/// The words after the last finding stored are unchanged. A store of five words for each byte of the source, or of
/// [`LARGEST_FINDINGS`](crate::LARGEST_FINDINGS) words, is always enough.
pub fn findings<'a, S: AsRef<[u8]> + ?Sized>(
    source: &'a S,
    reading: Reading,
    store: &'a mut [u32],
) -> Result<Findings<'a>, Stopped> {
    let answered = calls::findings(source.as_ref(), reading, store);
    let count = answered.answer.count;

    match answered.refusal {
        None => Ok(Findings::of(source, store.get(..FINDING_WORDS.saturating_mul(count)).unwrap_or_default())),
        Some(refusal) => Err(Stopped { count, refusal }),
    }
}

/// The findings in a store, as [`findings`] writes them. After a refusal and at the end it gives none for ever.
///
/// The only refusal is [`Reason::OtherVersion`], of a number that is no finding's: no store of ours has one.
#[derive(Debug, Clone)]
pub struct Findings<'a> {
    source: &'a [u8],
    words: ChunksExact<'a, u32>,
}

impl<'a> Findings<'a> {
    /// The findings in these words, five each; what is left over at the end is none. The source tells a template from a
    /// comment.
    #[must_use]
    pub fn of<S: AsRef<[u8]> + ?Sized>(source: &'a S, words: &'a [u32]) -> Self {
        Self { source: source.as_ref(), words: words.chunks_exact(FINDING_WORDS) }
    }
}

impl Iterator for Findings<'_> {
    type Item = Result<Finding, Refusal>;

    fn next(&mut self) -> Option<Self::Item> {
        let &[number, start, end, from, to] = self.words.next()? else {
            return None;
        };

        let span = Span { start: start as usize, end: end as usize };
        let stretch = Span { start: from as usize, end: to as usize };
        let first = self.source.get(span.start).copied().unwrap_or_default();

        let Some(code) = Code::from_number(number, first) else {
            *self = Self::of(&[], &[]);
            return Some(Err(Refusal { reason: Reason::OtherVersion(number), span, reached: span.end }));
        };

        Some(Ok(Finding { code, span, stretch }))
    }
}

impl FusedIterator for Findings<'_> {}
