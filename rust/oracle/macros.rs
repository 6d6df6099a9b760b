//! Stand-in for `crate::macros`: a stream of tokens from a slice. Document 01 leaves token streams out; they serve to measure the parser by itself.

use core::slice::Iter;

use crate::ast::{OptionSpanned, Span, Token};

#[derive(Debug)]
pub(crate) struct TokenStreamIter<'a>(Iter<'a, Token>);

impl<'a> TokenStreamIter<'a> {
    pub(crate) fn new(tokens: &'a [Token]) -> Self {
        Self(tokens.iter())
    }

    pub(crate) fn next(&mut self) -> Option<Token> {
        self.0.next().copied()
    }
}

impl OptionSpanned for TokenStreamIter<'_> {
    fn option_span(&self) -> Option<Span> {
        let tokens = self.0.as_slice();
        Some(tokens.first()?.span.join(tokens.last()?.span))
    }
}
