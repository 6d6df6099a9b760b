//! Stand-in for `crate::compile`: errors as kind and span, with the kinds that the three files name.

use crate::alloc;
use crate::ast::Span;
use crate::parse::{Expectation, LexerMode};
use crate::shared::Full;

pub(crate) type Result<T, E = Error> = core::result::Result<T, E>;

#[derive(Debug)]
pub(crate) struct Error {
    pub(crate) span: Span,
    pub(crate) kind: ErrorKind,
}

impl Error {
    pub(crate) fn new(span: Span, kind: ErrorKind) -> Self {
        Self { span, kind }
    }
}

#[derive(Debug)]
pub(crate) enum ErrorKind {
    ExpectedEscape,
    UnterminatedCharLit,
    ExpectedCharClose,
    ExpectedCharOrLabel,
    ExpectedByteClose,
    UnterminatedByteLit,
    UnterminatedStrLit,
    UnterminatedByteStrLit,
    UnexpectedChar { c: char },
    UnexpectedEof,
    BadLexerMode { actual: LexerMode, expected: LexerMode },
    ExpectedSyntax { expected: Expectation, actual: Expectation },
    Full,
}

impl From<alloc::Error> for Error {
    fn from(error: alloc::Error) -> Self {
        match error {}
    }
}

impl From<alloc::Error> for ErrorKind {
    fn from(error: alloc::Error) -> Self {
        match error {}
    }
}

impl From<syntree::Error> for ErrorKind {
    fn from(error: syntree::Error) -> Self {
        match error {}
    }
}

impl From<Full> for ErrorKind {
    fn from(_: Full) -> Self {
        ErrorKind::Full
    }
}

pub(crate) trait WithSpan<T> {
    fn with_span(self, span: Span) -> Result<T>;
}

impl<T, E> WithSpan<T> for core::result::Result<T, E>
where
    ErrorKind: From<E>,
{
    fn with_span(self, span: Span) -> Result<T> {
        self.map_err(|error| Error::new(span, error.into()))
    }
}
