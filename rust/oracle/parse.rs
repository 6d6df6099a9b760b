//! The crate's lexer, and stand-ins for its neighbours in `crate::parse`.

mod lexer {
    include!(concat!(env!("PUFFSATCHEL_RUST"), "/src/parse/lexer.rs"));
}

pub(crate) use self::lexer::{Lexer, LexerMode};

use crate::ast::Kind;

pub(crate) trait Advance {
    type Error;

    fn advance(&mut self, n: usize) -> Result<(), Self::Error>;
}

#[derive(Debug)]
pub(crate) struct Expectation(Kind);

pub(crate) trait IntoExpectation {
    fn into_expectation(self) -> Expectation;
}

impl IntoExpectation for Kind {
    fn into_expectation(self) -> Expectation {
        Expectation(self)
    }
}
