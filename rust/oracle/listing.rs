//! The crate's lexer in plain mode, from the first token to the end or the first refusal.

use crate::answer::Answer;
use crate::ast::Token;
use crate::numbers::{number_of, refusal_of, Refusal};
use crate::parse::Lexer;
use crate::SOURCE;

const LONGEST: usize = 65_536;

/// Document 01's refusals 1 and 2, in that order.
pub fn text(payload: &[u8]) -> Result<&str, Refusal> {
    if payload.len() > LONGEST {
        return Err(Refusal::new(1, 0, 0));
    }

    core::str::from_utf8(payload).map_err(|error| {
        let place = error.valid_up_to();
        Refusal::new(2, place, place)
    })
}

pub(crate) fn plain_lexer(source: &str) -> Lexer<'_> {
    Lexer::new(source, SOURCE, true).without_processing()
}

/// Hands each token to `each` and answers their count.
pub(crate) fn list(source: &str, mut each: impl FnMut(Token)) -> Result<u32, Refusal> {
    let mut lexer = plain_lexer(source);
    let mut count = 0;

    while let Some(token) = lexer.next().map_err(refusal_of)? {
        each(token);
        count += 1;
    }

    Ok(count)
}

/// The same, each token as its kind's number, its start and its end.
pub fn list_words(source: &str, mut each: impl FnMut([u32; 3])) -> Result<u32, Refusal> {
    list(source, |token| each([number_of(token.kind), token.span.start.0, token.span.end.0]))
}

pub(crate) fn answer(payload: &[u8], answer: &mut Answer) {
    let listed = text(payload).and_then(|source| {
        list_words(source, |words| {
            answer.numbers(&words);
            answer.end_line();
        })
    });

    match listed {
        Ok(count) => {
            answer.word("end");
            answer.numbers(&[count]);
            answer.end_line();
        }
        Err(refusal) => answer.refusal(&refusal),
    }
}
