//! Scripts of lookahead calls made ready beforehand, for whoever measures the crate's parser: no kind is turned into its number while one runs.

use core::hint::black_box;
use core::mem::take;

use super::{Parser, Source};
use crate::ast::{Kind, Token};
use crate::compile::Result;
use crate::listing::{list, plain_lexer, text};
use crate::macros::TokenStreamIter;
use crate::numbers::{kind_of, number_of};

enum Asked {
    Peek,
    Nth(usize),
    Glued(usize),
    FlushWs,
    Bump,
    BumpWhile(Kind),
    BumpIf(Kind),
    IsEof,
}

impl Asked {
    /// None for a call that the scripts of a parser have not.
    fn new((code, argument): (u8, u8)) -> Option<Self> {
        let n = usize::from(argument);

        Some(match code {
            1 => Asked::Peek,
            2 => Asked::Nth(n),
            4 => Asked::Glued(n),
            5 => Asked::FlushWs,
            6 => Asked::Bump,
            7 => Asked::BumpWhile(kind_of(argument)?),
            8 => Asked::BumpIf(kind_of(argument)?),
            11 => Asked::IsEof,
            _ => return None,
        })
    }
}

/// Memory for what is emitted, which keeps its room from one run to the next.
#[derive(Default)]
pub struct Emitted(Vec<(Kind, syntree::Span)>);

impl Emitted {
    pub fn with_room(count: usize) -> Self {
        Self(Vec::with_capacity(count))
    }

    /// The tokens of the last run, each as document 01's kind with its start and end.
    pub fn words(&self) -> impl Iterator<Item = [u32; 3]> + '_ {
        self.0.iter().map(|(kind, span)| [number_of(*kind), span.start, span.end])
    }
}

/// A script, and the tokens of the source that it is for.
pub struct Look {
    keep: bool,
    asked: Vec<Asked>,
    tokens: Vec<Token>,
}

impl Look {
    /// None where the source is refused or a call is none of a parser's.
    pub fn new(source: &[u8], keep: bool, calls: &[(u8, u8)]) -> Option<Self> {
        let mut tokens = Vec::new();
        list(text(source).ok()?, |token| tokens.push(token)).ok()?;
        let asked = calls.iter().copied().map(Asked::new).collect::<Option<_>>()?;
        Some(Self { keep, asked, tokens })
    }

    /// A new parser that reads the source, from the UTF-8 test to the script's last call; false where a call fails.
    pub fn over_source(&self, source: &[u8], emitted: &mut Emitted) -> bool {
        text(source).is_ok_and(|source| self.run(Source::lexer(plain_lexer(source)), emitted).is_ok())
    }

    /// The same over tokens that were listed before.
    pub fn over_tokens(&self, emitted: &mut Emitted) -> bool {
        self.run(Source::token_stream(TokenStreamIter::new(&self.tokens)), emitted).is_ok()
    }

    fn run(&self, source: Source<'_>, emitted: &mut Emitted) -> Result<()> {
        let mut parser = Parser::new(source);
        parser.include_whitespace(self.keep);
        emitted.0.clear();
        parser.tree = syntree::Builder::over(take(&mut emitted.0));

        for asked in &self.asked {
            call(&mut parser, asked)?;
        }

        emitted.0 = parser.tree.into_tokens();
        Ok(())
    }
}

#[inline]
fn call(parser: &mut Parser<'_>, asked: &Asked) -> Result<()> {
    match *asked {
        Asked::Peek => _ = black_box(&parser.peek()?),
        Asked::Nth(n) => _ = black_box(&parser.nth(n)?),
        Asked::Glued(n) => _ = black_box(&parser.glued(n)?),
        Asked::FlushWs => _ = black_box(&parser.flush_ws()?),
        Asked::Bump => _ = black_box(&parser.bump()?),
        Asked::BumpWhile(kind) => _ = black_box(&parser.bump_while(kind)?),
        Asked::BumpIf(kind) => _ = black_box(&parser.bump_if(kind)?),
        Asked::IsEof => _ = black_box(&parser.is_eof()?),
    }

    Ok(())
}
