//! A script of lookahead calls, driven through the crate's parser.

use super::{Parser, Source};
use crate::answer::Answer;
use crate::ast::{Kind, Span, Token};
use crate::compile::Result;
use crate::frame::Malformed;
use crate::listing::{list, plain_lexer, text};
use crate::numbers::{kind_of, number_of};

const MOST_WAITING: usize = 256;
const HELD: usize = 8;

#[derive(Clone, Copy)]
enum Op {
    Fill(usize),
    Peek,
    Nth(usize),
    NthToken(usize),
    Glued(usize),
    FlushWs,
    Bump,
    BumpWhile(u8),
    BumpIf(u8),
    Array(usize),
    Advance(usize),
    IsEof,
}

impl Op {
    fn new(code: u8, argument: u8) -> Option<Self> {
        let n = usize::from(argument);

        Some(match code {
            0 => Op::Fill(n),
            1 => Op::Peek,
            2 => Op::Nth(n),
            3 => Op::NthToken(n),
            4 => Op::Glued(n),
            5 => Op::FlushWs,
            6 => Op::Bump,
            7 => Op::BumpWhile(argument),
            8 => Op::BumpIf(argument),
            9 => Op::Array(n),
            10 => Op::Advance(n),
            11 => Op::IsEof,
            _ => return None,
        })
    }

    fn name(self) -> &'static str {
        match self {
            Op::Fill(_) => "fill",
            Op::Peek => "peek",
            Op::Nth(_) => "nth",
            Op::NthToken(_) => "nth_token",
            Op::Glued(_) => "glued",
            Op::FlushWs => "flush_ws",
            Op::Bump => "bump",
            Op::BumpWhile(_) => "bump_while",
            Op::BumpIf(_) => "bump_if",
            Op::Array(_) => "array",
            Op::Advance(_) => "advance",
            Op::IsEof => "is_eof",
        }
    }
}

/// A payload taken apart: whether white space is kept, the source, and the calls as pairs of bytes.
struct Script<'a> {
    keep: bool,
    source: &'a [u8],
    ops: &'a [u8],
}

impl<'a> Script<'a> {
    fn new(payload: &'a [u8]) -> core::result::Result<Self, Malformed> {
        let Some((&[keep, a, b, c, d], rest)) = payload.split_first_chunk() else {
            return Err(Malformed("a script of fewer than 5 bytes"));
        };

        let length = u32::from_le_bytes([a, b, c, d]) as usize;

        let Some((source, ops)) = rest.split_at_checked(length) else {
            return Err(Malformed("a script with a source longer than its frame"));
        };

        if keep > 1 || ops.len() % 2 != 0 || ops.chunks(2).any(|op| op[0] > 11) {
            return Err(Malformed("a script with a keep byte or a call that is not known"));
        }

        Ok(Self {
            keep: keep == 1,
            source,
            ops,
        })
    }
}

pub(crate) fn answer(
    payload: &[u8],
    answer: &mut Answer,
) -> core::result::Result<(), Malformed> {
    let script = Script::new(payload)?;

    let listed = text(script.source).and_then(|source| {
        list(source, |_| ())?;
        Ok(source)
    });

    match listed {
        Ok(source) => run(source, &script, answer),
        Err(refusal) => answer.refusal(&refusal),
    }

    Ok(())
}

fn run(source: &str, script: &Script<'_>, answer: &mut Answer) {
    let ops = script.ops.chunks(2).map(|op| (op[0], op[1]));

    let inside = each_call(source, script.keep, ops, |name, numbers, emitted| {
        answer.word(name);
        answer.numbers(numbers);
        answer.word("|");
        answer.numbers(emitted);
        answer.end_line();
    });

    if !inside {
        answer.word("outside");
        answer.end_line();
    }
}

/// Makes the calls over a source that lists, and tells of each its name, the numbers that it answers and the tokens that
/// it emits, three words each; false before the first that is outside the domain of equality.
pub fn each_call(
    source: &str,
    keep: bool,
    ops: impl IntoIterator<Item = (u8, u8)>,
    mut told: impl FnMut(&'static str, &[u32], &[u32]),
) -> bool {
    let mut parser = Parser::new(Source::lexer(plain_lexer(source)));
    parser.include_whitespace(keep);
    let mut numbers = Vec::new();
    let mut emitted = Vec::new();

    for (code, argument) in ops {
        let op = Op::new(code, argument).expect("a call's code is 0 to 11");
        numbers.clear();
        emitted.clear();
        let inside = call(&mut parser, op, &mut numbers).expect("the source was listed");

        if !inside || parser.ws.most() > MOST_WAITING {
            return false;
        }

        for (kind, span) in parser.tree.take_tokens() {
            emitted.extend([number_of(kind), span.start, span.end]);
        }

        told(op.name(), &numbers, &emitted);
    }

    true
}

/// Makes one call and answers whether it is inside the domain of equality.
fn call(parser: &mut Parser<'_>, op: Op, numbers: &mut Vec<u32>) -> Result<bool> {
    match op {
        Op::Fill(n) | Op::Nth(n) | Op::NthToken(n) | Op::Glued(n) if n >= HELD => return Ok(false),
        Op::Array(n) if n > HELD => return Ok(false),
        Op::Advance(n) if n > parser.buf.len() => return Ok(false),
        Op::Fill(n) => parser.fill(n)?,
        Op::Peek => numbers.push(number_of(parser.peek()?)),
        Op::Nth(n) => numbers.push(number_of(parser.nth(n)?)),
        Op::NthToken(n) => push_token(numbers, &parser.nth_token(n)?),
        Op::Glued(n) => numbers.push(number_of(parser.glued(n)?)),
        Op::FlushWs => push_span(numbers, parser.flush_ws()?),
        Op::Bump => push_token(numbers, &parser.bump()?),
        Op::BumpWhile(number) => return bump_while(parser, number, numbers),
        Op::BumpIf(number) => {
            let Some(kind) = kind_of(number) else {
                return Ok(false);
            };
            numbers.push(u32::from(parser.bump_if(kind)?));
        }
        Op::Array(n) => array(parser, n, numbers)?,
        Op::Advance(n) => parser.advance(n)?,
        Op::IsEof => numbers.push(u32::from(parser.is_eof()?)),
    }

    Ok(true)
}

fn bump_while(parser: &mut Parser<'_>, number: u8, numbers: &mut Vec<u32>) -> Result<bool> {
    let Some(kind) = kind_of(number) else {
        return Ok(false);
    };

    // The call would not end.
    if kind == Kind::Eof && parser.peek()? == Kind::Eof {
        return Ok(false);
    }

    numbers.push(u32::from(parser.bump_while(kind)?));
    Ok(true)
}

fn array(parser: &mut Parser<'_>, n: usize, numbers: &mut Vec<u32>) -> Result<()> {
    match n {
        0 => array_of::<0>(parser, numbers),
        1 => array_of::<1>(parser, numbers),
        2 => array_of::<2>(parser, numbers),
        3 => array_of::<3>(parser, numbers),
        4 => array_of::<4>(parser, numbers),
        5 => array_of::<5>(parser, numbers),
        6 => array_of::<6>(parser, numbers),
        7 => array_of::<7>(parser, numbers),
        _ => array_of::<8>(parser, numbers),
    }
}

fn array_of<const N: usize>(parser: &mut Parser<'_>, numbers: &mut Vec<u32>) -> Result<()> {
    for token in parser.array::<N>()?.as_slice() {
        push_token(numbers, token);
    }

    Ok(())
}

fn push_token(numbers: &mut Vec<u32>, token: &Token) {
    numbers.push(number_of(token.kind));
    push_span(numbers, token.span);
}

fn push_span(numbers: &mut Vec<u32>, span: Span) {
    numbers.extend([span.start.0, span.end.0]);
}
