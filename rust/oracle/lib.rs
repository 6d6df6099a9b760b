//! The oracle: the Rust's lexer, escapes and lookahead, unchanged. README.md has the forms of what `run` reads and writes.

// The three files hold and ask for more than plain mode uses.
#![allow(dead_code)]

mod alloc;
mod answer;
#[macro_use]
mod ast;
mod compile;
mod frame;
mod grammar;
mod listing;
mod macros;
mod numbers;
mod parse;
mod shared;

use std::io;

use answer::Answer;
use frame::{next_frame, Malformed};
use grammar::script;

pub use ast::body::{unescape, Form};
pub use grammar::look::{Emitted, Look};
pub use grammar::script::each_call;
pub use listing::{list_words, text};
pub use numbers::Refusal;

#[derive(Debug, Clone, Copy, PartialEq, Eq)]
pub(crate) struct SourceId(u32);

/// There is one source at a time.
const SOURCE: SourceId = SourceId(0);

/// The crate's lexer calls itself for each template opened after a backslash; 65,536 bytes may open 32,768.
pub const STACK: usize = 256 << 20;

/// Adds the tokens of a source to `out`, each as document 01's kind with its start and end; false where it is refused.
pub fn list(source: &[u8], out: &mut Vec<[u32; 3]>) -> bool {
    text(source)
        .and_then(|source| list_words(source, |token| out.push(token)))
        .is_ok()
}

/// Answers the frames on standard input.
pub fn run() -> Result<(), String> {
    let mut answer = Answer::new();
    let mut input = io::BufReader::with_capacity(1 << 20, io::stdin());
    let mut payload = Vec::new();
    let mut out = Vec::new();

    for number in 0u64.. {
        let answered = match next_frame(&mut input, &mut payload) {
            Ok(None) => break,
            Ok(Some(mode)) => answer_frame(mode, &payload, &mut out, &mut answer),
            Err(malformed) => Err(malformed),
        };

        if let Err(Malformed(what)) = answered {
            answer.end().map_err(|error| error.to_string())?;
            return Err(format!("frame {number}: {what}"));
        }

        answer.end_frame().map_err(|error| error.to_string())?;
    }

    answer.end().map_err(|error| error.to_string())
}

fn answer_frame(
    mode: u8,
    payload: &[u8],
    out: &mut Vec<u8>,
    answer: &mut Answer,
) -> Result<(), Malformed> {
    let form = match mode {
        b'L' => {
            listing::answer(payload, answer);
            return Ok(());
        }
        b'a' => return script::answer(payload, answer),
        b't' => Form::Text,
        b'p' => Form::Template,
        b'c' => Form::Char,
        b's' => Form::ByteText,
        b'b' => Form::Byte,
        _ => return Err(Malformed("a mode that is not known")),
    };

    ast::body::answer(form, payload, out, answer);
    Ok(())
}
