//! Every public call as a user without std makes it. bin/test-rust compiles this and looks for a call of core's panic.

#![no_std]

use core::fmt::{self, Write};

use puffsatchel::{findings, list, load, outline, read, store, test, unescape};
use puffsatchel::{Code, Finding, Findings, Stopped, Token, Tokens};
use puffsatchel::{Form, Kind, Lexer, Lookahead, Reading, Reason, Refusal, Whitespace};

#[no_mangle]
pub fn readings() -> [Reading; 2] {
    [Reading::rune(), Reading::first_close()]
}

#[no_mangle]
pub fn lexer_new(source: &[u8], reading: Reading) -> Lexer<'_> {
    Lexer::new(source, reading)
}

#[no_mangle]
pub fn lexer_next(lexer: &mut Lexer<'_>) -> Option<Result<Token, Refusal>> {
    lexer.next()
}

#[no_mangle]
pub fn one(source: &[u8], reading: Reading, at: usize) -> Result<Token, Refusal> {
    test(source)?;
    read(source, reading, at)
}

#[no_mangle]
pub fn lists(source: &[u8], reading: Reading, words: &mut [u32]) -> Result<usize, Stopped> {
    list(source, reading, words)
}

#[no_mangle]
pub fn tokens_new(words: &[u32]) -> Tokens<'_> {
    Tokens::of(words)
}

#[no_mangle]
pub fn tokens_next(tokens: &mut Tokens<'_>) -> Option<Result<Token, Refusal>> {
    tokens.next()
}

#[no_mangle]
pub fn finds<'a>(source: &'a [u8], reading: Reading, words: &'a mut [u32]) -> Result<Findings<'a>, Stopped> {
    findings(source, reading, words)
}

#[no_mangle]
pub fn findings_new<'a>(source: &'a [u8], words: &'a [u32]) -> Findings<'a> {
    Findings::of(source, words)
}

#[no_mangle]
pub fn findings_next(found: &mut Findings<'_>) -> Option<Result<Finding, Refusal>> {
    found.next()
}

#[no_mangle]
pub fn outlines(source: &str, reading: Reading, out: &mut [u8]) -> Result<(), Refusal> {
    outline(source, reading, out)
}

#[no_mangle]
pub fn unescapes(form: Form, body: &str, out: &mut [u8]) -> Result<usize, Refusal> {
    unescape(form, body, out)
}

#[no_mangle]
pub fn carries(words: &mut [u32], bytes: &mut [u8]) -> Result<usize, Refusal> {
    store(words, bytes)?;
    load(bytes, words)
}

#[no_mangle]
pub fn looks(words: &[u32], n: usize, kind: Kind, out: &mut [u32]) -> Result<Token, Refusal> {
    let mut ahead = Lookahead::new(words, Whitespace::Keep)?;
    ahead.fill(n)?;
    if ahead.is_eof()? || ahead.peek()? == ahead.nth(n)? || ahead.glued(n)? == kind {
        ahead.array(n, out)?;
        ahead.advance(n, out)?;
    }
    ahead.flush_ws(out)?;
    ahead.bump_if(kind, out)?;
    ahead.bump_while(kind, out)?;
    ahead.bump(out)?;
    ahead.nth_token(n)
}

#[no_mangle]
pub fn numbers(number: u32) -> (Option<Kind>, Option<Reason>, u32) {
    (Kind::from_number(number), Reason::from_number(number), puffsatchel::version())
}

#[no_mangle]
pub fn numbered(kind: Kind, reason: Reason) -> (u32, u32, bool) {
    (kind.number(), reason.number(), kind.is_whitespace())
}

#[no_mangle]
pub fn said(stopped: &Stopped, kind: Kind, out: &mut dyn Write) -> fmt::Result {
    write!(out, "{stopped} {stopped:?} {kind} {kind:?}")
}

#[no_mangle]
pub fn code_said(number: u32, first: u8, out: &mut dyn Write) -> fmt::Result {
    match Code::from_number(number, first) {
        Some(code) => write!(out, "{} {code} {code:?} {} {}", code.number(), code.name(), code.cure()),
        None => Ok(()),
    }
}
