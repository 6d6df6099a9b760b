//! Lists the tokens of a rule file with their text, or says what is wrong with it, where, and what to do. Comments end as in
//! rune, unless they are to end at the first `*/`.
//!
//! usage: list [--comments crate|first] FILE

use std::process::ExitCode;
use std::{env, fs};

use puffsatchel::{Lexer, Reading};

fn main() -> ExitCode {
    let arguments: Vec<String> = env::args().skip(1).collect();

    let (reading, path) = match arguments.iter().map(String::as_str).collect::<Vec<_>>()[..] {
        [path] | ["--comments", "crate", path] => (Reading::rune(), path),
        ["--comments", "first", path] => (Reading::first_close(), path),
        _ => {
            eprintln!("usage: list [--comments crate|first] FILE");
            return ExitCode::from(2);
        }
    };

    match fs::read(path) {
        Ok(source) => list(path, &source, reading),
        Err(error) => {
            eprintln!("{path}: {error}");
            ExitCode::from(2)
        }
    }
}

fn list(path: &str, source: &[u8], reading: Reading) -> ExitCode {
    for token in Lexer::new(source, reading) {
        match token {
            Ok(token) => {
                let text = String::from_utf8_lossy(&source[token.span.range()]);
                println!("{:?} {}..{} {text:?}", token.kind, token.span.start, token.span.end);
            }
            Err(refusal) => {
                let lines = source[..refusal.span.start].iter().filter(|&&byte| byte == b'\n').count();
                eprintln!("{path}, line {}: {refusal}", lines + 1);
                return ExitCode::FAILURE;
            }
        }
    }

    ExitCode::SUCCESS
}
