//! Makes framed inputs for the oracle and for whatever is compared with it.

mod chance;
mod damage;
mod escape;
mod examples;
mod look;
mod pieces;
mod scalars;
mod short;
mod sink;
mod source;

use std::io;
use std::process::ExitCode;

use sink::Sink;

const USAGE: &str = "frames [--only MODES] list-short N | list-random COUNT SEED | escape-short N | escape-random COUNT SEED
     | look-short | look-random COUNT SEED | scalars
     | examples-list | examples-escape | examples-look | examples-long";

fn main() -> ExitCode {
    let mut arguments: Vec<String> = std::env::args().skip(1).collect();
    let mut only = Vec::new();

    if arguments.len() > 1 && arguments[0] == "--only" {
        only = arguments.drain(..2).nth(1).unwrap_or_default().into_bytes();
    }

    let mut sink = Sink::new(only);

    match make(&arguments, &mut sink).map(|made| made.and_then(|()| sink.end())) {
        Some(Ok(())) => ExitCode::SUCCESS,
        Some(Err(error)) => {
            eprintln!("frames: {error}");
            ExitCode::FAILURE
        }
        None => {
            eprintln!("{USAGE}");
            ExitCode::from(2)
        }
    }
}

/// Answers none where the arguments are not understood.
fn make(arguments: &[String], sink: &mut Sink) -> Option<io::Result<()>> {
    let numbers: Option<Vec<u64>> = arguments.iter().skip(1).map(|a| a.parse().ok()).collect();

    Some(match (arguments.first()?.as_str(), &numbers?[..]) {
        ("list-short", &[n]) => short::list(sink, n as usize),
        ("list-random", &[count, seed]) => source::list(sink, count, seed),
        ("escape-short", &[n]) => short::escape(sink, n as usize),
        ("escape-random", &[count, seed]) => escape::random(sink, count, seed),
        ("look-short", []) => look::short(sink),
        ("look-random", &[count, seed]) => look::random(sink, count, seed),
        ("scalars", []) => scalars::all(sink),
        ("examples-list", []) => examples::list(sink),
        ("examples-escape", []) => examples::escape(sink),
        ("examples-look", []) => examples::look(sink),
        ("examples-long", []) => examples::long(sink),
        _ => return None,
    })
}
