//! The library and the Rust in one process: each input through both, every answer and every lent word and byte compared.
//! Stops at the first difference, with its input and both answers.
//!
//! The inputs are those of rust/frames' generators, which hand each to a sink: here one that compares.

mod answers;
mod bodies;
mod differences;
mod domain;
mod lent;
mod own;
mod rules;
mod scripts;
mod sink;
mod sources;

#[path = "../frames/chance.rs"]
mod chance;
#[path = "../frames/damage.rs"]
mod damage;
#[path = "../frames/escape.rs"]
mod escape;
#[path = "../frames/examples.rs"]
mod examples;
#[path = "../frames/look.rs"]
mod look;
#[path = "../frames/pieces.rs"]
mod pieces;
#[path = "../frames/scalars.rs"]
mod scalars;
#[path = "../frames/short.rs"]
mod short;
#[path = "../frames/source.rs"]
mod source;

use std::io;
use std::process::ExitCode;
use std::time::Instant;

use answers::Difference;
use domain::REASONS;
use sink::{Sink, Tally};

const USAGE: &str = "compare-all [--quick] [SEED-OF-SOURCES [SEED-OF-BODIES [SEED-OF-RULES]]]";

/// How much of each kind of input.
struct Plan {
    source_length: usize,
    body_length: usize,
    scalars: bool,
    short_scripts: bool,
    sources: u64,
    bodies: u64,
    scripts: u64,
    rules: u64,
    copies: u64,
    largest: u64,
    seeds: [u64; 3],
}

fn main() -> ExitCode {
    let arguments: Vec<String> = std::env::args().skip(1).collect();

    let Some(plan) = plan(&arguments) else {
        eprintln!("{USAGE}");
        return ExitCode::from(2);
    };

    let work = std::thread::Builder::new()
        .stack_size(oracle::STACK)
        .spawn(move || run(&plan))
        .expect("a thread");

    match work.join() {
        Ok(Ok(())) => ExitCode::SUCCESS,
        Ok(Err(error)) => {
            println!("compare-all: DIFFERENT: {error}");
            ExitCode::FAILURE
        }
        Err(_) => ExitCode::FAILURE,
    }
}

/// Answers none where the arguments are not understood.
fn plan(arguments: &[String]) -> Option<Plan> {
    let quick = arguments.first().is_some_and(|argument| argument == "--quick");
    let given = &arguments[usize::from(quick)..];
    let mut seeds = [1, 1, 1];

    if given.len() > seeds.len() {
        return None;
    }

    for (seed, argument) in seeds.iter_mut().zip(given) {
        *seed = argument.parse().ok()?;
    }

    Some(if quick { Plan::small(seeds) } else { Plan::whole(seeds) })
}

impl Plan {
    fn whole(seeds: [u64; 3]) -> Self {
        Self {
            source_length: 5,
            body_length: 4,
            scalars: true,
            short_scripts: true,
            sources: 2_000_000,
            bodies: 2_000_000,
            scripts: 2_000_000,
            rules: 500_000,
            copies: 3,
            largest: 50,
            seeds,
        }
    }

    fn small(seeds: [u64; 3]) -> Self {
        Self {
            source_length: 3,
            body_length: 2,
            scalars: false,
            short_scripts: false,
            sources: 10_000,
            bodies: 10_000,
            scripts: 10_000,
            rules: 2_000,
            copies: 3,
            largest: 2,
            seeds,
        }
    }
}

/// Hands inputs of one kind to a sink.
type Make<'a> = Box<dyn Fn(&mut Sink) -> io::Result<()> + 'a>;

/// The kinds of input with their names, in the order in which they are compared.
fn streams(plan: &Plan) -> Vec<(String, Make<'_>)> {
    let [of_sources, of_bodies, of_rules] = plan.seeds;
    let (longest, length) = (plan.body_length, plan.source_length);
    let mut streams: Vec<(String, Make)> = vec![
        ("examples".to_owned(), Box::new(examples_all)),
        ("one unit repeated to 65,535, 65,536 and 65,537 bytes".to_owned(), Box::new(examples::long)),
        (
            format!("rule files cut at 65,535, 65,536 and 65,537 bytes, seed {of_rules}"),
            Box::new(move |sink| rules::largest(sink, plan.largest, of_rules)),
        ),
        (
            format!("rule files, {} damaged copies of each, seed {of_rules}", plan.copies),
            Box::new(move |sink| rules::files(sink, plan.rules, plan.copies, of_rules)),
        ),
        (format!("random sources, seed {of_sources}"), Box::new(move |sink| source::list(sink, plan.sources, of_sources))),
        (format!("random bodies, seed {of_bodies}"), Box::new(move |sink| escape::random(sink, plan.bodies, of_bodies))),
        (
            format!("random scripts of lookahead calls, seed {of_sources}"),
            Box::new(move |sink| look::random(sink, plan.scripts, of_sources)),
        ),
        (format!("every body of up to {longest} scalars, five forms"), Box::new(move |sink| short::escape(sink, longest))),
    ];

    if plan.scalars {
        streams.push(("every Unicode scalar where a rule may look at it".to_owned(), Box::new(scalars::all)));
    }
    if plan.short_scripts {
        streams.push(("every script of up to four lookahead calls over 16 small sources".to_owned(), Box::new(look::short)));
    }
    streams.push((format!("every source of up to {length} scalars"), Box::new(move |sink| short::list(sink, length))));
    streams
}

fn examples_all(sink: &mut Sink) -> io::Result<()> {
    examples::list(sink)?;
    examples::escape(sink)?;
    examples::look(sink)
}

fn run(plan: &Plan) -> io::Result<()> {
    let began = Instant::now();
    let mut total = Tally::default();
    let mut sink = Sink::new();

    let named = differences::compare().map_err(|Difference(said)| io::Error::other(said))?;
    println!("differences that are named: {named} inputs, both answers as in docs/DIFFERENCES.md");

    for (name, make) in streams(plan) {
        sink.begin(&name);
        make(&mut sink)?;
        let (tally, seconds) = sink.end();
        println!("{name}: {}, equal in {seconds:.1} s", said(&tally));
        total.add(&tally);
    }

    println!("all: {}, no difference, in {:.0} s", said(&total), began.elapsed().as_secs_f64());
    Ok(())
}

/// A tally in words; of sources outside the domain of equality only our own answers were judged, and a script over a source
/// that is refused is no case.
fn said(tally: &Tally) -> String {
    let mut said = format!("{} cases ({} sources, {} bodies, {} scripts", tally.cases(), tally.sources, tally.bodies, tally.scripts);

    if tally.unlisted > 0 {
        said.push_str(&format!(", without {} over a source that both refuse", tally.unlisted));
    }

    said.push(')');

    for (count, (_, reason)) in tally.outside.iter().zip(REASONS) {
        if *count > 0 {
            said.push_str(&format!(", {count} of them outside the domain by {reason}"));
        }
    }

    said
}
