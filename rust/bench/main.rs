//! Our library beside the Rust on the same inputs in one process. bin/bench runs it and makes the table.
//!
//!     bench count          each side once on each input; rust/bench/count counts, and a line names each call in order
//!     bench time TURNS     the least time of so many turns, the sides taking turns
//!
//! A line is: call, input, kind of text, size, bytes read, side, and with `time` the nanoseconds. Different answers end it with status 1.

#[path = "../frames/chance.rs"]
#[allow(dead_code)] // the pieces of the frames ask for more
mod chance;
mod escapes;
mod inputs;
#[path = "../puffsatchel/src/lent.rs"]
mod lent;
mod look;
mod measured;

use std::hint::black_box;
use std::process::ExitCode;
use std::rc::Rc;
use std::time::Instant;

use look::Look;
use measured::{
    measured_ours_list, measured_ours_list_first, measured_ours_look, measured_ours_look_alone,
    measured_ours_unescape, measured_rust_list, measured_rust_look, measured_rust_look_alone,
    measured_rust_unescape, Body, Form, Room,
};

const SIZES: [usize; 2] = [1024, 65_536];

/// In one turn of the clock each side reads at least so many bytes.
const BYTES_A_TURN: usize = 65_536;

/// One call on one input.
struct Case {
    input: String,
    size: usize,
    work: Work,
}

impl Case {
    fn new(input: &str, size: usize, work: Work) -> Self {
        Self { input: input.to_string(), size, work }
    }
}

enum Work {
    List(Vec<u8>),
    /// In the inputs each comment ends where it does in the Rust.
    ListFirst(Vec<u8>),
    Unescape(Vec<Body>),
    Look(Rc<Look>),
    LookAlone(Rc<Look>),
}

impl Work {
    fn call(&self) -> &'static str {
        match self {
            Work::List(..) => "list",
            Work::ListFirst(..) => "list, first close",
            Work::Unescape(..) => "unescape",
            Work::Look(..) => "look",
            Work::LookAlone(..) => "look alone",
        }
    }

    fn texts(&self) -> Vec<&[u8]> {
        match self {
            Work::List(source) | Work::ListFirst(source) => vec![source],
            Work::Unescape(bodies) => bodies.iter().map(|body| &body.bytes[..]).collect(),
            Work::Look(look) | Work::LookAlone(look) => vec![&look.source],
        }
    }

    fn bytes(&self) -> usize {
        self.texts().iter().map(|text| text.len()).sum()
    }

    fn kind(&self) -> &'static str {
        if self.texts().iter().all(|text| text.is_ascii()) {
            "ascii"
        } else {
            "wide"
        }
    }

    fn ours(&self, room: &mut Room) {
        match self {
            Work::List(source) => _ = black_box(measured_ours_list(source, room)),
            Work::ListFirst(source) => _ = black_box(measured_ours_list_first(source, room)),
            Work::Unescape(bodies) => _ = black_box(measured_ours_unescape(bodies, room)),
            Work::Look(look) => _ = black_box(measured_ours_look(look, room)),
            Work::LookAlone(look) => _ = black_box(measured_ours_look_alone(look, room)),
        }
    }

    fn rusts(&self, room: &mut Room) {
        match self {
            Work::List(source) | Work::ListFirst(source) => _ = black_box(measured_rust_list(source, room)),
            Work::Unescape(bodies) => _ = black_box(measured_rust_unescape(bodies, room)),
            Work::Look(look) => _ = black_box(measured_rust_look(look, room)),
            Work::LookAlone(look) => _ = black_box(measured_rust_look_alone(look, room)),
        }
    }

    /// Each side once, ours first; whether both accept and give the same.
    fn same(&self, room: &mut Room) -> bool {
        match self {
            Work::List(source) => {
                let ours = measured_ours_list(source, room);
                let rusts = measured_rust_list(source, room);
                rusts && ours.is_some_and(|count| room.same_tokens(count))
            }
            Work::ListFirst(source) => {
                let ours = measured_ours_list_first(source, room);
                let rusts = measured_rust_list(source, room);
                rusts && ours.is_some_and(|count| room.same_tokens(count))
            }
            Work::Unescape(bodies) => {
                let ours = measured_ours_unescape(bodies, room);
                let rusts = measured_rust_unescape(bodies, room);
                rusts && ours.is_some_and(|count| room.same_output(count))
            }
            Work::Look(look) => {
                let ours = measured_ours_look(look, room);
                let rusts = measured_rust_look(look, room);
                rusts && ours.is_some_and(|count| room.same_emitted(count)) && look.same_answers()
            }
            Work::LookAlone(look) => {
                let ours = measured_ours_look_alone(look, room);
                let rusts = measured_rust_look_alone(look, room);
                rusts && ours.is_some_and(|count| room.same_emitted(count))
            }
        }
    }
}

/// The bodies of a source's strings, byte strings and templates.
fn bodies_of(source: &str) -> Vec<Body> {
    let mut tokens = Vec::new();
    oracle::list(source.as_bytes(), &mut tokens);

    let body = |[kind, start, end]: [u32; 3]| {
        let (form, mark) = match kind {
            11 | 12 => (Form::Text, 1),
            13 | 14 => (Form::ByteText, 2),
            16 => (Form::Template, 1),
            _ => return None,
        };
        let inside = start as usize + mark..end as usize - 1;
        let bytes = source.as_bytes()[inside].to_vec();
        Some(Body { form, bytes })
    };
    tokens.into_iter().filter_map(body).collect()
}

fn sources(size: usize) -> [(&'static str, String); 7] {
    [
        ("typical rules", inputs::typical(size)),
        ("mostly comments", inputs::comments(size)),
        ("strings, templates", inputs::strings(size)),
        ("operators", inputs::operators(size)),
        ("not ASCII", inputs::not_ascii(size)),
        ("starred comments", inputs::starred(size)),
        ("thresholds", inputs::thresholds(size)),
    ]
}

/// Each source by rune's reading, and then each to the first close of a comment.
fn lists(size: usize, sources: &[(&str, String)]) -> Vec<Case> {
    let mut cases = Vec::new();

    for work in [Work::List, Work::ListFirst] {
        for (input, source) in sources {
            cases.push(Case::new(input, size, work(source.clone().into_bytes())));
        }
    }

    cases
}

/// Each source's script with its white space dropped and kept: with the lexing, and then all without.
fn looks(size: usize, sources: &[(&str, String)]) -> Vec<Case> {
    let mut whole = Vec::new();
    let mut alone = Vec::new();

    for (input, source) in sources {
        for keep in [false, true] {
            let input = format!("{input}{}", if keep { ", kept" } else { "" });
            let look = Rc::new(Look::new(source, keep).expect("the inputs are accepted"));
            whole.push(Case::new(&input, size, Work::Look(look.clone())));
            alone.push(Case::new(&input, size, Work::LookAlone(look)));
        }
    }

    whole.append(&mut alone);
    whole
}

fn cases() -> Vec<Case> {
    let mut cases = Vec::new();

    for size in SIZES {
        let sources = sources(size);
        let bodies = [
            ("plain text", Form::Text, inputs::plain_body(size)),
            ("text, escapes", Form::Text, inputs::text_body(size)),
            ("template, escapes", Form::Template, inputs::template_body(size)),
            ("bytes, escapes", Form::ByteText, inputs::byte_body(size)),
            ("text, not ASCII", Form::Text, inputs::wide_body(size)),
        ];
        let short = [
            ("bodies of typical", bodies_of(&sources[0].1)),
            ("bodies of strings", bodies_of(&sources[2].1)),
            ("bodies of not ASCII", bodies_of(&sources[4].1)),
        ];

        cases.extend(lists(size, &sources));
        for (input, form, body) in bodies {
            let bytes = body.into_bytes();
            let work = Work::Unescape(vec![Body { form, bytes }]);
            cases.push(Case::new(input, size, work));
        }
        for (input, bodies) in short {
            let work = Work::Unescape(bodies);
            cases.push(Case::new(input, size, work));
        }
        // To the lookahead a comment is a token, starred or not, and so is a number.
        cases.extend(looks(size, &sources[..5]));
    }

    cases
}

fn name(case: &Case) -> String {
    let Case { input, size, work } = case;
    format!("{}\t{input}\t{}\t{size}\t{}", work.call(), work.kind(), work.bytes())
}

fn count(cases: &[Case], room: &mut Room) -> Result<(), String> {
    for case in cases {
        if !case.work.same(room) {
            return Err(format!("{}: the two sides answer differently", name(case)));
        }
        println!("{}\tours", name(case));
        println!("{}\trust", name(case));
    }
    Ok(())
}

fn nanoseconds(repeats: usize, mut run: impl FnMut()) -> f64 {
    let began = Instant::now();
    for _ in 0..repeats {
        run();
    }
    began.elapsed().as_nanos() as f64 / repeats as f64
}

fn time(cases: &[Case], room: &mut Room, turns: usize) {
    for case in cases {
        let repeats = BYTES_A_TURN.div_ceil(case.work.bytes());
        let mut ours = f64::INFINITY;
        let mut rusts = f64::INFINITY;

        for _ in 0..turns {
            ours = ours.min(nanoseconds(repeats, || case.work.ours(room)));
            rusts = rusts.min(nanoseconds(repeats, || case.work.rusts(room)));
        }

        println!("{}\tours\t{ours:.0}", name(case));
        println!("{}\trust\t{rusts:.0}", name(case));
    }
}

fn main() -> ExitCode {
    let arguments: Vec<String> = std::env::args().skip(1).collect();
    let mut room = Room::new();

    let done = match arguments.iter().map(String::as_str).collect::<Vec<_>>()[..] {
        ["count"] => count(&cases(), &mut room),
        ["time", turns] if turns.parse::<usize>().is_ok_and(|turns| turns > 0) => {
            time(&cases(), &mut room, turns.parse().unwrap_or(1));
            Ok(())
        }
        _ => Err("usage: bench count | bench time TURNS".to_string()),
    };

    match done {
        Ok(()) => ExitCode::SUCCESS,
        Err(message) => {
            eprintln!("bench: {message}");
            ExitCode::FAILURE
        }
    }
}
