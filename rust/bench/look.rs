//! Scripts of lookahead calls as a parser makes them, and our side of running one.

use crate::chance::Chance;
use crate::lent::{Ahead, Answer};

/// By the codes of the oracle's README.
const PEEK: u8 = 1;
const NTH: u8 = 2;
const GLUED: u8 = 4;
const FLUSH_WS: u8 = 5;
const BUMP: u8 = 6;
const BUMP_WHILE: u8 = 7;
const BUMP_IF: u8 = 8;
const IS_EOF: u8 = 11;

const LAST_WHITE: u32 = 4;
const SEMICOLON: u8 = 31;

/// A word, `(`, `,`, `.`, `=` and `{`.
const ASKED_FOR: [u8; 6] = [6, 22, 26, 28, 33, 40];

/// The list and the state were tested before: the list is our own, and the state is one that the calls left.
const TESTED: u32 = 1;

macro_rules! calls {
    ($($name:ident($($argument:ident: $of:ty),*);)*) => {
        extern "C" {
            $(fn $name(state: *mut Ahead, tested: u32, $($argument: $of,)* answer: *mut Answer) -> u32;)*
        }
    };
}

calls! {
    puffsatchel_peek(list: *const u32, list_len: usize);
    puffsatchel_nth(n: usize, list: *const u32, list_len: usize);
    puffsatchel_glued(n: usize, list: *const u32, list_len: usize);
    puffsatchel_is_eof(list: *const u32, list_len: usize);
    puffsatchel_flush_ws(list: *const u32, list_len: usize, out: *mut u32, out_len: usize);
    puffsatchel_bump(list: *const u32, list_len: usize, out: *mut u32, out_len: usize);
    puffsatchel_bump_while(kind: u32, list: *const u32, list_len: usize, out: *mut u32, out_len: usize);
    puffsatchel_bump_if(kind: u32, list: *const u32, list_len: usize, out: *mut u32, out_len: usize);
}

/// The calls for a list of tokens, from its first to its end. Before a parser takes a token it peeks, and now and then does what the crate's
/// grammar does about as often: it sets a checkpoint, looks one further, asks for a kind.
fn script(tokens: &[[u32; 3]]) -> Vec<(u8, u8)> {
    let kinds = tokens.iter().filter(|token| token[0] > LAST_WHITE);
    let kinds: Vec<u8> = kinds.map(|token| token[0] as u8).collect();
    let mut chance = Chance::new(1);
    let mut calls = Vec::new();
    let mut at = 0;

    while at < kinds.len() {
        calls.push((PEEK, 0));
        let sometimes = [(FLUSH_WS, 0, 2), (NTH, 1, 8), (GLUED, 1, 8)];
        for (code, argument, every) in sometimes {
            if chance.one_in(every) {
                calls.push((code, argument));
            }
        }

        if chance.one_in(6) {
            calls.push((BUMP_WHILE, SEMICOLON));
            at += kinds[at..].iter().take_while(|kind| **kind == SEMICOLON).count();
        }
        if chance.one_in(3) {
            let kind = chance.pick(&ASKED_FOR);
            calls.push((BUMP_IF, kind));
            at += usize::from(kinds.get(at) == Some(&kind));
        }
        if at < kinds.len() {
            calls.push((BUMP, 0));
            at += 1;
        }
    }

    calls.push((IS_EOF, 0));
    calls
}

/// A script over a source and over the list of its tokens.
pub(crate) struct Look {
    pub(crate) source: Vec<u8>,
    pub(crate) list: Vec<u32>,
    pub(crate) rusts: oracle::Look,
    keep: bool,
    calls: Vec<(u8, u8)>,
}

impl Look {
    /// None where the source is refused.
    pub(crate) fn new(source: &str, keep: bool) -> Option<Self> {
        let source = source.as_bytes().to_vec();
        let mut tokens = Vec::new();
        oracle::list(&source, &mut tokens);
        let calls = script(&tokens);
        let rusts = oracle::Look::new(&source, keep, &calls)?;
        let list = tokens.into_flattened();
        Some(Self { source, list, rusts, keep, calls })
    }

    /// From a fresh state on, each answer told of; how many words were written to `out`, or none where a call is refused.
    #[inline]
    pub(crate) fn run(&self, list: &[u32], out: &mut [u32], mut told: impl FnMut(u8, &Answer)) -> Option<usize> {
        let mut state = Ahead::fresh(self.keep);
        let mut written = 0;
        let mut answer = Answer::default();

        for &call in &self.calls {
            if ask(&mut state, call, list, &mut out[written..], &mut answer) != 0 {
                return None;
            }
            written += 3 * answer.count;
            told(call.0, &answer);
        }

        Some(written)
    }

    /// Whether each call answers the same on both sides; what is emitted is compared where it is measured.
    pub(crate) fn same_answers(&self) -> bool {
        let mut out = vec![0; self.list.len()];
        let mut ours = Vec::new();
        let mut rusts = Vec::new();
        let done = self.run(&self.list, &mut out, |code, answer| ours.push(numbers(code, answer)));
        let calls = self.calls.iter().copied();

        let inside = oracle::text(&self.source).is_ok_and(|source| {
            oracle::each_call(source, self.keep, calls, |_, numbers, _| rusts.push(numbers.to_vec()))
        });

        done.is_some() && inside && ours == rusts
    }
}

// Inlined, as the Rust's calls are into its loop: what a call costs is to be counted, and not the way to it.
#[inline(always)]
fn ask(state: &mut Ahead, (code, argument): (u8, u8), list: &[u32], out: &mut [u32], answer: &mut Answer) -> u32 {
    let (list, list_len) = (list.as_ptr(), list.len());
    let (out, out_len) = (out.as_mut_ptr(), out.len());
    let n = usize::from(argument);
    let kind = u32::from(argument);

    // SAFETY: each pointer is of as many elements as the number beside it says, and nothing overlaps.
    unsafe {
        match code {
            PEEK => puffsatchel_peek(state, TESTED, list, list_len, answer),
            NTH => puffsatchel_nth(state, TESTED, n, list, list_len, answer),
            GLUED => puffsatchel_glued(state, TESTED, n, list, list_len, answer),
            FLUSH_WS => puffsatchel_flush_ws(state, TESTED, list, list_len, out, out_len, answer),
            BUMP => puffsatchel_bump(state, TESTED, list, list_len, out, out_len, answer),
            BUMP_WHILE => puffsatchel_bump_while(state, TESTED, kind, list, list_len, out, out_len, answer),
            BUMP_IF => puffsatchel_bump_if(state, TESTED, kind, list, list_len, out, out_len, answer),
            IS_EOF => puffsatchel_is_eof(state, TESTED, list, list_len, answer),
            _ => unreachable!("scripts are of eight calls"),
        }
    }
}

/// The numbers of our answer in the oracle's form.
fn numbers(code: u8, answer: &Answer) -> Vec<u32> {
    let Answer { value, start, end, .. } = *answer;
    let all = match code {
        FLUSH_WS => vec![start, end],
        BUMP => vec![value, start, end],
        _ => vec![value],
    };
    all.into_iter().map(|number| number as u32).collect()
}
