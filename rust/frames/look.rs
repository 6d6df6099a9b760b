//! Scripts of lookahead calls.

use std::io;

use crate::chance::Chance;
use crate::pieces;
use crate::short::turn;
use crate::sink::Sink;
use crate::source::inside_domain;

pub(crate) const FILL: u8 = 0;
pub(crate) const PEEK: u8 = 1;
pub(crate) const NTH: u8 = 2;
pub(crate) const NTH_TOKEN: u8 = 3;
pub(crate) const GLUED: u8 = 4;
pub(crate) const FLUSH_WS: u8 = 5;
pub(crate) const BUMP: u8 = 6;
pub(crate) const BUMP_WHILE: u8 = 7;
pub(crate) const BUMP_IF: u8 = 8;
pub(crate) const ARRAY: u8 = 9;
pub(crate) const ADVANCE: u8 = 10;
pub(crate) const IS_EOF: u8 = 11;

const WORD: u8 = 6;
const SEMICOLON: u8 = 31;
const END: u8 = 67;

const SOURCES: [&str; 16] = [
    "", " ", "a", " a", "a ", "a b", "a  ;b", "a/*bb*/b", "//x\na;", "a;b", "aa bb cc", "/**/",
    ";;;", " a /*bb*/ //c\n b c ", "#!x\na b", "a\n//\n//\n;a",
];

const CALLS: [(u8, u8); 15] = [
    (FILL, 1),
    (PEEK, 0),
    (NTH, 1),
    (NTH_TOKEN, 2),
    (GLUED, 0),
    (GLUED, 1),
    (FLUSH_WS, 0),
    (BUMP, 0),
    (BUMP_WHILE, WORD),
    (BUMP_IF, SEMICOLON),
    (BUMP_IF, END),
    (ARRAY, 2),
    (ADVANCE, 1),
    (ADVANCE, 2),
    (IS_EOF, 0),
];

/// Every script of up to four calls over each small source.
pub(crate) fn short(sink: &mut Sink) -> io::Result<()> {
    for source in SOURCES {
        for keep in [false, true] {
            for length in 0..=4 {
                every(sink, keep, source, length)?;
            }
        }
    }

    Ok(())
}

fn every(sink: &mut Sink, keep: bool, source: &str, length: usize) -> io::Result<()> {
    let mut wheels = vec![0; length];

    loop {
        let ops: Vec<(u8, u8)> = wheels.iter().map(|&at| CALLS[at]).collect();
        sink.script(keep, source.as_bytes(), &ops)?;

        if !turn(&mut wheels, CALLS.len()) {
            return Ok(());
        }
    }
}

pub(crate) fn random(sink: &mut Sink, count: u64, seed: u64) -> io::Result<()> {
    let mut chance = Chance::new(seed);

    for _ in 0..count {
        let source = source(&mut chance);
        let mut ops = Vec::new();

        for _ in 0..chance.below(24) {
            calls(&mut chance, &mut ops);
        }

        sink.script(chance.one_in(2), source.as_bytes(), &ops)?;
    }

    Ok(())
}

fn source(chance: &mut Chance) -> String {
    let mut text = String::new();

    if chance.one_in(256) {
        // Around the 256 tokens that may wait.
        text.push_str(&"//\n".repeat(126 + chance.below(4)));
    }

    for _ in 0..chance.below(20) {
        match chance.below(16) {
            0..=3 => pieces::word(chance, &mut text),
            4..=6 => text.push(chance.pick(&[';', ',', '.', '(', ')', '=', '<', '>'])),
            7..=11 => text.push_str(chance.pick(&[" ", "\n", "//x\n", "/*ab*/", "/**//*-*/"])),
            12 => text.push_str(chance.pick(&["'a'", "b'a'", "'a ", "_ ", "'A'"])),
            13 => text.push_str(chance.pick(&["\"a\"", "\"\\n\"", "b\"a\"", "b\"\\n\"", "`a`"])),
            14 => text.push_str(chance.pick(&["/*", "#!", "\"", "`", "..=", "::", "@", "''"])),
            _ => pieces::rough(chance, &mut text, 2),
        }
    }

    inside_domain(&text)
}

/// Adds a call, or a fill with an advance that mostly stays within what it holds.
fn calls(chance: &mut Chance, ops: &mut Vec<(u8, u8)>) {
    let n = chance.pick(&[0, 0, 0, 0, 1, 1, 1, 2, 2, 3, 4, 5, 6, 7]);

    match chance.below(32) {
        0..=1 => ops.push((FILL, n)),
        2..=4 => ops.push((PEEK, 0)),
        5..=6 => ops.push((NTH, n)),
        7..=8 => ops.push((NTH_TOKEN, n)),
        9..=11 => ops.push((GLUED, n)),
        12..=14 => ops.push((FLUSH_WS, 0)),
        15..=19 => ops.push((BUMP, 0)),
        20..=21 => ops.push((BUMP_WHILE, kind(chance))),
        22..=23 => ops.push((BUMP_IF, kind(chance))),
        24..=25 => ops.push((ARRAY, n + chance.below(2) as u8)),
        26..=28 => {
            let filled = chance.pick(&[0, 1, 2]);
            ops.push((FILL, filled));
            ops.push((ADVANCE, chance.below(usize::from(filled) + 2) as u8));
        }
        29 => ops.push((ADVANCE, 0)),
        30 => ops.push((IS_EOF, 0)),
        _ if chance.one_in(16) => ops.push((chance.pick(&[FILL, NTH, ARRAY, ADVANCE]), 9)),
        _ => ops.push((IS_EOF, 0)),
    }
}

fn kind(chance: &mut Chance) -> u8 {
    match chance.below(12) {
        0..=4 => WORD,
        5 => SEMICOLON,
        6 => chance.pick(&[1, 2, 3, 4]),
        7 => chance.pick(&[9, 10, 11, 12, 13, 14, 15, 16]),
        8 => chance.pick(&[5, 7, 16, END]),
        9 if chance.one_in(8) => chance.pick(&[0, 8, 68, 255]),
        _ => chance.pick(&[22, 23, 26, 28, 32, 33, 34, 52]),
    }
}
