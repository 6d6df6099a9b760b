//! Random sources inside document 01's domain of equality.

use std::io;

use crate::chance::Chance;
use crate::damage;
use crate::pieces;
use crate::sink::Sink;

pub(crate) fn list(sink: &mut Sink, count: u64, seed: u64) -> io::Result<()> {
    let mut chance = Chance::new(seed);

    for _ in 0..count {
        let mut bytes = source(&mut chance).into_bytes();

        if chance.one_in(32) {
            damage::bytes(&mut chance, &mut bytes);
        }

        sink.frame(b'L', &bytes)?;
    }

    Ok(())
}

fn source(chance: &mut Chance) -> String {
    let length = match chance.below(64) {
        0 => chance.below(3000),
        1..=20 => chance.below(24),
        _ => chance.below(200),
    };

    if chance.one_in(4) {
        return tidy(chance, length);
    }

    let mut text = rough(chance, length);

    if chance.one_in(2) {
        damage::scalars(chance, &mut text, &pieces::STRANGE);
    }

    inside_domain(&text)
}

/// Pieces of every kind, closed or not, side by side. No scalar above U+024F, since any piece may turn inside out.
fn rough(chance: &mut Chance, length: usize) -> String {
    let mut text = String::new();

    if chance.one_in(16) {
        text.push_str("#!");
    }

    while text.len() < length {
        pieces::rough(chance, &mut text, 6);

        if chance.one_in(3) {
            text.push(chance.pick(&[' ', '\n']));
        }
    }

    text
}

/// Closed pieces kept apart, so that wide scalars stay inside strings, chars, bytes, comments and plain templates.
fn tidy(chance: &mut Chance, length: usize) -> String {
    let mut text = String::new();

    while text.len() < length {
        pieces::tidy(chance, &mut text);
        text.push(chance.pick(&[' ', '\n']));
    }

    text
}

/// Drops what could leave the domain.
///
/// A digit stays only right after a letter, `_` or a digit that stayed: no token ends there and no backslash stands
/// there, so no number token can begin at it. A template's depth is at most one more than the number of backslashes
/// right before a backtick, so only 59 of those stay.
pub(crate) fn inside_domain(text: &str) -> String {
    let mut kept = String::with_capacity(text.len());
    let mut openings = 0;

    for c in text.chars() {
        let before = kept.chars().next_back();

        if c.is_ascii_digit() && !before.is_some_and(|b| b.is_ascii_alphanumeric() || b == '_') {
            continue;
        }

        if c == '`' && before == Some('\\') {
            openings += 1;

            if openings > 59 {
                continue;
            }
        }

        kept.push(c);
    }

    kept
}
