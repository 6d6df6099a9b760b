//! Random bodies for the five forms of unescaping.

use std::io;

use crate::chance::Chance;
use crate::damage;
use crate::short::FORMS;
use crate::sink::Sink;

const GOOD: [&str; 16] = [
    "\\'", "\\\"", "\\n", "\\r", "\\t", "\\\\", "\\0", "\\x00", "\\x41", "\\x7f", "\\x80", "\\xFf",
    "\\$", "\\`", "\\u{41}", "\\u{1F600}",
];

const BAD: [&str; 20] = [
    "\\", "\\q", "\\é", "\\€", "\\x", "\\xg", "\\x4", "\\x4g", "\\xé", "\\x4€", "\\u", "\\u4",
    "\\u{", "\\u{}", "\\u{g}", "\\u{4", "\\u{d800}", "\\u{110000}", "\\u{ffffffff}", "\\u{€}",
];

const PLAIN: [char; 14] = [
    'a', 'Z', ' ', '0', 'n', '\'', '"', '`', '$', '{', '}', '\n', '\u{1}', '\u{7f}',
];

const MULTI: [char; 8] = ['\u{80}', 'é', '\u{7ff}', '\u{800}', '€', '\u{ffff}', '\u{10000}', '\u{1f600}'];

const SPACES: [char; 14] = [
    '\t', '\n', '\u{b}', '\u{c}', '\r', ' ', '\u{85}', '\u{a0}', '\u{1680}', '\u{2000}', '\u{200a}',
    '\u{2029}', '\u{202f}', '\u{3000}',
];

const HEX: [char; 22] = [
    '0', '0', '0', '1', '2', '3', '4', '5', '6', '7', '8', '9', 'a', 'b', 'c', 'd', 'e', 'f', 'A',
    'C', 'E', 'F',
];

const STRANGE: [char; 16] = [
    '\\', '\\', 'x', 'u', '{', '}', '0', 'f', 'g', '\n', '\r', ' ', '\u{2028}', '$', 'é', '\u{1f600}',
];

pub(crate) fn random(sink: &mut Sink, count: u64, seed: u64) -> io::Result<()> {
    let mut chance = Chance::new(seed);

    for _ in 0..count {
        let form = chance.pick(&FORMS);
        let mut bytes = body(&mut chance, form).into_bytes();

        if chance.one_in(64) {
            damage::bytes(&mut chance, &mut bytes);
        }

        sink.frame(form, &bytes)?;
    }

    Ok(())
}

fn body(chance: &mut Chance, form: u8) -> String {
    let mut body = String::new();

    // A char or byte body has one item, so most of those are one piece.
    let pieces = match form {
        b'c' | b'b' if !chance.one_in(4) => 1,
        _ => chance.below(12),
    };

    // Most bodies hold no bad escape, so that reading goes on to the end.
    let bad = chance.one_in(3);

    for _ in 0..pieces {
        piece(chance, form, bad, &mut body);
    }

    if chance.one_in(4) {
        damage::scalars(chance, &mut body, &STRANGE);
    }

    body
}

fn piece(chance: &mut Chance, form: u8, bad: bool, body: &mut String) {
    let bytes = matches!(form, b's' | b'b');

    match chance.below(8) {
        0 if bad => body.push_str(chance.pick(&BAD)),
        1 if !bytes || bad => long_unicode(chance, body),
        2 if !bytes || bad => chance.some(3, &MULTI, body),
        3 if bad || !matches!(form, b'c' | b'b') => continuation(chance, body),
        4 | 5 => chance.some(4, &PLAIN, body),
        6 => hex(chance, body),
        _ => body.push_str(chance.pick(&GOOD)),
    }
}

/// One to twelve digits, of which only the last eight count.
fn long_unicode(chance: &mut Chance, body: &mut String) {
    body.push_str("\\u{");
    let small = chance.one_in(2);

    for left in (0..1 + chance.below(12)).rev() {
        // Zeros in the upper of the last eight digits make it a scalar more often.
        let zero = small && (4..8).contains(&left);
        body.push(if zero { '0' } else { chance.pick(&HEX) });
    }

    body.push('}');
}

fn hex(chance: &mut Chance, body: &mut String) {
    body.push_str("\\x");
    body.push(chance.pick(&HEX));
    body.push(chance.pick(&HEX));
}

fn continuation(chance: &mut Chance, body: &mut String) {
    body.push('\\');
    body.push(chance.pick(&['\n', '\r']));
    chance.some(6, &SPACES, body);
}
