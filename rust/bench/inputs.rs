//! The inputs: sources and bodies of an exact size, made by fixed rules from fixed seeds, inside document 01's domain of equality
//! (so no numbers, which the Rust reads by another rule, but in `thresholds`: these both read alike).

use crate::chance::Chance;

const NAMES: [&str; 16] = [
    "site", "now", "water", "level", "gate", "flow", "frost", "alarm", "north_intake", "low",
    "turn", "word", "log", "QUIET", "plant", "sill_height",
];

const WORDS: [&str; 20] = [
    "the", "grid", "of", "north", "intake", "is", "closed", "when", "ice", "stands", "at", "a",
    "metre", "over", "sill", "and", "no", "pump", "runs", "below",
];

/// Of two, three and four bytes a scalar; a third of the words of a text that is not ASCII comes from `WORDS`.
const WIDE_WORDS: [&str; 12] = [
    "Überlauf", "höhe", "água", "três", "уровень", "мороз", "насос", "στάθμη", "水位", "警报",
    "取水口", "🌊🧊",
];

/// A `/` comes with a `;`: another mark after it could open a comment.
const OPERATORS: [&str; 50] = [
    "!", "#", "$", "%", "&", "(", ")", "*", "+", ",", "-", ".", "/;", ":", ";", "<", "=", ">", "?",
    "@", "[", "]", "^", "{", "|", "}", "~", "!=", "%=", "&&", "&=", "*=", "+=", "-=", "->", "..",
    "/=", "::", "<<", "<=", "==", "=>", ">=", ">>", "^=", "|=", "||", "..=", "<<=", ">>=",
];

const NUMBERS: [&str; 12] = [
    "0.35", "1e-3", "1.5e-2", "2_000", "65", "12.5", "4e+2", "0x1F", "300", "0.002", "2.5e-4", "7",
];

const TEXT_ESCAPES: [&str; 7] = ["\\n", "\\t", "\\\"", "\\\\", "\\x41", "\\u{e9}", "\\0"];

/// No backtick: in a source it would open a template in the template.
const TEMPLATE_ESCAPES: [&str; 6] = ["\\n", "\\t", "\\$", "\\x41", "\\u{1f30a}", "\\\\"];

const BYTE_ESCAPES: [&str; 7] = ["\\n", "\\t", "\\\"", "\\\\", "\\x41", "\\xff", "\\0"];

/// Pieces while they fit, `filler` for the last few bytes.
fn filled(size: usize, filler: char, piece: impl Fn(&mut Chance, &mut String)) -> String {
    let mut chance = Chance::new(1);
    let mut text = String::with_capacity(size);
    let mut left_out = 0;

    while left_out < 100 {
        let whole = text.len();
        piece(&mut chance, &mut text);

        if text.len() > size {
            text.truncate(whole);
            left_out += 1;
        }
    }

    while text.len() < size {
        text.push(filler);
    }

    text
}

fn words(chance: &mut Chance, out: &mut String, least: usize, more: usize, from: &[&str]) {
    for turn in 0..least + chance.below(more) {
        if turn > 0 {
            out.push(' ');
        }
        out.push_str(chance.pick(from));
    }
}

fn mixed_words(chance: &mut Chance, out: &mut String) {
    for turn in 0..4 + chance.below(6) {
        if turn > 0 {
            out.push(' ');
        }
        let from = if chance.one_in(3) { &WORDS[..] } else { &WIDE_WORDS[..] };
        out.push_str(chance.pick(from));
    }
}

pub(crate) fn typical(size: usize) -> String {
    filled(size, '\n', |chance, out| {
        let [a, b, c, d] = [(); 4].map(|()| chance.pick(&NAMES));
        match chance.below(10) {
            0 => {
                out.push_str("    // ");
                words(chance, out, 4, 5, &WORDS);
            }
            1 => *out += &format!("pub fn {a}({b}, {c}) {{"),
            2 | 3 => *out += &format!("    let {a} = {b}({c}, {d});"),
            4 => *out += &format!("    if {a}.{b} <= {c} && !{d} {{"),
            5 => out.push_str("    }"),
            6 => {
                *out += &format!("        return {a}('I', \"");
                words(chance, out, 2, 4, &WORDS);
                *out += &format!("\", {b});");
            }
            7 => *out += &format!("    let {a} = `${{{b}}} at ${{{c}}}: {d}\\n`;"),
            8 => *out += &format!("    {a}.{b} += {c}::{d};"),
            _ => *out += &format!("        break '{};", a.to_lowercase()),
        }
        out.push('\n');
    })
}

/// Rules by numbers, as people write them.
pub(crate) fn thresholds(size: usize) -> String {
    filled(size, '\n', |chance, out| {
        let [a, b] = [(); 2].map(|()| chance.pick(&NAMES));
        let [m, n] = [(); 2].map(|()| chance.pick(&NUMBERS));
        match chance.below(4) {
            0 => *out += &format!("const {a} = {m};"),
            1 => *out += &format!("    if {a} >= {m} && {b} < {n} {{"),
            2 => *out += &format!("    let {a} = {b} * {m} + {n};"),
            _ => *out += &format!("    {a}({m}, {n});"),
        }
        out.push('\n');
    })
}

pub(crate) fn comments(size: usize) -> String {
    filled(size, '\n', |chance, out| match chance.below(8) {
        0 => *out += &format!("let {} = {};\n", chance.pick(&NAMES), chance.pick(&NAMES)),
        1..=4 => {
            out.push_str("// ");
            words(chance, out, 6, 8, &WORDS);
            out.push('\n');
        }
        _ => {
            out.push_str("/* ");
            words(chance, out, 6, 12, &WORDS);
            out.push_str(" */\n");
        }
    })
}

/// Comments that begin with one star more, as those do that say what stands below them, and have a star before each line.
pub(crate) fn starred(size: usize) -> String {
    filled(size, '\n', |chance, out| {
        out.push_str("/**");
        for _ in 0..chance.below(4) {
            out.push_str("\n * ");
            words(chance, out, 6, 8, &WORDS);
        }
        out.push_str(chance.pick(&["\n */\n", " */\n"]));
    })
}

pub(crate) fn strings(size: usize) -> String {
    filled(size, '\n', |chance, out| {
        *out += &format!("{} = ", chance.pick(&NAMES));
        let (open, close, escapes) = match chance.below(6) {
            0 | 1 => ("\"", "\"", None),
            2 => ("\"", "\"", Some(&TEXT_ESCAPES[..])),
            3 => ("b\"", "\"", Some(&BYTE_ESCAPES[..])),
            4 => ("`", "`", None),
            _ => ("`", "`", Some(&TEMPLATE_ESCAPES[..])),
        };
        out.push_str(open);
        words(chance, out, 4, 5, &WORDS);
        if let Some(escapes) = escapes {
            out.push_str(chance.pick(escapes));
            words(chance, out, 1, 3, &WORDS);
        }
        if open == "`" {
            *out += &format!(" ${{{}}}", chance.pick(&NAMES));
        }
        out.push_str(close);
        out.push_str(";\n");
    })
}

pub(crate) fn operators(size: usize) -> String {
    filled(size, ';', |chance, out| out.push_str(chance.pick(&OPERATORS)))
}

pub(crate) fn not_ascii(size: usize) -> String {
    filled(size, '\n', |chance, out| {
        let [a, b] = [(); 2].map(|()| chance.pick(&NAMES));
        let (open, close) = match chance.below(4) {
            0 => ("// ".to_string(), "\n".to_string()),
            1 => ("/* ".to_string(), " */\n".to_string()),
            2 => (format!("let {a} = \""), "\";\n".to_string()),
            _ => (format!("let {a} = `"), format!(" ${{{b}}}`;\n")),
        };
        out.push_str(&open);
        mixed_words(chance, out);
        out.push_str(&close);
    })
}

pub(crate) fn plain_body(size: usize) -> String {
    filled(size, 'a', |chance, out| {
        out.push_str(chance.pick(&WORDS));
        out.push(' ');
    })
}

fn escaped_body(size: usize, escapes: &[&str]) -> String {
    filled(size, 'a', |chance, out| {
        out.push_str(chance.pick(&WORDS));
        out.push_str(chance.pick(escapes));
    })
}

pub(crate) fn text_body(size: usize) -> String {
    escaped_body(size, &TEXT_ESCAPES)
}

pub(crate) fn template_body(size: usize) -> String {
    escaped_body(size, &TEMPLATE_ESCAPES)
}

pub(crate) fn byte_body(size: usize) -> String {
    escaped_body(size, &BYTE_ESCAPES)
}

pub(crate) fn wide_body(size: usize) -> String {
    filled(size, 'a', |chance, out| {
        mixed_words(chance, out);
        out.push_str(chance.pick(&TEXT_ESCAPES));
    })
}
