//! The pieces that random sources are made of.

use crate::chance::Chance;

const LETTERS: [char; 14] = [
    'a', 'b', 'e', 'r', 'x', 'z', 'A', 'Z', '_', 'é', 'ß', 'µ', 'ª', '\u{24f}',
];

const SPACES: [char; 8] = [' ', ' ', '\n', '\n', '\t', '\r', '\u{85}', '\u{a0}'];

/// What stands at the edges of the rules.
pub(crate) const STRANGE: [char; 32] = [
    '\\', '\\', '`', '`', '\'', '"', '{', '}', '$', '/', '*', '#', '!', 'b', 'a', 'A', '_', ' ',
    '\n', '\r', '\u{1}', '\u{7f}', '\u{85}', '\u{9f}', '\u{a0}', '·', '×', '÷', 'À', 'ÿ', 'µ', '¿',
];

/// Scalars above U+024F: letters, marks, white space and others, of three and four bytes too.
const WIDE: [char; 14] = [
    '\u{250}', '\u{301}', 'Ω', 'ж', 'ა', '\u{1680}', '\u{2028}', '€', '\u{3000}', '漢', '\u{feff}',
    '\u{fffd}', '\u{1f600}', '\u{10ffff}',
];

const OPERATORS: [&str; 50] = [
    "!", "#", "$", "%", "&", "(", ")", "*", "+", ",", "-", ".", "/", ":", ";", "<", "=", ">", "?",
    "@", "[", "]", "^", "{", "|", "}", "~", "!=", "%=", "&&", "&=", "*=", "+=", "-=", "->", "..",
    "/=", "::", "<<", "<=", "==", "=>", ">=", ">>", "^=", "|=", "||", "..=", "<<=", ">>=",
];

const COMMENT_BODIES: [&str; 12] = [
    "", "*", "/", "**", "*/*", "/*", "a", "ab", "é", " a ", "*/ab", "\n*\n",
];

const CHARS: [&str; 20] = [
    "'a'", "'A'", "'ab'", "'aB'", "'é'", "'\\n'", "'\\''", "'\\\\'", "'\\x41'", "'\\u{ab}'", "'_'",
    "' '", "'`'", "'\"'", "''", "'", "'a", "'A", "'\\", "'\n'",
];

const LABELS: [&str; 5] = ["'a", "'abc", "'a1", "'outer", "'aB"];

const BYTES: [&str; 16] = [
    "b'a'", "b'ab'", "b'\\n'", "b'\\''", "b'\\\\'", "b'\\x41'", "b''", "b'''", "b'", "b'a", "b'\\",
    "b'a\\", "b'\n'", "b'a\n'", "b'é'", "b'`'",
];

const ESCAPES: [&str; 14] = [
    "\\\"", "\\\\", "\\'", "\\n", "\\r", "\\t", "\\x41", "\\u{ab}", "\\`", "\\$", "\\\n", "\\é",
    "\\q", "\\{",
];

/// Adds any piece; `depth` bounds how far templates nest by intent.
pub(crate) fn rough(chance: &mut Chance, out: &mut String, depth: usize) {
    match chance.below(20) {
        0 | 1 => word(chance, out),
        2 => chance.some(4, &SPACES, out),
        3 => line_comment(chance, out),
        4 | 5 => comment(chance, out),
        6 | 7 => string(chance, out, "\""),
        8 => string(chance, out, "b\""),
        9 => out.push_str(chance.pick(&CHARS)),
        10 => out.push_str(chance.pick(&LABELS)),
        11 => out.push_str(chance.pick(&BYTES)),
        12..=15 if depth > 0 => template(chance, out, depth - 1),
        16 => out.push(chance.pick(&STRANGE)),
        _ => out.push_str(chance.pick(&OPERATORS)),
    }
}

pub(crate) fn word(chance: &mut Chance, out: &mut String) {
    out.push(chance.pick(&LETTERS));
    chance.some(5, &LETTERS, out);

    if chance.one_in(6) {
        out.push_str("a1");
    }
}

fn line_comment(chance: &mut Chance, out: &mut String) {
    out.push_str(chance.pick(&["//", "///", "//!", "//*", "////"]));
    chance.some(8, &STRANGE, out);

    if !chance.one_in(8) {
        out.push('\n');
    }
}

fn comment(chance: &mut Chance, out: &mut String) {
    out.push_str("/*");
    out.push_str(chance.pick(&COMMENT_BODIES));

    if chance.one_in(2) {
        chance.some(6, &STRANGE, out);
    }

    out.push_str(chance.pick(&["*/", "*/", "*/", "*/", "**/", "", "*"]));
}

fn string(chance: &mut Chance, out: &mut String, open: &str) {
    out.push_str(open);

    for _ in 0..chance.below(6) {
        if chance.one_in(2) {
            out.push_str(chance.pick(&ESCAPES));
        } else {
            chance.some(4, &LETTERS, out);
            chance.some(2, &SPACES, out);
        }
    }

    if !chance.one_in(10) {
        out.push('"');
    }
}

fn template(chance: &mut Chance, out: &mut String, depth: usize) {
    out.push('`');

    for _ in 0..chance.below(6) {
        match chance.below(12) {
            0 | 1 => chance.some(5, &LETTERS, out),
            2 => out.push_str("${a}"),
            3 => out.push_str(chance.pick(&["{", "}", "{}", "}{", "{{", "}}"])),
            4 => out.push_str("${`a`}"),
            5 => out.push_str(chance.pick(&ESCAPES)),
            6 => chance.some(3, &STRANGE, out),
            7 if depth > 0 => {
                out.push('\\');
                template(chance, out, depth - 1);
            }
            _ => {
                out.push('\\');
                rough(chance, out, depth);
            }
        }
    }

    if !chance.one_in(8) {
        out.push('`');
    }
}

/// Adds one closed piece that stays closed whatever stands before or after it.
pub(crate) fn tidy(chance: &mut Chance, out: &mut String) {
    match chance.below(8) {
        0 => word(chance, out),
        1 => out.push_str(chance.pick(&OPERATORS)),
        2 => tidy_between(chance, out, "\"", "\""),
        3 => tidy_between(chance, out, "b\"", "\""),
        4 => tidy_single(chance, out),
        5 => tidy_between(chance, out, "//", "\n"),
        6 => tidy_between(chance, out, "/*--", "*/"),
        _ => tidy_between(chance, out, "`", "`"),
    }
}

fn tidy_between(chance: &mut Chance, out: &mut String, open: &str, close: &str) {
    out.push_str(open);

    for _ in 0..chance.below(6) {
        chance.some(3, &LETTERS, out);
        chance.some(3, &WIDE, out);

        if open.ends_with('"') && chance.one_in(2) {
            out.push_str(chance.pick(&["\\\"", "\\\\", "\\n", "\\ж", "\\\u{2028}"]));
        }
    }

    out.push_str(close);
}

fn tidy_single(chance: &mut Chance, out: &mut String) {
    out.push_str(chance.pick(&["'", "b'"]));
    out.push(chance.pick(&WIDE));
    out.push('\'');
}
