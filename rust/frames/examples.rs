//! Fixed inputs: document 01's examples and easy errors first, then one for each rule and refusal.

use std::io;

use crate::look::{
    ADVANCE, ARRAY, BUMP, BUMP_IF, BUMP_WHILE, FILL, FLUSH_WS, GLUED, IS_EOF, NTH, NTH_TOKEN, PEEK,
};
use crate::short::FORMS;
use crate::sink::Sink;

const DOCUMENT: [&str; 16] = [
    "", "/**/", "/*a*/", "/*ab*/", "/**/x/**/", "'A", "'a", "'a\n", "''", "...", "`}`", "`\\''`",
    "'a b", "b'\\''", "a;", "a",
];

const EASY_ERRORS: [&str; 14] = [
    "/* /* */ */", "/***/", "/*/", "/*/*/", "/*/**/", "`\\\"a`\"b`", "`\\`a`b`", "`\\/*ab`*/`",
    "`a", "`\\", "`{`", "`{`}`", "b'''", "b'\\\\'",
];

const KINDS: [&str; 32] = [
    "#!", "#!a\nb", " #!", "#!é\r\n", "#", "//", "//a\nb", "///\n", "/* a\n */", "_", "__", "_a",
    "aé·", "·", "À×", "ªµº", "\u{24f}", "b", "ba", "'0", "'0'", "'a1B", "b'0'", "\"0\"", "\"\\0\"",
    "b\"0\"", "b\"\\x41\"", "\"a\nb\"", "'\\'a", "'a'b'", "`a${b}`", "a\t\r\n\u{85}\u{a0}b",
];

const OPERATORS: &str = "! # $ % & ( ) * + , - . / : ; < = > ? @ [ ] ^ { | } ~ \
    != %= && &= *= += -= -> .. /= :: << <= == => >= >> ^= |= || ..= <<= >>=";

const SIDE_BY_SIDE: [&str; 6] = ["!==", "<<<=", "....=", "-->", "|||", "&&=>>>=="];

const REFUSED: [&str; 26] = [
    "'\\", "b'\\", "b'a\\", "\"\\", "b\"a\\", "'\u{1}", "'\u{85}'", "'ab\u{7f}", "'A\u{9f}", "''a b",
    "'", "a '", "b'", "b'a", "b'\n'", "b'\\\n'", "b'a\n'", "\"", "\"é", "b\"", "b\"a", "\\", "a\\",
    "\u{1}", "×", "a\u{ad}b",
];

const TEMPLATES: [&str; 16] = [
    "``", "`é`", "`}`a", "`{{}`}`", "`}{`", "`\\`", "`\\``", "`\\'`", "`\\''a`", "`\\b'a`'`",
    "`\\//`\n`", "`\\\n`", "`\\\\`", "`\\a`", "`\\\"`", "`\\'\n`",
];

const WIDE: [&str; 8] = [
    "\"漢\u{1f600}\"", "b\"ж\"", "'Ω'", "b'€'", "//ж\n", "/*漢字*/", "`ж{漢}`", "'\\€'",
];

/// Each is ill formed: stray, overlong, surrogate, too high, cut short.
const ILL_FORMED: [&[u8]; 14] = [
    b"\x80", b"a\xff", b"\xc0\x80", b"\xc1\xbf", b"\xe0\x9f\xbf", b"\xed\xa0\x80", b"\xf0\x8f\xbf\xbf",
    b"\xf4\x90\x80\x80", b"\xf5\x80\x80\x80", b"a\xc3", b"ab\xe2\x82", b"\xf0\x9f\x98", b"\xe2\x82a",
    b"\"\xc3\xa9\xe9\"",
];

pub(crate) fn list(sink: &mut Sink) -> io::Result<()> {
    let tables: [&[&str]; 7] =
        [&DOCUMENT, &EASY_ERRORS, &KINDS, &SIDE_BY_SIDE, &REFUSED, &TEMPLATES, &WIDE];

    for source in tables.into_iter().flatten() {
        sink.frame(b'L', source.as_bytes())?;
    }

    for operator in OPERATORS.split(' ') {
        sink.frame(b'L', operator.as_bytes())?;
    }

    sink.frame(b'L', OPERATORS.as_bytes())?;
    sink.frame(b'L', nested(64).as_bytes())?;
    sink.frame(b'L', nested(64).trim_end_matches('`').as_bytes())?;

    for source in ILL_FORMED {
        sink.frame(b'L', source)?;
    }

    Ok(())
}

/// Templates of the given depth, each opened after a backslash in the one before.
fn nested(depth: usize) -> String {
    vec!["`"; depth].join("\\") + &"`".repeat(depth)
}

const BODIES: [&str; 44] = [
    "", "\\x7f", "\\x80", "\\xff", "\\u{100000041}", "\\u{}", "\\u{d800}", "\\u{41}", "\\u{dfff}",
    "\\u{e000}", "\\u{10ffff}", "\\u{110000}", "\\u{123456780000000000041}", "\\u{g}", "\\u{4",
    "\\u{", "\\u", "\\u4", "\\ué", "\\'\\\"\\n\\r\\t\\\\\\0", "\\$\\`", "\\`", "\\$", "a", "'", "\"",
    "`${a}", "\u{1}\u{7f}", "\\", "a\\", "\\q", "\\é", "\\x", "\\x4", "\\xg", "\\xé", "\\x4é",
    "\\x4€b", "é", "aé\\q", "漢", "\\\n \t\u{85}\u{2028}\u{3000}a", "\\\r\nb", "a\\\n",
];

pub(crate) fn escape(sink: &mut Sink) -> io::Result<()> {
    for form in FORMS {
        for body in BODIES {
            sink.frame(form, body.as_bytes())?;
        }

        for body in ILL_FORMED {
            sink.frame(form, body)?;
        }
    }

    Ok(())
}

const SCRIPTS: [(&str, &[(u8, u8)]); 10] = [
    ("", &[(PEEK, 0), (BUMP, 0), (BUMP, 0), (BUMP_IF, 67), (IS_EOF, 0), (FLUSH_WS, 0)]),
    (" //a\n", &[(PEEK, 0), (GLUED, 0), (FLUSH_WS, 0), (FLUSH_WS, 0), (BUMP, 0)]),
    ("a b;", &[(GLUED, 1), (GLUED, 0), (BUMP, 0), (GLUED, 0), (FLUSH_WS, 0), (GLUED, 0), (BUMP, 0)]),
    ("a b /*xx*/ c;d", &[(FILL, 7), (ADVANCE, 2), (ADVANCE, 2), (ADVANCE, 1), (BUMP, 0)]),
    ("a b c;", &[(BUMP_WHILE, 6), (BUMP_WHILE, 6), (BUMP_IF, 31), (BUMP_WHILE, 67)]),
    ("a \"b\" \"\\n\" 'c", &[(ARRAY, 0), (ARRAY, 8), (BUMP, 0), (BUMP_IF, 12), (BUMP_IF, 11)]),
    ("a;a;a;a;a", &[(NTH, 7), (NTH_TOKEN, 7), (ADVANCE, 8), (NTH, 7), (NTH_TOKEN, 7), (ADVANCE, 1)]),
    ("a", &[(FILL, 8)]),
    ("a", &[(BUMP_IF, 8)]),
    ("a ''", &[(PEEK, 0)]),
];

pub(crate) fn look(sink: &mut Sink) -> io::Result<()> {
    for (source, ops) in SCRIPTS {
        for keep in [false, true] {
            sink.script(keep, source.as_bytes(), ops)?;
        }
    }

    Ok(())
}

/// At the limit of 65,536 bytes and one past it, in every mode.
pub(crate) fn long(sink: &mut Sink) -> io::Result<()> {
    let units: [&[u8]; 10] =
        [b"a", b" ", b"a;", b"\n//", b"`", b"/*aaa*/", b"{}", b"\\n", b"\\x41", b"\xc3\xa9"];
    let opens: [&[u8]; 6] = [b"", b"\"", b"`", b"/*", b"'", b"b'"];

    for length in [65_535, 65_536, 65_537] {
        for unit in units {
            for open in opens {
                let mut source = open.to_vec();
                source.extend(unit.iter().cycle().take(length - open.len()));
                sink.frame(b'L', &source)?;
            }

            let body: Vec<u8> = unit.iter().copied().cycle().take(length).collect();

            for form in FORMS {
                sink.frame(form, &body)?;
            }
        }
    }

    Ok(())
}
