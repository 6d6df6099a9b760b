//! Rule files made by a small grammar: items, statements and expressions with the comments, strings and templates that
//! people write between them. Then damaged copies of them, and files around the largest length.

use std::io;

use crate::chance::Chance;
use crate::damage;
use crate::pieces;
use crate::sink::Sink;

const NAMES: [&str; 16] = [
    "site", "water", "level", "flow", "gate", "b", "bb", "turn", "said", "_", "_low", "größe", "été",
    "a1", "word_2", "naïf",
];

/// Outside the domain of equality: letters above U+024F.
const WIDE_NAMES: [&str; 4] = ["вода", "στάθμη", "水位", "ǆ\u{301}a"];

/// Outside it too.
const NUMBERS: [&str; 10] = ["0", "1.35", "0x1F", "0b101", "2_000", "1.", "1e-3", "3u8", "7.min", "0..=2"];

const TEXT: [&str; 16] = [
    "", "ice", "north grid", "\\\"north\\\"", "\\n", "\\\\", "\\x41", "\\u{e9}", "é", "水位", "€ ", "{}", "//",
    "/*", "`", "'",
];

const BYTE_TEXT: [&str; 8] = ["", "N1", "\\x02", "\\xff", "\\\"", "\\\\", "//", "é"];

const CHARS: [&str; 10] = ["'I'", "'\\n'", "'\\''", "'\\\\'", "'\"'", "'é'", "'水'", "'\\u{41}'", "'`'", "' '"];

const BYTES: [&str; 5] = ["b'I'", "b'\\n'", "b'\"'", "b'\\x1b'", "b'`'"];

const REMARKS: [&str; 12] = [
    "", " metres over the sill", " switched off", "*", "/", " TODO: été", " 水位", " \"", " `", " '", " don't", " **",
];

/// What makes reading run on over what was meant to close it, or stop.
const WILD: [&str; 10] = ["b'\\\\'", "/**/", "/*a*/", "/***/", "`\\{ }`", "`\\\"`", "}", "\\", "''", "/*/"];

const UNARY: [&str; 4] = ["!", "-", "*", "&"];

const BINARY: [&str; 24] = [
    "+", "-", "*", "/", "%", "&&", "||", "==", "!=", "<", ">", "<=", ">=", "<<", ">>", "&", "|", "^", "..", "..=",
    "is", "as", "::", "->",
];

const ASSIGN: [&str; 11] = ["=", "+=", "-=", "*=", "/=", "%=", "&=", "|=", "^=", "<<=", ">>="];

/// `count` files, each with `copies` damaged copies after it.
pub(crate) fn files(sink: &mut Sink, count: u64, copies: u64, seed: u64) -> io::Result<()> {
    let mut chance = Chance::new(seed);

    for _ in 0..count {
        let items = chance.below(6);
        let sort = Sort::any(&mut chance);
        let text = file(&mut chance, items, sort);
        sink.frame(b'L', text.as_bytes())?;

        for _ in 0..copies {
            let mut copy = text.clone();
            damage::scalars(&mut chance, &mut copy, &pieces::STRANGE);
            let mut bytes = copy.into_bytes();

            if chance.one_in(16) {
                damage::bytes(&mut chance, &mut bytes);
            }

            sink.frame(b'L', &bytes)?;
        }
    }

    Ok(())
}

/// `count` files of 65,535, 65,536 and 65,537 bytes each.
pub(crate) fn largest(sink: &mut Sink, count: u64, seed: u64) -> io::Result<()> {
    let mut chance = Chance::new(seed);

    for _ in 0..count {
        let sort = Sort::any(&mut chance);
        let mut text = String::new();

        while text.len() < 65_537 {
            text.push_str(&file(&mut chance, 20, sort));
        }

        for length in 65_535..=65_537 {
            let mut bytes = text.clone().into_bytes();
            bytes.truncate((0..=length).rev().find(|&at| text.is_char_boundary(at)).unwrap_or(0));
            bytes.resize(length, b' ');
            sink.frame(b'L', &bytes)?;
        }
    }

    Ok(())
}

/// What may stand in a file. Numbers and wide letters are outside the domain of equality, and a wild file is seldom read
/// as it was meant, so most files have none of the three.
#[derive(Clone, Copy)]
struct Sort {
    numbers: bool,
    wide: bool,
    wild: bool,
}

impl Sort {
    fn any(chance: &mut Chance) -> Self {
        Self {
            numbers: chance.one_in(16),
            wide: chance.one_in(16),
            wild: chance.one_in(4),
        }
    }
}

fn file(chance: &mut Chance, items: usize, sort: Sort) -> String {
    let mut file = File { chance, sort, text: String::new() };

    if file.chance.one_in(16) {
        file.text.push_str("#!/usr/bin/env rune\n");
    }

    for _ in 0..items {
        file.item();
    }

    file.text
}

struct File<'a> {
    chance: &'a mut Chance,
    sort: Sort,
    text: String,
}

impl File<'_> {
    fn item(&mut self) {
        match self.chance.below(8) {
            0 => self.comment(),
            1 => {
                self.put("use ");
                self.path();
                self.put(";");
            }
            2 | 3 => {
                self.put("const ");
                self.name();
                self.put(" =");
                self.expression(2);
                self.put(";");
            }
            _ => {
                self.put_one(&["pub fn ", "fn ", "async fn "]);
                self.name();
                self.put("(");
                self.names();
                self.put(")");
                self.block(2);
            }
        }

        self.text.push('\n');
    }

    fn block(&mut self, depth: usize) {
        self.put("{");

        for _ in 0..self.chance.below(5) {
            self.statement(depth);
        }

        self.put("}");
    }

    fn statement(&mut self, depth: usize) {
        match self.chance.below(if depth > 0 { 9 } else { 5 }) {
            0 | 1 => {
                self.put_one(&["let ", ""]);
                self.name();
                self.put_one(&ASSIGN);
                self.expression(2);
                self.put(";");
            }
            2 => {
                self.put_one(&["return ", "break 'again ", "_ = ", ""]);
                self.expression(3);
                self.put(";");
            }
            3 | 4 => self.comment(),
            5 | 6 => {
                self.put_one(&["if ", "while ", "'again: while ", "match "]);
                self.expression(2);
                self.block(depth - 1);
            }
            7 => {
                self.put_one(&["for ", "'a: for "]);
                self.name();
                self.put(" in ");
                self.expression(1);
                self.block(depth - 1);
            }
            _ => {
                self.put("|");
                self.names();
                self.put("| =>");
                self.block(depth - 1);
            }
        }
    }

    fn expression(&mut self, depth: usize) {
        match self.chance.below(if depth > 0 { 16 } else { 9 }) {
            0 | 1 => self.path(),
            2 if self.sort.numbers => self.put_one(&NUMBERS),
            2 | 3 => self.name(),
            4 => self.quoted("\"", &TEXT),
            5 => self.quoted("b\"", &BYTE_TEXT),
            6 => self.put_one(&CHARS),
            7 => self.put_one(&BYTES),
            8 => self.template(depth),
            9 | 10 => {
                self.path();
                self.put("(");
                self.expression(depth - 1);
                self.put(")");
            }
            11 => {
                self.put_one(&UNARY);
                self.text.push(' ');
                self.expression(depth - 1);
            }
            12 => {
                let (open, close) = self.chance.pick(&[("[", "]"), ("#{ a:", "}"), ("(", ")"), ("@[", "]?")]);
                self.put(open);
                self.expression(depth - 1);
                self.put(close);
            }
            _ => {
                self.expression(depth - 1);
                self.text.push(' ');
                self.put_one(&BINARY);
                self.text.push(' ');
                self.expression(depth - 1);
            }
        }
    }

    /// An inner expression stands in braces, where a backtick closes nothing, but a backslash reads a whole token: with
    /// strings in it the template may run on.
    fn template(&mut self, depth: usize) {
        self.text.push('`');

        for _ in 0..self.chance.below(5) {
            match self.chance.below(6) {
                0 | 1 => self.text.push_str(self.chance.pick(&["at ", ": ", " m", "{}", "été", "\""])),
                2 => self.text.push_str(self.chance.pick(&["\\n ", "\\$", "\\`a`", "\\\\ "])),
                _ => {
                    self.text.push_str("${");

                    if self.sort.wild && depth > 0 {
                        self.expression(depth - 1);
                    } else {
                        self.name();
                    }

                    self.text.push('}');
                }
            }
        }

        self.put("`");
    }

    fn quoted(&mut self, open: &str, of: &[&str]) {
        self.text.push_str(open);

        for _ in 0..self.chance.below(4) {
            self.text.push_str(self.chance.pick(of));
        }

        self.put("\"");
    }

    fn path(&mut self) {
        self.name();

        for _ in 0..self.chance.below(3) {
            self.text.push_str(self.chance.pick(&["::", ".", "?."]));
            self.name();
        }
    }

    fn names(&mut self) {
        for _ in 0..self.chance.below(4) {
            self.name();
            self.put(",");
        }
    }

    fn name(&mut self) {
        let names: &[&str] = if self.sort.wide && self.chance.one_in(8) { &WIDE_NAMES } else { &NAMES };
        self.text.push_str(self.chance.pick(names));
    }

    fn put_one(&mut self, from: &[&str]) {
        let word = self.chance.pick(from);
        self.put(word);
    }

    /// Adds a word, and what people put between words.
    fn put(&mut self, word: &str) {
        self.text.push_str(word);

        if self.sort.wild && self.chance.one_in(24) {
            self.text.push_str(self.chance.pick(&WILD));
        }

        match self.chance.below(32) {
            0..=15 => self.text.push(' '),
            16..=18 => self.text.push_str("\n    "),
            19 => self.text.push_str("\r\n\t"),
            20 => self.comment(),
            _ => {}
        }
    }

    fn comment(&mut self) {
        let forms = [("//", "\n"), ("// ", "\n"), ("/* ", " */"), ("/*--", "*/")];
        let (open, close) = self.chance.pick(&forms);
        self.text.push_str(open);
        self.text.push_str(self.chance.pick(&REMARKS));
        self.text.push_str(close);
    }
}
