//! A whole body, driven through the crate's escape functions.

use core::iter::Peekable;
use core::str::CharIndices;

use super::unescape::{
    parse_byte_escape, parse_char_escape, ErrorKind, WithLineCont, WithTemplate,
};
use crate::answer::Answer;
use crate::listing::text;
use crate::numbers::Refusal;

#[derive(Clone, Copy, PartialEq)]
pub enum Form {
    Text,
    Template,
    Char,
    ByteText,
    Byte,
}

impl Form {
    fn is_bytes(self) -> bool {
        matches!(self, Form::ByteText | Form::Byte)
    }

    fn is_single(self) -> bool {
        matches!(self, Form::Char | Form::Byte)
    }

    fn template(self) -> WithTemplate {
        WithTemplate(self == Form::Template)
    }

    fn line_cont(self) -> WithLineCont {
        WithLineCont(!self.is_single())
    }
}

pub(crate) fn answer(form: Form, payload: &[u8], out: &mut Vec<u8>, answer: &mut Answer) {
    out.clear();

    match text(payload).and_then(|body| unescape(form, body, out)) {
        Ok(()) => {
            answer.word("out");
            answer.numbers(&[out.len() as u32]);

            if !out.is_empty() {
                answer.hex(out);
            }

            answer.end_line();
        }
        Err(refusal) => answer.refusal(&refusal),
    }
}

/// Adds what the body stands for to `out`; with a refusal it may have added a part of it.
pub fn unescape(form: Form, body: &str, out: &mut Vec<u8>) -> Result<(), Refusal> {
    let mut it = body.char_indices().peekable();
    let mut items = 0;

    while let Some((start, c)) = it.next() {
        match item(form, c, &mut it, out) {
            Ok(given) => items += usize::from(given),
            Err(number) => {
                // What is still to come begins right after the last scalar taken.
                let end = it.peek().map_or(body.len(), |&(at, _)| at);
                return Err(Refusal::new(number, start, end));
            }
        }
    }

    if form.is_single() && items != 1 {
        return Err(Refusal::new(27, 0, body.len()));
    }

    Ok(())
}

/// Reads what begins with `c`, and answers whether it gave an item.
fn item(
    form: Form,
    c: char,
    it: &mut Peekable<CharIndices<'_>>,
    out: &mut Vec<u8>,
) -> Result<bool, u32> {
    if form.is_bytes() {
        let byte = match c {
            '\\' => parse_byte_escape(it, form.line_cont()).map_err(number_of)?,
            c if c.is_ascii() => Some(c as u8),
            _ => return Err(25),
        };
        out.extend(byte);
        return Ok(byte.is_some());
    }

    let scalar = match c {
        '\\' => parse_char_escape(it, form.template(), form.line_cont()).map_err(number_of)?,
        c => Some(c),
    };

    if let Some(c) = scalar {
        out.extend_from_slice(c.encode_utf8(&mut [0; 4]).as_bytes());
    }

    Ok(scalar.is_some())
}

fn number_of(kind: ErrorKind) -> u32 {
    match kind {
        ErrorKind::BadEscapeSequence => 20,
        ErrorKind::BadUnicodeEscapeInByteString => 21,
        ErrorKind::BadUnicodeEscape => 22,
        ErrorKind::BadHexEscapeChar => 23,
        ErrorKind::BadByteEscape => 24,
        ErrorKind::BadHexEscapeByte => panic!("two hex digits are never above ff"),
    }
}
