//! Whole bodies, driven through the crate's escape functions as a Rust program would: scalars pushed to a `String`, bytes to a `Vec`.

mod unescape {
    include!(concat!(env!("PUFFSATCHEL_RUST"), "/src/ast/unescape.rs"));
}

use unescape::{parse_byte_escape, parse_char_escape, WithLineCont, WithTemplate};

/// Adds what a text or a template body stands for; false where it is refused.
pub(crate) fn scalars(body: &[u8], template: bool, out: &mut String) -> bool {
    let Ok(body) = core::str::from_utf8(body) else {
        return false;
    };
    let mut it = body.char_indices().peekable();

    while let Some((_, c)) = it.next() {
        if c != '\\' {
            out.push(c);
            continue;
        }
        match parse_char_escape(&mut it, WithTemplate(template), WithLineCont(true)) {
            Ok(Some(c)) => out.push(c),
            Ok(None) => {}
            Err(_) => return false,
        }
    }

    true
}

/// Adds what a byte text stands for; false where it is refused.
pub(crate) fn bytes(body: &[u8], out: &mut Vec<u8>) -> bool {
    let Ok(body) = core::str::from_utf8(body) else {
        return false;
    };
    let mut it = body.char_indices().peekable();

    while let Some((_, c)) = it.next() {
        let byte = match c {
            '\\' => match parse_byte_escape(&mut it, WithLineCont(true)) {
                Ok(byte) => byte,
                Err(_) => return false,
            },
            c if c.is_ascii() => Some(c as u8),
            _ => return false,
        };
        out.extend(byte);
    }

    true
}
