//! Every short input over a tricky alphabet.

use std::io;

use crate::sink::Sink;

/// No digit, since number tokens are outside the domain of equality.
const SOURCE: [char; 25] = [
    '/', '*', '\n', ' ', 'a', 'b', 'A', '_', '\'', '"', '`', '\\', '{', '}', '#', '!', '.', '=',
    '<', '>', '-', '$', '\u{85}', 'é', '\u{1}',
];

const BODY: [char; 26] = [
    '\\', 'x', 'u', '{', '}', '0', '7', 'f', 'F', '8', '\'', '"', 'n', 'r', 't', '$', '`', '\n',
    '\r', ' ', '\u{85}', '\u{2028}', 'g', 'é', '€', '\u{1f600}',
];

pub(crate) const FORMS: [u8; 5] = *b"tpcsb";

pub(crate) fn list(sink: &mut Sink, n: usize) -> io::Result<()> {
    every(&SOURCE, n, |source| sink.frame(b'L', source.as_bytes()))
}

pub(crate) fn escape(sink: &mut Sink, n: usize) -> io::Result<()> {
    FORMS
        .into_iter()
        .try_for_each(|form| every(&BODY, n, |body| sink.frame(form, body.as_bytes())))
}

/// Calls `each` with every text of up to `n` scalars, shorter ones first, the last scalar changing fastest.
fn every(
    alphabet: &[char],
    n: usize,
    mut each: impl FnMut(&str) -> io::Result<()>,
) -> io::Result<()> {
    let mut text = String::new();

    for length in 0..=n {
        let mut wheels = vec![0; length];

        loop {
            text.clear();
            text.extend(wheels.iter().map(|&at| alphabet[at]));
            each(&text)?;

            if !turn(&mut wheels, alphabet.len()) {
                break;
            }
        }
    }

    Ok(())
}

/// Steps to the next combination, or answers false after the last.
pub(crate) fn turn(wheels: &mut [usize], size: usize) -> bool {
    for wheel in wheels.iter_mut().rev() {
        *wheel += 1;

        if *wheel < size {
            return true;
        }

        *wheel = 0;
    }

    false
}
