//! Every Unicode scalar where a rule may look at it.

use std::io;

use crate::sink::Sink;

/// Inside these any scalar is in the domain of equality.
const QUOTED: [(&str, &str); 6] =
    [("\"", "\""), ("b\"", "\""), ("'", "'"), ("b'", "'"), ("/*--", "*/"), ("`", "`")];

/// Where a token is read from the scalar, or goes on or stops at it.
const UNQUOTED: [(&str, &str); 6] =
    [("", ""), ("a", "a"), (" ", " "), ("'a", ""), ("b'a", "'"), ("`\\", "`")];

const LAST_UNQUOTED: char = '\u{24f}';

const BODIES: [(&str, &str); 4] = [("", ""), ("\\", ""), ("\\\n", "a"), ("\\u{", "}")];

pub(crate) fn all(sink: &mut Sink) -> io::Result<()> {
    for c in '\0'..=char::MAX {
        for quotes in QUOTED {
            between(sink, b'L', quotes, c)?;
        }

        // A digit may begin a number token.
        if c <= LAST_UNQUOTED && !c.is_ascii_digit() {
            for places in UNQUOTED {
                between(sink, b'L', places, c)?;
            }
        }

        for form in [b't', b's'] {
            for places in BODIES {
                between(sink, form, places, c)?;
            }
        }
    }

    Ok(())
}

fn between(sink: &mut Sink, mode: u8, (before, after): (&str, &str), c: char) -> io::Result<()> {
    sink.frame(mode, format!("{before}{c}{after}").as_bytes())
}
