//! What the documents alone say of a source outside the domain of equality: its numbers and its word letters, judged on
//! our listing.

use crate::answers::{Difference, Listed};
use crate::domain::LAST_NARROW;

const NUMBER: u32 = 8;

pub(crate) fn judge(source: &str, ours: &Listed) -> Result<(), Difference> {
    for [kind, start, end] in ours.tokens() {
        let (start, end) = (start as usize, end as usize);

        let Some(text) = source.get(start..end) else {
            let what = "the span of a token, which is of whole scalars of the source";
            return Err(Difference::new(what, "", &format!("  {kind} {start} {end}")));
        };

        if kind == NUMBER && end != number_end(source.as_bytes(), start) {
            let wanted = format!("  8 {start} {}", number_end(source.as_bytes(), start));
            return Err(Difference::new("a number, by document 02's rule", &wanted, &format!("  8 {start} {end}")));
        }

        if !may_be_wide(kind) && text.chars().any(|c| c > LAST_NARROW) {
            let what = "a token, which has no scalar above U+024F in it";
            return Err(Difference::new(what, "", &format!("  {kind} {start} {end}")));
        }
    }

    match ours.refused {
        Some(refused) if refused.number == 18 => unexpected(source, ours.end(), (refused.start, refused.end)),
        _ => Ok(()),
    }
}

/// White space has wide scalars too, and a shebang takes any.
fn may_be_wide(kind: u32) -> bool {
    matches!(kind, 1..=5 | 9..=14 | 16)
}

/// The refused scalar is the one after the last token, and all of it.
fn unexpected(source: &str, place: usize, span: (usize, usize)) -> Result<(), Difference> {
    let width = source[place..].chars().next().map_or(0, char::len_utf8);

    if span == (place, place + width) {
        return Ok(());
    }

    let wanted = format!("  {place}..{}", place + width);
    Err(Difference::new("the span of refusal 18", &wanted, &format!("  {}..{}", span.0, span.1)))
}

/// Document 01's rule, a digit, the longest run of letters, digits and `_`, and once a `.` that a digit follows, with its run; and
/// document 02's A2.
fn number_end(bytes: &[u8], start: usize) -> usize {
    let end = run(bytes, start, |byte| byte.is_ascii_alphanumeric());

    if let Some(signed) = signed_end(bytes, start, start, end) {
        return signed;
    }

    match bytes[end..] {
        [b'.', b'0'..=b'9', ..] => {
            let last = run(bytes, end + 1, |byte| byte.is_ascii_alphanumeric());
            signed_end(bytes, start, end + 1, last).unwrap_or(last)
        }
        _ => end,
    }
}

/// The end of an exponent's digits, where the run of the number at `start` from `from` to `to` takes a sign.
fn signed_end(bytes: &[u8], start: usize, from: usize, to: usize) -> Option<usize> {
    let based = matches!(bytes[start..], [b'0', b'x' | b'b' | b'o', ..]);
    let plain = run(bytes, from, |byte| byte.is_ascii_digit()) + 1 == to && matches!(bytes[to - 1], b'e' | b'E');

    match bytes[to..] {
        [b'+' | b'-', b'0'..=b'9', ..] if plain && !based => Some(run(bytes, to + 1, |byte| byte.is_ascii_digit())),
        _ => None,
    }
}

/// Where the bytes from `from` on end that are `_` or pass the test.
fn run(bytes: &[u8], from: usize, test: impl Fn(u8) -> bool) -> usize {
    from + bytes[from..].iter().take_while(|&&byte| byte == b'_' || test(byte)).count()
}
