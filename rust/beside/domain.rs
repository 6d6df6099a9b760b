//! Document 01's domain of equality, judged on the Rust's own listing of a source.

use crate::answers::Listed;

/// Why a source is outside.
#[derive(Debug, Clone, Copy, PartialEq, Eq)]
pub(crate) enum Outside {
    Number,
    NumberInTemplate,
    Wide,
    Deep,
}

pub(crate) const REASONS: [(Outside, &str); 4] = [
    (Outside::Number, "a number token"),
    (Outside::NumberInTemplate, "a digit after a backslash in a template"),
    (Outside::Wide, "a scalar above U+024F where document 01 allows none"),
    (Outside::Deep, "a 65th template within templates"),
];

pub(crate) const LAST_NARROW: char = '\u{24f}';

/// A template of this many backslashes right before a backtick may be 65 deep.
const OPENINGS: usize = 64;

/// The first token that leaves the domain, by its index (that of the refused token is the count), and why.
///
/// A template with fewer openings than could make it too deep is inside; of others only the library's own answer tells.
pub(crate) fn leaves(source: &str, rust: &Listed, ours: &Listed) -> Option<(usize, Outside)> {
    // Most sources have nothing that could leave it, and need no second look.
    let bytes = source.as_bytes();
    let openings = pairs(bytes, |next| next == b'`');

    if !bytes.iter().any(u8::is_ascii_digit) && source.chars().all(|c| c <= LAST_NARROW) && openings < OPENINGS {
        return None;
    }

    for (index, [kind, start, end]) in rust.tokens().enumerate() {
        if let Some(why) = token_leaves(kind, &source[start as usize..end as usize], index, ours) {
            return Some((index, why));
        }
    }

    let unexpected = rust.refused.is_some_and(|refused| refused.number == 18);
    let wide = source[rust.end()..].chars().next().is_some_and(|c| c > LAST_NARROW);
    (unexpected && wide).then_some((rust.count(), Outside::Wide))
}

fn token_leaves(kind: u32, text: &str, index: usize, ours: &Listed) -> Option<Outside> {
    let wide = || text.chars().any(|c| c > LAST_NARROW);
    let bytes = text.as_bytes();

    match kind {
        2..=4 | 9..=14 => None,
        8 => Some(Outside::Number),
        16 if pairs(bytes, |next| next.is_ascii_digit()) > 0 => Some(Outside::NumberInTemplate),
        16 if bytes.contains(&b'\\') && wide() => Some(Outside::Wide),
        16 if pairs(bytes, |next| next == b'`') >= OPENINGS && too_deep(text, index, ours) => Some(Outside::Deep),
        16 => None,
        _ => wide().then_some(Outside::Wide),
    }
}

/// How many backslashes stand right before a byte of this sort.
fn pairs(bytes: &[u8], next: impl Fn(u8) -> bool) -> usize {
    bytes.windows(2).filter(|pair| pair[0] == b'\\' && next(pair[1])).count()
}

/// That ours refused this very token, up to right after a backtick that a backslash opened.
fn too_deep(text: &str, index: usize, ours: &Listed) -> bool {
    ours.refused.is_some_and(|refused| {
        refused.number == 19
            && ours.count() == index
            && refused.start == ours.end()
            && text.as_bytes()[..refused.end.saturating_sub(refused.start).min(text.len())].ends_with(b"\\`")
    })
}
