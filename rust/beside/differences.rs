//! The inputs of docs/DIFFERENCES.md outside the domain of equality, with both answers: the Rust's and ours.

use crate::answers::{Difference, Listed, Refused};

type Tokens = &'static [[u32; 3]];

/// Input, what the Rust lists, what we list, and our refusal: number, start, end.
const TABLE: [(&str, Tokens, Tokens, Option<(u32, usize, usize)>); 12] = [
    ("0.", &[[8, 0, 2]], &[[8, 0, 1], [28, 1, 2]], None),
    ("0é", &[[8, 0, 3]], &[[8, 0, 1], [6, 1, 3]], None),
    ("1.;", &[[8, 0, 2], [31, 2, 3]], &[[8, 0, 1], [28, 1, 2], [31, 2, 3]], None),
    ("1e-", &[[8, 0, 3]], &[[8, 0, 2], [27, 2, 3]], None),
    ("1e-3", &[[8, 0, 4]], &[[8, 0, 4]], None),
    ("1E-3", &[[8, 0, 2], [27, 2, 3], [8, 3, 4]], &[[8, 0, 4]], None),
    ("1e-3a", &[[8, 0, 5]], &[[8, 0, 4], [6, 4, 5]], None),
    ("1ae-3", &[[8, 0, 5]], &[[8, 0, 3], [27, 3, 4], [8, 4, 5]], None),
    ("0b1e-3", &[[8, 0, 6]], &[[8, 0, 4], [27, 4, 5], [8, 5, 6]], None),
    ("1e.5", &[[8, 0, 2], [28, 2, 3], [8, 3, 4]], &[[8, 0, 4]], None),
    ("\u{250}", &[[6, 0, 2]], &[], Some((18, 0, 2))),
    ("a\u{301}", &[[6, 0, 3]], &[[6, 0, 1]], Some((18, 1, 3))),
];

const DEEPEST: usize = 128;

/// Answers the number of inputs.
pub(crate) fn compare() -> Result<u64, Difference> {
    for (source, rust, ours, refused) in TABLE {
        one(source, rust, ours, refused)?;
    }

    for depth in 1..=DEEPEST {
        let source = nested(depth);
        let whole = [[16, 0, source.len() as u32]];

        if depth <= 64 {
            one(&source, &whole, &whole, None)?;
        } else {
            // Up to the 65th backtick stand 64 others, and a backslash after each of them.
            one(&source, &whole, &[], Some((19, 0, 129)))?;
        }
    }

    Ok((TABLE.len() + DEEPEST) as u64)
}

/// Templates of the given depth, each opened after a backslash in the one before.
fn nested(depth: usize) -> String {
    vec!["`"; depth].join("\\") + &"`".repeat(depth)
}

fn one(
    source: &str,
    rusts: &[[u32; 3]],
    ours: &[[u32; 3]],
    refused: Option<(u32, usize, usize)>,
) -> Result<(), Difference> {
    let mut listed = Listed::default();
    Listed::from_rust(source, &mut listed);
    same(&format!("{source:?} by the Rust"), rusts, None, &listed)?;

    let refused = refused.map(|(number, start, end)| Refused::new(number, start, end));
    let mut words = vec![0; 3 * source.len()];

    let (count, stopped) = match puffsatchel::list(source, puffsatchel::Reading::rune(), &mut words) {
        Ok(count) => (count, None),
        Err(stopped) => (stopped.count, Some(stopped.refusal.into())),
    };

    words.truncate(3 * count);
    same(&format!("{source:?} by us"), ours, refused, &Listed { words, refused: stopped })
}

fn same(what: &str, words: &[[u32; 3]], refused: Option<Refused>, listed: &Listed) -> Result<(), Difference> {
    let wanted = Listed { words: words.concat(), refused };

    if wanted == *listed {
        return Ok(());
    }

    Err(Difference::lists(what, &wanted, listed))
}
