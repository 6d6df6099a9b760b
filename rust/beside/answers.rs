//! What both sides answer, in one form, and what is said where they differ.

use std::fmt::Write;

/// A refusal by document 01.
#[derive(Debug, Clone, Copy, PartialEq, Eq)]
pub(crate) struct Refused {
    pub(crate) number: u32,
    pub(crate) start: usize,
    pub(crate) end: usize,
    pub(crate) reached: usize,
}

impl Refused {
    /// The place reached is the span's end, but for `''` right after it, and its span goes to the end of the source.
    pub(crate) fn new(number: u32, start: usize, end: usize) -> Self {
        let reached = if number == 12 { start + 2 } else { end };
        Self { number, start, end, reached }
    }
}

impl From<oracle::Refusal> for Refused {
    fn from(refusal: oracle::Refusal) -> Self {
        Self::new(refusal.number, refusal.start as usize, refusal.end as usize)
    }
}

impl From<puffsatchel::Refusal> for Refused {
    fn from(refusal: puffsatchel::Refusal) -> Self {
        Self {
            number: refusal.reason.number(),
            start: refusal.span.start,
            end: refusal.span.end,
            reached: refusal.reached,
        }
    }
}

/// A listing: three words a token, and the refusal that ended it.
#[derive(Debug, Clone, Default, PartialEq, Eq)]
pub(crate) struct Listed {
    pub(crate) words: Vec<u32>,
    pub(crate) refused: Option<Refused>,
}

impl Listed {
    pub(crate) fn count(&self) -> usize {
        self.words.len() / 3
    }

    pub(crate) fn tokens(&self) -> impl Iterator<Item = [u32; 3]> + '_ {
        self.words.chunks_exact(3).map(|token| [token[0], token[1], token[2]])
    }

    /// Where the first token that is not listed starts.
    pub(crate) fn end(&self) -> usize {
        self.words.last().map_or(0, |&end| end as usize)
    }

    /// Strings that hold a backslash taken as those that hold none: an outline cannot tell them apart.
    pub(crate) fn make_plain(&mut self) {
        for kind in self.words.iter_mut().step_by(3) {
            if matches!(kind, 12 | 14) {
                *kind -= 1;
            }
        }
    }

    pub(crate) fn from_rust(source: &str, into: &mut Listed) {
        let Listed { words, refused } = into;
        words.clear();
        *refused = oracle::list_words(source, |token| words.extend(token)).err().map(Refused::from);
    }

    /// The tokens a line each, or the last of them.
    fn say(&self) -> String {
        let mut said = String::new();
        let shown = 40.min(self.count());

        if shown < self.count() {
            _ = writeln!(said, "  ({} tokens before these)", self.count() - shown);
        }

        for [kind, start, end] in self.tokens().skip(self.count() - shown) {
            _ = writeln!(said, "  {kind} {start} {end}");
        }

        match self.refused {
            None => _ = writeln!(said, "  end {}", self.count()),
            Some(refused) => _ = writeln!(said, "  {refused:?}"),
        }

        said
    }
}

/// The first case that is not as it should be.
pub(crate) struct Difference(pub(crate) String);

impl Difference {
    pub(crate) fn new(what: &str, wanted: &str, ours: &str) -> Self {
        Self(format!("{what}\nwanted:\n{}\nours:\n{}\n", wanted.trim_end(), ours.trim_end()))
    }

    pub(crate) fn lists(what: &str, wanted: &Listed, ours: &Listed) -> Self {
        Self::new(what, &wanted.say(), &ours.say())
    }

    pub(crate) fn refusals(what: &str, wanted: Option<Refused>, ours: Option<Refused>) -> Self {
        Self::new(what, &format!("  {wanted:?}"), &format!("  {ours:?}"))
    }

    pub(crate) fn bytes(what: &str, wanted: &[u8], ours: &[u8]) -> Self {
        Self::new(what, &format!("  {}", wanted.escape_ascii()), &format!("  {}", ours.escape_ascii()))
    }
}
