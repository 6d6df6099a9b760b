//! How a source is read: what every call that reads one is told.

/// How a source is read. There is none that a call takes by itself: the caller names one, right after the source.
///
/// The two differ in where a comment that was opened by `/*` ends, also in a token that a backslash takes with it in a
/// template:
///
/// ```
/// use puffsatchel::{list, Reading};
///
/// let mut store = [0; 27];
/// assert_eq!(list("/**/x/**/", Reading::rune(), &mut store), Ok(1));
/// assert_eq!(list("/**/x/**/", Reading::first_close(), &mut store), Ok(3));
/// ```
#[derive(Debug, Clone, Copy, PartialEq, Eq, Hash)]
pub struct Reading {
    comments: Comments,
}

/// The numbers of puffsatchel.h.
#[derive(Debug, Clone, Copy, PartialEq, Eq, Hash)]
enum Comments {
    Crate = 1,
    First = 2,
}

impl Reading {
    /// As the running rune reads: two scalars after `/*` are passed over, and then the first `*/` closes. So `/**/` runs on
    /// to the close of the next comment, and what stands between is comment too.
    ///
    /// Choose it where the tokens are to be those that rune acts upon.
    #[must_use]
    pub const fn rune() -> Self {
        Self { comments: Comments::Crate }
    }

    /// The first `*/` after `/*` closes.
    ///
    /// Choose it where a comment is to end where a reader thinks that it does.
    #[must_use]
    pub const fn first_close() -> Self {
        Self { comments: Comments::First }
    }

    pub(crate) const fn number(self) -> u32 {
        self.comments as u32
    }
}
