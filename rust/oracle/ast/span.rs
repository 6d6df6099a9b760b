//! Stand-ins for the crate's span helpers.

#[derive(Debug, Clone, Copy, PartialEq, Eq)]
pub(crate) struct ByteIndex(pub(crate) u32);

#[derive(Debug, Clone, Copy, PartialEq, Eq)]
pub(crate) struct Span {
    pub(crate) start: ByteIndex,
    pub(crate) end: ByteIndex,
}

impl Span {
    pub(crate) fn new(start: usize, end: usize) -> Self {
        Self {
            start: ByteIndex(start as u32),
            end: ByteIndex(end as u32),
        }
    }

    pub(crate) fn point(at: usize) -> Self {
        Self::new(at, at)
    }

    pub(crate) fn empty() -> Self {
        Self::point(0)
    }

    pub(crate) fn head(self) -> Self {
        Self { end: self.start, ..self }
    }

    pub(crate) fn tail(self) -> Self {
        Self { start: self.end, ..self }
    }

    pub(crate) fn join(self, other: Self) -> Self {
        Self {
            start: ByteIndex(self.start.0.min(other.start.0)),
            end: ByteIndex(self.end.0.max(other.end.0)),
        }
    }

    pub(crate) fn trim_start(self, n: u32) -> Self {
        Self {
            start: ByteIndex((self.start.0 + n).min(self.end.0)),
            ..self
        }
    }

    pub(crate) fn trim_end(self, n: u32) -> Self {
        Self {
            end: ByteIndex(self.end.0.saturating_sub(n).max(self.start.0)),
            ..self
        }
    }
}

pub(crate) trait OptionSpanned {
    fn option_span(&self) -> Option<Span>;
}
