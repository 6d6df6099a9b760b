//! Stand-in for `crate::shared`.

/// A `FixedVec` has no room left.
#[derive(Debug)]
pub(crate) struct Full;

#[derive(Debug)]
pub(crate) struct FixedVec<T, const N: usize>(Vec<T>);

impl<T, const N: usize> FixedVec<T, N> {
    pub(crate) fn new() -> Self {
        Self(Vec::with_capacity(N))
    }

    pub(crate) fn len(&self) -> usize {
        self.0.len()
    }

    pub(crate) fn try_push(&mut self, value: T) -> Result<(), Full> {
        if self.len() == N {
            return Err(Full);
        }

        self.0.push(value);
        Ok(())
    }

    pub(crate) fn as_slice(&self) -> &[T] {
        &self.0
    }
}

macro_rules! trace_nothing {
    ($at:expr, $token:expr) => {{
        _ = $at;
        _ = $token;
    }};
}

pub(crate) use trace_nothing as rune_trace;
