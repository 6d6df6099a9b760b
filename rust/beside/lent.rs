//! Lent memory that tells afterwards what was written: filled with a pattern first, with a guard before and after it.

use crate::answers::Difference;

/// Elements before and after what is lent, which no call may know of.
const GUARD: usize = 8;

pub(crate) trait Element: Copy + PartialEq {
    /// What stands at this place before a call. It differs from place to place, so that moved content shows too.
    fn pattern(at: usize) -> Self;
}

impl Element for u32 {
    /// No word of a list is so large.
    fn pattern(at: usize) -> Self {
        0x8000_0000 | (at as u32).wrapping_mul(0x9e37_79b1)
    }
}

impl Element for u8 {
    fn pattern(at: usize) -> Self {
        (at as u8).wrapping_mul(0x6d) ^ 0xa5
    }
}

pub(crate) struct Lent<T> {
    all: Vec<T>,
}

impl<T: Element> Lent<T> {
    pub(crate) fn new() -> Self {
        Self { all: Vec::new() }
    }

    /// So many elements for a call to write to.
    pub(crate) fn fresh(&mut self, room: usize) -> &mut [T] {
        self.all.clear();
        self.all.extend((0..GUARD + room + GUARD).map(T::pattern));
        &mut self.all[GUARD..GUARD + room]
    }

    /// The first elements, as a call left them.
    pub(crate) fn front(&self, count: usize) -> &[T] {
        &self.all[GUARD..GUARD + count]
    }

    /// That nothing but the first `written` was touched.
    pub(crate) fn rest_is_untouched(&self, what: &str, written: usize) -> Result<(), Difference> {
        let front = self.all[..GUARD].iter().enumerate();
        let behind = self.all.iter().enumerate().skip(GUARD + written);

        match front.chain(behind).find(|&(at, element)| *element != T::pattern(at)) {
            None => Ok(()),
            Some((at, _)) => Err(Difference::new(
                what,
                &format!("  nothing written but the first {written} elements"),
                &format!("  element {} of {} is written", at as isize - GUARD as isize, self.all.len() - 2 * GUARD),
            )),
        }
    }
}
