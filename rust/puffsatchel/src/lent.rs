//! The two structs that are lent to the archive's calls, as puffsatchel.h has them. The bench takes them from here too.

use core::mem::size_of;

// puffsatchel.h does not compile either where the state has another size.
const _: () = assert!(size_of::<Answer>() == 40 && size_of::<Ahead>() == 1112);

/// What a call answers beside its result.
#[repr(C)]
#[derive(Default)]
pub(crate) struct Answer {
    pub(crate) value: usize,
    pub(crate) count: usize,
    pub(crate) start: usize,
    pub(crate) end: usize,
    pub(crate) reached: usize,
}

/// The lookahead's state. Whatever numbers it holds, each call answers.
#[repr(C)]
#[derive(Debug, Clone)]
pub(crate) struct Ahead {
    next: u32,
    keep: u32,
    held_at: u32,
    held_len: u32,
    wait_at: u32,
    wait_len: u32,
    held: [u32; 8],
    counts: [u32; 8],
    waiting: [u32; 256],
}

impl Ahead {
    pub(crate) const fn fresh(keep: bool) -> Self {
        Self {
            next: 0,
            keep: keep as u32,
            held_at: 0,
            held_len: 0,
            wait_at: 0,
            wait_len: 0,
            held: [0; 8],
            counts: [0; 8],
            waiting: [0; 256],
        }
    }
}
