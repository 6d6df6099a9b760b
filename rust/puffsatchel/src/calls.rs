//! The calls of the archive, and all that is unsafe: each takes slices and hands on what the archive asks for, pointers
//! that are not null and are aligned (a slice's always are, an empty one's too) with the number of elements there.

pub(crate) use crate::lent::{Ahead, Answer};
use crate::reading::Reading;
use crate::refusal::Refusal;

#[link(name = "puffsatchel", kind = "static")]
extern "C" {
    fn puffsatchel_version() -> u32;

    fn puffsatchel_test(source: *const u8, source_len: usize, answer: *mut Answer) -> u32;

    fn puffsatchel_read(source: *const u8, source_len: usize, reading: u32, at: usize, answer: *mut Answer) -> u32;

    fn puffsatchel_next(source: *const u8, source_len: usize, reading: u32, at: usize, answer: *mut Answer) -> u32;

    fn puffsatchel_list(
        source: *const u8,
        source_len: usize,
        reading: u32,
        store: *mut u32,
        store_len: usize,
        answer: *mut Answer,
    ) -> u32;

    fn puffsatchel_outline(
        source: *const u8,
        source_len: usize,
        reading: u32,
        out: *mut u8,
        out_len: usize,
        answer: *mut Answer,
    ) -> u32;

    fn puffsatchel_findings(
        source: *const u8,
        source_len: usize,
        reading: u32,
        store: *mut u32,
        store_len: usize,
        answer: *mut Answer,
    ) -> u32;

    fn puffsatchel_unescape(
        body: *const u8,
        body_len: usize,
        form: u32,
        out: *mut u8,
        out_len: usize,
        answer: *mut Answer,
    ) -> u32;

    fn puffsatchel_store(
        list: *const u32,
        list_len: usize,
        out: *mut u8,
        out_len: usize,
        answer: *mut Answer,
    ) -> u32;

    fn puffsatchel_load(
        bytes: *const u8,
        bytes_len: usize,
        out: *mut u32,
        out_len: usize,
        answer: *mut Answer,
    ) -> u32;
}

/// What was answered, and the refusal if there is one: a refused list has its count too.
pub(crate) struct Answered {
    pub(crate) answer: Answer,
    pub(crate) refusal: Option<Refusal>,
}

impl Answered {
    fn of(call: impl FnOnce(&mut Answer) -> u32) -> Self {
        let mut answer = Answer::default();
        let number = call(&mut answer);
        let refusal = Refusal::of(number, &answer);
        Self { answer, refusal }
    }

    pub(crate) fn or_refusal(self) -> Result<Answer, Refusal> {
        match self.refusal {
            None => Ok(self.answer),
            Some(refusal) => Err(refusal),
        }
    }
}

pub(crate) fn version() -> u32 {
    // SAFETY: it takes nothing and reads no memory.
    unsafe { puffsatchel_version() }
}

pub(crate) fn test(source: &[u8]) -> Answered {
    Answered::of(|answer| {
        // SAFETY: reads the slice, writes the answer, keeps neither.
        unsafe { puffsatchel_test(source.as_ptr(), source.len(), answer) }
    })
}

pub(crate) fn read(source: &[u8], reading: Reading, at: usize) -> Answered {
    Answered::of(|answer| {
        // SAFETY: reads the slice, at any place given nothing beyond it, and writes the answer.
        unsafe { puffsatchel_read(source.as_ptr(), source.len(), reading.number(), at, answer) }
    })
}

pub(crate) fn next(source: &[u8], reading: Reading, at: usize) -> Answered {
    Answered::of(|answer| {
        // SAFETY: reads the slice, at any place and of any bytes nothing beyond it, and writes the answer.
        unsafe { puffsatchel_next(source.as_ptr(), source.len(), reading.number(), at, answer) }
    })
}

pub(crate) fn list(source: &[u8], reading: Reading, store: &mut [u32]) -> Answered {
    let number = reading.number();

    Answered::of(|answer| {
        // SAFETY: reads one slice and writes the other, which is borrowed as mutable and so overlaps nothing.
        unsafe { puffsatchel_list(source.as_ptr(), source.len(), number, store.as_mut_ptr(), store.len(), answer) }
    })
}

pub(crate) fn outline(source: &[u8], reading: Reading, out: &mut [u8]) -> Answered {
    let number = reading.number();

    Answered::of(|answer| {
        // SAFETY: reads one slice and writes the other, which is borrowed as mutable and so overlaps nothing.
        unsafe { puffsatchel_outline(source.as_ptr(), source.len(), number, out.as_mut_ptr(), out.len(), answer) }
    })
}

pub(crate) fn findings(source: &[u8], reading: Reading, store: &mut [u32]) -> Answered {
    let number = reading.number();

    Answered::of(|answer| {
        // SAFETY: reads one slice and writes the other, which is borrowed as mutable and so overlaps nothing.
        unsafe { puffsatchel_findings(source.as_ptr(), source.len(), number, store.as_mut_ptr(), store.len(), answer) }
    })
}

pub(crate) fn unescape(body: &[u8], form: u32, out: &mut [u8]) -> Answered {
    Answered::of(|answer| {
        // SAFETY: reads one slice and writes the other, which is borrowed as mutable and so overlaps nothing.
        unsafe { puffsatchel_unescape(body.as_ptr(), body.len(), form, out.as_mut_ptr(), out.len(), answer) }
    })
}

pub(crate) fn store(list: &[u32], out: &mut [u8]) -> Answered {
    Answered::of(|answer| {
        // SAFETY: reads one slice and writes the other, which is borrowed as mutable and so overlaps nothing.
        unsafe { puffsatchel_store(list.as_ptr(), list.len(), out.as_mut_ptr(), out.len(), answer) }
    })
}

pub(crate) fn load(bytes: &[u8], out: &mut [u32]) -> Answered {
    Answered::of(|answer| {
        // SAFETY: reads one slice and writes the other, which is borrowed as mutable and so overlaps nothing.
        unsafe { puffsatchel_load(bytes.as_ptr(), bytes.len(), out.as_mut_ptr(), out.len(), answer) }
    })
}

/// Whether list and state were tested before, and a call need not do it.
#[derive(Clone, Copy)]
pub(crate) enum Tested {
    No = 0,
    Before = 1,
}

/// The lookahead's calls, each with the number that it takes beside the list, and the store if it has one.
macro_rules! lookahead {
    ($($name:ident as $call:ident($($number:ident: $kind:ty)?) $($out:ident)?;)*) => {
        extern "C" {
            $(
                fn $call(
                    state: *mut Ahead,
                    tested: u32,
                    $($number: $kind,)?
                    list: *const u32,
                    list_len: usize,
                    $($out: *mut u32, room: usize,)?
                    answer: *mut Answer,
                ) -> u32;
            )*
        }

        $(
            pub(crate) fn $name(
                state: &mut Ahead,
                tested: Tested,
                $($number: $kind,)?
                list: &[u32],
                $($out: &mut [u32],)?
            ) -> Answered {
                Answered::of(|answer| {
                    // SAFETY: reads the list, writes the state, the answer and the store, which are borrowed as mutable and so overlap nothing.
                    unsafe {
                        $call(
                            state,
                            tested as u32,
                            $($number,)?
                            list.as_ptr(),
                            list.len(),
                            $($out.as_mut_ptr(), $out.len(),)?
                            answer,
                        )
                    }
                })
            }
        )*
    };
}

lookahead! {
    fill as puffsatchel_fill(n: usize);
    nth as puffsatchel_nth(n: usize);
    nth_token as puffsatchel_nth_token(n: usize);
    glued as puffsatchel_glued(n: usize);
    peek as puffsatchel_peek();
    is_eof as puffsatchel_is_eof();
    flush_ws as puffsatchel_flush_ws() out;
    bump as puffsatchel_bump() out;
    bump_if as puffsatchel_bump_if(kind: u32) out;
    bump_while as puffsatchel_bump_while(kind: u32) out;
    advance as puffsatchel_advance(n: usize) out;
    array as puffsatchel_array(n: usize) out;
}
