//! What is measured, each in a function of its own that is never inlined: rust/bench/count counts from a name's entry to its exit.
//! A call has two of them, `measured_ours_..` and `measured_rust_..`; bin/bench counts in whatever is called so.

use std::hint::black_box;

use crate::escapes;
use crate::lent::Answer;
use crate::look::Look;

extern "C" {
    fn puffsatchel_list(
        source: *const u8,
        source_len: usize,
        reading: u32,
        store: *mut u32,
        store_len: usize,
        answer: *mut Answer,
    ) -> u32;

    fn puffsatchel_unescape(
        body: *const u8,
        body_len: usize,
        form: u32,
        out: *mut u8,
        out_len: usize,
        answer: *mut Answer,
    ) -> u32;
}

/// The largest source.
const LARGEST: usize = 65_536;

/// puffsatchel.h's number of a reading.
#[derive(Clone, Copy)]
enum Reading {
    CommentsCrate = 1,
    CommentsFirst = 2,
}

/// puffsatchel.h's number of a form.
#[derive(Clone, Copy, PartialEq)]
pub(crate) enum Form {
    Text = 1,
    Template = 2,
    ByteText = 4,
}

pub(crate) struct Body {
    pub(crate) form: Form,
    pub(crate) bytes: Vec<u8>,
}

/// Memory for both sides, enough for every input: neither allocates while it is measured.
pub(crate) struct Room {
    store: Vec<u32>,
    tokens: Vec<[u32; 3]>,
    our_text: Vec<u8>,
    our_bytes: Vec<u8>,
    text: String,
    bytes: Vec<u8>,
    our_emitted: Vec<u32>,
    emitted: oracle::Emitted,
}

impl Room {
    pub(crate) fn new() -> Self {
        Self {
            store: vec![0; 3 * LARGEST],
            tokens: Vec::with_capacity(LARGEST),
            our_text: vec![0; LARGEST],
            our_bytes: vec![0; LARGEST],
            text: String::with_capacity(LARGEST),
            bytes: Vec::with_capacity(LARGEST),
            our_emitted: vec![0; 3 * LARGEST],
            emitted: oracle::Emitted::with_room(LARGEST),
        }
    }

    /// After both sides have listed; `count` is ours.
    pub(crate) fn same_tokens(&self, count: usize) -> bool {
        self.store[..3 * count] == *self.tokens.as_flattened()
    }

    /// After both sides have unescaped; `count` is ours, of text and of bytes.
    pub(crate) fn same_output(&self, count: (usize, usize)) -> bool {
        self.our_text[..count.0] == *self.text.as_bytes() && self.our_bytes[..count.1] == self.bytes
    }

    /// After both sides have run a script; `count` is ours, of words.
    pub(crate) fn same_emitted(&self, count: usize) -> bool {
        self.emitted.words().flatten().eq(self.our_emitted[..count].iter().copied())
    }
}

/// Answers the count of tokens, or none where the source is refused.
#[no_mangle]
#[inline(never)]
pub(crate) fn measured_ours_list(source: &[u8], room: &mut Room) -> Option<usize> {
    our_list(source, Reading::CommentsCrate, &mut room.store)
}

/// The same by the reading in which the first close ends a comment.
#[no_mangle]
#[inline(never)]
pub(crate) fn measured_ours_list_first(source: &[u8], room: &mut Room) -> Option<usize> {
    our_list(source, Reading::CommentsFirst, &mut room.store)
}

#[inline]
fn our_list(source: &[u8], reading: Reading, store: &mut [u32]) -> Option<usize> {
    let mut answer = Answer::default();
    // SAFETY: each pointer is of as many elements as the number beside it says, and nothing overlaps.
    let refused = unsafe {
        puffsatchel_list(
            source.as_ptr(),
            source.len(),
            reading as u32,
            store.as_mut_ptr(),
            store.len(),
            &mut answer,
        )
    };
    (refused == 0).then_some(answer.count)
}

#[no_mangle]
#[inline(never)]
pub(crate) fn measured_rust_list(source: &[u8], room: &mut Room) -> bool {
    room.tokens.clear();
    oracle::list(source, &mut room.tokens)
}

/// Answers how many bytes of text and of byte text were written, or none where a body is refused.
#[no_mangle]
#[inline(never)]
pub(crate) fn measured_ours_unescape(bodies: &[Body], room: &mut Room) -> Option<(usize, usize)> {
    let mut text = 0;
    let mut bytes = 0;

    for body in bodies {
        let (out, at) = match body.form {
            Form::ByteText => (&mut room.our_bytes, &mut bytes),
            Form::Text | Form::Template => (&mut room.our_text, &mut text),
        };
        let out = &mut out[*at..];
        let mut answer = Answer::default();
        // SAFETY: as above.
        let refused = unsafe {
            puffsatchel_unescape(
                body.bytes.as_ptr(),
                body.bytes.len(),
                body.form as u32,
                out.as_mut_ptr(),
                out.len(),
                &mut answer,
            )
        };
        if refused != 0 {
            return None;
        }
        *at += answer.count;
    }

    Some((text, bytes))
}

#[no_mangle]
#[inline(never)]
pub(crate) fn measured_rust_unescape(bodies: &[Body], room: &mut Room) -> bool {
    room.text.clear();
    room.bytes.clear();

    bodies.iter().all(|body| match body.form {
        Form::Text => escapes::scalars(&body.bytes, false, &mut room.text),
        Form::Template => escapes::scalars(&body.bytes, true, &mut room.text),
        Form::ByteText => escapes::bytes(&body.bytes, &mut room.bytes),
    })
}

/// Listed and looked at; answers how many words were emitted, or none where the source or a call is refused.
#[no_mangle]
#[inline(never)]
pub(crate) fn measured_ours_look(look: &Look, room: &mut Room) -> Option<usize> {
    let count = our_list(&look.source, Reading::CommentsCrate, &mut room.store)?;
    look.run(&room.store[..3 * count], &mut room.our_emitted, |_, answer| _ = black_box(answer))
}

#[no_mangle]
#[inline(never)]
pub(crate) fn measured_rust_look(look: &Look, room: &mut Room) -> bool {
    look.rusts.over_source(&look.source, &mut room.emitted)
}

/// Looked at alone: the list is made before.
#[no_mangle]
#[inline(never)]
pub(crate) fn measured_ours_look_alone(look: &Look, room: &mut Room) -> Option<usize> {
    look.run(&look.list, &mut room.our_emitted, |_, answer| _ = black_box(answer))
}

#[no_mangle]
#[inline(never)]
pub(crate) fn measured_rust_look_alone(look: &Look, room: &mut Room) -> bool {
    look.rusts.over_tokens(&mut room.emitted)
}
