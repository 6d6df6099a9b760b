//! Frames on the input: a mode byte, a length of four bytes with the lowest first, and the payload.

use std::io::BufRead;

/// Far above what document 01 reads, so that a stream out of step is noticed before it is believed.
const LONGEST: usize = 1 << 24;

/// What is wrong with a frame.
pub(crate) struct Malformed(pub(crate) &'static str);

/// Reads one frame and answers its mode, or none at the end of the input.
pub(crate) fn next_frame(
    input: &mut impl BufRead,
    payload: &mut Vec<u8>,
) -> Result<Option<u8>, Malformed> {
    if input.fill_buf().is_ok_and(<[u8]>::is_empty) {
        return Ok(None);
    }

    let mut head = [0; 5];
    let cut = |_| Malformed("the input ends within it or cannot be read");
    input.read_exact(&mut head).map_err(cut)?;

    let [mode, a, b, c, d] = head;
    let length = u32::from_le_bytes([a, b, c, d]) as usize;

    if length > LONGEST {
        return Err(Malformed("longer than 16 MiB"));
    }

    payload.resize(length, 0);
    input.read_exact(payload).map_err(cut)?;
    Ok(Some(mode))
}
