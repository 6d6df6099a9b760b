//! Frames to standard output.

use std::io::{self, BufWriter, StdoutLock, Write};

pub(crate) struct Sink {
    out: BufWriter<StdoutLock<'static>>,
    /// The modes that are written; none named: all.
    only: Vec<u8>,
}

impl Sink {
    pub(crate) fn new(only: Vec<u8>) -> Self {
        Self {
            out: BufWriter::with_capacity(1 << 20, io::stdout().lock()),
            only,
        }
    }

    pub(crate) fn frame(&mut self, mode: u8, payload: &[u8]) -> io::Result<()> {
        if !self.only.is_empty() && !self.only.contains(&mode) {
            return Ok(());
        }

        self.out.write_all(&[mode])?;
        self.out.write_all(&(payload.len() as u32).to_le_bytes())?;
        self.out.write_all(payload)
    }

    pub(crate) fn script(&mut self, keep: bool, source: &[u8], ops: &[(u8, u8)]) -> io::Result<()> {
        let mut payload = vec![u8::from(keep)];
        payload.extend((source.len() as u32).to_le_bytes());
        payload.extend(source);
        payload.extend(ops.iter().flat_map(|&(code, argument)| [code, argument]));
        self.frame(b'a', &payload)
    }

    pub(crate) fn end(&mut self) -> io::Result<()> {
        self.out.flush()
    }
}
