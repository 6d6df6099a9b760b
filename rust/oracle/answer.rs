//! The text of the answers, to standard output.

use std::io::{self, Write};

use crate::numbers::Refusal;

const FLUSH_AT: usize = 1 << 20;

pub(crate) struct Answer {
    text: Vec<u8>,
}

impl Answer {
    pub(crate) fn new() -> Self {
        Self {
            text: Vec::with_capacity(2 * FLUSH_AT),
        }
    }

    pub(crate) fn word(&mut self, word: &str) {
        self.space();
        self.text.extend_from_slice(word.as_bytes());
    }

    pub(crate) fn numbers(&mut self, numbers: &[u32]) {
        for &number in numbers {
            self.space();
            self.decimal(number);
        }
    }

    pub(crate) fn hex(&mut self, bytes: &[u8]) {
        self.space();

        for byte in bytes {
            for digit in [byte >> 4, byte & 15] {
                self.text.push(b"0123456789abcdef"[usize::from(digit)]);
            }
        }
    }

    pub(crate) fn end_line(&mut self) {
        self.text.push(b'\n');
    }

    pub(crate) fn refusal(&mut self, refusal: &Refusal) {
        self.word("refused");
        self.numbers(&[refusal.number, refusal.start, refusal.end]);
        self.end_line();
    }

    pub(crate) fn end_frame(&mut self) -> io::Result<()> {
        self.text.extend_from_slice(b".\n");

        if self.text.len() >= FLUSH_AT {
            self.end()?;
        }

        Ok(())
    }

    /// Writes out what is still held back.
    pub(crate) fn end(&mut self) -> io::Result<()> {
        io::stdout().write_all(&self.text)?;
        self.text.clear();
        Ok(())
    }

    fn space(&mut self) {
        if !matches!(self.text.last(), None | Some(b'\n')) {
            self.text.push(b' ');
        }
    }

    fn decimal(&mut self, mut number: u32) {
        let mut digits = [0; 10];
        let mut at = digits.len();

        loop {
            at -= 1;
            digits[at] = b'0' + (number % 10) as u8;
            number /= 10;

            if number == 0 {
                break;
            }
        }

        self.text.extend_from_slice(&digits[at..]);
    }
}
