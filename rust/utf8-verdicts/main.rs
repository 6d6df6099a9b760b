//! The standard library's verdict on short byte sequences, one line a first byte: `BYTE GOOD SUM`.
//!
//! Sequences run by length 1, 2, 3, 4 and within a length in ascending order, the last byte fastest; for length 4 the
//! later bytes run over small sets. GOOD counts the well-formed ones. SUM adds, modulo 2^32, for each ill-formed one
//! its number in this order (from 1, well-formed ones counted too) times one more than the place of the first fault.

const SECOND: [u8; 10] = [0x00, 0x7f, 0x80, 0x8f, 0x90, 0x9f, 0xa0, 0xbf, 0xc0, 0xff];
const LATER: [u8; 6] = [0x00, 0x7f, 0x80, 0xbf, 0xc0, 0xff];

#[derive(Default)]
struct Verdicts {
    tested: u32,
    good: u32,
    sum: u32,
}

impl Verdicts {
    fn test(&mut self, bytes: &[u8]) {
        self.tested += 1;

        match core::str::from_utf8(bytes) {
            Ok(_) => self.good += 1,
            Err(error) => {
                let weight = error.valid_up_to() as u32 + 1;
                self.sum = self.sum.wrapping_add(self.tested.wrapping_mul(weight));
            }
        }
    }
}

fn of_first_byte(first: u8) -> Verdicts {
    let mut verdicts = Verdicts::default();
    verdicts.test(&[first]);

    for second in 0..=255 {
        verdicts.test(&[first, second]);
    }

    for second in 0..=255 {
        for third in 0..=255 {
            verdicts.test(&[first, second, third]);
        }
    }

    for second in SECOND {
        for third in LATER {
            for fourth in LATER {
                verdicts.test(&[first, second, third, fourth]);
            }
        }
    }

    verdicts
}

fn main() {
    for first in 0..=255 {
        let verdicts = of_first_byte(first);
        println!("{first} {} {}", verdicts.good, verdicts.sum);
    }
}
