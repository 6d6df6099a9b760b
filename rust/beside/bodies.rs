//! One body through both sides, in one of the five forms.

use crate::answers::{Difference, Refused};
use crate::lent::Lent;

const OUTPUT_SHORT: u32 = 26;

/// A frame's mode, and the form by both sides' names.
const FORMS: [(u8, oracle::Form, puffsatchel::Form); 5] = [
    (b't', oracle::Form::Text, puffsatchel::Form::Text),
    (b'p', oracle::Form::Template, puffsatchel::Form::Template),
    (b'c', oracle::Form::Char, puffsatchel::Form::Char),
    (b's', oracle::Form::ByteText, puffsatchel::Form::ByteText),
    (b'b', oracle::Form::Byte, puffsatchel::Form::Byte),
];

pub(crate) struct Bodies {
    wanted: Vec<u8>,
    out: Lent<u8>,
    /// Counts the bodies, so that rooms differ from one to the next.
    turn: usize,
}

impl Bodies {
    pub(crate) fn new() -> Self {
        Self { wanted: Vec::new(), out: Lent::new(), turn: 0 }
    }

    /// Answers false for a mode that is no form's.
    pub(crate) fn compare(&mut self, mode: u8, body: &[u8]) -> Result<bool, Difference> {
        let Some(&(_, rusts, form)) = FORMS.iter().find(|(of, ..)| *of == mode) else {
            return Ok(false);
        };

        self.turn += 1;
        self.wanted.clear();
        let rust = oracle::text(body).and_then(|text| oracle::unescape(rusts, text, &mut self.wanted));

        match rust.map_err(Refused::from) {
            Ok(()) => self.accepted(form, body)?,
            Err(refused) => self.refused(form, body, refused)?,
        }

        Ok(true)
    }

    /// Into just enough bytes or a few more, then into too few: refusal 26 of the whole body.
    fn accepted(&mut self, form: puffsatchel::Form, body: &[u8]) -> Result<(), Difference> {
        let count = self.wanted.len();
        let ours = unescape(form, body, count + self.turn % 3, &mut self.out);
        self.out.rest_is_untouched("the bytes after what the body stands for", count)?;

        if ours != Ok(count) || self.out.front(count) != self.wanted {
            let said = format!("  {ours:?} {}", self.out.front(count).escape_ascii());
            let wanted = format!("  {:?} {}", Ok::<_, Refused>(count), self.wanted.escape_ascii());
            return Err(Difference::new("what the body stands for, by the Rust and by us", &wanted, &said));
        }

        if count == 0 {
            return Ok(());
        }

        self.refused_in(form, body, self.turn % count, Refused::new(OUTPUT_SHORT, 0, body.len()))
    }

    /// The same refusal whatever the room.
    fn refused(&mut self, form: puffsatchel::Form, body: &[u8], refused: Refused) -> Result<(), Difference> {
        let room = if self.turn % 2 == 0 { 0 } else { body.len() };
        self.refused_in(form, body, room, refused)
    }

    fn refused_in(
        &mut self,
        form: puffsatchel::Form,
        body: &[u8],
        room: usize,
        refused: Refused,
    ) -> Result<(), Difference> {
        let ours = unescape(form, body, room, &mut self.out);
        self.out.rest_is_untouched("the bytes of a refused body", 0)?;

        if ours != Err(refused) {
            let what = format!("what the body stands for, into {room} bytes");
            return Err(Difference::new(&what, &format!("  {:?}", Err::<usize, _>(refused)), &format!("  {ours:?}")));
        }

        Ok(())
    }
}

fn unescape(form: puffsatchel::Form, body: &[u8], room: usize, out: &mut Lent<u8>) -> Result<usize, Refused> {
    puffsatchel::unescape(form, body, out.fresh(room)).map_err(Refused::from)
}
