//! One source through both sides: its listing, its tokens one by one, its outline and the outline of that.

use puffsatchel::Reading;

use crate::answers::{Difference, Listed, Refused};
use crate::domain::{self, Outside};
use crate::lent::Lent;
use crate::own;

const NO_ROOM: u32 = 3;
const NO_PLACE: u32 = 4;
const END_OF_FILE: u32 = 67;
const INSIDE: u8 = b'x';

/// The reading that equals the Rust's.
const RUNE: Reading = Reading::rune();

pub(crate) struct Sources {
    rust: Listed,
    ours: Listed,
    /// What is listed beside `ours` and compared with it.
    again: Listed,
    words: Lent<u32>,
    bytes: Lent<u8>,
    wanted: Vec<u8>,
    /// Counts the sources, so that rooms differ from one to the next.
    turn: usize,
}

impl Sources {
    pub(crate) fn new() -> Self {
        Self {
            rust: Listed::default(),
            ours: Listed::default(),
            again: Listed::default(),
            words: Lent::new(),
            bytes: Lent::new(),
            wanted: Vec::new(),
            turn: 0,
        }
    }

    /// Answers why the source is outside the domain of equality, if it is. Then only our own answers are judged.
    pub(crate) fn compare(&mut self, source: &[u8]) -> Result<Option<Outside>, Difference> {
        self.turn += 1;
        let room = 3 * source.len() + self.turn % 3;
        list(source, RUNE, room, &mut self.words, &mut self.ours)?;
        self.first_close(source, room)?;

        let text = match oracle::text(source) {
            Ok(text) => text,
            Err(refusal) => {
                self.rust.words.clear();
                self.rust.refused = Some(refusal.into());
                self.same_as_rust()?;
                self.refuse_all(source)?;
                return Ok(None);
            }
        };

        Listed::from_rust(text, &mut self.rust);
        let left = domain::leaves(text, &self.rust, &self.ours);

        match left {
            None => self.same_as_rust()?,
            Some((first, _)) => {
                self.same_before(first)?;
                own::judge(text, &self.ours)?;
            }
        }

        self.covers(source)?;
        self.short_store(source)?;
        self.one_by_one(source)?;
        self.one_at_a_place(source)?;
        self.outline(text, left.is_none())?;
        Ok(left.map(|(_, why)| why))
    }

    /// Without `/*` the other reading lists the same.
    fn first_close(&mut self, source: &[u8], room: usize) -> Result<(), Difference> {
        if source.windows(2).any(|pair| pair == b"/*") {
            return Ok(());
        }

        list(source, Reading::first_close(), room, &mut self.words, &mut self.again)?;

        if self.again == self.ours {
            return Ok(());
        }

        let what = "the listing of a source that opens no comment, by rune's reading and to the first close";
        Err(Difference::lists(what, &self.ours, &self.again))
    }

    fn same_as_rust(&self) -> Result<(), Difference> {
        if self.ours == self.rust {
            return Ok(());
        }

        Err(Difference::lists("the listing, by the Rust and by us", &self.rust, &self.ours))
    }

    /// Reading is local: what stands before the token that leaves the domain is as in the Rust.
    fn same_before(&self, first: usize) -> Result<(), Difference> {
        let before = 3 * first;

        if self.ours.words.get(..before) == self.rust.words.get(..before) {
            return Ok(());
        }

        let what = format!("the first {first} tokens of the listing, by the Rust and by us");
        Err(Difference::lists(&what, &self.rust, &self.ours))
    }

    /// The spans go from the start to the end, or to the refused token, with no gap, and none is empty.
    fn covers(&self, source: &[u8]) -> Result<(), Difference> {
        let mut place = 0;

        for [_, start, end] in self.ours.tokens() {
            if start != place || end <= start {
                return Err(Difference::lists("the spans, which have no gap", &self.rust, &self.ours));
            }

            place = end;
        }

        if self.ours.refused.is_none() && place as usize != source.len() {
            return Err(Difference::lists("the spans, which end with the source", &self.rust, &self.ours));
        }

        Ok(())
    }

    /// The same source with too few words: the tokens that fit, and the next one refused by 3.
    fn short_store(&mut self, source: &[u8]) -> Result<(), Difference> {
        if self.ours.words.is_empty() {
            return Ok(());
        }

        let room = self.turn % self.ours.words.len();
        let fit = room / 3 * 3;
        let (start, end) = (self.ours.words[fit + 1] as usize, self.ours.words[fit + 2] as usize);
        list(source, RUNE, room, &mut self.words, &mut self.again)?;

        let fits = self.again.words[..] == self.ours.words[..fit];

        if fits && self.again.refused == Some(Refused::new(NO_ROOM, start, end)) {
            return Ok(());
        }

        let what = format!("the listing into {room} words: of this the tokens that fit, and the next refused by 3");
        Err(Difference::lists(&what, &self.ours, &self.again))
    }

    fn one_by_one(&mut self, source: &[u8]) -> Result<(), Difference> {
        let again = &mut self.again;
        again.words.clear();
        again.refused = None;

        for item in puffsatchel::Lexer::new(source, RUNE) {
            match item {
                Ok(token) => again.words.extend(words(token)),
                Err(refusal) => again.refused = Some(refusal.into()),
            }
        }

        if self.again == self.ours {
            return Ok(());
        }

        Err(Difference::lists("the tokens one by one, beside the listing", &self.ours, &self.again))
    }

    /// One token by itself, any of the list or what comes after it; and a place past the end, refused by 4.
    fn one_at_a_place(&self, source: &[u8]) -> Result<(), Difference> {
        let index = self.turn % (self.ours.count() + 1);
        let end = self.ours.end();

        let (place, wanted) = match (self.ours.tokens().nth(index), self.ours.refused) {
            (Some(token), _) => (token[1] as usize, Ok(token)),
            (None, Some(refused)) => (end, Err(refused)),
            (None, None) => (end, Ok([END_OF_FILE, end as u32, end as u32])),
        };

        same_read(source, place, wanted)?;
        let past = source.len() + 1 + self.turn % 2;
        same_read(source, past, Err(Refused::new(NO_PLACE, past, past)))
    }

    /// A source refused by 1 or 2 is refused so by every call, and nothing is written.
    fn refuse_all(&mut self, source: &[u8]) -> Result<(), Difference> {
        self.one_by_one(source)?;
        let refused = outline(source, source.len(), &mut self.bytes);
        self.bytes.rest_is_untouched("the outline of a source refused by 1 or 2", 0)?;
        same_refusal("the outline's refusal", self.rust.refused, refused)
    }

    fn outline(&mut self, text: &str, inside: bool) -> Result<(), Difference> {
        let source = text.as_bytes();
        self.short_outline(source)?;

        let refused = outline(source, source.len() + self.turn % 3, &mut self.bytes);
        self.bytes.rest_is_untouched("the outline", source.len())?;
        same_refusal("the outline's refusal, as the listing's", self.ours.refused, refused)?;

        if inside {
            paint(text, &self.rust, &mut self.wanted);

            if self.wanted != self.bytes.front(source.len()) {
                return Err(Difference::bytes("the outline", &self.wanted, self.bytes.front(source.len())));
            }
        } else {
            self.wanted.clear();
            self.wanted.extend_from_slice(self.bytes.front(source.len()));
        }

        // An outline that changed nothing is its own outline.
        if self.wanted == source {
            return Ok(());
        }

        self.list_alike(inside)?;
        self.outline_again()
    }

    fn short_outline(&mut self, source: &[u8]) -> Result<(), Difference> {
        if source.is_empty() {
            return Ok(());
        }

        let refused = outline(source, self.turn % source.len(), &mut self.bytes);
        self.bytes.rest_is_untouched("the outline into too few bytes", 0)?;
        same_refusal("the outline into too few bytes", Some(Refused::new(NO_ROOM, 0, 0)), refused)
    }

    /// The outline lists like its source, strings with a backslash taken as those without.
    fn list_alike(&mut self, inside: bool) -> Result<(), Difference> {
        self.ours.make_plain();
        list(&self.wanted, RUNE, 3 * self.wanted.len(), &mut self.words, &mut self.again)?;

        if self.again != self.ours {
            return Err(Difference::lists("the outline's listing, as its source's", &self.ours, &self.again));
        }

        match std::str::from_utf8(&self.wanted) {
            Ok(text) if inside => Listed::from_rust(text, &mut self.rust),
            Ok(_) => return Ok(()),
            Err(_) => return Err(Difference::bytes("the outline, which is UTF-8", b"", &self.wanted)),
        }

        if self.again != self.rust {
            return Err(Difference::lists("the outline's listing, by the Rust and by us", &self.rust, &self.again));
        }

        Ok(())
    }

    fn outline_again(&mut self) -> Result<(), Difference> {
        let refused = outline(&self.wanted, self.wanted.len(), &mut self.bytes);
        self.bytes.rest_is_untouched("the outline's outline", self.wanted.len())?;
        same_refusal("the outline's outline", self.ours.refused, refused)?;

        if self.bytes.front(self.wanted.len()) != self.wanted {
            let ours = self.bytes.front(self.wanted.len());
            return Err(Difference::bytes("the outline's outline, as the outline", &self.wanted, ours));
        }

        Ok(())
    }
}

fn same_read(source: &[u8], place: usize, wanted: Result<[u32; 3], Refused>) -> Result<(), Difference> {
    let ours = puffsatchel::read(source, RUNE, place).map_err(Refused::from).map(words);

    if ours == wanted {
        return Ok(());
    }

    let what = format!("the token at {place}, beside the listing");
    Err(Difference::new(&what, &format!("  {wanted:?}"), &format!("  {ours:?}")))
}

fn words(token: puffsatchel::Token) -> [u32; 3] {
    [token.kind.number(), token.span.start as u32, token.span.end as u32]
}

fn same_refusal(what: &str, wanted: Option<Refused>, ours: Option<Refused>) -> Result<(), Difference> {
    if wanted == ours {
        return Ok(());
    }

    Err(Difference::refusals(what, wanted, ours))
}

/// Lists by the library, and judges what was not written.
fn list(
    source: &[u8],
    reading: Reading,
    room: usize,
    words: &mut Lent<u32>,
    into: &mut Listed,
) -> Result<(), Difference> {
    let (count, refused) = match puffsatchel::list(source, reading, words.fresh(room)) {
        Ok(count) => (count, None),
        Err(stopped) => (stopped.count, Some(stopped.refusal.into())),
    };

    if 3 * count > room {
        return Err(Difference::new("the count", &format!("  up to {} tokens", room / 3), &format!("  {count}")));
    }

    into.words.clear();
    into.words.extend_from_slice(words.front(3 * count));
    into.refused = refused;
    words.rest_is_untouched("the store's words", 3 * count)
}

fn outline(source: &[u8], room: usize, bytes: &mut Lent<u8>) -> Option<Refused> {
    puffsatchel::outline(source, RUNE, bytes.fresh(room)).err().map(Refused::from)
}

/// Document 01's outline, of the Rust's tokens.
fn paint(source: &str, rust: &Listed, into: &mut Vec<u8>) {
    into.clear();
    into.extend_from_slice(source.as_bytes());

    for [kind, start, end] in rust.tokens() {
        let (start, end) = (start as usize, end as usize);

        let (open, close) = match kind {
            2 | 4 => (2, 0),
            3 => (2, 2),
            11 | 12 => (1, 1),
            13 | 14 => (2, 1),
            16 => (1, usize::from(is_shut(source, start, end))),
            _ => continue,
        };

        into[start + open..end - close].fill(INSIDE);
    }
}

/// Whether a backtick closed this template: one that the source's end ended goes on into what is put after it.
fn is_shut(source: &str, start: usize, end: usize) -> bool {
    if end < source.len() {
        return true;
    }

    let mut longer = Listed::default();
    Listed::from_rust(&format!("{} ", &source[start..]), &mut longer);
    longer.count() == 2
}
