//! One script of lookahead calls through both sides.

use puffsatchel::{Kind, Lookahead, Reading, Refusal, Token, Whitespace};

use crate::answers::{Difference, Refused};
use crate::lent::Lent;
use crate::look::{
    ADVANCE, ARRAY, BUMP, BUMP_IF, BUMP_WHILE, FILL, FLUSH_WS, GLUED, IS_EOF, NTH, NTH_TOKEN, PEEK,
};

const STORE_SHORT: u32 = 33;

/// The refusals of a call that document 01's domain of equality leaves out, but for the state's and the list's.
const OUTSIDE: std::ops::RangeInclusive<u32> = 30..=33;

/// What a call answers, and the words that it writes: those it emits, or an array's.
#[derive(Debug, Clone, PartialEq, Eq)]
struct Called {
    numbers: Vec<u32>,
    written: Vec<u32>,
}

pub(crate) struct Scripts {
    words: Vec<u32>,
    out: Lent<u32>,
    /// Counts the calls, so that rooms differ from one to the next.
    turn: usize,
}

impl Scripts {
    pub(crate) fn new() -> Self {
        Self { words: Vec::new(), out: Lent::new(), turn: 0 }
    }

    /// Answers whether the calls were compared: where both sides refuse the source, and alike, there is no list to call on.
    pub(crate) fn compare(&mut self, keep: bool, source: &[u8], ops: &[(u8, u8)]) -> Result<bool, Difference> {
        self.words.clear();
        self.words.resize(puffsatchel::WORDS_PER_TOKEN * source.len(), 0);
        let rusts = oracle::text(source).and_then(|text| oracle::list_words(text, |_| ()).map(|_| text));
        let ours = puffsatchel::list(source, Reading::rune(), &mut self.words);

        let (text, count) = match (rusts.map_err(Refused::from), ours.map_err(|stopped| stopped.refusal.into())) {
            (Ok(text), Ok(count)) => (text, count),
            (Err(rusts), Err(ours)) if rusts == ours => return Ok(false),
            (rusts, ours) => {
                let (rusts, ours) = (rusts.map(drop), ours.map(drop));
                return Err(Difference::new("a script's source", &format!("  {rusts:?}"), &format!("  {ours:?}")));
            }
        };

        self.words.truncate(puffsatchel::WORDS_PER_TOKEN * count);
        let mut wanted = Vec::new();

        let inside = oracle::each_call(text, keep, ops.iter().copied(), |name, numbers, emitted| {
            let (numbers, written) = match name {
                "array" => (Vec::new(), numbers.to_vec()),
                _ => (numbers.to_vec(), emitted.to_vec()),
            };
            wanted.push(Called { numbers, written });
        });

        self.run(keep, ops, &wanted, inside).map(|()| true)
    }

    fn run(&mut self, keep: bool, ops: &[(u8, u8)], wanted: &[Called], inside: bool) -> Result<(), Difference> {
        let whitespace = if keep { Whitespace::Keep } else { Whitespace::Drop };
        let mut ahead = Lookahead::new(&self.words, whitespace)
            .map_err(|refusal| Difference::new("a listed source", "  accepted", &format!("  {refusal}")))?;

        for (&op, wanted) in ops.iter().zip(wanted) {
            self.turn += 1;
            let size = wanted.written.len();

            if let Some(short) = size.checked_sub(1 + self.turn % 3) {
                let ours = call(&mut ahead, op, self.out.fresh(short)).map_err(|refusal| refusal.reason.number());
                self.out.rest_is_untouched("the store of a refused call", 0)?;
                same(op, &Err(STORE_SHORT), &ours)?;
            }

            let ours = call(&mut ahead, op, self.out.fresh(size + self.turn % 3));
            self.out.rest_is_untouched("the store after what a call writes", size)?;
            let ours = ours.map(|numbers| Called { numbers, written: self.out.front(size).to_vec() });
            same(op, &Ok(wanted.clone()), &ours.map_err(|refusal| refusal.reason.number()))?;
        }

        match ops.get(wanted.len()) {
            // Room for all that a call can emit: the list, and an end-of-file token.
            Some(&op) if !inside => {
                outside(&mut ahead, op, self.words.len() + puffsatchel::WORDS_PER_TOKEN, &mut self.out)
            }
            _ => Ok(()),
        }
    }
}

/// A call outside the domain is refused, or asks for a number token, which the domain leaves out, or a kind that there is not.
fn outside(ahead: &mut Lookahead<'_>, op: (u8, u8), room: usize, out: &mut Lent<u32>) -> Result<(), Difference> {
    if matches!(op.0, BUMP_IF | BUMP_WHILE) && matches!(Kind::from_number(op.1.into()), None | Some(Kind::Number)) {
        return Ok(());
    }

    let ours = call(ahead, op, out.fresh(room)).map_err(|refusal| refusal.reason.number());
    out.rest_is_untouched("the store of a refused call", 0)?;

    match ours {
        Err(number) if OUTSIDE.contains(&number) => Ok(()),
        _ => Err(Difference::new("a call outside the domain", "  30 to 33", &format!("  {op:?}: {ours:?}"))),
    }
}

fn same<T: std::fmt::Debug + PartialEq>(op: (u8, u8), wanted: &T, ours: &T) -> Result<(), Difference> {
    if wanted == ours {
        return Ok(());
    }

    let what = format!("call {} of {}, by the Rust and by us", op.0, op.1);
    Err(Difference::new(&what, &format!("  {wanted:?}"), &format!("  {ours:?}")))
}

/// The numbers that a call answers, in the oracle's form.
fn call(ahead: &mut Lookahead<'_>, (code, argument): (u8, u8), out: &mut [u32]) -> Result<Vec<u32>, Refusal> {
    let n = usize::from(argument);
    let kind = Kind::from_number(argument.into()).unwrap_or(Kind::Eof);

    Ok(match code {
        FILL => ahead.fill(n).map(|()| Vec::new())?,
        PEEK => vec![ahead.peek()?.number()],
        NTH => vec![ahead.nth(n)?.number()],
        NTH_TOKEN => token(ahead.nth_token(n)?),
        GLUED => vec![ahead.glued(n)?.number()],
        FLUSH_WS => ahead.flush_ws(out).map(|(_, place)| vec![place as u32; 2])?,
        BUMP => token(ahead.bump(out)?.1),
        BUMP_WHILE => vec![u32::from(ahead.bump_while(kind, out)? > 0)],
        BUMP_IF => vec![u32::from(ahead.bump_if(kind, out)?.is_some())],
        ARRAY => ahead.array(n, out).map(|_| Vec::new())?,
        ADVANCE => ahead.advance(n, out).map(|_| Vec::new())?,
        IS_EOF => vec![u32::from(ahead.is_eof()?)],
        _ => unreachable!("the generators know twelve calls"),
    })
}

fn token(token: Token) -> Vec<u32> {
    vec![token.kind.number(), token.span.start as u32, token.span.end as u32]
}
