//! The lookahead. What is expected is document 01's; stores are filled with a mark first, and all of them is compared.

use puffsatchel::{list, Kind, Lookahead, Reading, Refusal, Whitespace};

const WORD: u32 = 0xa5a5_a5a5;

fn listed(source: &str) -> Vec<u32> {
    let mut words = vec![0; 3 * source.len()];
    let count = list(source, Reading::rune(), &mut words).unwrap();
    words.truncate(3 * count);
    words
}

fn number<T>(answer: Result<T, Refusal>) -> u32 {
    answer.err().map_or(0, |refusal| refusal.reason.number())
}

/// What a call writes to a store of so many words: all of them, with the marks after them.
fn out(room: usize) -> Vec<u32> {
    vec![WORD; room]
}

#[test]
fn what_is_kept_is_emitted_in_order() {
    let words = listed("a b");
    let mut ahead = Lookahead::new(&words, Whitespace::Keep).unwrap();
    let mut store = out(7);

    assert_eq!(ahead.peek(), Ok(Kind::Ident));
    assert_eq!(ahead.nth_token(1).map(|token| token.span.range()), Ok(2..3));
    assert_eq!(ahead.glued(1), Ok(Kind::Eof));
    assert_eq!(ahead.bump(&mut store).map(|(count, token)| (count, token.span.range())), Ok((1, 0..1)));
    assert_eq!(store, [6, 0, 1, WORD, WORD, WORD, WORD]);
    assert_eq!(ahead.flush_ws(&mut store), Ok((1, 2)));
    assert_eq!(store, [1, 1, 2, WORD, WORD, WORD, WORD]);
    assert_eq!(ahead.glued(0), Ok(Kind::Ident), "what stood before it was flushed");
    assert_eq!(ahead.is_eof(), Ok(false));
    assert_eq!(ahead.bump_if(Kind::SemiColon, &mut store), Ok(None));
    assert_eq!(ahead.bump_if(Kind::Ident, &mut store), Ok(Some(1)));
    assert_eq!(store, [6, 2, 3, WORD, WORD, WORD, WORD]);
    assert_eq!(ahead.is_eof(), Ok(true));

    for _ in 0..2 {
        let mut store = out(4);
        assert_eq!(ahead.bump(&mut store).map(|(count, token)| (count, token.kind)), Ok((1, Kind::Eof)));
        assert_eq!(store, [67, 3, 3, WORD]);
    }
}

#[test]
fn what_is_dropped_is_not_emitted() {
    let words = listed(" a /*bb*/ ;");
    let mut ahead = Lookahead::new(&words, Whitespace::Drop).unwrap();
    let mut store = out(6);

    assert_eq!(ahead.array(2, &mut store), Ok(2));
    assert_eq!(store, [6, 1, 2, 31, 10, 11]);
    assert_eq!(ahead.glued(1), Ok(Kind::SemiColon));
    let mut store = out(6);
    assert_eq!(ahead.advance(2, &mut store), Ok(2));
    assert_eq!(store, [6, 1, 2, 31, 10, 11]);
    assert_eq!(ahead.flush_ws(&mut store), Ok((0, 11)));
}

#[test]
fn a_run_of_one_kind() {
    let words = listed(";; ;a");
    let mut ahead = Lookahead::new(&words, Whitespace::Keep).unwrap();
    let mut store = out(13);

    assert_eq!(ahead.bump_while(Kind::SemiColon, &mut store), Ok(4));
    assert_eq!(store, [31, 0, 1, 31, 1, 2, 1, 2, 3, 31, 3, 4, WORD]);
    assert_eq!(ahead.bump_while(Kind::SemiColon, &mut store), Ok(0));
    assert_eq!(ahead.peek(), Ok(Kind::Ident));
}

#[test]
fn refusals_move_nothing() {
    let words = listed("a b");
    let mut ahead = Lookahead::new(&words, Whitespace::Keep).unwrap();
    let mut store = out(2);

    assert_eq!(number(ahead.nth(8)), 30);
    assert_eq!(number(ahead.array(9, &mut store)), 30);
    assert_eq!(number(ahead.advance(1, &mut store)), 32);
    assert_eq!(number(ahead.bump(&mut store)), 33);
    assert_eq!(store, [WORD, WORD]);
    assert_eq!(ahead.nth(7), Ok(Kind::Eof));
    assert_eq!(ahead.advance(2, &mut out(9)), Ok(3));
    assert_eq!(number(ahead.bump_while(Kind::Eof, &mut out(9))), 33);
}

#[test]
fn a_faulty_list_is_refused() {
    for list in [&[6, 0][..], &[67, 0, 1], &[6, 1, 2], &[6, 0, 0]] {
        assert_eq!(number(Lookahead::new(list, Whitespace::Drop)), 34);
    }
    assert_eq!(Lookahead::new(&[], Whitespace::Keep).unwrap().peek(), Ok(Kind::Eof));
}

#[test]
fn white_space_fills_its_queue() {
    let words = listed(&("//\n".repeat(129) + "a"));
    assert_eq!(number(Lookahead::new(&words, Whitespace::Keep).unwrap().peek()), 31);
    assert_eq!(Lookahead::new(&words, Whitespace::Drop).unwrap().peek(), Ok(Kind::Ident));
}
