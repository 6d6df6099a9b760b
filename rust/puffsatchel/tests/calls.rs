//! The calls that write. What is expected is document 01's; lent memory is filled with a mark first, and all of it is
//! compared afterwards.

use puffsatchel::{list, load, outline, store, unescape, Form, Kind, Reading, Reason, Refusal, Span, Stopped, Tokens};

const WORD: u32 = 0xa5a5_a5a5;
const BYTE: u8 = 0xa5;

const READINGS: [Reading; 2] = [Reading::rune(), Reading::first_close()];

fn refused(refusal: Refusal) -> (u32, usize, usize) {
    (refusal.reason.number(), refusal.span.start, refusal.span.end)
}

/// The answer of `list` with room for so many words, and the words before and after the end of that room.
fn listed(source: &str, reading: Reading, room: usize) -> (Result<usize, Stopped>, Vec<u32>) {
    let mut words = vec![WORD; room + 6];
    let answer = list(source, reading, &mut words[..room]);
    (answer, words)
}

#[test]
fn listing_writes_three_words_a_token() {
    for reading in READINGS {
        let (answer, words) = listed("a;", reading, 8);
        assert_eq!(answer, Ok(2));
        assert_eq!(words[..6], [6, 0, 1, 31, 1, 2]);
        assert!(words[6..].iter().all(|&word| word == WORD));
    }
}

#[test]
fn listing_ends_comments_by_the_reading() {
    let (answer, words) = listed("/**/x/**/", Reading::rune(), 27);
    assert_eq!((answer, &words[..4]), (Ok(1), &[3, 0, 9, WORD][..]));

    let (answer, words) = listed("/**/x/**/", Reading::first_close(), 27);
    assert_eq!((answer, &words[..10]), (Ok(3), &[3, 0, 4, 6, 4, 5, 3, 5, 9, WORD][..]));
}

#[test]
fn listing_stops_and_keeps_what_it_stored() {
    for reading in READINGS {
        let (answer, words) = listed("a ''", reading, 20);
        let stopped = answer.unwrap_err();
        assert_eq!((stopped.count, refused(stopped.refusal)), (2, (12, 2, 4)));
        assert_eq!(words[..6], [6, 0, 1, 1, 1, 2]);
        assert!(words[6..].iter().all(|&word| word == WORD));
        assert_eq!(stopped.to_string(), format!("after 2 stored: {}", stopped.refusal));
    }
}

#[test]
fn listing_refuses_the_token_without_room() {
    for reading in READINGS {
        let (answer, words) = listed("ab;", reading, 5);
        let stopped = answer.unwrap_err();
        assert_eq!((stopped.count, refused(stopped.refusal)), (1, (3, 2, 3)));
        assert_eq!(words[..3], [6, 0, 2]);
        assert!(words[3..].iter().all(|&word| word == WORD));

        let (answer, _) = listed("", reading, 0);
        assert_eq!(answer, Ok(0));
    }
}

#[test]
fn tokens_of_a_list() {
    let mut tokens = Tokens::of(&[6, 0, 1, 31, 1, 2, 6, 2]);
    assert_eq!(tokens.next().map(|token| token.map(|token| token.kind)), Some(Ok(Kind::Ident)));
    assert_eq!(tokens.next().map(|token| token.map(|token| token.span)), Some(Ok(Span { start: 1, end: 2 })));
    assert_eq!(tokens.next(), None);
}

#[test]
fn a_number_that_is_no_kind_ends_the_tokens_of_a_list() {
    for number in [0, 68] {
        let words = [6, 0, 1, number, 1, 3, 31, 3, 4];
        let mut tokens = Tokens::of(&words);
        assert!(tokens.next().is_some_and(|token| token.is_ok()));

        let refusal = tokens.next().unwrap().unwrap_err();
        assert_eq!((refusal.reason, refusal.span), (Reason::OtherVersion(number), Span { start: 1, end: 3 }));
        assert_eq!(refusal.reached, 3);
        assert!(tokens.next().is_none() && tokens.next().is_none(), "nothing comes behind a refusal");
    }
}

/// The outline and its refusal; nothing after it is written.
fn outlined(source: &str, reading: Reading) -> (String, Option<(u32, usize, usize)>) {
    let mut out = vec![BYTE; source.len() + 4];
    let answer = outline(source, reading, &mut out[..source.len() + 2]);
    let rest = out.split_off(source.len());
    assert_eq!(rest, [BYTE; 4], "{source:?}");
    (String::from_utf8(out).unwrap(), answer.err().map(refused))
}

#[test]
fn outlines() {
    let table = [
        ("a\"b\\\"c\";", "a\"xxxx\";", None),
        ("b\"ab\"//é\n", "b\"xx\"//xx\n", None),
        ("/*ab*/ `a${b}`", "/*xx*/ `xxxxx`", None),
        ("/*/", "/*x", None),
        ("`{`", "`xx", None),
        ("\"a\" ''b", "\"x\" ''b", Some((12, 4, 7))),
    ];

    for reading in READINGS {
        for (source, wanted, refusal) in table {
            assert_eq!(outlined(source, reading), (wanted.to_owned(), refusal), "{source:?}");
        }

        for (source, room, refusal) in [(&b"ab"[..], 1, (3, 0, 0)), (b"a\xff", 2, (2, 1, 1))] {
            let mut out = [BYTE; 4];
            assert_eq!(outline(source, reading, &mut out[..room]).err().map(refused), Some(refusal));
            assert_eq!(out, [BYTE; 4]);
        }
    }
}

#[test]
fn outlines_end_comments_by_the_reading() {
    let table = [
        ("/*a*/b", "/*xxxx", "/*x*/b"),
        ("/**/x/**/", "/*xxxxx*/", "/**/x/**/"),
        ("`\\/**/`x", "`xxxxxxx", "`xxxxx`x"),
    ];

    for (source, rune, first) in table {
        assert_eq!(outlined(source, Reading::rune()), (rune.to_owned(), None), "{source:?}");
        assert_eq!(outlined(source, Reading::first_close()), (first.to_owned(), None), "{source:?}");
    }
}

#[test]
fn bodies() {
    use Form::{Byte, ByteText, Char, Template, Text};

    let table: [(Form, &str, Result<&[u8], (u32, usize, usize)>); 18] = [
        (Text, "", Ok(b"")),
        (Text, "\\x7f", Ok(b"\x7f")),
        (Text, "\\x80", Err((23, 0, 4))),
        (ByteText, "\\xff", Ok(b"\xff")),
        (Text, "\\u{100000041}", Ok(b"A")),
        (Text, "\\u{}", Err((22, 0, 4))),
        (Char, "\\u{d800}", Err((22, 0, 8))),
        (Text, "\\'\\\"\\n\\r\\t\\\\\\0", Ok(b"'\"\n\r\t\\\0")),
        (Template, "\\`\\$", Ok(b"`$")),
        (Text, "\\$", Err((20, 0, 2))),
        (Text, "a\\\n \u{2028}b", Ok(b"ab")),
        (Char, "\\\n", Err((20, 0, 2))),
        (ByteText, "\\u{41}", Err((21, 0, 2))),
        (ByteText, "aé", Err((25, 1, 3))),
        (Byte, "\\x4", Err((24, 0, 3))),
        (Byte, "ab", Err((27, 0, 2))),
        (Char, "", Err((27, 0, 0))),
        (Char, "é", Ok("é".as_bytes())),
    ];

    for (form, body, wanted) in table {
        let mut out = [BYTE; 16];
        let answer = unescape(form, body, &mut out[..14]).map_err(refused);
        assert_eq!(answer, wanted.map(<[u8]>::len), "{form:?} {body:?}");

        let written = wanted.unwrap_or_default();
        assert_eq!(&out[..written.len()], written, "{form:?} {body:?}");
        assert!(out[written.len()..].iter().all(|&byte| byte == BYTE), "{form:?} {body:?}");
    }

    let mut out = [BYTE; 2];
    assert_eq!(unescape(Text, "abc", &mut out).map_err(refused), Err((26, 0, 3)));
    assert_eq!(out, [BYTE; 2]);
}

#[test]
fn a_list_to_bytes_and_back() {
    let record = [0x54, 0x4b, 6, 0, 0, 0, 0, 1, 0, 0, 0];
    let mut bytes = [BYTE; 13];
    assert_eq!(store(&[6, 0, 1], &mut bytes), Ok(11));
    assert_eq!((&bytes[..11], &bytes[11..]), (&record[..], &[BYTE; 2][..]));

    let mut words = [WORD; 5];
    assert_eq!(load(&record, &mut words), Ok(3));
    assert_eq!(words, [6, 0, 1, WORD, WORD]);
}

#[test]
fn faulty_lists() {
    let mut bytes = [BYTE; 33];

    for (list, room, refusal) in [
        (&[6, 0][..], 33, (40, 0, 0)),
        (&[6, 0, 1, 67, 1, 2], 33, (42, 1, 1)),
        (&[6, 0, 1, 6, 2, 3], 33, (43, 1, 1)),
        (&[6, 1, 2], 33, (43, 0, 0)),
        (&[6, 0, 1], 10, (3, 0, 0)),
    ] {
        assert_eq!(store(list, &mut bytes[..room]).map_err(refused), Err(refusal));
        assert_eq!(bytes, [BYTE; 33]);
    }

    let record = |mark: u8, kind: u8, end: u8| [mark, 0x4b, kind, 0, 0, 0, 0, end, 0, 0, 0];
    let mut words = [WORD; 3];

    for (bytes, room, refusal) in [
        (&record(0x54, 6, 1)[..10], 3, (40, 0, 0)),
        (&record(0x55, 6, 1), 3, (41, 0, 0)),
        (&record(0x54, 0, 1), 3, (42, 0, 0)),
        (&record(0x54, 6, 0), 3, (43, 0, 0)),
        (&record(0x54, 6, 1), 2, (3, 0, 0)),
    ] {
        assert_eq!(load(bytes, &mut words[..room]).map_err(refused), Err(refusal));
        assert_eq!(words, [WORD; 3]);
    }

    let refusal = load(&record(0x55, 6, 1), &mut words).unwrap_err();
    assert_eq!(refusal.reason, Reason::BadMark);
    assert_eq!(refusal.to_string(), "refused 41 at record 0: the record does not begin with its mark; give bytes that `store` has written");
}
