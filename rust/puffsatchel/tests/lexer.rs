//! Reading token by token. What is expected is document 01's, and of numbers document 02's.

use puffsatchel::{read, test, version, LARGEST_SOURCE, VERSION};
use puffsatchel::{Code, Delimiter, Kind, Lexer, Reading, Reason, Refusal, Span, Token};

type Numbers = (Vec<[usize; 3]>, Option<[usize; 4]>);

/// The tokens as numbers, and the refusal that ended them as number, start, end, reached.
fn numbers(source: &(impl AsRef<[u8]> + ?Sized), reading: Reading) -> Numbers {
    let mut tokens = Vec::new();
    let mut refused = None;
    let mut lexer = Lexer::new(source, reading);

    for item in &mut lexer {
        assert_eq!(refused, None, "nothing comes behind a refusal");

        match item {
            Ok(Token { kind, span }) => tokens.push([kind.number() as usize, span.start, span.end]),
            Err(Refusal { reason, span, reached }) => {
                refused = Some([reason.number() as usize, span.start, span.end, reached]);
            }
        }
    }

    assert!(lexer.next().is_none() && lexer.next().is_none(), "it stays at its end");
    (tokens, refused)
}

/// What a source gives under either reading.
fn both(source: &(impl AsRef<[u8]> + ?Sized)) -> Numbers {
    let rune = numbers(source, Reading::rune());
    assert_eq!(numbers(source, Reading::first_close()), rune, "the readings differ in comments only");
    rune
}

const OPERATORS: &str = "! # $ % & ( ) * + , - . / : ; < = > ? @ [ ] ^ { | } ~ \
    != %= && &= *= += -= -> .. /= :: << <= == => >= >> ^= |= || ..= <<= >>=";

#[test]
fn examples() {
    let table: [(&str, &[[usize; 3]], Option<[usize; 4]>); 20] = [
        ("", &[], None),
        ("/*/", &[[4, 0, 3]], None),
        ("/*ab*/", &[[3, 0, 6]], None),
        ("'A", &[[9, 0, 2]], None),
        ("'a", &[[15, 0, 2]], None),
        ("'a\n", &[], Some([11, 0, 2, 2])),
        ("''", &[], Some([12, 0, 2, 2])),
        ("...", &[[52, 0, 2], [28, 2, 3]], None),
        ("`}`", &[[16, 0, 3]], None),
        ("`\\''`", &[[16, 0, 5]], None),
        ("'a b", &[[15, 0, 2], [1, 2, 3], [6, 3, 4]], None),
        ("b'\\''", &[[10, 0, 4]], Some([13, 4, 5, 5])),
        ("a;", &[[6, 0, 1], [31, 1, 2]], None),
        ("#!a\n_ 1.5", &[[5, 0, 3], [1, 3, 4], [7, 4, 5], [1, 5, 6], [8, 6, 9]], None),
        ("1e-3", &[[8, 0, 4]], None),
        ("1.5e+2", &[[8, 0, 6]], None),
        ("1_0E-0_3;", &[[8, 0, 8], [31, 8, 9]], None),
        ("1e-x", &[[8, 0, 2], [27, 2, 3], [6, 3, 4]], None),
        ("0xe-3", &[[8, 0, 3], [27, 3, 4], [8, 4, 5]], None),
        ("1e\u{2212}3", &[[8, 0, 2]], Some([18, 2, 5, 5])),
    ];

    for (source, tokens, refused) in table {
        assert_eq!(both(source), (tokens.to_vec(), refused), "{source:?}");
    }
}

#[test]
fn comments_end_by_the_reading() {
    let table: [(&str, &[[usize; 3]], &[[usize; 3]]); 8] = [
        ("/**/", &[[4, 0, 4]], &[[3, 0, 4]]),
        ("/* */", &[[4, 0, 5]], &[[3, 0, 5]]),
        ("/*a*/", &[[4, 0, 5]], &[[3, 0, 5]]),
        ("/***/", &[[4, 0, 5]], &[[3, 0, 5]]),
        ("/*/*/", &[[4, 0, 5]], &[[3, 0, 5]]),
        ("/*é*/", &[[4, 0, 6]], &[[3, 0, 6]]),
        ("/**/x/**/", &[[3, 0, 9]], &[[3, 0, 4], [6, 4, 5], [3, 5, 9]]),
        ("`\\/**/`x", &[[16, 0, 8]], &[[16, 0, 7], [6, 7, 8]]),
    ];

    for (source, rune, first) in table {
        assert_eq!(numbers(source, Reading::rune()), (rune.to_vec(), None), "{source:?}");
        assert_eq!(numbers(source, Reading::first_close()), (first.to_vec(), None), "{source:?}");
    }
}

#[test]
fn operators_in_the_order_of_their_numbers() {
    for (number, operator) in (17..).zip(OPERATORS.split(' ')) {
        assert_eq!(both(operator), (vec![[number, 0, operator.len()]], None), "{operator}");
        assert_eq!(Kind::from_number(number as u32).unwrap().to_string(), format!("`{operator}`"));
    }
}

#[test]
fn refusals() {
    let table = [
        ("\"a\\", [10, 2, 3, 3]),
        // The first scalar after b' is skipped, so only the second backslash escapes.
        ("b'\\\\", [10, 3, 4, 4]),
        ("'A\u{7f}'", [11, 0, 2, 2]),
        ("''abc", [12, 0, 5, 2]),
        ("'", [13, 0, 1, 1]),
        ("b'a", [14, 0, 3, 3]),
        ("b'a\n'", [15, 0, 4, 4]),
        ("\"ab", [16, 0, 3, 3]),
        ("b\"ab", [17, 0, 4, 4]),
        ("×", [18, 0, 2, 2]),
    ];

    for (source, refused) in table {
        assert_eq!(both(source), (vec![], Some(refused)), "{source:?}");
    }
}

#[test]
fn the_test_comes_first() {
    assert_eq!(both(b"a\xff"), (vec![], Some([2, 1, 1, 1])));
    assert_eq!(both(&vec![b'a'; LARGEST_SOURCE]), (vec![[6, 0, LARGEST_SOURCE]], None));

    let refusal = test(&vec![b'a'; LARGEST_SOURCE + 1]).unwrap_err();
    assert_eq!((refusal.reason, refusal.span), (Reason::TooLong, Span { start: 0, end: 0 }));
    assert_eq!(test("aé"), Ok(()));
}

#[test]
fn depth() {
    let nested = |depth: usize| vec!["`"; depth].join("\\") + &"`".repeat(depth);
    assert_eq!(both(&nested(64)), (vec![[16, 0, nested(64).len()]], None));

    // The 65th backtick stands after 64 others, each but the first with its backslash.
    let (tokens, refused) = both(&nested(65));
    assert_eq!((tokens, refused.map(|[number, start, end, _]| [number, start, end])), (vec![], Some([19, 0, 129])));
}

#[test]
fn one_token_at_a_place() {
    for reading in [Reading::rune(), Reading::first_close()] {
        assert_eq!(read("a;", reading, 1), Ok(Token { kind: Kind::SemiColon, span: Span { start: 1, end: 2 } }));
        assert_eq!(read("a;", reading, 2), Ok(Token { kind: Kind::Eof, span: Span { start: 2, end: 2 } }));

        for (source, place) in [("a;", 3), ("é", 1), ("", usize::MAX)] {
            let refusal = read(source, reading, place).unwrap_err();
            assert_eq!((refusal.reason, refusal.span), (Reason::NoPlace, Span { start: place, end: place }));
        }
    }

    let end = |reading| read("a/**/b*/", reading, 1).map(|token| token.span.end);
    assert_eq!((end(Reading::rune()), end(Reading::first_close())), (Ok(8), Ok(5)));
}

#[test]
fn kinds_and_their_numbers() {
    for number in 1..=67 {
        assert_eq!(Kind::from_number(number).map(Kind::number), Some(number));
    }

    for number in [0, 68, u32::MAX] {
        assert_eq!(Kind::from_number(number), None);
    }

    assert_eq!(Kind::from_number(4), Some(Kind::MultilineComment(false)));
    assert_eq!(Kind::from_number(12), Some(Kind::Str { escaped: true }));
    assert_eq!(Kind::from_number(42), Some(Kind::Close(Delimiter::Brace)));
    assert_eq!(format!("{:?}", Kind::LtLtEq), "LtLtEq");
    assert_eq!(Kind::MultilineComment(true).to_string(), "a closed comment");
    assert!((1..=67).all(|number| Kind::from_number(number).unwrap().is_whitespace() == (number <= 4)));
}

#[test]
fn every_reason_says_what_and_what_to_do() {
    for number in (1..=6).chain(10..=27).chain(30..=34).chain(40..=43) {
        let reason = Reason::from_number(number).unwrap();
        assert_eq!(reason.number(), number);
        assert_eq!(reason.to_string().matches("; ").count(), 1, "{reason:?}");
    }

    for number in [0, 7, 9, 28, 35, 39, 44] {
        assert_eq!(Reason::from_number(number), None);
    }

    let refusal = read("''", Reading::rune(), 0).unwrap_err();
    let error: &dyn std::error::Error = &refusal;
    assert_eq!(error.to_string(), "refused 12 at 0..2: a char is empty; put a character between its quotes");

    // The lookahead's have no place.
    let refusal = Refusal { reason: Reason::PastHeld, span: Span::default(), reached: 0 };
    assert_eq!(refusal.to_string(), "refused 32: the advance goes past the held tokens; fill first");
}

#[test]
fn every_code_says_what_and_what_to_do() {
    for number in 60..=65 {
        for first in [b'/', b'`'] {
            let code = Code::from_number(number, first).unwrap();
            assert_eq!(code.number(), number);
            assert!(!code.to_string().is_empty() && !code.cure().is_empty(), "{code:?}");
        }
    }

    for number in [0, 59, 66, 160] {
        assert_eq!(Code::from_number(number, b'`'), None);
    }

    let code = Code::from_number(61, b'`').unwrap();
    assert_eq!((code, code.name()), (Code::TemplateRunsOnBlank, "template-runs-on"));

    let code = Code::from_number(60, b'/').unwrap();
    assert_eq!((code, code.name()), (Code::CommentRunsOn, "comment-runs-on"));
    assert_eq!(code.to_string(), "this comment does not end where it seems to");
    assert_eq!(code.cure(), "write `/*  */` with two blanks, or use `//`");
}

#[test]
fn wrapper_and_archive_are_of_one_version() {
    assert_eq!((version(), VERSION), (6, 6));
}
