//! What is found. Expected is what the two readings of a source say, by hand; the lent store is filled with a mark first, and
//! all of it is compared afterwards.

use puffsatchel::{findings, Code, Finding, Findings, Reading, Reason, Refusal, Span, Stopped};
use puffsatchel::{FINDING_WORDS, LARGEST_SOURCE};

const WORD: u32 = 0xa5a5_a5a5;

fn words(found: Findings<'_>) -> Vec<[usize; 5]> {
    let words = |Finding { code, span, stretch }| [code.number() as usize, span.start, span.end, stretch.start, stretch.end];
    found.map(|finding| finding.map(words).unwrap()).collect()
}

fn refused(refusal: Refusal) -> [usize; 4] {
    [refusal.reason.number() as usize, refusal.span.start, refusal.span.end, refusal.reached]
}

type Answer = (Vec<[usize; 5]>, Option<[usize; 4]>);

/// What is found with room for so many words, and the refusal; nothing after it is written.
fn found(source: &(impl AsRef<[u8]> + ?Sized), reading: Reading, room: usize) -> Answer {
    let mut store = vec![WORD; room + 6];

    let answer = match findings(source, reading, &mut store[..room]) {
        Ok(found) => (words(found), None),
        Err(Stopped { count, refusal }) => {
            (words(Findings::of(source, &store[..FINDING_WORDS * count])), Some(refused(refusal)))
        }
    };

    assert!(store[FINDING_WORDS * answer.0.len()..].iter().all(|&word| word == WORD));
    answer
}

#[test]
fn by_runes_reading() {
    let table: [(&str, &[[usize; 5]], Option<[usize; 4]>); 10] = [
        ("", &[], None),
        ("a; /*ab*/ `b` // c", &[], None),
        ("/**/x/**/", &[[60, 0, 9, 4, 9]], None),
        ("/**/\n/* */\nx", &[[61, 0, 10, 4, 10]], None),
        ("/**/ // a*/ b;", &[[61, 0, 11, 4, 11], [62, 12, 13, 5, 14], [62, 13, 14, 5, 14]], None),
        ("/**/", &[[61, 0, 4, 4, 4], [63, 0, 4, 4, 4]], None),
        ("`\\/**/`x", &[[60, 0, 8, 7, 8], [64, 0, 8, 8, 8]], None),
        ("é `a", &[[64, 3, 5, 5, 5]], None),
        ("\u{feff}a", &[[65, 0, 3, 3, 3]], Some([18, 0, 3, 3])),
        ("/**/a/**/ ''b", &[[60, 0, 9, 4, 9]], Some([12, 10, 13, 12])),
    ];

    for (source, wanted, refusal) in table {
        assert_eq!(found(source, Reading::rune(), 20), (wanted.to_vec(), refusal), "{source:?}");
    }
}

#[test]
fn to_the_first_close() {
    let table: [(&str, &[[usize; 5]]); 3] =
        [("/**/x/**/ // a*/ b", &[]), ("/*/", &[[63, 0, 3, 3, 3]]), ("`{`", &[[64, 0, 3, 3, 3]])];

    for (source, wanted) in table {
        assert_eq!(found(source, Reading::first_close(), 20), (wanted.to_vec(), None), "{source:?}");
    }
}

#[test]
fn a_finding_without_room_is_refused() {
    assert_eq!(found("/**/", Reading::rune(), 4), (vec![], Some([3, 0, 4, 4])));
    assert_eq!(found("/**/", Reading::rune(), 9), (vec![[61, 0, 4, 4, 4]], Some([3, 0, 4, 4])));
    assert_eq!(found("", Reading::rune(), 0), (vec![], None));
}

#[test]
fn a_source_that_cannot_be_read_has_no_findings() {
    assert_eq!(found(b"/*\xff", Reading::rune(), 20), (vec![], Some([2, 2, 2, 2])));
    assert_eq!(found(&vec![b'`'; LARGEST_SOURCE + 1], Reading::rune(), 20), (vec![], Some([1, 0, 0, 0])));
}

#[test]
fn codes_by_the_byte_at_the_start() {
    let words = [60, 0, 1, 1, 4, 60, 1, 2, 2, 4, 61, 9, 9, 9, 9, 62, 3];
    let mut found = Findings::of("`/x;", &words);
    let finding = |code, at, end| Finding { code, span: Span { start: at, end: at + 1 }, stretch: Span { start: at + 1, end } };
    assert_eq!(found.next(), Some(Ok(finding(Code::TemplateRunsOn, 0, 4))));
    assert_eq!(found.next(), Some(Ok(finding(Code::CommentRunsOn, 1, 4))));
    assert_eq!(found.next().map(|finding| finding.map(|finding| finding.code)), Some(Ok(Code::CommentRunsOnBlank)));
    assert_eq!(found.next(), None);
}

#[test]
fn a_number_that_is_no_code_ends_the_findings() {
    for number in [0, 59, 66] {
        let words = [63, 0, 2, 2, 2, number, 1, 3, 3, 3, 64, 3, 4, 4, 4];
        let mut found = Findings::of("/*", &words);
        assert!(found.next().is_some_and(|finding| finding.is_ok()));

        let refusal = found.next().unwrap().unwrap_err();
        assert_eq!((refusal.reason, refusal.span), (Reason::OtherVersion(number), Span { start: 1, end: 3 }));
        assert_eq!(refusal.reached, 3);
        assert!(found.next().is_none() && found.next().is_none(), "nothing comes after a refusal");
    }
}
