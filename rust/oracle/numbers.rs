//! Document 01's numbers for the crate's kinds and errors.

use crate::ast::{CopySource, Delimiter, Kind, LitSource, StrSource, StrText};
use crate::compile::{Error, ErrorKind};
use crate::SOURCE;

/// A refusal by document 01: its number and span.
#[derive(Debug)]
pub struct Refusal {
    pub number: u32,
    pub start: u32,
    pub end: u32,
}

impl Refusal {
    pub(crate) fn new(number: u32, start: usize, end: usize) -> Self {
        Self {
            number,
            start: start as u32,
            end: end as u32,
        }
    }
}

macro_rules! kinds_without_text {
    ($($number:literal [$($kind:tt)*])*) => {
        fn number_without_text(kind: Kind) -> u32 {
            match kind {
                $($($kind)* => $number,)*
                other => panic!("plain mode makes no {other:?}"),
            }
        }

        fn kind_without_text(number: u8) -> Option<Kind> {
            match number {
                $($number => Some($($kind)*),)*
                _ => None,
            }
        }
    };
}

kinds_without_text! {
    1 [Kind::Whitespace]
    2 [Kind::Comment]
    3 [Kind::MultilineComment(true)]
    4 [Kind::MultilineComment(false)]
    7 [Kind::Underscore]
    16 [Kind::TemplateString]
    17 [Kind::Bang]
    18 [Kind::Pound]
    19 [Kind::Dollar]
    20 [Kind::Perc]
    21 [Kind::Amp]
    22 [Kind::Open(Delimiter::Parenthesis)]
    23 [Kind::Close(Delimiter::Parenthesis)]
    24 [Kind::Star]
    25 [Kind::Plus]
    26 [Kind::Comma]
    27 [Kind::Dash]
    28 [Kind::Dot]
    29 [Kind::Div]
    30 [Kind::Colon]
    31 [Kind::SemiColon]
    32 [Kind::Lt]
    33 [Kind::Eq]
    34 [Kind::Gt]
    35 [Kind::QuestionMark]
    36 [Kind::At]
    37 [Kind::Open(Delimiter::Bracket)]
    38 [Kind::Close(Delimiter::Bracket)]
    39 [Kind::Caret]
    40 [Kind::Open(Delimiter::Brace)]
    41 [Kind::Pipe]
    42 [Kind::Close(Delimiter::Brace)]
    43 [Kind::Tilde]
    44 [Kind::BangEq]
    45 [Kind::PercEq]
    46 [Kind::AmpAmp]
    47 [Kind::AmpEq]
    48 [Kind::StarEq]
    49 [Kind::PlusEq]
    50 [Kind::DashEq]
    51 [Kind::Arrow]
    52 [Kind::DotDot]
    53 [Kind::SlashEq]
    54 [Kind::ColonColon]
    55 [Kind::LtLt]
    56 [Kind::LtEq]
    57 [Kind::EqEq]
    58 [Kind::Rocket]
    59 [Kind::GtEq]
    60 [Kind::GtGt]
    61 [Kind::CaretEq]
    62 [Kind::PipeEq]
    63 [Kind::PipePipe]
    64 [Kind::DotDotEq]
    65 [Kind::LtLtEq]
    66 [Kind::GtGtEq]
    67 [Kind::Eof]
}

pub(crate) fn number_of(kind: Kind) -> u32 {
    match kind {
        Kind::Shebang(..) => 5,
        Kind::Ident(..) => 6,
        Kind::Number(..) => 8,
        Kind::Char(..) => 9,
        Kind::Byte(..) => 10,
        Kind::Str(StrSource::Text(text)) => 11 + u32::from(text.escaped),
        Kind::ByteStr(StrSource::Text(text)) => 13 + u32::from(text.escaped),
        Kind::Label(..) => 15,
        other => number_without_text(other),
    }
}

/// The kind that the lexer gives for a number. A number token (8) carries its own spans, so it has no single kind.
pub(crate) fn kind_of(number: u8) -> Option<Kind> {
    Some(match number {
        5 => Kind::Shebang(LitSource::Text(SOURCE)),
        6 => Kind::Ident(LitSource::Text(SOURCE)),
        9 => Kind::Char(CopySource::Text(SOURCE)),
        10 => Kind::Byte(CopySource::Text(SOURCE)),
        11 | 12 => Kind::Str(quoted(number == 12)),
        13 | 14 => Kind::ByteStr(quoted(number == 14)),
        15 => Kind::Label(LitSource::Text(SOURCE)),
        other => return kind_without_text(other),
    })
}

fn quoted(escaped: bool) -> StrSource {
    StrSource::Text(StrText {
        source_id: SOURCE,
        escaped,
        wrapped: true,
    })
}

pub(crate) fn refusal_of(error: Error) -> Refusal {
    let number = match error.kind {
        ErrorKind::ExpectedEscape => 10,
        ErrorKind::UnterminatedCharLit => 11,
        ErrorKind::ExpectedCharClose => 12,
        ErrorKind::ExpectedCharOrLabel => 13,
        ErrorKind::ExpectedByteClose => 14,
        ErrorKind::UnterminatedByteLit => 15,
        ErrorKind::UnterminatedStrLit => 16,
        ErrorKind::UnterminatedByteStrLit => 17,
        ErrorKind::UnexpectedChar { .. } => 18,
        other => panic!("plain mode raises no {other:?}"),
    };

    Refusal {
        number,
        start: error.span.start.0,
        end: error.span.end.0,
    }
}
