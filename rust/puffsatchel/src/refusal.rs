//! What cannot be read: by which rule, where, and what to do about it.

use core::fmt;

use crate::calls::Answer;
use crate::lexer::Span;

/// A source, a body or a list that is not read further, and why.
///
/// Its text says what is wrong, where, and what to do:
///
/// ```
/// use puffsatchel::{read, Reading};
///
/// let refusal = read("\"a", Reading::rune(), 0).unwrap_err();
/// assert_eq!(refusal.to_string(), "refused 16 at 0..2: the source ends in a string; close it with a quote");
/// ```
#[derive(Debug, Clone, Copy, PartialEq, Eq, Hash)]
pub struct Refusal {
    /// Why.
    pub reason: Reason,
    /// Where; for the reasons 30 to 34 it is 0..0, for 40 to 43 it names the record of the list, and start and end are the
    /// same.
    pub span: Span,
    /// The place that reading had reached.
    pub reached: usize,
}

impl Refusal {
    pub(crate) fn of(number: u32, answer: &Answer) -> Option<Self> {
        if number == 0 {
            return None;
        }

        Some(Self {
            reason: Reason::from_number(number).unwrap_or(Reason::OtherVersion(number)),
            span: Span { start: answer.start, end: answer.end },
            reached: answer.reached,
        })
    }
}

impl fmt::Display for Refusal {
    fn fmt(&self, f: &mut fmt::Formatter<'_>) -> fmt::Result {
        let Span { start, end } = self.span;
        let number = self.reason.number();

        match number {
            30..=34 => write!(f, "refused {number}: {}", self.reason),
            40..=43 => write!(f, "refused {number} at record {start}: {}", self.reason),
            _ => write!(f, "refused {number} at {start}..{end}: {}", self.reason),
        }
    }
}

impl core::error::Error for Refusal {}

macro_rules! reasons {
    ($($number:literal $name:ident: $what:literal, $cure:literal;)*) => {
        /// Why something was refused, each with its number ([`Reason::number`]).
        #[derive(Debug, Clone, Copy, PartialEq, Eq, Hash)]
        #[non_exhaustive]
        pub enum Reason {
            $(
                #[doc = concat!($number, ": ", $what, ".")]
                $name,
            )*
            /// A number, of a refusal or a kind, that this wrapper has no name for: the archive is of another version.
            OtherVersion(u32),
        }

        impl Reason {
            /// The refusal's number.
            #[must_use]
            pub const fn number(self) -> u32 {
                match self {
                    $(Reason::$name => $number,)*
                    Reason::OtherVersion(number) => number,
                }
            }

            /// The reason of a number, or none where the number has no name here.
            #[must_use]
            pub const fn from_number(number: u32) -> Option<Reason> {
                match number {
                    $($number => Some(Reason::$name),)*
                    _ => None,
                }
            }
        }

        impl fmt::Display for Reason {
            fn fmt(&self, f: &mut fmt::Formatter<'_>) -> fmt::Result {
                f.write_str(match self {
                    $(Reason::$name => concat!($what, "; ", $cure),)*
                    Reason::OtherVersion(_) => {
                        "the archive is of another version; build wrapper and archive from one commit"
                    }
                })
            }
        }
    };
}

reasons! {
    // tools/texts.py writes refusals, from texts.txt
    1 TooLong: "the source is over 65,536 bytes", "split it";
    2 IllFormed: "the source is not UTF-8 from here on", "save it as UTF-8";
    3 NoRoom: "the lent memory is full", "lend more";
    4 NoPlace: "the place is past the end or inside a character", "begin where a token ended";
    5 NoSuchForm: "the number names no form of a body", "give 1 to 5";
    6 NoSuchReading: "the number names no reading", "give 1 or 2";

    10 ExpectedEscape: "the source ends after a backslash", "finish the escape and close the literal";
    11 UnterminatedCharLit: "a control character stands in a char", "close the char before it, or write an escape";
    12 ExpectedCharClose: "a char is empty", "put a character between its quotes";
    13 ExpectedCharOrLabel: "the source ends after a single quote", "write a char or a label";
    14 ExpectedByteClose: "the source ends in a byte", "close it with a single quote";
    15 UnterminatedByteLit: "a control character stands in a byte", "close the byte before it, or write an escape";
    16 UnterminatedStrLit: "the source ends in a string", "close it with a quote";
    17 UnterminatedByteStrLit: "the source ends in a byte string", "close it with a quote";
    18 UnexpectedChar: "no token begins with this character", "take it out, or put it in a string or a comment";
    19 TooDeep: "a 65th template is opened within templates", "take one out into a variable";

    20 BadEscapeSequence: "there is no such escape in this form of body", "double the backslash, or use an escape of this form";
    21 BadUnicodeEscapeInByteString: "there is no Unicode escape in bytes", "write its bytes as `\\x..`";
    22 BadUnicodeEscape: "the Unicode escape names no scalar", "write `\\u{..}` with the hex digits of a scalar";
    23 BadHexEscapeChar: "`\\x` is above 7f in text", "write `\\u{..}`";
    24 BadByteEscape: "two hex digits do not follow `\\x`", "write both digits";
    25 NotAscii: "a scalar above U+007F stands in bytes", "write its bytes as `\\x..`";
    26 OutputShort: "what the body stands for does not fit", "lend as many bytes as the body has";
    27 NotOneItem: "a char or a byte holds none or more than one", "write exactly one, or make it a string";

    30 TooFar: "the lookahead holds at most 8 tokens", "ask for 0 to 7, and for an array of up to 8";
    31 WaitingFull: "a 257th token of white space would wait", "drop white space, or read the list itself";
    32 PastHeld: "the advance goes past the held tokens", "fill first";
    33 StoreShort: "the store is too short for what would be emitted", "lend more and call again";
    34 Faulty: "the list is faulty, or the state is not this list's", "begin again with a listed source and a fresh state";

    40 BadLength: "the length is no whole number of records", "give the list whole";
    41 BadMark: "the record does not begin with its mark", "give bytes that `store` has written";
    42 BadKind: "the record's kind is outside 1 to 66", "give a list that a source was listed to";
    43 Gap: "the record is empty, or does not begin where the one before it ended", "give the tokens in order, none left out";
    // tools/texts.py ends refusals
}
