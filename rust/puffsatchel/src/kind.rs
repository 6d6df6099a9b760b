//! The kinds of tokens, in the order of their numbers.

use core::fmt;

/// What a token is. [`Kind::number`] is its outside form, the number that stands in a list.
#[derive(Debug, Clone, Copy, PartialEq, Eq, Hash)]
pub enum Kind {
    /// The longest run of White_Space.
    Whitespace,
    /// From `//` to before the end of the line.
    Comment,
    /// `/* .. */`, and whether it is closed.
    MultilineComment(bool),
    /// `#!` at the start of the source, to before the end of the line.
    Shebang,
    /// A word. Keywords are words too.
    Ident,
    /// A `_` by itself.
    Underscore,
    /// A number.
    Number,
    /// A char, as `'A'`.
    Char,
    /// A byte, as `b'a'`.
    Byte,
    /// A string.
    Str {
        /// A backslash stands in it, so its body has escapes to read.
        escaped: bool,
    },
    /// A byte string.
    ByteStr {
        /// A backslash stands in it, so its body has escapes to read.
        escaped: bool,
    },
    /// A label, as `'a`.
    Label,
    /// A template, closed or up to the end of the source.
    TemplateString,
    // tools/texts.py writes operators 17 to 21, from texts.txt
    /// `!`
    Bang,
    /// `#`
    Pound,
    /// `$`
    Dollar,
    /// `%`
    Perc,
    /// `&`
    Amp,
    // tools/texts.py ends operators 17 to 21
    /// An opening bracket.
    Open(Delimiter),
    /// A closing bracket.
    Close(Delimiter),
    // tools/texts.py writes operators 24 to 66, from texts.txt
    /// `*`
    Star,
    /// `+`
    Plus,
    /// `,`
    Comma,
    /// `-`
    Dash,
    /// `.`
    Dot,
    /// `/`
    Div,
    /// `:`
    Colon,
    /// `;`
    SemiColon,
    /// `<`
    Lt,
    /// `=`
    Eq,
    /// `>`
    Gt,
    /// `?`
    QuestionMark,
    /// `@`
    At,
    /// `^`
    Caret,
    /// `|`
    Pipe,
    /// `~`
    Tilde,
    /// `!=`
    BangEq,
    /// `%=`
    PercEq,
    /// `&&`
    AmpAmp,
    /// `&=`
    AmpEq,
    /// `*=`
    StarEq,
    /// `+=`
    PlusEq,
    /// `-=`
    DashEq,
    /// `->`
    Arrow,
    /// `..`
    DotDot,
    /// `/=`
    SlashEq,
    /// `::`
    ColonColon,
    /// `<<`
    LtLt,
    /// `<=`
    LtEq,
    /// `==`
    EqEq,
    /// `=>`
    Rocket,
    /// `>=`
    GtEq,
    /// `>>`
    GtGt,
    /// `^=`
    CaretEq,
    /// `|=`
    PipeEq,
    /// `||`
    PipePipe,
    /// `..=`
    DotDotEq,
    /// `<<=`
    LtLtEq,
    /// `>>=`
    GtGtEq,
    // tools/texts.py ends operators 24 to 66
    /// The end of the source. It is never in a list.
    Eof,
}

/// Which bracket it is.
#[derive(Debug, Clone, Copy, PartialEq, Eq, Hash)]
pub enum Delimiter {
    /// `(` and `)`
    Parenthesis,
    /// `[` and `]`
    Bracket,
    /// `{` and `}`
    Brace,
}

macro_rules! numbered {
    ($($number:literal [$($kind:tt)*] $what:literal)*) => {
        impl Kind {
            /// The kind's number, from 1 to 67.
            #[must_use]
            pub const fn number(self) -> u32 {
                match self {
                    $(Kind::$($kind)* => $number,)*
                }
            }

            /// The kind of a number, or none for one that is not from 1 to 67.
            #[must_use]
            pub const fn from_number(number: u32) -> Option<Kind> {
                match number {
                    $($number => Some(Kind::$($kind)*),)*
                    _ => None,
                }
            }
        }

        /// What it is, in words or as its characters: `a closed comment`, `` `==` ``.
        impl fmt::Display for Kind {
            fn fmt(&self, f: &mut fmt::Formatter<'_>) -> fmt::Result {
                f.write_str(match self {
                    $(Kind::$($kind)* => $what,)*
                })
            }
        }
    };
}

numbered! {
    // tools/texts.py writes kinds, from texts.txt
    1 [Whitespace] "white space"
    2 [Comment] "a comment to the end of the line"
    3 [MultilineComment(true)] "a closed comment"
    4 [MultilineComment(false)] "a comment that nothing closes"
    5 [Shebang] "a shebang"
    6 [Ident] "a word"
    7 [Underscore] "a lone `_`"
    8 [Number] "a number"
    9 [Char] "a char"
    10 [Byte] "a byte"
    11 [Str { escaped: false }] "a string"
    12 [Str { escaped: true }] "a string with a backslash in it"
    13 [ByteStr { escaped: false }] "a byte string"
    14 [ByteStr { escaped: true }] "a byte string with a backslash in it"
    15 [Label] "a label"
    16 [TemplateString] "a template"
    17 [Bang] "`!`"
    18 [Pound] "`#`"
    19 [Dollar] "`$`"
    20 [Perc] "`%`"
    21 [Amp] "`&`"
    22 [Open(Delimiter::Parenthesis)] "`(`"
    23 [Close(Delimiter::Parenthesis)] "`)`"
    24 [Star] "`*`"
    25 [Plus] "`+`"
    26 [Comma] "`,`"
    27 [Dash] "`-`"
    28 [Dot] "`.`"
    29 [Div] "`/`"
    30 [Colon] "`:`"
    31 [SemiColon] "`;`"
    32 [Lt] "`<`"
    33 [Eq] "`=`"
    34 [Gt] "`>`"
    35 [QuestionMark] "`?`"
    36 [At] "`@`"
    37 [Open(Delimiter::Bracket)] "`[`"
    38 [Close(Delimiter::Bracket)] "`]`"
    39 [Caret] "`^`"
    40 [Open(Delimiter::Brace)] "`{`"
    41 [Pipe] "`|`"
    42 [Close(Delimiter::Brace)] "`}`"
    43 [Tilde] "`~`"
    44 [BangEq] "`!=`"
    45 [PercEq] "`%=`"
    46 [AmpAmp] "`&&`"
    47 [AmpEq] "`&=`"
    48 [StarEq] "`*=`"
    49 [PlusEq] "`+=`"
    50 [DashEq] "`-=`"
    51 [Arrow] "`->`"
    52 [DotDot] "`..`"
    53 [SlashEq] "`/=`"
    54 [ColonColon] "`::`"
    55 [LtLt] "`<<`"
    56 [LtEq] "`<=`"
    57 [EqEq] "`==`"
    58 [Rocket] "`=>`"
    59 [GtEq] "`>=`"
    60 [GtGt] "`>>`"
    61 [CaretEq] "`^=`"
    62 [PipeEq] "`|=`"
    63 [PipePipe] "`||`"
    64 [DotDotEq] "`..=`"
    65 [LtLtEq] "`<<=`"
    66 [GtGtEq] "`>>=`"
    67 [Eof] "the end of the source"
    // tools/texts.py ends kinds
}

impl Kind {
    /// White space and comments: the kinds 1 to 4, which a parser passes over.
    #[must_use]
    pub const fn is_whitespace(self) -> bool {
        matches!(self, Kind::Whitespace | Kind::Comment | Kind::MultilineComment(_))
    }
}
