//! Stand-ins for the crate's kinds and tokens: those that the lexer makes, and end of file.

use crate::ast::Span;
use crate::SourceId;

#[derive(Debug, Clone, Copy, PartialEq, Eq)]
pub(crate) struct Token {
    pub(crate) span: Span,
    pub(crate) kind: Kind,
}

#[derive(Debug, Clone, Copy, PartialEq, Eq)]
pub(crate) enum Kind {
    Whitespace,
    Comment,
    MultilineComment(bool),
    Shebang(LitSource),
    Ident(LitSource),
    Underscore,
    Number(NumberSource),
    Char(CopySource<char>),
    Byte(CopySource<u8>),
    Str(StrSource),
    ByteStr(StrSource),
    Label(LitSource),
    TemplateString,
    Open(Delimiter),
    Close(Delimiter),
    Bang,
    Pound,
    Dollar,
    Perc,
    Amp,
    Star,
    Plus,
    Comma,
    Dash,
    Dot,
    Div,
    Colon,
    SemiColon,
    Lt,
    Eq,
    Gt,
    QuestionMark,
    At,
    Caret,
    Pipe,
    Tilde,
    BangEq,
    PercEq,
    AmpAmp,
    AmpEq,
    StarEq,
    PlusEq,
    DashEq,
    Arrow,
    DotDot,
    SlashEq,
    ColonColon,
    LtLt,
    LtEq,
    EqEq,
    Rocket,
    GtEq,
    GtGt,
    CaretEq,
    PipeEq,
    PipePipe,
    DotDotEq,
    LtLtEq,
    GtGtEq,
    Eof,
}

impl Kind {
    /// The keyword table is not in the text given; document 01 lists a keyword as a word.
    pub(crate) fn from_keyword(_: &str) -> Option<Self> {
        None
    }
}

#[derive(Debug, Clone, Copy, PartialEq, Eq)]
pub(crate) enum Delimiter {
    Parenthesis,
    Brace,
    Bracket,
    Empty,
}

#[derive(Debug, Clone, Copy, PartialEq, Eq)]
pub(crate) enum LitSource {
    Text(SourceId),
    BuiltIn(BuiltIn),
}

#[derive(Debug, Clone, Copy, PartialEq, Eq)]
pub(crate) enum BuiltIn {
    Template,
    BuiltIn,
    Literal,
    Doc,
}

#[derive(Debug, Clone, Copy, PartialEq, Eq)]
pub(crate) enum CopySource<T> {
    Text(SourceId),
    Inline(T),
}

#[derive(Debug, Clone, Copy, PartialEq, Eq)]
pub(crate) enum StrSource {
    Text(StrText),
}

#[derive(Debug, Clone, Copy, PartialEq, Eq)]
pub(crate) struct StrText {
    pub(crate) source_id: SourceId,
    pub(crate) escaped: bool,
    pub(crate) wrapped: bool,
}

#[derive(Debug, Clone, Copy, PartialEq, Eq)]
pub(crate) enum NumberSource {
    Text(NumberText),
}

#[derive(Debug, Clone, Copy, PartialEq, Eq)]
pub(crate) struct NumberText {
    pub(crate) source_id: SourceId,
    pub(crate) is_fractional: bool,
    pub(crate) base: NumberBase,
    pub(crate) number: Span,
    pub(crate) suffix: Span,
}

#[derive(Debug, Clone, Copy, PartialEq, Eq)]
pub(crate) enum NumberBase {
    Decimal,
    Hex,
    Octal,
    Binary,
}

macro_rules! K {
    (!) => { $crate::ast::Kind::Bang };
    (#) => { $crate::ast::Kind::Pound };
    (=) => { $crate::ast::Kind::Eq };
    ('(') => { $crate::ast::Kind::Open($crate::ast::Delimiter::Parenthesis) };
    (')') => { $crate::ast::Kind::Close($crate::ast::Delimiter::Parenthesis) };
    ('[') => { $crate::ast::Kind::Open($crate::ast::Delimiter::Bracket) };
    (']') => { $crate::ast::Kind::Close($crate::ast::Delimiter::Bracket) };
}
