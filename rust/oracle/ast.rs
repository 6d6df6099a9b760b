//! The crate's unescaping, and stand-ins for its neighbours in `crate::ast`.

pub(crate) mod body;
#[macro_use]
mod kind;
mod span;

mod unescape {
    include!(concat!(env!("PUFFSATCHEL_RUST"), "/src/ast/unescape.rs"));
}

pub(crate) use self::kind::{
    BuiltIn, CopySource, Delimiter, Kind, LitSource, NumberBase, NumberSource, NumberText,
    StrSource, StrText, Token,
};
pub(crate) use self::span::{OptionSpanned, Span};
