//! The crate's lookahead buffer, and stand-ins for its neighbours in `crate::grammar`. Node sources are left out by
//! document 01, so none can be made.

use core::convert::Infallible;
use core::marker::PhantomData;

use crate::ast::{Kind, Span, Token};

#[allow(unreachable_code)]
pub(crate) mod parser {
    include!(concat!(env!("PUFFSATCHEL_RUST"), "/src/grammar/parser.rs"));

    // Inside the parser's module, since `fill` and the builder are private there.
    pub(crate) mod look;
    pub(crate) mod script;
}

pub(crate) use self::parser::{look, script};

macro_rules! kinds_1_to_4 {
    () => {
        $crate::ast::Kind::Whitespace
            | $crate::ast::Kind::Comment
            | $crate::ast::Kind::MultilineComment(..)
    };
}

pub(crate) use kinds_1_to_4 as ws;

pub(crate) struct Flavor;

pub(crate) struct Tree(syntree::Tree<Kind, Flavor>);

impl Tree {
    fn new(tree: syntree::Tree<Kind, Flavor>) -> Self {
        Self(tree)
    }
}

pub(crate) struct Node<'a>(Infallible, PhantomData<&'a ()>);

impl<'a> Node<'a> {
    fn span(&self) -> Span {
        match self.0 {}
    }

    fn internal_children(&self) -> InternalChildren<'a> {
        match self.0 {}
    }
}

struct InternalChildren<'a>(Infallible, PhantomData<&'a ()>);

impl InternalChildren<'_> {
    fn next(&mut self) -> Option<Infallible> {
        match self.0 {}
    }
}

fn inner_token(node: Infallible) -> Token {
    match node {}
}
