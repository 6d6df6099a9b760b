//! Stand-in for `syntree`: a builder that records tokens in the order given and keeps no tree.

use core::marker::PhantomData;

/// Building never fails here.
#[derive(Debug)]
pub enum Error {}

#[derive(Debug, Clone, Copy)]
pub struct Span {
    pub start: u32,
    pub end: u32,
}

impl Span {
    pub fn new(start: u32, end: u32) -> Self {
        Self { start, end }
    }
}

pub mod pointer {
    #[derive(Debug, Clone, Copy)]
    pub struct PointerUsize;
}

#[derive(Debug, Clone)]
pub struct Checkpoint<P>(PhantomData<P>);

pub struct Tree<T, F>(PhantomData<(T, F)>);

pub struct Builder<T, F> {
    tokens: Vec<(T, Span)>,
    flavor: PhantomData<F>,
}

impl<T, F> Builder<T, F> {
    pub fn new_with() -> Self {
        Self {
            tokens: Vec::new(),
            flavor: PhantomData,
        }
    }

    /// One whose tokens go after those given, into their room.
    pub fn over(tokens: Vec<(T, Span)>) -> Self {
        Self {
            tokens,
            flavor: PhantomData,
        }
    }

    pub fn into_tokens(self) -> Vec<(T, Span)> {
        self.tokens
    }

    pub fn token_with(&mut self, value: T, span: Span) -> Result<(), Error> {
        self.tokens.push((value, span));
        Ok(())
    }

    /// Hands out the tokens recorded since the last time.
    pub fn take_tokens(&mut self) -> std::vec::Drain<'_, (T, Span)> {
        self.tokens.drain(..)
    }

    pub fn open(&mut self, _: T) -> Result<(), Error> {
        Ok(())
    }

    pub fn close(&mut self) -> Result<(), Error> {
        Ok(())
    }

    pub fn checkpoint(&mut self) -> Result<Checkpoint<pointer::PointerUsize>, Error> {
        Ok(Checkpoint(PhantomData))
    }

    pub fn close_at<P>(&mut self, _: &Checkpoint<P>, _: T) -> Result<(), Error> {
        Ok(())
    }

    pub fn build(self) -> Result<Tree<T, F>, Error> {
        Ok(Tree(PhantomData))
    }
}
