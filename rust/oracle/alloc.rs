//! Stand-in for `crate::alloc`: the standard collections under the names that the three files call. Nothing is limited.

use core::ops::{Deref, DerefMut};

/// Allocation never fails here.
#[derive(Debug)]
pub(crate) enum Error {}

pub(crate) type Result<T, E = Error> = core::result::Result<T, E>;

#[derive(Debug)]
pub(crate) struct Vec<T>(std::vec::Vec<T>);

impl<T> Vec<T> {
    pub(crate) fn try_push(&mut self, value: T) -> Result<()> {
        self.0.push(value);
        Ok(())
    }
}

impl<T> Default for Vec<T> {
    fn default() -> Self {
        Self(std::vec::Vec::new())
    }
}

impl<T> Deref for Vec<T> {
    type Target = std::vec::Vec<T>;

    fn deref(&self) -> &Self::Target {
        &self.0
    }
}

impl<T> DerefMut for Vec<T> {
    fn deref_mut(&mut self) -> &mut Self::Target {
        &mut self.0
    }
}

/// Remembers the most that it ever held: a queue may fill and empty again within one call.
#[derive(Debug)]
pub(crate) struct VecDeque<T> {
    values: std::collections::VecDeque<T>,
    most: usize,
}

impl<T> VecDeque<T> {
    pub(crate) fn new() -> Self {
        Self {
            values: std::collections::VecDeque::new(),
            most: 0,
        }
    }

    pub(crate) fn try_push_back(&mut self, value: T) -> Result<()> {
        self.values.push_back(value);
        self.most = self.most.max(self.values.len());
        Ok(())
    }

    pub(crate) fn most(&self) -> usize {
        self.most
    }
}

impl<T> Deref for VecDeque<T> {
    type Target = std::collections::VecDeque<T>;

    fn deref(&self) -> &Self::Target {
        &self.values
    }
}

impl<T> DerefMut for VecDeque<T> {
    fn deref_mut(&mut self) -> &mut Self::Target {
        &mut self.values
    }
}
