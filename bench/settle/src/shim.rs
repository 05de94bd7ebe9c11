//! What the converted crates take from their standard library, over Rust's own.

use std::ops::{Deref, DerefMut};

#[derive(Debug, Clone, Copy, PartialEq, Eq)]
pub struct Global;

#[derive(Debug, Clone, Copy, PartialEq, Eq)]
pub struct NoMemory;

pub type AllocError = NoMemory;

impl From<std::collections::TryReserveError> for NoMemory {
    fn from(_: std::collections::TryReserveError) -> NoMemory {
        NoMemory
    }
}

/// A vector whose pushes may run out of memory; here they never do.
#[derive(Debug, Clone, PartialEq, Eq)]
pub struct Vec<T>(pub std::vec::Vec<T>);

impl<T> Vec<T> {
    pub fn new(_: Global) -> Vec<T> {
        Vec(std::vec::Vec::new())
    }

    pub fn push(&mut self, item: T) -> Result<(), NoMemory> {
        self.0.push(item);
        Ok(())
    }
}

impl<T> Vec<T> {
    pub fn push_reserved(&mut self, item: T) {
        self.0.push(item);
    }
}

impl<T: Clone> Vec<T> {
    pub fn from_elem(_: Global, item: T, count: usize) -> Result<Vec<T>, NoMemory> {
        Ok(Vec(std::vec![item; count]))
    }

    pub fn from_slice(_: Global, items: &[T]) -> Result<Vec<T>, NoMemory> {
        Ok(Vec(items.to_vec()))
    }

    pub fn extend_from_slice(&mut self, items: &[T]) -> Result<(), NoMemory> {
        self.0.extend_from_slice(items);
        Ok(())
    }

    pub fn resize(&mut self, count: usize, item: T) -> Result<(), NoMemory> {
        self.0.resize(count, item);
        Ok(())
    }
}

impl<T> Deref for Vec<T> {
    type Target = std::vec::Vec<T>;

    fn deref(&self) -> &std::vec::Vec<T> {
        &self.0
    }
}

impl<T> DerefMut for Vec<T> {
    fn deref_mut(&mut self) -> &mut std::vec::Vec<T> {
        &mut self.0
    }
}

impl<'a, T> IntoIterator for &'a Vec<T> {
    type Item = &'a T;
    type IntoIter = std::slice::Iter<'a, T>;

    fn into_iter(self) -> Self::IntoIter {
        self.0.iter()
    }
}

impl<T> IntoIterator for Vec<T> {
    type Item = T;
    type IntoIter = std::vec::IntoIter<T>;

    fn into_iter(self) -> Self::IntoIter {
        self.0.into_iter()
    }
}

#[macro_export]
macro_rules! vec {
    (in $alloc:expr; $item:expr; $count:expr) => {
        $crate::shim::Vec::from_elem($alloc, $item, $count)
    };
}
