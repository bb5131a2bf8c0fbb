//! Memory as the proved sources ask for it: from an allocator that is passed, and with a result that says whether
//! memory ran out. This module is not proved: each call forwards to `alloc`.

pub use alloc::string::String;
use alloc::vec;
use core::ops::{Deref, DerefMut};

/// The allocator, which is the process's own.
#[derive(Clone, Copy)]
pub struct Global;

/// Memory ran out.
#[derive(Clone, Copy, Debug, PartialEq, Eq)]
pub struct AllocError;

/// A vector that says where there is no memory.
#[derive(Debug, PartialEq, Eq)]
pub struct Vec<T> {
    held: vec::Vec<T>,
}

impl<T> Vec<T> {
    #[must_use]
    pub fn new(_alloc: Global) -> Vec<T> {
        Vec {
            held: vec::Vec::new(),
        }
    }

    pub fn with_capacity(alloc: Global, capacity: usize) -> Result<Vec<T>, AllocError> {
        let mut made = Vec::new(alloc);
        made.held
            .try_reserve_exact(capacity)
            .map_err(|_| AllocError)?;
        Ok(made)
    }

    pub fn from_slice(alloc: Global, items: &[T]) -> Result<Vec<T>, AllocError>
    where
        T: Copy,
    {
        let mut made = Vec::new(alloc);
        made.extend_from_slice(items)?;
        Ok(made)
    }

    pub fn push(&mut self, item: T) -> Result<(), AllocError> {
        self.held.try_reserve(1).map_err(|_| AllocError)?;
        self.held.push(item);
        Ok(())
    }

    /// Adds an item for which there is room.
    pub fn push_reserved(&mut self, item: T) {
        self.held.push(item);
    }

    pub fn extend_from_slice(&mut self, items: &[T]) -> Result<(), AllocError>
    where
        T: Copy,
    {
        self.held.try_reserve(items.len()).map_err(|_| AllocError)?;
        self.held.extend_from_slice(items);
        Ok(())
    }

    pub fn resize(&mut self, length: usize, item: T) -> Result<(), AllocError>
    where
        T: Copy,
    {
        let more = length.saturating_sub(self.held.len());
        self.held.try_reserve(more).map_err(|_| AllocError)?;
        self.held.resize(length, item);
        Ok(())
    }

    pub fn truncate(&mut self, length: usize) {
        self.held.truncate(length);
    }

    pub fn clear(&mut self) {
        self.held.clear();
    }

    #[must_use]
    pub fn as_slice(&self) -> &[T] {
        &self.held
    }
}

impl<T> Deref for Vec<T> {
    type Target = [T];

    fn deref(&self) -> &[T] {
        &self.held
    }
}

impl<T> DerefMut for Vec<T> {
    fn deref_mut(&mut self) -> &mut [T] {
        &mut self.held
    }
}
