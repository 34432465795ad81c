//! Stand-in for `heapless`: a vector of bounded length, as far as the message types use it.

use core::ops::Deref;

/// A vector of at most `N` elements.
#[derive(Debug, Clone, PartialEq)]
pub struct Vec<T, const N: usize>(std::vec::Vec<T>);

impl<T, const N: usize> Vec<T, N> {
    /// An empty vector.
    pub fn new() -> Self {
        Self(std::vec::Vec::new())
    }

    /// Append an element, or hand it back if there is no room.
    pub fn push(&mut self, item: T) -> Result<(), T> {
        if self.0.len() == N {
            return Err(item);
        }
        self.0.push(item);
        Ok(())
    }
}

impl<T, const N: usize> Default for Vec<T, N> {
    fn default() -> Self {
        Self::new()
    }
}

impl<T, const N: usize> Deref for Vec<T, N> {
    type Target = [T];

    fn deref(&self) -> &[T] {
        &self.0
    }
}

impl<T, const N: usize> FromIterator<T> for Vec<T, N> {
    /// Panics on more than `N` elements, as the original does.
    fn from_iter<I: IntoIterator<Item = T>>(items: I) -> Self {
        let mut vec = Self::new();
        for item in items {
            assert!(vec.push(item).is_ok(), "more than {N} elements");
        }
        vec
    }
}

impl<'a, T, const N: usize> IntoIterator for &'a Vec<T, N> {
    type Item = &'a T;
    type IntoIter = core::slice::Iter<'a, T>;

    fn into_iter(self) -> Self::IntoIter {
        self.0.iter()
    }
}
