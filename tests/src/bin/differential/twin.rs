//! Buffers of which each implementation has its own.

use std::fmt::LowerHex;

/// What buffers are made of: bytes, or the numbers of a list.
pub trait Item: Copy + PartialEq + LowerHex {
    const GUARD: Self;
}

impl Item for u8 {
    const GUARD: u8 = 0xA5;
}

impl Item for u32 {
    const GUARD: u32 = 0xA5A5_A5A5;
}

/// Two equal buffers, one for each implementation. Guards around them show a
/// write outside; without guards, valgrind sees a read outside too.
pub struct Twin<T = u8> {
    reference: Vec<T>,
    library: Vec<T>,
    guard: usize,
    pub shown: usize,
}

impl Twin {
    pub fn bytes(&self) -> &[u8] {
        self.items()
    }
}

impl<T: Item> Twin<T> {
    pub fn new(items: &[T], guard: usize) -> Twin<T> {
        let mut whole = Vec::with_capacity(items.len() + 2 * guard);
        whole.resize(guard, T::GUARD);
        whole.extend_from_slice(items);
        whole.resize(items.len() + 2 * guard, T::GUARD);
        Twin {
            library: whole.as_slice().into(),
            reference: whole,
            guard,
            shown: items.len(),
        }
    }

    /// The full length, whatever part is shown.
    pub fn full_len(&self) -> usize {
        self.reference.len() - 2 * self.guard
    }

    /// Shows the calls only the first `len` items, from now on.
    pub fn show(&mut self, len: usize) {
        self.shown = len.min(self.full_len());
    }

    pub fn items(&self) -> &[T] {
        &self.reference[self.guard..self.guard + self.shown]
    }

    /// Gives both buffers the same new content.
    pub fn replace(&mut self, items: &[T]) {
        let (reference, library) = self.parts();
        reference.copy_from_slice(items);
        library.copy_from_slice(items);
    }

    /// Gives a part of both the same new content.
    pub fn write(&mut self, at: usize, items: &[T]) {
        let (reference, library) = self.parts();
        reference[at..at + items.len()].copy_from_slice(items);
        library[at..at + items.len()].copy_from_slice(items);
    }

    pub fn parts(&mut self) -> (&mut [T], &mut [T]) {
        let range = self.guard..self.guard + self.shown;
        (&mut self.reference[range.clone()], &mut self.library[range])
    }

    pub fn first_difference(&self) -> Option<String> {
        if self.reference == self.library {
            return None;
        }
        let mut pairs = self.reference.iter().zip(&self.library);
        let at = pairs.position(|(a, b)| a != b)?;
        let (a, b) = (self.reference[at], self.library[at]);
        let place = at as i64 - self.guard as i64;
        Some(format!("at {place}: reference {a:#04x}, library {b:#04x}"))
    }
}

/// A request and what is lent beside it.
pub struct Lent {
    pub request: Twin,
    pub source: Twin,
    pub page: Twin,
}

impl Lent {
    pub fn new(request: &[u8], source: &[u8], page: &[u8], guard: usize) -> Lent {
        Lent {
            request: Twin::new(request, guard),
            source: Twin::new(source, guard),
            page: Twin::new(page, guard),
        }
    }

    pub fn named(&self) -> [(&str, &Twin); 3] {
        [
            ("request", &self.request),
            ("source", &self.source),
            ("page", &self.page),
        ]
    }
}
