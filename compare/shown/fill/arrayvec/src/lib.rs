//! Ours, not the registry's arrayvec: fills in `ArrayVec` with what etherparse's shown files call.
//!
//! Each slot is an `Option`, so that no memory is ever left unset and nothing here needs unsafe
//! code. Two functions are declared `unsafe` all the same, because the shown files call them so.
#![no_std]

/// A list of at most `N` elements, held in place.
#[derive(Clone, Debug, Eq, PartialEq)]
pub struct ArrayVec<T, const N: usize> {
    slots: [Option<T>; N],
    len: usize,
}

/// The list has no room for what was to be added.
#[derive(Clone, Copy, Debug, Eq, PartialEq)]
pub struct CapacityError;

impl<T, const N: usize> ArrayVec<T, N> {
    const EMPTY: Option<T> = None;

    /// The empty list.
    pub fn new() -> Self {
        Self::new_const()
    }

    /// The empty list, as a constant.
    pub const fn new_const() -> Self {
        ArrayVec {
            slots: [Self::EMPTY; N],
            len: 0,
        }
    }

    /// Whether every slot is taken.
    pub const fn is_full(&self) -> bool {
        self.len == N
    }

    /// Adds an element; a full list panics.
    ///
    /// # Safety
    ///
    /// Nothing is asked: the slot is tested like any index.
    pub unsafe fn push_unchecked(&mut self, element: T) {
        self.push(element);
    }

    /// Makes the list `len` long; only shortening is possible, anything else panics.
    ///
    /// # Safety
    ///
    /// Nothing is asked: a length past the elements there is refused.
    pub unsafe fn set_len(&mut self, len: usize) {
        assert!(len <= self.len, "set_len only shortens here");
        for slot in &mut self.slots[len..] {
            *slot = None;
        }
        self.len = len;
    }

    /// The elements, first to last.
    pub fn iter(&self) -> impl DoubleEndedIterator<Item = &T> {
        self.slots[..self.len].iter().flatten()
    }

    fn push(&mut self, element: T) {
        self.slots[self.len] = Some(element);
        self.len += 1;
    }
}

impl<T: Copy, const N: usize> ArrayVec<T, N> {
    /// Adds the elements of a slice, all or none.
    pub fn try_extend_from_slice(&mut self, elements: &[T]) -> Result<(), CapacityError> {
        if N - self.len < elements.len() {
            return Err(CapacityError);
        }
        self.extend(elements.iter().copied());
        Ok(())
    }
}

impl<T, const N: usize> Default for ArrayVec<T, N> {
    fn default() -> Self {
        Self::new_const()
    }
}

impl<T, const N: usize> Extend<T> for ArrayVec<T, N> {
    fn extend<I: IntoIterator<Item = T>>(&mut self, elements: I) {
        for element in elements {
            self.push(element);
        }
    }
}

impl<T, const N: usize> From<[T; N]> for ArrayVec<T, N> {
    fn from(elements: [T; N]) -> Self {
        ArrayVec {
            slots: elements.map(Some),
            len: N,
        }
    }
}
