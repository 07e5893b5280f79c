//! `heapless::Vec` and `heapless::String`: a list and a text of bounded length.

use std::fmt;
use std::mem::MaybeUninit;
use std::ops::{Deref, DerefMut};
use std::slice;

/// At most `N` items, which lie in it and not on the heap; `push` gives the item back when there
/// is no room.
pub struct Vec<T, const N: usize> {
    length: usize,
    items: [MaybeUninit<T>; N],
}

impl<T: Copy, const N: usize> Vec<T, N> {
    #[expect(clippy::new_without_default, reason = "only what the module uses")]
    pub fn new() -> Self {
        Vec { length: 0, items: [MaybeUninit::uninit(); N] }
    }

    pub fn capacity(&self) -> usize {
        N
    }

    pub fn push(&mut self, item: T) -> Result<(), T> {
        match self.items.get_mut(self.length) {
            None => Err(item),
            Some(slot) => {
                slot.write(item);
                self.length += 1;
                Ok(())
            }
        }
    }

    pub fn clear(&mut self) {
        self.length = 0;
    }

    /// The last item takes the place of the removed one.
    pub fn swap_remove(&mut self, index: usize) -> T {
        let last = self.len() - 1;
        self.swap(index, last);
        let removed = self[last];
        self.length = last;
        removed
    }

    /// Those that `keep` accepts remain, in order.
    pub fn retain(&mut self, mut keep: impl FnMut(&T) -> bool) {
        let mut kept = 0;
        for i in 0..self.len() {
            if keep(&self[i]) {
                self[kept] = self[i];
                kept += 1;
            }
        }
        self.length = kept;
    }
}

impl<T, const N: usize> Deref for Vec<T, N> {
    type Target = [T];

    fn deref(&self) -> &[T] {
        // SAFETY: the first `length` items, at most N, have been written.
        unsafe { slice::from_raw_parts(self.items.as_ptr().cast(), self.length) }
    }
}

impl<T, const N: usize> DerefMut for Vec<T, N> {
    fn deref_mut(&mut self) -> &mut [T] {
        // SAFETY: as above.
        unsafe { slice::from_raw_parts_mut(self.items.as_mut_ptr().cast(), self.length) }
    }
}

/// At most `N` bytes; a piece that doesn't fit is an error and is left out.
pub struct String<const N: usize>(std::string::String);

impl<const N: usize> String<N> {
    #[expect(clippy::new_without_default, reason = "only what the module uses")]
    pub fn new() -> Self {
        String(std::string::String::with_capacity(N))
    }
}

impl<const N: usize> fmt::Write for String<N> {
    fn write_str(&mut self, piece: &str) -> fmt::Result {
        if self.0.len() + piece.len() > N {
            return Err(fmt::Error);
        }
        self.0.push_str(piece);
        Ok(())
    }
}

impl<const N: usize> Deref for String<N> {
    type Target = str;

    fn deref(&self) -> &str {
        &self.0
    }
}
