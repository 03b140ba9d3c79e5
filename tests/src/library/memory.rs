//! Where the memory lies that an entry of the C interface is lent.

use crate::guarded::Whole;

use super::entry::Entry;

/// The memory of one call. It is lent in the order of the entry's pointers.
pub trait Memory {
    fn of(entry: Entry) -> Self;

    /// Elements that are only read.
    fn input<T: Copy>(&mut self, elements: &[T]) -> *const T;

    /// Elements among guards, which too are only read.
    fn kept<T: Copy>(&mut self, lent: Whole<T>) -> *const T;

    /// Elements among guards, which are written to.
    fn output<T: Copy>(&mut self, lent: Whole<T>) -> *mut T;

    /// After the call. Hands the answer on.
    fn answered(self, answer: i64) -> i64;
}

/// Everything is lent where it is.
pub struct InPlace;

impl Memory for InPlace {
    fn of(_: Entry) -> InPlace {
        InPlace
    }

    fn input<T: Copy>(&mut self, elements: &[T]) -> *const T {
        elements.as_ptr()
    }

    fn kept<T: Copy>(&mut self, lent: Whole<T>) -> *const T {
        self.output(lent)
    }

    /// The pointer is taken from the whole memory, so that the guards may be read
    /// afterwards even if the library has written to them.
    fn output<T: Copy>(&mut self, lent: Whole<T>) -> *mut T {
        lent.memory.as_mut_ptr().wrapping_add(lent.guard)
    }

    fn answered(self, answer: i64) -> i64 {
        answer
    }
}
