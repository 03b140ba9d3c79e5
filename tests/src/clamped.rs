//! What is lent to a call that clamps: an output, and beside it the number of cuts.

use std::ops::{Deref, DerefMut};

use reference::lines::Counts;
use reference::refusal::Refusal;

use crate::guarded::{Element, Guarded};
use crate::library::{Slot, CUTS, EMPTY_SLOT};
use crate::quantization::refused;

/// It is used as the output that it is, so that a program that gets the cuts right need
/// not speak of them.
#[derive(Clone, PartialEq)]
pub struct Clamped<T> {
    pub made: Guarded<T>,
    pub cuts: Slot,
}

impl<T: Element> Clamped<T> {
    pub fn new(length: usize) -> Clamped<T> {
        Clamped {
            made: Guarded::new(length),
            cuts: EMPTY_SLOT,
        }
    }
}

impl<T> Deref for Clamped<T> {
    type Target = Guarded<T>;

    fn deref(&self) -> &Guarded<T> {
        &self.made
    }
}

impl<T> DerefMut for Clamped<T> {
    fn deref_mut(&mut self) -> &mut Guarded<T> {
        &mut self.made
    }
}

/// Counts or a refusal as the C interface answers them, with the number of cuts as it
/// must be afterwards.
pub fn counted(result: Result<Counts, Refusal>, cuts: &mut Slot) -> i64 {
    match result {
        Ok(counts) => {
            cuts[CUTS] = counts.cuts as u32;
            counts.points as i64
        }
        Err(refusal) => refused(refusal),
    }
}
