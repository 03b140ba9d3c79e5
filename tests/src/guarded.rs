//! Lent memory whose every element is known before a call.

use std::fmt::Debug;

use crate::clamped::Clamped;
use crate::library::{Slot, EMPTY_SLOT};

const GUARD_BYTES: usize = 16;

/// An output, or lent elements, among guards of 16 bytes, so that a write beside
/// them is seen.
#[derive(Clone, PartialEq)]
pub struct Guarded<T> {
    memory: Vec<T>,
}

/// What an element holds before a call.
pub trait Element: Copy + PartialEq + Debug {
    fn at(place: usize) -> Self;
}

/// Bytes that differ from their neighbours and have bits of every place set.
impl Element for u8 {
    fn at(place: usize) -> u8 {
        (place as u8).wrapping_mul(37) ^ 0xa5
    }
}

/// Numbers that are codes of no depth.
impl Element for u16 {
    fn at(place: usize) -> u16 {
        0xa000 | place as u16 & 0x0fff
    }
}

/// Numbers above every size and access, with bits in all bytes.
impl Element for u64 {
    fn at(place: usize) -> u64 {
        0xa5c3_0f96_5a3c_f000 | place as u64
    }
}

/// Bits of floats that are not-a-numbers, each its own, so that even one that is
/// stored again as a float is seen.
impl Element for u32 {
    fn at(place: usize) -> u32 {
        0xffa0_0000 | place as u32 & 0x001f_ffff
    }
}

impl<T: Element> Guarded<T> {
    const GUARD: usize = GUARD_BYTES / size_of::<T>();

    pub fn new(length: usize) -> Guarded<T> {
        Guarded {
            memory: (0..length + 2 * Self::GUARD).map(T::at).collect(),
        }
    }

    /// These elements among guards.
    pub fn holding(elements: &[T]) -> Guarded<T> {
        let mut guarded = Guarded::new(elements.len());
        guarded.output().copy_from_slice(elements);
        guarded
    }

    pub fn length(&self) -> usize {
        self.memory.len() - 2 * Self::GUARD
    }

    pub fn elements(&self) -> &[T] {
        &self.memory[Self::GUARD..][..self.length()]
    }

    pub fn output(&mut self) -> &mut [T] {
        let length = self.length();
        &mut self.memory[Self::GUARD..][..length]
    }

    /// The output and the guard after it.
    pub fn output_and_beyond(&mut self) -> &mut [T] {
        &mut self.memory[Self::GUARD..]
    }

    /// The output with the guards around it.
    pub fn whole(&mut self) -> Whole<'_, T> {
        Whole {
            memory: &mut self.memory,
            guard: Self::GUARD,
        }
    }
}

/// Elements, and as many elements of a guard before them as after them.
pub struct Whole<'a, T> {
    pub memory: &'a mut [T],
    pub guard: usize,
}

/// What a call answers, and the memory as the call leaves it.
#[derive(PartialEq)]
pub struct Outcome<T> {
    pub answer: i64,
    pub output: Guarded<T>,
    /// Only a call that clamps is lent these.
    pub cuts: Slot,
}

impl<T: Element> Outcome<T> {
    /// The outcome of a call with an output of this length.
    pub fn of(length: usize, call: impl FnOnce(&mut Guarded<T>) -> i64) -> Outcome<T> {
        let mut output = Guarded::new(length);
        let answer = call(&mut output);
        Outcome {
            answer,
            output,
            cuts: EMPTY_SLOT,
        }
    }

    /// The same of a call that clamps.
    pub fn with_cuts(length: usize, call: impl FnOnce(&mut Clamped<T>) -> i64) -> Outcome<T> {
        let mut clamped = Clamped::new(length);
        let answer = call(&mut clamped);
        Outcome {
            answer,
            output: clamped.made,
            cuts: clamped.cuts,
        }
    }

    /// The answers, the cuts if they differ, and the first elements that differ.
    pub fn unlike(&self, expected: &Outcome<T>) -> String {
        let mut answers = format!("answer {}, must be {}", self.answer, expected.answer);
        if self.cuts != expected.cuts {
            answers += &format!("; cuts {:x?}, must be {:x?}", self.cuts, expected.cuts);
        }
        let pairs = self.output.memory.iter().zip(&expected.output.memory);
        let mut places = (0..).zip(pairs);
        match places.find(|(_, (element, must_be))| element != must_be) {
            None => answers,
            Some((place, (element, must_be))) => {
                // Elements of the guard before the output have places under zero.
                let place: i64 = place - Guarded::<T>::GUARD as i64;
                format!("{answers}; element {place} is {element:x?}, must be {must_be:x?}")
            }
        }
    }
}
