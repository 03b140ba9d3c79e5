//! Lent memory that ends, or starts, at a closed page.

use std::cell::{Cell, RefCell};

use crate::guarded::Whole;
use crate::library::entry::Entry;
use crate::library::memory::Memory;

use super::mapping::{Mapping, SIZE};
use super::seen::Seen;
use super::stray;
use super::trap;

/// The most pointers that an entry has to memory it only reads, and to memory it
/// writes to.
const INPUTS: usize = 4;
const OUTPUTS: usize = 6;

/// On which side of what is lent the closed page is.
#[derive(Clone, Copy, Debug, PartialEq)]
pub enum Side {
    Before,
    After,
}

/// The mappings of a thread. Those of a pointer are used again at each call.
struct Pages {
    inputs: [Mapping; INPUTS],
    outputs: [Mapping; OUTPUTS],
}

thread_local! {
    static PAGES: Pages = Pages {
        inputs: [(); INPUTS].map(|()| Mapping::for_inputs()),
        outputs: [(); OUTPUTS].map(|()| Mapping::for_outputs()),
    };

    static SEEN: RefCell<Seen> = const { RefCell::new(Seen::NOTHING) };

    /// The bytes that are taken back after a call: from where, to where, how many.
    static TAKEN_BACK: [Cell<TakenBack>; OUTPUTS] = const { [const { Cell::new(NONE) }; OUTPUTS] };
}

type TakenBack = (*const u8, *mut u8, usize);

const NONE: TakenBack = (std::ptr::null(), std::ptr::null_mut(), 0);

/// The memory of one call, with the closed pages after it or else before it.
pub struct Paged<const AFTER: bool> {
    entry: Entry,
    inputs: usize,
    outputs: usize,
}

/// All that was seen on this thread.
pub fn seen() -> Seen {
    SEEN.with_borrow(Seen::clone)
}

impl<const AFTER: bool> Paged<AFTER> {
    pub const SIDE: Side = if AFTER { Side::After } else { Side::Before };

    /// How far from the start of a mapping something of so many bytes lies.
    fn offset(bytes: usize) -> usize {
        assert!(bytes <= SIZE, "more bytes than there are in a mapping");
        if AFTER {
            SIZE - bytes
        } else {
            0
        }
    }

    /// Tells those that watch the call of bytes that are lent next.
    fn lend(&self, start: *mut u8, bytes: usize, own: *const u8) {
        let place = self.inputs + self.outputs;
        trap::lent(place, start, bytes, own);
        stray::make(self.entry, place, start, bytes);
    }
}

impl<const AFTER: bool> Memory for Paged<AFTER> {
    fn of(entry: Entry) -> Self {
        trap::entered(entry, Self::SIDE);
        Paged {
            entry,
            inputs: 0,
            outputs: 0,
        }
    }

    fn input<T: Copy>(&mut self, elements: &[T]) -> *const T {
        let Mapping { lent, own } = PAGES.with(|pages| pages.inputs[self.inputs]);
        let bytes = size_of_val(elements);
        let offset = Self::offset(bytes);
        // SAFETY: the bytes are within the mapping, which nothing else uses now.
        let start = unsafe {
            let own = own.add(offset);
            elements
                .as_ptr()
                .cast::<u8>()
                .copy_to_nonoverlapping(own, bytes);
            self.lend(lent.add(offset), bytes, own);
            lent.add(offset)
        };
        self.inputs += 1;
        start.cast()
    }

    /// The guards stay behind: nothing can be written beside what is lent.
    fn kept<T: Copy>(&mut self, lent: Whole<T>) -> *const T {
        let Whole { memory, guard } = lent;
        self.input(&memory[guard..memory.len() - guard])
    }

    /// The guard on the open side is lent and taken back with the elements.
    fn output<T: Copy>(&mut self, lent: Whole<T>) -> *mut T {
        let Whole { memory, guard } = lent;
        let elements = memory.len() - 2 * guard;
        let memory = if AFTER {
            &mut memory[..guard + elements]
        } else {
            &mut memory[guard..]
        };
        let Mapping { lent, own } = PAGES.with(|pages| pages.outputs[self.outputs]);
        let bytes = size_of_val(memory);
        let offset = Self::offset(bytes);
        let before = if AFTER { guard * size_of::<T>() } else { 0 };
        let memory: *mut u8 = memory.as_mut_ptr().cast();
        // SAFETY: as for `input`.
        let start = unsafe {
            let own = own.add(offset);
            memory.copy_to_nonoverlapping(own, bytes);
            TAKEN_BACK.with(|taken| taken[self.outputs].set((own, memory, bytes)));
            let start = lent.add(offset + before);
            self.lend(start, elements * size_of::<T>(), own.add(before));
            start
        };
        self.outputs += 1;
        start.cast()
    }

    fn answered(self, answer: i64) -> i64 {
        trap::left();
        let pointers = self.entry.description().lent.len();
        assert_eq!(self.inputs + self.outputs, pointers, "{:?}", self.entry);
        TAKEN_BACK.with(|taken| {
            for place in &taken[..self.outputs] {
                let (own, memory, bytes) = place.get();
                // SAFETY: what was copied is copied back, while it is still lent.
                unsafe { own.copy_to_nonoverlapping(memory, bytes) };
            }
        });
        SEEN.with_borrow_mut(|seen| seen.count(self.entry, answer));
        answer
    }
}
