//! What is said when an entry touches memory that it must not touch.

use std::cell::Cell;
use std::ffi::{c_int, c_void};
use std::{mem, ptr, slice};

use crate::library::entry::Entry;

use super::mapping::SIZE;
use super::paged::Side;

/// The status of a program that has trapped.
pub const STATUS: c_int = 3;

const MOST_LENT: usize = 10;
const MOST_SHOWN: usize = 80;

/// What is lent through a pointer, and where the tests themselves see it.
#[derive(Clone, Copy)]
struct Stretch {
    start: usize,
    bytes: usize,
    own: *const u8,
}

/// The call that is being made on this thread.
struct Running {
    part: Cell<&'static str>,
    call: Cell<Option<(Entry, Side)>>,
    count: Cell<usize>,
    lent: [Cell<Stretch>; MOST_LENT],
}

const NOTHING: Stretch = Stretch {
    start: 0,
    bytes: 0,
    own: ptr::null(),
};

thread_local! {
    static RUNNING: Running = const {
        Running {
            part: Cell::new(""),
            call: Cell::new(None),
            count: Cell::new(0),
            lent: [const { Cell::new(NOTHING) }; MOST_LENT],
        }
    };
}

pub fn part(name: &'static str) {
    RUNNING.with(|running| running.part.set(name));
}

pub fn entered(entry: Entry, side: Side) {
    RUNNING.with(|running| {
        running.call.set(Some((entry, side)));
        running.count.set(0);
    });
}

pub fn lent(place: usize, start: *mut u8, bytes: usize, own: *const u8) {
    let start = start.addr();
    RUNNING.with(|running| {
        running.lent[place].set(Stretch { start, bytes, own });
        running.count.set(place + 1);
    });
}

pub fn left() {
    RUNNING.with(|running| running.call.set(None));
}

/// The first words of what is said of a pointer's memory.
pub fn title(entry: Entry, place: usize) -> String {
    let description = entry.description();
    format!(
        "tests: {} traps at {}",
        description.name,
        description.lent[place].name()
    )
}

const SEGMENTATION: c_int = 11;
const BUS: c_int = 7;

/// The handler is given the address that was touched.
const WITH_ADDRESS: c_int = 4;

#[repr(C)]
struct Action {
    handler: extern "C" fn(c_int, *const Information, *mut c_void),
    blocked: [u64; 16],
    flags: c_int,
    restorer: usize,
}

#[repr(C)]
struct Information {
    numbers: [c_int; 4],
    address: usize,
}

extern "C" {
    fn sigaction(signal: c_int, action: *const Action, old: *mut c_void) -> c_int;

    fn _exit(status: c_int) -> !;
}

/// From now on, traps are reported and end the program.
pub fn watch() {
    let action = Action {
        handler: report,
        blocked: [0; 16],
        flags: WITH_ADDRESS,
        restorer: 0,
    };
    for signal in [SEGMENTATION, BUS] {
        // SAFETY: the action is laid out as the system's is.
        let answer = unsafe { sigaction(signal, &action, ptr::null_mut()) };
        assert_eq!(answer, 0, "a handler that can be set");
    }
}

/// An entry neither allocates nor prints, so this may.
extern "C" fn report(_: c_int, information: *const Information, _: *mut c_void) {
    // SAFETY: the system tells of the signal that it sends.
    let address = unsafe { (*information).address };
    RUNNING.with(|running| match running.call.get() {
        None => eprintln!("tests: a trap outside of the library"),
        Some((entry, side)) => eprintln!("{}", running.words(entry, side, address)),
    });
    // SAFETY: this ends the program.
    unsafe { _exit(STATUS) }
}

impl Running {
    fn words(&self, entry: Entry, side: Side, address: usize) -> String {
        let lent = || self.lent[..self.count.get()].iter().map(Cell::get);
        let first = lent()
            .enumerate()
            .find_map(|(place, stretch)| Some((place, stretch.touched_at(address)?)))
            .map_or_else(
                || format!("tests: {} traps elsewhere", entry.description().name),
                |(place, how)| format!("{}, {how}", title(entry, place)),
            );
        let mut words = format!(
            "{first}\n  in {:?}, with closed pages {}",
            self.part.get(),
            match side {
                Side::Before => "before what is lent",
                Side::After => "after what is lent",
            }
        );
        for (pointer, stretch) in entry.description().lent.iter().zip(lent()) {
            words += &format!(
                "\n  {}: {} bytes, {:?}",
                pointer.name(),
                stretch.bytes,
                stretch.start()
            );
        }
        words
    }
}

impl Stretch {
    /// Where an address is, if it is here or on the closed pages beside it.
    fn touched_at(self, address: usize) -> Option<String> {
        let end = self.start + self.bytes;
        if address < self.start {
            let before = self.start - address;
            (before <= SIZE).then(|| format!("{before} before its first byte"))
        } else if address < end {
            let place = address - self.start;
            Some(format!(
                "writing to its byte {place}, which is lent to be read"
            ))
        } else {
            let after = address - end + 1;
            (after <= SIZE).then(|| format!("{after} after its last byte"))
        }
    }

    /// As many bytes as are shown.
    fn start(&self) -> &[u8] {
        // SAFETY: the tests see this memory for as long as the program runs.
        unsafe { slice::from_raw_parts(self.own, self.bytes.min(MOST_SHOWN)) }
    }
}

const _: () = assert!(mem::offset_of!(Information, address) == 16);
