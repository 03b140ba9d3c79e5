//! Wrong programs that touch one byte beside what they are lent, or write to what
//! they may only read. Only a trap shows that, so each runs as a program of its own.

use std::env;
use std::process::Command;
use std::sync::OnceLock;

use crate::library::entry::{Entry, Lent, ENTRIES};

use super::paged::Side;
use super::trap;

use self::Access::{ReadsAfter, ReadsBefore, WritesAfter, WritesBefore, WritesInto};

/// What a wrong program does besides, at each call of an entry, through one of its
/// pointers.
#[derive(Clone, Copy, Debug)]
pub struct Stray {
    pub entry: Entry,
    place: usize,
    access: Access,
}

#[derive(Clone, Copy, Debug)]
enum Access {
    ReadsBefore,
    ReadsAfter,
    WritesBefore,
    WritesAfter,
    WritesInto,
}

impl Stray {
    /// The side on which a closed page shows it.
    pub fn side(self) -> Side {
        match self.access {
            ReadsBefore | WritesBefore => Side::Before,
            ReadsAfter | WritesAfter | WritesInto => Side::After,
        }
    }
}

/// The stray that this program makes, if it is a wrong one.
static STRAY: OnceLock<Stray> = OnceLock::new();

/// What the wrong program does in the place of the entry, if there is one.
pub fn make(entry: Entry, place: usize, start: *mut u8, bytes: usize) {
    if let Some(stray) = STRAY.get() {
        if stray.entry == entry && stray.place == place {
            // SAFETY: none: this is wrong, and the program ends here.
            unsafe { touch(stray.access, start, bytes) }
        }
    }
}

unsafe fn touch(access: Access, start: *mut u8, bytes: usize) {
    let end = start.wrapping_add(bytes);
    let before = start.wrapping_sub(1);
    match access {
        ReadsBefore => drop(before.read_volatile()),
        ReadsAfter => drop(end.read_volatile()),
        WritesBefore => before.write_volatile(0),
        WritesAfter => end.write_volatile(0),
        // Where nothing is lent there is nothing to write into: a later call has something.
        WritesInto if bytes == 0 => {}
        WritesInto => start.write_volatile(0),
    }
}

/// One for each pointer and each way to be wrong with it.
pub fn strays() -> impl Iterator<Item = Stray> {
    ENTRIES.iter().flat_map(|description| {
        let pointers = description.lent.iter().enumerate();
        pointers.flat_map(move |(place, lent)| {
            accesses(*lent).iter().map(move |&access| Stray {
                entry: description.entry,
                place,
                access,
            })
        })
    })
}

fn accesses(lent: Lent) -> &'static [Access] {
    match lent {
        Lent::In(_) => &[ReadsBefore, ReadsAfter, WritesInto],
        Lent::Out(_) => &[ReadsBefore, ReadsAfter, WritesBefore, WritesAfter],
    }
}

/// Makes this program the wrong one with this number.
pub fn become_wrong(number: &str) -> Option<Stray> {
    let stray = strays().nth(number.parse().ok()?)?;
    STRAY.set(stray).ok()?;
    Some(stray)
}

/// The wrong programs that do not end with a trap at the right pointer.
pub fn not_trapped() -> Vec<Stray> {
    (0..)
        .zip(strays())
        .filter(|&(number, stray)| !trapped(number, stray))
        .map(|(_, stray)| stray)
        .collect()
}

fn trapped(number: usize, stray: Stray) -> bool {
    let output = Command::new(env::current_exe().expect("this program"))
        .args([super::STRAY_MODE, &number.to_string()])
        .output()
        .expect("this program can be started again");
    let said = String::from_utf8_lossy(&output.stderr);
    let how = match stray.access {
        ReadsBefore | WritesBefore => "1 before its first byte",
        ReadsAfter | WritesAfter => "1 after its last byte",
        WritesInto => "writing to its byte 0, which is lent to be read",
    };
    let must_be = format!("{}, {how}\n", trap::title(stray.entry, stray.place));
    output.status.code() == Some(trap::STATUS) && said.starts_with(&must_be)
}
