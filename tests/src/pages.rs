//! Every part that tries the library once more, with everything that is lent next
//! to pages that nobody may touch: once with such a page right after it, once with
//! one right before it. An access outside then ends the program.

use std::thread;

use crate::library::entry::Entry;
use crate::library::{linked, Library};
use crate::part::{entry_parts, Part};
use crate::show_differences;
use crate::tally::Tally;
use crate::{card, color, descriptor, field, history, lines, picture, quantization, stack};

use self::paged::{Paged, Side};
use self::seen::Seen;

mod mapping;
mod paged;
mod seen;
mod stray;
mod trap;

/// Asks for a wrong program, by its number.
pub const STRAY_MODE: &str = "--stray";

const BEFORE: Library = linked::<Paged<false>>();
const AFTER: Library = linked::<Paged<true>>();

const SIDES: [(&str, Side); 2] = [
    ("all again, closed pages after", Side::After),
    ("all again, closed pages before", Side::Before),
];

/// Both sides, each on a thread of its own. Says whether every entry was seen to
/// accept and to give each of its refusals on both of them.
pub fn run() -> (bool, Tally) {
    trap::watch();
    let runs = thread::scope(|scope| {
        let threads = SIDES.map(|(_, side)| scope.spawn(move || on(side)));
        threads.map(|thread| thread.join().expect("a thread that ends by itself"))
    });
    let mut total = Tally::default();
    let mut all_seen = true;
    for ((name, _), (tally, seen)) in SIDES.into_iter().zip(runs) {
        println!("{name:36}{:9} calls", seen.calls());
        show_differences(&tally);
        for pair in seen.unlike_wanted() {
            println!("  {pair}");
            all_seen = false;
        }
        total.add(tally);
    }
    if all_seen {
        println!(
            "{:36}{:9} pairs",
            "each entry and each of its refusals",
            seen::pairs()
        );
    }
    (all_seen, total)
}

fn on(side: Side) -> (Tally, Seen) {
    let mut tally = Tally::default();
    for part in entry_parts() {
        go_through(part, side, &mut tally);
    }
    (tally, paged::seen())
}

fn go_through(part: &Part, side: Side, tally: &mut Tally) {
    let library = match side {
        Side::Before => BEFORE,
        Side::After => AFTER,
    };
    trap::part(part.name);
    // This tally never stops early.
    let _ = (part.run)(&library, tally);
}

/// Whether every answer that is not seen is missed, and every stray access traps.
pub fn self_check() -> bool {
    let found = Seen::each_is_found();
    if !found {
        println!("self-check: an answer that is not seen is not missed");
    }
    let not_trapped = stray::not_trapped();
    for stray in &not_trapped {
        println!("self-check: not trapped: {stray:?}");
    }
    if not_trapped.is_empty() {
        let strays = stray::strays().count();
        println!("self-check: {strays} accesses beside what is lent, all trapped");
    }
    found && not_trapped.is_empty()
}

/// Goes through the parts as a wrong program. Nothing is said if that number is not
/// known.
pub fn run_wrong(number: &str) -> Option<()> {
    let stray = stray::become_wrong(number)?;
    trap::watch();
    let mut tally = Tally::default();
    for part in parts_of(stray.entry) {
        go_through(part, stray.side(), &mut tally);
    }
    Some(())
}

/// The parts that try an entry.
fn parts_of(entry: Entry) -> &'static [Part] {
    match entry {
        Entry::DescriptorRead | Entry::DescriptorWrite => descriptor::PARTS,
        Entry::Dequantize | Entry::Quantize => quantization::PARTS,
        Entry::FieldBytes | Entry::FieldCode => field::PARTS,
        Entry::DecodePoint
        | Entry::DecodeLine
        | Entry::EncodePoint
        | Entry::EncodeLine
        | Entry::UnpackLine
        | Entry::PackLine => lines::PARTS,
        Entry::RgbToYcbcr | Entry::YcbcrToRgb => color::PARTS,
        Entry::CardRead | Entry::CardWrite | Entry::CardRewrite => card::PARTS,
        Entry::Replay => history::PARTS,
        Entry::StackFind => stack::PARTS,
        Entry::PpmExport | Entry::PpmExportLen | Entry::PpmImport | Entry::PpmImportLen => {
            picture::PARTS
        }
    }
}
