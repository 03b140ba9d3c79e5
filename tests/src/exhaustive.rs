//! The exhaustive modes: what they are asked for by, and their work on all cores.

use std::sync::atomic::{AtomicU32, Ordering};
use std::thread;
use std::time::Instant;

use reference::quantization::{Kind, Range, Scale};

use crate::color::{self, PRIMARIES};
use crate::library::LINKED;
use crate::quantization;
use crate::show_differences;
use crate::tally::{Flow, Tally};

/// Goes through all that is asked for: "all" floats, those of a scale by its name,
/// or "colors" of all rows or of one. Says whether all was well, or nothing if
/// what is asked for is not known.
pub fn run(asked: &str) -> Option<bool> {
    let scales: Vec<Scale> = scales()
        .filter(|&scale| asked == "all" || asked == name(scale))
        .collect();
    let rows: Vec<u8> = PRIMARIES
        .into_iter()
        .filter(|row| asked == "colors all" || asked == format!("colors {row}"))
        .collect();
    if scales.is_empty() && rows.is_empty() {
        return None;
    }
    let mut passed = true;
    for scale in scales {
        passed &= show(&name(scale), "floats", 1, || {
            quantization::exhaustive::run(&LINKED, scale)
        });
    }
    for row in rows {
        let triples = u64::from(color::exhaustive::TRIPLES);
        passed &= show(&format!("colors {row}"), "triples", triples, || {
            color::exhaustive::run(&LINKED, row)
        });
    }
    Some(passed)
}

/// Runs one of them, with so many inputs in a comparison, and prints its counts.
fn show(name: &str, inputs: &str, in_each: u64, run: impl FnOnce() -> Tally) -> bool {
    let start = Instant::now();
    let tally = run();
    show_differences(&tally);
    println!(
        "exhaustive {name}: {} {inputs}, {} differences ({:.1} s)",
        in_each * tally.comparisons,
        tally.differences,
        start.elapsed().as_secs_f64()
    );
    tally.differences == 0
}

/// Hands blocks, by their numbers, to threads on all cores until none is left.
pub fn on_all_cores(blocks: u32, go_through: impl Fn(u32, &mut Tally) -> Flow + Sync) -> Tally {
    let next_block = AtomicU32::new(0);
    let work = || {
        let mut tally = Tally::default();
        loop {
            let block = next_block.fetch_add(1, Ordering::Relaxed);
            if block >= blocks {
                return tally;
            }
            if block > 0 && block.is_multiple_of(blocks / 4) {
                eprintln!("  {} %", 100 * block / blocks);
            }
            // This tally never stops early.
            let _ = go_through(block, &mut tally);
        }
    };
    let workers = thread::available_parallelism().map_or(1, |number| number.get());
    let mut total = Tally::default();
    thread::scope(|scope| {
        let threads: Vec<_> = (0..workers).map(|_| scope.spawn(work)).collect();
        for thread in threads {
            total.add(thread.join().expect("a thread that ends by itself"));
        }
    });
    total
}

/// The eighteen scales.
fn scales() -> impl Iterator<Item = Scale> {
    Range::NUMBERED.into_iter().flat_map(|(_, range)| {
        [8, 10, 12].into_iter().flat_map(move |depth| {
            [Kind::Brightness, Kind::Difference]
                .into_iter()
                .map(move |kind| Scale { range, depth, kind })
        })
    })
}

/// The name by which a scale is asked for, as in "narrow 8 brightness".
fn name(scale: Scale) -> String {
    let range = match scale.range {
        Range::Narrow => "narrow",
        Range::Full => "full",
        Range::LegacyFull => "legacy",
    };
    let kind = match scale.kind {
        Kind::Brightness => "brightness",
        Kind::Difference => "difference",
    };
    format!("{range} {} {kind}", scale.depth)
}
