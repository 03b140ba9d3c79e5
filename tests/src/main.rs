//! Compares the library with the reference, through the C interface.

use std::env;
use std::process::ExitCode;
use std::time::Instant;

use crate::library::binding::BINDING;
use crate::library::LINKED;
use crate::part::Part;
use crate::tally::Tally;

mod card;
mod clamped;
mod color;
mod descriptor;
mod exhaustive;
mod field;
mod guarded;
mod history;
mod layouts;
mod library;
mod lines;
mod list;
mod netpbm;
mod pages;
mod part;
mod picture;
mod plain;
mod quantization;
mod random;
mod self_check;
mod stack;
mod tally;
mod wrong;

const USAGE: &str = "\
usage: tests/run
       tests/run --exhaustive narrow|full|legacy 8|10|12 brightness|difference
       tests/run --exhaustive all
       tests/run --exhaustive colors 1|2|3|4
       tests/run --exhaustive colors all";

fn main() -> ExitCode {
    let arguments: Vec<String> = env::args().skip(1).collect();
    let arguments: Vec<&str> = arguments.iter().map(String::as_str).collect();
    let passed = match arguments[..] {
        [] => ordinary(),
        ["--exhaustive", ref asked @ ..] => match exhaustive::run(&asked.join(" ")) {
            Some(passed) => passed,
            None => return usage(),
        },
        // Only the self-check asks for this.
        [pages::STRAY_MODE, number] => pages::run_wrong(number).is_some(),
        _ => return usage(),
    };
    if passed {
        ExitCode::SUCCESS
    } else {
        ExitCode::FAILURE
    }
}

fn usage() -> ExitCode {
    eprintln!("{USAGE}");
    ExitCode::from(2)
}

/// Every part, those of the library again through its binding and beside closed
/// pages, then the self-check. Says whether all was well.
fn ordinary() -> bool {
    let start = Instant::now();
    let mut total = Tally::default();
    let parts = part::library_parts()
        .chain(part::whole_parts())
        .chain(part::reference_parts())
        .chain(netpbm::parts());
    for part in parts {
        total.add(run(part));
    }
    if let Some(program) = netpbm::missing() {
        println!("pictures, by Netpbm: not tried, there is no {program} (Debian: netpbm)");
    }
    total.add(through_the_binding());
    let (all_seen, beside_pages) = pages::run();
    total.add(beside_pages);
    let checked = self_check::run() & pages::self_check();
    println!(
        "tests: {} comparisons, {} differences ({:.1} s)",
        total.comparisons,
        total.differences,
        start.elapsed().as_secs_f64()
    );
    all_seen && checked && total.differences == 0
}

fn run(part: &Part) -> Tally {
    let mut tally = Tally::default();
    // This tally never stops early.
    let _ = (part.run)(&LINKED, &mut tally);
    println!("{:36}{:9} comparisons", part.name, tally.comparisons);
    for found in &tally.found {
        println!("  {found}");
    }
    show_differences(&tally);
    tally
}

/// Every part that tries the library, by the safe functions of its binding.
fn through_the_binding() -> Tally {
    let mut tally = Tally::default();
    for part in part::entry_parts() {
        // This tally never stops early.
        let _ = (part.run)(&BINDING, &mut tally);
    }
    println!(
        "{:36}{:9} comparisons",
        "all again, through the binding", tally.comparisons
    );
    show_differences(&tally);
    tally
}

fn show_differences(tally: &Tally) {
    for difference in &tally.first {
        println!("  {difference}");
    }
    if tally.differences > 0 {
        println!("  {} differences", tally.differences);
    }
}
