//! Measures every entry of the library beside plain Rust of the same job.

use std::env;
use std::fs;
use std::process::ExitCode;

use crate::before::{Before, Both};
use crate::table::{Row, MOST_APART};

mod before;
mod case;
mod cases;
mod document;
mod inputs;
mod library;
mod machine;
mod plain;
mod random;
mod side;
mod stack_use;
mod table;

/// Odd, so that there is a median.
const ROUNDS: usize = 101;

const DOCUMENT: &str = "docs/PERFORMANCE.md";

fn main() -> ExitCode {
    let arguments: Vec<String> = env::args().skip(1).collect();
    // bench/run puts it first, and has made shared objects of both archives.
    let (before, others) = match arguments.as_slice() {
        [name, present, earlier, others @ ..] if name == "--before" => {
            (Some([present.as_str(), earlier.as_str()]), others)
        }
        others => (None, others),
    };
    let result = match others {
        [] => run(false, before),
        [write] if write == "--write" => run(true, before),
        _ => Err("usage: bench/run [--write] [--before ARCHIVE]".to_string()),
    };
    match result {
        Ok(true) => ExitCode::SUCCESS,
        Ok(false) => ExitCode::FAILURE,
        Err(error) => {
            eprintln!("bench: {error}");
            ExitCode::FAILURE
        }
    }
}

/// Whether no entry needs too much stack, no cost a point rises, and neither program
/// decodes so slowly that it must do one point at a time.
fn run(write: bool, before: Option<Both<&str>>) -> Result<bool, String> {
    if !stack_use::is_seen() {
        return Err("the use of stack is not seen".to_string());
    }
    let load = machine::load();
    let before = before.map(Before::load).transpose()?;
    let mut cases = cases::all(before.as_ref())?;
    // Every case in every round, so that a slow time of the machine falls on all.
    for round in 0..ROUNDS {
        for case in &mut cases {
            case.measure(round);
        }
    }
    let rows = table::rows(&cases);
    let table = table::text(&rows, before.is_some());
    let verdict = verdict(&rows);
    print!("{table}\n{verdict}");
    if write {
        let text = document::text(&load, &table, &verdict, before.is_some());
        fs::write(DOCUMENT, text).map_err(|error| format!("{DOCUMENT}: {error}"))?;
    }
    let fails = |row: &Row| row.too_deep() || row.rises() || row.apart();
    Ok(!rows.iter().any(fails))
}

fn verdict(rows: &[Row]) -> String {
    let deepest = rows.iter().max_by_key(|row| row.stack());
    let deepest = deepest.map_or(String::new(), |row| {
        format!("{}, {} bytes", row.entry(), row.stack())
    });
    let apart = format!(
        "Decoding that takes one program over {MOST_APART} times as long as the other, as one \
         point at a time does"
    );
    let lines = [
        format!("- Deepest entry: {deepest}."),
        names("Over the limit of stack", rows, |row| row.too_deep()),
        names("Rising cost a point", rows, |row| row.rises()),
        names(&apart, rows, |row| row.apart()),
        names("Over their aims", rows, |row| row.over_aim()),
    ];
    lines.join("\n") + "\n"
}

/// The rows that something holds of.
fn names(what: &str, rows: &[Row], holds: impl Fn(&Row) -> bool) -> String {
    let names: Vec<String> = rows
        .iter()
        .filter(|row| holds(row))
        .map(Row::name)
        .collect();
    let list = match names.as_slice() {
        [] => "none".to_string(),
        names => names.join("; "),
    };
    format!("- {what}: {list}.")
}
