//! Tests that nothing can fail show nothing: right programs must pass them, and
//! every wrong one must be caught.

use std::sync::atomic::{AtomicUsize, Ordering};
use std::thread;

use crate::library::Library;
use crate::netpbm;
use crate::part::{library_parts, Part};
use crate::tally::Tally;
use crate::wrong::{FOR_NETPBM, RIGHT, RIGHT_FOR, WRONG};

/// A program with the parts that try it.
struct Trial {
    /// None if the program is right.
    mistake: Option<&'static str>,
    library: &'static Library,
    parts: Vec<&'static Part>,
}

/// Whether the tests tell right programs from wrong ones.
pub fn run() -> bool {
    let trials: Vec<Trial> = right_trials().chain(wrong_trials()).collect();
    let failed = failed(&trials);
    for trial in &failed {
        match trial.mistake {
            None => println!("self-check: a right program was caught"),
            Some(mistake) => println!("self-check: not caught: {mistake}"),
        }
    }
    if failed.is_empty() {
        let wrong = wrong_trials().count();
        println!("self-check: {wrong} wrong programs, all caught");
    }
    failed.is_empty()
}

fn right_trials() -> impl Iterator<Item = Trial> {
    let for_all = RIGHT
        .iter()
        .map(|library| (library_parts().collect(), library));
    let for_some = RIGHT_FOR
        .iter()
        .map(|(parts, library)| (parts.iter().collect(), library));
    for_all.chain(for_some).map(|(parts, library)| Trial {
        mistake: None,
        library,
        parts,
    })
}

/// A subject's wrong programs must be caught by its own parts; Netpbm's, if it is installed.
fn wrong_trials() -> impl Iterator<Item = Trial> {
    let for_netpbm = FOR_NETPBM
        .iter()
        .filter(|_| !netpbm::parts().is_empty())
        .map(|&programs| (netpbm::parts(), programs));
    let wrong = WRONG.iter().copied().chain(for_netpbm);
    wrong.flat_map(|(parts, programs)| {
        programs.iter().map(move |(mistake, library)| Trial {
            mistake: Some(mistake),
            library,
            parts: parts.iter().collect(),
        })
    })
}

/// The trials that do not end as they must. They are made on all cores.
fn failed(trials: &[Trial]) -> Vec<&Trial> {
    let next = AtomicUsize::new(0);
    let work = || {
        let mut failed = Vec::new();
        while let Some(trial) = trials.get(next.fetch_add(1, Ordering::Relaxed)) {
            if caught(trial) != trial.mistake.is_some() {
                failed.push(trial);
            }
        }
        failed
    };
    let workers = thread::available_parallelism().map_or(1, |number| number.get());
    thread::scope(|scope| {
        let threads: Vec<_> = (0..workers).map(|_| scope.spawn(work)).collect();
        threads
            .into_iter()
            .flat_map(|thread| thread.join().expect("a thread that ends by itself"))
            .collect()
    })
}

fn caught(trial: &Trial) -> bool {
    let mut tally = Tally::stopping_early();
    trial
        .parts
        .iter()
        .any(|part| (part.run)(trial.library, &mut tally).is_break())
}
