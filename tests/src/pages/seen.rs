//! Which entries were called, and what they answered.

use crate::library::entry::{Entry, ENTRIES};

/// An accepted call is counted at 0, a refused one at its refusal's number.
const ANSWERS: usize = 19;
const ACCEPTED: usize = 0;

type Pair = (Entry, usize);

#[derive(Clone)]
pub struct Seen {
    calls: [[u64; ANSWERS]; ENTRIES.len()],
}

impl Seen {
    pub const NOTHING: Seen = Seen {
        calls: [[0; ANSWERS]; ENTRIES.len()],
    };

    pub fn count(&mut self, entry: Entry, answer: i64) {
        let number = answer.min(0).unsigned_abs() as usize;
        // Other answers are wrong, and are found so where they are compared.
        if number < ANSWERS {
            self.calls[entry as usize][number] += 1;
        }
    }

    pub fn calls(&self) -> u64 {
        self.calls.iter().flatten().sum()
    }

    /// Every entry must be seen to accept and to give each refusal of its own, and
    /// no other. Tells what is not so.
    pub fn unlike_wanted(&self) -> Vec<String> {
        let all = ENTRIES
            .iter()
            .flat_map(|description| (0..ANSWERS).map(|number| (description.entry, number)));
        all.filter(|&pair| self.has(pair) != is_wanted(pair))
            .map(|pair| {
                format!(
                    "{}: {}",
                    if self.has(pair) { "seen" } else { "not seen" },
                    words(pair)
                )
            })
            .collect()
    }

    /// Whether a pair too few or too many is found, each in its turn.
    pub fn each_is_found() -> bool {
        let mut all = Seen::NOTHING;
        for (entry, number) in wanted() {
            all.calls[entry as usize][number] = 1;
        }
        let found = |entry: usize, number: usize| {
            let mut other = all.clone();
            let calls = &mut other.calls[entry][number];
            *calls = 1 - *calls;
            other.unlike_wanted().len() == 1
        };
        all.unlike_wanted().is_empty()
            && (0..ENTRIES.len()).all(|entry| (0..ANSWERS).all(|number| found(entry, number)))
    }

    fn has(&self, (entry, number): Pair) -> bool {
        self.calls[entry as usize][number] > 0
    }
}

/// The number of pairs that must be seen.
pub fn pairs() -> usize {
    wanted().count()
}

fn wanted() -> impl Iterator<Item = Pair> {
    ENTRIES.iter().flat_map(|description| {
        let refusals = description.refusals.iter().copied();
        [ACCEPTED]
            .into_iter()
            .chain(refusals)
            .map(|number| (description.entry, number))
    })
}

fn is_wanted((entry, number): Pair) -> bool {
    number == ACCEPTED || entry.description().refusals.contains(&number)
}

fn words((entry, number): Pair) -> String {
    let name = entry.description().name;
    match number {
        ACCEPTED => format!("{name}, accepted"),
        refusal => format!("{name}, refusal {refusal}"),
    }
}
