//! Cards written out by hand from the paper, with changes and what they must
//! answer. The library and the reference are both compared with them.

use reference::card::Facts;

use crate::guarded::Outcome;
use crate::library::Library;
use crate::tally::{Flow, Tally};
use crate::wrong::REFERENCE;

use super::{Card, Reading, Rewriting, SIZE};

mod groups;

/// The paper's item 7: open, 720 by 576, here of 8 bits. Edition 1 can read it.
const ITEM_7: (Facts, Card) = (
    Facts {
        layout: [2, 2, 1, 8, 4, 0, 8, 16, 0],
        width: 720,
        height: 576,
        item: 7,
        access: 2,
    },
    [
        1, 2, // least edition, written at
        2, 2, 1, 8, 4, 0, // model, primaries, range, depth, bytes a point
        0, 8, 16, 0, // offsets
        0xd0, 2, 0x40, 2, // width, height
        7, 0, 0, 0, 0, 0, 0, 0, // item
        2, 0, 0, 0, 0, 0, 0, 0, // access
    ],
);

/// 12 bits, for the community: edition 1 can't read it.
const WIDE: (Facts, Card) = (
    Facts {
        layout: [1, 4, 2, 12, 5, 24, 0, 12, 0],
        width: 4096,
        height: 1,
        item: 0x8000_0000_0000_0100,
        access: 1,
    },
    [
        2, 2, // least edition, written at
        1, 4, 2, 12, 5, 0, // model, primaries, range, depth, bytes a point
        24, 0, 12, 0, // offsets
        0, 0x10, 1, 0, // width, height
        0, 1, 0, 0, 0, 0, 0, 0x80, // item
        1, 0, 0, 0, 0, 0, 0, 0, // access
    ],
);

/// An early capture in the older full range, 8 bits, open: only edition 3 reads it.
const EARLY: (Facts, Card) = (
    Facts {
        layout: [2, 2, 3, 8, 3, 0, 8, 16, 0],
        width: 720,
        height: 576,
        item: 12,
        access: 2,
    },
    [
        3, 3, // least edition, written at
        2, 2, 3, 8, 3, 0, // model, primaries, range, depth, bytes a point
        0, 8, 16, 0, // offsets
        0xd0, 2, 0x40, 2, // width, height
        12, 0, 0, 0, 0, 0, 0, 0, // item
        2, 0, 0, 0, 0, 0, 0, 0, // access
    ],
);

/// The same of 12 bits, closed.
const EARLY_WIDE: (Facts, Card) = (
    Facts {
        layout: [2, 4, 3, 12, 5, 0, 12, 24, 0],
        width: 1,
        height: 4096,
        item: 13,
        access: 0,
    },
    [
        3, 3, // least edition, written at
        2, 4, 3, 12, 5, 0, // model, primaries, range, depth, bytes a point
        0, 12, 24, 0, // offsets
        1, 0, 0, 0x10, // width, height
        13, 0, 0, 0, 0, 0, 0, 0, // item
        0, 0, 0, 0, 0, 0, 0, 0, // access
    ],
);

/// What a reading answers: an access or a refusal.
type Answer = Result<u8, i64>;

/// A card with some bytes changed and what a reading at editions 1, 2, 3 and 4 must
/// answer.
struct Changed {
    name: &'static str,
    card: Card,
    /// Places and what they hold now.
    bytes: &'static [(usize, u8)],
    answers: [Answer; 4],
}

const fn changed(
    name: &'static str,
    (_, card): (Facts, Card),
    bytes: &'static [(usize, u8)],
    answers: [Answer; 4],
) -> Changed {
    Changed {
        name,
        card,
        bytes,
        answers,
    }
}

const REFUSED_8: Answer = Err(-8);
const REFUSED_9: Answer = Err(-9);
const REFUSED_10: Answer = Err(-10);

/// At all four editions.
const ALL_9: [Answer; 4] = [REFUSED_9; 4];

/// From edition 2, 3 or 4 on, where those before give 8.
const fn from_2(answer: Answer) -> [Answer; 4] {
    [REFUSED_8, answer, answer, answer]
}
const fn from_3(answer: Answer) -> [Answer; 4] {
    [REFUSED_8, REFUSED_8, answer, answer]
}
const fn at_4(answer: Answer) -> [Answer; 4] {
    [REFUSED_8, REFUSED_8, REFUSED_8, answer]
}
const CHANGED: &[Changed] = &[
    changed("item 7", ITEM_7, &[], [Ok(0), Ok(2), Ok(2), Ok(2)]),
    changed("12 bits", WIDE, &[], from_2(Ok(1))),
    changed("early", EARLY, &[], from_3(Ok(2))),
    changed("early, wide", EARLY_WIDE, &[], from_3(Ok(0))),
    // Bytes 0 and 1.
    changed("byte 0 is 0", ITEM_7, &[(0, 0)], ALL_9),
    changed("byte 0 is 0, early", EARLY, &[(0, 0)], ALL_9),
    changed("byte 0 too high", ITEM_7, &[(0, 2)], from_2(REFUSED_9)),
    changed("byte 0 is 3", ITEM_7, &[(0, 3), (1, 3)], from_3(REFUSED_9)),
    changed("byte 0 is 4", ITEM_7, &[(0, 4), (1, 4)], at_4(REFUSED_9)),
    changed(
        "byte 0 is 4, early",
        EARLY,
        &[(0, 4), (1, 4)],
        at_4(REFUSED_9),
    ),
    changed("byte 0 is 5", ITEM_7, &[(0, 5), (1, 5)], at_4(REFUSED_8)),
    changed("byte 0 too low", WIDE, &[(0, 1)], ALL_9),
    changed("byte 0 is 1, early", EARLY, &[(0, 1)], ALL_9),
    changed("byte 0 is 2, early", EARLY, &[(0, 2)], from_2(REFUSED_9)),
    changed(
        "byte 0 is 2, early and wide",
        EARLY_WIDE,
        &[(0, 2)],
        from_2(REFUSED_9),
    ),
    changed("written at 0", ITEM_7, &[(1, 0)], ALL_9),
    changed("written at 1, open", ITEM_7, &[(1, 1)], ALL_9),
    changed("written at 1, access 3", ITEM_7, &[(1, 1), (24, 3)], ALL_9),
    changed("written at 1", ITEM_7, &[(1, 1), (24, 0)], [Ok(0); 4]),
    changed("12 bits written at 1", WIDE, &[(1, 1)], from_2(REFUSED_9)),
    changed("early, written at 2", EARLY, &[(1, 2)], from_3(REFUSED_9)),
    // The range decides byte 0 at every depth.
    changed("range 3 with byte 0 of 1", ITEM_7, &[(4, 3)], ALL_9),
    changed("full with byte 0 of 3", EARLY, &[(4, 2)], from_3(REFUSED_9)),
    changed("range 4", ITEM_7, &[(4, 4)], ALL_9),
    // Access.
    changed(
        "access 3 from 2",
        ITEM_7,
        &[(24, 3)],
        [Ok(0), REFUSED_10, REFUSED_10, REFUSED_10],
    ),
    changed(
        "access 3 from 3",
        ITEM_7,
        &[(1, 3), (24, 3)],
        [Ok(0), Ok(0), REFUSED_10, REFUSED_10],
    ),
    changed(
        "access 3 from 4",
        ITEM_7,
        &[(1, 4), (24, 3)],
        [Ok(0), Ok(0), Ok(0), REFUSED_10],
    ),
    changed("access 3 from 5", ITEM_7, &[(1, 5), (24, 3)], [Ok(0); 4]),
    changed("access 3, early", EARLY, &[(24, 3)], from_3(REFUSED_10)),
    changed(
        "open from 3",
        ITEM_7,
        &[(1, 3)],
        [Ok(0), Ok(2), Ok(2), Ok(2)],
    ),
    changed(
        "open from 4",
        ITEM_7,
        &[(1, 4)],
        [Ok(0), Ok(2), Ok(2), Ok(2)],
    ),
    changed(
        "open from 5",
        ITEM_7,
        &[(1, 5)],
        [Ok(0), Ok(2), Ok(2), Ok(2)],
    ),
    changed(
        "byte 25 from 2",
        ITEM_7,
        &[(25, 1)],
        [Ok(0), REFUSED_9, REFUSED_9, REFUSED_9],
    ),
    changed(
        "byte 31 from 3",
        ITEM_7,
        &[(1, 3), (31, 1)],
        [Ok(0), Ok(2), REFUSED_9, REFUSED_9],
    ),
    changed(
        "byte 31 from 4",
        ITEM_7,
        &[(1, 4), (31, 1)],
        [Ok(0), Ok(2), Ok(2), REFUSED_9],
    ),
    changed(
        "byte 31 from 5",
        ITEM_7,
        &[(1, 5), (31, 1)],
        [Ok(0), Ok(2), Ok(2), Ok(2)],
    ),
    // Fields, and refusals that compete.
    changed("byte 7", ITEM_7, &[(7, 1)], ALL_9),
    changed("byte 7 is 2", ITEM_7, &[(7, 2)], ALL_9),
    changed("byte 11", ITEM_7, &[(11, 1)], ALL_9),
    changed("fields overlap", ITEM_7, &[(9, 7)], ALL_9),
    changed("width 4,097", WIDE, &[(12, 1)], from_2(REFUSED_9)),
    changed("height 0", WIDE, &[(14, 0)], from_2(REFUSED_9)),
    changed("item 0", ITEM_7, &[(16, 0)], ALL_9),
    changed("both 8 and 9", WIDE, &[(7, 1)], from_2(REFUSED_9)),
    changed("both 8 and 9, early", EARLY, &[(7, 1)], from_3(REFUSED_9)),
    changed("9, 10", ITEM_7, &[(7, 1), (24, 3)], ALL_9),
    changed(
        "10, 9",
        ITEM_7,
        &[(24, 3), (25, 1)],
        [Ok(0), REFUSED_10, REFUSED_10, REFUSED_10],
    ),
    changed(
        "odd width of points",
        ITEM_7,
        &[(12, 0xd1)],
        [Ok(0), Ok(2), Ok(2), Ok(2)],
    ),
];

pub fn written_out(library: &Library, tally: &mut Tally) -> Flow {
    for (program, library) in [("library", library), ("reference", &REFERENCE)] {
        for example in [ITEM_7, WIDE, EARLY, EARLY_WIDE] {
            written_so(library, tally, program, example)?;
        }
        for changed in CHANGED {
            agrees(library, tally, program, changed)?;
        }
        rewritten_at_1(library, tally, program)?;
        rewritten_later(library, tally, program)?;
        groups::written_out(library, tally, program)?;
    }
    Flow::Continue(())
}

/// The card of facts, at the edition that its byte 1 says. Those before refuse to write
/// what they lack.
fn written_so(
    library: &Library,
    tally: &mut Tally,
    program: &str,
    (facts, card): (Facts, Card),
) -> Flow {
    let [least, edition, ..] = card;
    let written = Outcome::of(SIZE, |out| (library.card_write)(edition, facts, out));
    tally.compare(
        written.answer == 0 && written.output.elements() == card,
        || format!("{program}: {facts:?} is written otherwise"),
    )?;
    // Edition 1 lacks the access, or the layout; the others lack the layout.
    for earlier in 1..least.max(2) {
        let refused = Outcome::of(SIZE, |out| (library.card_write)(earlier, facts, out));
        tally.compare(refused.answer == -11, || {
            format!(
                "{program}: {facts:?} is written at {earlier}: {}",
                refused.answer
            )
        })?;
    }
    let reading = Reading::of(library.card_read, &card, edition);
    let layout = reading.told.layout.elements();
    tally.compare(reading.answer == 0 && layout == facts.layout, || {
        format!("{program}: the card of {facts:?} is read otherwise")
    })
}

fn agrees(library: &Library, tally: &mut Tally, program: &str, changed: &Changed) -> Flow {
    let mut card = changed.card;
    for &(place, byte) in changed.bytes {
        card[place] = byte;
    }
    for (edition, must_be) in (1..).zip(changed.answers) {
        let reading = Reading::of(library.card_read, &card, edition);
        let same = match must_be {
            Ok(access) => {
                reading.answer == 0 && reading.told.facts.elements()[3] == u64::from(access)
            }
            Err(refusal) => reading.answer == refusal,
        };
        tally.compare(same, || {
            format!(
                "{} at {edition}, {program}: {}, must be {must_be:?}",
                changed.name,
                reading.words()
            )
        })?;
    }
    Flow::Continue(())
}

/// Edition 1 closes the card for good. Byte 0 does not change.
fn rewritten_at_1(library: &Library, tally: &mut Tally, program: &str) -> Flow {
    let (_, card) = ITEM_7;
    let mut closed = card;
    closed[1] = 1;
    closed[24] = 0;
    let rewriting = Rewriting::of(library.card_rewrite, &card, 1, SIZE);
    let rewritten = rewriting.outcome.output.elements();
    tally.compare(rewritten == closed, || {
        format!("{program}: rewritten at 1 to {rewritten:?}")
    })?;
    for edition in [2, 3, 4] {
        closed[1] = edition;
        let rewriting = Rewriting::of(library.card_rewrite, rewritten, edition, SIZE);
        let again = rewriting.outcome.output.elements();
        tally.compare(again == closed, || {
            format!("{program}: rewritten at 1 and at {edition} to {again:?}")
        })?;
    }
    Flow::Continue(())
}

/// Later editions keep the access of a card from 2, and 2 that of a card from later ones.
fn rewritten_later(library: &Library, tally: &mut Tally, program: &str) -> Flow {
    let (_, mut card) = ITEM_7;
    for edition in [3, 2, 4, 3, 4, 2] {
        let rewriting = Rewriting::of(library.card_rewrite, &card, edition, SIZE);
        let rewritten = rewriting.outcome.output.elements();
        card[1] = edition;
        tally.compare(rewritten == card, || {
            format!("{program}: rewritten at {edition} to {rewritten:?}")
        })?;
    }
    Flow::Continue(())
}
