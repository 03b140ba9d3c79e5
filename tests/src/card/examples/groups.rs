//! The same of groups, which only edition 4 reads.

use reference::card::Facts;

use crate::card::{Card, Rewriting, SIZE};
use crate::guarded::Outcome;
use crate::layouts::SAMPLING;
use crate::library::Library;
use crate::tally::{Flow, Tally};

use super::{
    agrees, at_4, changed, from_3, written_so, Answer, Changed, ALL_9, REFUSED_10, REFUSED_8,
    REFUSED_9,
};

/// 4:2:2 groups, open.
const GROUPS: (Facts, Card) = (
    Facts {
        layout: [2, 2, 1, 8, 4, 0, 0, 0, 1],
        width: 720,
        height: 577,
        item: 21,
        access: 2,
    },
    [
        4, 4, // least edition, written at
        2, 2, 1, 8, 4, 1, // model, primaries, range, depth, bytes a group, sampling
        0, 0, 0, 0, // no offsets
        0xd0, 2, 0x41, 2, // width, height
        21, 0, 0, 0, 0, 0, 0, 0, // item
        2, 0, 0, 0, 0, 0, 0, 0, // access
    ],
);

/// The same in the older full range, for the community, of one group a line.
const EARLY_GROUPS: (Facts, Card) = (
    Facts {
        layout: [2, 3, 3, 8, 4, 0, 0, 0, 1],
        width: 2,
        height: 4096,
        item: 22,
        access: 1,
    },
    [
        4, 4, // least edition, written at
        2, 3, 3, 8, 4, 1, // model, primaries, range, depth, bytes a group, sampling
        0, 0, 0, 0, // no offsets
        2, 0, 0, 0x10, // width, height
        22, 0, 0, 0, 0, 0, 0, 0, // item
        1, 0, 0, 0, 0, 0, 0, 0, // access
    ],
);

const REFUSED_16: Answer = Err(-16);

const CHANGED: &[Changed] = &[
    changed("groups", GROUPS, &[], at_4(Ok(2))),
    changed("early groups", EARLY_GROUPS, &[], at_4(Ok(1))),
    // Bytes 0 and 1.
    changed("byte 0 is 0, groups", GROUPS, &[(0, 0)], ALL_9),
    changed(
        "byte 0 is 5, groups",
        GROUPS,
        &[(0, 5), (1, 5)],
        at_4(REFUSED_8),
    ),
    changed("byte 0 is 1, groups", GROUPS, &[(0, 1)], ALL_9),
    changed("byte 0 is 3, groups", GROUPS, &[(0, 3)], from_3(REFUSED_9)),
    changed(
        "byte 0 is 3, early groups",
        EARLY_GROUPS,
        &[(0, 3)],
        from_3(REFUSED_9),
    ),
    changed("groups written at 3", GROUPS, &[(1, 3)], at_4(REFUSED_9)),
    changed("groups written at 5", GROUPS, &[(1, 5)], at_4(Ok(2))),
    // The sampling decides byte 0 in every range.
    changed("groups in full range", GROUPS, &[(4, 2)], at_4(Ok(2))),
    changed("groups in range 3", GROUPS, &[(4, 3)], at_4(Ok(2))),
    changed("groups in range 4", GROUPS, &[(4, 4)], at_4(REFUSED_9)),
    // Access.
    changed("access 3, groups", GROUPS, &[(24, 3)], at_4(REFUSED_10)),
    changed(
        "access 3, groups from 5",
        GROUPS,
        &[(1, 5), (24, 3), (31, 1)],
        at_4(Ok(0)),
    ),
    // The numbers of groups.
    changed("groups, byte 7 is 0", GROUPS, &[(7, 0)], at_4(REFUSED_9)),
    changed(
        "groups, byte 7 is 0, as points",
        GROUPS,
        &[(7, 0), (9, 8), (10, 16)],
        at_4(REFUSED_9),
    ),
    changed(
        "byte 7 is 0, byte 0 too",
        GROUPS,
        &[(0, 1), (7, 0), (9, 8), (10, 16)],
        [Ok(0), Ok(2), Ok(2), Ok(2)],
    ),
    changed("groups, byte 7 is 2", GROUPS, &[(7, 2)], at_4(REFUSED_9)),
    changed(
        "groups, byte 7 is 255",
        GROUPS,
        &[(7, 255)],
        at_4(REFUSED_9),
    ),
    changed("groups of R'G'B'", GROUPS, &[(2, 1)], at_4(REFUSED_9)),
    changed("groups, primaries 5", GROUPS, &[(3, 5)], at_4(REFUSED_9)),
    changed("groups of 10 bits", GROUPS, &[(5, 10)], at_4(REFUSED_9)),
    changed("groups of 3 bytes", GROUPS, &[(6, 3)], at_4(REFUSED_9)),
    changed("groups of 8 bytes", GROUPS, &[(6, 8)], at_4(REFUSED_9)),
    changed("groups with an offset", GROUPS, &[(8, 8)], at_4(REFUSED_9)),
    changed(
        "groups with offsets",
        GROUPS,
        &[(9, 8), (10, 16)],
        at_4(REFUSED_9),
    ),
    changed("groups, byte 11", GROUPS, &[(11, 1)], at_4(REFUSED_9)),
    // Widths: 721, 4,095, 1, then 2 and 4,096, then 0 and 4,097.
    changed("odd width", GROUPS, &[(12, 0xd1)], at_4(REFUSED_16)),
    changed(
        "odd width, the widest",
        GROUPS,
        &[(12, 255), (13, 15)],
        at_4(REFUSED_16),
    ),
    changed(
        "odd width, early groups",
        EARLY_GROUPS,
        &[(12, 1)],
        at_4(REFUSED_16),
    ),
    changed("even width", GROUPS, &[(12, 2), (13, 0)], at_4(Ok(2))),
    changed(
        "even width, the widest",
        GROUPS,
        &[(12, 0), (13, 16)],
        at_4(Ok(2)),
    ),
    changed(
        "groups, width 0",
        GROUPS,
        &[(12, 0), (13, 0)],
        at_4(REFUSED_9),
    ),
    changed(
        "groups, width 4,097",
        GROUPS,
        &[(12, 1), (13, 16)],
        at_4(REFUSED_9),
    ),
    // 9, 16, 10, 9.
    changed(
        "9 of byte 1, 16",
        GROUPS,
        &[(12, 0xd1), (1, 3)],
        at_4(REFUSED_9),
    ),
    changed(
        "9 of byte 0, 16",
        GROUPS,
        &[(12, 0xd1), (0, 3)],
        from_3(REFUSED_9),
    ),
    changed(
        "9 of byte 7, 16",
        GROUPS,
        &[(12, 0xd1), (7, 2)],
        at_4(REFUSED_9),
    ),
    changed(
        "9 of byte 11, 16",
        GROUPS,
        &[(12, 0xd1), (11, 1)],
        at_4(REFUSED_9),
    ),
    changed(
        "9 of height, 16",
        GROUPS,
        &[(12, 0xd1), (15, 255)],
        at_4(REFUSED_9),
    ),
    changed(
        "9 of item, 16",
        GROUPS,
        &[(12, 0xd1), (16, 0)],
        at_4(REFUSED_9),
    ),
    changed("16, 10", GROUPS, &[(12, 0xd1), (24, 3)], at_4(REFUSED_16)),
    changed(
        "16, 9 of byte 31",
        GROUPS,
        &[(12, 0xd1), (31, 1)],
        at_4(REFUSED_16),
    ),
    changed(
        "16, written at 5",
        GROUPS,
        &[(12, 0xd1), (1, 5)],
        at_4(REFUSED_16),
    ),
];

/// Writings of a group card's facts with a width, an item and a sampling, at an edition
/// to room of a length, and what they must answer: 7, 9, 16, 11, 13.
const WRITTEN: [(u16, u64, u8, u8, usize, i64); 19] = [
    (720, 21, 1, 4, SIZE, 0),
    (2, 21, 1, 4, SIZE, 0),
    (4096, 21, 1, 4, SIZE, 0),
    (721, 21, 1, 4, SIZE, -16),
    (1, 21, 1, 4, SIZE, -16),
    (4095, 21, 1, 4, SIZE, -16),
    (721, 21, 1, 3, SIZE, -16),
    (721, 21, 1, 1, SIZE, -16),
    (721, 21, 1, 4, SIZE - 1, -16),
    (721, 21, 1, 0, SIZE, -7),
    (721, 21, 1, 5, 0, -7),
    (721, 0, 1, 4, SIZE, -9),
    (4097, 21, 1, 4, SIZE, -9),
    (721, 21, 2, 4, SIZE, -9),
    (720, 21, 0, 4, SIZE, -9),
    (720, 21, 1, 3, SIZE, -11),
    (720, 21, 1, 3, SIZE - 1, -11),
    (720, 21, 1, 4, SIZE - 1, -13),
    (720, 21, 1, 4, SIZE + 1, -13),
];

pub fn written_out(library: &Library, tally: &mut Tally, program: &str) -> Flow {
    for example in [GROUPS, EARLY_GROUPS] {
        written_so(library, tally, program, example)?;
    }
    for changed in CHANGED {
        agrees(library, tally, program, changed)?;
    }
    groups_written(library, tally, program)?;
    groups_rewritten(library, tally, program)
}

fn groups_written(library: &Library, tally: &mut Tally, program: &str) -> Flow {
    for (width, item, sampling, edition, room, must_be) in WRITTEN {
        let (facts, _) = GROUPS;
        let mut facts = Facts {
            width,
            item,
            ..facts
        };
        facts.layout[SAMPLING] = sampling;
        let written = Outcome::of(room, |out| (library.card_write)(edition, facts, out));
        let untouched = Outcome::of(room, |_| must_be);
        let same = match must_be {
            0 => written.answer == 0,
            _ => written == untouched,
        };
        tally.compare(same, || {
            format!(
                "{program}: {facts:?} at {edition} to {room} bytes: {}",
                written.unlike(&untouched)
            )
        })?;
    }
    Flow::Continue(())
}

/// Edition 4 gives groups the same bytes again; the others refuse them.
fn groups_rewritten(library: &Library, tally: &mut Tally, program: &str) -> Flow {
    for (_, card) in [GROUPS, EARLY_GROUPS] {
        for edition in 1..=4 {
            let rewriting = Rewriting::of(library.card_rewrite, &card, edition, SIZE);
            let must_be = Outcome::of(SIZE, |out| match edition {
                4 => {
                    out.output().copy_from_slice(&card);
                    0
                }
                _ => -8,
            });
            tally.compare(rewriting.outcome == must_be, || {
                format!(
                    "{program}: groups rewritten at {edition}: {}",
                    rewriting.outcome.unlike(&must_be)
                )
            })?;
        }
    }
    Flow::Continue(())
}
