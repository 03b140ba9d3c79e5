//! Mistakes in what a writing of a card refuses, in which order, and in lent
//! memory.

use reference::card::Facts;

use crate::card::{expected_write, ACCESS, ITEM, SIZE, WRITTEN};
use crate::guarded::Guarded;
use crate::layouts::{DEPTH, OFFSETS};
use crate::plain::card::{lacks_access, lacks_layout, least, written, WritingRow, WRITING};
use crate::plain::layout::is_valid;

use super::card_write::{stored, writes};
use super::Wrong;

pub const WRONG: &[Wrong] = &[
    // Refusal 7.
    writes("edition 0 writes as 1", |edition, facts, out| {
        expected_write(edition.max(1), facts, out)
    }),
    writes(
        "later editions write",
        |edition, facts, out| match edition {
            5.. => stored(4, facts, out, |card| card[WRITTEN] = edition),
            _ => expected_write(edition, facts, out),
        },
    ),
    writes(
        "edition 3 writes nothing",
        |edition, facts, out| match edition {
            3 => -7,
            _ => expected_write(edition, facts, out),
        },
    ),
    writes(
        "edition 4 writes nothing",
        |edition, facts, out| match edition {
            4 => -7,
            _ => expected_write(edition, facts, out),
        },
    ),
    // Refusal 9.
    writes("nothing outside the paper", |edition, facts, out| {
        written(edition, facts, out, &rows([0, 2, 3, 4]), least)
    }),
    writes(
        "an access above 2 stored",
        |edition, facts, out| match facts.access {
            3.. if (2..=4).contains(&edition) => {
                let open = Facts { access: 2, ..facts };
                let answer = expected_write(edition, open, out);
                if answer == 0 {
                    out.output()[ACCESS] = facts.access;
                }
                answer
            }
            _ => expected_write(edition, facts, out),
        },
    ),
    writes(
        "an access above 2 stored as closed",
        |edition, facts, out| {
            let access = match facts.access {
                3.. => 0,
                access => access,
            };
            expected_write(edition, Facts { access, ..facts }, out)
        },
    ),
    writes("10 for an access above 2", |edition, facts, out| {
        match (expected_write(edition, facts, out), facts.access) {
            (-9, 3..) => -10,
            (answer, _) => answer,
        }
    }),
    writes(
        "11 for an access above 2 at 1",
        |edition, facts, out| match (expected_write(edition, facts, out), facts.access) {
            (-9, 3..) if edition == 1 => -11,
            (answer, _) => answer,
        },
    ),
    writes("item 0 written", |edition, facts, out| {
        let item = facts.item.max(1);
        let answer = expected_write(edition, Facts { item, ..facts }, out);
        if answer == 0 && facts.item == 0 {
            out.output()[ITEM] = 0;
        }
        answer
    }),
    writes(
        "items cut to 32 bits refused",
        |edition, facts, out| match expected_write(edition, facts, &mut out.clone()) {
            0 if facts.item as u32 == 0 => -9,
            _ => expected_write(edition, facts, out),
        },
    ),
    writes("width 0 written as 1", |edition, facts, out| {
        let width = facts.width.max(1);
        expected_write(edition, Facts { width, ..facts }, out)
    }),
    writes("sides cut to 4,096", |edition, facts, out| {
        let [width, height] = [facts.width, facts.height].map(|side| side.min(4096));
        let facts = Facts {
            width,
            height,
            ..facts
        };
        expected_write(edition, facts, out)
    }),
    writes("height 4,097 written as 4,096", |edition, facts, out| {
        let height = match facts.height {
            4097 => 4096,
            height => height,
        };
        expected_write(edition, Facts { height, ..facts }, out)
    }),
    writes("height 4,096 refused", |edition, facts, out| {
        match facts.height {
            4096 if (1..=4).contains(&edition) => -9,
            _ => expected_write(edition, facts, out),
        }
    }),
    writes(
        "the last field not tested",
        |edition, facts, out| match expected_write(edition, facts, out) {
            -9 => {
                let mut valid = facts;
                let last = facts.layout[OFFSETS + 2];
                valid.layout[OFFSETS + 2] =
                    (0..64).find(|&offset| fits(facts, offset)).unwrap_or(last);
                let answer = expected_write(edition, valid, out);
                if answer == 0 {
                    out.output()[10] = last;
                }
                answer
            }
            answer => answer,
        },
    ),
    // Refusal 11.
    writes("11 for the layout only", |edition, facts, out| {
        let row: WritingRow = (11, |edition, facts, _| lacks_layout(edition, facts));
        written(edition, facts, out, &exchanged(LACKING, row), least)
    }),
    writes("11 for the access only", |edition, facts, out| {
        let row: WritingRow = (11, |edition, facts, _| lacks_access(edition, facts));
        written(edition, facts, out, &exchanged(LACKING, row), least)
    }),
    writes("11 for open only", |edition, facts, out| {
        let row: WritingRow = (11, |edition, facts, _| {
            lacks_layout(edition, facts) || edition == 1 && facts.access == 2
        });
        written(edition, facts, out, &exchanged(LACKING, row), least)
    }),
    writes("11 for 10 bits", |edition, facts, out| {
        let row: WritingRow = (11, |edition, facts, _| {
            lacks_layout(edition, facts)
                || lacks_access(edition, facts)
                || edition == 1 && facts.layout[DEPTH] == 10
        });
        written(edition, facts, out, &exchanged(LACKING, row), least)
    }),
    writes("11 for 12 bits at edition 2", |edition, facts, out| {
        let row: WritingRow = (11, |edition, facts, _| {
            lacks_layout(edition, facts)
                || lacks_access(edition, facts)
                || edition == 2 && facts.layout[DEPTH] == 12
        });
        written(edition, facts, out, &exchanged(LACKING, row), least)
    }),
    writes("early captures written at 2", |edition, facts, out| {
        let row: WritingRow = (11, |edition, facts, _| {
            edition == 1 && lacks_layout(edition, facts) || lacks_access(edition, facts)
        });
        written(edition, facts, out, &exchanged(LACKING, row), least)
    }),
    writes(
        "early captures of 8 bits written at 2",
        |edition, facts, out| {
            let row: WritingRow = (11, |edition, facts, _| {
                let early = edition == 2 && facts.layout[DEPTH] == 8;
                lacks_layout(edition, facts) && !early || lacks_access(edition, facts)
            });
            written(edition, facts, out, &exchanged(LACKING, row), least)
        },
    ),
    writes("early captures written at 1", |edition, facts, out| {
        let row: WritingRow = (11, |edition, facts, _| {
            let early = edition == 1 && facts.layout[DEPTH] != 12;
            lacks_layout(edition, facts) && !early || lacks_access(edition, facts)
        });
        written(edition, facts, out, &exchanged(LACKING, row), least)
    }),
    writes("11 for early captures at 3", |edition, facts, out| {
        let row: WritingRow = (11, |edition, facts, _| {
            lacks_layout(edition.min(2), facts) || lacks_access(edition, facts)
        });
        written(edition, facts, out, &exchanged(LACKING, row), least)
    }),
    writes("11 for an access at 3", |edition, facts, out| {
        let row: WritingRow = (11, |edition, facts, _| {
            lacks_layout(edition, facts) || edition != 2 && facts.access != 0
        });
        written(edition, facts, out, &exchanged(LACKING, row), least)
    }),
    writes(
        "9 for early captures at 2",
        |edition, facts, out| match expected_write(edition, facts, out) {
            -11 if edition == 2 => -9,
            answer => answer,
        },
    ),
    writes("every access closed by edition 1", |edition, facts, out| {
        let access = match edition {
            1 => facts.access / 3,
            _ => facts.access,
        };
        expected_write(edition, Facts { access, ..facts }, out)
    }),
    writes(
        "12 bits at 1 written for edition 2",
        |edition, facts, out| match expected_write(edition, facts, out) {
            -11 if facts.access == 0 => expected_write(2, facts, out),
            answer => answer,
        },
    ),
    // Refusal 13 and memory.
    writes(
        "13 left out for longer room",
        |edition, facts, out| match expected_write(edition, facts, out) {
            -13 if out.length() > SIZE => {
                let mut card = Guarded::new(SIZE);
                let answer = expected_write(edition, facts, &mut card);
                out.output()[..SIZE].copy_from_slice(card.elements());
                answer
            }
            answer => answer,
        },
    ),
    writes(
        "shorter room filled",
        |edition, facts, out| match expected_write(edition, facts, out) {
            -13 if out.length() < SIZE => {
                let mut card = Guarded::new(SIZE);
                let answer = expected_write(edition, facts, &mut card);
                let length = out.length();
                out.output().copy_from_slice(&card.elements()[..length]);
                answer
            }
            answer => answer,
        },
    ),
    writes(
        "no room accepted",
        |edition, facts, out| match expected_write(edition, facts, out) {
            -13 if out.length() == 0 => 0,
            answer => answer,
        },
    ),
    writes("room cleared on a refusal", |edition, facts, out| {
        let answer = expected_write(edition, facts, out);
        if answer < 0 {
            out.output().fill(0);
        }
        answer
    }),
    writes("byte 0 stored before 11", |edition, facts, out| {
        let answer = expected_write(edition, facts, out);
        if answer == -11 {
            if let [first, ..] = out.output() {
                *first = 1;
            }
        }
        answer
    }),
    writes("33 bytes stored", |edition, facts, out| {
        let answer = expected_write(edition, facts, out);
        if answer == 0 {
            out.output_and_beyond()[SIZE] = 0;
        }
        answer
    }),
    // The order of refusals.
    writes("9 before 7, writing", |edition, facts, out| {
        written(edition, facts, out, &rows([1, 0, 2, 3, 4]), least)
    }),
    writes("11 before 9", |edition, facts, out| {
        written(edition, facts, out, &rows([0, 3, 1, 2, 4]), least)
    }),
    writes("13 before 11", |edition, facts, out| {
        written(edition, facts, out, &rows([0, 1, 2, 4, 3]), least)
    }),
    writes("13 before 9, writing a card", |edition, facts, out| {
        written(edition, facts, out, &rows([0, 4, 1, 2, 3]), least)
    }),
    writes("13 before 7", |edition, facts, out| {
        written(edition, facts, out, &rows([4, 0, 1, 2, 3]), least)
    }),
    writes("every writing refused", |_, _, _| -9),
];

/// The rows for an odd width and for what an edition lacks.
pub const ODD_WIDTH: usize = 2;
const LACKING: usize = 3;

/// These rows in this order.
pub fn rows<const COUNT: usize>(order: [usize; COUNT]) -> [WritingRow; COUNT] {
    order.map(|row| WRITING[row])
}

/// All rows, with one in the place of another.
pub fn exchanged(place: usize, row: WritingRow) -> [WritingRow; WRITING.len()] {
    let mut rows = WRITING;
    rows[place] = row;
    rows
}

/// Whether the layout is good with its last field at an offset.
fn fits(facts: Facts, offset: u8) -> bool {
    let mut layout = facts.layout;
    layout[OFFSETS + 2] = offset;
    is_valid(layout)
}
