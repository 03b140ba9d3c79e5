//! Mistakes in cards of groups, and in what edition 4 reads and writes.

use reference::card::Facts;

use crate::card::{
    expected_read, expected_rewrite, expected_write, Card, ACCESS, DEPTH, LEAST, RANGE, SAMPLING,
    SIZE, WIDTH, WRITTEN,
};
use crate::layouts::{self, is_grouped, LEGACY, SHARED};
use crate::library::Library;
use crate::plain::card::{is_odd, least, read, shown, stated, written, Row, WritingRow, WRITING};

use super::super::card_reads::{
    changed, exchanged, reads, rows, ACCESS_ABOVE_2, LAST_BYTES, ODD_WIDTH,
};
use super::super::card_rewrite::rewrites;
use super::super::card_write::{stored, writes};
use super::super::card_write_refusals::{self, exchanged as exchanged_in_writing};
use super::super::stack::finds;
use super::super::{Wrong, REFERENCE};

pub const READING: &[Wrong] = &[
    // The order of refusals.
    reads("16 before 9 of bytes 1 to 23", |card, edition, told| {
        let rows = rows([0, 1, 2, 3, 5, 4, 6, 7]);
        read(card, edition, told, &rows, shown)
    }),
    reads("16 after 10", |card, edition, told| {
        let rows = rows([0, 1, 2, 3, 4, 6, 5, 7]);
        read(card, edition, told, &rows, shown)
    }),
    reads("16 after 9 of bytes 24 to 31", |card, edition, told| {
        let rows = rows([0, 1, 2, 3, 4, 6, 7, 5]);
        read(card, edition, told, &rows, shown)
    }),
    reads("16 before 8", |card, edition, told| {
        let rows = rows([0, 1, 2, 5, 3, 4, 6, 7]);
        read(card, edition, told, &rows, shown)
    }),
    reads("16 before 7", |card, edition, told| {
        let rows = rows([0, 5, 1, 2, 3, 4, 6, 7]);
        read(card, edition, told, &rows, shown)
    }),
    reads("16 left out", |card, edition, told| {
        let rows = rows([0, 1, 2, 3, 4, 6, 7]);
        read(card, edition, told, &rows, shown)
    }),
    // When 16 is given.
    reads("9 for an odd width", |card, edition, told| {
        let row: Row = (9, |asked| is_odd(&stated(&asked.card, 0)));
        read(card, edition, told, &exchanged(ODD_WIDTH, row), shown)
    }),
    reads("13 for an odd width", |card, edition, told| {
        let row: Row = (13, |asked| is_odd(&stated(&asked.card, 0)));
        read(card, edition, told, &exchanged(ODD_WIDTH, row), shown)
    }),
    reads("16 for odd widths of points", |card, edition, told| {
        let row: Row = (16, |asked| asked.card[WIDTH] % 2 == 1);
        read(card, edition, told, &exchanged(ODD_WIDTH, row), shown)
    }),
    reads("16 for an odd height", |card, edition, told| {
        let row: Row = (16, |asked| {
            let facts = stated(&asked.card, 0);
            is_grouped(facts.layout) && (facts.width | facts.height) % 2 == 1
        });
        read(card, edition, told, &exchanged(ODD_WIDTH, row), shown)
    }),
    reads("16 for an even width", |card, edition, told| {
        let row: Row = (16, |asked| {
            asked.card[SAMPLING] == 1 && asked.card[WIDTH] % 2 == 0
        });
        read(card, edition, told, &exchanged(ODD_WIDTH, row), shown)
    }),
    reads("16 for no multiple of four", |card, edition, told| {
        let row: Row = (16, |asked| {
            asked.card[SAMPLING] == 1 && asked.card[WIDTH] % 4 != 0
        });
        read(card, edition, told, &exchanged(ODD_WIDTH, row), shown)
    }),
    reads("16 by the width's high byte", |card, edition, told| {
        let row: Row = (16, |asked| {
            asked.card[SAMPLING] == 1 && asked.card[WIDTH + 1] % 2 == 1
        });
        read(card, edition, told, &exchanged(ODD_WIDTH, row), shown)
    }),
    // Byte 7.
    reads(
        "byte 7 of points ignored at edition 4",
        |card, edition, told| {
            changed(card, edition, told, |card| {
                if edition == 4 && card[LEAST] < 4 {
                    card[SAMPLING] = 0;
                }
            })
        },
    ),
    reads(
        "byte 7 of groups ignored at edition 4",
        |card, edition, told| {
            changed(card, edition, told, |card| {
                if edition == 4 && card[LEAST] == 4 {
                    card[SAMPLING] = SHARED;
                }
            })
        },
    ),
    reads("byte 7 must be zero", |card, edition, told| {
        changed(card, edition, told, |card| {
            if card[SAMPLING] != 0 && card[LEAST] != 0 && card[LEAST] <= edition {
                // No such model.
                card[2] = 0;
            }
        })
    }),
    reads("byte 7 of 2 taken for 1", |card, edition, told| {
        changed(card, edition, told, |card| {
            if card[SAMPLING] == 2 {
                card[SAMPLING] = SHARED;
            }
        })
    }),
    reads("byte 7 cut to its lowest bit", |card, edition, told| {
        changed(card, edition, told, |card| card[SAMPLING] &= 1)
    }),
    reads("the sampling not told", |card, edition, told| {
        let before = told.layout.elements()[layouts::SAMPLING];
        let answer = expected_read(card, edition, told);
        told.layout.output()[layouts::SAMPLING] = before;
        answer
    }),
    reads("groups told as points", |card, edition, told| {
        let answer = expected_read(card, edition, told);
        if answer == 0 {
            told.layout.output()[layouts::SAMPLING] = 0;
        }
        answer
    }),
    reads("points told as groups", |card, edition, told| {
        let answer = expected_read(card, edition, told);
        if answer == 0 {
            told.layout.output()[layouts::SAMPLING] = SHARED;
        }
        answer
    }),
    // The other numbers of groups.
    reads("offsets of groups not looked at", |card, edition, told| {
        changed(card, edition, told, |card| {
            if card[SAMPLING] == SHARED {
                card[8..11].fill(0);
            }
        })
    }),
    reads(
        "the model of groups not looked at",
        |card, edition, told| {
            changed(card, edition, told, |card| {
                if card[SAMPLING] == SHARED {
                    card[2] = 2;
                }
            })
        },
    ),
    reads(
        "the depth of groups not looked at",
        |card, edition, told| {
            changed(card, edition, told, |card| {
                if card[SAMPLING] == SHARED {
                    card[DEPTH] = 8;
                }
            })
        },
    ),
    reads(
        "the bytes of groups not looked at",
        |card, edition, told| {
            changed(card, edition, told, |card| {
                if card[SAMPLING] == SHARED {
                    card[6] = 4;
                }
            })
        },
    ),
    reads("byte 11 of groups not looked at", |card, edition, told| {
        changed(card, edition, told, |card| {
            if card[SAMPLING] == SHARED {
                card[11] = 0;
            }
        })
    }),
    reads("early groups refused", |card, edition, told| {
        changed(card, edition, told, |card| {
            if is_of_groups(card) && card[RANGE] == LEGACY && edition == 4 {
                card[RANGE] = 4;
            }
        })
    }),
    // Bytes 0 and 1.
    reads("groups read at 3", |card, edition, told| {
        let groups = matches!(card.elements(), [4, _, _, _, _, _, _, SHARED, ..]);
        let edition = if groups && edition == 3 { 4 } else { edition };
        expected_read(card, edition, told)
    }),
    reads("groups read at every edition", |card, edition, told| {
        let groups = matches!(card.elements(), [4, _, _, _, _, _, _, SHARED, ..]);
        let edition = if groups && (1..4).contains(&edition) {
            4
        } else {
            edition
        };
        expected_read(card, edition, told)
    }),
    reads("byte 0 of 3 for groups", |card, edition, told| {
        changed(card, edition, told, |card| {
            if is_of_groups(card) && card[LEAST] == 3 && edition >= 3 && card[WRITTEN] >= 4 {
                card[LEAST] = 4;
            }
        })
    }),
    reads("byte 0 of 3 for early groups", |card, edition, told| {
        changed(card, edition, told, |card| {
            if is_of_groups(card) && card[RANGE] == LEGACY && edition == 4 {
                card[LEAST] = match card[LEAST] {
                    3 => 4,
                    4 => 3,
                    least => least,
                };
            }
        })
    }),
    reads("byte 0 of 4 for any layout", |card, edition, told| {
        changed(card, edition, told, |card| {
            if card[LEAST] == 4 && edition == 4 && !is_of_groups(card) && card[WRITTEN] >= 4 {
                let facts = stated(card, 0);
                card[LEAST] = least(4, facts);
            }
        })
    }),
    reads("groups written at 3 read", |card, edition, told| {
        changed(card, edition, told, |card| {
            if is_of_groups(card) && card[LEAST] == 4 && edition == 4 {
                card[WRITTEN] = card[WRITTEN].max(4);
            }
        })
    }),
    reads("groups written at 5 refused", |card, edition, told| {
        changed(card, edition, told, |card| {
            if is_of_groups(card) && edition == 4 && card[WRITTEN] > 4 {
                card[WRITTEN] = 0;
            }
        })
    }),
    // Access.
    reads("a card of groups always closed", |card, edition, told| {
        let answer = expected_read(card, edition, told);
        if answer == 0 && told.layout.elements()[layouts::SAMPLING] == SHARED {
            told.facts.output()[3] = 0;
        }
        answer
    }),
    reads("access hidden at 4", |card, edition, told| {
        let answer = expected_read(card, edition, told);
        if answer == 0 && edition == 4 {
            told.facts.output()[3] = 0;
        }
        answer
    }),
    reads("access shown by edition 4 alone", |card, edition, told| {
        let answer = expected_read(card, edition, told);
        if answer == 0 && edition != 4 {
            told.facts.output()[3] = 0;
        }
        answer
    }),
    reads("access from 4 hidden at 3", |card, edition, told| {
        let from_4 = card.elements().get(WRITTEN) == Some(&4);
        let answer = expected_read(card, edition, told);
        if answer == 0 && from_4 && edition == 3 {
            told.facts.output()[3] = 0;
        }
        answer
    }),
    reads("access 3 known to edition 4", |card, edition, told| {
        let row: Row = (10, |asked| {
            let most = if asked.card[WRITTEN] == 4 { 3 } else { 2 };
            asked.is_from_2_on() && asked.card[ACCESS] > most
        });
        read(card, edition, told, &exchanged(ACCESS_ABOVE_2, row), shown)
    }),
    reads("10 for later cards at 4", |card, edition, told| {
        let row: Row = (10, |asked| {
            let later = asked.edition == 4 && asked.card[WRITTEN] > 4;
            (later || asked.is_from_2_on()) && asked.card[ACCESS] > 2
        });
        read(card, edition, told, &exchanged(ACCESS_ABOVE_2, row), shown)
    }),
    reads("10 at 3 and before alone", |card, edition, told| {
        let row: Row = (10, |asked| {
            asked.edition < 4 && asked.is_from_2_on() && asked.card[ACCESS] > 2
        });
        read(card, edition, told, &exchanged(ACCESS_ABOVE_2, row), shown)
    }),
    reads(
        "bytes 25 to 31 of later cards looked at at 4",
        |card, edition, told| {
            let row: Row = (9, |asked| match (asked.card[WRITTEN], asked.edition) {
                (1, _) => asked.card[ACCESS..] != [0; 8],
                (2.., 4) => asked.card[ACCESS + 1..] != [0; 7],
                _ => asked.is_from_2_on() && asked.card[ACCESS + 1..] != [0; 7],
            });
            read(card, edition, told, &exchanged(LAST_BYTES, row), shown)
        },
    ),
    reads(
        "bytes 25 to 31 of a card from 4 not looked at",
        |card, edition, told| {
            changed(card, edition, told, |card| {
                if card[WRITTEN] == 4 {
                    card[ACCESS + 1..].fill(0);
                }
            })
        },
    ),
];

pub const WRITING_A_CARD: &[Wrong] = &[
    // The order of refusals.
    writes("16 before 9, writing", |edition, facts, out| {
        let rows = card_write_refusals::rows([0, 2, 1, 3, 4]);
        written(edition, facts, out, &rows, least)
    }),
    writes("16 before 7, writing", |edition, facts, out| {
        let rows = card_write_refusals::rows([2, 0, 1, 3, 4]);
        written(edition, facts, out, &rows, least)
    }),
    writes("16 after 11", |edition, facts, out| {
        let rows = card_write_refusals::rows([0, 1, 3, 2, 4]);
        written(edition, facts, out, &rows, least)
    }),
    writes("16 after 13, writing", |edition, facts, out| {
        let rows = card_write_refusals::rows([0, 1, 3, 4, 2]);
        written(edition, facts, out, &rows, least)
    }),
    writes("16 left out, writing", |edition, facts, out| {
        let rows = card_write_refusals::rows([0, 1, 3, 4]);
        written(edition, facts, out, &rows, least)
    }),
    // When 16 is given.
    writes("9 for an odd width, writing", |edition, facts, out| {
        let row: WritingRow = (9, |_, facts, _| is_odd(facts));
        let rows = exchanged_in_writing(card_write_refusals::ODD_WIDTH, row);
        written(edition, facts, out, &rows, least)
    }),
    writes(
        "16 for odd widths of points, writing",
        |edition, facts, out| {
            let row: WritingRow = (16, |_, facts, _| facts.width % 2 == 1);
            let rows = exchanged_in_writing(card_write_refusals::ODD_WIDTH, row);
            written(edition, facts, out, &rows, least)
        },
    ),
    writes("16 for an odd height, writing", |edition, facts, out| {
        let row: WritingRow = (16, |_, facts, _| {
            is_grouped(facts.layout) && (facts.width | facts.height) % 2 == 1
        });
        let rows = exchanged_in_writing(card_write_refusals::ODD_WIDTH, row);
        written(edition, facts, out, &rows, least)
    }),
    writes(
        "an odd width of groups rounded up",
        |edition, facts, out| {
            let width = match is_odd(&facts) {
                true => facts.width + 1,
                false => facts.width,
            };
            expected_write(edition, Facts { width, ..facts }, out)
        },
    ),
    writes("16 at edition 4 alone", |edition, facts, out| {
        let row: WritingRow = (16, |edition, facts, _| edition == 4 && is_odd(facts));
        let rows = exchanged_in_writing(card_write_refusals::ODD_WIDTH, row);
        written(edition, facts, out, &rows, least)
    }),
    // Layouts and editions.
    writes(
        "groups written at 3",
        |edition, facts, out| match expected_write(edition, facts, out) {
            -11 if edition == 3 => stored(4, facts, out, |card| card[WRITTEN] = 3),
            answer => answer,
        },
    ),
    writes(
        "9 for groups at 3",
        |edition, facts, out| match expected_write(edition, facts, out) {
            -11 if is_grouped(facts.layout) => -9,
            answer => answer,
        },
    ),
    writes(
        "11 for groups at 4",
        |edition, facts, out| match expected_write(edition, facts, &mut out.clone()) {
            0 if is_grouped(facts.layout) => -11,
            _ => expected_write(edition, facts, out),
        },
    ),
    writes(
        "11 for an access at 4",
        |edition, facts, out| match expected_write(edition, facts, &mut out.clone()) {
            0 if edition == 4 && facts.access != 0 => -11,
            _ => expected_write(edition, facts, out),
        },
    ),
    writes(
        "the sampling not looked at, a card",
        |edition, mut facts, out| {
            if facts.layout[layouts::OFFSETS..layouts::SAMPLING] != [0; 3] {
                facts.layout[layouts::SAMPLING] = 0;
            }
            expected_write(edition, facts, out)
        },
    ),
    writes("sampling 2 written as 1", |edition, mut facts, out| {
        if facts.layout[layouts::SAMPLING] == 2 {
            facts.layout[layouts::SAMPLING] = SHARED;
        }
        expected_write(edition, facts, out)
    }),
    writes(
        "offsets of groups not looked at, a card",
        |edition, mut facts, out| {
            if is_grouped(facts.layout) {
                facts.layout[layouts::OFFSETS..layouts::SAMPLING].fill(0);
            }
            expected_write(edition, facts, out)
        },
    ),
    // The bytes.
    writes("byte 7 not stored", |edition, facts, out| {
        stored(edition, facts, out, |card| card[SAMPLING] = 0)
    }),
    writes("byte 7 always stored as 1", |edition, facts, out| {
        stored(edition, facts, out, |card| card[SAMPLING] = SHARED)
    }),
    writes("the sampling stored in byte 11", |edition, facts, out| {
        stored(edition, facts, out, |card| card.swap(SAMPLING, 11))
    }),
    writes("byte 0 of 3 for groups, writing", |edition, facts, out| {
        written(edition, facts, out, &WRITING, |edition, facts| {
            least(edition, facts).min(3)
        })
    }),
    writes("byte 0 of groups as without them", |edition, facts, out| {
        written(edition, facts, out, &WRITING, |edition, mut facts| {
            facts.layout[layouts::SAMPLING] = 0;
            least(edition, facts)
        })
    }),
    writes("byte 0 of 4 from edition 4", |edition, facts, out| {
        written(
            edition,
            facts,
            out,
            &WRITING,
            |edition, facts| match edition {
                4 => 4,
                _ => least(edition, facts),
            },
        )
    }),
    writes("byte 1 never above 3", |edition, facts, out| {
        stored(edition, facts, out, |card| card[WRITTEN] = edition.min(3))
    }),
    writes("the access not stored at 4", |edition, facts, out| {
        stored(edition, facts, out, |card| {
            if edition == 4 {
                card[ACCESS] = 0;
            }
        })
    }),
    writes("room cleared before 16", |edition, facts, out| {
        let answer = expected_write(edition, facts, out);
        if answer == -16 {
            out.output().fill(0);
        }
        answer
    }),
];

pub const REWRITING: &[Wrong] = &[
    rewrites(
        "groups rewritten at 3",
        |card, edition, out| match expected_rewrite(card, edition, out) {
            -8 if edition == 3 => expected_rewrite(card, 4, out),
            answer => answer,
        },
    ),
    rewrites("groups rewritten as points", |card, edition, out| {
        let answer = expected_rewrite(card, edition, out);
        if answer == 0 {
            out.output()[SAMPLING] = 0;
        }
        answer
    }),
    rewrites("access lost by edition 4", |card, edition, out| {
        let answer = expected_rewrite(card, edition, out);
        if answer == 0 && edition == 4 {
            out.output()[ACCESS] = 0;
        }
        answer
    }),
    rewrites("edition 4 writes byte 1 as 3", |card, edition, out| {
        let answer = expected_rewrite(card, edition, out);
        if answer == 0 {
            out.output()[WRITTEN] = edition.min(3);
        }
        answer
    }),
    rewrites(
        "13 before 16, rewriting",
        |card, edition, out| match expected_rewrite(card, edition, out) {
            -16 if out.length() != SIZE => -13,
            answer => answer,
        },
    ),
    rewrites(
        "an odd width rewritten",
        |card, edition, out| match expected_rewrite(card, edition, out) {
            -16 => {
                let mut even = card.clone();
                even.output()[WIDTH] -= 1;
                let answer = expected_rewrite(&mut even, edition, out);
                if answer == 0 {
                    out.output()[WIDTH] += 1;
                }
                answer
            }
            answer => answer,
        },
    ),
    rewrites(
        "9 for an odd width, rewriting",
        |card, edition, out| match expected_rewrite(card, edition, out) {
            -16 => -9,
            answer => answer,
        },
    ),
    rewrites("room filled before 16", |card, edition, out| {
        let answer = expected_rewrite(card, edition, out);
        if answer == -16 && out.length() == SIZE {
            out.output().copy_from_slice(card.elements());
        }
        answer
    }),
];

pub const FINDING: &[Wrong] = &[
    finds("groups found at 3", |stack, edition, item| {
        let edition_read = if edition == 3 { 4 } else { edition };
        (REFERENCE.stack_find)(stack, edition_read, item)
    }),
    finds("groups never found", |stack, edition, item| {
        let edition_read = if edition == 4 { 3 } else { edition };
        (REFERENCE.stack_find)(stack, edition_read, item)
    }),
    finds("an odd width found", |stack, edition, item| {
        let mut even = stack.clone();
        for card in even.output().chunks_exact_mut(SIZE) {
            if card[SAMPLING] == SHARED {
                card[WIDTH] &= 254;
            }
        }
        (REFERENCE.stack_find)(&mut even, edition, item)
    }),
    finds(
        "the search stops at an odd width",
        |stack, edition, item| {
            let cards = stack.elements().chunks(SIZE);
            let odd = cards
                .map(|card| reference::card::read(card, edition))
                .position(|card| card.is_err_and(|refusal| refusal.number() == 16));
            match (REFERENCE.stack_find)(stack, edition, item) {
                index @ 0.. if odd.is_some_and(|odd| odd < index as usize) => -15,
                answer => answer,
            }
        },
    ),
];

/// A list that is wrong about groups.
pub const LISTING: &[Wrong] = &[
    (
        "groups listed as refused by 8",
        Library {
            stack_list: |pieces| {
                let mut stack = pieces.concat();
                for card in stack.chunks_exact_mut(SIZE) {
                    if card[SAMPLING] == SHARED && card[LEAST] == 4 {
                        card[LEAST] = 5;
                    }
                }
                (REFERENCE.stack_list)(&[&stack])
            },
            ..REFERENCE
        },
    ),
    (
        "odd widths listed",
        Library {
            stack_list: |pieces| {
                let mut stack = pieces.concat();
                for card in stack.chunks_exact_mut(SIZE) {
                    if card[SAMPLING] == SHARED {
                        card[WIDTH] &= 254;
                    }
                }
                (REFERENCE.stack_list)(&[&stack])
            },
            ..REFERENCE
        },
    ),
];

/// Whether the bytes of a layout are those of groups.
fn is_of_groups(card: &Card) -> bool {
    stated(card, 0).layout == layouts::group(card[3], card[RANGE])
}
