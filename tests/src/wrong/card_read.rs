//! Mistakes in reading cards, but for their access.

use crate::card::{expected_read, ACCESS, DEPTH, ITEM, LEAST, RANGE, SAMPLING, WRITTEN};
use crate::guarded::Guarded;
use crate::layouts::{self, LEGACY, OFFSETS};
use crate::library::card::Told;
use crate::plain::card::{read, shown, stated, Row};
use crate::plain::layout::is_valid;

use super::card_reads::{changed, exchanged, reads, rows, BYTE_0_IS_0, TOO_NEW};
use super::Wrong;

pub const WRONG: &[Wrong] = &[
    // Byte 0.
    reads("byte 0 taken for 1 if it is 0", |card, edition, told| {
        changed(card, edition, told, |card| card[LEAST] = card[LEAST].max(1))
    }),
    reads("8 for byte 0 = 0", |card, edition, told| {
        let row: Row = (8, |asked| asked.card[LEAST] == 0);
        read(card, edition, told, &exchanged(BYTE_0_IS_0, row), shown)
    }),
    reads(
        "8 for byte 0 as high as the edition",
        |card, edition, told| {
            let row: Row = (8, |asked| asked.card[LEAST] >= asked.edition);
            read(card, edition, told, &exchanged(TOO_NEW, row), shown)
        },
    ),
    reads("8 for byte 1 above the edition", |card, edition, told| {
        let row: Row = (8, |asked| asked.card[WRITTEN] > asked.edition);
        read(card, edition, told, &exchanged(TOO_NEW, row), shown)
    }),
    reads("8 for byte 0 above 4 only", |card, edition, told| {
        let row: Row = (8, |asked| asked.card[LEAST] > 4);
        read(card, edition, told, &exchanged(TOO_NEW, row), shown)
    }),
    reads(
        "8 for byte 0 above 2 at every edition",
        |card, edition, told| {
            let row: Row = (8, |asked| asked.card[LEAST] > asked.edition.min(2));
            read(card, edition, told, &exchanged(TOO_NEW, row), shown)
        },
    ),
    reads("8 left out", |card, edition, told| {
        read(card, edition, told, &rows([0, 1, 2, 4, 5, 6, 7]), shown)
    }),
    reads("byte 0 too high accepted", |card, edition, told| {
        changed(card, edition, told, |card| {
            if card[LEAST] == 2 && edition >= 2 && card[DEPTH] != 12 && card[WRITTEN] >= 2 {
                card[LEAST] = 1;
            }
        })
    }),
    reads("byte 0 too low accepted", |card, edition, told| {
        changed(card, edition, told, |card| {
            if card[LEAST] == 1 && edition >= 2 && card[DEPTH] == 12 {
                card[LEAST] = 2;
            }
        })
    }),
    reads(
        "byte 0 of 3 only at 12 bits, reading",
        |card, edition, told| {
            changed(card, edition, told, |card| {
                if card[RANGE] == LEGACY && card[DEPTH] != 12 {
                    card[LEAST] = match card[LEAST] {
                        1 if edition >= 3 => 3,
                        3 => 1,
                        least => least,
                    };
                }
            })
        },
    ),
    reads(
        "byte 0 of 2 for early captures of 12 bits",
        |card, edition, told| {
            changed(card, edition, told, |card| {
                if card[RANGE] == LEGACY && card[DEPTH] == 12 && card[LEAST] == 2 && edition >= 3 {
                    card[LEAST] = 3;
                }
            })
        },
    ),
    reads("byte 0 of 3 for any layout", |card, edition, told| {
        changed(card, edition, told, |card| {
            if card[LEAST] == 3 && edition >= 3 && card[RANGE] != LEGACY && card[WRITTEN] >= 3 {
                card[LEAST] = if card[DEPTH] == 12 { 2 } else { 1 };
            }
        })
    }),
    reads("early captures read at 2", |card, edition, told| {
        let early = matches!(card.elements(), [3, _, _, _, LEGACY, ..]);
        let edition = if early && edition == 2 { 3 } else { edition };
        expected_read(card, edition, told)
    }),
    reads(
        "early captures read at no edition",
        |card, edition, told| match card.elements() {
            [3, _, _, _, LEGACY, ..] if judged(card, edition) == 0 => -9,
            _ => expected_read(card, edition, told),
        },
    ),
    reads(
        "early captures shown in full range",
        |card, edition, told| {
            let answer = expected_read(card, edition, told);
            if answer == 0 {
                let range = &mut told.layout.output()[layouts::RANGE];
                *range = (*range).min(2);
            }
            answer
        },
    ),
    reads("range 4 taken for 3 in a card", |card, edition, told| {
        changed(card, edition, told, |card| {
            if card[RANGE] == 4 {
                card[RANGE] = LEGACY;
            }
        })
    }),
    reads("12 bits read at 1", |card, edition, told| {
        let wide = matches!(card.elements(), [2, _, _, _, _, 12, ..]);
        let edition = if wide && edition == 1 { 2 } else { edition };
        expected_read(card, edition, told)
    }),
    reads("byte 0 must be byte 1", |card, edition, told| {
        match card.elements() {
            &[least, written, ..] => match judged(card, edition) {
                0 if least != written => -9,
                _ => expected_read(card, edition, told),
            },
            _ => expected_read(card, edition, told),
        }
    }),
    reads("10 bits need edition 2", |card, edition, told| {
        match card.elements() {
            [1, _, _, _, _, 10, ..] if judged(card, edition) == 0 => -9,
            _ => expected_read(card, edition, told),
        }
    }),
    // Byte 1.
    reads("byte 1 not looked at", |card, edition, told| {
        changed(card, edition, told, |card| card[WRITTEN] = 2)
    }),
    reads("byte 1 under byte 0 accepted", |card, edition, told| {
        changed(card, edition, told, |card| {
            card[WRITTEN] = card[WRITTEN].max(card[LEAST])
        })
    }),
    reads("written at 0 accepted", |card, edition, told| {
        changed(card, edition, told, |card| {
            card[WRITTEN] = card[WRITTEN].max(1)
        })
    }),
    reads("written at 3 refused", |card, edition, told| {
        match card.elements() {
            &[_, 3..=255, ..] if judged(card, edition) == 0 => -9,
            _ => expected_read(card, edition, told),
        }
    }),
    reads("written at 255 refused", |card, edition, told| {
        match card.elements() {
            &[_, 255, ..] if judged(card, edition) == 0 => -9,
            _ => expected_read(card, edition, told),
        }
    }),
    reads(
        "written later than it is read refused",
        |card, edition, told| match card.elements() {
            &[_, written, ..] if written > edition && judged(card, edition) == 0 => -8,
            _ => expected_read(card, edition, told),
        },
    ),
    // Bytes 2 to 23.
    reads("bytes 1 to 23 not looked at", |card, edition, told| {
        read(card, edition, told, &rows([0, 1, 2, 3, 5, 6, 7]), shown)
    }),
    reads("byte 7 not looked at", |card, edition, told| {
        changed(card, edition, told, |card| card[SAMPLING] = 0)
    }),
    reads("byte 11 not looked at", |card, edition, told| {
        changed(card, edition, told, |card| card[11] = 0)
    }),
    reads("width 0 accepted", |card, edition, told| {
        let answer = changed(card, edition, told, |card| {
            if card[12..14] == [0, 0] {
                card[12] = 1;
            }
        });
        if answer == 0 && card.elements()[12..14] == [0, 0] {
            told.facts.output()[0] = 0;
        }
        answer
    }),
    reads("height 4,097 accepted", |card, edition, told| {
        let too_high = card.elements().get(14..16) == Some(&[1, 16]);
        let answer = changed(card, edition, told, |card| {
            if too_high {
                card[14] = 0;
            }
        });
        if answer == 0 && too_high {
            told.facts.output()[1] = 4097;
        }
        answer
    }),
    reads("width 4,096 refused", |card, edition, told| {
        match card.elements().get(12..14) {
            Some([0, 16]) if judged(card, edition) == 0 => -9,
            _ => expected_read(card, edition, told),
        }
    }),
    reads("width and height exchanged", |card, edition, told| {
        let answer = expected_read(card, edition, told);
        if answer == 0 {
            told.facts.output().swap(0, 1);
        }
        answer
    }),
    reads("big-endian width", |card, edition, told| {
        changed(card, edition, told, |card| card.swap(12, 13))
    }),
    reads("item 0 accepted", |card, edition, told| {
        let answer = changed(card, edition, told, |card| {
            if card[ITEM..ACCESS] == [0; 8] {
                card[ITEM] = 1;
            }
        });
        if answer == 0 && card.elements()[ITEM..ACCESS] == [0; 8] {
            told.facts.output()[2] = 0;
        }
        answer
    }),
    reads("items cut to 32 bits", |card, edition, told| {
        let answer = expected_read(card, edition, told);
        if answer == 0 {
            told.facts.output()[2] &= 0xffff_ffff;
        }
        answer
    }),
    reads(
        "item 0 by its lowest half",
        |card, edition, told| match card.elements().get(ITEM..ITEM + 4) {
            Some([0, 0, 0, 0]) if judged(card, edition) == 0 => -9,
            _ => expected_read(card, edition, told),
        },
    ),
    reads("big-endian items", |card, edition, told| {
        changed(card, edition, told, |card| card[ITEM..ACCESS].reverse())
    }),
    reads("the second field not tested", |card, edition, told| {
        let answer = expected_read(card, edition, told);
        if answer != -9 {
            return answer;
        }
        // Reads it with the second field where it would not overlap.
        let answer = changed(card, edition, told, |card| {
            let mut layout = stated(card, 0).layout;
            for offset in 0..64 {
                layout[OFFSETS + 1] = offset;
                if is_valid(layout) {
                    card[9] = offset;
                }
            }
        });
        if answer == 0 {
            told.layout.output()[OFFSETS + 1] = card.elements()[9];
        }
        answer
    }),
    reads("offsets in rising order", |card, edition, told| {
        let answer = expected_read(card, edition, told);
        if answer == 0 {
            told.layout.output()[OFFSETS..layouts::SAMPLING].sort();
        }
        answer
    }),
    reads(
        "primaries 5 taken for 4 in a card",
        |card, edition, told| {
            changed(card, edition, told, |card| {
                if card[3] == 5 {
                    card[3] = 4;
                }
            })
        },
    ),
];

/// What the reference answers.
fn judged(card: &Guarded<u8>, edition: u8) -> i64 {
    expected_read(&mut card.clone(), edition, &mut Told::new())
}
