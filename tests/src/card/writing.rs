//! Cards written: from facts outside the paper, to room that is not a card's, and
//! of every layout.

use reference::card::Facts;

use crate::layouts::{self, is_grouped, MODEL, OFFSETS, RANGE, SAMPLING};
use crate::library::{Layout, Library};
use crate::tally::{Flow, Tally};

use super::cards;
use super::{
    compare_read, compare_rewrite, compare_write, unknown_editions, KNOWN_EDITIONS, ROOMS, SIZE,
};

/// Every edition and room with every kind of fact, right or wrong, in all
/// combinations of a layout, a size, an item and an access.
pub fn competing(library: &Library, tally: &mut Tally) -> Flow {
    let layouts = cards::layouts().into_iter();
    let combinations: Vec<Facts> = layouts.flat_map(combinations).collect();
    for &facts in &combinations {
        for room in ROOMS {
            for edition in [0, 1, 2, 3, 4, 5, 6, 255] {
                compare_write(library, tally, edition, facts, room)?;
            }
        }
    }
    // The other editions, with rooms in turn.
    for (&facts, room) in combinations.iter().zip(ROOMS.into_iter().cycle()) {
        for edition in unknown_editions() {
            compare_write(library, tally, edition, facts, room)?;
        }
    }
    // Every length of room up to two cards and more.
    for layout in cards::layouts() {
        for room in 0..=3 * SIZE {
            for edition in KNOWN_EDITIONS {
                let facts = cards::facts_in_turn(layout, room);
                compare_write(library, tally, edition, facts, room)?;
            }
        }
    }
    // Lengths that would be a card's if they were cut to 8 or 16 bits.
    for room in [256 + SIZE, 65_536 + SIZE] {
        compare_write(library, tally, 2, cards::facts(8), room)?;
    }
    Flow::Continue(())
}

/// Every number of a layout takes all its values, at every edition.
pub fn layouts_outside(library: &Library, tally: &mut Tally) -> Flow {
    for (turn, layout) in layouts::one_of_each_size_and_groups().enumerate() {
        for changed in layouts::changed(layout) {
            for access in 0..=2 {
                let facts = Facts {
                    access,
                    ..cards::facts_in_turn(changed, turn)
                };
                for edition in KNOWN_EDITIONS {
                    compare_write(library, tally, edition, facts, SIZE)?;
                }
            }
        }
    }
    Flow::Continue(())
}

/// Cards of every layout, written, read and rewritten. Editions, sizes, items and
/// access take turns.
pub fn every_layout(library: &Library, tally: &mut Tally) -> Flow {
    for (turn, layout) in layouts::every().chain(layouts::groups()).enumerate() {
        let facts = Facts {
            access: (turn % 3) as u8,
            ..cards::facts_in_turn(layout, turn)
        };
        let edition = KNOWN_EDITIONS[turn / 3 % KNOWN_EDITIONS.len()];
        compare_write(library, tally, edition, facts, SIZE)?;
        let card = cards::card(facts);
        compare_read(library, tally, &card, edition)?;
        compare_rewrite(library, tally, &card, edition, SIZE)?;
    }
    Flow::Continue(())
}

fn combinations(layout: Layout) -> Vec<Facts> {
    let with = |place, number| {
        let mut changed = layout;
        changed[place] = number;
        changed
    };
    let layouts = [
        layout,
        with(MODEL, 3),
        with(RANGE, 4),
        // Two fields in one place, or in a group one that is not at 0.
        with(
            OFFSETS + 1,
            if is_grouped(layout) {
                8
            } else {
                layout[OFFSETS]
            },
        ),
        with(SAMPLING, 1 - layout[SAMPLING]),
        with(SAMPLING, 2),
    ];
    let sides = [
        [720, 576],
        [721, 576],
        [4095, 1],
        [0, 576],
        [720, 0],
        [721, 0],
        [4097, 4096],
        [4096, 4097],
    ];
    let mut combinations = Vec::new();
    for layout in layouts {
        for [width, height] in sides {
            for item in [1, 0] {
                for access in [0, 1, 2, 3, 255] {
                    combinations.push(Facts {
                        layout,
                        width,
                        height,
                        item,
                        access,
                    });
                }
            }
        }
    }
    combinations
}
