//! The lists that the paper prints, and one of the newest edition. The program and
//! the reference are both compared with them.

use crate::card::{SIZE, WIDTH};
use crate::library::Library;
use crate::stack::stacks::{card_of, card_of_groups, changed, older_card_of};
use crate::stack::MOST_CARDS;
use crate::tally::{Flow, Tally};
use crate::wrong::REFERENCE;

pub fn printed(library: &Library, tally: &mut Tally) -> Flow {
    // Of item 7: open, 720 by 576.
    let mut card = card_of(7, 0);
    card[12..16].copy_from_slice(&[0xd0, 2, 0x40, 2]);
    card[24] = 2;
    let printed = [card, [0; SIZE]].concat();
    // Groups, as only edition 4 reads them; access 3 from edition 4, which is not known
    // there, and from 5; for edition 5 only; byte 0 too low; of an odd width, and that with
    // 10 after it and 9 before it; and in the older full range.
    let mut groups = card_of_groups(8, 0);
    groups[12..16].copy_from_slice(&[0xd0, 2, 0x40, 2]);
    let with = |changes: &[(usize, u8)]| changed(groups, changes);
    let mut early = older_card_of(9, 0);
    early[12..16].copy_from_slice(&[0xd0, 2, 0x40, 2]);
    let newest = [
        groups,
        with(&[(24, 2)]),
        with(&[(24, 3)]),
        with(&[(1, 5), (24, 3), (31, 1)]),
        with(&[(0, 5), (1, 5)]),
        with(&[(0, 3)]),
        with(&[(WIDTH, 0xd1)]),
        with(&[(WIDTH, 0xd1), (24, 3)]),
        with(&[(WIDTH, 0xd1), (7, 2)]),
        early,
    ]
    .concat();
    let listed = "cards 10\n8 closed 720x576\n8 open 720x576\n- refused 10\n\
                  8 closed 720x576\n- refused 8\n- refused 9\n- refused 16\n\
                  - refused 16\n- refused 9\n9 closed 720x576\n";
    let examples: [(&[u8], &str); 6] = [
        (&newest, listed),
        (&printed, "cards 2\n7 open 720x576\n- refused 9\n"),
        (&[], "cards 0\n"),
        (&printed[..SIZE - 1], "stack refused 1\n"),
        (&printed[1..], "stack refused 1\n"),
        (&[0; (MOST_CARDS + 1) * SIZE], "stack refused 1\n"),
    ];
    for (program, library) in [("program", library), ("reference", &REFERENCE)] {
        for (stack, must_be) in examples {
            let text = (library.stack_list)(&[stack]);
            tally.compare(text == must_be.as_bytes(), || {
                let text = String::from_utf8_lossy(&text);
                format!("{program}: {text:?}, must be {must_be:?}")
            })?;
        }
    }
    Flow::Continue(())
}
