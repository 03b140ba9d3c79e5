//! Mistakes in what a reading of a card refuses, in which order, and in lent
//! memory.

use crate::card::{expected_read, ACCESS, SIZE};
use crate::guarded::Guarded;
use crate::plain::card::{read, shown};

use super::card_reads::{reads, rows};
use super::Wrong;

pub const WRONG: &[Wrong] = &[
    // Editions and lengths.
    reads("edition 0 taken for 1", |card, edition, told| {
        expected_read(card, edition.max(1), told)
    }),
    reads("later editions taken for 4", |card, edition, told| {
        expected_read(card, edition.min(4), told)
    }),
    reads("edition 3 not known", |card, edition, told| {
        let edition = if edition == 3 { 5 } else { edition };
        expected_read(card, edition, told)
    }),
    reads("edition 4 not known", |card, edition, told| {
        let edition = if edition == 4 { 5 } else { edition };
        expected_read(card, edition, told)
    }),
    reads("edition 5 taken for 4", |card, edition, told| {
        let edition = if edition == 5 { 4 } else { edition };
        expected_read(card, edition, told)
    }),
    reads("edition 4 taken for 3", |card, edition, told| {
        let edition = if edition == 4 { 3 } else { edition };
        expected_read(card, edition, told)
    }),
    reads("edition 3 taken for 2", |card, edition, told| {
        let edition = if edition == 3 { 2 } else { edition };
        expected_read(card, edition, told)
    }),
    reads("an edition cut to 7 bits", |card, edition, told| {
        expected_read(card, edition & 127, told)
    }),
    reads("33 bytes accepted", |card, edition, told| {
        let length = match card.length() {
            33 => SIZE,
            length => length,
        };
        let mut cut = Guarded::holding(&card.elements()[..length]);
        expected_read(&mut cut, edition, told)
    }),
    reads("longer cards accepted", |card, edition, told| {
        let length = card.length().min(SIZE);
        let mut cut = Guarded::holding(&card.elements()[..length]);
        expected_read(&mut cut, edition, told)
    }),
    reads("shorter cards accepted", |card, edition, told| {
        let mut whole = card.elements().to_vec();
        whole.resize(SIZE.max(card.length()), 0);
        expected_read(&mut Guarded::holding(&whole), edition, told)
    }),
    reads("a length cut to 8 bits", |card, edition, told| {
        let length = card.length() % 256;
        let mut cut = Guarded::holding(&card.elements()[..length]);
        expected_read(&mut cut, edition, told)
    }),
    reads("a length cut to 16 bits", |card, edition, told| {
        let length = card.length() % 65_536;
        let mut cut = Guarded::holding(&card.elements()[..length]);
        expected_read(&mut cut, edition, told)
    }),
    // Memory.
    reads("the layout stored on a refusal", |card, edition, told| {
        if let Some(layout) = card.elements().get(2..11) {
            told.layout.output().copy_from_slice(layout);
        }
        expected_read(card, edition, told)
    }),
    reads("the facts stored before 10", |card, edition, told| {
        let answer = expected_read(card, edition, told);
        if answer == -10 {
            told.facts.output()[3] = 0;
        }
        answer
    }),
    reads("the access left as it was", |card, edition, told| {
        let before = told.facts.elements()[3];
        let answer = expected_read(card, edition, told);
        told.facts.output()[3] = before;
        answer
    }),
    reads("ten bytes of layout stored", |card, edition, told| {
        let answer = expected_read(card, edition, told);
        if answer == 0 {
            told.layout.output_and_beyond()[9] = 0;
        }
        answer
    }),
    reads("five facts stored", |card, edition, told| {
        let answer = expected_read(card, edition, told);
        if answer == 0 {
            told.facts.output_and_beyond()[4] = 0;
        }
        answer
    }),
    reads("the card closed where it lies", |card, edition, told| {
        let answer = expected_read(card, edition, told);
        if answer == 0 && edition == 1 {
            card.output()[ACCESS] = 0;
        }
        answer
    }),
    reads("a refused card cleared", |card, edition, told| {
        let answer = expected_read(card, edition, told);
        if answer == -10 {
            card.output().fill(0);
        }
        answer
    }),
    // The order of refusals.
    reads("7 before 1", |card, edition, told| {
        read(card, edition, told, &rows([1, 0, 2, 3, 4, 5, 6, 7]), shown)
    }),
    reads("9 of byte 0 before 1", |card, edition, told| {
        read(card, edition, told, &rows([2, 0, 1, 3, 4, 5, 6, 7]), shown)
    }),
    reads("9 of byte 0 before 7", |card, edition, told| {
        read(card, edition, told, &rows([0, 2, 1, 3, 4, 5, 6, 7]), shown)
    }),
    reads("8 before 1", |card, edition, told| {
        read(card, edition, told, &rows([3, 0, 1, 2, 4, 5, 6, 7]), shown)
    }),
    reads("8 before 7", |card, edition, told| {
        read(card, edition, told, &rows([0, 3, 1, 2, 4, 5, 6, 7]), shown)
    }),
    reads("9 before 7", |card, edition, told| {
        read(card, edition, told, &rows([0, 4, 1, 2, 3, 5, 6, 7]), shown)
    }),
    reads("9 before 8", |card, edition, told| {
        read(card, edition, told, &rows([0, 1, 2, 4, 3, 5, 6, 7]), shown)
    }),
    reads("10 before 8", |card, edition, told| {
        // At edition 2 or later, with byte 0 above it.
        read(card, edition, told, &rows([0, 1, 2, 6, 3, 4, 5, 7]), shown)
    }),
    reads("10 before 9", |card, edition, told| {
        read(card, edition, told, &rows([0, 1, 2, 3, 6, 4, 5, 7]), shown)
    }),
    reads("9 of bytes 24 to 31 before 10", |card, edition, told| {
        read(card, edition, told, &rows([0, 1, 2, 3, 4, 5, 7, 6]), shown)
    }),
    reads("9 of bytes 24 to 31 before 8", |card, edition, told| {
        read(card, edition, told, &rows([0, 1, 2, 7, 3, 4, 5, 6]), shown)
    }),
    reads("every reading refused", |_, _, _| -9),
];
