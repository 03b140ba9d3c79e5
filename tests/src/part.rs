//! A part of the tests.

use crate::card;
use crate::color;
use crate::descriptor;
use crate::field;
use crate::history;
use crate::library::Library;
use crate::lines;
use crate::list;
use crate::picture;
use crate::quantization;
use crate::stack;
use crate::tally::{Flow, Tally};

pub struct Part {
    pub name: &'static str,
    pub run: fn(&Library, &mut Tally) -> Flow,
}

pub const fn part(name: &'static str, run: fn(&Library, &mut Tally) -> Flow) -> Part {
    Part { name, run }
}

/// Every part that tries the library or the program, subject after subject.
pub fn library_parts() -> impl Iterator<Item = &'static Part> {
    entry_parts().chain(list::PARTS)
}

/// Every part that tries the library.
pub fn entry_parts() -> impl Iterator<Item = &'static Part> {
    [
        quantization::PARTS,
        field::PARTS,
        lines::PARTS,
        lines::groups::PARTS,
        descriptor::PARTS,
        color::PARTS,
        card::PARTS,
        history::PARTS,
        stack::PARTS,
        picture::PARTS,
    ]
    .into_iter()
    .flatten()
}

/// Every part that goes through a whole domain: once, of the library that is linked.
pub fn whole_parts() -> impl Iterator<Item = &'static Part> {
    [
        lines::groups::WHOLE_PARTS,
        color::WHOLE_PARTS,
        picture::WHOLE_PARTS,
    ]
    .into_iter()
    .flatten()
}

/// Every part that needs no library.
pub fn reference_parts() -> impl Iterator<Item = &'static Part> {
    [quantization::REFERENCE_PARTS, color::REFERENCE_PARTS]
        .into_iter()
        .flatten()
}
