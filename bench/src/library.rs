//! The library that is measured.

pub mod cards;
pub mod descriptors;
pub mod fields;
pub mod history;
pub mod lines;
pub mod pictures;
pub mod values;
