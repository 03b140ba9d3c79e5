//! Every job of the library in plain Rust, with the same refusals, as one writes it
//! by hand to be fast.

pub mod cards;
pub mod colors;
pub mod descriptors;
pub mod fields;
pub mod groups;
pub mod history;
pub mod layout;
pub mod lines;
pub mod pictures;
pub mod refusal;
pub mod values;
