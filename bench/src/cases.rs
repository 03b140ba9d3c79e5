//! Every entry of the C interface with the inputs that it is measured on.

use crate::before::Before;
use crate::case::{Case, Label};

mod cards;
mod colors;
mod descriptors;
mod fields;
mod history;
mod lines;
mod pictures;
mod values;

/// Inputs of one measurement of a short call.
const MANY: usize = 512;

/// In the order of the header. An error if some outputs differ.
pub fn all(before: Option<&Before>) -> Result<Vec<Case>, String> {
    let subjects = [
        descriptors::cases()?,
        values::cases(before)?,
        fields::cases()?,
        lines::cases(before)?,
        colors::cases(before)?,
        cards::cases()?,
        history::cases()?,
        pictures::cases()?,
    ];
    Ok(subjects.into_iter().flatten().collect())
}

fn label(entry: &'static str, setting: &str, input: &str) -> Label {
    Label {
        entry,
        setting: setting.into(),
        input: input.into(),
    }
}
