//! Pictures: one comparison of each function with the reference, and the parts that
//! choose what to compare.

use reference::pictures;

use crate::guarded::{Guarded, Outcome};
use crate::library::picture::{Imported, PpmExport, PpmImport};
use crate::library::Library;
use crate::lines::answer;
use crate::part::{part, Part};
use crate::tally::{Flow, Tally};

mod back;
mod examples;
mod exporting;
mod headers;
mod importing;
pub mod shots;
mod sizes;
mod values;
mod whole;

/// The parts that try a library, the quick ones first: most wrong programs are
/// caught by them.
pub const PARTS: &[Part] = &[
    part("pictures, worked out by hand", examples::worked_out),
    part("export, refusals by hand", examples::refusals::exporting),
    part("import, refusals by hand", examples::refusals::importing),
    part("pictures, the longest sides", sizes::longest),
    part("pictures, there and back", back::there_and_back),
    part("import, headers of other forms", headers::other_forms),
    part("import, headers changed", headers::changed),
    part("export, lengths", exporting::lengths),
    part("import, lengths", importing::lengths),
    part("import, items and primaries", importing::items),
    part("import, codes above the largest", importing::codes_above),
    part("export, every file's length", sizes::told),
    part("import, every number of a header", headers::numbers),
    part("export, every narrow R'G'B' code", values::narrow),
    part("export, every code", values::every_code),
    part("export, the ends of Y'CbCr", values::ends),
    part("export, layouts in all colors", values::layouts),
    part("import, every code", importing::every_code),
    part("export, sizes", sizes::exported),
    part("import, sizes", sizes::imported),
    part("pictures, random ones", sizes::random),
    part("export, cards of every kind", exporting::cards),
    part("export, access and who wrote it", exporting::access),
    part("export, single bytes of a card", exporting::single_bytes),
    part("export, refusals that compete", exporting::competing),
    part("import, refusals that compete", importing::competing),
];

/// The most bytes of points that are imported but for the largest picture: so many has one of
/// 4,096 by 2 points.
const MOST_ROOM: usize = 5 * 8192;

/// The largest picture, once.
pub const WHOLE_PARTS: &[Part] = &[part("pictures, the largest", whole::largest)];

pub fn expected_export(
    card: &mut Guarded<u8>,
    edition: u8,
    packed: &mut Guarded<u8>,
    out: &mut Guarded<u8>,
) -> i64 {
    let (card, packed) = (card.elements(), packed.elements());
    answer(pictures::export(card, edition, packed, out.output()))
}

pub fn expected_export_len(card: &mut Guarded<u8>, edition: u8) -> i64 {
    answer(pictures::export_len(card.elements(), edition))
}

pub fn expected_import(
    ppm: &mut Guarded<u8>,
    item: u64,
    primaries: u8,
    made: &mut Imported,
) -> i64 {
    let (card, packed) = (made.card.output(), made.packed.output());
    let points = pictures::import(ppm.elements(), item, primaries, card, packed);
    answer(points)
}

pub fn expected_import_len(ppm: &mut Guarded<u8>) -> i64 {
    answer(pictures::import_len(ppm.elements()))
}

/// What an export answers and stores, and the card and the points as it leaves them.
#[derive(PartialEq)]
struct Export {
    outcome: Outcome<u8>,
    card: Guarded<u8>,
    packed: Guarded<u8>,
}

impl Export {
    fn of(export: PpmExport, card: &[u8], edition: u8, packed: &[u8], length: usize) -> Export {
        let mut card = Guarded::holding(card);
        let mut packed = Guarded::holding(packed);
        let outcome = Outcome::of(length, |out| export(&mut card, edition, &mut packed, out));
        Export {
            outcome,
            card,
            packed,
        }
    }
}

/// What an import answers and stores, and the file as it leaves it.
#[derive(PartialEq)]
struct Import {
    answer: i64,
    made: Imported,
    ppm: Guarded<u8>,
}

impl Import {
    fn of(import: PpmImport, ppm: &[u8], item: u64, primaries: u8, room: Imported) -> Import {
        let mut ppm = Guarded::holding(ppm);
        let mut made = room;
        let answer = import(&mut ppm, item, primaries, &mut made);
        Import { answer, made, ppm }
    }

    /// The answers, and what differs besides.
    fn unlike(&self, expected: &Import) -> String {
        let mut words = format!("answer {}, must be {}", self.answer, expected.answer);
        for (name, made, must_be) in [
            ("card", &self.made.card, &expected.made.card),
            ("packed", &self.made.packed, &expected.made.packed),
        ] {
            if made != must_be {
                let [made, must_be] = [made, must_be].map(|made| start(made.elements()));
                words += &format!("; {name} {made:x?}, must be {must_be:x?}, or beside it");
            }
        }
        if self.ppm != expected.ppm {
            words += "; the file is changed";
        }
        words
    }
}

fn compare_export(
    library: &Library,
    tally: &mut Tally,
    card: &[u8],
    edition: u8,
    packed: &[u8],
    length: usize,
) -> Flow {
    let export = Export::of(library.ppm_export, card, edition, packed, length);
    let expected = Export::of(expected_export, card, edition, packed, length);
    tally.compare(export == expected, || {
        format!(
            "export {card:?} at {edition}, {} bytes, {:x?}, to {length}: {}{}",
            packed.len(),
            start(packed),
            export.outcome.unlike(&expected.outcome),
            match export.card == expected.card && export.packed == expected.packed {
                true => "",
                false => "; the card or the points are changed",
            }
        )
    })
}

/// Into room that is as long as needed, or none if the card is refused; and that length
/// itself.
fn compare_exported(
    library: &Library,
    tally: &mut Tally,
    card: &[u8],
    edition: u8,
    packed: &[u8],
) -> Flow {
    let length = pictures::export_len(card, edition).unwrap_or(0);
    compare_export_len(library, tally, card, edition)?;
    compare_export(library, tally, card, edition, packed, length)
}

fn compare_export_len(library: &Library, tally: &mut Tally, card: &[u8], edition: u8) -> Flow {
    let lent = Guarded::holding(card);
    let mut card_after = lent.clone();
    let told = (library.ppm_export_len)(&mut card_after, edition);
    let expected = answer(pictures::export_len(card, edition));
    let kept = card_after == lent;
    tally.compare(told == expected && kept, || {
        format!(
            "length of the file of {card:?} at {edition}: {told}, must be {expected}{}",
            if kept { "" } else { "; the card is changed" }
        )
    })
}

/// With the item and the primaries, into this room.
fn compare_import(
    library: &Library,
    tally: &mut Tally,
    ppm: &[u8],
    (item, primaries): (u64, u8),
    room: Imported,
) -> Flow {
    let import = Import::of(library.ppm_import, ppm, item, primaries, room.clone());
    let expected = Import::of(expected_import, ppm, item, primaries, room);
    tally.compare(import == expected, || {
        format!(
            "import {} bytes, {:?}, item {item}, primaries {primaries}: {}",
            ppm.len(),
            String::from_utf8_lossy(start(ppm)),
            import.unlike(&expected)
        )
    })
}

/// Into room that is as long as needed, or none if the header is refused or tells of a large
/// picture; and that length itself.
fn compare_imported(library: &Library, tally: &mut Tally, ppm: &[u8], given: (u64, u8)) -> Flow {
    let length = pictures::import_len(ppm).unwrap_or(0);
    let length = if length > MOST_ROOM { 0 } else { length };
    compare_import_len(library, tally, ppm)?;
    compare_import(library, tally, ppm, given, Imported::new(length))
}

fn compare_import_len(library: &Library, tally: &mut Tally, ppm: &[u8]) -> Flow {
    let lent = Guarded::holding(ppm);
    let mut ppm_after = lent.clone();
    let told = (library.ppm_import_len)(&mut ppm_after);
    let expected = answer(pictures::import_len(ppm));
    let kept = ppm_after == lent;
    tally.compare(told == expected && kept, || {
        format!(
            "length of the points of {:?}: {told}, must be {expected}{}",
            String::from_utf8_lossy(start(ppm)),
            if kept { "" } else { "; the file is changed" }
        )
    })
}

/// As many bytes as a description shows.
fn start(bytes: &[u8]) -> &[u8] {
    &bytes[..bytes.len().min(32)]
}
