//! Other readers and writers of pictures: the programs of Netpbm, which is where PPM comes from.
//! They tell what they see in files that are exported, and write files that are imported.

use std::io::Write;
use std::process::{Command, Stdio};
use std::sync::OnceLock;
use std::thread;

use reference::card::{Facts, CLOSED};
use reference::pictures;

use crate::card::KNOWN_EDITIONS;
use crate::guarded::Guarded;
use crate::layouts::DEPTH;
use crate::library::card::Told;
use crate::library::picture::Imported;
use crate::library::Library;
use crate::part::{part, Part};
use crate::picture::shots::{every_way, facts, largest, lengths, open, random_bytes, side_by_side};
use crate::random::Random;
use crate::tally::{Flow, Tally};

const PARTS: &[Part] = &[
    part("pictures, read by Netpbm", read),
    part("pictures, written by Netpbm", written),
];

const PROGRAMS: [&str; 8] = [
    "pamfile",
    "pamtopnm",
    "pnmtopng",
    "pngtopam",
    "pamdepth",
    "pamflip",
    "ppmmake",
    "pamgradient",
];

/// What is tried with Netpbm, if it is installed.
pub fn parts() -> &'static [Part] {
    match missing() {
        None => PARTS,
        Some(_) => &[],
    }
}

/// The first of its programs that cannot be started.
pub fn missing() -> Option<&'static str> {
    static MISSING: OnceLock<Option<&str>> = OnceLock::new();
    *MISSING.get_or_init(|| {
        let cannot_start = |program: &&str| Command::new(program).arg("-version").output().is_err();
        PROGRAMS.into_iter().find(cannot_start)
    })
}

/// Every model, range and depth that is exported, and groups, in two sizes: Netpbm tells the
/// same sides, largest code and samples as the reference, and gives the very file back by way
/// of PNG.
fn read(library: &Library, tally: &mut Tally) -> Flow {
    let mut random = Random::new();
    for (turn, layout) in every_way().into_iter().enumerate() {
        for sides in [[7, 5], [66, 3]] {
            let shot = facts(layout, sides, turn);
            let card = open(layout, sides, turn);
            let [packed, length] = lengths(&shot);
            let packed = random_bytes(&mut random, packed);
            let mut file = Guarded::new(length);
            let mut lent = Guarded::holding(&packed);
            (library.ppm_export)(&mut Guarded::holding(&card), 4, &mut lent, &mut file);
            let file = file.elements();
            let name = format!("{layout:?}, {sides:?}");

            let most = largest(layout[DEPTH]);
            let Facts { width, height, .. } = shot;
            let must_be = format!("stdin: PPM RAW {width} {height} 3 {most} RGB\n");
            let said = netpbm(&["pamfile", "-machine"], file);
            tally.compare(said == must_be.as_bytes(), || {
                let said = String::from_utf8_lossy(&said);
                format!("{name}: Netpbm says {said:?}, must be {must_be:?}")
            })?;
            let mut expected = vec![0; length];
            let points = pictures::export(&card, 4, &packed, &mut expected);
            let expected = codes(&expected, points.expect("a card that is exported"));
            let samples = samples(file);
            tally.compare(samples == expected, || {
                format!("{name}: Netpbm reads samples {samples:?}, must be {expected:?}")
            })?;
            let by_png = netpbm(&["pngtopam"], &netpbm(&["pnmtopng"], file));
            tally.compare(by_png == file, || {
                format!("{name}: another file comes back from PNG")
            })?;
        }
    }
    Flow::Continue(())
}

/// Pictures that Netpbm makes, of every depth: imported, they have the samples that it tells.
fn written(library: &Library, tally: &mut Tally) -> Flow {
    let gradient = ["black", "rgb:ff/80/01", "white", "blue", "41", "23"];
    for depth in [8, 10, 12] {
        let most = format!("-maxval={}", largest(depth));
        let made = netpbm(&["ppmmake", &most, "rgb:ff/80/41", "9", "4"], &[]);
        imported(library, tally, "ppmmake", depth, &made)?;
        let made = netpbm(&[&["pamgradient", &most][..], &gradient].concat(), &[]);
        let made = netpbm(&["pamtopnm"], &made);
        imported(library, tally, "pamgradient", depth, &made)?;
        let turned = netpbm(&["pamflip", "-transpose"], &made);
        imported(library, tally, "pamflip", depth, &turned)?;
        let by_png = netpbm(&["pngtopam"], &netpbm(&["pnmtopng"], &made));
        imported(library, tally, "pngtopam", depth, &by_png)?;
        for other in [8, 10, 12] {
            let changed = netpbm(&["pamdepth", &largest(other).to_string()], &made);
            imported(library, tally, "pamdepth", other, &changed)?;
        }
    }
    Flow::Continue(())
}

/// A picture of a depth: its codes are the samples, and its card is closed and has the sides
/// that Netpbm tells, at every edition that reads it.
fn imported(library: &Library, tally: &mut Tally, by: &str, depth: u8, ppm: &[u8]) -> Flow {
    let samples = samples(ppm);
    let points = samples.len() / 3;
    let (item, primaries) = (points as u64, 1 + depth % 4);
    let layout = side_by_side(1, primaries, 2, depth);
    let mut file = Guarded::holding(ppm);
    let told = (library.ppm_import_len)(&mut file);
    let mut made = Imported::new(usize::try_from(told).unwrap_or(0));
    let answer = (library.ppm_import)(&mut file, item, primaries, &mut made);
    tally.compare(answer == points as i64 && points > 0, || {
        format!("a picture of {by}, {depth} bits, is imported: {answer}, must be {points}")
    })?;
    let mut unpacked = Guarded::new(samples.len());
    (library.unpack_line)(layout, made.packed.elements(), &mut unpacked);
    tally.compare(unpacked.elements() == samples, || {
        format!("a picture of {by}, {depth} bits: other codes than its samples")
    })?;
    let said = netpbm(&["pamfile", "-machine"], ppm);
    let said = String::from_utf8_lossy(&said);
    let mut numbers = said.split(' ').filter_map(|number| number.parse().ok());
    let mut side = || numbers.next().unwrap_or(0);
    let facts = Facts {
        layout,
        width: side(),
        height: side(),
        item,
        access: CLOSED,
    };
    for edition in KNOWN_EDITIONS {
        // Edition 1 has no 12 bits.
        if (depth, edition) == (12, 1) {
            continue;
        }
        let (mut told, mut must_be) = (Told::new(), Told::new());
        must_be.store(facts);
        let answer = (library.card_read)(&mut made.card, edition, &mut told);
        tally.compare(answer == 0 && told == must_be, || {
            format!("a picture of {by}, {depth} bits: another card at {edition}, {answer}")
        })?;
    }
    Flow::Continue(())
}

/// The samples that Netpbm reads, as the numbers of a plain file after its sides and largest.
fn samples(ppm: &[u8]) -> Vec<u16> {
    let plain = netpbm(&["pamtopnm", "-plain"], ppm);
    let plain = String::from_utf8_lossy(&plain);
    let words = plain.split_ascii_whitespace().skip(4);
    words.filter_map(|word| word.parse().ok()).collect()
}

/// The codes in a file of the reference with so many points.
fn codes(file: &[u8], points: usize) -> Vec<u16> {
    let each = if file.len() < 6 * points { 1 } else { 2 };
    let (_, samples) = file.split_at(file.len() - 3 * points * each);
    let high_first = |code: &[u8]| {
        code.iter()
            .fold(0, |code, &byte| code << 8 | u16::from(byte))
    };
    samples.chunks(each).map(high_first).collect()
}

/// What a program prints for an input; nothing if it fails.
fn netpbm(command: &[&str], input: &[u8]) -> Vec<u8> {
    let (program, arguments) = command.split_first().expect("a program");
    let mut child = Command::new(program)
        .args(arguments)
        .stdin(Stdio::piped())
        .stdout(Stdio::piped())
        .stderr(Stdio::null())
        .spawn()
        .expect("a program of Netpbm that can be started");
    let mut pipe = child.stdin.take().expect("a pipe to the program");
    thread::scope(|scope| {
        scope.spawn(move || {
            // A program may stop reading once it has what it needs, or finds it wrong.
            let _ = pipe.write_all(input);
        });
        let output = child.wait_with_output().expect("the program's output");
        match output.status.success() {
            true => output.stdout,
            false => Vec::new(),
        }
    })
}
