//! The matrices that document 003 prints for our rows, each once with fractions
//! and once rounded, against its formulas.
//!
//! One entry is a misprint: in the rounded matrix of BT.709, Cr has 0.454153 of G'.
//! The formula gives a negative number, and so does the matrix with fractions. This
//! is why the paper goes by the formulas.

use reference::color::Weights;
use reference::fraction::{Fraction, HALF};

use crate::library::{Direction, Library};
use crate::tally::{Flow, Tally};

use Direction::{RgbToYcbcr, YcbcrToRgb};

/// A printed matrix, row by row, with the entries as they stand there.
struct Printed {
    name: &'static str,
    primaries: &'static [u8],
    direction: Direction,
    fractions: [[&'static str; 3]; 3],
    rounded: [[&'static str; 3]; 3],
}

const PRINTED: [Printed; 6] = [
    Printed {
        name: "BT.709",
        primaries: &[1],
        direction: RgbToYcbcr,
        fractions: [
            ["0.2126", "0.7152", "0.0722"],
            ["-0.2126/1.8556", "-0.7152/1.8556", "0.5"],
            ["0.5", "-0.7152/1.5748", "-0.0722/1.5748"],
        ],
        rounded: [
            ["0.2126", "0.7152", "0.0722"],
            ["-0.114572", "-0.385428", "0.5"],
            ["0.5", "0.454153", "-0.045847"],
        ],
    },
    Printed {
        name: "BT.709, inverse",
        primaries: &[1],
        direction: YcbcrToRgb,
        fractions: [
            ["1", "0", "1.5748"],
            ["1", "-0.13397432/0.7152", "-0.33480248/0.7152"],
            ["1", "1.8556", "0"],
        ],
        rounded: [
            ["1", "0", "1.5748"],
            ["1", "-0.187324", "-0.468124"],
            ["1", "1.8556", "0"],
        ],
    },
    Printed {
        name: "BT.601",
        primaries: &[2, 3],
        direction: RgbToYcbcr,
        fractions: [
            ["0.299", "0.587", "0.114"],
            ["-0.299/1.772", "-0.587/1.772", "0.5"],
            ["0.5", "-0.587/1.402", "-0.114/1.402"],
        ],
        rounded: [
            ["0.299", "0.587", "0.114"],
            ["-0.168736", "-0.331264", "0.5"],
            ["0.5", "-0.418688", "-0.081312"],
        ],
    },
    Printed {
        name: "BT.601, inverse",
        primaries: &[2, 3],
        direction: YcbcrToRgb,
        fractions: [
            ["1", "0", "1.402"],
            ["1", "-0.202008/0.587", "-0.419198/0.587"],
            ["1", "1.772", "0"],
        ],
        rounded: [
            ["1", "0", "1.402"],
            ["1", "-0.344136", "-0.714136"],
            ["1", "1.772", "0"],
        ],
    },
    Printed {
        name: "BT.2020",
        primaries: &[4],
        direction: RgbToYcbcr,
        fractions: [
            ["0.2627", "0.6780", "0.0593"],
            ["-0.2627/1.8814", "-0.6780/1.8814", "0.5"],
            ["0.5", "-0.6780/1.4746", "-0.0593/1.4746"],
        ],
        rounded: [
            ["0.2627", "0.6780", "0.0593"],
            ["-0.139630", "-0.360370", "0.5"],
            ["0.5", "-0.459786", "-0.040214"],
        ],
    },
    Printed {
        name: "BT.2020, inverse",
        primaries: &[4],
        direction: YcbcrToRgb,
        fractions: [
            ["1", "0", "1.4746"],
            ["1", "-0.11156702/0.6780", "-0.38737742/0.6780"],
            ["1", "1.8814", "0"],
        ],
        rounded: [
            ["1", "0", "1.4746"],
            ["1", "-0.164553", "-0.571353"],
            ["1", "1.8814", "0"],
        ],
    },
];

/// The misprint, as it stands and as it must be by the formula.
const MISPRINT: &str = "0.454153";
const BY_FORMULA: &str = "-0.454153";

/// Every entry is the formula's number, to its last printed digit, but for the
/// misprint, which is another number.
pub fn document_003(_: &Library, tally: &mut Tally) -> Flow {
    for printed in &PRINTED {
        for &primaries in printed.primaries {
            let exact = matrix(primaries, printed.direction);
            for row in 0..3 {
                for column in 0..3 {
                    let name = printed.name;
                    let exact = exact[row][column];
                    let entry = printed.fractions[row][column];
                    tally.compare(fraction(entry).same(exact), || {
                        format!("{name}, row {row}, column {column}: {entry}, must be {exact}")
                    })?;
                    let entry = printed.rounded[row][column];
                    let differs = rounded(exact, entry) != digits(entry);
                    tally.compare(differs == (entry == MISPRINT), || {
                        format!("{name}, row {row}, column {column}: {entry}, but {exact}")
                    })?;
                    if entry == MISPRINT {
                        tally.compare(rounded(exact, BY_FORMULA) == digits(BY_FORMULA), || {
                            format!("{name}: {BY_FORMULA} for {MISPRINT}, but {exact}")
                        })?;
                    }
                }
            }
        }
    }
    Flow::Continue(())
}

/// The matrix of the reference's formulas. They are linear, so a column is what
/// they make of 1 in its place and 0 in the others.
fn matrix(primaries: u8, direction: Direction) -> [[Fraction; 3]; 3] {
    let weights = Weights::of(primaries).expect("a row of the paper");
    let columns = [0, 1, 2].map(|place| {
        let mut values = [Fraction::new(0, 1); 3];
        values[place] = Fraction::new(1, 1);
        match direction {
            RgbToYcbcr => weights.ycbcr(values),
            YcbcrToRgb => weights.rgb(values),
        }
    });
    [0, 1, 2].map(|row| columns.map(|column| column[row]))
}

/// A decimal number, or one over another.
fn fraction(entry: &str) -> Fraction {
    match entry.split_once('/') {
        Some((numerator, denominator)) => decimal(numerator) / decimal(denominator),
        None => decimal(entry),
    }
}

fn decimal(entry: &str) -> Fraction {
    Fraction::new(digits(entry), ten_to(decimals(entry)))
}

/// A number's digits without the point, with its sign.
fn digits(entry: &str) -> i128 {
    let digits = entry.replace('.', "");
    digits.parse().expect("a decimal number")
}

/// How many digits stand after the point.
fn decimals(entry: &str) -> u32 {
    match entry.split_once('.') {
        Some((_, digits)) => digits.len() as u32,
        None => 0,
    }
}

/// The digits of a fraction, rounded to as many decimals as an entry has.
fn rounded(exact: Fraction, entry: &str) -> i128 {
    exact.sign() * (exact.abs() * ten_to(decimals(entry)) + HALF).floor()
}

fn ten_to(power: u32) -> i128 {
    10_i128.pow(power)
}
