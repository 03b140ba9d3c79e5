//! R'G'B' and Y'CbCr in plain Rust, of the same shape as the library: all that
//! depends on row, depth and ranges is worked out once a line, the codes are
//! checked in a pass of their own without an early exit, and each code made is one
//! division of whole numbers.

use super::layout::{Scale, MOST_POINTS};
use super::refusal::{CODE_TOO_HIGH, LENGTH, OUTSIDE};

/// Primaries, depth, the range of the given codes, and that of the codes made.
pub type Conversion = [u8; 4];

/// One, in ten-thousandths.
const ONE: u64 = 10_000;

/// A channel made: plus less minus, or 0 if that is less, over the divisor. Each of
/// the two is a sum of the given codes with their factors and a number.
#[derive(Clone, Copy)]
struct Row {
    plus: [u64; 3],
    plus_number: u64,
    minus: [u64; 3],
    minus_number: u64,
    divisor: u64,
}

pub fn rgb_to_ycbcr(conversion: Conversion, rgb: &[u16], ycbcr: &mut [u16], cuts: &mut u32) -> i64 {
    convert(conversion, ycbcr_rows, rgb, ycbcr, cuts)
}

pub fn ycbcr_to_rgb(conversion: Conversion, ycbcr: &[u16], rgb: &mut [u16], cuts: &mut u32) -> i64 {
    convert(conversion, rgb_rows, ycbcr, rgb, cuts)
}

fn convert(
    conversion: Conversion,
    rows: fn(Conversion, [u64; 2]) -> [Row; 3],
    codes: &[u16],
    out: &mut [u16],
    cuts: &mut u32,
) -> i64 {
    let [primaries, depth, range_in, range_out] = conversion;
    let weights = match primaries {
        1 => [2126, 722],
        2 | 3 => [2990, 1140],
        4 => [2627, 593],
        _ => return OUTSIDE,
    };
    let inside =
        matches!(depth, 8 | 10 | 12) && matches!(range_in, 1..=3) && matches!(range_out, 1..=3);
    if !inside {
        return OUTSIDE;
    }
    let count = codes.len() / 3;
    if codes.len() != 3 * count || count > MOST_POINTS || out.len() != codes.len() {
        return LENGTH;
    }
    let all_bits = codes.iter().fold(0, |bits, code| bits | code);
    if all_bits >> depth != 0 {
        return CODE_TOO_HIGH;
    }
    let [first, second, third] = rows(conversion, weights);
    // Both kinds have the same ends.
    let made = Scale::new(range_out, depth, false);
    let ends = [made.bottom as u64, made.top as u64];
    // Full range rounds -1/2 down: there what is no more than 0 is below it already.
    let least = u64::from(range_out == 2);
    *cuts = 0;
    for (codes, out) in codes.chunks_exact(3).zip(out.chunks_exact_mut(3)) {
        let point = [codes[0], codes[1], codes[2]].map(u64::from);
        let (x, x_cut) = first.code(point, ends, least);
        let (y, y_cut) = second.code(point, ends, least);
        let (z, z_cut) = third.code(point, ends, least);
        out.copy_from_slice(&[x, y, z]);
        *cuts += u32::from(x_cut) + u32::from(y_cut) + u32::from(z_cut);
    }
    count as i64
}

impl Row {
    /// The code, and whether it was cut: it is another than its number, or that is below
    /// zero, as it is where plus less minus is under the least.
    #[inline(always)]
    fn code(self, [x, y, z]: [u64; 3], [bottom, top]: [u64; 2], least: u64) -> (u16, bool) {
        let plus = self.plus[0] * x + self.plus[1] * y + self.plus[2] * z + self.plus_number;
        let minus = self.minus[0] * x + self.minus[1] * y + self.minus[2] * z + self.minus_number;
        let number = plus.saturating_sub(minus) / self.divisor;
        let code = number.clamp(bottom, top);
        (code as u16, code != number || plus < minus + least)
    }
}

/// A half more than each code, so that the division rounds: all twice over.
///
/// With c for a given code over its base and d for the span that the given codes
/// have in common, Y' = (KR c0 + KG c1 + KB c2)/d, and in the differences the
/// bases cancel each other.
fn ycbcr_rows([_, depth, range_in, range_out]: Conversion, [kr, kb]: [u64; 2]) -> [Row; 3] {
    let kg = ONE - kr - kb;
    let (d, given_base) = line(range_in, depth, false);
    let (span, base) = line(range_out, depth, false);
    let y = Row {
        plus: [kr, kg, kb].map(|weight| 2 * span * weight),
        plus_number: (2 * base + 1) * ONE * d,
        minus: [0; 3],
        minus_number: 2 * span * ONE * given_base,
        divisor: 2 * ONE * d,
    };
    let (span, base) = line(range_out, depth, true);
    let cb = Row {
        plus: [0, 0, span * (ONE - kb)],
        plus_number: (2 * base + 1) * (ONE - kb) * d,
        minus: [span * kr, span * kg, 0],
        minus_number: 0,
        divisor: 2 * (ONE - kb) * d,
    };
    let cr = Row {
        plus: [span * (ONE - kr), 0, 0],
        plus_number: (2 * base + 1) * (ONE - kr) * d,
        minus: [0, span * kg, span * kb],
        minus_number: 0,
        divisor: 2 * (ONE - kr) * d,
    };
    [y, cb, cr]
}

/// With a for Y's part of d, the common multiple of the two spans, and e for the
/// differences' part: Y' = a c0/d, Cb = e c1/d, Cr = e c2/d. So all stays under
/// 2^60, at 12 bits too.
fn rgb_rows([_, depth, range_in, range_out]: Conversion, [kr, kb]: [u64; 2]) -> [Row; 3] {
    let kg = ONE - kr - kb;
    let (y_span, y_base) = line(range_in, depth, false);
    let (_, difference_base) = line(range_in, depth, true);
    let (a, e) = if range_in == 1 { (224, 219) } else { (1, 1) };
    let d = a * y_span;
    let (span, base) = line(range_out, depth, false);
    // R' and B': Y' + 2(1 - K) times a difference.
    let outer = |weight: u64, channel: usize| {
        let y = 2 * span * ONE * a;
        let difference = 4 * span * (ONE - weight) * e;
        let mut plus = [y, 0, 0];
        plus[channel] = difference;
        Row {
            plus,
            plus_number: (2 * base + 1) * ONE * d,
            minus: [0; 3],
            minus_number: y * y_base + difference * difference_base,
            divisor: 2 * ONE * d,
        }
    };
    // G' = Y' - 2(KB(1 - KB) Cb + KR(1 - KR) Cr)/KG.
    let y = 2 * span * ONE * kg * a;
    let cb = 4 * span * kb * (ONE - kb) * e;
    let cr = 4 * span * kr * (ONE - kr) * e;
    let g = Row {
        plus: [y, 0, 0],
        plus_number: (2 * base + 1) * ONE * kg * d + (cb + cr) * difference_base,
        minus: [0, cb, cr],
        minus_number: y * y_base,
        divisor: 2 * ONE * kg * d,
    };
    [outer(kr, 2), g, outer(kb, 1)]
}

/// The span and base of brightness or of difference.
fn line(range: u8, depth: u8, difference: bool) -> (u64, u64) {
    let scale = Scale::new(range, depth, difference);
    (scale.span as u64, scale.base as u64)
}
