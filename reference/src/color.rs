//! Lines of R'G'B' codes to Y'CbCr codes and back: the paper's "Between R'G'B'
//! and Y'CbCr", by the formulas of document 003.

use crate::fraction::Fraction;
use crate::lines::{cuts, Counts, MOST_POINTS};
use crate::quantization::{m, Quantized, Scale};
use crate::refusal::Refusal;

const RGB: u8 = 1;
const YCBCR: u8 = 2;

/// Primaries, depth, the range of the given codes, and that of the codes made.
pub type Numbers = [u8; 4];

/// A row of the paper's table.
#[derive(Clone, Copy, Debug)]
pub struct Weights {
    kr: Fraction,
    kb: Fraction,
}

/// Fills `ycbcr` from R'G'B' codes, three a point. Answers the count of points, and how
/// many of the codes made were cut.
pub fn rgb_to_ycbcr(numbers: Numbers, rgb: &[u16], ycbcr: &mut [u16]) -> Result<Counts, Refusal> {
    convert(numbers, [RGB, YCBCR], Weights::ycbcr, rgb, ycbcr)
}

/// Fills `rgb` from Y'CbCr codes, three a point, likewise.
pub fn ycbcr_to_rgb(numbers: Numbers, ycbcr: &[u16], rgb: &mut [u16]) -> Result<Counts, Refusal> {
    convert(numbers, [YCBCR, RGB], Weights::rgb, ycbcr, rgb)
}

/// A line by the formulas from one model's values to the other's. The whole
/// output is made before any of it is stored, so nothing is written on a refusal.
fn convert(
    [primaries, depth, range_in, range_out]: Numbers,
    [model_in, model_out]: [u8; 2],
    formulas: fn(Weights, [Fraction; 3]) -> [Fraction; 3],
    codes: &[u16],
    out: &mut [u16],
) -> Result<Counts, Refusal> {
    let weights = Weights::of(primaries)?;
    let given = scales(model_in, range_in, depth)?;
    let made = scales(model_out, range_out, depth)?;
    let count = count(codes.len(), out.len())?;
    if codes.iter().any(|&code| i128::from(code) > m(depth.into())) {
        return Err(Refusal::CodeTooHigh);
    }
    let output: Vec<Quantized> = codes
        .chunks(3)
        .flat_map(|codes| {
            let values = [0, 1, 2].map(|channel| given[channel].value(codes[channel].into()));
            let values = formulas(weights, values);
            [0, 1, 2].map(|channel| made[channel].clamped(made[channel].number(values[channel])))
        })
        .collect();
    for (code, made) in out.iter_mut().zip(&output) {
        *code = made.code;
    }
    Ok(Counts {
        points: count,
        cuts: cuts(&output),
    })
}

/// The scales of channels 0, 1, 2.
fn scales(model: u8, range: u8, depth: u8) -> Result<[Scale; 3], Refusal> {
    let scale = |channel| Scale::new(model, range, depth, channel);
    Ok([scale(0)?, scale(1)?, scale(2)?])
}

/// The count of points, for a line of so many codes into so many others.
fn count(codes: usize, out: usize) -> Result<usize, Refusal> {
    let count = codes / 3;
    if codes.is_multiple_of(3) && count <= MOST_POINTS && out == codes {
        Ok(count)
    } else {
        Err(Refusal::Length)
    }
}

impl Weights {
    pub fn of(primaries: u8) -> Result<Weights, Refusal> {
        match primaries {
            1 => Ok(Weights::ten_thousandths(2126, 722)),
            2 | 3 => Ok(Weights::ten_thousandths(2990, 1140)),
            4 => Ok(Weights::ten_thousandths(2627, 593)),
            _ => Err(Refusal::Outside),
        }
    }

    fn ten_thousandths(kr: i128, kb: i128) -> Weights {
        Weights {
            kr: Fraction::new(kr, 10_000),
            kb: Fraction::new(kb, 10_000),
        }
    }

    /// 1 - KR - KB
    fn kg(self) -> Fraction {
        1 - self.kr - self.kb
    }

    /// Y', Cb and Cr of R', G' and B'.
    pub fn ycbcr(self, [r, g, b]: [Fraction; 3]) -> [Fraction; 3] {
        // Y' = KR R' + (1 - KR - KB) G' + KB B'
        let y = self.kr * r + self.kg() * g + self.kb * b;
        // Cb = (B' - Y')/(2(1 - KB)), Cr = (R' - Y')/(2(1 - KR))
        let cb = (b - y) / (2 * (1 - self.kb));
        let cr = (r - y) / (2 * (1 - self.kr));
        [y, cb, cr]
    }

    /// R', G' and B' of Y', Cb and Cr.
    pub fn rgb(self, [y, cb, cr]: [Fraction; 3]) -> [Fraction; 3] {
        // R' = Y' + 2(1 - KR) Cr, B' = Y' + 2(1 - KB) Cb
        let r = y + 2 * (1 - self.kr) * cr;
        let b = y + 2 * (1 - self.kb) * cb;
        // Y' = KR R' + (1 - KR - KB) G' + KB B', solved for G'
        let g = (y - (self.kr * r + self.kb * b)) / self.kg();
        [r, g, b]
    }
}

#[cfg(test)]
mod tests {
    use super::{rgb_to_ycbcr, ycbcr_to_rgb};
    use crate::lines::Counts;
    use crate::refusal::Refusal;

    /// Full range, 8 bits, BT.709.
    const FULL_8: [u8; 4] = [1, 8, 2, 2];

    /// One point, of which so many codes were cut.
    fn one(cuts: usize) -> Result<Counts, Refusal> {
        Ok(Counts { points: 1, cuts })
    }

    #[test]
    fn marked_11() {
        // Cr is 128 + 127.5, rounded up to 256.
        let mut ycbcr = [0; 3];
        assert_eq!(rgb_to_ycbcr(FULL_8, &[255, 0, 0], &mut ycbcr), one(1));
        assert_eq!(ycbcr, [54, 99, 255]);
    }

    #[test]
    fn marked_12() {
        // G' is -0.0194, which is rounded to 0 and not cut.
        let mut rgb = [0; 3];
        assert_eq!(ycbcr_to_rgb(FULL_8, &[54, 99, 255], &mut rgb), one(0));
        assert_eq!(rgb, [254, 0, 0]);
    }

    #[test]
    fn between_both_full_ranges() {
        // Y' = 0.2126 and 256 Y' = 54.4256; Cb = -0.2126/1.8556 and 256 (Cb + 1/2)
        // = 98.6695; Cr = 1/2, which is 256, cut.
        let mut made = [0; 3];
        assert_eq!(rgb_to_ycbcr([1, 8, 2, 3], &[255, 0, 0], &mut made), one(1));
        assert_eq!(made, [54, 99, 255]);
        // R' = 54/256 + 1.5748 (255/256 - 1/2) and 255 R' = 253.0075.
        assert_eq!(
            ycbcr_to_rgb([1, 8, 3, 2], &[54, 99, 255], &mut made),
            one(0)
        );
        assert_eq!(made, [253, 0, 0]);
        // White of the older full range is above its codes.
        assert_eq!(rgb_to_ycbcr([1, 12, 2, 3], &[4095; 3], &mut made), one(1));
        assert_eq!(made, [4092, 2048, 2048]);
    }

    #[test]
    fn into_narrow_range() {
        // White and black beyond narrow range's own are greys of its ends, cut.
        for (depth, low, high) in [(8, 1, 254), (10, 4, 1019), (12, 16, 4079)] {
            let base = 1 << (depth - 1);
            let numbers = [4, depth, 1, 1];
            let mut made = [0; 3];
            for (given, end) in [(0, low), ((1 << depth) - 1, high)] {
                assert_eq!(rgb_to_ycbcr(numbers, &[given; 3], &mut made), one(1));
                assert_eq!(made, [end, base, base]);
                assert_eq!(
                    ycbcr_to_rgb(numbers, &[given, base, base], &mut made),
                    one(3)
                );
                assert_eq!(made, [end; 3]);
                assert_eq!(rgb_to_ycbcr(numbers, &[end; 3], &mut made), one(0));
            }
        }
        // R' = 1 + 1.5748/2 and 16 + 219 R' = 407.4; G' = 1 - 0.33480248/1.4304 and
        // 16 + 219 G' = 183.7.
        let mut made = [0; 3];
        assert_eq!(
            ycbcr_to_rgb([1, 8, 1, 1], &[235, 128, 240], &mut made),
            one(1)
        );
        assert_eq!(made, [254, 184, 235]);
    }

    #[test]
    fn exactly_minus_one_half() {
        let mut made = [0; 3];
        // R' = 350 + 1.402 (262 - 512) = -1/2, G' = 350 + 250 * 0.419198/0.587 = 528.5341.
        for (range, cuts) in [(2, 1), (3, 0)] {
            for row in [2, 3] {
                let numbers = [row, 10, range, range];
                assert_eq!(
                    ycbcr_to_rgb(numbers, &[350, 512, 262], &mut made),
                    one(cuts)
                );
                assert_eq!(made, [0, 529, 350]);
            }
        }
        // B' = 221 + 1.772 (3 - 128) = -1/2, G' = 221 + 125 * 0.202008/0.587 = 264.0170.
        for (range, cuts) in [(2, 2), (3, 1)] {
            let numbers = [2, 8, range, range];
            assert_eq!(ycbcr_to_rgb(numbers, &[221, 3, 128], &mut made), one(cuts));
            assert_eq!(made, [221, 255, 0]);
        }
    }

    #[test]
    fn empty_line() {
        assert_eq!(rgb_to_ycbcr(FULL_8, &[], &mut []), Ok(Counts::default()));
        assert_eq!(ycbcr_to_rgb(FULL_8, &[], &mut []), Ok(Counts::default()));
    }
}
