//! Pictures for others' readers: A7's binary PPM, written from a card and its packed
//! lines, and read into a card and packed points.
//!
//! Each function makes its whole output before it stores any of it, so nothing is
//! written on a refusal.

use crate::card::{self, Facts, CLOSED, OPEN};
use crate::color::Weights;
use crate::layout::{Layout, Numbers};
use crate::lines;
use crate::quantization::Scale;
use crate::refusal::Refusal;

const RGB: u8 = 1;
const LEGACY_FULL: u8 = 3;
const FULL: u8 = 2;

/// The largest side of a picture, whatever sides a card may have.
const LARGEST_SIDE: u16 = 4096;

/// The edition at which an import writes its card.
const IMPORTED_AT: u8 = 2;

/// The largest code of each depth, and the bytes of an imported point.
const DEPTHS: [(u8, u16, u8); 3] = [(8, 255, 3), (10, 1023, 4), (12, 4095, 5)];

/// What the three lines before the points tell.
struct Header {
    width: u16,
    height: u16,
    depth: u8,
}

/// Fills `out` with the file of a card, read at an edition, and of its packed lines.
/// Answers the count of points.
pub fn export(card: &[u8], edition: u8, packed: &[u8], out: &mut [u8]) -> Result<usize, Refusal> {
    let (header, layout) = exported(card, edition)?;
    let whole = packed.len() * layout.points_each() == header.points() * layout.point_bytes();
    if !whole || out.len() != header.file_bytes() {
        return Err(Refusal::Length);
    }
    let mut file = header.text().into_bytes();
    for code in full_rgb(layout, packed) {
        let [high, low] = code.to_be_bytes();
        match header.depth {
            8 => file.push(low),
            _ => file.extend([high, low]),
        }
    }
    out.copy_from_slice(&file);
    Ok(header.points())
}

/// The bytes of that file.
pub fn export_len(card: &[u8], edition: u8) -> Result<usize, Refusal> {
    let (header, _) = exported(card, edition)?;
    Ok(header.file_bytes())
}

/// Fills `card` with a closed card of a file's picture, with the item and primaries given,
/// and `packed` with its points. Answers the count of points.
pub fn import(
    ppm: &[u8],
    item: u64,
    primaries: u8,
    card: &mut [u8],
    packed: &mut [u8],
) -> Result<usize, Refusal> {
    if item == 0 || !matches!(primaries, 1..=4) {
        return Err(Refusal::Outside);
    }
    let (header, points) = begun(ppm)?;
    let fits = points.len() == 3 * header.points() * header.code_bytes()
        && card.len() == card::SIZE
        && packed.len() == header.packed_bytes();
    if !fits {
        return Err(Refusal::Length);
    }
    let codes: Vec<u16> = points.chunks(header.code_bytes()).map(high_first).collect();
    if codes.iter().any(|&code| code > header.largest()) {
        return Err(Refusal::Picture);
    }
    let facts = Facts {
        layout: header.layout(primaries),
        width: header.width,
        height: header.height,
        item,
        access: CLOSED,
    };
    card::write(IMPORTED_AT, facts, card)?;
    packed.copy_from_slice(&lines::made(Layout::new(facts.layout)?, &codes));
    Ok(header.points())
}

/// The bytes of those points. Only the header is looked at.
pub fn import_len(ppm: &[u8]) -> Result<usize, Refusal> {
    let (header, _) = begun(ppm)?;
    Ok(header.packed_bytes())
}

/// The header and the layout of a card that is exported at an edition.
fn exported(card: &[u8], edition: u8) -> Result<(Header, Layout), Refusal> {
    let facts = card::read(card, edition)?;
    let layout = Layout::new(facts.layout)?;
    if layout.range == LEGACY_FULL {
        return Err(Refusal::Outside);
    }
    if facts.access != OPEN {
        return Err(Refusal::NotOpen);
    }
    let header = Header {
        width: facts.width,
        height: facts.height,
        depth: layout.depth,
    };
    Ok((header, layout))
}

/// The full-range codes of R', G' and B' of each packed point: as they are, or from exact
/// fractions with one rounding.
fn full_rgb(layout: Layout, packed: &[u8]) -> Vec<u16> {
    let codes = lines::unpacked(layout, packed);
    if layout.model == RGB && layout.range == FULL {
        return codes;
    }
    let weights = Weights::of(layout.primaries).expect("a layout's primaries have weights");
    let given = [0, 1, 2].map(|channel| layout.scale(channel));
    let made = Scale::new(RGB, FULL, layout.depth, 0).expect("a layout's depth has a scale");
    codes
        .chunks(3)
        .flat_map(|codes| {
            let values = [0, 1, 2].map(|channel| given[channel].value(codes[channel].into()));
            let values = match layout.model {
                RGB => values,
                _ => weights.rgb(values),
            };
            values.map(|value| made.clamped(made.number(value)).code)
        })
        .collect()
}

/// The header with which a file begins, and what follows it.
fn begun(ppm: &[u8]) -> Result<(Header, &[u8]), Refusal> {
    header(ppm).ok_or(Refusal::Picture)
}

/// None where it is not of our form, or cut short.
fn header(ppm: &[u8]) -> Option<(Header, &[u8])> {
    let (first, rest) = up_to(ppm, b'\n')?;
    let (width, rest) = up_to(rest, b' ')?;
    let (height, rest) = up_to(rest, b'\n')?;
    let (largest, points) = up_to(rest, b'\n')?;
    let largest = number(largest)?;
    let &(depth, _, _) = DEPTHS.iter().find(|&&(_, code, _)| code == largest)?;
    let header = Header {
        width: side(width)?,
        height: side(height)?,
        depth,
    };
    (first == b"P6").then_some((header, points))
}

/// What stands before the first of these bytes, and what stands after it.
fn up_to(text: &[u8], end: u8) -> Option<(&[u8], &[u8])> {
    let place = text.iter().position(|&byte| byte == end)?;
    Some((&text[..place], &text[place + 1..]))
}

fn side(text: &[u8]) -> Option<u16> {
    number(text).filter(|side| (1..=LARGEST_SIDE).contains(side))
}

/// A number as we write it. None has more digits than it needs.
fn number(text: &[u8]) -> Option<u16> {
    let number: u16 = std::str::from_utf8(text).ok()?.parse().ok()?;
    (number.to_string().as_bytes() == text).then_some(number)
}

/// The code of one byte, or of two with the high byte first.
fn high_first(bytes: &[u8]) -> u16 {
    bytes
        .iter()
        .fold(0, |code, &byte| code << 8 | u16::from(byte))
}

impl Header {
    fn text(&self) -> String {
        format!("P6\n{} {}\n{}\n", self.width, self.height, self.largest())
    }

    fn points(&self) -> usize {
        usize::from(self.width) * usize::from(self.height)
    }

    /// 2^n - 1
    fn largest(&self) -> u16 {
        self.row().1
    }

    /// The bytes of a code in a file.
    fn code_bytes(&self) -> usize {
        match self.depth {
            8 => 1,
            _ => 2,
        }
    }

    fn file_bytes(&self) -> usize {
        self.text().len() + 3 * self.points() * self.code_bytes()
    }

    /// Full-range R'G'B' in 3, 4 or 5 bytes a point, at bits 0, n and 2n.
    fn layout(&self, primaries: u8) -> Numbers {
        let (n, _, bytes) = self.row();
        [RGB, primaries, FULL, n, bytes, 0, n, 2 * n, 0]
    }

    fn packed_bytes(&self) -> usize {
        self.points() * usize::from(self.row().2)
    }

    fn row(&self) -> (u8, u16, u8) {
        let row = DEPTHS.into_iter().find(|&(depth, ..)| depth == self.depth);
        row.expect("a header's depth is 8, 10 or 12")
    }
}

#[cfg(test)]
mod tests {
    use super::{export, export_len, import, import_len};
    use crate::card::{self, Facts, CLOSED, COMMUNITY, OPEN, SIZE};
    use crate::layout::Numbers;
    use crate::refusal::Refusal;

    fn card(layout: Numbers, width: u16, height: u16, access: u8) -> [u8; SIZE] {
        let facts = Facts {
            layout,
            width,
            height,
            item: 7,
            access,
        };
        let mut card = [0; SIZE];
        card::write(4, facts, &mut card).expect("facts that edition 4 writes");
        card
    }

    fn exported(card: &[u8], packed: &[u8]) -> Vec<u8> {
        let mut file = vec![0; export_len(card, 4).expect("a card that is exported")];
        let points = usize::from(card[12]) * usize::from(card[14]);
        assert_eq!(export(card, 4, packed, &mut file), Ok(points));
        file
    }

    #[test]
    fn narrow_rgb_is_rounded_once() {
        // 255 (125 - 16)/219 is 126.9; 0 is black, 236 and 255 are white.
        let narrow_8 = card([1, 1, 1, 8, 3, 0, 8, 16, 0], 2, 1, OPEN);
        let file = exported(&narrow_8, &[16, 125, 235, 0, 236, 255]);
        assert_eq!(file, b"P6\n2 1\n255\n\x00\x7f\xff\x00\xff\xff");
        // 1023 (210 - 64)/876 is 170.5, which is rounded up; 209 is 169.3.
        let narrow_10 = card([1, 4, 1, 10, 4, 0, 10, 20, 0], 1, 1, OPEN);
        let point = 210 | 209 << 10 | 940_u32 << 20;
        let file = exported(&narrow_10, &point.to_le_bytes());
        assert_eq!(file, b"P6\n1 1\n1023\n\x00\xab\x00\xa9\x03\xff");
    }

    #[test]
    fn groups_are_two_points() {
        // White and black, red and dark red, as BT.601 has them.
        let groups = card([2, 2, 1, 8, 4, 0, 0, 0, 1], 2, 2, OPEN);
        let file = exported(&groups, &[128, 235, 128, 16, 90, 81, 240, 41]);
        let points = b"P6\n2 2\n255\n\xff\xff\xff\x00\x00\x00\xfe\x00\x00\xd0\x00\x00";
        assert_eq!(file, points);
    }

    #[test]
    fn refused_in_order() {
        let full = [1, 1, 2, 8, 3, 0, 8, 16, 0];
        let open = card(full, 1, 2, OPEN);
        let community = card(full, 1, 2, COMMUNITY);
        let early = card([1, 1, 3, 8, 3, 0, 8, 16, 0], 1, 2, CLOSED);
        let mut file = *b"P6\n1 2\n255\n123456";
        let mut asked =
            |card: &[u8], edition, bytes| export(card, edition, &[0; 7][..bytes], &mut file);
        assert_eq!(asked(&open[1..], 9, 0), Err(Refusal::Size));
        assert_eq!(asked(&open, 9, 0), Err(Refusal::Edition));
        assert_eq!(asked(&early, 2, 0), Err(Refusal::TooNew));
        assert_eq!(asked(&early, 3, 0), Err(Refusal::Outside));
        assert_eq!(asked(&community, 4, 0), Err(Refusal::NotOpen));
        assert_eq!(asked(&open, 1, 6), Err(Refusal::NotOpen));
        assert_eq!(asked(&open, 4, 7), Err(Refusal::Length));
        assert_eq!(asked(&open, 4, 5), Err(Refusal::Length));
        assert_eq!(asked(&open, 4, 6), Ok(2));
        assert_eq!(
            export(&open, 4, &[0; 6], &mut [0; 16]),
            Err(Refusal::Length)
        );
    }

    #[test]
    fn imported_closed() {
        let (mut made, mut packed) = ([0; SIZE], [0; 5]);
        let file = b"P6\n1 1\n4095\n\x0a\xbc\x01\x23\x0f\xff";
        assert_eq!(import(file, 7, 4, &mut made, &mut packed), Ok(1));
        assert_eq!(packed, [0xbc, 0x3a, 0x12, 0xff, 0x0f]);
        let mut closed = card([1, 4, 2, 12, 5, 0, 12, 24, 0], 1, 1, CLOSED);
        closed[1] = 2;
        assert_eq!(made, closed);
        let mut above = *file;
        above[12] = 0x10;
        assert_eq!(
            import(&above, 7, 4, &mut made, &mut packed),
            Err(Refusal::Picture)
        );
        assert_eq!(
            import(&above, 7, 4, &mut [], &mut packed),
            Err(Refusal::Length)
        );
        assert_eq!(
            import(&above[1..], 7, 4, &mut [], &mut packed),
            Err(Refusal::Picture)
        );
        assert_eq!(
            import(&above[1..], 0, 4, &mut [], &mut packed),
            Err(Refusal::Outside)
        );
        assert_eq!(
            import(&above[1..], 7, 5, &mut [], &mut packed),
            Err(Refusal::Outside)
        );
    }

    #[test]
    fn headers_of_our_form() {
        assert_eq!(import_len(b"P6\n1 2\n255\n"), Ok(6));
        assert_eq!(import_len(b"P6\n4096 4096\n4095\n"), Ok(5 << 24));
        for other in [
            &b""[..],
            b"P6\n1 2\n255",
            b"P5\n1 2\n255\n",
            b"P6 1 2\n255\n",
            b"P6\n01 2\n255\n",
            b"P6\n+1 2\n255\n",
            b"P6\n1  2\n255\n",
            b"P6\n1\n2\n255\n",
            b"P6\n1 2 255\n",
            b"P6\n# 1\n1 2\n255\n",
            b"P6\n0 2\n255\n",
            b"P6\n4097 2\n255\n",
            b"P6\n65537 2\n255\n",
            b"P6\n1 2\n256\n",
            b"P6\n1 2\n65535\n",
        ] {
            assert_eq!(import_len(other), Err(Refusal::Picture), "{other:?}");
        }
    }
}
