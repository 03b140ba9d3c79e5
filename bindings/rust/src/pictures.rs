//! Pictures as files that others read: binary PPM (Netpbm's P6).
//!
//! A file begins with the text `"P6\nWIDTH HEIGHT\nLARGEST\n"`, in which `LARGEST` is 255,
//! 1023 or 4095, the largest code of the depth, and no decimal number begins with a zero.
//! R', G', B' of each point follow, big-endian: a byte each at 8 bits, else two.

use crate::ffi;
use crate::refusal::answer;
use crate::Refusal;

/// Writes the picture of an open card as a file, [`ppm_export_len`] bytes, from all its
/// packed lines, one after the other. Every point becomes full-range R', G', B' of its
/// depth. Answers the count of points, up to 16,777,216. Refused: as
/// [`card_read`](crate::card_read), then 9 for
/// [legacy full range](crate::range::LEGACY_FULL), then 17 where the edition does not show
/// the card as open, then 13 where `packed` is not exactly the picture's bytes or `out` not
/// exactly as long as the file.
///
/// ```
/// use imurraqi::{ppm_export, ppm_export_len, Refusal};
///
/// // Item 7, open, two points beside each other: Y'CbCr of BT.601, narrow, 10 bits.
/// let card = [
///     1, 2, 2, 2, 1, 10, 4, 0, 0, 10, 20, 0, 2, 0, 1, 0, //
///     7, 0, 0, 0, 0, 0, 0, 0, 2, 0, 0, 0, 0, 0, 0, 0,
/// ];
/// // White and red.
/// let packed = [0xac, 0x03, 0x08, 0x20, 0x46, 0xa5, 0x05, 0x3c];
/// let mut file = vec![0; ppm_export_len(&card, 2)?];
/// assert_eq!(ppm_export(&card, 2, &packed, &mut file), Ok(2));
/// assert_eq!(file, b"P6\n2 1\n1023\n\x03\xff\x03\xff\x03\xff\x03\xff\0\0\0\0");
/// // Edition 1 shows every card as closed.
/// assert_eq!(ppm_export(&card, 1, &packed, &mut file), Err(Refusal::NOT_OPEN));
/// # Ok::<(), Refusal>(())
/// ```
#[inline]
pub fn ppm_export(
    card: &[u8],
    edition: u8,
    packed: &[u8],
    out: &mut [u8],
) -> Result<usize, Refusal> {
    // SAFETY: the pointers are to as many bytes as the lengths say, and nothing else
    // uses the output.
    answer(unsafe {
        ffi::imurraqi_ppm_export(
            card.as_ptr(),
            card.len(),
            edition,
            packed.as_ptr(),
            packed.len(),
            out.as_mut_ptr(),
            out.len(),
        )
    })
}

/// How many bytes the file of a card's picture has. Refused: as
/// [`card_read`](crate::card_read), then 9 for
/// [legacy full range](crate::range::LEGACY_FULL), then 17.
///
/// ```
/// use imurraqi::{ppm_export_len, Refusal};
///
/// let mut card = [
///     1, 2, 2, 2, 1, 10, 4, 0, 0, 10, 20, 0, 208, 2, 64, 2, //
///     7, 0, 0, 0, 0, 0, 0, 0, 2, 0, 0, 0, 0, 0, 0, 0,
/// ];
/// // Three lines, and six bytes a point.
/// assert_eq!(ppm_export_len(&card, 2), Ok(16 + 6 * 720 * 576));
/// // For the community.
/// card[24] = 1;
/// assert_eq!(ppm_export_len(&card, 2), Err(Refusal::NOT_OPEN));
/// ```
#[inline]
pub fn ppm_export_len(card: &[u8], edition: u8) -> Result<usize, Refusal> {
    // SAFETY: the pointer is to as many bytes as the length says.
    answer(unsafe { ffi::imurraqi_ppm_export_len(card.as_ptr(), card.len(), edition) })
}

/// Reads a picture file, of exactly the form that [`ppm_export`] writes and with sides of
/// 1 to 4,096, and makes of it a card of [`CARD_SIZE`](crate::CARD_SIZE) bytes and packed
/// points, [`ppm_import_len`] bytes. A file cannot tell who may see it, so the card is
/// closed. It is written at edition 2, with the item and primaries given, as full-range
/// R'G'B' in 3, 4 or 5 bytes a point. Answers the count of points. Refused: 9 for item 0 or
/// unknown primaries; 18 where the file does not begin with such a header, whole; 13 where
/// what follows it is not exactly the points' bytes, or an output is not exactly as long as
/// needed; 18 for a code above the largest.
///
/// ```
/// use imurraqi::{access, card_read, ppm_import, ppm_import_len, primaries, range};
/// use imurraqi::{Refusal, CARD_SIZE};
///
/// // White and red.
/// let file = b"P6\n2 1\n255\n\xff\xff\xff\xff\0\0";
/// let (mut card, mut packed) = ([0; CARD_SIZE], vec![0; ppm_import_len(file)?]);
/// assert_eq!(ppm_import(file, 8, primaries::BT709, &mut card, &mut packed), Ok(2));
/// assert_eq!(packed, [0xff, 0xff, 0xff, 0xff, 0, 0]);
/// let facts = card_read(&card, 2)?;
/// assert_eq!((facts.width, facts.height, facts.item), (2, 1, 8));
/// assert_eq!((facts.layout.range, facts.access), (range::FULL, access::CLOSED));
/// // PPM allows a comment, but here it is refused.
/// let other = b"P6\n# red\n1 1\n255\n\xff\0\0";
/// let refused = ppm_import(other, 8, primaries::BT709, &mut card, &mut packed);
/// assert_eq!(refused, Err(Refusal::WRONG_PICTURE));
/// # Ok::<(), Refusal>(())
/// ```
#[inline]
pub fn ppm_import(
    ppm: &[u8],
    item: u64,
    primaries: u8,
    card: &mut [u8],
    packed: &mut [u8],
) -> Result<usize, Refusal> {
    // SAFETY: the pointers are to as many bytes as the lengths say, and nothing else
    // uses the outputs.
    answer(unsafe {
        ffi::imurraqi_ppm_import(
            ppm.as_ptr(),
            ppm.len(),
            item,
            primaries,
            card.as_mut_ptr(),
            card.len(),
            packed.as_mut_ptr(),
            packed.len(),
        )
    })
}

/// How many bytes of packed points [`ppm_import`] makes of a picture file. Only the header
/// is looked at: what follows it may be anything, or nothing. Refused: 18.
///
/// ```
/// use imurraqi::{ppm_import_len, Refusal};
///
/// assert_eq!(ppm_import_len(b"P6\n1 2\n255\n"), Ok(6));
/// assert_eq!(ppm_import_len(b"P6\n1 2\n4095\n"), Ok(10));
/// assert_eq!(ppm_import_len(b"P6\n1 2\n255"), Err(Refusal::WRONG_PICTURE));
/// ```
#[inline]
pub fn ppm_import_len(ppm: &[u8]) -> Result<usize, Refusal> {
    // SAFETY: the pointer is to as many bytes as the length says.
    answer(unsafe { ffi::imurraqi_ppm_import_len(ppm.as_ptr(), ppm.len()) })
}
