//! Cards and stacks.

use crate::ffi;
use crate::refusal::{accepted, answer};
use crate::{Layout, Refusal};

/// How many bytes a card has.
pub const CARD_SIZE: usize = 32;

/// The most cards of a stack.
pub const MOST_CARDS: usize = 1024;

/// The newest edition: 1 to this are known. Edition 1 has narrow and full range at 8
/// and 10 bits, and no access; 2 also has 12 bits and access; 3 also has
/// [legacy full range](crate::range::LEGACY_FULL); 4 also has
/// [groups](crate::sampling::GROUPS).
pub const NEWEST_EDITION: u8 = 4;

/// Who may see an item.
pub mod access {
    /// Closed, as is a card that is silent about it.
    pub const CLOSED: u8 = 0;
    /// For the community.
    pub const COMMUNITY: u8 = 1;
    /// Open.
    pub const OPEN: u8 = 2;
}

/// What a card says of an item.
#[derive(Clone, Copy, Debug, PartialEq, Eq, Hash)]
pub struct Facts {
    /// The layout of its points.
    pub layout: Layout,
    /// Points a line: 1 to 4,096, and of groups an even number.
    pub width: u16,
    /// Lines: 1 to 4,096.
    pub height: u16,
    /// The item's number, not 0.
    pub item: u64,
    /// One of [`access`].
    pub access: u8,
}

impl Facts {
    /// Width, height, item and access.
    pub(crate) const NUMBERS: usize = 4;

    /// Of a reading, whose numbers are those of valid facts and so fit.
    #[inline]
    pub(crate) fn read(layout: [u8; Layout::SIZE], numbers: [u64; Facts::NUMBERS]) -> Facts {
        let [width, height, item, access] = numbers;
        Facts {
            layout: Layout::from_bytes(layout),
            width: width as u16,
            height: height as u16,
            item,
            access: access as u8,
        }
    }
}

/// What a card shows at an edition, 1 to [`NEWEST_EDITION`]. Refused: 1, 7, 9 where
/// byte 0 is 0, 8, 9 for bytes 1 to 23 and a byte 0 that is not the layout's, 16 for an
/// odd width of groups, 10, 9 for bytes 24 to 31.
///
/// ```
/// use imurraqi::{access, card_read, Refusal, NEWEST_EDITION};
///
/// // As docs/FORMATS.md has it: item 7, 720 by 576, open, written at edition 2.
/// let card = [
///     1, 2, 2, 2, 1, 10, 4, 0, 0, 10, 20, 0, 208, 2, 64, 2, //
///     7, 0, 0, 0, 0, 0, 0, 0, 2, 0, 0, 0, 0, 0, 0, 0,
/// ];
/// let facts = card_read(&card, 2)?;
/// assert_eq!((facts.width, facts.height, facts.item), (720, 576, 7));
/// assert_eq!(facts.access, access::OPEN);
/// // Edition 1 knows of no access, and shows the card as closed.
/// assert_eq!(card_read(&card, 1)?.access, access::CLOSED);
/// assert_eq!(card_read(&card, NEWEST_EDITION)?.access, access::OPEN);
/// assert_eq!(card_read(&card, NEWEST_EDITION + 1), Err(Refusal::UNKNOWN_EDITION));
/// # Ok::<(), Refusal>(())
/// ```
#[inline]
pub fn card_read(card: &[u8], edition: u8) -> Result<Facts, Refusal> {
    let (mut layout, mut numbers) = ([0; Layout::SIZE], [0; Facts::NUMBERS]);
    // SAFETY: the pointer is to as many bytes as the length says, and nothing else
    // uses the outputs.
    accepted(unsafe {
        let (bytes, len) = (card.as_ptr(), card.len());
        ffi::imurraqi_card_read(bytes, len, edition, &mut layout, &mut numbers)
    })?;
    Ok(Facts::read(layout, numbers))
}

/// Writes the card of facts at an edition, [`CARD_SIZE`] bytes. Refused: 7, 9, 16 for an
/// odd width of groups, 11, 13.
///
/// ```
/// use imurraqi::{access, card_read, card_write, range, Facts, Layout, Refusal, CARD_SIZE};
///
/// let mut facts = Facts {
///     layout: Layout::from_bytes([2, 2, 1, 10, 4, 0, 10, 20, 0]),
///     width: 720,
///     height: 576,
///     item: 7,
///     access: access::COMMUNITY,
/// };
/// let mut card = [0; CARD_SIZE];
/// assert_eq!(card_write(1, facts, &mut card), Err(Refusal::UNWRITABLE));
/// assert_eq!(card_write(2, facts, &mut card), Ok(()));
/// assert_eq!(card_read(&card, 2), Ok(facts));
/// // An early capture, which edition 3 has.
/// facts.layout.range = range::LEGACY_FULL;
/// assert_eq!(card_write(2, facts, &mut card), Err(Refusal::UNWRITABLE));
/// assert_eq!(card_write(3, facts, &mut card), Ok(()));
/// assert_eq!(card_read(&card, 2), Err(Refusal::LATER_EDITION));
/// // Groups, which edition 4 has.
/// facts.layout = Layout::from_bytes([2, 2, 1, 8, 4, 0, 0, 0, 1]);
/// assert_eq!(card_write(3, facts, &mut card), Err(Refusal::UNWRITABLE));
/// assert_eq!(card_write(4, facts, &mut card), Ok(()));
/// assert_eq!(card_read(&card, 4), Ok(facts));
/// facts.width = 719;
/// assert_eq!(card_write(4, facts, &mut card), Err(Refusal::ODD_COUNT));
/// ```
#[inline]
pub fn card_write(edition: u8, facts: Facts, out: &mut [u8]) -> Result<(), Refusal> {
    let Facts {
        layout,
        width,
        height,
        item,
        access,
    } = facts;
    // SAFETY: the pointer is to as many bytes as the length says, and nothing else
    // uses them.
    accepted(unsafe {
        ffi::imurraqi_card_write(
            edition,
            &layout.to_bytes(),
            width,
            height,
            item,
            access,
            out.as_mut_ptr(),
            out.len(),
        )
    })
}

/// Reads a card at an edition, and writes what it shows at the same edition to
/// another [`CARD_SIZE`] bytes. Refused: as [`card_read`], then 13.
///
/// ```
/// use imurraqi::{access, card_read, card_rewrite, Refusal, CARD_SIZE};
///
/// let card = [
///     1, 2, 2, 2, 1, 10, 4, 0, 0, 10, 20, 0, 208, 2, 64, 2, //
///     7, 0, 0, 0, 0, 0, 0, 0, 2, 0, 0, 0, 0, 0, 0, 0,
/// ];
/// let mut rewritten = [0; CARD_SIZE];
/// card_rewrite(&card, 1, &mut rewritten)?;
/// assert_eq!(card_read(&rewritten, 2)?.access, access::CLOSED);
/// # Ok::<(), Refusal>(())
/// ```
#[inline]
pub fn card_rewrite(card: &[u8], edition: u8, out: &mut [u8]) -> Result<(), Refusal> {
    // SAFETY: the pointers are to as many bytes as the lengths say, and nothing else
    // uses the output.
    accepted(unsafe {
        ffi::imurraqi_card_rewrite(
            card.as_ptr(),
            card.len(),
            edition,
            out.as_mut_ptr(),
            out.len(),
        )
    })
}

/// The index, from 0, of the first card of a stack that the edition reads and that
/// has the item's number. Cards that are refused are passed over. Refused: 1, 7, 15.
///
/// ```
/// use imurraqi::{stack_find, Refusal, CARD_SIZE, MOST_CARDS};
///
/// let stack = [0; CARD_SIZE * MOST_CARDS + CARD_SIZE];
/// assert_eq!(stack_find(&stack[CARD_SIZE..], 2, 7), Err(Refusal::NO_ITEM));
/// assert_eq!(stack_find(&stack, 2, 7), Err(Refusal::WRONG_LENGTH));
/// ```
#[inline]
pub fn stack_find(stack: &[u8], edition: u8, item: u64) -> Result<usize, Refusal> {
    // SAFETY: the pointer is to as many bytes as the length says.
    answer(unsafe { ffi::imurraqi_stack_find(stack.as_ptr(), stack.len(), edition, item) })
}

/// That card itself, as a part of the stack. Refused: as [`stack_find`].
///
/// ```
/// use imurraqi::{find, Refusal};
///
/// let card = [
///     1, 2, 2, 2, 1, 10, 4, 0, 0, 10, 20, 0, 208, 2, 64, 2, //
///     7, 0, 0, 0, 0, 0, 0, 0, 2, 0, 0, 0, 0, 0, 0, 0,
/// ];
/// // Behind a card that no edition reads.
/// let stack = [[0; 32], card].concat();
/// assert_eq!(find(&stack, 2, 7)?, card);
/// # Ok::<(), Refusal>(())
/// ```
#[inline]
pub fn find(stack: &[u8], edition: u8, item: u64) -> Result<&[u8], Refusal> {
    let index = stack_find(stack, edition, item)?;
    Ok(&stack[CARD_SIZE * index..][..CARD_SIZE])
}
