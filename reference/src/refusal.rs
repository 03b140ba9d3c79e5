//! The numbers that refusals carry.

/// A refusal, by its row in the paper's table.
#[derive(Clone, Copy, Debug, PartialEq, Eq)]
pub enum Refusal {
    /// A descriptor that is not 76 bytes, a card that is not 32, a stack not of whole
    /// cards or over 1,024 cards.
    Size = 1,
    /// Bytes 0 to 11 of a descriptor.
    Header = 2,
    /// Bytes 12 to 15 of a descriptor.
    Color = 3,
    /// Bytes 16 to 27 of a descriptor.
    TexelBlock = 4,
    /// A sample's offset, length, channel, position or order.
    Sample = 5,
    /// Lower and upper numbers that state no one range.
    SampleRange = 6,
    /// An edition asked that is not 1 to 4.
    Edition = 7,
    /// A card's byte 0 above the edition asked.
    TooNew = 8,
    /// A card field, layout, range, depth, channel or weights row outside the paper.
    Outside = 9,
    /// An access above 2, written at 2 or later and not later than it is read.
    Access = 10,
    /// An edition asked to write a layout or an access that it lacks.
    EditionLacks = 11,
    NotANumber = 12,
    /// A line not of whole points or groups or over 4,096 points, not exactly the bytes
    /// of a field or of a picture, or an output that is not exactly as long as needed.
    Length = 13,
    /// A code above 2^n - 1.
    CodeTooHigh = 14,
    NoItem = 15,
    /// Of groups: an odd width, or an odd count of whole points to encode or pack.
    OddCount = 16,
    /// A card to export that is not shown as open.
    NotOpen = 17,
    /// A picture file whose header is not of our form, or with a code above its largest.
    Picture = 18,
}

impl Refusal {
    pub fn number(self) -> u8 {
        self as u8
    }
}
