//! Mistakes that Netpbm must show.

use crate::card::ACCESS;
use crate::plain::picture::{
    exported, header, imported, load, store, Exporting, Importing, Size, EXPORTING, IMPORTING,
};

use super::super::Wrong;
use super::{exports, imports};

macro_rules! exporting {
    ($($mistake:literal: $piece:ident: $wrong:expr,)*) => {
        pub const EXPORTS: &[Wrong] = &[$(
            exports(concat!($mistake, ", to Netpbm"), |card, edition, packed, out| {
                let pieces = Exporting { $piece: $wrong, ..EXPORTING };
                exported(card, edition, packed, out, &pieces)
            }),
        )*];
    };
}

exporting! {
    "the low byte first": store: |depth, code, file| match depth {
        8 => store(depth, code, file),
        _ => file.extend(code.to_le_bytes()),
    },
    "narrow R'G'B' as it is": narrow: |_, code| code,
    "Y'CbCr as it is": color: |_, point| point,
    "the sides exchanged": header: |size| {
        header(Size { width: size.height, height: size.width, ..size })
    },
    "P5": header: |size| {
        let mut text = header(size);
        text[1] = b'5';
        text
    },
    "no newline after P6": header: |size| {
        let mut text = header(size);
        text[2] = b'P';
        text
    },
    "255 for the largest": header: |size| {
        let text = format!("P6\n{} {}\n255\n", size.width, size.height);
        text.into_bytes()
    },
    "a newline too many": header: |size| [&header(size)[..], b"\n"].concat(),
}

macro_rules! importing {
    ($($mistake:literal: $piece:ident: $wrong:expr,)*) => {
        pub const IMPORTS: &[Wrong] = &[$(
            imports(concat!($mistake, ", from Netpbm"), |ppm, item, primaries, made| {
                let pieces = Importing { $piece: $wrong, ..IMPORTING };
                imported(ppm, item, primaries, made, &pieces)
            }),
        )*];
    };
}

importing! {
    "the low byte first": load: |bytes| match *bytes {
        [low, high] => load(&[high, low]) & 4095,
        _ => load(bytes),
    },
    "an open card": card: |card| card[ACCESS] = 2,
    "sides exchanged": card: |card| {
        card.swap(12, 14);
        card.swap(13, 15);
    },
}
