//! Mistakes in the header of a file that is exported, and in which of its points are stored.

use crate::guarded::Guarded;
use crate::picture::expected_export;
use crate::plain::picture::{exported, header, Exporting, Size, EXPORTING};

use super::super::Wrong;
use super::exports;

macro_rules! headers {
    ($($mistake:literal: $header:expr,)*) => {
        pub const HEADERS: &[Wrong] = &[$(
            exports($mistake, |card, edition, packed, out| {
                let pieces = Exporting { header: $header, ..EXPORTING };
                exported(card, edition, packed, out, &pieces)
            }),
        )*];
    };
}

headers! {
    "P5": |size| changed(size, |text| text.replacen("P6", "P5", 1)),
    "P3": |size| changed(size, |text| text.replacen("P6", "P3", 1)),
    "the header's sides exchanged": |size| {
        header(Size { width: size.height, height: size.width, ..size })
    },
    "the width twice": |size| header(Size { height: size.width, ..size }),
    "a header in one line": |size| changed(size, |text| {
        let spaced = text.replace('\n', " ");
        format!("{}\n", spaced.trim_end())
    }),
    "lines that end in CR": |size| changed(size, |text| text.replace('\n', "\r")),
    "lines that end in CR and LF": |size| changed(size, |text| text.replace('\n', "\r\n")),
    "a tab between the sides": |size| changed(size, |text| text.replace(' ', "\t")),
    "a newline between the sides": |size| changed(size, |text| text.replace(' ', "\n")),
    "two spaces between the sides": |size| changed(size, |text| text.replace(' ', "  ")),
    "a comment": |size| changed(size, |text| text.replacen('\n', "\n# open\n", 1)),
    "no newline after the largest code": |size| changed(size, |text| text.trim_end().to_string()),
    "a space after the largest code": |size| changed(size, |text| {
        format!("{} ", text.trim_end())
    }),
    "sides of four digits": |size| {
        format!("P6\n{:04} {:04}\n{}\n", size.width, size.height, size.largest()).into_bytes()
    },
    "256, 1024 and 4096 for the largest": |size| {
        let largest = size.largest() + 1;
        format!("P6\n{} {}\n{largest}\n", size.width, size.height).into_bytes()
    },
    "65535 for the largest above 8 bits": |size| changed(size, |text| {
        text.replace("\n1023\n", "\n65535\n").replace("\n4095\n", "\n65535\n")
    }),
    "255 for the largest at every depth": |size| {
        format!("P6\n{} {}\n255\n", size.width, size.height).into_bytes()
    },
    "4092 for the largest at 12 bits": |size| changed(size, |text| {
        text.replace("\n4095\n", "\n4092\n")
    }),
    "the depth for the largest": |size| {
        format!("P6\n{} {}\n{}\n", size.width, size.height, size.depth).into_bytes()
    },
    "digits from the last": |size| {
        let reversed = |number: u16| number.to_string().chars().rev().collect::<String>();
        let [width, height] = [size.width, size.height].map(reversed);
        format!("P6\n{width} {height}\n{}\n", size.largest()).into_bytes()
    },
    "sides in hexadecimal": |size| {
        format!("P6\n{:x} {:x}\n{}\n", size.width, size.height, size.largest()).into_bytes()
    },
    "three digits a side at most": |size| header(Size {
        width: size.width % 1000,
        height: size.height % 1000,
        ..size
    }),
}

fn changed(size: Size, change: fn(String) -> String) -> Vec<u8> {
    let text = String::from_utf8(header(size)).expect("a header is text");
    change(text).into_bytes()
}

macro_rules! stored {
    ($($mistake:literal: $change:expr,)*) => {
        pub const STORED: &[Wrong] = &[$(
            exports($mistake, |card, edition, packed, out| {
                let before = out.elements().to_vec();
                let answer = expected_export(card, edition, packed, out);
                if let Ok(points @ 1..) = usize::try_from(answer) {
                    let each = if out.length() < 6 * points { 3 } else { 6 };
                    let header = out.length() - each * points;
                    let change: fn(&mut [u8], &[u8], usize) = $change;
                    change(&mut out.output()[header..], &before[header..], each);
                }
                answer
            }),
        )*];
    };
}

// The points as they are stored, as the room was before, and the bytes of a point.
stored! {
    "points after the last whole 16 left out": |made, before, each| {
        whole_blocks(made, before, 16 * each);
    },
    "points after the last whole 64 left out": |made, before, each| {
        whole_blocks(made, before, 64 * each);
    },
    "points after the last whole 128 left out": |made, before, each| {
        whole_blocks(made, before, 128 * each);
    },
    "points after the last whole 256 left out": |made, before, each| {
        whole_blocks(made, before, 256 * each);
    },
    "the last block of 64 left out": |made, before, each| {
        let last = (made.len() - 1) / (64 * each) * (64 * each);
        if last > 0 {
            made[last..].copy_from_slice(&before[last..]);
        }
    },
    "the last block of 256 left out": |made, before, each| {
        let last = (made.len() - 1) / (256 * each) * (256 * each);
        if last > 0 {
            made[last..].copy_from_slice(&before[last..]);
        }
    },
    "the last point left out": |made, before, each| {
        let last = made.len() - each;
        made[last..].copy_from_slice(&before[last..]);
    },
    "the last byte left out": |made, before, _| {
        let last = made.len() - 1;
        made[last] = before[last];
    },
    "the first point left out": |made, before, each| {
        made[..each].copy_from_slice(&before[..each]);
    },
    "points above 4,096 left out": |made, before, each| {
        if let Some(rest) = made.get_mut(4096 * each..) {
            rest.copy_from_slice(&before[4096 * each..]);
        }
    },
    "the first block of 128 again and again": |made, _, each| {
        let block = 128 * each;
        for place in block..made.len() {
            made[place] = made[place % block];
        }
    },
    "the point before a block's end twice": |made, _, each| {
        let block = 256 * each;
        for end in (block..=made.len()).step_by(block) {
            made.copy_within(end - 2 * each..end - each, end - each);
        }
    },
    "points from the last to the first": |made, _, each| {
        let points: Vec<u8> = made.chunks(each).rev().flatten().copied().collect();
        made.copy_from_slice(&points);
    },
    "no point stored": |made, before, _| made.copy_from_slice(before),
}

/// Keeps what whole blocks hold.
fn whole_blocks(made: &mut [u8], before: &[u8], block: usize) {
    let whole = made.len() / block * block;
    if whole > 0 {
        made[whole..].copy_from_slice(&before[whole..]);
    }
}

/// Other answers and other lines.
pub const WRONG: &[Wrong] = &[
    exports(
        "lines from the last to the first",
        |card, edition, packed, out| {
            let answer = expected_export(card, edition, packed, out);
            let (points, height) = (answer as usize, card.elements().get(14).copied());
            if let (1.., Some(height @ 2..)) = (answer, height) {
                let each = if out.length() < 6 * points { 3 } else { 6 };
                let header = out.length() - each * points;
                let line = each * points / usize::from(height);
                let made = out.output()[header..].to_vec();
                for (to, from) in out.output()[header..]
                    .chunks_mut(line)
                    .zip(made.chunks(line).rev())
                {
                    to[..from.len()].copy_from_slice(from);
                }
            }
            answer
        },
    ),
    exports(
        "the count of lines for points",
        |card, edition, packed, out| match expected_export(card, edition, packed, out) {
            1.. => {
                let card = card.elements();
                i64::from(card[14]) + 256 * i64::from(card[15])
            }
            refusal => refusal,
        },
    ),
    exports(
        "the file's bytes for the count",
        |card, edition, packed, out| match expected_export(card, edition, packed, out) {
            1.. => out.length() as i64,
            refusal => refusal,
        },
    ),
    exports("0 for the count of points", |card, edition, packed, out| {
        expected_export(card, edition, packed, out).min(0)
    }),
    exports("nothing stored, exporting", |card, edition, packed, out| {
        expected_export(card, edition, packed, &mut Guarded::new(out.length()))
    }),
    exports(
        "no picture of over 4,096 points",
        |card, edition, packed, out| match expected_export(card, edition, packed, &mut out.clone())
        {
            4097.. => -13,
            _ => expected_export(card, edition, packed, out),
        },
    ),
    exports(
        "the count of points in 12 bits",
        |card, edition, packed, out| match expected_export(card, edition, packed, out) {
            count @ 1.. => count % 4096,
            refusal => refusal,
        },
    ),
];
