//! Mistakes in descriptors.

use reference::refusal::Refusal;

use crate::descriptor::{expected_read, expected_write, SIZE};
use crate::guarded::Guarded;
use crate::layouts::{BYTES, DEPTH, LEGACY, MODEL, OFFSETS, RANGE, RANGES};
use crate::library::{Layout, Library};
use crate::plain::descriptor::{formed, limits, read, rising, stated, with_range, written};
use crate::quantization::refused;

use super::{Wrong, REFERENCE};

pub const WRONG: &[Wrong] = &[
    // Samples and ranges.
    writes("samples written in channel order", |layout, out| {
        written(layout, out, |_| [0, 1, 2], limits)
    }),
    reads("samples read in channel order", |bytes, out| {
        read(bytes, out, |_| [0, 1, 2], limits)
    }),
    reads(
        "samples read in any order",
        |bytes, out| match expected_read(bytes, out) {
            -5 => changed(bytes, out, |bytes| {
                let mut samples: Vec<[u8; 16]> = bytes[28..].as_chunks().0.to_vec();
                samples.sort_by_key(|sample| sample[0]);
                bytes[28..].copy_from_slice(&samples.concat());
            }),
            answer => answer,
        },
    ),
    writes("235 for 240, writing", |layout, out| {
        written(layout, out, rising, limits_with_235)
    }),
    reads("235 for 240, reading", |bytes, out| {
        read(bytes, out, rising, limits_with_235)
    }),
    writes("240 for G' and B', writing", |layout, out| {
        written(layout, out, rising, limits_without_model)
    }),
    reads("240 for G' and B', reading", |bytes, out| {
        read(bytes, out, rising, limits_without_model)
    }),
    writes("the limits of 8 bits at every depth", |layout, out| {
        written(layout, out, rising, |layout, channel| {
            limits(layout, channel).map(|limit| limit >> (layout[DEPTH] - 8))
        })
    }),
    writes("full range up to 2^n", |layout, out| {
        written(layout, out, rising, |layout, channel| {
            let [lower, upper] = limits(layout, channel);
            [lower, upper + u32::from(layout[RANGE] == 2)]
        })
    }),
    writes("the older full range up to 2^n - 1", |layout, out| {
        written(layout, out, rising, limits_to_greatest)
    }),
    reads("2^n - 1 stating range 3", |bytes, out| {
        let answer = expected_read(bytes, out);
        if answer == 0 && out.output()[RANGE] == 2 {
            out.output()[RANGE] = LEGACY;
        }
        answer
    }),
    reads("2^n not read, 2^n - 1 read as full", |bytes, out| {
        read(bytes, out, rising, limits_to_greatest)
    }),
    reads("2^n stating range 2", |bytes, out| {
        let answer = expected_read(bytes, out);
        if answer == 0 && out.output()[RANGE] == LEGACY {
            out.output()[RANGE] = 2;
        }
        answer
    }),
    reads("both full ranges mixed", |bytes, out| {
        match expected_read(bytes, out) {
            -6 => changed(bytes, out, |bytes| {
                let full = formed(with_range(stated(bytes), 2), rising, limits);
                let older = formed(with_range(stated(bytes), LEGACY), rising, limits);
                for sample in [28..44, 44..60, 60..76] {
                    if bytes[sample.clone()] == older[sample.clone()] {
                        bytes[sample.clone()].copy_from_slice(&full[sample]);
                    }
                }
            }),
            answer => answer,
        }
    }),
    reads(
        "2^n + 1 stating range 3",
        |bytes, out| match expected_read(bytes, out) {
            -6 => changed(bytes, out, |bytes| {
                let one_less = [40, 56, 72].map(|place| bytes[place].wrapping_sub(1));
                let older = formed(with_range(stated(bytes), LEGACY), rising, limits);
                let mut lowered = *bytes;
                for (place, byte) in [40, 56, 72].into_iter().zip(one_less) {
                    lowered[place] = byte;
                }
                if lowered == older {
                    *bytes = older;
                }
            }),
            answer => answer,
        },
    ),
    writes("range 3 refused, writing", |layout, out| {
        match layout[RANGE] {
            LEGACY => refused(Refusal::Outside),
            _ => expected_write(layout, out),
        }
    }),
    writes("range 4 written as 3", |layout, out| match layout[RANGE] {
        4 => expected_write(with_range(layout, LEGACY), out),
        _ => expected_write(layout, out),
    }),
    writes("4092 stated at 12 bits", |layout, out| {
        written(layout, out, rising, |layout, channel| {
            match (layout[RANGE], layout[DEPTH]) {
                (LEGACY, 12) => [0, 4092],
                _ => limits(layout, channel),
            }
        })
    }),
    reads(
        "the first sample's range taken for all",
        |bytes, out| match expected_read(bytes, out) {
            -6 => of_first_sample(bytes, out),
            answer => answer,
        },
    ),
    reads(
        "no range taken for full",
        |bytes, out| match expected_read(bytes, out) {
            -6 => changed(bytes, out, |bytes| {
                let full = with_range(stated(bytes), 2);
                *bytes = formed(full, rising, limits);
            }),
            answer => answer,
        },
    ),
    // Bytes that are not looked at.
    reads("offsets cut to 8 bits", |bytes, out| {
        changed(bytes, out, |bytes| {
            for place in [29, 45, 61] {
                bytes[place] = 0;
            }
        })
    }),
    reads("qualifier bits passed over", |bytes, out| {
        changed(bytes, out, |bytes| {
            for place in [31, 47, 63] {
                bytes[place] &= 15;
            }
        })
    }),
    reads("positions passed over", |bytes, out| {
        changed(bytes, out, |bytes| {
            for place in [32, 48, 64] {
                bytes[place..place + 4].fill(0);
            }
        })
    }),
    reads("the last sample's length passed over", |bytes, out| {
        changed(bytes, out, |bytes| bytes[62] = bytes[30])
    }),
    reads("limits cut to 16 bits", |bytes, out| {
        changed(bytes, out, |bytes| {
            for place in [38, 42, 54, 58, 70, 74] {
                bytes[place..place + 2].fill(0);
            }
        })
    }),
    reads("the total size cut to 8 bits", |bytes, out| {
        changed(bytes, out, |bytes| bytes[1..4].fill(0))
    }),
    reads("the version passed over", |bytes, out| {
        changed(bytes, out, |bytes| bytes[8] = 1)
    }),
    reads("the transfer function passed over", |bytes, out| {
        changed(bytes, out, |bytes| bytes[14] = 3)
    }),
    reads("flags passed over", |bytes, out| {
        changed(bytes, out, |bytes| bytes[15] = 0)
    }),
    reads("dimensions passed over", |bytes, out| {
        changed(bytes, out, |bytes| bytes[16..20].fill(0))
    }),
    reads("the last plane passed over", |bytes, out| {
        changed(bytes, out, |bytes| bytes[27] = 0)
    }),
    // Layouts.
    reads(
        "a field past the end accepted",
        |bytes, out| match expected_read(bytes, out) {
            -5 => {
                let answer = changed(bytes, out, |bytes| bytes[20] = 8);
                if answer == 0 {
                    out.output()[BYTES] = bytes[20];
                }
                answer
            }
            answer => answer,
        },
    ),
    reads("overlapping fields accepted", |bytes, out| {
        match expected_read(bytes, out) {
            // Fields that overlap by one bit.
            -5 => {
                let answer = changed(bytes, out, |bytes| bytes[60] = bytes[60].wrapping_add(1));
                if answer == 0 {
                    let layout = out.output();
                    layout[OFFSETS + usize::from(bytes[63])] -= 1;
                }
                answer
            }
            answer => answer,
        }
    }),
    reads("offsets in the order of samples", |bytes, out| {
        let answer = expected_read(bytes, out);
        if answer == 0 {
            out.output()[OFFSETS..].sort();
        }
        answer
    }),
    reads("depth less one", |bytes, out| {
        let answer = expected_read(bytes, out);
        if answer == 0 {
            out.output()[DEPTH] -= 1;
        }
        answer
    }),
    // Memory.
    reads("the layout written on a refusal", |bytes, out| {
        if let Some(&model) = bytes.get(12) {
            out.output()[MODEL] = model;
        }
        expected_read(bytes, out)
    }),
    reads("nine bytes of layout written", |bytes, out| {
        let answer = expected_read(bytes, out);
        if answer == 0 {
            out.output_and_beyond()[size_of::<Layout>()] = 0;
        }
        answer
    }),
    writes("zeros left as they were", |layout, out| {
        let mut before = out.clone();
        let answer = expected_write(layout, out);
        for (byte, before) in out.output().iter_mut().zip(before.output()) {
            if *byte == 0 {
                *byte = *before;
            }
        }
        answer
    }),
    writes(
        "a too short output filled",
        |layout, out| match expected_write(layout, out) {
            -13 if out.length() < SIZE => {
                let length = out.length();
                let bytes = formed(layout, rising, limits);
                out.output().copy_from_slice(&bytes[..length]);
                0
            }
            answer => answer,
        },
    ),
    writes(
        "a too long output accepted",
        |layout, out| match expected_write(layout, out) {
            -13 if out.length() > SIZE => {
                out.output()[..SIZE].copy_from_slice(&formed(layout, rising, limits));
                0
            }
            answer => answer,
        },
    ),
    reads("77 bytes accepted", |bytes, out| {
        let length = if bytes.len() == 77 { 76 } else { bytes.len() };
        expected_read(&bytes[..length], out)
    }),
    // The order of refusals.
    writes("13 before 9", |layout, out| match out.length() {
        SIZE => expected_write(layout, out),
        _ => refused(Refusal::Length),
    }),
    reads("2 before 1", |bytes, out| match bytes {
        [76, ..] => expected_read(bytes, out),
        _ => refused(Refusal::Header),
    }),
    reads("4 before 3", |bytes, out| match expected_read(bytes, out) {
        -3 if bytes[21..28] != [0; 7] => refused(Refusal::TexelBlock),
        answer => answer,
    }),
    reads(
        "6 of the first sample before 5 of the next",
        |bytes, out| {
            match expected_read(bytes, out) {
                // A lower number that is neither 0 nor 16 times a power of two.
                -5 if bytes[36] % 16 != 0 => refused(Refusal::SampleRange),
                answer => answer,
            }
        },
    ),
    (
        "everything refused",
        Library {
            descriptor_read: |_, _| refused(Refusal::Size),
            descriptor_write: |_, _| refused(Refusal::Outside),
            ..REFERENCE
        },
    ),
];

pub const fn reads(
    mistake: &'static str,
    descriptor_read: fn(&[u8], &mut Guarded<u8>) -> i64,
) -> Wrong {
    let library = Library {
        descriptor_read,
        ..REFERENCE
    };
    (mistake, library)
}

pub const fn writes(
    mistake: &'static str,
    descriptor_write: fn(Layout, &mut Guarded<u8>) -> i64,
) -> Wrong {
    let library = Library {
        descriptor_write,
        ..REFERENCE
    };
    (mistake, library)
}

/// Reads after a change, which is made only if the length is right.
fn changed(bytes: &[u8], out: &mut Guarded<u8>, change: impl FnOnce(&mut [u8; SIZE])) -> i64 {
    match <[u8; SIZE]>::try_from(bytes) {
        Ok(mut bytes) => {
            change(&mut bytes);
            expected_read(&bytes, out)
        }
        Err(_) => expected_read(bytes, out),
    }
}

/// Reads with the limits of all samples made those of the first one's range.
fn of_first_sample(bytes: &[u8], out: &mut Guarded<u8>) -> i64 {
    changed(bytes, out, |bytes| {
        for range in RANGES {
            let like = formed(with_range(stated(bytes), range), rising, limits);
            if bytes[28..44] == like[28..44] {
                *bytes = like;
            }
        }
    })
}

/// The older full range's numbers as the full range's.
fn limits_to_greatest(layout: Layout, channel: usize) -> [u32; 2] {
    let [lower, upper] = limits(layout, channel);
    [lower, upper - u32::from(layout[RANGE] == LEGACY)]
}

fn limits_with_235(layout: Layout, channel: usize) -> [u32; 2] {
    let mut rgb = layout;
    rgb[MODEL] = 1;
    limits(rgb, channel)
}

fn limits_without_model(layout: Layout, channel: usize) -> [u32; 2] {
    let mut ycbcr = layout;
    ycbcr[MODEL] = 2;
    limits(ycbcr, channel)
}
