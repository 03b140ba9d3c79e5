//! The library through the safe functions of its Rust binding.

use std::slice;

use imurraqi::{Dequantized, Layout, Refusal};
use reference::card::Facts;

use crate::history::replays::{tell, DECODED, READ};

use super::history::Replaying;
use super::program::stack_list;
use super::{Convert, Direction, Library, Setting, Slot, CUTS, FLOAT};

pub const BINDING: Library = Library {
    dequantize: |setting, code, slot| {
        answer(imurraqi::dequantize(channel(setting), code), |made| {
            slot[FLOAT] = made.value().to_bits();
            matches!(made, Dequantized::Difference(_)).into()
        })
    },
    quantize: |setting, value, cuts| {
        answer(imurraqi::quantize(channel(setting), value), |made| {
            cuts[CUTS] = made.cut.into();
            made.code.into()
        })
    },
    field_bytes: |layout, channel, out| {
        let layout = Layout::from_bytes(layout);
        answer(imurraqi::field_bytes(layout, channel), |bytes| {
            out.output().copy_from_slice(&[bytes.start as u8]);
            bytes.len() as i64
        })
    },
    field_code: |layout, channel, bytes| {
        let layout = Layout::from_bytes(layout);
        answer(imurraqi::field_code(layout, channel, bytes), i64::from)
    },
    unpack_line: |layout, packed, out| {
        let layout = Layout::from_bytes(layout);
        count(imurraqi::unpack_line(layout, packed, out.output()))
    },
    pack_line: |layout, codes, out| {
        let layout = Layout::from_bytes(layout);
        count(imurraqi::pack_line(layout, codes, out.output()))
    },
    decode_line: |layout, packed, out| {
        let layout = Layout::from_bytes(layout);
        count(imurraqi::decode_line(layout, packed, floats(out.output())))
    },
    decode_point: |layout, bytes, out| {
        let layout = Layout::from_bytes(layout);
        answer(imurraqi::decode_point(layout, bytes), |point| {
            out.output().copy_from_slice(&point.map(f32::to_bits));
            1
        })
    },
    encode_line: |layout, values, out| {
        let layout = Layout::from_bytes(layout);
        let answered = imurraqi::encode_line(layout, values, out.output());
        clamped(answered, &mut out.cuts)
    },
    encode_point: |layout, values, out| {
        let layout = Layout::from_bytes(layout);
        let answered = imurraqi::encode_point(layout, values, out.output());
        clamped(answered, &mut out.cuts)
    },
    descriptor_read: |bytes, out| {
        answer(imurraqi::descriptor_read(bytes), |layout| {
            out.output().copy_from_slice(&layout.to_bytes());
            0
        })
    },
    descriptor_write: |layout, out| {
        let layout = Layout::from_bytes(layout);
        accepted(imurraqi::descriptor_write(layout, out.output()))
    },
    rgb_to_ycbcr: CONVERT,
    ycbcr_to_rgb: CONVERT,
    card_read: |card, edition, told| {
        answer(imurraqi::card_read(card.elements(), edition), |facts| {
            told.store(shown(facts));
            0
        })
    },
    card_write: |edition, facts, out| {
        accepted(imurraqi::card_write(edition, given(facts), out.output()))
    },
    card_rewrite: |card, edition, out| {
        accepted(imurraqi::card_rewrite(
            card.elements(),
            edition,
            out.output(),
        ))
    },
    replay,
    stack_find: |stack, edition, item| count(imurraqi::stack_find(stack.elements(), edition, item)),
    ppm_export: |card, edition, packed, out| {
        let (card, packed) = (card.elements(), packed.elements());
        count(imurraqi::ppm_export(card, edition, packed, out.output()))
    },
    ppm_export_len: |card, edition| count(imurraqi::ppm_export_len(card.elements(), edition)),
    ppm_import: |ppm, item, primaries, made| {
        let (card, packed) = (made.card.output(), made.packed.output());
        count(imurraqi::ppm_import(
            ppm.elements(),
            item,
            primaries,
            card,
            packed,
        ))
    },
    ppm_import_len: |ppm| count(imurraqi::ppm_import_len(ppm.elements())),
    stack_list,
};

const CONVERT: Convert = |direction, conversion, codes, out| {
    let [primaries, depth, range_in, range_out] = conversion;
    let conversion = imurraqi::Conversion {
        primaries,
        depth,
        range_in,
        range_out,
    };
    let convert = match direction {
        Direction::RgbToYcbcr => imurraqi::rgb_to_ycbcr,
        Direction::YcbcrToRgb => imurraqi::ycbcr_to_rgb,
    };
    let answered = convert(conversion, codes.elements(), out.output());
    clamped(answered, &mut out.cuts)
};

fn replay(asked: &mut Replaying) -> i64 {
    let lengths = asked.lengths.elements().iter();
    let lengths: Vec<usize> = lengths.map(|&length| length as usize).collect();
    let history = imurraqi::History {
        first: asked.first,
        facts: given(asked.facts),
        editions: asked.editions.elements(),
        lengths: &lengths,
        last: asked.last,
        packed: asked.packed.elements(),
        card: asked.card.output(),
        outputs: asked.outputs.output(),
        answers: asked.answers.output(),
        values: floats(asked.values.output()),
    };
    answer(imurraqi::replay(history), |replayed| {
        let (mut read, mut decoded) = ([0; READ], [0; DECODED]);
        match replayed.read {
            Ok(facts) => tell(shown(facts), &mut read),
            Err(refusal) => read[0] = refusal.number().into(),
        }
        match replayed.decoded {
            Ok(points) => decoded[1] = points as u64,
            Err(refusal) => decoded[0] = refusal.number().into(),
        }
        asked.read.output().copy_from_slice(&read);
        asked.decoded.output().copy_from_slice(&decoded);
        0
    })
}

/// As the C interface answers.
fn answer<T>(answered: Result<T, Refusal>, number: impl FnOnce(T) -> i64) -> i64 {
    match answered {
        Ok(answered) => number(answered),
        Err(refusal) => -i64::from(refusal.number()),
    }
}

fn accepted(answered: Result<(), Refusal>) -> i64 {
    answer(answered, |()| 0)
}

fn count(answered: Result<usize, Refusal>) -> i64 {
    answer(answered, |count| count as i64)
}

/// With the number of cuts where the C interface writes it.
fn clamped(answered: Result<imurraqi::Clamped, Refusal>, cuts: &mut Slot) -> i64 {
    answer(answered, |made| {
        cuts[CUTS] = made.cuts as u32;
        made.points as i64
    })
}

fn channel([model, range, depth, channel]: Setting) -> imurraqi::Setting {
    imurraqi::Setting {
        model,
        range,
        depth,
        channel,
    }
}

fn given(facts: Facts) -> imurraqi::Facts {
    imurraqi::Facts {
        layout: Layout::from_bytes(facts.layout),
        width: facts.width,
        height: facts.height,
        item: facts.item,
        access: facts.access,
    }
}

fn shown(facts: imurraqi::Facts) -> Facts {
    Facts {
        layout: facts.layout.to_bytes(),
        width: facts.width,
        height: facts.height,
        item: facts.item,
        access: facts.access,
    }
}

/// Floats where their bits are.
fn floats(bits: &mut [u32]) -> &mut [f32] {
    // SAFETY: a float has the size and alignment of its bits, and any bits are one.
    unsafe { slice::from_raw_parts_mut(bits.as_mut_ptr().cast(), bits.len()) }
}
