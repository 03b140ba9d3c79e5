//! Answers single questions about the codec on the command line.

use std::env;
use std::process::ExitCode;

use reference::bound;
use reference::card::{self, Facts};
use reference::color;
use reference::descriptor;
use reference::fields;
use reference::layout::{Layout, Numbers};
use reference::lines;
use reference::pictures;
use reference::quantization::{self, Kind, Scale};
use reference::refusal::Refusal;
use reference::stack;

const USAGE: &str = "\
usage: reference dequantize MODEL RANGE DEPTH CHANNEL CODE
       reference quantize MODEL RANGE DEPTH CHANNEL VALUE
       reference field-bytes LAYOUT CHANNEL
       reference field-code LAYOUT CHANNEL BYTES
       reference unpack LAYOUT BYTES
       reference pack LAYOUT CODE...
       reference decode LAYOUT BYTES
       reference encode LAYOUT VALUE...
       reference ycbcr CONVERSION CODE...
       reference rgb CONVERSION CODE...
       reference there-and-back WAY CODE CODE CODE
       reference write LAYOUT
       reference read BYTES
       reference write-card EDITION LAYOUT WIDTH HEIGHT ITEM ACCESS
       reference read-card EDITION BYTES
       reference rewrite-card EDITION BYTES
       reference find EDITION ITEM BYTES
       reference list BYTES
       reference export EDITION CARD BYTES
       reference export-len EDITION CARD
       reference import ITEM PRIMARIES BYTES
       reference import-len BYTES
MODEL       1 RGB, 2 Y'CbCr
RANGE       1 narrow, 2 full, 3 the older full range
DEPTH       8, 10 or 12
CHANNEL     0, 1 or 2
VALUE       decimal text, rounded to the nearest float, or a float's bits as 0x...
LAYOUT      model, primaries, range, depth, bytes a point, three bit offsets, sampling
            (0 points of their own, which may be left out, 1 groups of two that share
            their colour), as in 1,1,2,8,3,0,8,16 and 2,2,1,8,4,0,0,0,1
CONVERSION  primaries, depth, range of the given codes, range of the codes made, as
            in 1,8,2,2
WAY         primaries, depth, range of the R'G'B' codes, range of the Y'CbCr codes, as in
            1,8,2,1
EDITION     1, 2, 3 or 4
ACCESS      0 closed, 1 community, 2 open
BYTES       hexadecimal digits, two a byte: packed points or groups, the bytes of a
            field, or a descriptor, a card, a stack or a picture file to read
CARD        the bytes of a card
quantize, encode, ycbcr and rgb also tell how many values were cut: those whose rounded
number lay outside the span to which it is clamped, and infinities
there-and-back tells the Y'CbCr codes of R'G'B' codes, the R'G'B' codes of those, by how
much each has moved and, if the ranges and codes have a bound, by how much at most it may";

fn main() -> ExitCode {
    let arguments: Vec<String> = env::args().skip(1).collect();
    let arguments: Vec<&str> = arguments.iter().map(String::as_str).collect();
    match answer(&arguments) {
        Some(Ok(text)) => println!("{text}"),
        Some(Err(refusal)) => println!("refused {}", refusal.number()),
        None => {
            eprintln!("{USAGE}");
            return ExitCode::from(2);
        }
    }
    ExitCode::SUCCESS
}

/// The answer or refusal, or none if the question is not understood.
fn answer(arguments: &[&str]) -> Option<Result<String, Refusal>> {
    match *arguments {
        ["dequantize", model, range, depth, channel, code] => Some(dequantize(
            model.parse().ok()?,
            range.parse().ok()?,
            depth.parse().ok()?,
            channel.parse().ok()?,
            code.parse().ok()?,
        )),
        ["quantize", model, range, depth, channel, value] => {
            let quantized = quantization::quantize(
                model.parse().ok()?,
                range.parse().ok()?,
                depth.parse().ok()?,
                channel.parse().ok()?,
                float_bits(value)?,
            );
            Some(quantized.map(|made| with_cuts(&made.code.to_string(), made.cut.into())))
        }
        ["field-bytes", layout, channel] => {
            let bytes = fields::bytes(layout_of(layout)?, channel.parse().ok()?);
            Some(bytes.map(|bytes| format!("{} bytes from byte {}", bytes.len(), bytes.start)))
        }
        ["field-code", layout, channel, given] => {
            let code = fields::code(layout_of(layout)?, channel.parse().ok()?, &bytes(given)?);
            Some(code.map(|code| code.to_string()))
        }
        ["unpack", layout, packed] => Some(unpack(layout_of(layout)?, &bytes(packed)?)),
        ["pack", layout, ref given @ ..] => Some(pack(layout_of(layout)?, &codes(given)?)),
        ["decode", layout, packed] => Some(decode(layout_of(layout)?, &bytes(packed)?)),
        ["encode", layout, ref values @ ..] => {
            let values: Option<Vec<u32>> = values.iter().map(|value| float_bits(value)).collect();
            Some(encode(layout_of(layout)?, &values?))
        }
        ["ycbcr", conversion, ref given @ ..] => {
            let rgb = codes(given)?;
            let mut ycbcr = vec![0; rgb.len()];
            let counts = color::rgb_to_ycbcr(numbers(conversion)?, &rgb, &mut ycbcr);
            Some(counts.map(|counts| with_cuts(&separated(&ycbcr, " "), counts.cuts)))
        }
        ["rgb", conversion, ref given @ ..] => {
            let ycbcr = codes(given)?;
            let mut rgb = vec![0; ycbcr.len()];
            let counts = color::ycbcr_to_rgb(numbers(conversion)?, &ycbcr, &mut rgb);
            Some(counts.map(|counts| with_cuts(&separated(&rgb, " "), counts.cuts)))
        }
        ["there-and-back", way, ref given @ ..] => {
            let given = codes(given)?.try_into().ok()?;
            Some(there_and_back(numbers(way)?, given))
        }
        ["write", layout] => Some(write(layout_of(layout)?)),
        ["read", descriptor] => {
            let layout = descriptor::read(&bytes(descriptor)?);
            Some(layout.map(|numbers| separated(&numbers, ",")))
        }
        ["write-card", edition, layout, width, height, item, access] => {
            let facts = Facts {
                layout: layout_of(layout)?,
                width: width.parse().ok()?,
                height: height.parse().ok()?,
                item: item.parse().ok()?,
                access: access.parse().ok()?,
            };
            let edition = edition.parse().ok()?;
            Some(made_card(|out| card::write(edition, facts, out)))
        }
        ["read-card", edition, card] => {
            let facts = card::read(&bytes(card)?, edition.parse().ok()?);
            Some(facts.map(shown))
        }
        ["rewrite-card", edition, card] => {
            let card = bytes(card)?;
            let edition = edition.parse().ok()?;
            Some(made_card(|out| card::rewrite(&card, edition, out)))
        }
        ["find", edition, item, stack] => {
            let index = stack::find(&bytes(stack)?, edition.parse().ok()?, item.parse().ok()?);
            Some(index.map(|index| index.to_string()))
        }
        ["list", stack] => Some(Ok(stack::list(&bytes(stack)?).trim_end().to_string())),
        ["export", edition, card, packed] => Some(export(
            &bytes(card)?,
            edition.parse().ok()?,
            &bytes(packed)?,
        )),
        ["export-len", edition, card] => {
            let length = pictures::export_len(&bytes(card)?, edition.parse().ok()?);
            Some(length.map(|length| length.to_string()))
        }
        ["import", item, primaries, ppm] => Some(import(
            &bytes(ppm)?,
            item.parse().ok()?,
            primaries.parse().ok()?,
        )),
        ["import-len", ppm] => {
            let length = pictures::import_len(&bytes(ppm)?);
            Some(length.map(|length| length.to_string()))
        }
        _ => None,
    }
}

/// The kind, the float as decimal text and as bits, and the exact fraction.
fn dequantize(model: u8, range: u8, depth: u8, channel: u8, code: u16) -> Result<String, Refusal> {
    let (kind, bits) = quantization::dequantize(model, range, depth, channel, code)?;
    let kind = match kind {
        Kind::Brightness => "brightness",
        Kind::Difference => "difference",
    };
    let fraction = Scale::new(model, range, depth, channel)?.value(code.into());
    let float = f32::from_bits(bits);
    Ok(format!("{kind} {float:?} 0x{bits:08x} {fraction}"))
}

fn unpack(layout: Numbers, packed: &[u8]) -> Result<String, Refusal> {
    let mut codes = vec![0; elements(layout, packed.len())?];
    lines::unpack_line(layout, packed, &mut codes)?;
    Ok(separated(&codes, " "))
}

fn pack(layout: Numbers, codes: &[u16]) -> Result<String, Refusal> {
    let mut packed = vec![0; packed_bytes(layout, codes.len())?];
    lines::pack_line(layout, codes, &mut packed)?;
    Ok(hexadecimal(&packed))
}

/// The floats as decimal text.
fn decode(layout: Numbers, packed: &[u8]) -> Result<String, Refusal> {
    let mut values = vec![0; elements(layout, packed.len())?];
    lines::decode_line(layout, packed, &mut values)?;
    let values: Vec<f32> = values.into_iter().map(f32::from_bits).collect();
    Ok(separated(&values, " "))
}

fn encode(layout: Numbers, values: &[u32]) -> Result<String, Refusal> {
    let mut packed = vec![0; packed_bytes(layout, values.len())?];
    let counts = lines::encode_line(layout, values, &mut packed)?;
    Ok(with_cuts(&hexadecimal(&packed), counts.cuts))
}

/// What was made, and how many of its values were cut.
fn with_cuts(made: &str, cuts: usize) -> String {
    format!("{made}, {cuts} cut")
}

fn there_and_back(way: bound::Way, given: [u16; 3]) -> Result<String, Refusal> {
    let trip = bound::there_and_back(way, given)?;
    let [there, back, moved] = [trip.ycbcr, trip.rgb, bound::moved(given, trip.rgb)]
        .map(|numbers| separated(&numbers, " "));
    let most = match bound::most(way, given) {
        Some(most) => format!("of at most {most}"),
        None => "without a bound".to_string(),
    };
    Ok(format!("{there}, back {back}, moved {moved} {most}"))
}

fn write(layout: Numbers) -> Result<String, Refusal> {
    let mut bytes = [0; descriptor::SIZE];
    descriptor::write(layout, &mut bytes)?;
    Ok(hexadecimal(&bytes))
}

/// The bytes of a card that is written to room of its length.
fn made_card(make: impl FnOnce(&mut [u8]) -> Result<(), Refusal>) -> Result<String, Refusal> {
    let mut card = [0; card::SIZE];
    make(&mut card)?;
    Ok(hexadecimal(&card))
}

/// The bytes of a picture file.
fn export(card: &[u8], edition: u8, packed: &[u8]) -> Result<String, Refusal> {
    let mut file = vec![0; pictures::export_len(card, edition)?];
    pictures::export(card, edition, packed, &mut file)?;
    Ok(hexadecimal(&file))
}

/// The bytes of a picture's card, and those of its points. Without a header there is no
/// room to make for them, but the item and primaries are refused first.
fn import(ppm: &[u8], item: u64, primaries: u8) -> Result<String, Refusal> {
    let mut card = [0; card::SIZE];
    let mut packed = vec![0; pictures::import_len(ppm).unwrap_or(0)];
    pictures::import(ppm, item, primaries, &mut card, &mut packed)?;
    Ok(format!("{} {}", hexadecimal(&card), hexadecimal(&packed)))
}

/// The facts in the order in which they are given to be written.
fn shown(facts: Facts) -> String {
    let layout = separated(&facts.layout, ",");
    let Facts {
        width,
        height,
        item,
        access,
        ..
    } = facts;
    format!("{layout} {width} {height} {item} {access}")
}

/// The codes or floats of so many packed bytes.
fn elements(layout: Numbers, packed_bytes: usize) -> Result<usize, Refusal> {
    let layout = Layout::new(layout)?;
    Ok(packed_bytes / layout.point_bytes() * layout.points_each() * 3)
}

/// The packed bytes of so many codes or floats.
fn packed_bytes(layout: Numbers, elements: usize) -> Result<usize, Refusal> {
    let layout = Layout::new(layout)?;
    Ok(elements / 3 / layout.points_each() * layout.point_bytes())
}

fn float_bits(text: &str) -> Option<u32> {
    match text.strip_prefix("0x") {
        Some(digits) => u32::from_str_radix(digits, 16).ok(),
        // The standard library rounds decimal text to the nearest float.
        None => text.parse().ok().map(f32::to_bits),
    }
}

/// The nine numbers of a layout, or eight of one whose points are their own.
fn layout_of(text: &str) -> Option<Numbers> {
    numbers(text).or_else(|| numbers(&format!("{text},0")))
}

/// The numbers of a layout or a conversion, with commas between them.
fn numbers<const COUNT: usize>(text: &str) -> Option<[u8; COUNT]> {
    let numbers: Option<Vec<u8>> = text.split(',').map(|number| number.parse().ok()).collect();
    numbers?.try_into().ok()
}

fn codes(given: &[&str]) -> Option<Vec<u16>> {
    given.iter().map(|code| code.parse().ok()).collect()
}

fn bytes(digits: &str) -> Option<Vec<u8>> {
    let digits: Option<Vec<u8>> = digits
        .chars()
        .map(|digit| digit.to_digit(16).map(|digit| digit as u8))
        .collect();
    let (pairs, rest) = digits.as_ref()?.as_chunks();
    let bytes = pairs.iter().map(|[high, low]| 16 * high + low);
    rest.is_empty().then(|| bytes.collect())
}

fn hexadecimal(bytes: &[u8]) -> String {
    bytes.iter().map(|byte| format!("{byte:02x}")).collect()
}

fn separated<T: ToString>(numbers: &[T], separator: &str) -> String {
    let numbers: Vec<String> = numbers.iter().map(T::to_string).collect();
    numbers.join(separator)
}
