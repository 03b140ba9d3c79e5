//! Mistakes in the headers that are taken, in importing and in what is told of a file's points.

use crate::guarded::Guarded;
use crate::picture::{expected_import, expected_import_len};

use super::super::Wrong;
use super::{imports, tells_points};

/// Files that are taken as if they were others.
macro_rules! taking {
    ($($mistake:literal: $instead:expr,)*) => {
        pub const TAKEN: &[Wrong] = &[$(
            imports(concat!($mistake, ", importing"), |ppm, item, primaries, made| {
                let mut other = instead(ppm.elements(), $instead);
                expected_import(&mut other, item, primaries, made)
            }),
            tells_points(concat!($mistake, ", the points' length"), |ppm| {
                expected_import_len(&mut instead(ppm.elements(), $instead))
            }),
        )*];
    };
}

taking! {
    // By the lines of the header, of which the second has the sides.
    "P5 taken": |_, line| line.replace("P5", "P6"),
    "P3 taken": |_, line| line.replace("P3", "P6"),
    "a small p taken": |_, line| line.replace('p', "P"),
    "any first line taken": |number, line| if number == 0 { "P6".to_string() } else { line },
    "a first line that begins with P6 taken": |_, line| match line.starts_with("P6") {
        true => "P6".to_string(),
        false => line,
    },
    "leading zeros taken": |_, line| each_number(line, |number| {
        let digits = number.trim_start_matches('0');
        if digits.is_empty() { number } else { digits.to_string() }
    }),
    "a leading zero of the width taken": |number, line| match number {
        1 => line.strip_prefix('0').map_or(line.clone(), str::to_string),
        _ => line,
    },
    "a leading zero of the height taken": |number, line| match number {
        1 => line.replace(" 0", " "),
        _ => line,
    },
    "a leading zero of the largest taken": |number, line| match number {
        2 => line.strip_prefix('0').map_or(line.clone(), str::to_string),
        _ => line,
    },
    "a plus sign taken": |_, line| each_number(line, |number| number.replacen('+', "", 1)),
    "a minus sign taken": |_, line| each_number(line, |number| number.replacen('-', "", 1)),
    "CR before a newline taken": |_, line| {
        line.strip_suffix('\r').map_or(line.clone(), str::to_string)
    },
    "spaces at the end of a line taken": |_, line| line.trim_end_matches(' ').to_string(),
    "spaces at the start of a line taken": |_, line| line.trim_start_matches(' ').to_string(),
    "two spaces taken": |_, line| line.replace("  ", " "),
    "a tab taken": |_, line| line.replace('\t', " "),
    "CR between the sides taken": |_, line| line.replace('\r', " "),
    "a comma between the sides taken": |_, line| line.replace(',', " "),
    "an x between the sides taken": |_, line| line.replace('x', " "),
    "what follows the sides not looked at": |number, line| match number {
        1 => line.splitn(3, ' ').take(2).collect::<Vec<_>>().join(" "),
        _ => line,
    },
    "what follows the largest not looked at": |number, line| match number {
        2 => line.split(|next: char| !next.is_ascii_digit()).next().unwrap_or("").to_string(),
        _ => line,
    },
    "a comment in a line taken": |_, line| match line.split_once(" #") {
        Some((before, _)) => before.to_string(),
        None => line,
    },
    "sides of 0 taken": |_, line| each_number(line, |number| match &*number {
        "0" => "1".to_string(),
        _ => number,
    }),
    "4,097 taken": |number, line| match number {
        1 => line.replace("4097", "4096"),
        _ => line,
    },
    "sides of four digits taken": |line_number, line| match line_number {
        1 => each_number(line, |number| match number.parse() {
            Ok(4097..=9999_u32) => "4096".to_string(),
            _ => number,
        }),
        _ => line,
    },
    "4,097 high taken": |number, line| match number {
        1 => line.replace(" 4097", " 4096"),
        _ => line,
    },
    "sides of 16,384 taken": |line_number, line| match line_number {
        1 => each_number(line, |number| match number.parse() {
            Ok(4097..=16_384_u32) => "4096".to_string(),
            _ => number,
        }),
        _ => line,
    },
    "numbers in 16 bits": |_, line| each_number(line, |number| modulo(number, 1 << 16)),
    "numbers in 32 bits": |_, line| each_number(line, |number| modulo(number, 1 << 32)),
    "numbers in 64 bits": |_, line| each_number(line, |number| modulo(number, 1 << 64)),
    "256 taken": |number, line| largest(number, line, |largest| largest == 256, "255"),
    "254 taken": |number, line| largest(number, line, |largest| largest == 254, "255"),
    "any largest up to 255 taken": |number, line| {
        largest(number, line, |largest| (1..=255).contains(&largest), "255")
    },
    "any largest up to 4,095 taken": |number, line| {
        largest(number, line, |largest| (1024..=4095).contains(&largest), "4095")
    },
    "1,024 taken": |number, line| largest(number, line, |largest| largest == 1024, "1023"),
    "4,092 taken": |number, line| largest(number, line, |largest| largest == 4092, "4095"),
    "4,096 for the largest taken": |number, line| {
        largest(number, line, |largest| largest == 4096, "4095")
    },
    "65,535 taken": |number, line| largest(number, line, |largest| largest == 65_535, "4095"),
    "0 for the largest taken": |number, line| {
        largest(number, line, |largest| largest == 0, "255")
    },
    // The other way round.
    "a width of 4,096 refused": |number, line| match number {
        1 => line.replace("4096 ", "4097 "),
        _ => line,
    },
    "a height of 4,096 refused": |number, line| match number {
        1 => line.replace(" 4096", " 4097"),
        _ => line,
    },
    "a width of 1 refused": |number, line| match (number, line.strip_prefix("1 ")) {
        (1, Some(height)) => format!("0 {height}"),
        _ => line,
    },
    "sides of four digits refused": |line_number, line| match line_number {
        1 => each_number(line, |number| match number.len() {
            4 => "0".to_string(),
            _ => number,
        }),
        _ => line,
    },
    "a zero at the end of a number refused": |_, line| each_number(line, |number| {
        match number.ends_with('0') {
            true => "0".to_string(),
            false => number,
        }
    }),
    "1023 refused": |number, line| largest(number, line, |largest| largest == 1023, "0"),
    "4095 refused": |number, line| largest(number, line, |largest| largest == 4095, "0"),
    "1023 taken as 4095": |number, line| largest(number, line, |largest| largest == 1023, "4095"),
}

/// Files that are taken as if they had other bytes.
macro_rules! reading {
    ($($mistake:literal: $instead:expr,)*) => {
        pub const READ: &[Wrong] = &[$(
            imports(concat!($mistake, ", importing"), |ppm, item, primaries, made| {
                let other: fn(&[u8]) -> Option<Vec<u8>> = $instead;
                match other(ppm.elements()) {
                    Some(other) => {
                        expected_import(&mut Guarded::holding(&other), item, primaries, made)
                    }
                    None => expected_import(ppm, item, primaries, made),
                }
            }),
            tells_points(concat!($mistake, ", the points' length"), |ppm| {
                let other: fn(&[u8]) -> Option<Vec<u8>> = $instead;
                match other(ppm.elements()) {
                    Some(other) => expected_import_len(&mut Guarded::holding(&other)),
                    None => expected_import_len(ppm),
                }
            }),
        )*];
    };
}

reading! {
    "a comment line taken": |ppm| {
        let comment = ppm.windows(2).position(|pair| pair == b"\n#")?;
        let end = ppm[comment + 1..].iter().position(|&byte| byte == b'\n')?;
        Some([&ppm[..comment], &ppm[comment + 1 + end..]].concat())
    },
    "an empty line taken": |ppm| {
        let empty = ppm.iter().take(16).collect::<Vec<_>>();
        let place = empty.windows(2).position(|pair| pair == [&b'\n', &b'\n'])?;
        Some([&ppm[..place], &ppm[place + 1..]].concat())
    },
    "a newline between the sides taken": |ppm| {
        let rest = ppm.strip_prefix(b"P6\n")?;
        let place = rest.iter().position(|byte| !byte.is_ascii_digit())?;
        (place > 0 && rest[place] == b'\n').then(|| {
            [b"P6\n", &rest[..place], b" ", &rest[place + 1..]].concat()
        })
    },
    "a space after P6 taken": |ppm| {
        Some([b"P6\n", ppm.strip_prefix(b"P6 ")?].concat())
    },
    "a space after the largest taken": |ppm| {
        let place = after_two_lines(ppm)?;
        let end = place + ppm[place..].iter().position(|byte| !byte.is_ascii_digit())?;
        (ppm[end] == b' ').then(|| [&ppm[..end], b"\n", &ppm[end + 1..]].concat())
    },
    "any byte after the largest taken": |ppm| {
        let place = after_two_lines(ppm)?;
        let end = place + ppm[place..].iter().position(|byte| !byte.is_ascii_digit())?;
        (end > place).then(|| [&ppm[..end], b"\n", &ppm[end + 1..]].concat())
    },
    "a header without its last newline taken": |ppm| {
        let place = after_two_lines(ppm)?;
        let is_largest = [&b"255"[..], b"1023", b"4095"].contains(&&ppm[place..]);
        is_largest.then(|| [ppm, b"\n"].concat())
    },
    "what stands before P6 not looked at": |ppm| {
        let place = ppm.windows(3).take(4).position(|three| three == b"P6\n")?;
        Some(ppm[place..].to_vec())
    },
    "a space for the newline after the sides taken": |ppm| {
        let rest = ppm.strip_prefix(b"P6\n")?;
        let end = rest.iter().position(|&byte| byte == b'\n')?;
        let spaces = rest[..end].iter().filter(|&&byte| byte == b' ').count();
        let last = rest[..end].iter().rposition(|&byte| byte == b' ')?;
        (spaces == 2).then(|| [b"P6\n", &rest[..last], b"\n", &rest[last + 1..]].concat())
    },
    "the largest of three digits looked at": |ppm| {
        let place = after_two_lines(ppm)?;
        let rest = ppm[place..].strip_prefix(b"255")?;
        let newline = rest.iter().position(|&byte| byte == b'\n')?;
        (newline > 0).then(|| [&ppm[..place + 3], &rest[newline..]].concat())
    },
}

/// Where the third line begins.
fn after_two_lines(ppm: &[u8]) -> Option<usize> {
    let mut newlines = (0..).zip(ppm).filter(|(_, &byte)| byte == b'\n');
    newlines.nth(1).map(|(place, _)| place + 1)
}

/// The file with other lines in its header, if it has three.
fn instead(ppm: &[u8], other: fn(usize, String) -> String) -> Guarded<u8> {
    let parts: Vec<&[u8]> = ppm.splitn(4, |&byte| byte == b'\n').collect();
    let &[first, second, third, points] = &parts[..] else {
        return Guarded::holding(ppm);
    };
    let mut file = Vec::new();
    for (number, line) in [first, second, third].into_iter().enumerate() {
        match std::str::from_utf8(line) {
            Ok(line) => file.extend(other(number, line.to_string()).bytes()),
            Err(_) => file.extend(line),
        }
        file.push(b'\n');
    }
    file.extend(points);
    Guarded::holding(&file)
}

/// The line with each of the numbers between its spaces changed.
fn each_number(line: String, change: fn(String) -> String) -> String {
    let numbers = line.split(' ').map(|number| change(number.to_string()));
    numbers.collect::<Vec<_>>().join(" ")
}

fn modulo(number: String, most: u128) -> String {
    match number.parse::<u128>() {
        Ok(large) if large >= most => (large % most).to_string(),
        _ => number,
    }
}

/// Another largest code in the third line.
fn largest(number: usize, line: String, is_taken: fn(u64) -> bool, taken: &str) -> String {
    match (number, line.parse()) {
        (2, Ok(largest)) if is_taken(largest) && line == largest.to_string() => taken.to_string(),
        _ => line,
    }
}
