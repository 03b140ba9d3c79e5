//! Lines in four layouts, smooth and random, decoding and unpacking in two more, decoding
//! and encoding in the other ranges, and lines of groups.

use super::label;
use crate::before::{Before, Both, LineBefore};
use crate::case::{Case, Label, Line, LineJob};
use crate::inputs::{self, packed_length, Forms, POINTS};
use crate::library::lines as library;
use crate::plain::layout::{grouped, Numbers};
use crate::plain::lines as plain;

/// Narrow Y'CbCr: 8 bits in 3 bytes, 10 in 4, 12 in 5, and 12 in 8, each in the
/// upper bits of 16.
const LAYOUTS: [Numbers; 4] = [
    [2, 1, 1, 8, 3, 0, 8, 16, 0],
    [2, 1, 1, 10, 4, 0, 10, 20, 0],
    [2, 4, 1, 12, 5, 0, 12, 24, 0],
    [2, 4, 1, 12, 8, 4, 20, 36, 0],
];

/// Fields of 2, 3 and 2 bytes, which are read one channel after the other, and of 3
/// each. Those above have 1 or 2 bytes each.
const STRADDLING: [Numbers; 2] = [
    [2, 4, 1, 12, 5, 1, 13, 25, 0],
    [2, 4, 1, 12, 8, 6, 22, 38, 0],
];

/// The third of `LAYOUTS` in both full ranges.
const FULL: [u8; 2] = [2, 3];

/// Groups of two points that share their colour, narrow.
const GROUPS: Numbers = [2, 1, 1, 8, 4, 0, 0, 0, 1];

/// Lines of groups that are short enough to show what is done once a line.
const SHORT: [usize; 2] = [16, 256];

/// No model 3.
const OUTSIDE: Numbers = [3, 1, 1, 8, 3, 0, 8, 16, 0];

const ELEMENTS: usize = 3 * POINTS;

pub fn cases(before: Option<&Before>) -> Result<Vec<Case>, String> {
    let mut cases = Vec::new();
    for layout in LAYOUTS {
        for line in given(layout, before) {
            cases.extend(line.decode()?);
            cases.extend(line.encode()?);
            cases.extend(line.unpack()?);
            cases.extend(line.pack()?);
        }
    }
    for layout in STRADDLING {
        for line in given(layout, before) {
            cases.extend(line.decode()?);
            cases.extend(line.unpack()?);
        }
    }
    for range in FULL {
        let mut layout = LAYOUTS[2];
        layout[2] = range;
        for line in given(layout, before) {
            cases.extend(line.decode()?);
            cases.extend(line.encode()?);
        }
    }
    // An earlier library may have no groups.
    for line in given(GROUPS, None) {
        cases.extend(line.decode()?);
        cases.extend(line.encode()?);
        cases.extend(line.unpack()?);
        cases.extend(line.pack()?);
    }
    Ok(cases)
}

/// A line that is given to the entries.
struct Given<'a> {
    layout: Numbers,
    input: &'static str,
    forms: Forms,
    before: Option<&'a Before>,
}

fn given(layout: Numbers, before: Option<&Before>) -> [Given<'_>; 2] {
    let forms = [
        ("smooth", inputs::smooth(layout)),
        ("random", inputs::random(layout)),
    ];
    forms.map(|(input, forms)| Given {
        layout,
        input,
        forms,
        before,
    })
}

impl Given<'_> {
    fn decode(&self) -> Result<Vec<Case>, String> {
        self.cases(
            "decode_line",
            (&self.forms.packed, ELEMENTS),
            None,
            [
                |layout, packed, out, _| library::decode_line(layout, packed, out),
                |layout, packed, out, _| plain::decode_line(layout, packed, out),
            ],
            self.before.and_then(Before::decode_line),
        )
    }

    fn encode(&self) -> Result<Vec<Case>, String> {
        self.cases(
            "encode_line",
            (&self.forms.values, packed_length(self.layout)),
            Some(f32::NAN),
            [library::encode_line, plain::encode_line],
            self.before.and_then(Before::encode_line),
        )
    }

    fn unpack(&self) -> Result<Vec<Case>, String> {
        self.cases(
            "unpack_line",
            (&self.forms.packed, ELEMENTS),
            None,
            [
                |layout, packed, out, _| library::unpack_line(layout, packed, out),
                |layout, packed, out, _| plain::unpack_line(layout, packed, out),
            ],
            self.before.and_then(Before::unpack_line),
        )
    }

    fn pack(&self) -> Result<Vec<Case>, String> {
        self.cases(
            "pack_line",
            (&self.forms.codes, packed_length(self.layout)),
            Some(u16::MAX),
            [
                |layout, codes, out, _| library::pack_line(layout, codes, out),
                |layout, codes, out, _| plain::pack_line(layout, codes, out),
            ],
            self.before.and_then(Before::pack_line),
        )
    }

    /// The whole line and, of groups, short ones. Refused too: a layout outside the paper,
    /// an output too short, a line without its last point and, where points are made of a
    /// line, one whose last point begins with an element that may not be.
    fn cases<I, O>(
        &self,
        entry: &'static str,
        (elements, output): (&[I], usize),
        wrong: Option<I>,
        jobs: [LineJob<Numbers, I, O>; 2],
        before: Option<Both<LineBefore<Numbers, I, O>>>,
    ) -> Result<Vec<Case>, String>
    where
        I: Copy + 'static,
        O: Copy + Default + PartialEq + 'static,
    {
        let line = Line {
            numbers: self.layout,
            elements: elements.to_vec(),
            output,
            points_each: if grouped(self.layout) { 2 } else { 1 },
        };
        let mut refused = vec![line.clone(); 3];
        refused[0].numbers = OUTSIDE;
        refused[1].output -= 1;
        refused[2]
            .elements
            .truncate(elements.len() / POINTS * (POINTS - 1));
        if let Some(element) = wrong {
            let mut line = line.clone();
            line.elements[elements.len() - 3] = element;
            refused.push(line);
        }
        let whole = Case::line(self.named(entry, POINTS), line.clone(), &refused, jobs)?;
        let mut cases = vec![whole.beside_line(line.clone(), before)?];
        if grouped(self.layout) {
            for length in SHORT {
                let label = self.named(entry, length);
                cases.push(Case::short_lines(label, line.clone(), length, jobs)?);
            }
        }
        Ok(cases)
    }

    fn named(&self, entry: &'static str, points: usize) -> Label {
        let [_, _, range, depth, bytes, first, second, third, _] = self.layout;
        let range = match range {
            1 => "",
            2 => ", full",
            _ => ", older full",
        };
        let places = if STRADDLING.contains(&self.layout) {
            let places = [first, second, third].map(|offset| offset.to_string());
            format!(" at {}", places.join(", "))
        } else {
            String::new()
        };
        let groups = if grouped(self.layout) {
            "groups of "
        } else {
            ""
        };
        let length = match points {
            POINTS => String::new(),
            points => format!(", lines of {points}"),
        };
        let setting = format!("{groups}{bytes} bytes, {depth} bits{places}{range}{length}");
        label(entry, &setting, self.input)
    }
}
