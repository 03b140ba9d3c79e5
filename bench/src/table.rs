//! The table of all entries.

use crate::case::{Case, BEFORE_LENGTHS, LENGTHS};
use crate::stack_use;

/// A longer line may cost so many times as much a point, for the clock's sake.
pub const MOST_GROWTH: f64 = 1.1;

/// Both programs decode a line in loops that do four points at a time, and neither
/// may take so many times as long as the other. One point at a time was seen to take
/// 1.4 to 2.5 times as long, and less only where all fields have three bytes.
pub const MOST_APART: f64 = 1.35;

const HEAD: [&str; 14] = [
    "entry",
    "setting",
    "input",
    "a",
    "library",
    "plain",
    "ratio",
    "aim",
    BEFORE[0],
    "lengths",
    "growth",
    "ratio at 1",
    BEFORE[1],
    "stack",
];

/// Columns that are shown only where there is an earlier library; the second is one for
/// each of its lengths.
const BEFORE: [&str; 2] = ["before", "before at lengths"];

/// The first columns are words, the others numbers.
const WORDS: usize = 4;

/// Cases of one entry and setting.
pub struct Row<'a> {
    cases: Vec<&'a Case>,
}

pub fn rows(cases: &[Case]) -> Vec<Row<'_>> {
    let mut rows: Vec<Row> = Vec::new();
    for case in cases {
        match rows.iter_mut().find(|row| row.holds(case)) {
            Some(row) => row.cases.push(case),
            None => rows.push(Row { cases: vec![case] }),
        }
    }
    // The rows of an entry stand together, in the order of their first.
    let entries: Vec<&str> = rows.iter().map(Row::entry).collect();
    let mut places: Vec<usize> = (0..rows.len()).collect();
    places.sort_by_key(|&row| entries.iter().position(|entry| *entry == entries[row]));
    let mut rows: Vec<Option<Row>> = rows.into_iter().map(Some).collect();
    places.iter().filter_map(|&row| rows[row].take()).collect()
}

impl Row<'_> {
    pub fn entry(&self) -> &'static str {
        self.cases[0].label.entry
    }

    pub fn name(&self) -> String {
        format!("{}, {}", self.entry(), self.cases[0].label.setting)
    }

    pub fn over_aim(&self) -> bool {
        let worst = self.worst();
        aim(worst).is_some_and(|aim| worst.ratio() > aim)
    }

    pub fn apart(&self) -> bool {
        let apart = |ratio: f64| ratio.max(1.0 / ratio) > MOST_APART;
        let mut whole = self.cases.iter().filter(|case| case.is_whole_line());
        self.entry() == "decode_line" && whole.any(|case| apart(case.ratio()))
    }

    pub fn rises(&self) -> bool {
        self.growth().is_some_and(|growth| growth > MOST_GROWTH)
    }

    pub fn too_deep(&self) -> bool {
        self.stack() > stack_use::limit(self.entry())
    }

    pub fn stack(&self) -> usize {
        let bytes = self.cases.iter().map(|case| case.stack);
        bytes.max().unwrap_or(0)
    }

    fn growth(&self) -> Option<f64> {
        let growths = self.cases.iter().filter_map(|case| case.growth());
        growths.max_by(f64::total_cmp)
    }

    /// The case with the greatest ratio.
    fn worst(&self) -> &Case {
        let mut worst = self.cases[0];
        for case in &self.cases {
            if case.ratio() > worst.ratio() {
                worst = case;
            }
        }
        worst
    }

    fn holds(&self, case: &Case) -> bool {
        let label = &self.cases[0].label;
        label.entry == case.label.entry && label.setting == case.label.setting
    }

    fn cells(&self, before: bool) -> Vec<String> {
        let case = self.worst();
        let mut cells = vec![
            case.label.entry.to_string(),
            case.label.setting.clone(),
            case.label.input.clone(),
            case.unit().to_string(),
            nanoseconds(case.library()),
            nanoseconds(case.plain()),
            times(Some(case.ratio())),
            aim(case).map_or(String::new(), |aim| aim.to_string()),
        ];
        if before {
            cells.push(times(case.before()));
        }
        let lengths = case.lengths().into_iter();
        let mut lengths: Vec<String> = lengths
            .map(|time| time.map_or(String::new(), nanoseconds))
            .collect();
        lengths.resize(LENGTHS.len(), String::new());
        cells.extend(lengths);
        cells.push(times(self.growth()));
        cells.push(times(case.ratio_short()));
        if before {
            cells.extend(case.before_lengths().map(times));
        }
        cells.push(self.stack().to_string());
        cells
    }
}

/// The ratio that is aimed at, where there is one: of lines, along whole ones.
fn aim(case: &Case) -> Option<f64> {
    match case.label.entry {
        _ if case.is_line() && !case.is_whole_line() => None,
        _ if case.label.setting.ends_with(Case::BESIDE) => Some(2.0),
        "decode_line" | "unpack_line" | "pack_line" => Some(1.1),
        "encode_line" => Some(0.7),
        "rgb_to_ycbcr" | "ycbcr_to_rgb" => Some(0.45),
        "card_read" | "card_write" => Some(1.3),
        _ => None,
    }
}

/// How many times as much, where it is known.
fn times(ratio: Option<f64>) -> String {
    ratio.map_or(String::new(), |ratio| format!("{ratio:.2}"))
}

/// Three digits at least.
fn nanoseconds(number: f64) -> String {
    if number < 10.0 {
        format!("{number:.2}")
    } else if number < 100.0 {
        format!("{number:.1}")
    } else {
        format!("{number:.0}")
    }
}

/// The rows as Markdown, in columns of one width, with or without the column of the
/// library before.
pub fn text(rows: &[Row], before: bool) -> String {
    let mut lines: Vec<Vec<String>> = vec![head(before)];
    lines.extend(rows.iter().map(|row| row.cells(before)));
    let widths: Vec<usize> = (0..lines[0].len())
        .map(|column| {
            lines
                .iter()
                .map(|line| line[column].len())
                .max()
                .unwrap_or(0)
        })
        .collect();
    let mut text = String::new();
    for (number, line) in lines.iter().enumerate() {
        for (column, (cell, &width)) in line.iter().zip(&widths).enumerate() {
            text.push_str(&if column < WORDS {
                format!("| {cell:width$} ")
            } else {
                format!("| {cell:>width$} ")
            });
        }
        text.push_str("|\n");
        if number == 0 {
            text.push_str(&rule(&widths));
        }
    }
    text
}

fn rule(widths: &[usize]) -> String {
    let mut rule = String::new();
    for (column, width) in widths.iter().enumerate() {
        let end = if column < WORDS { "-" } else { ":" };
        rule.push_str(&format!("|{}{end}", "-".repeat(width + 1)));
    }
    rule + "|\n"
}

fn head(before: bool) -> Vec<String> {
    let mut head = Vec::new();
    for name in HEAD {
        if BEFORE.contains(&name) && !before {
            continue;
        }
        if name == "lengths" {
            head.extend(LENGTHS.map(|length| format!("at {length}")));
        } else if name == BEFORE[1] {
            head.extend(BEFORE_LENGTHS.map(|length| format!("before at {length}")));
        } else {
            head.push(name.to_string());
        }
    }
    head
}
