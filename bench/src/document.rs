//! docs/PERFORMANCE.md: one run, and how to read it.

use std::env;

use crate::case::{BEFORE_LENGTHS, EACH_ROUNDS, LENGTHS};
use crate::inputs::POINTS;
use crate::machine;
use crate::stack_use;
use crate::table::{MOST_APART, MOST_GROWTH};
use crate::ROUNDS;

/// What is said of an earlier library.
fn of_before() -> String {
    let lengths = BEFORE_LENGTHS.map(|length| length.to_string()).join(", ");
    format!(
        "
- *before*, *before at {lengths}*: how many times as long the library takes as it did in an earlier state, whose archive was
  measured in the same rounds, along a whole line and in lines of so many points; again medians of the rounds' ratios. For
  this both are loaded as shared objects and called through pointers, so that these columns do not follow from *library*:
  the same machine code takes up to two fifths less or more time as it lies in the program and is called. Empty where an
  entry is not compared, and for groups. An earlier state may count no cuts, and so do less."
    )
}

pub fn text(load: &str, table: &str, verdict: &str, before: bool) -> String {
    let told = |name| env::var(name).unwrap_or_else(|_| "unknown".to_string());
    let (date, rustc, rattle) = (
        told("BENCH_DATE"),
        told("BENCH_RUSTC"),
        told("BENCH_RATTLE"),
    );
    let machine = machine::kind();
    let lengths = LENGTHS.map(|length| length.to_string()).join(", ");
    let (limit, picture_limit) = (stack_use::LIMIT, stack_use::PICTURE_LIMIT);
    let picture_rounds = ROUNDS.div_ceil(EACH_ROUNDS);
    let before = if before { of_before() } else { String::new() };
    format!(
        "# Performance

Written by `bench/run --write`, from one run; `bench/run` alone prints the same table.

- Date: {date}
- Machine: {machine}; load average {load} before the run (0: nothing else was running)
- Plain Rust: {rustc}, optimization level 3; the library: {rattle}

{table}
{verdict}
## How to read it

- *a*, *library*, *plain*, *ratio*: nanoseconds a point of a line of {POINTS} points, or a call, by the library and by
  plain Rust that does the same job with the same refusals, and how many times as long the library takes. Medians of {ROUNDS}
  rounds; both are measured one after the other in each round, and the ratio is the median of the rounds' ratios. Before
  that both are run on every input, refused ones too, and must give the same answers, outputs and numbers of cuts.
- *setting*: a line is in narrow range where none is named; older full is range 3. Where bits are *at* given
  offsets, fields reach into a third byte: they have 2, 3 and 2 bytes in a point of 5, and 3 each in one of 8. In the other
  layouts of lines all three have 1 byte (8 bits) or 2. Groups are two points that share their colour: in *lines of* 16 and 256
  points both programs are given the same short lines.
- *input*: a row's inputs are smooth and random lines, of all depths for colors; shown is the one with the greatest
  ratio.
- *pictures* (ppm_export, ppm_import) have 1,920 by 1,080 points, and {picture_rounds} rounds. At 4096 stands the library where
  the same points are given as pictures of 64 by 64, each with its own place in memory; *growth* is from there to the whole.
  Where a row says *beside ycbcr_to_rgb and a copy*, the column *plain* has the library's own conversion of the same points, as
  lines of 1,920 points' codes, and a copy of each line made: half as many points a second are to be exported at least.
- *aim*: the ratio that is not to be exceeded, where one is set. It is not enforced. But the run fails if one of the
  two takes over {MOST_APART} times as long as the other to decode a line: a loop that the compiler no longer does four points of
  at a time takes 1.4 to 2.5 times as long, and nothing else would tell.{before}
- *at {lengths}*: the library's nanoseconds a point where the same {POINTS} points are given as lines of so many. A group is
  no line of one.
- *growth*: the most by which the cost a point rises from one of these lengths to any longer one, on any of the row's
  inputs: under 1 it falls everywhere. The run fails above {MOST_GROWTH}.
- *ratio at 1*: the ratio to plain Rust where both are given the line as lines of one point.
- *stack*: the most bytes of stack that a call used, on accepted and refused inputs; the return address and the few
  frames between the benchmark and the entry are counted too. The run fails above {limit}, for pictures above {picture_limit}.

## Shapes, and why they are exact

What a line needs is worked out once (scales, rows, sizes). Every loop over a long line is of a shape that the compiler does two
or more points of at a time, with SSE2 alone. Encoding and conversion do eight points a turn: all eight are worked out before
any is stored.

*Decoding* and *unpacking* take each code from the one to three bytes that hold its field, and look at no others. Where the
three fields of a layout have the same count of bytes, one loop goes from point to point; else one loop follows the other, a
channel each. Points of 4 bytes lost by it: four of them, 16 bytes, used to be loaded at once, and a code may no longer be taken
out of more than its own bytes. The step from one point to the next is written as a sum of two halves, bytes / 2 and
(bytes + 1) / 2. If it were a bare number, the compiler would take it for 1, and make a loop of four points at a time for that step, which no
layout has; the true step would be left to a loop of one point at a time. It does not try that with a sum.

*Groups* have a loop of their own each, a group a turn; encoding does eight groups a turn. All that a turn reads is read before
it stores anything, so that the compiler reads and stores it at once, or does several groups side by side. Packing looks for a
code above 255 with an early exit: without one the compiler gathers codes of several groups from their places, and takes three
times as long. The second point's colour is not read.

*Encoding* is one product and one sum in f64: t = v span + (base + 4096.5). v is an f32 of 24 digits and span has 13 at most, so
that the product is exact. Two comparisons bring t to its ends, from low + 4096 to below high + 4097. From 4096 to below 8192 an
f64 has 40 digits below the binary point, and the code is bits 40 to 51 of its pattern: no cast, no division. The sum is the
only step that can round. Say that v is m 2^-k, with m below 2^24. If k is 40 or less, t is a multiple of 2^-40 and is held
exactly. If k is more, v is below 2^24 2^-41, and the product below 2^12 2^-17 = 1/32; base + 4096.5 lies halfway between two
whole numbers, so that t lies within 1/32 of there, and rounding it by 2^-41 at most leads to no other whole number. The code is
the whole part of t, so it is right either way, and infinities are brought to the ends.

*Conversion* is one division in f64 of whole numbers: (a x + b y + c z + d) / e, where x, y, z are codes of 12 bits at most, and
d has, over e, the base, 1/2 for the rounding, and 4096. All products and sums stay below 2^53, so that they are exact, and e is
at most 2^40. A fraction with such a divisor that is no whole number is at least 2^-40 below the next one. The f64 nearest to
it, which is a multiple of 2^-40 between 4096 and 8192, can then not pass that whole number, and whole numbers are held: so the
whole part stays; and what lies outside the ends is brought to them. G' from narrow codes has its common factors taken out
beforehand, since its sums would pass 2^53.

*Cuts* are one comparison more: whether bringing t to its ends changed it. For that the upper end is high + 4097 - 2^-40, the
last f64 whose whole part is the highest code, and the lower one low + 4096, or in full range, where -1/2 is cut, the f64 after
it. The cuts of eight points are added up in 64 bits, as the codes are made; in 32 the compiler would have to narrow each
comparison.
"
    )
}
