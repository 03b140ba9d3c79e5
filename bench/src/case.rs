//! One job, done by the library, by plain Rust, and by an earlier library if one is
//! given: checked, then measured.

use std::hint::black_box;
use std::rc::Rc;

use crate::before::{Both, LineBefore};
use crate::inputs::POINTS;
use crate::side::{median, Side};
use crate::stack_use;

/// Lengths of lines, in points: the same points are cut into such lines, where they can be.
pub const LENGTHS: [usize; 6] = [1, 16, 64, 256, 1024, POINTS];

/// Those of them at which the library before is measured too, beside the whole line.
pub const BEFORE_LENGTHS: [usize; 3] = [1, 16, 256];

/// Of so many rounds, pictures are measured in the first.
pub const EACH_ROUNDS: usize = 5;

/// A number of cuts as it is before a call that is checked: more than there can be.
pub const NO_CUTS: u32 = u32::MAX;

/// What a case is called in the table.
#[derive(Clone)]
pub struct Label {
    pub entry: &'static str,
    /// A row's cases have the same entry and setting.
    pub setting: String,
    pub input: String,
}

impl Label {
    fn wrong(&self, what: &str, answers: [i64; 2]) -> String {
        let Label {
            entry,
            setting,
            input,
        } = self;
        format!("{entry}, {setting}, {input}: {what} {answers:?}")
    }
}

pub struct Case {
    pub label: Label,
    /// The most bytes of stack that a call of the library used.
    pub stack: usize,
    library: Side,
    plain: Side,
    /// Plain Rust in lines of one point; none but for lines.
    plain_short: Option<Side>,
    /// The library called as the one before is, and that one, where it is given and has the entry.
    before: Option<Both<Side>>,
    /// The same at their lengths; none but for lines.
    before_lengths: Vec<Both<Side>>,
    /// The library at each of the lengths that there are; none but for whole lines. A
    /// picture's points as smaller pictures, of as many points as the last of them.
    lengths: Vec<Option<Side>>,
    kind: Kind,
}

#[derive(Clone, Copy, PartialEq)]
enum Kind {
    Line,
    Picture,
    Call,
}

/// A picture, and the same points as smaller ones, with the points of each.
pub struct Shots<I> {
    pub whole: I,
    pub small: Vec<I>,
    pub points: [usize; 2],
}

/// A line, and the length of the output that is given with it.
#[derive(Clone)]
pub struct Line<S, I> {
    /// The numbers of a layout or of a conversion.
    pub numbers: S,
    pub elements: Vec<I>,
    pub output: usize,
    /// The points that cannot be parted: one, or the two of a group.
    pub points_each: usize,
}

/// A job on lines answers the count of points, and stores the number of cuts if it counts
/// them.
pub type LineJob<S, I, O> = fn(S, &[I], &mut [O], &mut u32) -> i64;

/// Any other job takes one input and may fill an output.
pub type CallJob<I, O> = fn(&I, &mut O) -> i64;

impl Case {
    /// The library and plain Rust at one length alone.
    fn alone(kind: Kind, label: Label, stack: usize, sides: [Side; 2]) -> Case {
        let [library, plain] = sides;
        Case {
            label,
            stack,
            library,
            plain,
            plain_short: None,
            before: None,
            before_lengths: Vec::new(),
            lengths: Vec::new(),
            kind,
        }
    }

    /// A job on a line of `POINTS` points. An error if the two programs do not give
    /// the same output, or do not refuse the lines that are to be refused.
    pub fn line<S, I, O>(
        label: Label,
        accepted: Line<S, I>,
        refused: &[Line<S, I>],
        jobs: [LineJob<S, I, O>; 2],
    ) -> Result<Case, String>
    where
        S: Copy + 'static,
        I: Copy + 'static,
        O: Copy + Default + PartialEq + 'static,
    {
        let stack = checked_lines(&label, &accepted, refused, jobs)?;
        let [library, plain] = jobs;
        let side = |job, length| line_side(job, accepted.clone(), length);
        let at = |job, length: usize| {
            let whole = length.is_multiple_of(accepted.points_each);
            whole.then(|| side(job, length))
        };
        let sides = [side(library, POINTS), side(plain, POINTS)];
        Ok(Case {
            plain_short: at(plain, LENGTHS[0]),
            lengths: LENGTHS.map(|length| at(library, length)).into(),
            ..Case::alone(Kind::Line, label, stack, sides)
        })
    }

    /// The same line as lines of so many points, by both programs.
    pub fn short_lines<S, I, O>(
        label: Label,
        whole: Line<S, I>,
        length: usize,
        jobs: [LineJob<S, I, O>; 2],
    ) -> Result<Case, String>
    where
        S: Copy + 'static,
        I: Copy + 'static,
        O: Copy + Default + PartialEq + 'static,
    {
        let first = Line {
            elements: whole.elements[..whole.elements.len() / POINTS * length].to_vec(),
            output: whole.output / POINTS * length,
            ..whole
        };
        let stack = checked_lines(&label, &first, &[], jobs)?;
        let sides = jobs.map(|job| line_side(job, whole.clone(), length));
        Ok(Case::alone(Kind::Line, label, stack, sides))
    }

    /// A job on each of some inputs, likewise.
    pub fn calls<I, O>(
        label: Label,
        accepted: Vec<I>,
        refused: &[I],
        output: O,
        jobs: [CallJob<I, O>; 2],
    ) -> Result<Case, String>
    where
        I: Clone + 'static,
        O: Clone + PartialEq + 'static,
    {
        let mut check = Check::new(&label);
        for (input, wanted) in inputs(&accepted, refused) {
            let [library, plain] = jobs.map(|job| move |made: &mut O| job(black_box(input), made));
            check.add(wanted, &output, library, plain)?;
        }
        let [library, plain] = jobs.map(|job| call_side(job, accepted.clone(), output.clone()));
        let stack = check.stack;
        Ok(Case::alone(Kind::Call, label, stack, [library, plain]))
    }

    /// A job on a picture, likewise: on the whole of it by both programs, and by the library
    /// on the smaller ones. The outputs are for the whole and for a smaller one; what is
    /// refused is given with the latter.
    pub fn pictures<I, O>(
        label: Label,
        shots: Shots<I>,
        refused: &[I],
        [output, small_output]: [O; 2],
        jobs: [CallJob<I, O>; 2],
    ) -> Result<Case, String>
    where
        I: Clone + 'static,
        O: Clone + PartialEq + 'static,
    {
        let Shots {
            whole,
            small,
            points: [points, small_points],
        } = shots;
        let mut check = Check::new(&label);
        let inputs = [(&whole, true, &output), (&small[0], true, &small_output)];
        let refused = refused.iter().map(|input| (input, false, &small_output));
        for (input, wanted, output) in inputs.into_iter().chain(refused) {
            let [library, plain] = jobs.map(|job| move |made: &mut O| job(black_box(input), made));
            check.add(wanted, output, library, plain)?;
        }
        let stack = check.stack;
        let [library, plain] =
            jobs.map(|job| picture_side(job, vec![(whole.clone(), output.clone())], points));
        let small = small.into_iter().map(|input| (input, small_output.clone()));
        let small = picture_side(jobs[0], small.collect(), small_points);
        let mut lengths: Vec<Option<Side>> = (1..LENGTHS.len()).map(|_| None).collect();
        lengths.push(Some(small));
        Ok(Case {
            lengths,
            ..Case::alone(Kind::Picture, label, stack, [library, plain])
        })
    }

    /// What a setting ends in where the library stands beside another job of its own.
    pub const BESIDE: &str = ", beside ycbcr_to_rgb and a copy";

    /// The library's job on a picture beside such a job, in the place of plain Rust. An error
    /// if they do not answer the same count of points.
    pub fn two_sides(label: Label, sides: [Side; 2]) -> Result<Case, String> {
        let [mut library, mut plain] = sides;
        let answers = [library.answers(), plain.answers()];
        if answers[0] != answers[1] {
            return Err(label.wrong("different counts,", answers));
        }
        let stack = stack_use::bytes(&mut || {
            library.answers();
        });
        Ok(Case::alone(Kind::Picture, label, stack, [library, plain]))
    }

    /// Beside the library before, if it is given. An error if that answers other numbers.
    pub fn beside(mut self, before: Option<Both<Side>>) -> Result<Case, String> {
        self.before = before;
        if let Some(sides) = &mut self.before {
            let answers = sides.each_mut().map(Side::answers);
            if answers[0] != answers[1] {
                let what = "the library before answers other numbers,";
                return Err(self.label.wrong(what, answers));
            }
        }
        Ok(self)
    }

    /// The same of a line: along the whole of it, and in shorter ones.
    pub fn beside_line<S, I, O>(
        self,
        line: Line<S, I>,
        before: Option<Both<LineBefore<S, I, O>>>,
    ) -> Result<Case, String>
    where
        S: Copy + 'static,
        I: Clone + 'static,
        O: Copy + Default + 'static,
    {
        let Some(jobs) = before.map(|jobs| jobs.map(Rc::new)) else {
            return Ok(self);
        };
        let sides = |length| {
            jobs.clone().map(|job| {
                let job = move |numbers: S, given: &[I], made: &mut [O], cuts: &mut u32| {
                    job(numbers, given, made, cuts)
                };
                line_side(job, line.clone(), length)
            })
        };
        let mut case = self.beside(Some(sides(POINTS)))?;
        case.before_lengths = BEFORE_LENGTHS.map(sides).into();
        Ok(case)
    }

    pub fn is_line(&self) -> bool {
        self.kind == Kind::Line
    }

    /// What is measured.
    pub fn unit(&self) -> &'static str {
        match self.kind {
            Kind::Line | Kind::Picture => "point",
            Kind::Call => "call",
        }
    }

    /// Whether it is measured along whole lines.
    pub fn is_whole_line(&self) -> bool {
        !self.lengths.is_empty()
    }

    /// Measures all sides once. The programs take turns at going first, and so do
    /// the lengths: a processor learns the branches of a line that comes again.
    pub fn measure(&mut self, round: usize) {
        if self.kind == Kind::Picture && !round.is_multiple_of(EACH_ROUNDS) {
            return;
        }
        let mut programs = vec![&mut self.library, &mut self.plain];
        programs.extend(self.before.iter_mut().flatten());
        measure_in_turn(programs, round);
        let lengths = self.lengths.iter_mut().flatten();
        let short = lengths
            .chain(&mut self.plain_short)
            .chain(self.before_lengths.iter_mut().flatten());
        measure_in_turn(short.collect(), round);
    }

    /// The library's nanoseconds a point or a call.
    pub fn library(&self) -> f64 {
        self.library.median()
    }

    pub fn plain(&self) -> f64 {
        self.plain.median()
    }

    /// The median of the rounds' ratios. The two times of a round lie side by side,
    /// so a slow time of the machine moves the ratio less than the times.
    pub fn ratio(&self) -> f64 {
        median(self.library.over(&self.plain))
    }

    /// The same of the library to the one before, both called in that one's way.
    pub fn before(&self) -> Option<f64> {
        self.before.as_ref().map(present_over_before)
    }

    /// The library's ratio to plain Rust in lines of one point, which is the first of the
    /// lengths.
    pub fn ratio_short(&self) -> Option<f64> {
        let library = self.lengths.first()?.as_ref()?;
        let plain = self.plain_short.as_ref()?;
        Some(median(library.over(plain)))
    }

    /// The same at each of their lengths.
    pub fn before_lengths(&self) -> [Option<f64>; BEFORE_LENGTHS.len()] {
        let mut before = self.before_lengths.iter();
        BEFORE_LENGTHS.map(|_| before.next().map(present_over_before))
    }

    /// Nanoseconds a point at each of the lengths that there are.
    pub fn lengths(&self) -> Vec<Option<f64>> {
        let sides = self.lengths.iter();
        sides.map(|side| side.as_ref().map(Side::median)).collect()
    }

    /// How the cost a point rises at most from one length to a longer one, as a
    /// median of the rounds' ratios; none but for lines.
    pub fn growth(&self) -> Option<f64> {
        let mut lengths: Vec<&Side> = self.lengths.iter().flatten().collect();
        if self.kind == Kind::Picture {
            lengths.push(&self.library);
        }
        let longer = lengths.iter().enumerate();
        longer
            .flat_map(|(place, longer)| {
                let shorter = &lengths[..place];
                shorter.iter().map(|shorter| median(longer.over(shorter)))
            })
            .max_by(f64::total_cmp)
    }
}

fn present_over_before([present, before]: &Both<Side>) -> f64 {
    median(present.over(before))
}

fn measure_in_turn(mut sides: Vec<&mut Side>, round: usize) {
    let count = sides.len();
    for turn in 0..count {
        sides[(turn + round) % count].measure();
    }
}

/// The whole line, as lines of so many points.
pub fn line_side<S, I, O>(
    job: impl Fn(S, &[I], &mut [O], &mut u32) -> i64 + 'static,
    line: Line<S, I>,
    length: usize,
) -> Side
where
    S: Copy + 'static,
    I: 'static,
    O: Copy + Default + 'static,
{
    let Line {
        numbers,
        elements,
        output,
        ..
    } = line;
    let given = elements.len() / POINTS * length;
    let made = output / POINTS * length;
    let mut output = vec![O::default(); output];
    Side::new(POINTS, move || {
        let lines = elements.chunks_exact(given);
        let lines = lines.zip(output.chunks_exact_mut(made));
        let mut cuts = 0;
        let answers = lines.map(|(given, made)| {
            job(
                black_box(numbers),
                black_box(given),
                black_box(made),
                black_box(&mut cuts),
            )
        });
        answers.sum()
    })
}

/// A call for each picture of so many points, each with an output of its own.
fn picture_side<I: 'static, O: 'static>(
    job: CallJob<I, O>,
    mut pictures: Vec<(I, O)>,
    points: usize,
) -> Side {
    Side::long(points * pictures.len(), move || {
        let pictures = pictures.iter_mut();
        let answers = pictures.map(|(input, made)| job(black_box(input), black_box(made)));
        answers.sum()
    })
}

/// A call for each of the inputs.
pub fn call_side<I: 'static, O: 'static>(
    job: impl Fn(&I, &mut O) -> i64 + 'static,
    inputs: Vec<I>,
    mut made: O,
) -> Side {
    Side::new(inputs.len(), move || {
        let inputs = inputs.iter();
        let answers = inputs.map(|input| job(black_box(input), black_box(&mut made)));
        answers.sum()
    })
}

/// Both programs on a line and on those that are to be refused. The most bytes of stack.
fn checked_lines<S, I, O>(
    label: &Label,
    accepted: &Line<S, I>,
    refused: &[Line<S, I>],
    jobs: [LineJob<S, I, O>; 2],
) -> Result<usize, String>
where
    S: Copy,
    O: Copy + Default + PartialEq,
{
    let mut check = Check::new(label);
    for (line, wanted) in inputs(std::slice::from_ref(accepted), refused) {
        let output = (vec![O::default(); line.output], NO_CUTS);
        let [library, plain] = jobs.map(|job| {
            move |(made, cuts): &mut (Vec<O>, u32)| {
                job(line.numbers, black_box(&line.elements), made, cuts)
            }
        });
        check.add(wanted, &output, library, plain)?;
    }
    Ok(check.stack)
}

/// All inputs, and whether each is to be accepted.
fn inputs<'a, I>(accepted: &'a [I], refused: &'a [I]) -> impl Iterator<Item = (&'a I, bool)> {
    let accepted = accepted.iter().map(|input| (input, true));
    accepted.chain(refused.iter().map(|input| (input, false)))
}

/// Tries a case's inputs before it is measured.
struct Check<'a> {
    label: &'a Label,
    stack: usize,
}

impl Check<'_> {
    fn new(label: &Label) -> Check<'_> {
        Check { label, stack: 0 }
    }

    /// An error if the two answers or outputs differ, if only one of the answers
    /// and what is wanted is a refusal, or if a refusal has changed the output.
    fn add<O: Clone + PartialEq>(
        &mut self,
        accepted: bool,
        output: &O,
        library: impl Fn(&mut O) -> i64,
        plain: impl Fn(&mut O) -> i64,
    ) -> Result<(), String> {
        let mut by_library = output.clone();
        let mut by_plain = output.clone();
        let answers = [library(&mut by_library), plain(&mut by_plain)];
        let wrong = |what| Err(self.label.wrong(what, answers));
        if answers[0] != answers[1] || by_library != by_plain {
            return wrong("different answers or outputs,");
        }
        if accepted != (answers[0] >= 0) {
            return wrong("not as wanted,");
        }
        if !accepted && by_library != *output {
            return wrong("output changed,");
        }
        let used = stack_use::bytes(&mut || {
            black_box(library(&mut by_library));
        });
        self.stack = self.stack.max(used);
        Ok(())
    }
}
