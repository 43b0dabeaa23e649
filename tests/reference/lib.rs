//! A judge written separately, from the papers alone, to be compared with the proved one.
//! It shares no code, no order of work and no layout with it: records are read into owned values, a channel has its oldest message first,
//! lists are answered over a hash index by structure, and a second algorithm (`brute`) knows only the machine and the order. It is written
//! to be fast, as a judge without proofs would be: times of the proved one are given as ratios to it (bench/run).

pub mod brute;
pub mod cubes;
pub mod entries;
pub mod index;
pub mod machine;
pub mod pso;
pub mod reading;
pub mod record;
pub mod running;
pub mod writing;

pub use machine::{Configuration, Machine, Message, Operation, Program, Run, Step, Transition};
pub use reading::{read, Evidence, Lent};
pub use record::Record;
pub use running::Running;

/// Stands for any value of its place, in an entry.
pub const FF: u8 = 255;

#[derive(Clone, Copy, PartialEq, Eq, Debug)]
pub enum Verdict {
    Safe(u64),
    Reachable(u64, u64),
    /// Claim 2.
    Pso(u64, u64),
    Refused(u64, u64),
    /// Number 11: the lowest entry, and the lowest step through which a configuration outside the list gets above it.
    Open(u64, Step),
}

impl std::fmt::Display for Verdict {
    fn fmt(&self, f: &mut std::fmt::Formatter) -> std::fmt::Result {
        match self {
            Verdict::Safe(n) => write!(f, "safe {}", n),
            Verdict::Reachable(steps, target) => write!(f, "reachable {} {}", steps, target),
            Verdict::Pso(steps, target) => write!(f, "pso {} {}", steps, target),
            Verdict::Refused(number, place) => write!(f, "refused {} {}", number, place),
            Verdict::Open(entry, step) => write!(f, "refused 11 {} {}", entry, step),
        }
    }
}

/// A verdict, and the offending record that comes with it.
#[derive(Clone, Copy, PartialEq, Eq, Debug)]
pub struct Answer {
    pub verdict: Verdict,
    pub record: Record,
}

impl Answer {
    /// Every answer that has to do with no record hands back the empty end of the evidence or combined file.
    pub fn without_record(lent: Lent, verdict: Verdict) -> Answer {
        Answer { verdict, record: Record::none(lent) }
    }
}

impl std::fmt::Display for Answer {
    fn fmt(&self, f: &mut std::fmt::Formatter) -> std::fmt::Result {
        write!(f, "{}, record {}", self.verdict, self.record)
    }
}

/// Bytes of a work area: the least that is not refused with 8, and the most that is ever used.
pub const AREA_LEAST: usize = 65_536;
pub const AREA_MOST: usize = 16_384 + 12 * 524_288;

/// Document 01, "Records", with twelve bytes an entry (request N2): entries allowed by a work area of `area` bytes.
pub fn entries_allowed(area: usize) -> usize {
    (area.saturating_sub(16_384) / 12).min(524_288)
}

/// The whole judgement of what is lent, with a work area of `area` bytes.
pub fn judge<'a>(lent: impl Into<Lent<'a>>, area: usize) -> Answer {
    let lent = lent.into();
    if area < AREA_LEAST {
        return Answer::without_record(lent, Verdict::Refused(8, 0));
    }
    let verdict = match read(lent, entries_allowed(area)) {
        Err(refusal) => {
            return Answer { verdict: Verdict::Refused(refusal.number, refusal.place as u64), record: Record::refused(lent, refusal) };
        }
        Ok((program, Evidence::Run(run))) => replay(&program, &run),
        Ok((program, Evidence::List(list))) => cubes::judge_list(&program, &list),
    };
    Answer::without_record(lent, verdict)
}

/// What the program answers to a file on standard input: its area has 65,536 bytes, and number 14 comes first.
pub fn judge_input(file: &[u8]) -> Verdict {
    if file.len() > 65_536 {
        return Verdict::Refused(14, 65_536);
    }
    judge(file, AREA_LEAST).verdict
}

/// Claims 1 and 2: every step in turn from the starting memory, then the lowest target that the last local states meet.
pub fn replay(program: &Program, run: &Run) -> Verdict {
    let mut configuration = Running::start(run.machine, program, run.memory);
    for (number, step) in run.steps.iter().enumerate() {
        if let Some(cause) = configuration.refusal(program, *step) {
            return Verdict::Refused(cause, number as u64);
        }
        configuration.take(program, *step);
    }
    let steps = run.steps.len() as u64;
    match (program.targets.iter().position(|target| *target == configuration.states()), run.machine) {
        (Some(target), Machine::Pws) => Verdict::Reachable(steps, target as u64),
        (Some(target), Machine::Pso) => Verdict::Pso(steps, target as u64),
        (None, _) => Verdict::Refused(13, steps),
    }
}
