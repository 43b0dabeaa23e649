//! Fence reports (document 02, N10) in words: their fences, which mark is wrong, which part fails. Number and place are the library's own and proved;
//! the parts are cut out here, so that the library can be asked about one alone, and neither that nor the words are.

use crate::contents::{self, Operation, Program};
use crate::library::{Lent, Verdict};
use crate::trace;

/// The place of 23 for the list.
pub const LIST: u64 = 8;

/// A report whose records the library has read through.
pub struct Report<'a> {
    pub program: Program,
    bytes: &'a [u8],
    marks: Vec<u8>,
    /// From one claim to the next: the list, and then a run for each mark.
    evidence: Vec<&'a [u8]>,
}

/// A part that was refused, as a pair of files.
pub struct Part<'a> {
    pub words: String,
    program: Vec<u8>,
    evidence: &'a [u8],
}

impl Part<'_> {
    pub fn lent(&self) -> Lent<'_> {
        Lent { program: Some(&self.program), file: self.evidence }
    }
}

impl<'a> Report<'a> {
    /// None if the bytes are no report, which the library has said then.
    pub fn of(file: &'a [u8]) -> Option<Report<'a>> {
        let (mut at, mut marks, mut claims, mut end) = (0, Vec::new(), Vec::new(), None);
        while let Some(byte) = file.get(at) {
            match byte {
                0x30 => marks.push(*file.get(at + 1)?),
                0x0f => claims.push(at),
                _ => {}
            }
            if matches!(byte, 0x30 | 0x0f) {
                end.get_or_insert(at);
            }
            at += 1 + contents::kind(*byte)?.0;
        }
        let bytes = file.get(..end?)?;
        let program = contents::read_program(bytes).ok()?;
        claims.push(file.len());
        let evidence = claims.windows(2).map(|two| file.get(two[0]..two[1])).collect::<Option<Vec<_>>>()?;
        (evidence.len() == marks.len() + 1).then_some(Report { program, bytes, marks, evidence })
    }

    /// Of an accepted report: `t1, an sfence of process 0, from state 0 to 1: ..` for each mark.
    pub fn fences(&self) -> Vec<String> {
        if self.marks.is_empty() {
            return vec!["none is marked; with all as they are, no target is reached".to_string()];
        }
        let needed = |words| format!("{words}: with a nop in its place a target is reached");
        self.marks.iter().filter_map(|mark| self.transition(*mark)).map(needed).collect()
    }

    fn transition(&self, number: u8) -> Option<String> {
        let t = self.program.transitions.get(usize::from(number))?;
        let p = t.process;
        let what = match t.operation {
            Operation::Mfence => format!("an mfence of process {p}"),
            Operation::Sfence => format!("an sfence of process {p}"),
            Operation::Nop => format!("a nop of process {p}"),
            Operation::Read { variable, value } => format!("a read of process {p}, variable {variable} as {value}"),
            Operation::Write { variable, value } => format!("a write of process {p}, {value} to variable {variable}"),
            Operation::Arw { variable, old, new } => format!("an arw of process {p}, variable {variable} from {old} to {new}"),
            _ => return None,
        };
        Some(format!("t{number}, {what}, from state {} to {}", t.from, t.to))
    }

    /// Why the mark of 22 is none.
    pub fn wrong_mark(&self, v: Verdict) -> Option<String> {
        let place = usize::try_from(v.second).ok()?;
        let number = *self.marks.get(place)?;
        Some(match self.marks.get(..place)?.iter().position(|mark| *mark == number) {
            Some(earlier) => format!("mark {place} is t{number}, and so is mark {earlier}"),
            None => format!("mark {place} is no fence: {}", self.transition(number)?),
        })
    }

    /// The part of 23 that fails.
    pub fn failing(&self, v: Verdict) -> Option<Part<'a>> {
        if v.second == LIST {
            return Some(Part { words: "the list".to_string(), program: self.bytes.to_vec(), evidence: self.evidence.first()? });
        }
        self.run(usize::try_from(v.second).ok()?)
    }

    /// The run of a mark, with the program in which its own fence is a nop.
    fn run(&self, place: usize) -> Option<Part<'a>> {
        let (number, evidence) = (*self.marks.get(place)?, self.evidence.get(place + 1)?);
        let mut program = self.program.clone();
        program.transitions.get_mut(usize::from(number))?.operation = Operation::Nop;
        Some(Part { words: format!("the run of mark {place}, with t{number} a nop"), program: program.bytes(), evidence })
    }

    /// The runs step by step: of an accepted report all of them, of 23 the one that fails.
    pub fn trace(&self, v: Verdict) -> Vec<String> {
        let runs: Vec<Part> = match v.is_refused() {
            true => self.failing(v).filter(|_| v.second != LIST).into_iter().collect(),
            false => (0..self.marks.len()).filter_map(|place| self.run(place)).collect(),
        };
        let told = |part: &Part| {
            let lines = trace::of_files(&part.program, Some(part.evidence), None).map_or(Vec::new(), |told| told.lines);
            [vec![part.words.clone()], lines].concat()
        };
        runs.iter().flat_map(told).collect()
    }
}
