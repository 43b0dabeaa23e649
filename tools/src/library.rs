//! The judge, that of fence reports, the front part for registers, the figures and the drawings, as include/hrafnolt.h declares them. What that
//! header asks of a caller is kept here: slices don't overlap, and nobody else writes to them during a call, since Rust lends them.

use std::fmt;

#[repr(C)]
#[derive(Clone, Copy, Debug, Default, PartialEq, Eq)]
pub struct Verdict {
    pub kind: u64,
    pub first: u64,
    pub second: u64,
    pub step_kind: u64,
    pub step_first: u64,
    pub step_second: u64,
    pub record_file: u64,
    pub record_at: u64,
    pub record_length: u64,
}

pub const SAFE: u64 = 0;
pub const REACHABLE: u64 = 1;
pub const REFUSED: u64 = 2;
pub const PSO: u64 = 3;
/// Of a report: its marks, and the entries of its list.
pub const NEEDED: u64 = 4;

pub const TRANSITION: u64 = 0x20;
pub const SERIALISE: u64 = 0x21;
pub const UPDATE: u64 = 0x22;

pub const PROGRAM_FILE: u64 = 0;
pub const EVIDENCE_FILE: u64 = 1;

pub const WORK_LEAST: usize = 65_536;
pub const ENTRIES_MOST: usize = 524_288;

#[repr(C)]
#[derive(Clone, Copy)]
pub struct Written {
    pub number: u64,
    pub value: u64,
}

pub const DOT_MOST: usize = 33_560;
pub const PROGRAM_MOST: usize = 22_547;
pub const STEPS_MOST: usize = 3 * 1024;

#[repr(C)]
#[derive(Clone, Copy, Default)]
pub struct Collection {
    pub results: u64,
    pub safe: u64,
    pub sum: u64,
    pub squares: u64,
}

#[repr(C)]
#[derive(Clone, Copy)]
pub struct Collected {
    pub number: u64,
    pub collection: Collection,
}

#[repr(C)]
#[derive(Clone, Copy)]
pub struct Fraction {
    pub number: u64,
    pub numerator: u64,
    pub denominator: u64,
}

#[link(name = "exports", kind = "static")]
extern "C" {
    fn hrafnolt_judge(file: *const u8, file_len: usize, work: *mut u8, work_len: usize) -> Verdict;
    fn hrafnolt_judge_pair(
        program: *const u8,
        program_len: usize,
        evidence: *const u8,
        evidence_len: usize,
        work: *mut u8,
        work_len: usize,
    ) -> Verdict;
    fn hrafnolt_report(file: *const u8, file_len: usize, work: *mut u8, work_len: usize) -> Verdict;
    fn hrafnolt_dot_write(steps: *const u8, steps_len: usize, out: *mut u8, out_len: usize) -> Written;
    fn hrafnolt_dot_read(text: *const u8, text_len: usize, out: *mut u8, out_len: usize) -> Written;
    fn hrafnolt_registers(program: *const u8, program_len: usize, out: *mut u8, out_len: usize) -> Written;
    fn hrafnolt_add_safe(c: Collection, entries: u64) -> Collected;
    fn hrafnolt_add_other(c: Collection) -> Collected;
    fn hrafnolt_mean(c: Collection) -> Fraction;
    fn hrafnolt_variance(c: Collection) -> Fraction;
    fn hrafnolt_share(c: Collection) -> Fraction;
}

/// What is judged: a combined file, or a program file and an evidence file.
#[derive(Clone, Copy)]
pub struct Lent<'a> {
    pub program: Option<&'a [u8]>,
    pub file: &'a [u8],
}

/// A work area that is kept from one call to the next, so that it is made as seldom as can be.
#[derive(Default)]
pub struct Area(Vec<u8>);

/// As hrafnolt_work_enough.
pub fn work_enough(length: usize) -> usize {
    (16_384 + 12 * (length / 9).min(ENTRIES_MOST)).max(WORK_LEAST)
}

impl Area {
    /// What a file of this length needs, and no more: the judge sets all that is lent to 0 again.
    fn lend(&mut self, length: usize) -> Option<&mut [u8]> {
        let needed = work_enough(length);
        if self.0.len() < needed {
            let mut more = Vec::new();
            more.try_reserve_exact(needed).ok()?;
            more.resize(needed, 0);
            self.0 = more;
        }
        self.0.get_mut(..needed)
    }
}

/// None if there is no memory for a work area.
pub fn judge(lent: Lent, area: &mut Area) -> Option<Verdict> {
    let (file, work) = (lent.file, area.lend(lent.file.len())?);
    Some(unsafe {
        match lent.program {
            None => hrafnolt_judge(file.as_ptr(), file.len(), work.as_mut_ptr(), work.len()),
            Some(program) => hrafnolt_judge_pair(program.as_ptr(), program.len(), file.as_ptr(), file.len(), work.as_mut_ptr(), work.len()),
        }
    })
}

/// The same of a fence report.
pub fn report(file: &[u8], area: &mut Area) -> Option<Verdict> {
    let work = area.lend(file.len())?;
    Some(unsafe { hrafnolt_report(file.as_ptr(), file.len(), work.as_mut_ptr(), work.len()) })
}

/// The bytes written, or the number of a refusal and its place.
pub fn dot_write(steps: &[u8]) -> Result<Vec<u8>, (u64, u64)> {
    let mut out = vec![0; DOT_MOST];
    let written = unsafe { hrafnolt_dot_write(steps.as_ptr(), steps.len(), out.as_mut_ptr(), out.len()) };
    taken(written, out)
}

pub fn dot_read(text: &[u8]) -> Result<Vec<u8>, (u64, u64)> {
    let mut out = vec![0; STEPS_MOST];
    let written = unsafe { hrafnolt_dot_read(text.as_ptr(), text.len(), out.as_mut_ptr(), out.len()) };
    taken(written, out)
}

/// The program file that is written for a program with registers.
pub fn registers(program: &[u8]) -> Result<Vec<u8>, (u64, u64)> {
    let mut out = vec![0; PROGRAM_MOST];
    let written = unsafe { hrafnolt_registers(program.as_ptr(), program.len(), out.as_mut_ptr(), out.len()) };
    taken(written, out)
}

fn taken(written: Written, mut out: Vec<u8>) -> Result<Vec<u8>, (u64, u64)> {
    if written.number != 0 {
        return Err((written.number, written.value));
    }
    out.truncate(usize::try_from(written.value).unwrap_or(0));
    Ok(out)
}

impl Collection {
    /// The collection with a verdict more, or 25 and the collection as it was.
    pub fn add(self, v: Verdict) -> Collected {
        unsafe {
            match v.kind {
                SAFE => hrafnolt_add_safe(self, v.first),
                _ => hrafnolt_add_other(self),
            }
        }
    }

    pub fn mean(self) -> Fraction {
        unsafe { hrafnolt_mean(self) }
    }

    pub fn variance(self) -> Fraction {
        unsafe { hrafnolt_variance(self) }
    }

    pub fn share(self) -> Fraction {
        unsafe { hrafnolt_share(self) }
    }
}

impl Verdict {
    pub fn is_refused(&self) -> bool {
        self.kind == REFUSED
    }

    /// Is it a refusal with one of these numbers?
    pub fn refuses(&self, numbers: &[u64]) -> bool {
        self.is_refused() && numbers.contains(&self.first)
    }

    /// Refusals 1 to 7 are about the records of a file; all others are about what the records say.
    pub fn about_records(&self) -> bool {
        self.is_refused() && self.first <= 7
    }

    pub fn kind_word(&self) -> &'static str {
        match self.kind {
            SAFE => "safe",
            REACHABLE => "reachable",
            PSO => "pso",
            NEEDED => "needed",
            _ => "refused",
        }
    }

    /// The step of 11: t and the transition, s with process and variable, u and the process.
    pub fn step(&self) -> Option<String> {
        match self.step_kind {
            TRANSITION => Some(format!("t{}", self.step_first)),
            SERIALISE => Some(format!("s{}{}", self.step_first, self.step_second)),
            UPDATE => Some(format!("u{}", self.step_first)),
            _ => None,
        }
    }

    /// The offending record in its file.
    pub fn record<'a>(&self, lent: Lent<'a>) -> Option<&'a [u8]> {
        let file = match lent.program {
            Some(program) if self.record_file == PROGRAM_FILE => program,
            _ => lent.file,
        };
        let at = usize::try_from(self.record_at).ok()?;
        let end = at.checked_add(usize::try_from(self.record_length).ok()?)?;
        file.get(at..end)
    }
}

/// The line, as the program hrafnolt prints it, without a line feed.
impl fmt::Display for Verdict {
    fn fmt(&self, to: &mut fmt::Formatter) -> fmt::Result {
        write!(to, "{} {}", self.kind_word(), self.first)?;
        if self.kind != SAFE {
            write!(to, " {}", self.second)?;
        }
        match self.step() {
            Some(step) => write!(to, " {}", step),
            None => Ok(()),
        }
    }
}
