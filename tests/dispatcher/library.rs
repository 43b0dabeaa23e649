//! The library's calls, and its structs as the header has them.

use crate::guarded::{Area, File};

#[repr(C)]
#[derive(Clone, Copy, PartialEq, Debug, Default)]
pub struct Verdict {
    pub kind: u64,
    pub first: u64,
    pub second: u64,
    pub step: [u64; 3],
    pub record_file: u64,
    pub record_at: u64,
    pub record_length: u64,
}

/// Words of a place that are the library's own.
pub const OWN: usize = 44;

#[repr(C)]
#[derive(Clone, Copy, Debug)]
pub struct Place {
    pub taken: u64,
    pub own: [u64; OWN],
}

impl Default for Place {
    fn default() -> Place {
        Place { taken: 0, own: [0; OWN] }
    }
}

/// Nine of a place's bytes are none of its numbers', and may be anything.
const UNUSED: [(usize, u64); 3] = [(5, 0xffff_ffff_0000_0000), (12, 0xffff_ff00_0000_0000), (28, 0xffff_0000_0000_0000)];

impl PartialEq for Place {
    fn eq(&self, other: &Place) -> bool {
        let used = |n: usize| !UNUSED.iter().find(|(at, _)| *at == n).map_or(0, |(_, bits)| *bits);
        self.taken == other.taken && (0..OWN).all(|n| (self.own[n] ^ other.own[n]) & used(n) == 0)
    }
}

#[repr(C)]
#[derive(Clone, Copy, PartialEq, Debug, Default)]
pub struct Dispatcher {
    pub next: u64,
    pub places: [Place; 8],
}

#[repr(C)]
#[derive(Clone, Copy, Debug)]
pub struct Placed {
    pub number: u64,
    pub place: u64,
    pub dispatcher: Dispatcher,
}

#[repr(C)]
#[derive(Clone, Copy, Debug)]
pub struct Turned {
    pub number: u64,
    pub place: u64,
    pub verdict: Verdict,
    pub dispatcher: Dispatcher,
}

#[repr(C)]
#[derive(Clone, Copy, PartialEq, Debug, Default)]
pub struct Progress {
    pub done: u64,
    pub all: u64,
}

extern "C" {
    fn hrafnolt_judge(file: *const u8, file_len: usize, work: *mut u8, work_len: usize) -> Verdict;
    fn hrafnolt_judge_pair(p: *const u8, p_len: usize, evidence: *const u8, evidence_len: usize, work: *mut u8, work_len: usize) -> Verdict;
    fn hrafnolt_due(d: Dispatcher) -> u64;
    fn hrafnolt_progress(d: Dispatcher, place: u64) -> Progress;
    fn hrafnolt_open(d: Dispatcher, p: *const u8, p_len: usize, evidence: *const u8, evidence_len: usize, work: *mut u8, work_len: usize) -> Placed;
    fn hrafnolt_open_combined(d: Dispatcher, file: *const u8, file_len: usize, work: *mut u8, work_len: usize) -> Placed;
    fn hrafnolt_turn(d: Dispatcher, p: *const u8, p_len: usize, evidence: *const u8, evidence_len: usize, work: *mut u8, work_len: usize) -> Turned;
    fn hrafnolt_withdraw(d: Dispatcher, place: u64, work: *mut u8, work_len: usize) -> Placed;
}

/// The verdict of the files alone.
pub fn judge(program: &[u8], evidence: Option<&[u8]>, area: usize) -> Verdict {
    let mut work = vec![1; area];
    let (first, w) = (program.as_ptr(), work.as_mut_ptr());
    match evidence {
        None => unsafe { hrafnolt_judge(first, program.len(), w, area) },
        Some(evidence) => unsafe { hrafnolt_judge_pair(first, program.len(), evidence.as_ptr(), evidence.len(), w, area) },
    }
}

pub fn due(d: Dispatcher) -> u64 {
    unsafe { hrafnolt_due(d) }
}

pub fn progress(d: Dispatcher, place: u64) -> Progress {
    unsafe { hrafnolt_progress(d, place) }
}

/// `copy` says at which of their addresses the files are lent.
pub fn open(d: Dispatcher, program: &File, evidence: Option<&File>, copy: usize, area: &mut Area) -> Placed {
    let (w, n) = (area.start(), area.length);
    match evidence {
        None => unsafe { hrafnolt_open_combined(d, program.at(copy), program.length, w, n) },
        Some(evidence) => unsafe { hrafnolt_open(d, program.at(copy), program.length, evidence.at(copy), evidence.length, w, n) },
    }
}

pub fn turn(d: Dispatcher, program: &File, evidence: &File, copy: usize, area: &mut Area) -> Turned {
    let (w, n) = (area.start(), area.length);
    unsafe { hrafnolt_turn(d, program.at(copy), program.length, evidence.at(copy), evidence.length, w, n) }
}

pub fn withdraw(d: Dispatcher, place: u64, area: &mut Area) -> Placed {
    unsafe { hrafnolt_withdraw(d, place, area.start(), area.length) }
}
