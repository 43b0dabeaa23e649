//! A program with registers (document 02, N8) beside the one that the library writes for it: why it is refused, and what the transitions, states and
//! targets of the written one came from, in words. What is written is the library's own and proved; the words are not.

use crate::contents::{self, Program};
use crate::explain::record_words;
use crate::library::{Verdict, EVIDENCE_FILE, PROGRAM_FILE, REFUSED};
use crate::text::registers::{sources, without, Held};
use crate::words;

/// A refusal of the library's as a verdict about the evidence for it, which has so many bytes: the record of 1 to 6 stands in the program.
pub fn verdict(file: &[u8], (number, place): (u64, u64), evidence: usize) -> Verdict {
    let refused = Verdict { kind: REFUSED, first: number, second: place, ..Verdict::default() };
    if !refused.about_records() {
        return Verdict { record_file: EVIDENCE_FILE, record_at: evidence as u64, ..refused };
    }
    let rest = usize::try_from(place).ok().and_then(|at| file.get(at..)).unwrap_or(&[]);
    let length = rest.first().map_or(0, |byte| 1 + contents::kind(*byte).map_or(0, |(body, _)| body));
    Verdict { record_file: PROGRAM_FILE, record_at: place, record_length: length.min(rest.len()) as u64, ..refused }
}

/// Why the program is refused, without a line feed or a full stop.
pub fn why(file: &[u8], (number, place): (u64, u64)) -> String {
    let told = match contents::read_registers(file) {
        Err(fault) => (fault.number, fault.place, format!("at byte {}{}: {}", fault.place, record_words(file, fault.place), fault.words)),
        Ok(program) => match without(&program) {
            Err(large) if large.number == 28 => (28, large.place, format!("with 05 number {} {}", large.place, large.words)),
            Err(large) => (large.number, large.place, large.words),
            Ok(_) => (0, 0, String::new()),
        },
    };
    match told {
        (n, at, words) if (n, at as u64) == (number, place) => words,
        _ => words::says(number).to_string(),
    }
}

/// What a written program came from.
pub struct Origins {
    pub program: Program,
    transitions: Vec<(usize, Held)>,
}

impl Origins {
    /// None if the reading here should not come to the same program.
    pub fn of(file: &[u8], written: &[u8]) -> Option<Origins> {
        let program = contents::read_registers(file).ok()?;
        let same = without(&program).ok().filter(|own| own.bytes() == written);
        same.map(|_| Origins { transitions: sources(&program), program })
    }

    /// `, from 05 number 4 with register 2, then 1`.
    pub fn transition(&self, number: usize) -> String {
        match self.transitions.get(number) {
            None => String::new(),
            Some((from, None)) => format!(", from 05 number {from}"),
            Some((from, Some((before, after)))) if before == after => format!(", from 05 number {from} with register {before}"),
            Some((from, Some((before, after)))) => format!(", from 05 number {from} with register {before}, then {after}"),
        }
    }

    /// ` (2 with register 1)`, of a process that has one.
    pub fn state(&self, process: usize, state: u8) -> String {
        match self.program.has_register(process) {
            true => format!(" ({} with register {})", state / 4, state % 4),
            false => String::new(),
        }
    }

    /// `, from 04 number 3`.
    pub fn target(&self, number: usize) -> String {
        let with = (0..self.program.processes).filter(|p| self.program.has_register(*p)).count();
        format!(", from 04 number {}", number >> (2 * with.min(4)))
    }
}
