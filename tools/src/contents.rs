//! What a file holds: programs, lists, patterns, runs and reports, from bytes and back. It is a reader for words and
//! pictures, and not the judge, but its numbers 1 to 7 and their places are the judge's. Every access is checked: no
//! file makes it fail but with a `Fault`.

mod evidence;
mod program;

use program::{End, Reader, Scope, Takes};
use std::fmt;

/// Any value of its variable, in the values of 11, 12 and 13.
pub const ANY: u8 = 0xff;
pub const TRANSITIONS: usize = 256;
pub const TARGETS: usize = 4_096;
/// Of a program with registers.
pub const REGISTER_TARGETS: usize = 16;
pub const STATES: u8 = 32;
pub const ENTRIES: usize = 524_288;
pub const MESSAGES: usize = 16;
pub const WAITING: usize = 8;
pub const READS: usize = 16;
pub const STEPS: usize = 1_024;
pub const MARKS: usize = 8;

#[derive(Clone, Copy, PartialEq, Eq, Debug)]
pub enum Operation {
    Nop,
    Read {
        variable: u8,
        value: u8,
    },
    Write {
        variable: u8,
        value: u8,
    },
    Mfence,
    Sfence,
    Arw {
        variable: u8,
        old: u8,
        new: u8,
    },
    /// Reads a variable into the register (6).
    Load {
        variable: u8,
    },
    /// Writes the register to a variable (7).
    Save {
        variable: u8,
    },
    /// Goes on if the register has this value (8).
    Test {
        value: u8,
    },
}

impl Operation {
    /// Operation, variable, value, new value, as in the records.
    pub fn fields(self) -> [u8; 4] {
        match self {
            Operation::Nop => [0, 0, 0, 0],
            Operation::Read { variable, value } => [1, variable, value, 0],
            Operation::Write { variable, value } => [2, variable, value, 0],
            Operation::Mfence => [3, 0, 0, 0],
            Operation::Sfence => [4, 0, 0, 0],
            Operation::Arw { variable, old, new } => [5, variable, old, new],
            Operation::Load { variable } => [6, variable, 0, 0],
            Operation::Save { variable } => [7, variable, 0, 0],
            Operation::Test { value } => [8, 0, value, 0],
        }
    }

    pub fn uses_register(self) -> bool {
        matches!(self, Operation::Load { .. } | Operation::Save { .. } | Operation::Test { .. })
    }

    pub fn variable(self) -> Option<u8> {
        match self {
            Operation::Read { variable, .. }
            | Operation::Write { variable, .. }
            | Operation::Arw { variable, .. }
            | Operation::Load { variable }
            | Operation::Save { variable } => Some(variable),
            _ => None,
        }
    }
}

#[derive(Clone, Copy, PartialEq, Eq, Debug)]
pub struct Transition {
    pub process: u8,
    pub from: u8,
    pub operation: Operation,
    pub to: u8,
}

#[derive(Clone, PartialEq, Eq, Debug)]
pub struct Program {
    pub processes: usize,
    pub variables: usize,
    /// How many values each variable has; 0 for absent ones.
    pub values: [u8; 4],
    /// How many local states each process has, and the one it starts in; 0 for absent ones.
    pub states: [u8; 4],
    pub initial: [u8; 4],
    /// Its transitions are records 05.
    pub registers: bool,
    pub transitions: Vec<Transition>,
    pub targets: Vec<[u8; 4]>,
}

impl Program {
    /// The lowest target with these local states.
    pub fn target(&self, states: &[u8; 4]) -> Option<usize> {
        self.targets.iter().position(|target| target == states)
    }

    /// N8: a process has a register if one of its transitions uses one.
    pub fn has_register(&self, process: usize) -> bool {
        self.transitions.iter().any(|t| t.process as usize == process && t.operation.uses_register())
    }

    pub fn bytes(&self) -> Vec<u8> {
        let mut out = vec![1, self.processes as u8, self.variables as u8];
        out.extend(self.values);
        for p in 0..self.processes.min(4) {
            out.extend([2, self.states[p], self.initial[p]]);
        }
        for t in &self.transitions {
            let [operation, variable, value, new] = t.operation.fields();
            out.extend([if self.registers { 5 } else { 3 }, t.process, t.from, operation, variable, value, new, t.to]);
        }
        for target in &self.targets {
            out.push(4);
            out.extend(target);
        }
        out
    }
}

#[derive(Clone, Copy, PartialEq, Eq, Debug)]
pub enum Step {
    Transition(u8),
    /// In a run of the PSO machine, its update of that variable.
    Serialise(u8, u8),
    /// In a run of the PSO machine, the removal of that process's mark.
    Update(u8),
}

/// The letters of drawings (N12).
impl fmt::Display for Step {
    fn fmt(&self, f: &mut fmt::Formatter) -> fmt::Result {
        match self {
            Step::Transition(number) => write!(f, "t{number}"),
            Step::Serialise(p, v) => write!(f, "s{p}{v}"),
            Step::Update(p) => write!(f, "u{p}"),
        }
    }
}

#[derive(Clone, Copy, PartialEq, Eq, Debug)]
pub enum Machine {
    Pws,
    Pso,
}

#[derive(Clone, PartialEq, Eq, Debug)]
pub struct Run {
    pub machine: Machine,
    pub memory: [u8; 4],
    pub steps: Vec<Step>,
}

#[derive(Clone, Copy, PartialEq, Eq, Debug)]
pub struct Message {
    pub process: u8,
    pub variable: u8,
    pub values: [u8; 4],
}

/// A record of an entry behind its 10, in the file's order.
#[derive(Clone, Copy, PartialEq, Eq, Debug)]
pub enum Item {
    Message(Message),
    Waiting { process: u8, variable: u8, value: u8 },
}

#[derive(Clone, PartialEq, Eq, Debug)]
pub struct Entry {
    pub states: [u8; 4],
    pub pointers: [u8; 4],
    pub items: Vec<Item>,
}

/// A record of a pattern behind its 13, in the file's order.
#[derive(Clone, Copy, PartialEq, Eq, Debug)]
pub enum Clue {
    Waiting {
        process: u8,
        variable: u8,
        value: u8,
    },
    Read {
        process: u8,
        variable: u8,
        value: u8,
        own: bool,
    },
    /// The queue is empty, or the last value of its word is its newest.
    Queue {
        process: u8,
        variable: u8,
        ends: bool,
    },
}

#[derive(Clone, PartialEq, Eq, Debug)]
pub struct Pattern {
    pub states: [u8; 4],
    pub newest: [u8; 4],
    pub clues: Vec<Clue>,
}

#[derive(Clone, PartialEq, Eq, Debug)]
pub enum Evidence {
    List(Vec<Entry>),
    Patterns(Vec<Pattern>),
    Run(Run),
}

impl Evidence {
    pub fn write(&self, out: &mut Vec<u8>) {
        match self {
            Evidence::List(entries) => {
                out.extend([0x0f, 0]);
                for entry in entries {
                    out.push(0x10);
                    out.extend(entry.states);
                    out.extend(entry.pointers);
                    for item in &entry.items {
                        match *item {
                            Item::Message(m) => {
                                out.extend([0x11, m.process, m.variable]);
                                out.extend(m.values);
                            }
                            Item::Waiting { process, variable, value } => out.extend([0x12, process, variable, value]),
                        }
                    }
                }
            }
            Evidence::Patterns(patterns) => {
                out.extend([0x0f, 0]);
                for pattern in patterns {
                    out.push(0x13);
                    out.extend(pattern.states);
                    out.extend(pattern.newest);
                    for clue in &pattern.clues {
                        match *clue {
                            Clue::Waiting { process, variable, value } => out.extend([0x12, process, variable, value]),
                            Clue::Read { process, variable, value, own } => {
                                out.extend([0x14, process, variable, value, own as u8])
                            }
                            Clue::Queue { process, variable, ends } => {
                                out.extend([0x15, process, variable, ends as u8])
                            }
                        }
                    }
                }
            }
            Evidence::Run(run) => {
                out.extend([0x0f, if run.machine == Machine::Pws { 1 } else { 2 }, 0x1f]);
                out.extend(run.memory);
                for step in &run.steps {
                    match *step {
                        Step::Transition(number) => out.extend([0x20, number]),
                        Step::Serialise(p, v) => out.extend([0x21, p, v]),
                        Step::Update(p) => out.extend([0x22, p]),
                    }
                }
            }
        }
    }
}

/// What one file holds: a program, evidence, both, or a report. The evidence of a report is its list and then a run for
/// each mark; of every other file there is at most one.
#[derive(Clone, PartialEq, Eq, Debug, Default)]
pub struct Contents {
    pub program: Option<Program>,
    pub marks: Vec<u8>,
    pub evidence: Vec<Evidence>,
}

impl Contents {
    pub fn bytes(&self) -> Vec<u8> {
        let mut out = self.program.as_ref().map_or(Vec::new(), Program::bytes);
        for mark in &self.marks {
            out.extend([0x30, *mark]);
        }
        for evidence in &self.evidence {
            evidence.write(&mut out);
        }
        out
    }

    /// The runs, each with the program that it is of. In a report that is the program in which its mark's fence is a
    /// nop, and the mark comes too.
    pub fn runs(&self, given: Option<&Program>) -> Vec<(Option<u8>, Program, &Run)> {
        let Some(program) = self.program.as_ref().or(given) else { return Vec::new() };
        let runs = self.evidence.iter().filter_map(|evidence| match evidence {
            Evidence::Run(run) => Some(run),
            _ => None,
        });
        let with = |(number, run)| {
            let mut program = program.clone();
            let mark = self.marks.get(number).copied();
            if let Some(transition) = mark.and_then(|mark| program.transitions.get_mut(mark as usize)) {
                transition.operation = Operation::Nop;
            }
            (mark, program, run)
        };
        runs.enumerate().map(with).collect()
    }
}

/// Why a file can't be read: the judge's number, 1 to 7, and place, and what is the matter.
#[derive(Clone, PartialEq, Eq, Debug)]
pub struct Fault {
    pub number: u64,
    pub place: usize,
    pub words: String,
}

impl fmt::Display for Fault {
    fn fmt(&self, f: &mut fmt::Formatter) -> fmt::Result {
        write!(f, "refused {} {}: {}", self.number, self.place, self.words)
    }
}

/// The length of a record's body and what it is; None for a kind that no file has.
pub fn kind(byte: u8) -> Option<(usize, &'static str)> {
    Some(match byte {
        0x01 => (6, "shape"),
        0x02 => (2, "states of a process"),
        0x03 => (7, "transition"),
        0x04 => (4, "target"),
        0x05 => (7, "transition with registers"),
        0x0f => (1, "claim"),
        0x10 => (8, "entry"),
        0x11 => (6, "message"),
        0x12 => (3, "waiting value"),
        0x13 => (8, "pattern"),
        0x14 => (4, "read of a pattern"),
        0x15 => (3, "end of a queue"),
        0x1f => (4, "starting memory"),
        0x20 => (1, "step by a transition"),
        0x21 => (2, "step: serialise"),
        0x22 => (1, "step: update"),
        0x30 => (1, "mark of a fence"),
        _ => return None,
    })
}

/// Whatever the file is: a program (with registers or without), a combined file, a report, patterns, or evidence alone.
/// Evidence alone is read for the program that is given; without one, for what any program has.
pub fn read(file: &[u8], program: Option<&Program>) -> Result<Contents, Fault> {
    let mut reader = Reader { file, at: 0, takes: Takes::Everything };
    if matches!(reader.peek(), Some(0x0f)) {
        let evidence = reader.evidence(&Scope::of(program), None)?;
        return Ok(Contents { program: None, marks: Vec::new(), evidence: vec![evidence] });
    }
    let program = reader.program(End::Either)?;
    if program.registers {
        return match reader.peek() {
            Some(byte) => reader.refuse_kind(byte, "a target (04); evidence is for the program without registers"),
            None => Ok(Contents { program: Some(program), ..Contents::default() }),
        };
    }
    if reader.peek() == Some(0x30) {
        return reader.report(program);
    }
    let evidence = match reader.peek() {
        None => Vec::new(),
        Some(_) => vec![reader.evidence(&Scope::of(Some(&program)), None)?],
    };
    Ok(Contents { program: Some(program), marks: Vec::new(), evidence })
}

/// A report as the judge of reports takes it.
pub fn read_report(file: &[u8]) -> Result<Contents, Fault> {
    let mut reader = Reader { file, at: 0, takes: Takes::Report };
    let program = reader.program(End::Claim)?;
    reader.report(program)
}

/// A combined file as the judge takes it.
pub fn read_combined(file: &[u8]) -> Result<(Program, Evidence), Fault> {
    let mut reader = Reader { file, at: 0, takes: Takes::Judged };
    let program = reader.program(End::Claim)?;
    let evidence = reader.evidence(&Scope::of(Some(&program)), None)?;
    Ok((program, evidence))
}

/// A program file as the judge takes it.
pub fn read_program(file: &[u8]) -> Result<Program, Fault> {
    Reader { file, at: 0, takes: Takes::Judged }.program(End::File)
}

/// A program file, and an evidence file for it, as the judge takes them. The fault of a program file is `Err((true,
/// ..))`.
pub fn read_pair(program: &[u8], evidence: &[u8]) -> Result<(Program, Evidence), (bool, Fault)> {
    let program = read_program(program).map_err(|fault| (true, fault))?;
    let evidence = Reader { file: evidence, at: 0, takes: Takes::Judged }
        .evidence(&Scope::of(Some(&program)), None)
        .map_err(|fault| (false, fault))?;
    Ok((program, evidence))
}

/// A program with registers as hrafnolt_registers takes it.
pub fn read_registers(file: &[u8]) -> Result<Program, Fault> {
    Reader { file, at: 0, takes: Takes::Everything }.program(End::Registers)
}

/// Bare step records, as hrafnolt-dot takes them.
pub fn read_steps(file: &[u8]) -> Result<Vec<Step>, Fault> {
    Reader { file, at: 0, takes: Takes::Judged }.steps(&Scope::of(None), false)
}
