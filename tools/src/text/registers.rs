//! A program with registers written without them (document 02, N8). The library's own function is the proved one; this
//! one keeps the names.

use super::{Names, StateName};
use crate::contents::{Operation, Program, Transition, STATES, TRANSITIONS};

/// Why there is none: N8's number, and its place.
#[derive(Clone, PartialEq, Eq, Debug)]
pub struct TooLarge {
    pub number: u64,
    pub place: usize,
    pub words: String,
}

/// The register's value before and after a transition; none in a process without a register.
pub type Held = Option<(u8, u8)>;

/// What a transition becomes: an operation for each register value that it can start from, and each value it can read.
fn becomes(operation: Operation, with: bool) -> Vec<(Held, Operation)> {
    if !with {
        return vec![(None, operation)];
    }
    let from = |r: u8| match operation {
        Operation::Load { variable } => {
            (0..4).map(|x| (Some((r, x)), Operation::Read { variable, value: x })).collect()
        }
        Operation::Save { variable } => vec![(Some((r, r)), Operation::Write { variable, value: r })],
        Operation::Test { value } if value == r => vec![(Some((r, r)), Operation::Nop)],
        Operation::Test { .. } => Vec::new(),
        operation => vec![(Some((r, r)), operation)],
    };
    (0..4).flat_map(from).collect()
}

/// For each transition that is written, the number of the one that it comes from, and its register.
pub fn sources(program: &Program) -> Vec<(usize, Held)> {
    let has: Vec<bool> = (0..4).map(|p| program.has_register(p)).collect();
    let of = |(number, t): (usize, &Transition)| {
        let with = has.get(t.process as usize).copied().unwrap_or(false);
        becomes(t.operation, with).into_iter().map(move |(held, _)| (number, held)).collect::<Vec<_>>()
    };
    program.transitions.iter().enumerate().flat_map(of).collect()
}

/// The program without registers. Local states are pairs, numbered by state and then by register; each transition
/// becomes one for each register value that it can start from, then each value it can read.
pub fn without(program: &Program) -> Result<Program, TooLarge> {
    let has: Vec<bool> = (0..4).map(|p| program.has_register(p)).collect();
    let mut out = Program { registers: false, transitions: Vec::new(), targets: Vec::new(), ..program.clone() };
    for p in 0..program.processes {
        if has[p] {
            let states = program.states[p] as usize * 4;
            if states > STATES as usize {
                let words = format!("process {p} would need {states} states, and there are at most {STATES}");
                return Err(TooLarge { number: 19, place: p, words });
            }
            out.states[p] = states as u8;
            out.initial[p] = program.initial[p] * 4;
        }
    }
    for (number, t) in program.transitions.iter().enumerate() {
        let process = t.process as usize;
        let with = has.get(process).copied().unwrap_or(false);
        for (held, operation) in becomes(t.operation, with) {
            let (from, to) = held.map_or((t.from, t.to), |(r, x)| (4 * t.from + r, 4 * t.to + x));
            out.transitions.push(Transition { process: t.process, from, operation, to });
        }
        if out.transitions.len() > TRANSITIONS {
            let words = format!("the transitions become more than {TRANSITIONS}");
            return Err(TooLarge { number: 28, place: number, words });
        }
    }
    for target in &program.targets {
        let mut choices = vec![[0u8; 4]];
        for p in 0..program.processes {
            let values = if has[p] { 4 } else { 1 };
            let with = |choice: &[u8; 4], r: u8| {
                let mut next = *choice;
                next[p] = if has[p] { 4 * target[p] + r } else { target[p] };
                next
            };
            choices = choices.iter().flat_map(|choice| (0..values).map(move |r| with(choice, r))).collect();
        }
        out.targets.extend(choices);
    }
    Ok(out)
}

/// The names of the program without registers: state `look` with register 2 is `look_2`.
pub fn names(program: &Program, names: &Names) -> Names {
    let mut out = names.clone();
    for p in 0..program.processes {
        if let Some(place) = out.registers.get_mut(p) {
            *place = None;
        }
        if !program.has_register(p) {
            continue;
        }
        let mut states: Vec<StateName> = Vec::new();
        for s in 0..program.states[p] {
            for r in 0..4 {
                let mut name = format!("{}_{r}", names.state(p, s));
                while states.iter().any(|state| state.name == name) {
                    name.push('_');
                }
                states.push(StateName { name, labelled: true });
            }
        }
        if let Some(place) = out.states.get_mut(p) {
            *place = states;
        }
    }
    out
}
