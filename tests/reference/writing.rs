//! Programs, entries and steps to the records of document 01.

use crate::machine::{Configuration, Machine, Operation, Program, Run, Step};

/// Records 01 to 04.
pub fn program(program: &Program) -> Vec<u8> {
    let mut out = vec![0x01, program.processes as u8, program.variables as u8];
    out.extend(program.values);
    for p in 0..program.processes {
        out.extend([0x02, program.states[p], program.initial[p]]);
    }
    for t in &program.transitions {
        let (number, variable, value, new) = match t.operation {
            Operation::Nop => (0, 0, 0, 0),
            Operation::Read { variable, value } => (1, variable, value, 0),
            Operation::Write { variable, value } => (2, variable, value, 0),
            Operation::Mfence => (3, 0, 0, 0),
            Operation::Sfence => (4, 0, 0, 0),
            Operation::Arw { variable, old, new } => (5, variable, old, new),
        };
        out.extend([0x03, t.process as u8, t.from, number, variable as u8, value, new, t.to]);
    }
    for target in &program.targets {
        out.push(0x04);
        out.extend(target);
    }
    out
}

pub fn entry(program: &Program, entry: &Configuration) -> Vec<u8> {
    let mut out = vec![0x10];
    out.extend(entry.states);
    out.extend(entry.pointers.map(|z| z as u8));
    for message in &entry.channel {
        out.extend([0x11, message.process, message.variable]);
        out.extend(message.snapshot);
    }
    for p in 0..program.processes {
        for v in 0..program.variables {
            for value in &entry.queues[program.queue(p, v)] {
                out.extend([0x12, p as u8, v as u8, *value]);
            }
        }
    }
    out
}

pub fn step(step: Step) -> Vec<u8> {
    match step {
        Step::Transition(number) => vec![0x20, number as u8],
        Step::Serialise(p, v) => vec![0x21, p as u8, v as u8],
        Step::Update(p) => vec![0x22, p as u8],
    }
}

pub fn list_file(of: &Program, entries: &[Configuration]) -> Vec<u8> {
    let mut out = program(of);
    out.extend([0x0f, 0]);
    for e in entries {
        out.extend(entry(of, e));
    }
    out
}

pub fn run_file(of: &Program, run: &Run) -> Vec<u8> {
    let mut out = program(of);
    let claim = match run.machine {
        Machine::Pws => 1,
        Machine::Pso => 2,
    };
    out.extend([0x0f, claim, 0x1f]);
    out.extend(run.memory);
    for s in &run.steps {
        out.extend(step(*s));
    }
    out
}
