//! The PSO machine of the report's 4.1, for claim 2 (document 02, N7). Its steps are those of the records: 21 is its update of a process
//! and variable, 22 its removal of the mark from the head of all of a process's buffers.

use crate::machine::{Operation, Program, Step, Transition};

/// What a buffer holds: a value, or the mark of an sfence.
#[derive(Clone, Copy, PartialEq, Eq, Hash, Debug)]
pub enum Item {
    Value(u8),
    Mark,
}

#[derive(Clone, PartialEq, Eq, Hash, Debug)]
pub struct Configuration {
    pub states: [u8; 4],
    /// Buffer of p and v at p * variables + v, oldest item first.
    pub buffers: Vec<Vec<Item>>,
    pub memory: [u8; 4],
}

impl Configuration {
    pub fn start(program: &Program, memory: [u8; 4]) -> Configuration {
        let mut states = [0; 4];
        states[..program.processes].copy_from_slice(&program.initial);
        Configuration { states, buffers: vec![Vec::new(); program.processes * program.variables], memory }
    }

    /// The buffers of a process, one for each variable.
    pub fn buffers_of(&self, program: &Program, p: usize) -> &[Vec<Item>] {
        &self.buffers[p * program.variables..(p + 1) * program.variables]
    }

    fn buffers_of_mut(&mut self, program: &Program, p: usize) -> &mut [Vec<Item>] {
        &mut self.buffers[p * program.variables..(p + 1) * program.variables]
    }

    /// What p reads in v: the newest value in its buffer, marks passed over, or else memory.
    fn found(&self, program: &Program, p: usize, v: usize) -> u8 {
        let newest = self.buffers[program.queue(p, v)].iter().rev().find_map(|item| match item {
            Item::Value(value) => Some(*value),
            Item::Mark => None,
        });
        newest.unwrap_or(self.memory[v])
    }

    /// The number of the first cause for which the machine cannot take the step, or None if it can: for a transition 12 the local state, 16 a
    /// buffer that must be empty, where marks count, 15 the value; for the others 18.
    pub fn refusal(&self, program: &Program, step: Step) -> Option<u64> {
        let number = match step {
            Step::Serialise(p, v) => {
                let value_first = matches!(self.buffers[program.queue(p, v)].first(), Some(Item::Value(_)));
                return if value_first { None } else { Some(18) };
            }
            Step::Update(p) => {
                let marks_first = self.buffers_of(program, p).iter().all(|buffer| buffer.first() == Some(&Item::Mark));
                return if marks_first { None } else { Some(18) };
            }
            Step::Transition(number) => number,
        };
        let Transition { process: p, from, operation, .. } = program.transitions[number];
        if self.states[p] != from {
            return Some(12);
        }
        let empty = match operation {
            Operation::Mfence => self.buffers_of(program, p).iter().all(|buffer| buffer.is_empty()),
            Operation::Arw { variable, .. } => self.buffers[program.queue(p, variable)].is_empty(),
            _ => true,
        };
        if !empty {
            return Some(16);
        }
        let value = match operation {
            Operation::Read { variable, value } => self.found(program, p, variable) == value,
            Operation::Arw { variable, old, .. } => self.memory[variable] == old,
            _ => true,
        };
        if value {
            None
        } else {
            Some(15)
        }
    }

    /// Takes the step if the machine permits it, and says so; else nothing changes.
    pub fn take(&mut self, program: &Program, step: Step) -> bool {
        if self.refusal(program, step).is_some() {
            return false;
        }
        match step {
            Step::Serialise(p, v) => {
                if let Item::Value(value) = self.buffers[program.queue(p, v)].remove(0) {
                    self.memory[v] = value;
                }
            }
            Step::Update(p) => {
                for buffer in self.buffers_of_mut(program, p) {
                    buffer.remove(0);
                }
            }
            Step::Transition(number) => {
                let Transition { process: p, operation, to, .. } = program.transitions[number];
                match operation {
                    Operation::Write { variable, value } => self.buffers[program.queue(p, variable)].push(Item::Value(value)),
                    Operation::Sfence => {
                        for buffer in self.buffers_of_mut(program, p) {
                            buffer.push(Item::Mark);
                        }
                    }
                    Operation::Arw { variable, new, .. } => self.memory[variable] = new,
                    Operation::Nop | Operation::Read { .. } | Operation::Mfence => {}
                }
                self.states[p] = to;
            }
        }
        true
    }
}
