//! A run under way, on the machine that its claim names.

use crate::machine::{Configuration, Machine, Program, Step};
use crate::pso;

#[derive(Clone, PartialEq, Eq, Hash, Debug)]
pub enum Running {
    Pws(Configuration),
    Pso(pso::Configuration),
}

impl Running {
    pub fn start(machine: Machine, program: &Program, memory: [u8; 4]) -> Running {
        match machine {
            Machine::Pws => Running::Pws(Configuration::start(program, memory)),
            Machine::Pso => Running::Pso(pso::Configuration::start(program, memory)),
        }
    }

    pub fn states(&self) -> [u8; 4] {
        match self {
            Running::Pws(c) => c.states,
            Running::Pso(d) => d.states,
        }
    }

    /// The number of the first cause for which the machine cannot take the step, or None if it can.
    pub fn refusal(&self, program: &Program, step: Step) -> Option<u64> {
        match self {
            Running::Pws(c) => c.refusal(program, step),
            Running::Pso(d) => d.refusal(program, step),
        }
    }

    /// Takes the step if the machine permits it, and says so; else nothing changes.
    pub fn take(&mut self, program: &Program, step: Step) -> bool {
        match self {
            Running::Pws(c) => c.take(program, step),
            Running::Pso(d) => d.take(program, step),
        }
    }

    /// How many values, and marks, a process has waiting.
    pub fn waiting(&self, program: &Program, p: usize) -> usize {
        let queues = program.queue(p, 0)..program.queue(p + 1, 0);
        match self {
            Running::Pws(c) => c.queues[queues].iter().map(|queue| queue.len()).sum(),
            Running::Pso(d) => d.buffers[queues].iter().map(|buffer| buffer.len()).sum(),
        }
    }
}
