//! Programs and evidence in words: `assemble` takes a text to what a file holds, `listing` takes that back to a text,
//! and `registers` writes the program without registers (N8). The notation is that of hrafnolt-text(1).

pub mod assemble;
pub mod evidence;
pub mod fences;
pub mod lexer;
pub mod listing;
pub mod operations;
mod patterns;
pub mod registers;
pub mod sources;

use crate::contents::{Operation, Program, STATES};
use std::fmt;

/// What is wrong in a text, and where; line and column are counted from 1.
#[derive(Clone, PartialEq, Eq, Debug)]
pub struct Complaint {
    pub line: usize,
    pub column: usize,
    pub words: String,
}

impl fmt::Display for Complaint {
    fn fmt(&self, f: &mut fmt::Formatter) -> fmt::Result {
        write!(f, "{}:{}: {}", self.line, self.column, self.words)
    }
}

#[derive(Clone, PartialEq, Eq, Debug)]
pub struct StateName {
    pub name: String,
    /// It has a label in the text, and no name that was made up.
    pub labelled: bool,
}

/// Names for what a program numbers.
#[derive(Clone, PartialEq, Eq, Debug, Default)]
pub struct Names {
    pub processes: Vec<String>,
    pub variables: Vec<String>,
    pub registers: Vec<Option<String>>,
    pub states: Vec<Vec<StateName>>,
    /// The starting memory that the text names.
    pub memory: Option<[u8; 4]>,
}

const MADE_UP: [&str; 4] = ["x", "y", "z", "w"];

impl Names {
    /// p0, p1 ..; x, y, z, w; q0, q1 ..; r.
    pub fn made_up(program: Option<&Program>) -> Names {
        let (processes, variables, states) =
            program.map_or((4, 4, [STATES; 4]), |p| (p.processes, p.variables, p.states));
        let state = |s| StateName { name: format!("q{s}"), labelled: true };
        Names {
            processes: (0..processes).map(|p| format!("p{p}")).collect(),
            variables: MADE_UP.iter().take(variables).map(|name| name.to_string()).collect(),
            registers: (0..processes)
                .map(|p| program.filter(|program| program.has_register(p)).map(|_| String::from("r")))
                .collect(),
            states: states.iter().take(processes).map(|count| (0..*count).map(state).collect()).collect(),
            memory: None,
        }
    }

    /// These names as far as the program has what they name, and names made up for the rest. If a process has another
    /// number of states than the text's, the text's states are others.
    pub fn for_program(&self, program: &Program) -> Names {
        let mut names = Names::made_up(Some(program));
        if self.processes.len() == program.processes {
            names.processes = self.processes.clone();
            for p in 0..program.processes {
                if let Some(states) = self.states.get(p).filter(|states| states.len() == program.states[p] as usize) {
                    names.states[p] = states.clone();
                }
            }
        }
        if self.variables.len() == program.variables {
            names.variables = self.variables.clone();
            let in_range = |memory: &[u8; 4]| (0..program.variables).all(|v| memory[v] < program.values[v]);
            names.memory = self.memory.filter(in_range);
        }
        // No register has a variable's name.
        for p in 0..if program.registers { program.processes } else { 0 } {
            let mut name = self.registers.get(p).and_then(Option::clone).unwrap_or_else(|| String::from("r"));
            while names.variables.contains(&name) {
                name.push('_');
            }
            names.registers[p] = Some(name);
        }
        names
    }

    pub fn process(&self, p: usize) -> &str {
        self.processes.get(p).map_or("?", String::as_str)
    }

    pub fn variable(&self, v: usize) -> &str {
        self.variables.get(v).map_or("?", String::as_str)
    }

    pub fn state(&self, p: usize, s: u8) -> &str {
        self.states.get(p).and_then(|states| states.get(s as usize)).map_or("?", |state| &state.name)
    }

    pub fn labelled(&self, p: usize, s: u8) -> bool {
        self.states.get(p).and_then(|states| states.get(s as usize)).is_some_and(|state| state.labelled)
    }

    fn register(&self, p: usize) -> &str {
        self.registers.get(p).and_then(|r| r.as_deref()).unwrap_or("r")
    }

    /// `gate := 1`, `tick = 1`, `cas tick 0 1`; nothing for a nop.
    pub fn operation(&self, process: usize, operation: Operation) -> String {
        let variable = |v: u8| self.variable(v as usize);
        match operation {
            Operation::Nop => String::new(),
            Operation::Read { variable: v, value } => format!("{} = {value}", variable(v)),
            Operation::Write { variable: v, value } => format!("{} := {value}", variable(v)),
            Operation::Mfence => String::from("mfence"),
            Operation::Sfence => String::from("sfence"),
            Operation::Arw { variable: v, old, new } => format!("cas {} {old} {new}", variable(v)),
            Operation::Load { variable: v } => format!("{} := {}", self.register(process), variable(v)),
            Operation::Save { variable: v } => format!("{} := {}", variable(v), self.register(process)),
            Operation::Test { value } => format!("{} = {value}", self.register(process)),
        }
    }

    /// `gate=0 tick=1`.
    pub fn memory(&self, values: &[u8; 4]) -> String {
        let one = |(v, name): (usize, &String)| format!("{name}={}", values.get(v).copied().unwrap_or(0));
        self.variables.iter().enumerate().map(one).collect::<Vec<_>>().join(" ")
    }

    /// `module at open, page at wait`.
    pub fn places(&self, states: &[u8; 4]) -> String {
        let one =
            |(p, name): (usize, &String)| format!("{name} at {}", self.state(p, states.get(p).copied().unwrap_or(0)));
        self.processes.iter().enumerate().map(one).collect::<Vec<_>>().join(", ")
    }
}
