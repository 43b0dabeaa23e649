//! The machine of document 01, "The machine".

#[derive(Clone, Copy, PartialEq, Eq, Debug)]
pub enum Operation {
    Nop,
    Read { variable: usize, value: u8 },
    Write { variable: usize, value: u8 },
    Mfence,
    Sfence,
    Arw { variable: usize, old: u8, new: u8 },
}

#[derive(Clone, Copy, PartialEq, Eq, Debug)]
pub struct Transition {
    pub process: usize,
    pub from: u8,
    pub operation: Operation,
    pub to: u8,
}

#[derive(Clone, Copy, PartialEq, Eq, Debug)]
pub enum Step {
    Transition(usize),
    Serialise(usize, usize),
    Update(usize),
}

/// As runs are drawn (document 02, N12).
impl std::fmt::Display for Step {
    fn fmt(&self, f: &mut std::fmt::Formatter) -> std::fmt::Result {
        match self {
            Step::Transition(number) => write!(f, "t{}", number),
            Step::Serialise(p, v) => write!(f, "s{}{}", p, v),
            Step::Update(p) => write!(f, "u{}", p),
        }
    }
}

/// The machine that a run is said to be of: claim 1 or claim 2.
#[derive(Clone, Copy, PartialEq, Eq, Debug)]
pub enum Machine {
    Pws,
    Pso,
}

/// The evidence of claims 1 and 2.
#[derive(Clone, PartialEq, Eq, Debug)]
pub struct Run {
    pub machine: Machine,
    /// What memory holds at the start.
    pub memory: [u8; 4],
    pub steps: Vec<Step>,
}

#[derive(Clone, PartialEq, Eq, Debug, Default)]
pub struct Program {
    pub processes: usize,
    pub variables: usize,
    /// How many values each variable has; 0 for absent variables.
    pub values: [u8; 4],
    /// Number of local states and the initial one, per process.
    pub states: Vec<u8>,
    pub initial: Vec<u8>,
    pub transitions: Vec<Transition>,
    /// Local states, 0 for absent processes.
    pub targets: Vec<[u8; 4]>,
}

#[derive(Clone, Copy, PartialEq, Eq, Hash, Debug, Default)]
pub struct Message {
    pub process: u8,
    pub variable: u8,
    pub snapshot: [u8; 4],
}

impl Message {
    pub fn is_labelled(&self, process: usize, variable: usize) -> bool {
        self.process as usize == process && self.variable as usize == variable
    }
}

/// The largest message number that is the pointer or carries the label.
pub fn last_write(channel: &[Message], pointer: usize, process: usize, variable: usize) -> usize {
    (pointer + 1..=channel.len()).rev().find(|number| channel[number - 1].is_labelled(process, variable)).unwrap_or(pointer)
}

/// A configuration, or an entry: then a value may be FF.
#[derive(Clone, PartialEq, Eq, Hash, Debug)]
pub struct Configuration {
    pub states: [u8; 4],
    /// Queue of p and v at p * variables + v, oldest value first.
    pub queues: Vec<Vec<u8>>,
    /// Oldest message first; message number n is at n - 1.
    pub channel: Vec<Message>,
    /// Message numbers, counted from 1; 0 for absent processes.
    pub pointers: [usize; 4],
}

impl Program {
    pub fn queue(&self, process: usize, variable: usize) -> usize {
        process * self.variables + variable
    }

    /// Every memory whose values are in range, 0 in absent variables.
    pub fn memories(&self) -> Vec<[u8; 4]> {
        let mut all = vec![[0; 4]];
        for v in 0..self.variables {
            let with = |memory: &[u8; 4], value| {
                let mut memory = *memory;
                memory[v] = value;
                memory
            };
            all = all.iter().flat_map(|memory| (0..self.values[v]).map(move |value| with(memory, value))).collect();
        }
        all
    }

    /// Every step that the shape has, permitted or not, in the order of document 02, N13: transitions by number, serialise by process then
    /// variable, update by process.
    pub fn all_steps(&self) -> Vec<Step> {
        let mut steps: Vec<Step> = (0..self.transitions.len()).map(Step::Transition).collect();
        for p in 0..self.processes {
            for v in 0..self.variables {
                steps.push(Step::Serialise(p, v));
            }
        }
        steps.extend((0..self.processes).map(Step::Update));
        steps
    }
}

impl Configuration {
    /// The permitted start with this memory whose message is labelled (0, 0). No replay depends on that label: every pointer is at least 1,
    /// and so is every LastWrite without it.
    pub fn start(program: &Program, memory: [u8; 4]) -> Configuration {
        let mut states = [0; 4];
        let mut pointers = [0; 4];
        for p in 0..program.processes {
            states[p] = program.initial[p];
            pointers[p] = 1;
        }
        Configuration {
            states,
            queues: vec![Vec::new(); program.processes * program.variables],
            channel: vec![Message { process: 0, variable: 0, snapshot: memory }],
            pointers,
        }
    }

    pub fn last_write(&self, process: usize, variable: usize) -> usize {
        last_write(&self.channel, self.pointers[process], process, variable)
    }

    fn queues_empty(&self, program: &Program, process: usize) -> bool {
        (0..program.variables).all(|v| self.queues[program.queue(process, v)].is_empty())
    }

    fn append(&mut self, process: usize, variable: usize, value: u8) {
        let mut snapshot = self.channel[self.channel.len() - 1].snapshot;
        snapshot[variable] = value;
        self.channel.push(Message { process: process as u8, variable: variable as u8, snapshot });
    }

    /// What process p finds in variable v: its newest waiting value, or else the one at its LastWrite.
    fn found(&self, program: &Program, p: usize, v: usize) -> u8 {
        match self.queues[program.queue(p, v)].last() {
            Some(waiting) => *waiting,
            None => self.channel[self.last_write(p, v) - 1].snapshot[v],
        }
    }

    /// The number of the first cause for which the machine cannot take the step (document 02, N1), or None if it can: for a transition 12
    /// the local state, 16 a queue that must be empty, 17 the pointer, 15 the value; for the others 18.
    pub fn refusal(&self, program: &Program, step: Step) -> Option<u64> {
        let number = match step {
            Step::Update(p) => return if self.pointers[p] < self.channel.len() { None } else { Some(18) },
            Step::Serialise(p, v) => return if self.queues[program.queue(p, v)].is_empty() { Some(18) } else { None },
            Step::Transition(number) => number,
        };
        let Transition { process: p, from, operation, .. } = program.transitions[number];
        if self.states[p] != from {
            return Some(12);
        }
        let newest = self.channel.len();
        let queues = match operation {
            Operation::Mfence | Operation::Sfence => self.queues_empty(program, p),
            Operation::Arw { variable, .. } => self.queues[program.queue(p, variable)].is_empty(),
            _ => true,
        };
        if !queues {
            return Some(16);
        }
        if matches!(operation, Operation::Mfence | Operation::Arw { .. }) && self.pointers[p] != newest {
            return Some(17);
        }
        let value = match operation {
            Operation::Read { variable, value } => self.found(program, p, variable) == value,
            Operation::Arw { variable, old, .. } => self.channel[newest - 1].snapshot[variable] == old,
            _ => true,
        };
        if value {
            None
        } else {
            Some(15)
        }
    }

    /// Takes the step if the machine permits it, and says so; else nothing changes.
    pub fn take(&mut self, program: &Program, step: Step) -> bool {
        if self.refusal(program, step).is_some() {
            return false;
        }
        match step {
            Step::Update(p) => self.pointers[p] += 1,
            Step::Serialise(p, v) => {
                let value = self.queues[program.queue(p, v)].remove(0);
                self.append(p, v, value);
            }
            Step::Transition(number) => {
                let Transition { process: p, operation, to, .. } = program.transitions[number];
                match operation {
                    Operation::Write { variable, value } => self.queues[program.queue(p, variable)].push(value),
                    Operation::Arw { variable, new, .. } => {
                        self.append(p, variable, new);
                        self.pointers[p] = self.channel.len();
                    }
                    Operation::Nop | Operation::Read { .. } | Operation::Mfence | Operation::Sfence => {}
                }
                self.states[p] = to;
            }
        }
        true
    }
}
