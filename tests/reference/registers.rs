//! Programs with registers (document 02, N8), written from the request alone: the reading of a file, the program without registers that is
//! written for it, and the machine of a program with registers by itself, over the memory of either machine.

use reference::pso::Item;
use reference::{Machine, Message, Operation, Program, Running, Step, Transition};

#[derive(Clone, Copy, PartialEq, Eq, Debug)]
pub enum RegisterOperation {
    /// 0 to 5, as in document 01.
    Plain(Operation),
    /// 6 reads a variable into the register.
    Load { variable: usize },
    /// 7 writes the register to a variable.
    Store { variable: usize },
    /// 8 goes on if the register equals the value.
    Test { value: u8 },
}

#[derive(Clone, Copy, PartialEq, Eq, Debug)]
pub struct RegisterTransition {
    pub process: usize,
    pub from: u8,
    pub operation: RegisterOperation,
    pub to: u8,
}

#[derive(Clone, PartialEq, Eq, Debug, Default)]
pub struct RegisterProgram {
    pub processes: usize,
    pub variables: usize,
    pub states: Vec<u8>,
    pub initial: Vec<u8>,
    pub transitions: Vec<RegisterTransition>,
    /// Local states, 0 for absent processes.
    pub targets: Vec<[u8; 4]>,
}

/// A number and a place.
pub type Refusal = (u64, usize);

// ---- reading

/// The records of a register program, or the first fault: within a record 2, 1, 5, 3, 4, and 6 at the end.
pub fn read(file: &[u8]) -> Result<RegisterProgram, Refusal> {
    let mut program = RegisterProgram::default();
    let mut at = 0;
    while at < file.len() {
        let shape = program.processes > 0;
        let all_states = shape && program.states.len() == program.processes;
        let (allowed, length) = match file[at] {
            0x01 => (!shape, 6),
            0x02 => (shape && !all_states, 2),
            0x05 => (all_states && program.targets.is_empty(), 7),
            0x04 => (all_states, 4),
            _ => (false, 0),
        };
        if !allowed {
            return Err((2, at));
        }
        let Some(body) = file.get(at + 1..at + 1 + length) else { return Err((1, at)) };
        match file[at] {
            0x05 if program.transitions.len() == 256 => return Err((5, at)),
            0x04 if program.targets.len() == 16 => return Err((5, at)),
            _ => {}
        }
        let outside = |number: u8, most: u8| number < 1 || number > most;
        let three = match file[at] {
            0x01 => outside(body[0], 4) || outside(body[1], 4) || body[2..2 + body[1] as usize].iter().any(|count| *count != 4),
            0x02 => outside(body[0], 32),
            _ => false,
        };
        if three {
            return Err((3, at));
        }
        if take(&mut program, file[at], body).is_none() {
            return Err((4, at));
        }
        at += 1 + length;
    }
    if program.targets.is_empty() {
        return Err((6, file.len()));
    }
    Ok(program)
}

/// Takes a record in; None is number 4.
fn take(program: &mut RegisterProgram, kind: u8, body: &[u8]) -> Option<()> {
    let when = |fits: bool| if fits { Some(()) } else { None };
    match kind {
        0x01 => {
            when(body[2 + body[1] as usize..].iter().all(|count| *count == 0))?;
            program.processes = body[0] as usize;
            program.variables = body[1] as usize;
        }
        0x02 => {
            when(body[1] < body[0])?;
            program.states.push(body[0]);
            program.initial.push(body[1]);
        }
        0x05 => {
            let [process, from, number, variable, value, new, to] = body else { return None };
            let states = *program.states.get(*process as usize)?;
            when(*from < states && *to < states)?;
            let has_variable = matches!(number, 1 | 2 | 5 | 6 | 7);
            when(if has_variable { (*variable as usize) < program.variables } else { *variable == 0 })?;
            when(if matches!(number, 1 | 2 | 5 | 8) { *value < 4 } else { *value == 0 })?;
            when(if *number == 5 { *new < 4 } else { *new == 0 })?;
            let (variable, value) = (*variable as usize, *value);
            let operation = match number {
                0 => RegisterOperation::Plain(Operation::Nop),
                1 => RegisterOperation::Plain(Operation::Read { variable, value }),
                2 => RegisterOperation::Plain(Operation::Write { variable, value }),
                3 => RegisterOperation::Plain(Operation::Mfence),
                4 => RegisterOperation::Plain(Operation::Sfence),
                5 => RegisterOperation::Plain(Operation::Arw { variable, old: value, new: *new }),
                6 => RegisterOperation::Load { variable },
                7 => RegisterOperation::Store { variable },
                8 => RegisterOperation::Test { value },
                _ => return None,
            };
            program.transitions.push(RegisterTransition { process: *process as usize, from: *from, operation, to: *to });
        }
        _ => {
            let mut target = [0; 4];
            for (p, state) in body.iter().enumerate() {
                when(if p < program.processes { *state < program.states[p] } else { *state == 0 })?;
                target[p] = *state;
            }
            program.targets.push(target);
        }
    }
    Some(())
}

// ---- writing

/// A written transition's origin: the number of the 05, the register value that it starts from, and the value that 6 reads.
#[derive(Clone, Copy, PartialEq, Eq, Debug)]
pub struct Origin {
    pub transition: usize,
    pub register: Option<u8>,
    pub seen: Option<u8>,
}

impl RegisterProgram {
    pub fn has_register(&self, process: usize) -> bool {
        self.transitions.iter().any(|t| t.process == process && !matches!(t.operation, RegisterOperation::Plain(_)))
    }

    /// The number of a local state with a register value.
    pub fn pair(&self, process: usize, state: u8, register: u8) -> u8 {
        if self.has_register(process) {
            4 * state + register
        } else {
            state
        }
    }

    /// How many local states each process would need.
    pub fn states_needed(&self) -> Vec<usize> {
        (0..self.processes).map(|p| self.states[p] as usize * if self.has_register(p) { 4 } else { 1 }).collect()
    }

    /// The program without registers, whatever its size, and where each of its transitions comes from.
    pub fn without_registers(&self) -> (Program, Vec<Origin>) {
        let registers: Vec<bool> = (0..self.processes).map(|p| self.has_register(p)).collect();
        let mut values = [0; 4];
        values[..self.variables].fill(4);
        let mut program = Program {
            processes: self.processes,
            variables: self.variables,
            values,
            states: self.states_needed().iter().map(|n| *n as u8).collect(),
            initial: (0..self.processes).map(|p| self.pair(p, self.initial[p], 0)).collect(),
            ..Program::default()
        };
        let mut origins = Vec::new();
        for (number, t) in self.transitions.iter().enumerate() {
            let starts: Vec<Option<u8>> = match t.operation {
                _ if !registers[t.process] => vec![None],
                RegisterOperation::Test { value } => vec![Some(value)],
                _ => (0..4).map(Some).collect(),
            };
            for register in starts {
                let seen: Vec<Option<u8>> = match t.operation {
                    RegisterOperation::Load { .. } => (0..4).map(Some).collect(),
                    _ => vec![None],
                };
                for seen in seen {
                    let (operation, held) = match (t.operation, register, seen) {
                        (RegisterOperation::Load { variable }, _, Some(value)) => (Operation::Read { variable, value }, Some(value)),
                        (RegisterOperation::Store { variable }, Some(value), _) => (Operation::Write { variable, value }, register),
                        (RegisterOperation::Plain(operation), _, _) => (operation, register),
                        _ => (Operation::Nop, register),
                    };
                    let state = |q: u8, r: Option<u8>| r.map_or(q, |r| 4 * q + r);
                    program.transitions.push(Transition {
                        process: t.process,
                        from: state(t.from, register),
                        operation,
                        to: state(t.to, held),
                    });
                    origins.push(Origin { transition: number, register, seen });
                }
            }
        }
        for target in &self.targets {
            // Of the processes' choices the last one changes fastest.
            let mut choices = vec![[0; 4]];
            for p in 0..self.processes {
                let with = |choice: &[u8; 4], r: u8| {
                    let mut choice = *choice;
                    choice[p] = self.pair(p, target[p], r);
                    choice
                };
                let of_p = if registers[p] { 4 } else { 1 };
                choices = choices.iter().flat_map(|choice| (0..of_p).map(move |r| with(choice, r))).collect();
            }
            program.targets.extend(choices);
        }
        (program, origins)
    }
}

/// What the front part does with a file and an output slice of this length: the bytes that it writes, or its refusal.
pub fn front(file: &[u8], room: usize) -> Result<Vec<u8>, Refusal> {
    let program = read(file)?;
    if let Some(process) = program.states_needed().iter().position(|n| *n > 32) {
        return Err((19, process));
    }
    let (written, origins) = program.without_registers();
    if let Some(origin) = origins.get(256) {
        return Err((28, origin.transition));
    }
    let bytes = reference::writing::program(&written);
    if bytes.len() > room {
        return Err((29, bytes.len()));
    }
    Ok(bytes)
}

// ---- the machine

#[derive(Clone, PartialEq, Eq, Debug)]
enum Memory {
    /// Queues of p and v at p * variables + v, oldest value first; messages, oldest first; pointers, counted from 1.
    Pws { queues: Vec<Vec<u8>>, channel: Vec<Message>, pointers: [usize; 4] },
    /// Buffers of p and v, oldest item first; what memory holds.
    Pso { buffers: Vec<Vec<Item>>, memory: [u8; 4] },
}

#[derive(Clone, PartialEq, Eq, Debug)]
pub struct RegisterConfiguration {
    pub states: [u8; 4],
    pub registers: [u8; 4],
    memory: Memory,
}

impl RegisterConfiguration {
    /// Initial local states, registers 0, nothing waiting, this memory.
    pub fn start(machine: Machine, program: &RegisterProgram, snapshot: [u8; 4]) -> RegisterConfiguration {
        let mut states = [0; 4];
        states[..program.processes].copy_from_slice(&program.initial);
        let waiting = program.processes * program.variables;
        let mut pointers = [0; 4];
        pointers[..program.processes].fill(1);
        let memory = match machine {
            Machine::Pws => {
                Memory::Pws { queues: vec![Vec::new(); waiting], channel: vec![Message { process: 0, variable: 0, snapshot }], pointers }
            }
            Machine::Pso => Memory::Pso { buffers: vec![Vec::new(); waiting], memory: snapshot },
        };
        RegisterConfiguration { states, registers: [0; 4], memory }
    }

    /// What p sees in v: its newest value that waits, or else the snapshot at LastWrite; in PSO memory.
    pub fn sees(&self, program: &RegisterProgram, p: usize, v: usize) -> u8 {
        let at = p * program.variables + v;
        match &self.memory {
            Memory::Pws { queues, channel, pointers } => queues[at].last().copied().unwrap_or_else(|| {
                let own = |message: &Message| message.process as usize == p && message.variable as usize == v;
                let last_write = (1..=channel.len()).filter(|number| *number == pointers[p] || own(&channel[number - 1])).max();
                channel[last_write.unwrap_or(pointers[p]) - 1].snapshot[v]
            }),
            Memory::Pso { buffers, memory } => {
                let values = buffers[at].iter().filter_map(|item| if let Item::Value(value) = item { Some(*value) } else { None });
                values.last().unwrap_or(memory[v])
            }
        }
    }

    /// Nothing of p waits, in this variable or in any.
    fn nothing_waits(&self, program: &RegisterProgram, p: usize, variable: Option<usize>) -> bool {
        (0..program.variables).filter(|v| variable.is_none_or(|only| only == *v)).all(|v| {
            let at = p * program.variables + v;
            match &self.memory {
                Memory::Pws { queues, .. } => queues[at].is_empty(),
                Memory::Pso { buffers, .. } => buffers[at].is_empty(),
            }
        })
    }

    /// p has seen all that is out.
    fn up_to_date(&self, p: usize) -> bool {
        match &self.memory {
            Memory::Pws { channel, pointers, .. } => pointers[p] == channel.len(),
            Memory::Pso { .. } => true,
        }
    }

    /// What the newest snapshot, or memory, has in v.
    fn newest(&self, v: usize) -> u8 {
        match &self.memory {
            Memory::Pws { channel, .. } => channel[channel.len() - 1].snapshot[v],
            Memory::Pso { memory, .. } => memory[v],
        }
    }

    fn wait(&mut self, program: &RegisterProgram, p: usize, v: usize, value: u8) {
        let at = p * program.variables + v;
        match &mut self.memory {
            Memory::Pws { queues, .. } => queues[at].push(value),
            Memory::Pso { buffers, .. } => buffers[at].push(Item::Value(value)),
        }
    }

    /// Value x of v is out, by p.
    fn put_out(&mut self, p: usize, v: usize, x: u8) {
        match &mut self.memory {
            Memory::Pws { channel, .. } => {
                let mut snapshot = channel[channel.len() - 1].snapshot;
                snapshot[v] = x;
                channel.push(Message { process: p as u8, variable: v as u8, snapshot });
            }
            Memory::Pso { memory, .. } => memory[v] = x,
        }
    }

    fn permitted(&self, program: &RegisterProgram, t: &RegisterTransition) -> bool {
        let p = t.process;
        let pso = matches!(self.memory, Memory::Pso { .. });
        self.states[p] == t.from
            && match t.operation {
                RegisterOperation::Plain(Operation::Nop | Operation::Write { .. }) => true,
                RegisterOperation::Plain(Operation::Read { variable, value }) => self.sees(program, p, variable) == value,
                RegisterOperation::Plain(Operation::Mfence) => self.nothing_waits(program, p, None) && self.up_to_date(p),
                RegisterOperation::Plain(Operation::Sfence) => pso || self.nothing_waits(program, p, None),
                RegisterOperation::Plain(Operation::Arw { variable, old, .. }) => {
                    self.nothing_waits(program, p, Some(variable)) && self.up_to_date(p) && self.newest(variable) == old
                }
                RegisterOperation::Load { .. } | RegisterOperation::Store { .. } => true,
                RegisterOperation::Test { value } => self.registers[p] == value,
            }
    }

    /// Takes the step if the machine permits it, and says so; else nothing changes.
    pub fn take(&mut self, program: &RegisterProgram, step: Step) -> bool {
        match step {
            Step::Serialise(p, v) => {
                let at = p * program.variables + v;
                let oldest = match &mut self.memory {
                    Memory::Pws { queues, .. } if !queues[at].is_empty() => queues[at].remove(0),
                    Memory::Pso { buffers, .. } => match buffers[at].first() {
                        Some(Item::Value(value)) => {
                            let value = *value;
                            buffers[at].remove(0);
                            value
                        }
                        _ => return false,
                    },
                    _ => return false,
                };
                self.put_out(p, v, oldest);
            }
            Step::Update(p) => match &mut self.memory {
                Memory::Pws { channel, pointers, .. } => {
                    if pointers[p] == channel.len() {
                        return false;
                    }
                    pointers[p] += 1;
                }
                Memory::Pso { buffers, .. } => {
                    let own = &mut buffers[p * program.variables..(p + 1) * program.variables];
                    if own.iter().any(|buffer| buffer.first() != Some(&Item::Mark)) {
                        return false;
                    }
                    for buffer in own {
                        buffer.remove(0);
                    }
                }
            },
            Step::Transition(number) => {
                let t = program.transitions[number];
                let p = t.process;
                if !self.permitted(program, &t) {
                    return false;
                }
                match t.operation {
                    RegisterOperation::Plain(Operation::Write { variable, value }) => self.wait(program, p, variable, value),
                    RegisterOperation::Plain(Operation::Arw { variable, new, .. }) => {
                        self.put_out(p, variable, new);
                        if let Memory::Pws { channel, pointers, .. } = &mut self.memory {
                            pointers[p] = channel.len();
                        }
                    }
                    RegisterOperation::Plain(Operation::Sfence) => {
                        if let Memory::Pso { buffers, .. } = &mut self.memory {
                            buffers[p * program.variables..(p + 1) * program.variables].iter_mut().for_each(|buffer| buffer.push(Item::Mark));
                        }
                    }
                    RegisterOperation::Plain(Operation::Nop | Operation::Read { .. } | Operation::Mfence) => {}
                    RegisterOperation::Load { variable } => self.registers[p] = self.sees(program, p, variable),
                    RegisterOperation::Store { variable } => self.wait(program, p, variable, self.registers[p]),
                    RegisterOperation::Test { .. } => {}
                }
                self.states[p] = t.to;
            }
        }
        true
    }

    /// Are the two a pair: paired local states, and all else equal?
    pub fn is_paired(&self, program: &RegisterProgram, other: &Running) -> bool {
        let states = other.states();
        (0..program.processes).all(|p| states[p] == program.pair(p, self.states[p], self.registers[p]))
            && match (&self.memory, other) {
                (Memory::Pws { queues, channel, pointers }, Running::Pws(c)) => {
                    (queues, channel, pointers) == (&c.queues, &c.channel, &c.pointers)
                }
                (Memory::Pso { buffers, memory }, Running::Pso(d)) => (buffers, memory) == (&d.buffers, &d.memory),
                _ => false,
            }
    }
}
