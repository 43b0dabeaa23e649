//! The two machines, for traces and pictures: the PWS machine (document 01, "The machine") and the PSO machine
//! (document 02, N7). A step that can't be taken says why. Numbers of transitions, processes and variables outside the
//! program are refused and never index anything.

use crate::contents::{Machine, Message, Operation, Program, Step};

/// Why a step can't be taken, in the order of N1.
#[derive(Clone, Copy, PartialEq, Eq, Debug)]
pub enum Cause {
    /// 12: the process is in `is`, and not in the transition's first state.
    State { is: u8, wanted: u8 },
    /// 16: this queue of the process must be empty.
    Queue { variable: u8 },
    /// 17: the pointer must be at the newest message.
    Pointer { is: usize, newest: usize },
    /// 15: the value there.
    Value { variable: u8, is: u8, wanted: u8, from: Source },
    /// 18: nothing waits to be serialised; PSO: nothing, or a mark, heads the buffer.
    Nothing,
    /// 18: no newer message.
    Newest,
    /// 18, PSO: a mark heads the buffer.
    Mark,
    /// 18, PSO: no mark heads this buffer.
    NoMark { variable: u8 },
    /// The step names what the program does not have: no file that was read has one.
    Absent,
}

impl Cause {
    pub fn number(self) -> u64 {
        match self {
            Cause::State { .. } => 12,
            Cause::Queue { .. } => 16,
            Cause::Pointer { .. } => 17,
            Cause::Value { .. } => 15,
            Cause::Nothing | Cause::Newest | Cause::Mark | Cause::NoMark { .. } => 18,
            Cause::Absent => 4,
        }
    }
}

/// Where a value that is read stands: its own waiting store, or this message; for the PSO machine that is memory as it is.
#[derive(Clone, Copy, PartialEq, Eq, Debug)]
pub enum Source {
    Waiting,
    Message(usize),
}

/// A waiting store, or the mark of an sfence.
#[derive(Clone, Copy, PartialEq, Eq, Debug)]
pub struct Waiting {
    /// None: a mark.
    pub value: Option<u8>,
    /// The step that stored it.
    pub step: usize,
}

#[derive(Clone, PartialEq, Eq, Debug)]
pub struct Configuration {
    pub machine: Machine,
    pub states: [u8; 4],
    /// By process and variable, oldest first.
    pub queues: [[Vec<Waiting>; 4]; 4],
    /// Oldest first; message number n at n - 1. Of the PSO machine only the last one is memory, and all before it are
    /// what it was.
    pub channel: Vec<Message>,
    /// Message numbers, counted from 1; 0 of absent processes, and for the PSO machine.
    pub pointers: [usize; 4],
    taken: usize,
}

/// What a step did.
#[derive(Clone, Copy, PartialEq, Eq, Debug)]
pub struct Done {
    pub process: usize,
    /// The transition, if it was one.
    pub transition: Option<usize>,
    /// Where a read found its value.
    pub read: Option<Source>,
    /// The waiting store that came out.
    pub out: Option<Waiting>,
    /// The number of the message that was appended.
    pub message: Option<usize>,
}

impl Configuration {
    pub fn start(program: &Program, machine: Machine, memory: [u8; 4]) -> Configuration {
        let mut pointers = [0; 4];
        if machine == Machine::Pws {
            pointers.iter_mut().take(program.processes).for_each(|pointer| *pointer = 1);
        }
        Configuration {
            machine,
            states: program.initial,
            queues: Default::default(),
            channel: vec![Message { process: 0, variable: 0, values: memory }],
            pointers,
            taken: 0,
        }
    }

    pub fn newest(&self) -> usize {
        self.channel.len()
    }

    /// The snapshot of a message, 0 in all variables if there is none of this number.
    pub fn snapshot(&self, number: usize) -> [u8; 4] {
        number.checked_sub(1).and_then(|at| self.channel.get(at)).map_or([0; 4], |message| message.values)
    }

    /// The largest message number that is the pointer or carries the label.
    pub fn last_write(&self, process: usize, variable: usize) -> usize {
        let pointer = self.pointers.get(process).copied().unwrap_or(0);
        let labelled = |m: &Message| (m.process as usize, m.variable as usize) == (process, variable);
        (pointer + 1..=self.channel.len())
            .rev()
            .find(|number| self.channel.get(number - 1).is_some_and(labelled))
            .unwrap_or(pointer)
    }

    /// Where p reads v, and the value there.
    pub fn seen(&self, process: usize, variable: usize) -> (Source, u8) {
        let waiting = self.queues.get(process).and_then(|q| q.get(variable));
        if let Some(value) = waiting.and_then(|queue| queue.iter().rev().find_map(|w| w.value)) {
            return (Source::Waiting, value);
        }
        let number = if self.machine == Machine::Pws { self.last_write(process, variable) } else { self.newest() };
        (Source::Message(number), self.snapshot(number).get(variable).copied().unwrap_or(0))
    }

    fn append(&mut self, process: usize, variable: usize, value: u8) -> usize {
        let mut values = self.snapshot(self.newest());
        if let Some(place) = values.get_mut(variable) {
            *place = value;
        }
        self.channel.push(Message { process: process as u8, variable: variable as u8, values });
        self.newest()
    }

    /// Takes the step if the machine can; if not, nothing changes and the first cause is given.
    pub fn take(&mut self, program: &Program, step: Step) -> Result<Done, Cause> {
        let pws = self.machine == Machine::Pws;
        let mut done = Done { process: 0, transition: None, read: None, out: None, message: None };
        match step {
            Step::Serialise(p, v) => {
                let (p, v) = (p as usize, v as usize);
                if p >= program.processes || v >= program.variables {
                    return Err(Cause::Absent);
                }
                done.process = p;
                match self.queues[p][v].first() {
                    None => return Err(Cause::Nothing),
                    Some(Waiting { value: None, .. }) => return Err(Cause::Mark),
                    Some(Waiting { value: Some(value), .. }) => {
                        let value = *value;
                        done.out = Some(self.queues[p][v].remove(0));
                        done.message = Some(self.append(p, v, value));
                    }
                }
            }
            Step::Update(p) => {
                let p = p as usize;
                if p >= program.processes {
                    return Err(Cause::Absent);
                }
                done.process = p;
                if pws {
                    if self.pointers[p] >= self.newest() {
                        return Err(Cause::Newest);
                    }
                    self.pointers[p] += 1;
                } else {
                    let marked = |queue: &Vec<Waiting>| queue.first().is_some_and(|w| w.value.is_none());
                    if let Some(v) = (0..program.variables).find(|v| !marked(&self.queues[p][*v])) {
                        return Err(Cause::NoMark { variable: v as u8 });
                    }
                    for queue in self.queues[p].iter_mut().take(program.variables) {
                        done.out = Some(queue.remove(0));
                    }
                }
            }
            Step::Transition(number) => {
                let Some(transition) = program.transitions.get(number as usize).copied() else {
                    return Err(Cause::Absent);
                };
                let p = transition.process as usize;
                if p >= program.processes || p >= 4 || transition.operation.uses_register() {
                    return Err(Cause::Absent);
                }
                done.process = p;
                done.transition = Some(number as usize);
                if self.states[p] != transition.from {
                    return Err(Cause::State { is: self.states[p], wanted: transition.from });
                }
                let empty: Vec<usize> = match transition.operation {
                    Operation::Mfence => (0..program.variables).collect(),
                    Operation::Sfence if pws => (0..program.variables).collect(),
                    Operation::Arw { variable, .. } => vec![variable as usize],
                    _ => Vec::new(),
                };
                if let Some(v) = empty.iter().find(|v| self.queues[p].get(**v).is_some_and(|queue| !queue.is_empty())) {
                    return Err(Cause::Queue { variable: *v as u8 });
                }
                let at_newest = matches!(transition.operation, Operation::Mfence | Operation::Arw { .. });
                if pws && at_newest && self.pointers[p] != self.newest() {
                    return Err(Cause::Pointer { is: self.pointers[p], newest: self.newest() });
                }
                match transition.operation {
                    Operation::Read { variable, value } => {
                        let (from, is) = self.seen(p, variable as usize);
                        if is != value {
                            return Err(Cause::Value { variable, is, wanted: value, from });
                        }
                        done.read = Some(from);
                    }
                    Operation::Arw { variable, old, new } => {
                        let newest = self.newest();
                        let is = self.snapshot(newest).get(variable as usize).copied().unwrap_or(0);
                        if is != old {
                            return Err(Cause::Value { variable, is, wanted: old, from: Source::Message(newest) });
                        }
                        done.message = Some(self.append(p, variable as usize, new));
                        if pws {
                            self.pointers[p] = self.newest();
                        }
                    }
                    Operation::Write { variable, value } => {
                        if let Some(queue) = self.queues[p].get_mut(variable as usize) {
                            queue.push(Waiting { value: Some(value), step: self.taken });
                        }
                    }
                    Operation::Sfence if !pws => {
                        for queue in self.queues[p].iter_mut().take(program.variables) {
                            queue.push(Waiting { value: None, step: self.taken });
                        }
                    }
                    _ => {}
                }
                self.states[p] = transition.to;
            }
        }
        self.taken += 1;
        Ok(done)
    }
}
