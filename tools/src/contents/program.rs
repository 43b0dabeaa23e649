//! Records from bytes, and the program part.

use super::{kind, Fault, Operation, Program, Transition, ANY, REGISTER_TARGETS, STATES, TARGETS, TRANSITIONS};

/// What an evidence part is read for. Without a program every process, variable, value, state and transition exists
/// that some program has.
#[derive(Clone, Copy)]
pub(super) struct Scope {
    pub(super) processes: usize,
    pub(super) variables: usize,
    pub(super) values: [u8; 4],
    pub(super) states: [u8; 4],
    pub(super) transitions: usize,
    pub(super) bare: bool,
}

impl Scope {
    pub(super) fn of(program: Option<&Program>) -> Scope {
        match program {
            Some(p) => Scope {
                processes: p.processes,
                variables: p.variables,
                values: p.values,
                states: p.states,
                transitions: p.transitions.len(),
                bare: false,
            },
            None => Scope {
                processes: 4,
                variables: 4,
                values: [4; 4],
                states: [STATES; 4],
                transitions: TRANSITIONS,
                bare: true,
            },
        }
    }
}

/// Where a program part may end.
#[derive(Clone, Copy, PartialEq)]
pub(super) enum End {
    /// With its file; an 0F is not allowed.
    File,
    /// At a claim or a mark.
    Claim,
    Either,
    /// With its file, and its transitions are 05s.
    Registers,
}

pub(super) struct Reader<'a> {
    pub(super) file: &'a [u8],
    pub(super) at: usize,
    pub(super) takes: Takes,
}

/// Which kinds are known.
#[derive(Clone, Copy, PartialEq)]
pub(super) enum Takes {
    Everything,
    /// As the judge: no 05, 13, 14, 15 and 30.
    Judged,
    /// As the judge of reports: 30 too.
    Report,
}

fn four_values(variable: usize, count: u8) -> String {
    format!("with registers every variable has four values, but variable {variable} has {count}")
}

impl<'a> Reader<'a> {
    fn knows(&self, byte: u8) -> bool {
        match byte {
            0x05 | 0x13..=0x15 => self.takes == Takes::Everything,
            0x30 => self.takes != Takes::Judged,
            _ => true,
        }
    }

    pub(super) fn fault<T>(&self, number: u64, words: String) -> Result<T, Fault> {
        Err(Fault { number, place: self.at, words })
    }

    pub(super) fn peek(&self) -> Option<u8> {
        self.file.get(self.at).copied()
    }

    pub(super) fn refuse_kind<T>(&self, byte: u8, wanted: &str) -> Result<T, Fault> {
        match kind(byte).filter(|_| self.knows(byte)) {
            Some((_, what)) => self.fault(2, format!("kind {byte:02X} ({what}) is not allowed here; wanted: {wanted}")),
            None => self.fault(2, format!("kind {byte:02X} is unknown; wanted: {wanted}")),
        }
    }

    /// The body of the record here, whose kind is known to be allowed.
    pub(super) fn body<const N: usize>(&self) -> Result<[u8; N], Fault> {
        let body = self.file.get(self.at + 1..self.at + 1 + N).and_then(|bytes| <[u8; N]>::try_from(bytes).ok());
        let Some(body) = body else {
            let (byte, has) = (self.peek().unwrap_or(0), self.file.len().saturating_sub(self.at + 1));
            let what = kind(byte).map_or("record", |k| k.1);
            return self.fault(
                1,
                format!("{byte:02X} ({what}) has {N} bytes after its kind, but the file ends after {has} of them"),
            );
        };
        Ok(body)
    }

    pub(super) fn passed(&mut self, body: usize) {
        self.at += 1 + body;
    }

    pub(super) fn check(&self, fine: bool, words: impl FnOnce() -> String) -> Result<(), Fault> {
        if fine {
            Ok(())
        } else {
            self.fault(4, words())
        }
    }

    pub(super) fn check_process(&self, scope: &Scope, process: u8) -> Result<(), Fault> {
        self.check((process as usize) < scope.processes, || {
            format!("process {process} does not exist: there are {}, numbered from 0", scope.processes)
        })
    }

    pub(super) fn check_variable(&self, scope: &Scope, variable: u8) -> Result<(), Fault> {
        self.check((variable as usize) < scope.variables, || {
            format!("variable {variable} does not exist: there are {}, numbered from 0", scope.variables)
        })
    }

    pub(super) fn check_value(&self, scope: &Scope, variable: u8, value: u8, any: bool) -> Result<(), Fault> {
        let count = scope.values.get(variable as usize).copied().unwrap_or(0);
        self.check(value < count || any && value == ANY, || {
            format!("value {value} of variable {variable} is outside its range 0 to {}", count.saturating_sub(1))
        })
    }

    pub(super) fn check_state(&self, scope: &Scope, process: u8, state: u8) -> Result<(), Fault> {
        let count = scope.states.get(process as usize).copied().unwrap_or(0);
        self.check(state < count, || format!("process {process} has no state {state}: it has {count}, numbered from 0"))
    }

    pub(super) fn check_states(&self, scope: &Scope, states: &[u8; 4]) -> Result<(), Fault> {
        for (p, state) in states.iter().enumerate() {
            if p < scope.processes {
                self.check_state(scope, p as u8, *state)?;
            } else {
                self.check(*state == 0, || format!("process {p} does not exist, and its state is {state} and not 0"))?;
            }
        }
        Ok(())
    }

    pub(super) fn check_values(&self, scope: &Scope, values: &[u8; 4], any: bool) -> Result<(), Fault> {
        for (v, value) in values.iter().enumerate() {
            if v < scope.variables {
                self.check_value(scope, v as u8, *value, any)?;
            } else {
                self.check(*value == 0, || format!("variable {v} does not exist, and its value is {value} and not 0"))?;
            }
        }
        Ok(())
    }

    pub(super) fn program(&mut self, end: End) -> Result<Program, Fault> {
        let file = matches!(end, End::File | End::Registers);
        let wanted = match (file, self.takes) {
            (true, _) => "a target (04)",
            (_, Takes::Report) => "a mark (30) or the claim (0F)",
            _ => "the claim (0F)",
        };
        let ended = |reader: &Self| {
            let what = if end == End::Claim { "its claim (0F)" } else { "its first target (04)" };
            reader.fault(6, format!("the file ends before {what}"))
        };
        let mut program = Program {
            processes: 0,
            variables: 0,
            values: [0; 4],
            states: [0; 4],
            initial: [0; 4],
            registers: false,
            transitions: Vec::new(),
            targets: Vec::new(),
        };
        match self.peek() {
            None => return ended(self),
            Some(0x01) => {}
            Some(other) => return self.refuse_kind(other, "the shape (01)"),
        }
        let [processes, variables, values @ ..] = self.body::<6>()?;
        if !(1..=4).contains(&processes) {
            return self.fault(3, format!("{processes} processes: there are 1 to 4"));
        }
        if !(1..=4).contains(&variables) {
            return self.fault(3, format!("{variables} variables: there are 1 to 4"));
        }
        for (v, count) in values.iter().enumerate().take(variables as usize) {
            if !(1..=4).contains(count) {
                return self.fault(3, format!("variable {v} has {count} values: there are 1 to 4"));
            }
            if end == End::Registers && *count != 4 {
                return self.fault(3, four_values(v, *count));
            }
        }
        for (v, count) in values.iter().enumerate().skip(variables as usize) {
            self.check(*count == 0, || {
                format!("variable {v} does not exist, and its number of values is {count} and not 0")
            })?;
        }
        program.processes = processes as usize;
        program.variables = variables as usize;
        program.values = values;
        self.passed(6);
        for p in 0..program.processes {
            match self.peek() {
                None => return ended(self),
                Some(0x02) => {}
                Some(other) => return self.refuse_kind(other, &format!("the states (02) of process {p}")),
            }
            let [count, initial] = self.body::<2>()?;
            if !(1..=STATES).contains(&count) {
                return self.fault(3, format!("process {p} has {count} states: there are 1 to {STATES}"));
            }
            self.check(initial < count, || {
                format!("process {p} starts in state {initial}, but has {count}, numbered from 0")
            })?;
            program.states[p] = count;
            program.initial[p] = initial;
            self.passed(2);
        }
        let mut first = (end == End::Registers).then_some(0x05);
        loop {
            let byte = match self.peek() {
                None if !program.targets.is_empty() && end != End::Claim => break,
                None => return ended(self),
                Some(0x0f) if !program.targets.is_empty() && !file => break,
                Some(0x30) if !program.targets.is_empty() && self.knows(0x30) && end != End::Registers => break,
                Some(byte) => byte,
            };
            if !self.knows(byte) {
                return self.refuse_kind(byte, wanted);
            }
            match byte {
                0x03 | 0x05 if program.targets.is_empty() && *first.get_or_insert(byte) == byte => {
                    let [process, from, operation, variable, value, new, to] = self.body::<7>()?;
                    if program.transitions.len() >= TRANSITIONS {
                        return self.fault(5, format!("transition {TRANSITIONS}: there are at most {TRANSITIONS}"));
                    }
                    if byte == 0x05 && program.transitions.is_empty() {
                        for v in 0..program.variables {
                            if program.values[v] != 4 {
                                return Err(Fault { number: 3, place: 0, words: four_values(v, program.values[v]) });
                            }
                        }
                    }
                    let scope = Scope::of(Some(&program));
                    self.check_process(&scope, process)?;
                    self.check_state(&scope, process, from)?;
                    self.check_state(&scope, process, to)?;
                    let lacks = |reader: &Self, fields: &[(&str, u8)]| {
                        for (name, field) in fields {
                            reader.check(*field == 0, || {
                                format!("operation {operation} has no {name}, and that byte is {field} and not 0")
                            })?;
                        }
                        Ok(())
                    };
                    let operation = match operation {
                        0 | 3 | 4 => {
                            lacks(self, &[("variable", variable), ("value", value), ("new value", new)])?;
                            match operation {
                                0 => Operation::Nop,
                                3 => Operation::Mfence,
                                _ => Operation::Sfence,
                            }
                        }
                        1 | 2 | 5 => {
                            self.check_variable(&scope, variable)?;
                            self.check_value(&scope, variable, value, false)?;
                            if operation == 5 {
                                self.check_value(&scope, variable, new, false)?;
                                Operation::Arw { variable, old: value, new }
                            } else {
                                lacks(self, &[("new value", new)])?;
                                if operation == 1 {
                                    Operation::Read { variable, value }
                                } else {
                                    Operation::Write { variable, value }
                                }
                            }
                        }
                        6 | 7 if byte == 0x05 => {
                            self.check_variable(&scope, variable)?;
                            lacks(self, &[("value", value), ("new value", new)])?;
                            if operation == 6 {
                                Operation::Load { variable }
                            } else {
                                Operation::Save { variable }
                            }
                        }
                        8 if byte == 0x05 => {
                            lacks(self, &[("variable", variable), ("new value", new)])?;
                            self.check(value < 4, || format!("a register has the values 0 to 3, and not {value}"))?;
                            Operation::Test { value }
                        }
                        other => {
                            let most = if byte == 0x05 { 8 } else { 5 };
                            return self.fault(4, format!("operation {other} does not exist: they are 0 to {most}"));
                        }
                    };
                    program.transitions.push(Transition { process, from, operation, to });
                    self.passed(7);
                }
                0x04 => {
                    let target = self.body::<4>()?;
                    let most = if first == Some(0x05) { REGISTER_TARGETS } else { TARGETS };
                    if program.targets.len() >= most {
                        return self.fault(5, format!("target {most}: there are at most {most}"));
                    }
                    self.check_states(&Scope::of(Some(&program)), &target)?;
                    program.targets.push(target);
                    self.passed(4);
                }
                other if program.targets.is_empty() => {
                    let transition = if end == End::Registers { "05" } else { "03" };
                    return self.refuse_kind(other, &format!("a transition ({transition}) or a target (04)"));
                }
                other => return self.refuse_kind(other, wanted),
            }
        }
        program.registers = first == Some(0x05);
        Ok(program)
    }
}
