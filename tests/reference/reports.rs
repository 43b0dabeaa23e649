//! Fence reports (document 02, N10), written from the request alone: the reading of a report record by record, then 22, the list and the runs.

use reference::cubes::judge_list;
use reference::entries::{Cube, List};
use reference::{entries_allowed, replay, Machine, Message, Operation, Program, Record, Run, Step, Transition, Verdict, AREA_LEAST, FF};

pub const MARKS: usize = 8;
pub const TARGETS: usize = 4_096;
pub const STEPS: usize = 1_024;

/// What a report answers; a place is a byte offset, the place of a mark, or 8 for the list.
#[derive(Clone, Copy, PartialEq, Eq, Debug)]
pub enum Judged {
    Needed(u64, u64),
    Refused(u64, u64),
}

impl std::fmt::Display for Judged {
    fn fmt(&self, f: &mut std::fmt::Formatter) -> std::fmt::Result {
        match self {
            Judged::Needed(marks, entries) => write!(f, "needed {} {}", marks, entries),
            Judged::Refused(number, place) => write!(f, "refused {} {}", number, place),
        }
    }
}

/// A report once all its records are read.
#[derive(Default)]
pub struct Report {
    pub program: Program,
    /// Transition numbers.
    pub marks: Vec<usize>,
    pub list: List,
    pub runs: Vec<Run>,
}

/// Body lengths of the kinds that a report may hold.
pub fn body_length(kind: u8) -> Option<usize> {
    if kind == 0x30 {
        Some(1)
    } else {
        reference::reading::body_length(kind)
    }
}

// ---- reading

/// Where the reading stands.
#[derive(Clone, Copy, PartialEq, Eq)]
enum At {
    /// Before the first 0F.
    Program,
    Entries,
    /// Behind an 0F with claim 1: a 1F is due.
    Memory,
    Steps,
}

struct Reader {
    report: Report,
    shape: bool,
    at: At,
    /// The latest entry, and the offset of its 10.
    latest: Option<(Cube, usize)>,
    entries: usize,
}

impl Reader {
    fn allowed(&self, kind: u8) -> bool {
        let program = &self.report.program;
        let states = self.shape && program.states.len() == program.processes;
        let before = self.at == At::Program;
        match kind {
            0x01 => before && !self.shape,
            0x02 => before && self.shape && !states,
            0x03 => before && states && program.targets.is_empty(),
            0x04 => before && states && self.report.marks.is_empty(),
            0x30 => before && !program.targets.is_empty(),
            0x0f => self.at != At::Memory && !program.targets.is_empty(),
            0x10 => self.at == At::Entries,
            0x11 | 0x12 => self.at == At::Entries && self.latest.is_some(),
            0x1f => self.at == At::Memory,
            0x20..=0x22 => self.at == At::Steps,
            _ => false,
        }
    }

    fn too_many(&self, kind: u8, body: &[u8], allowed: usize) -> bool {
        let report = &self.report;
        match kind {
            0x03 => report.program.transitions.len() == 256,
            0x04 => report.program.targets.len() == TARGETS,
            0x30 => report.marks.len() == MARKS,
            0x10 => self.entries == allowed,
            0x11 => self.latest.as_ref().unwrap().0.channel().len() == 16,
            0x12 => match self.queue(body[0], body[1]) {
                Some(queue) => self.latest.as_ref().unwrap().0.queue(queue).len() == 8,
                None => false,
            },
            0x20..=0x22 => report.runs.last().unwrap().steps.len() == STEPS,
            _ => false,
        }
    }

    fn queue(&self, p: u8, v: u8) -> Option<usize> {
        let program = &self.report.program;
        let exists = (p as usize) < program.processes && (v as usize) < program.variables;
        if exists { Some(program.queue(p as usize, v as usize)) } else { None }
    }

    /// 7 of the latest entry, which ends here: its offset.
    fn faulty(&self) -> Option<usize> {
        let (entry, at) = self.latest.as_ref()?;
        let pointers = &entry.pointers[..self.report.program.processes];
        let named = |z: &u8| *z >= 1 && *z as usize <= entry.channel().len();
        if pointers.iter().all(named) && pointers.contains(&1) { None } else { Some(*at) }
    }

    fn end_entry(&mut self) {
        if let Some((entry, _)) = self.latest.take() {
            self.report.list.push(&entry);
        }
    }

    /// Four local states, 0 for processes that are not there.
    fn states(&self, bytes: &[u8]) -> Option<[u8; 4]> {
        let states = &self.report.program.states;
        let fits = |p: usize| states.get(p).map_or(bytes[p] == 0, |n| bytes[p] < *n);
        if (0..4).all(fits) { bytes[..4].try_into().ok() } else { None }
    }

    /// Four values, 0 for variables that are not there.
    fn snapshot(&self, bytes: &[u8], free: bool) -> Option<[u8; 4]> {
        let program = &self.report.program;
        let fits = |v: usize| if v < program.variables { bytes[v] < program.values[v] || free && bytes[v] == FF } else { bytes[v] == 0 };
        if (0..4).all(fits) { bytes[..4].try_into().ok() } else { None }
    }

    fn operation(&self, body: &[u8]) -> Option<Operation> {
        let program = &self.report.program;
        let [number, v, x, y] = body else { return None };
        let variable = *v as usize;
        let value = |x: &u8| variable < program.variables && *x < program.values[variable];
        match number {
            0 | 3 | 4 if [*v, *x, *y] == [0, 0, 0] => Some(match number {
                0 => Operation::Nop,
                3 => Operation::Mfence,
                _ => Operation::Sfence,
            }),
            1 if value(x) && *y == 0 => Some(Operation::Read { variable, value: *x }),
            2 if value(x) && *y == 0 => Some(Operation::Write { variable, value: *x }),
            5 if value(x) && value(y) => Some(Operation::Arw { variable, old: *x, new: *y }),
            _ => None,
        }
    }

    /// A shape number or a state count outside its range.
    fn out_of_range(kind: u8, body: &[u8]) -> bool {
        let outside = |n: &u8| !(1..=4).contains(n);
        match kind {
            0x01 => body[..2].iter().any(outside) || body[2..2 + body[1] as usize].iter().any(outside),
            0x02 => !(1..=32).contains(&body[0]),
            _ => false,
        }
    }

    /// Takes the record in; None is 4.
    fn take(&mut self, at: usize, kind: u8, body: &[u8]) -> Option<()> {
        let processes = self.report.program.processes;
        let when = |fits: bool| if fits { Some(()) } else { None };
        match kind {
            0x01 => {
                when(body[2 + body[1] as usize..].iter().all(|count| *count == 0))?;
                self.shape = true;
                let program = &mut self.report.program;
                (program.processes, program.variables) = (body[0] as usize, body[1] as usize);
                program.values.copy_from_slice(&body[2..]);
            }
            0x02 => {
                when(body[1] < body[0])?;
                self.report.program.states.push(body[0]);
                self.report.program.initial.push(body[1]);
            }
            0x03 => {
                let states = *self.report.program.states.get(body[0] as usize)?;
                when(body[1] < states && body[6] < states)?;
                let operation = self.operation(&body[2..6])?;
                self.report.program.transitions.push(Transition { process: body[0] as usize, from: body[1], operation, to: body[6] });
            }
            0x04 => {
                let target = self.states(body)?;
                self.report.program.targets.push(target);
            }
            0x30 => {
                when((body[0] as usize) < self.report.program.transitions.len())?;
                self.report.marks.push(body[0] as usize);
            }
            0x0f => {
                // The first claim is 0, each later one 1, and there are as many of these as marks.
                when(if self.at == At::Program { body[0] == 0 } else { body[0] == 1 && self.report.runs.len() < self.report.marks.len() })?;
                if self.at == At::Program {
                    self.at = At::Entries;
                } else {
                    self.end_entry();
                    self.report.runs.push(Run { machine: Machine::Pws, memory: [0; 4], steps: Vec::new() });
                    self.at = At::Memory;
                }
            }
            0x10 => {
                let states = self.states(body)?;
                when(body[4 + processes..].iter().all(|z| *z == 0))?;
                self.end_entry();
                self.latest = Some((Cube::new(states, body[4..].try_into().ok()?), at));
                self.entries += 1;
            }
            0x11 => {
                self.queue(body[0], body[1])?;
                let snapshot = self.snapshot(&body[2..], true)?;
                self.latest.as_mut()?.0.append(Message { process: body[0], variable: body[1], snapshot });
            }
            0x12 => {
                let queue = self.queue(body[0], body[1])?;
                when(body[2] == FF || body[2] < self.report.program.values[body[1] as usize])?;
                self.latest.as_mut()?.0.push_newest(queue, body[2]);
            }
            0x1f => {
                self.report.runs.last_mut()?.memory = self.snapshot(body, false)?;
                self.at = At::Steps;
            }
            _ => {
                let step = match kind {
                    0x20 => when((body[0] as usize) < self.report.program.transitions.len()).map(|_| Step::Transition(body[0] as usize))?,
                    0x21 => self.queue(body[0], body[1]).map(|_| Step::Serialise(body[0] as usize, body[1] as usize))?,
                    _ => when((body[0] as usize) < processes).map(|_| Step::Update(body[0] as usize))?,
                };
                self.report.runs.last_mut()?.steps.push(step);
            }
        }
        Some(())
    }
}

/// The records, or the first fault with its offset: within a record 2, 1, 5, 3, 4; 7 before all else of the next 10, 0F or end; then 6.
pub fn read(file: &[u8], allowed: usize) -> Result<Report, (u64, usize)> {
    let mut reader = Reader { report: Report::default(), shape: false, at: At::Program, latest: None, entries: 0 };
    let mut at = 0;
    while at < file.len() {
        let kind = file[at];
        if let (0x10 | 0x0f, Some(entry)) = (kind, reader.faulty()) {
            return Err((7, entry));
        }
        let length = match body_length(kind) {
            Some(length) if reader.allowed(kind) => length,
            _ => return Err((2, at)),
        };
        let Some(body) = file.get(at + 1..at + 1 + length) else { return Err((1, at)) };
        if reader.too_many(kind, body, allowed) {
            return Err((5, at));
        }
        if Reader::out_of_range(kind, body) {
            return Err((3, at));
        }
        reader.take(at, kind, body).ok_or((4, at))?;
        at += 1 + length;
    }
    if let Some(entry) = reader.faulty() {
        return Err((7, entry));
    }
    let ended = match reader.at {
        At::Program | At::Memory => false,
        At::Entries | At::Steps => reader.report.runs.len() == reader.report.marks.len(),
    };
    if !ended {
        return Err((6, file.len()));
    }
    reader.end_entry();
    Ok(reader.report)
}

// ---- judgement

impl Report {
    /// The place of the lowest mark that repeats an earlier one, or is no fence.
    pub fn wrong_mark(&self) -> Option<usize> {
        let fence = |mark: usize| matches!(self.program.transitions[mark].operation, Operation::Mfence | Operation::Sfence);
        (0..self.marks.len()).find(|i| self.marks[..*i].contains(&self.marks[*i]) || !fence(self.marks[*i]))
    }

    /// The place of the lowest mark whose run is not accepted for the program in which its own fence is a nop.
    pub fn failing_run(&self) -> Option<usize> {
        let accepted = |i: usize| matches!(replay(&with_nops(&self.program, &[self.marks[i]]), &self.runs[i]), Verdict::Reachable(..));
        (0..self.marks.len()).find(|i| !accepted(*i))
    }

    pub fn judge(&self) -> Judged {
        if let Some(place) = self.wrong_mark() {
            return Judged::Refused(22, place as u64);
        }
        if !matches!(judge_list(&self.program, &self.list), Verdict::Safe(_)) {
            return Judged::Refused(23, 8);
        }
        match self.failing_run() {
            Some(place) => Judged::Refused(23, place as u64),
            None => Judged::Needed(self.marks.len() as u64, self.list.len() as u64),
        }
    }
}

/// The program in which these transitions are nops.
pub fn with_nops(program: &Program, numbers: &[usize]) -> Program {
    let mut program = program.clone();
    for number in numbers {
        program.transitions[*number].operation = Operation::Nop;
    }
    program
}

/// The whole judgement, with a work area of `area` bytes, and the offending record: a record for a fault of the records, else the empty end.
pub fn judge(file: &[u8], area: usize) -> (Judged, Record) {
    let end = Record { file: 0, at: file.len(), length: 0 };
    if area < AREA_LEAST {
        return (Judged::Refused(8, 0), end);
    }
    match read(file, entries_allowed(area)) {
        Ok(report) => (report.judge(), end),
        Err((number, place)) => {
            let length = file.get(place).map_or(0, |kind| body_length(*kind).map_or(1, |body| (1 + body).min(file.len() - place)));
            (Judged::Refused(number, place as u64), Record { file: 0, at: place, length })
        }
    }
}
