//! What happens in a run, as far as a picture shows it.

use crate::contents::{Machine, Operation, Program, Run, Step};
use crate::machine::{Configuration, Source};
use crate::text::Names;
use crate::trace;

#[derive(Clone, Copy, PartialEq, Eq, Debug)]
pub enum Kind {
    Store(u8),
    Read(u8),
    Atomic(u8),
    Fence,
    Other,
    /// A store comes out: nothing stands in the process's lane.
    Out(u8),
    /// The process looks up, or removes its mark.
    Look,
}

/// A step, drawn as a column.
#[derive(Clone, PartialEq, Eq, Debug)]
pub struct Column {
    pub step: Step,
    pub process: usize,
    pub kind: Kind,
    pub text: String,
    /// The local states before the step.
    pub states: [u8; 4],
}

/// A waiting store or the mark of an sfence, from its step to where it comes out.
#[derive(Clone, PartialEq, Eq, Debug)]
pub struct Bar {
    pub process: usize,
    /// None: a mark.
    pub variable: Option<u8>,
    pub text: String,
    pub start: usize,
    pub end: Option<usize>,
}

/// A variable gets a value in memory.
#[derive(Clone, Copy, PartialEq, Eq, Debug)]
pub struct Change {
    pub column: usize,
    pub variable: u8,
    pub value: u8,
    pub message: usize,
}

#[derive(Clone, Copy, PartialEq, Eq, Debug)]
pub enum From {
    /// Its own bar of this number.
    Bar(usize),
    /// The change of this number; None: the starting memory.
    Change(Option<usize>),
    /// The process comes to see this message, by this change.
    Message(usize, Option<usize>),
}

#[derive(Clone, Copy, PartialEq, Eq, Debug)]
pub struct Sight {
    pub column: usize,
    pub process: usize,
    pub variable: u8,
    pub from: From,
}

impl Sight {
    pub fn bar(&self) -> Option<usize> {
        match self.from {
            From::Bar(number) => Some(number),
            _ => None,
        }
    }
}

#[derive(Clone, PartialEq, Eq, Debug)]
pub struct Story {
    pub machine: Machine,
    pub memory: [u8; 4],
    pub columns: Vec<Column>,
    pub bars: Vec<Bar>,
    pub changes: Vec<Change>,
    pub sights: Vec<Sight>,
    /// The local states at the end, and the target that they are.
    pub states: [u8; 4],
    pub target: Option<usize>,
    /// The last column is a step that the machine can't take, for this reason.
    pub refused: Option<String>,
    /// The steps of the run, drawn or not.
    pub steps: usize,
}

pub fn follow(program: &Program, names: &Names, run: &Run) -> Story {
    let mut c = Configuration::start(program, run.machine, run.memory);
    let mut story = Story {
        machine: run.machine,
        memory: run.memory,
        columns: Vec::new(),
        bars: Vec::new(),
        changes: Vec::new(),
        sights: Vec::new(),
        states: c.states,
        target: None,
        refused: None,
        steps: run.steps.len(),
    };
    for (number, step) in run.steps.iter().enumerate() {
        let before = c.clone();
        let (process, words) = trace::step_words(program, names, run.machine, *step);
        let operation = match step {
            Step::Transition(t) => program.transitions.get(*t as usize).map(|t| t.operation),
            _ => None,
        };
        let kind = match (*step, operation) {
            (Step::Serialise(_, v), _) => Kind::Out(v),
            (Step::Update(_), _) => Kind::Look,
            (_, Some(Operation::Write { variable, .. })) => Kind::Store(variable),
            (_, Some(Operation::Read { variable, .. })) => Kind::Read(variable),
            (_, Some(Operation::Arw { variable, .. })) => Kind::Atomic(variable),
            (_, Some(Operation::Mfence | Operation::Sfence)) => Kind::Fence,
            _ => Kind::Other,
        };
        let mut column = Column { step: *step, process, kind, text: words, states: before.states };
        let done = match c.take(program, *step) {
            Ok(done) => done,
            Err(cause) => {
                let why = trace::why(names, &c, process, cause);
                let (name, text) = (names.process(process), &column.text);
                story.refused =
                    Some(format!("refused {} {number}: {name} can't take {step} ({text}): {why}", cause.number()));
                story.columns.push(column);
                break;
            }
        };
        let latest = |story: &Story, variable: u8, message: usize| {
            story.changes.iter().rposition(|change| change.variable == variable && change.message <= message)
        };
        match (*step, operation) {
            (Step::Update(p), _) if run.machine == Machine::Pws => {
                let message = c.pointers.get(p as usize).copied().unwrap_or(0);
                column.text = format!("sees #{message}");
                let change = story.changes.iter().rposition(|change| change.message == message);
                story.sights.push(Sight { column: number, process, variable: 0, from: From::Message(message, change) });
            }
            (Step::Update(_), _) => column.text = String::from("mark off"),
            (_, Some(Operation::Write { variable, value })) => {
                let text = format!("{} := {value}", names.variable(variable as usize));
                story.bars.push(Bar { process, variable: Some(variable), text, start: number, end: None });
            }
            (_, Some(Operation::Sfence)) if run.machine == Machine::Pso => {
                story.bars.push(Bar { process, variable: None, text: String::from("mark"), start: number, end: None });
            }
            (_, Some(Operation::Read { variable, .. })) => {
                let from = match done.read {
                    Some(Source::Waiting) => {
                        let own =
                            |bar: &Bar| bar.process == process && bar.variable == Some(variable) && bar.end.is_none();
                        story.bars.iter().rposition(own).map(From::Bar)
                    }
                    Some(Source::Message(message)) => Some(From::Change(latest(&story, variable, message))),
                    None => None,
                };
                story.sights.extend(from.map(|from| Sight { column: number, process, variable, from }));
            }
            _ => {}
        }
        if let Some(out) = done.out {
            if let Some(bar) = story.bars.iter_mut().find(|bar| bar.process == process && bar.start == out.step) {
                bar.end = Some(number);
            }
        }
        if let (Some(message), Some(last)) = (done.message, c.channel.last()) {
            let value = last.values.get(last.variable as usize).copied().unwrap_or(0);
            story.changes.push(Change { column: number, variable: last.variable, value, message });
        }
        story.columns.push(column);
    }
    story.states = c.states;
    if story.refused.is_none() {
        story.target = program.target(&c.states);
        if story.target.is_none() {
            story.refused = Some(format!(
                "refused 13 {}: ends with {}, which is no target",
                run.steps.len(),
                names.places(&c.states)
            ));
        }
    }
    story
}
