//! A run in words, step by step, of either machine: short (`steps`) or with every process after each step (`lines`). A
//! refused run is told up to the step that fails, with the reason.

use crate::contents::{self, Evidence, Machine, Operation, Program, Run, Step};
use crate::machine::{Cause, Configuration, Done, Source};
use crate::text::{self, Names};

/// The lines of a run, and whether every step was taken and the last local states are a target.
#[derive(Clone, PartialEq, Eq, Debug)]
pub struct Told {
    pub lines: Vec<String>,
    pub accepted: bool,
}

/// What a step does, before it is known whether the machine can take it: `gate := 1`, `writes out counter`.
pub fn step_words(program: &Program, names: &Names, machine: Machine, step: Step) -> (usize, String) {
    match step {
        Step::Serialise(p, v) => (p as usize, format!("writes out {}", names.variable(v as usize))),
        Step::Update(p) if machine == Machine::Pws => (p as usize, String::from("looks up")),
        Step::Update(p) => (p as usize, String::from("removes its mark")),
        Step::Transition(number) => match program.transitions.get(number as usize) {
            None => (0, format!("t{number}")),
            Some(t) => {
                let words = names.operation(t.process as usize, t.operation);
                (t.process as usize, if words.is_empty() { String::from("nop") } else { words })
            }
        },
    }
}

/// Why the machine can't take the step, as a sentence about its process.
pub fn why(names: &Names, c: &Configuration, process: usize, cause: Cause) -> String {
    let name = names.process(process);
    let variable = |v: u8| names.variable(v as usize);
    let waiting = |v: u8| {
        let queue = c.queues.get(process).and_then(|queues| queues.get(v as usize));
        let values =
            queue.into_iter().flatten().map(|w| w.value.map_or(String::from("a mark"), |value| value.to_string()));
        values.collect::<Vec<_>>().join(", ")
    };
    match cause {
        Cause::State { is, wanted } => {
            format!("{name} is at {}, and not at {}", names.state(process, is), names.state(process, wanted))
        }
        Cause::Queue { variable: v } => format!("{name} still has {} waiting for {}", waiting(v), variable(v)),
        Cause::Pointer { is, newest } => format!("{name} sees message {is}, and not yet the newest, {newest}"),
        Cause::Value { variable: v, is, wanted, from } => {
            let from = match (from, c.machine) {
                (Source::Waiting, _) => String::from("its own waiting store"),
                (Source::Message(_), Machine::Pso) => String::from("memory"),
                (Source::Message(number), Machine::Pws) => format!("message {number}"),
            };
            format!("{name} finds {}={is} in {from}, and not {wanted}", variable(v))
        }
        Cause::Nothing => format!("nothing waits there: {name} has no store to write out"),
        Cause::Newest => format!("{name} sees the newest message already, {}", c.newest()),
        Cause::Mark => format!("the mark of an sfence of {name} comes first there"),
        Cause::NoMark { variable: v } => match waiting(v) {
            nothing if nothing.is_empty() => {
                format!("no mark comes first in every buffer of {name}: nothing waits for {}", variable(v))
            }
            values => format!("no mark comes first in every buffer of {name}: {} has {values}", variable(v)),
        },
        Cause::Absent => String::from("the program has no such step"),
    }
}

/// What waits for a process: `gate 1; counter 1 2`.
fn waits(program: &Program, names: &Names, c: &Configuration, p: usize) -> String {
    let mut parts = Vec::new();
    for v in 0..program.variables.min(4) {
        if let Some(queue) = c.queues.get(p).and_then(|queues| queues.get(v)).filter(|queue| !queue.is_empty()) {
            let values: Vec<String> =
                queue.iter().map(|w| w.value.map_or(String::from("|"), |value| value.to_string())).collect();
            parts.push(format!("{} {}", names.variable(v), values.join(" ")));
        }
    }
    if parts.is_empty() {
        String::from("-")
    } else {
        parts.join("; ")
    }
}

/// What a step that was taken did, for the short form.
fn done_words(program: &Program, names: &Names, c: &Configuration, step: Step, done: &Done) -> String {
    let (_, words) = step_words(program, names, c.machine, step);
    match step {
        Step::Serialise(_, v) => {
            let value = done.out.and_then(|w| w.value).unwrap_or(0);
            match c.machine {
                Machine::Pws => format!("{} := {value} is out: message {}", names.variable(v as usize), c.newest()),
                Machine::Pso => format!("{} := {value} is in memory", names.variable(v as usize)),
            }
        }
        Step::Update(_) if c.machine == Machine::Pso => String::from("its mark is removed"),
        Step::Update(p) => {
            let pointer = c.pointers.get(p as usize).copied().unwrap_or(0);
            format!("sees message {pointer}: {}", names.memory(&c.snapshot(pointer)))
        }
        Step::Transition(number) => match program.transitions.get(number as usize).map(|t| t.operation) {
            Some(Operation::Write { .. }) => format!("{words}, waits"),
            Some(Operation::Read { .. }) if done.read == Some(Source::Waiting) => {
                format!("{words}, its own waiting store")
            }
            Some(Operation::Arw { .. }) if c.machine == Machine::Pws => format!("{words}: message {}", c.newest()),
            _ => words,
        },
    }
}

fn head(program: &Program, names: &Names, run: &Run) -> Vec<String> {
    let count = |n: usize, one: &str| format!("{n} {one}{}", if n == 1 { "" } else { "es" });
    let variables = (0..program.variables.min(4))
        .map(|v| format!("{} 0..{}", names.variable(v), program.values[v].saturating_sub(1)));
    let mut lines = vec![format!(
        "{} ({}), variables {}",
        count(program.processes, "process"),
        names.processes.join(", "),
        variables.collect::<Vec<_>>().join(", ")
    )];
    for (number, target) in program.targets.iter().enumerate().take(16) {
        lines.push(format!("target {number}: {}", names.places(target)));
    }
    if program.targets.len() > 16 {
        lines.push(format!("and {} targets more", program.targets.len() - 16));
    }
    let machine = if run.machine == Machine::Pso { " of the PSO machine" } else { "" };
    lines.push(format!("a run{machine} from {}", names.memory(&run.memory)));
    lines
}

/// How the run ends, once every step is taken.
fn tail(program: &Program, names: &Names, run: &Run, c: &Configuration) -> (String, bool) {
    let count = format!("{} step{}", run.steps.len(), if run.steps.len() == 1 { "" } else { "s" });
    let places = names.places(&c.states);
    match program.target(&c.states) {
        Some(number) => (format!("ends after {count} with {places}: target {number}"), true),
        None => {
            (format!("refused 13 {}: ends after {count} with {places}, which is no target", run.steps.len()), false)
        }
    }
}

fn refused(names: &Names, c: &Configuration, program: &Program, number: usize, step: Step, cause: Cause) -> String {
    let (process, words) = step_words(program, names, c.machine, step);
    format!(
        "refused {} {number}: {} can't take {step} ({words}): {}",
        cause.number(),
        names.process(process),
        why(names, c, process, cause)
    )
}

/// A run, a line for each step, with what waits behind it.
pub fn steps(program: &Program, names: &Names, run: &Run) -> Told {
    let mut lines = head(program, names, run);
    let mut c = Configuration::start(program, run.machine, run.memory);
    let width = names.processes.iter().map(|name| name.chars().count()).max().unwrap_or(0);
    let mut told: Vec<(String, String)> = Vec::new();
    let mut stopped = None;
    for (number, step) in run.steps.iter().enumerate() {
        let before = |process: usize, words: &str| {
            format!("{number:4}  {:5} {:width$}  {words}", step.to_string(), names.process(process))
        };
        match c.take(program, *step) {
            Err(cause) => {
                let (process, words) = step_words(program, names, run.machine, *step);
                told.push((before(process, &words), String::new()));
                stopped = Some(refused(names, &c, program, number, *step, cause));
                break;
            }
            Ok(done) => {
                let waiting: Vec<String> = (0..program.processes)
                    .map(|p| (p, waits(program, names, &c, p)))
                    .filter(|(_, waiting)| waiting != "-")
                    .map(|(p, waiting)| format!("[{}: {waiting}]", names.process(p)))
                    .collect();
                told.push((before(done.process, &done_words(program, names, &c, *step, &done)), waiting.join(" ")));
            }
        }
    }
    let width = told.iter().map(|(words, _)| words.chars().count()).max().unwrap_or(0).min(100);
    lines.extend(told.iter().map(|(words, waiting)| format!("{words:width$}  {waiting}").trim_end().to_string()));
    if let Some(why) = stopped {
        lines.push(why);
        return Told { lines, accepted: false };
    }
    let (last, accepted) = tail(program, names, run, &c);
    lines.push(last);
    Told { lines, accepted }
}

/// Where every process is, what waits for it and what it sees; `*` before what the step changed.
fn processes(
    program: &Program,
    names: &Names,
    c: &Configuration,
    before: Option<&Configuration>,
    lines: &mut Vec<String>,
) {
    let width = |texts: &mut dyn Iterator<Item = &str>| texts.map(|text| text.chars().count()).max().unwrap_or(0);
    let name_width = width(&mut names.processes.iter().map(String::as_str));
    let state_width = width(&mut names.states.iter().flatten().map(|state| state.name.as_str()));
    for p in 0..program.processes.min(4) {
        let view = |c: &Configuration| match c.machine {
            Machine::Pws => format!(
                "sees message {} of {}: {}",
                c.pointers[p],
                c.newest(),
                names.memory(&c.snapshot(c.pointers[p]))
            ),
            Machine::Pso => String::new(),
        };
        let moved = |changed: bool| if changed { '*' } else { ' ' };
        let state = before.is_some_and(|b| b.states[p] != c.states[p]);
        let queue = before.is_some_and(|b| b.queues[p] != c.queues[p]);
        let pointer = before.is_some_and(|b| b.pointers[p] != c.pointers[p]);
        let line = format!(
            "        {:name_width$} {}at {:state_width$}  {}waits {:20} {}{}",
            names.process(p),
            moved(state),
            names.state(p, c.states[p]),
            moved(queue),
            waits(program, names, c, p),
            moved(pointer),
            view(c)
        );
        lines.push(line.trim_end().to_string());
    }
    if c.machine == Machine::Pso {
        let changed = before.is_some_and(|b| b.snapshot(b.newest()) != c.snapshot(c.newest()));
        lines.push(format!(
            "        {}memory {}",
            if changed { '*' } else { ' ' },
            names.memory(&c.snapshot(c.newest()))
        ));
    } else if before.is_some_and(|b| b.newest() != c.newest()) {
        let label = c.channel.last().map_or(String::new(), |m| {
            format!("{} of {}", names.variable(m.variable as usize), names.process(m.process as usize))
        });
        lines.push(format!("        *message {}, {label}: {}", c.newest(), names.memory(&c.snapshot(c.newest()))));
    }
}

/// A run with the configuration after each step.
pub fn lines(program: &Program, names: &Names, run: &Run) -> Told {
    let mut lines = head(program, names, run);
    let mut c = Configuration::start(program, run.machine, run.memory);
    processes(program, names, &c, None, &mut lines);
    for (number, step) in run.steps.iter().enumerate() {
        let before = c.clone();
        let (process, words) = step_words(program, names, run.machine, *step);
        lines.push(format!("{number:4}  {step} {}: {words}", names.process(process)));
        if let Err(cause) = c.take(program, *step) {
            lines.push(refused(names, &c, program, number, *step, cause));
            return Told { lines, accepted: false };
        }
        processes(program, names, &c, Some(&before), &mut lines);
    }
    let (last, accepted) = tail(program, names, run, &c);
    lines.push(last);
    Told { lines, accepted }
}

/// The trace of a file or a pair of files as the judge takes them, with names made up. Why there is none, in words: the
/// file's fault, or that it holds no run.
pub fn of_files(file: &[u8], evidence: Option<&[u8]>, registers: Option<&Program>) -> Result<Told, String> {
    let read = match evidence {
        None => contents::read_combined(file).map_err(|fault| fault.words),
        Some(evidence) => contents::read_pair(file, evidence).map_err(|(_, fault)| fault.words),
    };
    match read? {
        (program, Evidence::Run(run)) => {
            let names = match registers {
                Some(own) => text::registers::names(own, &Names::made_up(Some(own))),
                None => Names::made_up(Some(&program)),
            };
            Ok(lines(&program, &names, &run))
        }
        _ => Err(String::from("it holds no run")),
    }
}
