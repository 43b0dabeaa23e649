//! Why a file is refused: a sentence with what was there and what was wanted, for -e. The number is the judge's; its file is read again here, and
//! where that reading should not come to the same number, the words of the table stand alone.

use crate::contents::{self, Entry, Evidence, Item, Machine, Operation, Program, Run, Step};
use crate::library::{Lent, Verdict, PROGRAM_FILE, SERIALISE, TRANSITION};
use crate::machine::{Cause, Configuration, Source, Waiting};
use crate::registers::Origins;
use crate::words;

/// Without a line feed or a full stop.
pub fn why(lent: Lent, v: Verdict) -> String {
    why_from(lent, v, None)
}

/// The same of a program that was written for one with registers: transitions, states and targets are named with what they came from.
pub fn why_from(lent: Lent, v: Verdict, origins: Option<&Origins>) -> String {
    told(lent, v, origins).unwrap_or_else(|| {
        let file = lent.program.filter(|_| v.record_file == PROGRAM_FILE).unwrap_or(lent.file);
        let at = usize::try_from(v.second).ok().filter(|_| v.about_records());
        at.map_or(String::new(), |at| format!("at byte {at}{}: ", record_words(file, at))) + words::says(v.first)
    })
}

fn told(lent: Lent, v: Verdict, origins: Option<&Origins>) -> Option<String> {
    let read = match lent.program {
        None => contents::read_combined(lent.file).map_err(|fault| (false, fault)),
        Some(program) => contents::read_pair(program, lent.file),
    };
    let (program, evidence) = match read {
        Ok((program, evidence)) => (Told { program, origins }, evidence),
        Err((in_program, fault)) => {
            let file = if in_program { lent.program? } else { lent.file };
            let same = (fault.number, fault.place as u64) == (v.first, v.second);
            let there = lent.program.is_none() || in_program == (v.record_file == PROGRAM_FILE);
            return (same && there).then(|| format!("at byte {}{}: {}", fault.place, record_words(file, fault.place), fault.words));
        }
    };
    let program = &program;
    let place = usize::try_from(v.second).ok()?;
    match (evidence, v.first) {
        (Evidence::List(entries), 9) => target_words(program, &entries, place),
        (Evidence::List(entries), 10) => Some(format!(
            "entry {place} ({}) has every process in its initial state, one message, and nothing that waits, so starts are above it",
            entry_words(&program.program, entries.get(place)?)
        )),
        (Evidence::List(entries), 11) => {
            let step = step_words(program, Machine::Pws, step_of(v)?)?;
            let entry = entry_words(&program.program, entries.get(place)?);
            Some(format!("{step} leads above entry {place} ({entry}) from a configuration that is above no entry; -w shows one"))
        }
        (Evidence::Run(run), number) => run_words(program, &run, number, place),
        _ => None,
    }
}

/// The program that the judge read, and what it came from.
struct Told<'a> {
    program: Program,
    origins: Option<&'a Origins>,
}

impl Told<'_> {
    fn state(&self, process: usize, state: u8) -> String {
        format!("{state}{}", self.origins.map_or(String::new(), |origins| origins.state(process, state)))
    }

    fn states(&self, states: &[u8]) -> String {
        let between = if self.origins.is_some() { ", " } else { " " };
        states.iter().enumerate().map(|(p, state)| self.state(p, *state)).collect::<Vec<_>>().join(between)
    }
}

// ---- records

/// A fault of a report's records, 1 to 7.
pub fn why_report(file: &[u8], v: Verdict) -> String {
    let at = usize::try_from(v.second).unwrap_or(usize::MAX);
    let own = contents::read_report(file).err().filter(|fault| (fault.number, fault.place) == (v.first, at));
    let words = own.map_or(words::says(v.first).to_string(), |fault| fault.words);
    match v.about_records() {
        true => format!("at byte {at}{}: {words}", record_words(file, at)),
        false => words,
    }
}

/// Which record stands there: `, entry 3 (10)`, or `, message 2 of entry 3 (11)`; in a report `, step 2 of the run of mark 0 (20)`.
pub(crate) fn record_words(file: &[u8], place: usize) -> String {
    let (mut at, mut entries, mut messages, mut counts) = (0, 0usize, 0usize, [0usize; 256]);
    while at < place {
        let Some(byte) = file.get(at).copied() else { return String::new() };
        let Some((body, _)) = contents::kind(byte) else { return String::new() };
        match byte {
            0x10 => (entries, messages) = (entries + 1, 0),
            0x11 => messages += 1,
            0x0F => counts[0x20] = 0,
            _ => {}
        }
        counts[usize::from(if matches!(byte, 0x20..=0x22) { 0x20 } else { byte })] += 1;
        at += 1 + body;
    }
    let Some(byte) = file.get(place).copied() else { return String::new() };
    let count = |kind: u8| counts[usize::from(kind)];
    let entry = entries.saturating_sub(1);
    // In a report the first claim is the list's, and there is one more for each mark.
    let of_run = |claims: usize| match claims.checked_sub(1).filter(|mark| *mark < count(0x30)) {
        Some(mark) => format!(" of the run of mark {mark}"),
        None => String::new(),
    };
    let inside = of_run(count(0x0F).saturating_sub(1));
    let name = match byte {
        0x01 => "the shape".to_string(),
        0x02 => format!("the states of process {}", count(2)),
        0x03 => format!("transition {}", count(3)),
        0x04 => format!("target {}", count(4)),
        0x05 => format!("transition {}", count(5)),
        0x0F => format!("the claim{}", of_run(count(0x0F))),
        0x10 => format!("entry {entries}"),
        0x11 => format!("message {} of entry {entry}", messages + 1),
        0x12 => format!("a waiting value of entry {entry}"),
        0x1F => format!("the starting memory{inside}"),
        0x20..=0x22 => format!("step {}{inside}", count(0x20)),
        0x30 => format!("mark {}", count(0x30)),
        _ => return String::new(),
    };
    format!(", {name} ({byte:02X})")
}

// ---- lists

fn numbers(all: &[u8]) -> String {
    all.iter().map(|n| n.to_string()).collect::<Vec<_>>().join(" ")
}

fn value_words(value: u8) -> String {
    if value == contents::ANY {
        "any".to_string()
    } else {
        value.to_string()
    }
}

/// As -w shows a configuration, with `any` for FF.
fn entry_words(program: &Program, entry: &Entry) -> String {
    let (processes, variables) = (program.processes.min(4), program.variables.min(4));
    let mut text = format!("states {}", numbers(&entry.states[..processes]));
    for p in 0..processes as u8 {
        for v in 0..variables as u8 {
            let waiting: Vec<String> = entry
                .items
                .iter()
                .filter_map(|item| match item {
                    Item::Waiting { process, variable, value } if (*process, *variable) == (p, v) => Some(value_words(*value)),
                    _ => None,
                })
                .collect();
            if !waiting.is_empty() {
                text += &format!("; queue ({p},{v}): {}", waiting.join(" "));
            }
        }
    }
    let messages = entry.items.iter().filter_map(|item| match item {
        Item::Message(m) => {
            let values: Vec<String> = m.values[..variables].iter().map(|value| value_words(*value)).collect();
            Some(format!("({},{}): {}", m.process, m.variable, values.join(" ")))
        }
        _ => None,
    });
    text += &format!("; messages {}", messages.collect::<Vec<_>>().join(", "));
    text + &format!("; pointers {}", numbers(&entry.pointers[..processes]))
}

fn target_words(told: &Told, entries: &[Entry], target: usize) -> Option<String> {
    let program = &told.program;
    let states = program.targets.get(target)?;
    let from = told.origins.map_or(String::new(), |origins| origins.target(target));
    let there = entries.iter().filter(|entry| entry.states == *states).count();
    let list = match entries.len() {
        0 => "the list has no entry".to_string(),
        all => format!("{there} of the list's {all} entries have its states; -w shows one"),
    };
    Some(format!(
        "a configuration of target {target}{from} (states {}) is above no entry; {list}",
        told.states(&states[..program.processes.min(4)])
    ))
}

// ---- runs

fn step_of(v: Verdict) -> Option<Step> {
    let (first, second) = (u8::try_from(v.step_first).ok()?, u8::try_from(v.step_second).ok()?);
    Some(match v.step_kind {
        TRANSITION => Step::Transition(first),
        SERIALISE => Step::Serialise(first, second),
        _ => Step::Update(first),
    })
}

/// `t1 (process 0 reads variable 0 as 1)`.
fn step_words(told: &Told, machine: Machine, step: Step) -> Option<String> {
    let mut from = String::new();
    let what = match (step, machine) {
        (Step::Serialise(p, v), Machine::Pws) => format!("the serialise of process {p} and variable {v}"),
        (Step::Serialise(p, v), Machine::Pso) => format!("the update of process {p} and variable {v}"),
        (Step::Update(p), Machine::Pws) => format!("the update of process {p}"),
        (Step::Update(p), Machine::Pso) => format!("the removal of process {p}'s mark"),
        (Step::Transition(number), _) => {
            let t = told.program.transitions.get(usize::from(number))?;
            from = told.origins.map_or(String::new(), |origins| origins.transition(usize::from(number)));
            let p = t.process;
            match t.operation {
                Operation::Nop => format!("process {p} goes from state {} to {}", t.from, t.to),
                Operation::Read { variable, value } => format!("process {p} reads variable {variable} as {value}"),
                Operation::Write { variable, value } => format!("process {p} writes {value} to variable {variable}"),
                Operation::Mfence => format!("an mfence of process {p}"),
                Operation::Sfence => format!("an sfence of process {p}"),
                Operation::Arw { variable, old, new } => format!("an arw of process {p}, variable {variable} from {old} to {new}"),
                _ => return None,
            }
        }
    };
    Some(format!("{step}{from} ({what})"))
}

fn run_words(told: &Told, run: &Run, number: u64, place: usize) -> Option<String> {
    let program = &told.program;
    let mut c = Configuration::start(program, run.machine, run.memory);
    for step in run.steps.get(..place)? {
        c.take(program, *step).ok()?;
    }
    if number == 13 {
        return end_words(told, &c, place);
    }
    let step = *run.steps.get(place)?;
    let before = c.clone();
    let cause = c.take(program, step).err().filter(|cause| cause.number() == number)?;
    Some(format!("step {place}, {}: {}", step_words(told, run.machine, step)?, cause_words(told, &before, step, cause)?))
}

/// Where the run ended, and the target that most processes are in.
fn end_words(told: &Told, c: &Configuration, steps: usize) -> Option<String> {
    let program = &told.program;
    let processes = program.processes.min(4);
    let apart = |target: &[u8; 4]| (0..processes).filter(|p| target[*p] != c.states[*p]).collect::<Vec<_>>();
    let (number, target) = program.targets.iter().enumerate().min_by_key(|(_, target)| apart(target).len())?;
    let wanted: Vec<String> = apart(target).iter().map(|p| format!("process {p} in state {}", told.state(*p, target[*p]))).collect();
    let nearest = if program.targets.len() == 1 {
        "the target".to_string()
    } else {
        let from = told.origins.map_or(String::new(), |origins| origins.target(number));
        format!("target {number}{from}, the nearest of {},", program.targets.len())
    };
    let ended = if steps == 1 { "1 step".to_string() } else { format!("{steps} steps") };
    Some(format!("after {ended} the local states are {}; {nearest} wants {}", told.states(&c.states[..processes]), wanted.join(" and ")))
}

fn queue_words(queue: &[Waiting]) -> String {
    queue.iter().map(|item| item.value.map_or("mark".to_string(), |value| value.to_string())).collect::<Vec<_>>().join(", ")
}

fn cause_words(told: &Told, c: &Configuration, step: Step, cause: Cause) -> Option<String> {
    let program = &told.program;
    let pso = c.machine == Machine::Pso;
    let p = match step {
        Step::Serialise(p, _) | Step::Update(p) => usize::from(p),
        Step::Transition(number) => usize::from(program.transitions.get(usize::from(number))?.process),
    };
    let waits = |v: u8| c.queues.get(p).and_then(|queues| queues.get(usize::from(v))).map_or(String::new(), |queue| queue_words(queue));
    let held = if pso { "buffer" } else { "queue" };
    let pointer = || format!("its pointer is at message {} of {}", c.pointers.get(p).copied().unwrap_or(0), c.newest());
    // What else waits there, for a step that finds nothing.
    let others = || {
        let all = (0..program.variables.min(4) as u8).filter(|v| !waits(*v).is_empty());
        let all: Vec<String> = all.map(|v| format!("variable {v}: {}", waits(v))).collect();
        if all.is_empty() {
            format!("nothing of process {p} waits")
        } else {
            format!("{held}s of process {p}: {}", all.join("; "))
        }
    };
    let message = |n: usize| {
        let written = n.checked_sub(1).and_then(|at| c.channel.get(at));
        match (n, written) {
            (0 | 1, _) | (_, None) => "message 1, the starting memory".to_string(),
            (_, Some(m)) => format!("message {n}, of process {} and variable {}", m.process, m.variable),
        }
    };
    Some(match cause {
        Cause::State { is, wanted } => {
            format!("process {p} is in state {}, and this starts in state {}", told.state(p, is), told.state(p, wanted))
        }
        Cause::Queue { variable } => {
            format!("the {held} of process {p} and variable {variable} must be empty, and has {}", waits(variable))
        }
        Cause::Pointer { is, newest } => format!("the pointer of process {p} is at message {is}, and the newest is {newest}"),
        Cause::Value { variable, is, from: Source::Waiting, .. } => {
            format!("its own newest store is found, {is}; {held} of variable {variable}: {}", waits(variable))
        }
        Cause::Value { is, from: Source::Message(_), .. } if pso => format!("memory has {is}, and no store of its own waits"),
        Cause::Value { is, from: Source::Message(n), .. } => format!("{is} is there, in {}; {}", message(n), pointer()),
        Cause::Nothing => format!("that {held} is empty; {}", others()),
        Cause::Newest => format!("{}, the newest already", pointer()),
        Cause::Mark => format!("a mark heads that buffer; {}", others()),
        Cause::NoMark { variable } => format!("no mark heads its buffer of variable {variable}; {}", others()),
        Cause::Absent => return None,
    })
}

// ---- drawings

/// 27: what stands at the place, by line and column.
pub fn no_drawing(text: &[u8], place: u64) -> String {
    let at = usize::try_from(place).unwrap_or(usize::MAX).min(text.len());
    let before = text.get(..at).unwrap_or(text);
    let line = before.iter().filter(|byte| **byte == b'\n').count() + 1;
    let column = before.iter().rev().take_while(|byte| **byte != b'\n').count() + 1;
    match text.get(at) {
        None => format!("line {line}, column {column}: the text stops here, and a drawing goes on"),
        Some(byte) => format!("line {line}, column {column}: no drawing has {} here", crate::names::quoted(&[*byte])),
    }
}
