//! From what a file holds back to a text, in one layout: what `assemble` makes of it is the same file again.

use super::evidence::candidates;
use super::Names;
use crate::contents::{
    Clue, Contents, Entry, Evidence, Item, Machine, Operation, Pattern, Program, Run, Step, Transition, ANY,
};
use std::collections::HashSet;
use std::fmt::Write;

/// Which states the text has to name.
type Named = [[bool; 32]; 4];

/// A line of the program's processes.
#[derive(Clone, Copy)]
enum Row {
    Process { process: usize, again: bool },
    Bare { process: usize, state: u8 },
    Way { transition: Transition, or: bool },
}

impl Row {
    fn state(&self) -> Option<u8> {
        match *self {
            Row::Process { .. } => None,
            Row::Bare { state, .. } => Some(state),
            Row::Way { transition, .. } => Some(transition.from),
        }
    }
}

/// The processes' lines: transitions in their order, states declared in theirs.
fn rows(program: &Program) -> Vec<Row> {
    let mut rows = Vec::new();
    let mut declared = [0u8; 4];
    let (mut opened, mut current) = (0, usize::MAX);
    let last: Vec<Option<usize>> =
        (0..4).map(|p| program.transitions.iter().rposition(|t| t.process as usize == p)).collect();
    let open = |rows: &mut Vec<Row>, opened: &mut usize, declared: &mut [u8; 4]| {
        let process = *opened;
        rows.push(Row::Process { process, again: false });
        if last[process].is_none() {
            rows.extend((0..program.states[process]).map(|state| Row::Bare { process, state }));
            declared[process] = program.states[process];
        }
        *opened += 1;
        process
    };
    for (number, t) in program.transitions.iter().enumerate() {
        let p = (t.process as usize).min(3);
        while opened <= p {
            current = open(&mut rows, &mut opened, &mut declared);
        }
        if current != p {
            rows.push(Row::Process { process: p, again: true });
            current = p;
        }
        let or = matches!(rows.last(), Some(Row::Way { transition, .. }) if transition.from == t.from);
        rows.extend((declared[p]..t.from).map(|state| Row::Bare { process: p, state }));
        declared[p] = declared[p].max(t.from.saturating_add(1));
        rows.push(Row::Way { transition: *t, or });
        if last[p] == Some(number) {
            rows.extend((declared[p]..program.states[p]).map(|state| Row::Bare { process: p, state }));
            declared[p] = program.states[p];
        }
    }
    while opened < program.processes {
        open(&mut rows, &mut opened, &mut declared);
    }
    rows
}

/// A way on needs no arrow if it is the only one of its lines and the next line is of the state that it leads to.
fn falls(rows: &[Row], at: usize) -> bool {
    match (rows.get(at), rows.get(at + 1)) {
        (Some(Row::Way { transition, or: false }), Some(next)) => {
            !matches!(next, Row::Way { or: true, .. }) && next.state() == Some(transition.to)
        }
        _ => false,
    }
}

fn program_text(out: &mut String, program: &Program, names: &Names, mut named: Named) {
    let _ = write!(out, "variables");
    for v in 0..program.variables {
        let _ = write!(out, " {}:{}", names.variable(v), program.values[v]);
    }
    out.push('\n');
    let rows = rows(program);
    let mut seen = [[false; 32]; 4];
    for (at, row) in rows.iter().enumerate() {
        let mut name = |p: usize, s: u8| {
            if let Some(place) = named.get_mut(p).and_then(|states| states.get_mut(s as usize)) {
                *place = true;
            }
        };
        match *row {
            Row::Process { process, again } => {
                if !again && program.initial[process] != 0 {
                    name(process, program.initial[process]);
                }
            }
            Row::Bare { process, state } => {
                name(process, state);
                seen[process & 3][state as usize & 31] = true;
            }
            Row::Way { transition: t, or } => {
                let p = t.process as usize & 3;
                if !falls(&rows, at) {
                    name(p, t.to);
                }
                // A line without a label behind a bare one would be that one's; a label that comes again has to be one.
                let behind_bare = at > 0 && matches!(rows[at - 1], Row::Bare { .. });
                let again = std::mem::replace(&mut seen[p][t.from as usize & 31], true);
                if !or && (again || behind_bare) {
                    name(p, t.from);
                }
            }
        }
    }
    let groups = groups(program);
    for (named_processes, target) in &groups {
        for p in (0..program.processes).filter(|p| named_processes[*p]) {
            named[p][target[p] as usize & 31] = true;
        }
    }
    let label = |p: usize, s: u8| {
        let wanted =
            names.labelled(p, s) || named.get(p).and_then(|states| states.get(s as usize)).copied().unwrap_or(true);
        wanted.then(|| format!("{}:", names.state(p, s)))
    };
    let width: Vec<usize> = (0..program.processes)
        .map(|p| (0..program.states[p]).filter_map(|s| label(p, s)).map(|text| text.len()).max().unwrap_or(0).max(2))
        .collect();
    let anybody = (0..program.processes).any(|p| program.has_register(p));
    for (at, row) in rows.iter().enumerate() {
        match *row {
            Row::Process { process, again: true } => {
                let _ = writeln!(out, "process {} again", names.process(process));
            }
            Row::Process { process, .. } => {
                let _ = write!(out, "process {}", names.process(process));
                if program.registers && (program.has_register(process) || !anybody && process == 0) {
                    let _ = write!(out, " with {}", names.register(process));
                }
                if program.initial[process] != 0 {
                    let _ = write!(out, " from {}", names.state(process, program.initial[process]));
                }
                out.push('\n');
            }
            Row::Bare { process, state } => {
                let _ = writeln!(out, "  {}:", names.state(process, state));
            }
            Row::Way { transition: t, or } => {
                let p = t.process as usize;
                let width = width.get(p).copied().unwrap_or(2);
                if or {
                    let _ = write!(out, "  {:>width$}", "or");
                } else {
                    let _ = write!(out, "  {:width$}", label(p, t.from).unwrap_or_default());
                }
                let operation = names.operation(p, t.operation);
                let arrow = !falls(&rows, at);
                if !operation.is_empty() {
                    let _ = write!(out, " {operation}");
                } else if !arrow {
                    let _ = write!(out, " nop");
                }
                if arrow {
                    let _ = write!(out, " -> {}", names.state(p, t.to));
                }
                out.push('\n');
            }
        }
    }
    for (named_processes, target) in &groups {
        let places = (0..program.processes)
            .filter(|p| named_processes[*p])
            .map(|p| format!("{} {}", names.process(p), names.state(p, target[p])));
        let _ = writeln!(out, "never {}", places.collect::<Vec<_>>().join(", "));
    }
    if let Some(memory) = names.memory.filter(|memory| memory.iter().any(|value| *value != 0)) {
        let set =
            (0..program.variables).filter(|v| memory[*v] != 0).map(|v| format!("{}={}", names.variable(v), memory[v]));
        let _ = writeln!(out, "memory {}", set.collect::<Vec<_>>().join(" "));
    }
}

/// Targets as lines: those that follow each other and differ only in that a process is in each of its states are one
/// line that does not name it; of these, targets that there are already may be missing.
fn groups(program: &Program) -> Vec<([bool; 4], [u8; 4])> {
    // The processes that a line may leave out, most targets first.
    let states = |p: usize| program.states.get(p).copied().unwrap_or(1);
    let mut free_sets: Vec<(usize, Vec<usize>)> = (1usize..16)
        .map(|set| (0..4).filter(|p| set >> p & 1 == 1).collect::<Vec<usize>>())
        .filter(|free| free.len() < program.processes && free.iter().all(|p| *p < program.processes && states(*p) > 1))
        .map(|free| (free.iter().map(|p| states(*p) as usize).product(), free))
        .filter(|(size, _)| *size <= program.targets.len())
        .collect();
    free_sets.sort_by(|a, b| b.0.cmp(&a.0).then_with(|| a.1.cmp(&b.1)));
    let mut groups = Vec::new();
    let mut rest = &program.targets[..];
    let mut known: HashSet<[u8; 4]> = HashSet::new();
    while let Some(first) = rest.first() {
        // How many of the next targets are those of a line that leaves these processes out.
        let fits = |free: &[usize]| {
            let mut target = *first;
            free.iter().for_each(|p| target[*p] = 0);
            let mut length = 0;
            loop {
                if !known.contains(&target) {
                    if rest.get(length) != Some(&target) {
                        return None;
                    }
                    length += 1;
                }
                // The next one: the last process changes fastest.
                let next = free.iter().rev().find(|p| {
                    target[**p] = (target[**p] + 1) % states(**p);
                    target[**p] != 0
                });
                if next.is_none() {
                    return (length > 0).then_some(length);
                }
            }
        };
        let found = free_sets.iter().find_map(|(_, free)| fits(free).map(|length| (&free[..], length)));
        let (free, length) = found.unwrap_or((&[], 1));
        let mut named = [false; 4];
        (0..program.processes).for_each(|p| named[p] = !free.contains(&p));
        groups.push((named, *first));
        known.extend(&rest[..length]);
        rest = &rest[length..];
    }
    groups
}

/// A step by name, or by letters where there is no name for it. What comes back is the state that it names, too.
fn step_text(
    program: &Program,
    names: &Names,
    machine: Machine,
    states: &[u8; 4],
    step: Step,
) -> (String, Option<(usize, u8)>) {
    match step {
        Step::Serialise(p, v) => {
            (format!("{} writes out {}", names.process(p as usize), names.variable(v as usize)), None)
        }
        Step::Update(p) if machine == Machine::Pws => (format!("{} looks up", names.process(p as usize)), None),
        Step::Update(p) => (format!("{} removes its mark", names.process(p as usize)), None),
        Step::Transition(number) => {
            let Some(t) = program.transitions.get(number as usize) else { return (step.to_string(), None) };
            let p = t.process as usize;
            let at = states.get(p).copied().unwrap_or(0);
            let operation = match names.operation(p, t.operation) {
                empty if empty.is_empty() => String::from("nop"),
                text => text,
            };
            let process = names.process(p);
            if candidates(program, at, p, t.operation, None) == [number] {
                (format!("{process}: {operation}"), None)
            } else if candidates(program, at, p, t.operation, Some(t.to)) == [number] {
                let operation = if t.operation == Operation::Nop { String::new() } else { format!(" {operation}") };
                (format!("{process}:{operation} -> {}", names.state(p, t.to)), Some((p, t.to)))
            } else {
                (step.to_string(), None)
            }
        }
    }
}

fn run_text(out: &mut String, program: Option<&Program>, names: &Names, run: &Run, by_letter: bool, named: &mut Named) {
    let pso = if run.machine == Machine::Pso { "pso " } else { "" };
    let _ = writeln!(out, "{pso}run from {}", names.memory(&run.memory));
    let mut states = program.map_or([0; 4], |p| p.initial);
    let mut line = String::new();
    for step in &run.steps {
        match program.filter(|_| !by_letter) {
            None => {
                let letters = step.to_string();
                if line.len() + letters.len() > 78 {
                    let _ = writeln!(out, " {line}");
                    line.clear();
                }
                let _ = write!(line, " {letters}");
            }
            Some(program) => {
                let (text, names_state) = step_text(program, names, run.machine, &states, *step);
                let _ = writeln!(out, "  {text}");
                if let Some((p, s)) = names_state {
                    named[p & 3][s as usize & 31] = true;
                }
            }
        }
        if let (Step::Transition(number), Some(program)) = (*step, program) {
            if let Some(t) = program.transitions.get(number as usize) {
                states[t.process as usize & 3] = t.to;
            }
        }
    }
    if !line.is_empty() {
        let _ = writeln!(out, " {line}");
    }
}

fn value(value: u8) -> String {
    if value == ANY {
        String::from("*")
    } else {
        value.to_string()
    }
}

/// The values that are given; any other is free.
fn given(names: &Names, values: &[u8; 4]) -> String {
    let one = |(v, name): (usize, &String)| {
        values.get(v).filter(|value| **value != ANY).map(|value| format!(" {name}={value}"))
    };
    names.variables.iter().enumerate().filter_map(one).collect()
}

fn list_text(out: &mut String, names: &Names, entries: &[Entry]) {
    let _ = writeln!(out, "list");
    for entry in entries {
        let places = names
            .processes
            .iter()
            .enumerate()
            .filter(|(p, _)| entry.pointers.get(*p).is_some_and(|pointer| *pointer != 0));
        let places = places
            .map(|(p, name)| format!("{name} {} at {}", names.state(p, entry.states[p & 3]), entry.pointers[p & 3]));
        let _ = writeln!(out, "entry {}", places.collect::<Vec<_>>().join(", "));
        let mut queue = None;
        for item in &entry.items {
            match *item {
                Item::Message(m) => {
                    end_queue(out, &mut queue);
                    let values = given(names, &m.values);
                    let colon = if values.is_empty() { "" } else { ":" };
                    let _ = writeln!(
                        out,
                        "  message {} {}{colon}{values}",
                        names.process(m.process as usize),
                        names.variable(m.variable as usize)
                    );
                }
                Item::Waiting { process, variable, value } => waits(out, names, &mut queue, process, variable, value),
            }
        }
        end_queue(out, &mut queue);
    }
}

/// Values of one queue that follow each other share a line.
fn waits(out: &mut String, names: &Names, queue: &mut Option<(u8, u8)>, process: u8, variable: u8, waiting: u8) {
    if *queue != Some((process, variable)) {
        end_queue(out, queue);
        let _ = write!(out, "  waits {} {}:", names.process(process as usize), names.variable(variable as usize));
        *queue = Some((process, variable));
    }
    let _ = write!(out, " {}", value(waiting));
}

fn end_queue(out: &mut String, queue: &mut Option<(u8, u8)>) {
    if queue.take().is_some() {
        out.push('\n');
    }
}

fn patterns_text(out: &mut String, names: &Names, patterns: &[Pattern]) {
    let _ = writeln!(out, "patterns");
    for pattern in patterns {
        let places = names.processes.iter().enumerate();
        let places =
            places.map(|(p, name)| format!("{name} {}", names.state(p, pattern.states.get(p).copied().unwrap_or(0))));
        let newest = given(names, &pattern.newest);
        let word = if newest.is_empty() { "" } else { " newest" };
        let _ = writeln!(out, "pattern {}{word}{newest}", places.collect::<Vec<_>>().join(", "));
        let mut queue = None;
        let mut reader = None;
        for clue in &pattern.clues {
            if !matches!(clue, Clue::Waiting { .. }) {
                end_queue(out, &mut queue);
            }
            if reader.is_some() && !matches!(clue, Clue::Read { process, .. } if Some(*process) == reader) {
                out.push('\n');
                reader = None;
            }
            match *clue {
                Clue::Waiting { process, variable, value } => waits(out, names, &mut queue, process, variable, value),
                Clue::Queue { process, variable, ends } => {
                    let word = if ends { "ends" } else { "empty" };
                    let _ = writeln!(
                        out,
                        "  {word} {} {}",
                        names.process(process as usize),
                        names.variable(variable as usize)
                    );
                }
                Clue::Read { process, variable, value, own } => {
                    if reader.is_none() {
                        let _ = write!(out, "  reads {}:", names.process(process as usize));
                    } else {
                        out.push(',');
                    }
                    reader = Some(process);
                    let _ =
                        write!(out, "{} {}={value}", if own { " own" } else { "" }, names.variable(variable as usize));
                }
            }
        }
        end_queue(out, &mut queue);
        if reader.is_some() {
            out.push('\n');
        }
    }
}

/// The text of a file. Evidence alone is told in the words of the program that is given, or by letters. The names are
/// those of the program.
pub fn list(contents: &Contents, given: Option<&Program>, names: &Names, by_letter: bool) -> String {
    let program = contents.program.as_ref().or(given);
    let mut evidence = String::new();
    let mut named = [[false; 32]; 4];
    for part in &contents.evidence {
        match part {
            Evidence::Run(run) => run_text(&mut evidence, program, names, run, by_letter, &mut named),
            Evidence::List(entries) => list_text(&mut evidence, names, entries),
            Evidence::Patterns(patterns) => patterns_text(&mut evidence, names, patterns),
        }
        if !matches!(part, Evidence::Run(_)) {
            named = [[true; 32]; 4];
        }
    }
    let mut out = String::new();
    if let Some(program) = &contents.program {
        program_text(&mut out, program, names, named);
    }
    for mark in &contents.marks {
        let _ = writeln!(out, "needed t{mark}");
    }
    out.push_str(&evidence);
    out
}
