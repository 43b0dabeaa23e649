//! machines SEED COUNT: do PWS and PSO reach the same local states (the report's Conjecture 1)? For so many small random programs, and from
//! every memory, all configurations of both machines are searched. In programs with loops a process may do only a few writes, arws and
//! sfences, counted alike in both machines, so that there are finitely many configurations.
//! Exit status 0 if all local states agree, and if they do not once an sfence of PSO does nothing.

#[path = "../corpora/seeded.rs"]
mod seeded;

use reference::{Machine, Operation, Program, Running, Step, Transition};
use seeded::Random;
use std::collections::HashSet;
use std::hash::{BuildHasherDefault, Hash, Hasher};
use std::rc::Rc;

/// A quick hash of short things.
#[derive(Default)]
struct Mixed(u64);

impl Hasher for Mixed {
    fn finish(&self) -> u64 {
        self.0 ^ self.0 >> 32
    }

    fn write(&mut self, bytes: &[u8]) {
        for part in bytes.chunks(8) {
            let mut word = [0; 8];
            word[..part.len()].copy_from_slice(part);
            self.write_u64(u64::from_le_bytes(word));
        }
    }

    fn write_u8(&mut self, n: u8) {
        self.write_u64(n as u64);
    }

    fn write_u64(&mut self, n: u64) {
        self.0 = (self.0.rotate_left(25) ^ n).wrapping_mul(0x9e37_79b9_7f4a_7c15);
    }

    fn write_usize(&mut self, n: usize) {
        self.write_u64(n as u64);
    }

    fn write_isize(&mut self, n: isize) {
        self.write_u64(n as u64);
    }
}

type Set<T> = HashSet<T, BuildHasherDefault<Mixed>>;

/// Local states, and how many writes, arws and sfences each process has done.
type Reached = ([u8; 4], [u8; 4]);

/// A configuration of either machine, with the counts.
#[derive(Clone, PartialEq, Eq, Hash)]
struct Counted {
    configuration: Running,
    counts: [u8; 4],
}

/// All that the machine reaches from this memory, each process doing at most `most` of what is counted; None beyond `limit` configurations.
fn reached(machine: Machine, program: &Program, memory: [u8; 4], most: u8, limit: usize, fences: Fences) -> Option<(Set<Reached>, usize)> {
    let steps: Vec<(Step, Option<usize>)> = program
        .all_steps()
        .into_iter()
        .map(|step| (step, if let Step::Transition(number) = step { counted(program, number) } else { None }))
        .collect();
    let program = &if fences == Fences::Kept { program.clone() } else { without_fences(program) };
    let start = Rc::new(Counted { configuration: Running::start(machine, program, memory), counts: [0; 4] });
    let mut all = Set::from_iter([(start.configuration.states(), start.counts)]);
    let mut seen = Set::from_iter([start.clone()]);
    let mut open = vec![start];
    while let Some(from) = open.pop() {
        let mut unchanged = None;
        for (step, counted) in &steps {
            if counted.is_some_and(|p| from.counts[p] == most) {
                continue;
            }
            let mut next = unchanged.take().unwrap_or_else(|| Counted::clone(&from));
            if !next.configuration.take(program, *step) {
                unchanged = Some(next);
                continue;
            }
            if let Some(p) = *counted {
                next.counts[p] += 1;
            }
            if seen.contains(&next) {
                continue;
            }
            if seen.len() == limit {
                return None;
            }
            all.insert((next.configuration.states(), next.counts));
            let next = Rc::new(next);
            seen.insert(next.clone());
            open.push(next);
        }
    }
    Some((all, seen.len()))
}

/// The process of a transition that is counted.
fn counted(program: &Program, number: usize) -> Option<usize> {
    let transition = program.transitions[number];
    matches!(transition.operation, Operation::Write { .. } | Operation::Arw { .. } | Operation::Sfence).then_some(transition.process)
}

/// What an sfence does; the second is wrong, and there to show that the comparison sees it.
#[derive(Clone, Copy, PartialEq)]
enum Fences {
    Kept,
    Ignored,
}

fn without_fences(program: &Program) -> Program {
    let mut program = program.clone();
    for transition in program.transitions.iter_mut().filter(|transition| transition.operation == Operation::Sfence) {
        transition.operation = Operation::Nop;
    }
    program
}

/// Mostly reads, mostly stores, or both.
#[derive(Clone, Copy)]
enum Habit {
    Reader,
    Writer,
    Both,
}

fn operation(r: &mut Random, variables: usize, values: [u8; 4], fences: bool, habit: Habit) -> Operation {
    let variable = r.below(variables);
    let value = r.below(values[variable] as usize) as u8;
    let read = Operation::Read { variable, value };
    let write = Operation::Write { variable, value };
    match (r.below(if fences { 12 } else { 8 }), habit) {
        (0..=5, Habit::Reader) | (0..=3, Habit::Both) | (0, Habit::Writer) => read,
        (0..=7, _) => write,
        (8..=9, _) => Operation::Sfence,
        (10, _) => *r.pick(&[Operation::Mfence, Operation::Nop]),
        _ => Operation::Arw { variable, old: value, new: r.below(values[variable] as usize) as u8 },
    }
}

/// Known idioms: message passing, store buffering, two stores each, write to read causality, independent reads. W and R have a variable and
/// a value; F is a fence of some kind, or none.
const IDIOMS: [&[&str]; 6] = [
    &["W01 F W11", "R11 F R00"],
    &["W01 F R10", "W11 F R00"],
    &["W00 F W11", "W10 F W01 R11"],
    &["W01", "R01 F W11", "R11 F R00"],
    &["W01", "R01 F R10", "W11 F R00"],
    &["W01 F W11 F W21", "R21 F R10", "R11 F R00"],
];

/// An idiom with fences chosen by chance, and by chance one operation more in a process.
fn idiom(r: &mut Random) -> Program {
    let lines = *r.pick(&IDIOMS);
    let (variables, values) = (3, [2, 2, 2, 0]);
    let mut transitions = Vec::new();
    let mut states = Vec::new();
    for (process, line) in lines.iter().enumerate() {
        let mut operations = Vec::new();
        for word in line.split(' ') {
            let digits: Vec<usize> = word[1..].bytes().map(|digit| (digit - b'0') as usize).collect();
            match word.as_bytes()[0] {
                b'R' => operations.push(Operation::Read { variable: digits[0], value: digits[1] as u8 }),
                b'W' => operations.push(Operation::Write { variable: digits[0], value: digits[1] as u8 }),
                _ => match r.below(5) {
                    0 => {}
                    1 | 2 => operations.push(Operation::Sfence),
                    3 => operations.push(Operation::Mfence),
                    _ => operations.push(operation(r, variables, values, true, Habit::Both)),
                },
            }
        }
        if r.one_in(4) {
            operations.insert(r.below(operations.len() + 1), operation(r, variables, values, true, Habit::Both));
        }
        states.push(operations.len() as u8 + 1);
        for (from, operation) in operations.into_iter().enumerate() {
            transitions.push(Transition { process, from: from as u8, operation, to: from as u8 + 1 });
        }
    }
    let processes = lines.len();
    Program { processes, variables, values, states, initial: vec![0; processes], transitions, targets: Vec::new() }
}

/// A small program: one line of operations per process, by chance with other ways forward, and back if it may have loops.
fn program(r: &mut Random, loops: bool) -> Program {
    let processes = if r.one_in(3) { 3 } else { 2 };
    let variables = 1 + r.below(3);
    let mut values = [0; 4];
    for count in &mut values[..variables] {
        *count = *r.pick(&[1, 2, 2, 2, 3]);
    }
    let fences = !r.one_in(4);
    let mut states = Vec::new();
    let mut transitions = Vec::new();
    for process in 0..processes {
        let habit = *r.pick(&[Habit::Reader, Habit::Writer, Habit::Both]);
        let length = match (processes, loops) {
            (2, false) => 2 + r.below(3),
            (_, false) => 1 + r.below(3),
            (2, true) => 1 + r.below(3),
            (_, true) => 1 + r.below(2),
        } as u8;
        states.push(length + 1);
        for from in 0..length {
            transitions.push(Transition { process, from, operation: operation(r, variables, values, fences, habit), to: from + 1 });
        }
        if r.one_in(4) {
            let from = r.below(length as usize) as u8;
            let to = from + 1 + r.below((length - from) as usize) as u8;
            transitions.push(Transition { process, from, operation: operation(r, variables, values, fences, habit), to });
        }
        if loops && r.one_in(2) {
            let from = 1 + r.below(length as usize) as u8;
            let to = r.below(from as usize) as u8;
            transitions.push(Transition { process, from, operation: operation(r, variables, values, fences, habit), to });
        }
    }
    Program { processes, variables, values, states, initial: vec![0; processes], transitions, targets: Vec::new() }
}

fn main() {
    let words: Vec<u64> = std::env::args().skip(1).map(|word| word.parse().expect("machines SEED COUNT")).collect();
    let mut r = Random(words[0]);
    let limit = 700;
    let (mut programs, mut with_sfence, mut with_loops, mut too_large) = (0, 0, 0, 0);
    let (mut configurations, mut local_states, mut differ, mut told) = (0, 0, 0, 0);
    while programs < words[1] {
        let known = r.one_in(4);
        let loops = !known && r.one_in(3);
        let program = if known { idiom(&mut r) } else { program(&mut r, loops) };
        let most = if loops { 2 } else { u8::MAX };
        let sfence = program.transitions.iter().any(|t| t.operation == Operation::Sfence);
        let mut missed = false;
        let all = program.memories().into_iter().try_for_each(|memory| {
            let (by_pws, a) = reached(Machine::Pws, &program, memory, most, limit, Fences::Kept)?;
            let (by_pso, b) = reached(Machine::Pso, &program, memory, most, limit, Fences::Kept)?;
            configurations += a + b;
            local_states += by_pws.len();
            if by_pws != by_pso {
                differ += 1;
                println!("from memory {:?} PWS reaches {:?}, PSO {:?}: {:?}", memory, by_pws, by_pso, program);
            }
            if sfence && told < 10 {
                missed |= reached(Machine::Pso, &program, memory, most, limit, Fences::Ignored)?.0 != by_pws;
            }
            Some(())
        });
        if all.is_none() {
            too_large += 1;
            continue;
        }
        programs += 1;
        with_sfence += sfence as u64;
        with_loops += loops as u64;
        told += missed as u64;
    }
    println!(
        "machines: {} programs from every memory, {} of them with sfence, {} with loops ({} too large): {} differences between PWS and PSO",
        programs, with_sfence, with_loops, too_large, differ
    );
    println!(
        "machines: {} configurations, {} local states; without its fence symbols PSO differs{}",
        configurations,
        local_states,
        if told == 0 { " NOWHERE" } else { "" }
    );
    std::process::exit((differ > 0 || told == 0) as i32);
}
