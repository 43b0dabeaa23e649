//! Lists by their groups, a group being the entries of equal local states: many groups, one group, one entry, equal entries, and groups of
//! which families are whole.

use crate::random;
use crate::search::closed_list;
use crate::seeded::Random;
use reference::brute::fillings;
use reference::{Configuration, Message, Operation, Program, Transition, FF};

fn idle(processes: usize, variables: usize, values: [u8; 4], states: &[u8]) -> Program {
    let mut target = [0; 4];
    target[..processes].fill(1);
    Program {
        processes,
        variables,
        values,
        states: states.to_vec(),
        initial: vec![0; processes],
        transitions: Vec::new(),
        targets: vec![target],
    }
}

/// Everything of these local states that has a waiting value in every queue.
fn all_waiting(program: &Program, states: [u8; 4]) -> Configuration {
    let snapshot = std::array::from_fn(|v| if v < program.variables { FF } else { 0 });
    Configuration {
        states,
        queues: vec![vec![FF]; program.processes * program.variables],
        channel: vec![Message { process: 0, variable: 0, snapshot }],
        pointers: std::array::from_fn(|p| (p < program.processes) as usize),
    }
}

/// Two processes: the whole of the target, and in every other group what has waiting values. Process 0 goes up its states from 2 on by
/// nops, so that predecessors lie in another group.
pub fn many_groups(first: u8, second: u8) -> (Program, Vec<Configuration>) {
    let mut program = idle(2, 1, [2, 0, 0, 0], &[first, second]);
    for from in 2..first - 1 {
        program.transitions.push(Transition { process: 0, from, operation: Operation::Nop, to: from + 1 });
    }
    let mut given = Vec::new();
    for a in 0..first {
        for b in 0..second {
            if [a, b] != [1, 1] {
                given.push(all_waiting(&program, [a, b, 0, 0]));
            }
        }
    }
    let entries = closed_list(&program, &given, 524_288).expect("a closed list");
    (program, entries)
}

/// Three processes: the whole of the target, and thousands of groups of one entry each, which are not closed.
fn thousands_of_groups() -> (Program, Vec<Configuration>) {
    let mut program = idle(3, 1, [2, 0, 0, 0], &[2; 3]);
    let mut entries = closed_list(&program, &[], 524_288).expect("a closed list");
    program.states = vec![32; 3];
    for number in 0..5_000u16 {
        let states = [2 + (number % 30) as u8, (number / 30 % 32) as u8, (number / 960) as u8, 0];
        entries.push(all_waiting(&program, states));
    }
    (program, entries)
}

/// An entry of any shape, with as many messages and values as it may have.
fn any_entry(r: &mut Random, program: &Program) -> Configuration {
    let value = |r: &mut Random, v: usize| if r.one_in(2) { FF } else { r.below(program.values[v] as usize) as u8 };
    let most = *r.pick(&[1, 3, 16]);
    let messages = 1 + r.below(most);
    let mut entry = Configuration {
        states: [0; 4],
        queues: (0..program.processes * program.variables).map(|_| Vec::new()).collect(),
        channel: Vec::new(),
        pointers: [0; 4],
    };
    for p in 0..program.processes {
        entry.states[p] = r.below(program.states[p] as usize) as u8;
        entry.pointers[p] = 1 + r.below(messages);
    }
    entry.pointers[r.below(program.processes)] = 1;
    for (number, queue) in entry.queues.iter_mut().enumerate() {
        let length = *r.pick(&[0, 0, 1, 2, 8]);
        queue.extend((0..length).map(|_| value(r, number % program.variables)));
    }
    for _ in 0..messages {
        let mut snapshot = [0; 4];
        for (v, place) in snapshot[..program.variables].iter_mut().enumerate() {
            *place = value(r, v);
        }
        entry.channel.push(Message { process: r.below(program.processes) as u8, variable: r.below(program.variables) as u8, snapshot });
    }
    entry
}

/// What a backward search finds for an operation, whole, without an entry, with FFs filled in one by one, and that without an entry.
fn families(
    r: &mut Random,
    processes: usize,
    variables: usize,
    process: usize,
    operation: Operation,
    each: &mut dyn FnMut(&str, &Program, &[Configuration]),
) {
    let values = std::array::from_fn(|v| if v < variables { 2 } else { 0 });
    let mut states = vec![1; processes];
    states[process] = 3;
    let mut program = idle(processes, variables, values, &states);
    program.initial[process] = 2;
    let mut target = [0; 4];
    target[process] = 1;
    program.targets = vec![target];
    program.transitions.push(Transition { process, from: 0, operation, to: 1 });
    let entries = closed_list(&program, &[], 10_000).expect("a closed list");
    each("families", &program, &entries);
    for _ in 0..20 {
        let mut fewer = entries.clone();
        fewer.remove(r.below(fewer.len()));
        each("families without an entry", &program, &fewer);
    }
    let mut split = Vec::new();
    for entry in &entries {
        match fillings(&program, entry, 64) {
            Some(parts) if r.below(3) == 0 => split.extend(parts),
            _ => split.push(entry.clone()),
        }
    }
    each("families with FFs filled in", &program, &split);
    split.remove(r.below(split.len()));
    each("families with FFs filled in, but one", &program, &split);
}

pub fn lists(r: &mut Random, each: &mut dyn FnMut(&str, &Program, &[Configuration])) {
    // One group: the whole of a target; without one entry; with the target as the initial states.
    for (processes, variables) in [(1, 1), (1, 2), (1, 3), (2, 1)] {
        for count in 1..=4u8 {
            // That count for variable 0, the next one for variable 1, and so on.
            let values = std::array::from_fn(|v| if v < variables { 1 + (count - 1 + v as u8) % 4 } else { 0 });
            let mut program = idle(processes, variables, values, &vec![2; processes]);
            let mut entries = closed_list(&program, &[], 10_000).expect("a closed list");
            each("one group", &program, &entries);
            program.initial = vec![1; processes];
            each("one group and a start", &program, &entries);
            program.initial = vec![0; processes];
            entries.remove(r.below(entries.len()));
            each("one group without an entry", &program, &entries);
        }
    }
    // One entry, alone and many times.
    for number in 0..200 {
        let (processes, variables) = (1 + r.below(4), 1 + r.below(4));
        let values = random::values(r, variables, 4);
        let mut program = random::program(r, processes, variables, values, 32, 10);
        let entry = any_entry(r, &program);
        if number % 2 == 0 {
            program.targets[0] = entry.states;
        }
        each("one entry", &program, &[entry.clone()]);
        each("one entry many times", &program, &vec![entry; 2 + r.below(60)]);
    }
    // Every entry several times.
    for number in 0..60 {
        let (processes, variables) = *r.pick(&[(1, 1), (1, 1), (1, 2), (1, 3), (2, 1)]);
        let values = random::values(r, variables, 3);
        let (program, entries) = random::list(r, processes, variables, values, 400, number % 2 == 0);
        let mut more = entries.clone();
        for _ in 0..1 + r.below(3) {
            more.extend_from_slice(&entries);
        }
        each("equal entries", &program, &more);
        more.remove(r.below(more.len()));
        each("equal entries but one", &program, &more);
    }
    // Groups of one entry each, and target groups among them.
    for (processes, variables) in [(2, 1), (3, 1), (3, 2), (4, 1), (4, 4)] {
        let values = random::values(r, variables, 4);
        let mut program = random::program(r, processes, variables, values, 32, 40);
        program.states = vec![32; processes];
        let entries: Vec<Configuration> = (0..4_000).map(|_| any_entry(r, &program)).collect();
        program.targets = entries[..40].iter().map(|entry| entry.states).collect();
        each("groups of one entry", &program, &entries);
    }
    // Closed groups, and one entry missing from one of them.
    for (first, second) in [(3, 2), (6, 5), (32, 32)] {
        let (program, mut entries) = many_groups(first, second);
        each("many groups", &program, &entries);
        entries.remove(r.below(entries.len()));
        each("many groups without an entry", &program, &entries);
    }
    // No FF at all: many entries of one structure, and every cube with an FF is covered by several.
    for (processes, variables, values) in [(1, 1, [4, 0, 0, 0]), (1, 2, [2, 2, 0, 0]), (1, 2, [1, 3, 0, 0]), (1, 2, [3, 1, 0, 0]), (2, 1, [2, 0, 0, 0])] {
        let program = idle(processes, variables, values, &vec![2; processes]);
        let entries = closed_list(&program, &[], 10_000).expect("a closed list");
        let mut filled: Vec<Configuration> =
            entries.iter().flat_map(|entry| fillings(&program, entry, 4_096).expect("few fillings")).collect();
        each("every FF filled in", &program, &filled);
        filled.remove(r.below(filled.len()));
        each("every FF filled in, but one", &program, &filled);
    }
    // Families: values in queues and in messages decide which configurations of some local states are above the list.
    // The process and variable that decide are the first, and the last.
    for (processes, variables) in [(1, 1), (1, 2), (1, 3), (2, 1)] {
        let last = (processes - 1, variables - 1);
        for (process, variable) in if last == (0, 0) { vec![last] } else { vec![(0, 0), last] } {
            for operation in [Operation::Arw { variable, old: 1, new: 0 }, Operation::Read { variable, value: 1 }] {
                families(r, processes, variables, process, operation, each);
            }
        }
    }
    let (program, entries) = thousands_of_groups();
    each("thousands of groups", &program, &entries);
}
