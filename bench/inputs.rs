//! The benchmark's inputs.

use crate::search::closed_list;
use crate::seeded::Random;
use reference::cubes::least;
use reference::{writing, Configuration, Machine, Operation, Program, Run, Step, Transition, FF};

pub fn thousands(n: usize) -> String {
    if n < 1_000 {
        n.to_string()
    } else {
        format!("{},{:03}", n / 1_000, n % 1_000)
    }
}

/// A program and entries, each written already.
#[derive(Clone)]
pub struct Listing {
    program: Program,
    entries: Vec<Vec<u8>>,
}

impl Listing {
    fn of(program: Program, entries: &[Configuration]) -> Listing {
        let entries = entries.iter().map(|entry| writing::entry(&program, entry)).collect();
        Listing { program, entries }
    }

    pub fn len(&self) -> usize {
        self.entries.len()
    }

    pub fn file(&self) -> Vec<u8> {
        let mut file = writing::list_file(&self.program, &[]);
        for entry in &self.entries {
            file.extend_from_slice(entry);
        }
        file
    }

    pub fn shuffled(&self, seed: u64) -> Listing {
        let mut listing = self.clone();
        Random(seed).shuffle(&mut listing.entries);
        listing
    }

    /// The waiting values of each entry before its messages, as another writer may have them.
    pub fn waits_first(&self) -> Listing {
        let mut listing = self.clone();
        for entry in &mut listing.entries {
            let mut at = 9;
            while at < entry.len() && entry[at] == 0x11 {
                at += 7;
            }
            let messages = at - 9;
            entry[9..].rotate_left(messages);
        }
        listing
    }

    pub fn without(&self, number: usize) -> Listing {
        let mut listing = self.clone();
        listing.entries.remove(number);
        listing
    }
}

fn shape(processes: usize, variables: usize, states: Vec<u8>) -> Program {
    let initial = vec![0; processes];
    let values = std::array::from_fn(|v| if v < variables { 2 } else { 0 });
    Program { processes, variables, values, states, initial, transitions: Vec::new(), targets: Vec::new() }
}

/// Every least configuration of these local states.
fn whole(program: &Program, states: [u8; 4], entries: &mut Vec<Vec<u8>>) {
    least(program, states, &mut |cube| {
        entries.push(writing::entry(program, &cube.configuration(program)));
        true
    });
}

fn ones(processes: usize) -> [u8; 4] {
    let mut states = [0; 4];
    states[..processes].fill(1);
    states
}

/// Two processes, one variable. Process 0 goes round `first` states by nops, process 1 round `second`; neither starts there. All
/// first * second pairs of local states lead to the target, and a closed list holds the whole of each: 232 entries.
pub fn rounds(first: u8, second: u8) -> Listing {
    let mut program = shape(2, 1, vec![first + 1, second + 1]);
    for (process, count) in [(0, first), (1, second)] {
        for state in 0..count {
            if count > 1 {
                program.transitions.push(Transition { process, from: 1 + state, operation: Operation::Nop, to: 1 + (state + 1) % count });
            }
        }
    }
    program.targets.push(ones(2));
    let entries = closed_list(&program, &[], 524_288).expect("a closed list");
    Listing::of(program, &entries)
}

/// Process 0 comes to the target through `states` states by nops, the last one first; no process starts in any of them. The closed list
/// holds the whole of each, the target first.
pub fn chain(processes: usize, variables: usize, states: u8) -> Listing {
    let mut counts = vec![2; processes];
    counts[0] = states + 1;
    let mut program = shape(processes, variables, counts);
    for state in 1..states {
        program.transitions.push(Transition { process: 0, from: state + 1, operation: Operation::Nop, to: state });
    }
    program.targets.push(ones(processes));
    let mut entries = Vec::new();
    for state in 1..=states {
        let mut local = ones(processes);
        local[0] = state;
        whole(&program, local, &mut entries);
    }
    Listing { program, entries }
}

/// As many targets, and no transition: the whole of each.
pub fn many_targets(processes: usize, variables: usize, targets: u8) -> Listing {
    let mut counts = vec![2; processes];
    counts[0] = targets + 1;
    let mut program = shape(processes, variables, counts);
    let mut entries = Vec::new();
    for state in 1..=targets {
        let mut target = ones(processes);
        target[0] = state;
        whole(&program, target, &mut entries);
        program.targets.push(target);
    }
    Listing { program, entries }
}

/// The same list for a file that names its targets as often.
pub fn repeated(listing: Listing, times: usize) -> Listing {
    let mut program = listing.program;
    program.targets = program.targets.repeat(times);
    Listing { program, entries: listing.entries }
}

/// What a backward search finds for an operation that needs a 1, in a state where its process does not start: entries with values. Of an arw the
/// newest value decides, of a read that of any message which its process has before it.
fn found_for(operation: Operation) -> Listing {
    let mut program = shape(2, 2, vec![3, 1]);
    program.initial[0] = 2;
    program.transitions.push(Transition { process: 0, from: 0, operation, to: 1 });
    program.targets.push([1, 0, 0, 0]);
    let entries = closed_list(&program, &[], 524_288).expect("a closed list");
    Listing::of(program, &entries)
}

pub fn found() -> Listing {
    found_for(Operation::Arw { variable: 0, old: 1, new: 0 })
}

pub fn found_for_read() -> Listing {
    found_for(Operation::Read { variable: 0, value: 1 })
}

/// The same sets with other entries: in every third one, an FF chosen by chance is split into its values, so that only several entries
/// together cover what one did. All variables have as many values.
pub fn split(listing: &Listing) -> Listing {
    let mut r = Random(3);
    let mut entries = Vec::new();
    for (number, entry) in listing.entries.iter().enumerate() {
        // FF stands in values only: no state and no pointer is FF.
        let open: Vec<usize> = (0..entry.len()).filter(|at| entry[*at] == FF).collect();
        if number % 3 > 0 || open.is_empty() {
            entries.push(entry.clone());
            continue;
        }
        let place = open[r.below(open.len())];
        for value in 0..listing.program.values[0] {
            let mut part = entry.clone();
            part[place] = value;
            entries.push(part);
        }
    }
    Listing { program: listing.program.clone(), entries }
}

/// A run of 1,024 steps: two processes write, serialise, update and read in turn.
pub fn long_run() -> Vec<u8> {
    let mut program = shape(2, 2, vec![2, 2]);
    for process in 0..2 {
        program.transitions.push(Transition { process, from: 0, operation: Operation::Write { variable: process, value: 1 }, to: 1 });
        program.transitions.push(Transition { process, from: 1, operation: Operation::Read { variable: process, value: 1 }, to: 0 });
    }
    program.targets.push([0, 0, 0, 0]);
    let round = [
        Step::Transition(0),
        Step::Serialise(0, 0),
        Step::Transition(1),
        Step::Update(1),
        Step::Transition(2),
        Step::Serialise(1, 1),
        Step::Transition(3),
        Step::Update(0),
    ];
    writing::run_file(&program, &Run { machine: Machine::Pws, memory: [0; 4], steps: round.repeat(128) })
}

/// A run of 1,024 steps of the PSO machine: process 0 writes and fences, process 1 writes and reads, with their updates and removals.
pub fn long_pso_run() -> Vec<u8> {
    let mut program = shape(2, 2, vec![2, 3]);
    for (process, from, operation, to) in [
        (0, 0, Operation::Write { variable: 0, value: 1 }, 1),
        (0, 1, Operation::Sfence, 0),
        (1, 0, Operation::Write { variable: 1, value: 1 }, 1),
        (1, 1, Operation::Read { variable: 1, value: 1 }, 2),
        (1, 2, Operation::Read { variable: 0, value: 1 }, 0),
    ] {
        program.transitions.push(Transition { process, from, operation, to });
    }
    program.targets.push([0, 0, 0, 0]);
    let round = [
        Step::Transition(0),
        Step::Transition(1),
        Step::Serialise(0, 0),
        Step::Update(0),
        Step::Transition(2),
        Step::Serialise(1, 1),
        Step::Transition(3),
        Step::Transition(4),
    ];
    writing::run_file(&program, &Run { machine: Machine::Pso, memory: [0; 4], steps: round.repeat(128) })
}

/// Reading alone: as many entries as can be, and a last record that is refused.
pub fn long_reading() -> Vec<u8> {
    let list = rounds(1, 1);
    let mut file = list.file();
    for _ in 1..524_288 / list.len() {
        for entry in &list.entries {
            file.extend_from_slice(entry);
        }
    }
    file.extend([0x11, 9, 9, 9, 9, 9, 9]);
    file
}
