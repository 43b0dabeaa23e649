//! Seeded random programs, runs and lists, and their damaged variants.

use crate::search::closed_list;
use crate::seeded::Random;
use reference::cubes::start_above;
use reference::entries::Cube;
use reference::pso::{self, Item};
use reference::{writing, Configuration, Machine, Message, Operation, Program, Run, Running, Step, Transition, FF};

/// A number of values for each of so many variables, each up to `most`: different ones, or in a third of the shapes all the same.
pub fn values(r: &mut Random, variables: usize, most: usize) -> [u8; 4] {
    let mut values = [0; 4];
    values[..variables].fill(1 + r.below(most) as u8);
    if !r.one_in(3) {
        for count in &mut values[..variables] {
            *count = 1 + r.below(most) as u8;
        }
    }
    values
}

pub fn operation(r: &mut Random, variables: usize, values: [u8; 4]) -> Operation {
    let variable = r.below(variables);
    let value = r.below(values[variable] as usize) as u8;
    match r.below(10) {
        0 => Operation::Nop,
        1..=3 => Operation::Read { variable, value },
        4..=6 => Operation::Write { variable, value },
        7 => Operation::Mfence,
        8 => Operation::Sfence,
        _ => Operation::Arw { variable, old: value, new: r.below(values[variable] as usize) as u8 },
    }
}

pub fn program(r: &mut Random, processes: usize, variables: usize, values: [u8; 4], most_states: usize, transitions: usize) -> Program {
    let states: Vec<u8> = (0..processes).map(|_| 1 + r.below(most_states) as u8).collect();
    let initial = states.iter().map(|n| r.below(*n as usize) as u8).collect();
    let transitions = (0..transitions)
        .map(|_| {
            let process = r.below(processes);
            Transition {
                process,
                from: r.below(states[process] as usize) as u8,
                operation: operation(r, variables, values),
                to: r.below(states[process] as usize) as u8,
            }
        })
        .collect();
    let mut made = Program { processes, variables, values, states, initial, transitions, targets: Vec::new() };
    for _ in 0..1 + if r.one_in(3) { r.below(3) } else { 0 } {
        let target = random_states(r, &made);
        made.targets.push(target);
    }
    made
}

fn random_states(r: &mut Random, program: &Program) -> [u8; 4] {
    let mut states = [0; 4];
    for p in 0..program.processes {
        states[p] = r.below(program.states[p] as usize) as u8;
    }
    states
}

pub fn memory(r: &mut Random, program: &Program) -> [u8; 4] {
    let mut memory = [0; 4];
    for (value, count) in memory.iter_mut().zip(program.values).take(program.variables) {
        *value = r.below(count as usize) as u8;
    }
    memory
}

/// A run of the machine by random walk. The targets are the last local states, or by chance others.
pub fn walk(r: &mut Random, machine: Machine) -> (Program, Run) {
    let (processes, variables) = (1 + r.below(4), 1 + r.below(4));
    let values = values(r, variables, 4);
    let most_states = *r.pick(&[2, 3, 4, 32]);
    let transitions = *r.pick(&[1, 4, 12, 12, 30, 60, 256]);
    let mut program = program(r, processes, variables, values, most_states, transitions);
    if machine == Machine::Pso {
        // Marks are what is new there.
        for transition in &mut program.transitions {
            if r.one_in(6) {
                transition.operation = Operation::Sfence;
            }
        }
    }
    let length = *r.pick(&[0, 1, 3, 8, 20, 20, 60, 60, 200, 1_024]);
    let all = program.all_steps();
    let memory = memory(r, &program);
    let mut c = Running::start(machine, &program, memory);
    let mut steps = Vec::new();
    while steps.len() < length {
        // A few tries, then a look at all steps, so that a walk ends only where nothing is permitted. What heads a buffer of PSO comes first
        // now and then: else buffers grow, and few marks are removed.
        let mut taken = None;
        if machine == Machine::Pso && r.one_in(2) {
            let memory_only = all.iter().copied().filter(|step| !matches!(step, Step::Transition(_)));
            let permitted: Vec<Step> = memory_only.filter(|step| c.refusal(&program, *step).is_none()).collect();
            if !permitted.is_empty() {
                taken = Some(*r.pick(&permitted));
                c.take(&program, taken.unwrap());
            }
        }
        for _ in 0..if taken.is_none() { 20 } else { 0 } {
            let step = *r.pick(&all);
            if c.take(&program, step) {
                taken = Some(step);
                break;
            }
        }
        if taken.is_none() {
            taken = all.iter().copied().find(|step| c.take(&program, *step));
        }
        match taken {
            Some(step) => steps.push(step),
            None => break,
        }
    }
    if !r.one_in(8) {
        let at = r.below(program.targets.len());
        program.targets[at] = c.states();
    }
    (program, Run { machine, memory, steps })
}

/// One of the ways to damage a run.
pub fn damaged_run(r: &mut Random, program: &Program, run: &Run) -> Vec<u8> {
    let mut program = program.clone();
    let mut run = run.clone();
    let steps = &mut run.steps;
    let all = program.all_steps();
    match r.below(9) {
        0 if !steps.is_empty() => {
            let at = r.below(steps.len());
            steps.remove(at);
        }
        1 if steps.len() > 1 => {
            let at = r.below(steps.len() - 1);
            steps.swap(at, at + 1);
        }
        2 => steps.insert(r.below(steps.len() + 1), *r.pick(&all)),
        3 if !steps.is_empty() => {
            let at = r.below(steps.len());
            steps[at] = *r.pick(&all);
        }
        4 if !program.transitions.is_empty() => {
            let at = r.below(program.transitions.len());
            program.transitions[at].operation = operation(r, program.variables, program.values);
        }
        5 => {
            let at = r.below(program.targets.len());
            program.targets[at] = random_states(r, &program);
        }
        6 => {
            let p = r.below(program.processes);
            program.initial[p] = r.below(program.states[p] as usize) as u8;
        }
        7 => run.memory = memory(r, &program),
        _ => return damaged_bytes(r, &writing::run_file(&program, &run)),
    }
    writing::run_file(&program, &run)
}

/// The causes, of 12, 16, 17 and 15, for which a transition is refused, each asked by itself.
fn causes(program: &Program, c: &Running, t: &Transition) -> Vec<u64> {
    match c {
        Running::Pws(c) => pws_causes(program, c, t),
        Running::Pso(d) => pso_causes(program, d, t),
    }
}

fn pso_causes(program: &Program, d: &pso::Configuration, t: &Transition) -> Vec<u64> {
    let waits = |v: usize| !d.buffers[program.queue(t.process, v)].is_empty();
    let (queue, value) = match t.operation {
        Operation::Nop | Operation::Write { .. } | Operation::Sfence => (false, false),
        Operation::Read { variable, value } => {
            let mut seen = d.memory[variable];
            for item in &d.buffers[program.queue(t.process, variable)] {
                if let Item::Value(newer) = item {
                    seen = *newer;
                }
            }
            (false, seen != value)
        }
        Operation::Mfence => ((0..program.variables).any(waits), false),
        Operation::Arw { variable, old, .. } => (waits(variable), d.memory[variable] != old),
    };
    let each = [(12, d.states[t.process] != t.from), (16, queue), (15, value)];
    each.iter().filter(|(_, applies)| *applies).map(|(number, _)| *number).collect()
}

/// Why a serialise or an update of PWS, an update or a removal of PSO, is refused: one of these words, for 18; None if it is permitted.
fn nothing_there(program: &Program, c: &Running, step: Step) -> Option<&'static str> {
    match (c, step) {
        (_, Step::Transition(_)) => None,
        (Running::Pws(c), Step::Serialise(p, v)) => c.queues[program.queue(p, v)].is_empty().then_some("nothing to serialise"),
        (Running::Pws(c), Step::Update(p)) => (c.pointers[p] == c.channel.len()).then_some("no newer message"),
        (Running::Pso(d), Step::Serialise(p, v)) => match d.buffers[program.queue(p, v)].first() {
            None => Some("nothing to update"),
            Some(Item::Mark) => Some("a mark heads the buffer"),
            Some(Item::Value(_)) => None,
        },
        (Running::Pso(d), Step::Update(p)) => {
            let heads: Vec<Option<&Item>> = (0..program.variables).map(|v| d.buffers[program.queue(p, v)].first()).collect();
            let marks = heads.iter().filter(|head| **head == Some(&Item::Mark)).count();
            // A buffer is not empty then: as many marks stand in each of them.
            if marks == heads.len() {
                None
            } else if marks == 0 {
                Some("no mark")
            } else {
                Some("not every head a mark")
            }
        }
    }
}

fn pws_causes(program: &Program, c: &Configuration, t: &Transition) -> Vec<u64> {
    let waits = |v: usize| !c.queues[program.queue(t.process, v)].is_empty();
    let behind = c.pointers[t.process] < c.channel.len();
    let newest = c.channel[c.channel.len() - 1].snapshot;
    let (queue, pointer, value) = match t.operation {
        Operation::Nop | Operation::Write { .. } => (false, false, false),
        Operation::Read { variable, value } => {
            let seen = c.queues[program.queue(t.process, variable)].last().copied();
            (false, false, seen.unwrap_or(c.channel[c.last_write(t.process, variable) - 1].snapshot[variable]) != value)
        }
        Operation::Sfence => ((0..program.variables).any(waits), false, false),
        Operation::Mfence => ((0..program.variables).any(waits), behind, false),
        Operation::Arw { variable, old, .. } => (waits(variable), behind, newest[variable] != old),
    };
    let each = [(12, c.states[t.process] != t.from), (16, queue), (17, pointer), (15, value)];
    each.iter().filter(|(_, applies)| *applies).map(|(number, _)| *number).collect()
}

/// A walk that ends in a step that is refused: for every set of causes that some transition meets at that depth one such file, with the
/// transition added to the program; and one for every reason of 18. Each comes with its causes, the words for 18, and the step's number.
pub fn refused_steps(r: &mut Random, machine: Machine, each: &mut dyn FnMut(&[u64], &'static str, usize, &[u8])) {
    let (program, mut run) = walk(r, machine);
    let depth = r.below(run.steps.len().min(1_023) + 1);
    let mut c = Running::start(machine, &program, run.memory);
    run.steps.truncate(depth);
    for step in &run.steps {
        c.take(&program, *step);
    }
    let mut steps = program.all_steps();
    r.shuffle(&mut steps);
    let mut reasons: Vec<&str> = Vec::new();
    for step in steps {
        if let Some(reason) = nothing_there(&program, &c, step).filter(|reason| !reasons.contains(reason)) {
            reasons.push(reason);
            run.steps.push(step);
            each(&[18], reason, depth, &writing::run_file(&program, &run));
            run.steps.pop();
        }
    }
    let mut seen: Vec<Vec<u64>> = Vec::new();
    for _ in 0..200 {
        let process = r.below(program.processes);
        let from = if r.one_in(2) { c.states()[process] } else { r.below(program.states[process] as usize) as u8 };
        let t = Transition { process, from, operation: operation(r, program.variables, program.values), to: from };
        let met = causes(&program, &c, &t);
        if met.is_empty() || seen.contains(&met) || program.transitions.is_empty() {
            continue;
        }
        // In the place of a transition that the walk has not taken.
        let free = (0..program.transitions.len()).find(|n| !run.steps.contains(&Step::Transition(*n)));
        let mut with = program.clone();
        let number = match free {
            Some(n) => {
                with.transitions[n] = t;
                n
            }
            None if with.transitions.len() < 256 => {
                with.transitions.push(t);
                with.transitions.len() - 1
            }
            None => continue,
        };
        run.steps.push(Step::Transition(number));
        each(&met, "", depth, &writing::run_file(&with, &run));
        run.steps.pop();
        seen.push(met);
    }
}

/// The run of a walk of a tiny shape, from every memory.
pub fn every_memory(r: &mut Random, machine: Machine, each: &mut dyn FnMut(&Program, &Run)) {
    loop {
        let (program, mut run) = walk(r, machine);
        let memories = program.memories();
        if memories.len() > 16 {
            continue;
        }
        for memory in memories {
            run.memory = memory;
            each(&program, &run);
        }
        return;
    }
}

/// Bytes changed, dropped, doubled or cut.
pub fn damaged_bytes(r: &mut Random, file: &[u8]) -> Vec<u8> {
    let mut file = file.to_vec();
    for _ in 0..1 + r.below(2) {
        if file.is_empty() {
            break;
        }
        let at = r.below(file.len());
        match r.below(5) {
            0 => file[at] = r.next() as u8,
            1 => file[at] = *r.pick(&[0, 1, 2, 3, 4, 5, 8, 16, 32, 254, 255]),
            2 => drop(file.remove(at)),
            3 => file.insert(at, *r.pick(&[0, 1, 2, 3, 4, 15, 16, 17, 18, 31, 32, 33, 34, 255])),
            _ => file.truncate(at),
        }
    }
    file
}

/// A program without loops: every transition leads to a higher state. The target is reached in some of them.
pub fn program_without_loops(r: &mut Random, processes: usize, variables: usize, values: [u8; 4]) -> Program {
    let states: Vec<u8> = (0..processes).map(|_| 2 + r.below(if processes == 1 { 4 } else { 2 }) as u8).collect();
    let mut transitions = Vec::new();
    for process in 0..processes {
        for from in 0..states[process] - 1 {
            for _ in 0..1 + r.below(2) {
                let to = if r.one_in(4) { from + 1 + r.below((states[process] - 1 - from) as usize) as u8 } else { from + 1 };
                transitions.push(Transition { process, from, operation: operation(r, variables, values), to });
            }
        }
    }
    let mut target = [0; 4];
    for p in 0..processes {
        target[p] = if r.one_in(4) { r.below(states[p] as usize) as u8 } else { states[p] - 1 };
    }
    let initial = vec![0; processes];
    Program { processes, variables, values, states, initial, transitions, targets: vec![target] }
}

/// An entry of local states that are no target, with waiting values: a set that is neither empty nor everything of these states. The more
/// queues hold values, the fewer entries a closed list needs for it.
fn further_entry(r: &mut Random, program: &Program) -> Option<Configuration> {
    let states = (0..10).map(|_| random_states(r, program)).find(|states| !program.targets.contains(states))?;
    let messages = 1 + r.below(2);
    let channel = (0..messages)
        .map(|_| Message {
            process: r.below(program.processes) as u8,
            variable: r.below(program.variables) as u8,
            snapshot: random_snapshot(r, program),
        })
        .collect();
    let mut pointers = [0; 4];
    for p in 0..program.processes {
        pointers[p] = 1 + r.below(messages);
    }
    pointers[r.below(program.processes)] = 1;
    let spared = if program.processes == 1 && r.one_in(2) { r.below(program.variables) } else { 4 };
    let queues = (0..program.processes * program.variables)
        .map(|queue| (0..if queue == spared { 0 } else { 1 + r.below(2) }).map(|_| random_value(r, program, queue % program.variables)).collect())
        .collect();
    Some(Configuration { states, queues, channel, pointers })
}

/// A closed list for a random program; usually no start is above it and it holds more than the targets.
pub fn list(r: &mut Random, processes: usize, variables: usize, values: [u8; 4], most: usize, given: bool) -> (Program, Vec<Configuration>) {
    let (reached_too, targets_only) = (r.one_in(8), r.one_in(8));
    for tries in 0.. {
        let states = 2 + r.below(2);
        let transitions = r.below(if processes == 2 { 4 } else { 6 });
        let mut program = program(r, processes, variables, values, states, transitions);
        let reached_too = reached_too || tries > 100;
        if !reached_too && program.targets.iter().any(|t| t[..processes] == program.initial[..]) {
            continue;
        }
        program.targets.truncate(if processes == 2 || variables == 3 { 1 } else { 2 });
        let further: Vec<Configuration> = if given { further_entry(r, &program).into_iter().collect() } else { Vec::new() };
        if let Some(entries) = closed_list(&program, &further, most) {
            let further = entries.iter().any(|entry| !program.targets.contains(&entry.states));
            if reached_too || (further || targets_only) && !entries.iter().any(|entry| start_above(&program, &Cube::of(entry))) {
                return (program, entries);
            }
        }
    }
    unreachable!()
}

/// Every value of an entry, with its variable.
fn value_places(entry: &mut Configuration, variables: usize) -> Vec<(&mut u8, usize)> {
    let mut places: Vec<(&mut u8, usize)> = Vec::new();
    for message in &mut entry.channel {
        places.extend(message.snapshot[..variables].iter_mut().zip(0..));
    }
    for (number, queue) in entry.queues.iter_mut().enumerate() {
        places.extend(queue.iter_mut().map(|value| (value, number % variables)));
    }
    places
}

fn random_value(r: &mut Random, program: &Program, variable: usize) -> u8 {
    if r.one_in(3) {
        FF
    } else {
        r.below(program.values[variable] as usize) as u8
    }
}

fn random_snapshot(r: &mut Random, program: &Program) -> [u8; 4] {
    let mut snapshot = [0; 4];
    for (variable, value) in snapshot[..program.variables].iter_mut().enumerate() {
        *value = random_value(r, program, variable);
    }
    snapshot
}

/// An FF of an entry split into its values, completely or but for one of them.
fn split(r: &mut Random, program: &Program, entries: &mut Vec<Configuration>, at: usize, but_one: bool) {
    let entry = entries[at].clone();
    let mut copy = entry.clone();
    let places = value_places(&mut copy, program.variables);
    let open: Vec<usize> = (0..places.len()).filter(|n| *places[*n].0 == FF).collect();
    if open.is_empty() {
        return;
    }
    let place = *r.pick(&open);
    let count = program.values[places[place].1];
    let left_out = if but_one { r.below(count as usize) as u8 } else { FF };
    entries.remove(at);
    for value in (0..count).filter(|v| *v != left_out) {
        let mut part = entry.clone();
        *value_places(&mut part, program.variables)[place].0 = value;
        entries.insert(r.below(entries.len() + 1), part);
    }
}

/// Many FFs split, those of parts too, in the order of a shuffle; in half of them one value of one place is missing.
fn split_often(r: &mut Random, program: &Program, entries: &[Configuration]) -> Vec<Configuration> {
    let mut entries = entries.to_vec();
    let favourite = entries[r.below(entries.len())].clone();
    for _ in 0..3 + r.below(15) {
        // Mostly parts of one entry, so that several places of it are split.
        let same = |e: &Configuration| e.states == favourite.states && e.pointers == favourite.pointers && e.channel.len() == favourite.channel.len();
        let parts: Vec<usize> = (0..entries.len()).filter(|n| same(&entries[*n])).collect();
        let at = if parts.is_empty() || r.one_in(4) { r.below(entries.len()) } else { *r.pick(&parts) };
        split(r, program, &mut entries, at, false);
    }
    if r.one_in(2) && entries.len() > 1 {
        let at = r.below(entries.len());
        split(r, program, &mut entries, at, true);
    }
    r.shuffle(&mut entries);
    entries
}

/// One of the ways to spoil a list, or to write the same set otherwise.
pub fn spoilt_list(r: &mut Random, program: &Program, entries: &[Configuration]) -> (Program, Vec<Configuration>) {
    let mut program = program.clone();
    let mut entries = entries.to_vec();
    for _ in 0..1 + r.below(2) {
        if entries.is_empty() {
            break;
        }
        // Entries outside the targets, mostly: without them the answer is 11, without others 9.
        let further: Vec<usize> = (0..entries.len()).filter(|n| !program.targets.contains(&entries[*n].states)).collect();
        let at = if further.is_empty() || r.one_in(3) { r.below(entries.len()) } else { *r.pick(&further) };
        if entries[at].channel.is_empty() {
            continue;
        }
        match r.below(12) {
            0 | 1 => drop(entries.remove(at)),
            2..=4 => {
                let but_one = r.one_in(2);
                split(r, &program, &mut entries, at, but_one);
            }
            5 | 6 => {
                let mut places = value_places(&mut entries[at], program.variables);
                let place = r.below(places.len());
                *places[place].0 = random_value(r, &program, places[place].1);
            }
            // A redundant entry: equal, with fewer values, with one more waiting value, or with one more message.
            7 | 8 => {
                let mut more = entries[at].clone();
                match r.below(4) {
                    0 => {}
                    1 => {
                        let mut places = value_places(&mut more, program.variables);
                        let place = r.below(places.len());
                        if *places[place].0 == FF {
                            *places[place].0 = random_value(r, &program, places[place].1);
                        }
                    }
                    2 => {
                        let queue = r.below(more.queues.len());
                        while !more.queues[queue].is_empty() && more.queues[queue].len() < 8 {
                            let value = random_value(r, &program, queue % program.variables);
                            more.queues[queue].insert(0, value);
                            if r.one_in(3) {
                                break;
                            }
                        }
                    }
                    _ => {
                        while more.channel.len() < 16 {
                            let place = r.below(more.channel.len() + 1);
                            let snapshot = random_snapshot(r, &program);
                            let process = r.below(program.processes) as u8;
                            let variable = r.below(program.variables) as u8;
                            more.channel.insert(place, Message { process, variable, snapshot });
                            for z in &mut more.pointers[..program.processes] {
                                if *z > place && !(*z == 1 && place == 0) {
                                    *z += 1;
                                }
                            }
                            if r.one_in(2) {
                                break;
                            }
                        }
                    }
                }
                entries.insert(r.below(entries.len() + 1), more);
            }
            9 => r.shuffle(&mut entries),
            10 => match r.below(5) {
                0 => {
                    let process = r.below(program.processes);
                    let states = program.states[process] as usize;
                    let operation = operation(r, program.variables, program.values);
                    let transition = Transition { process, from: r.below(states) as u8, operation, to: r.below(states) as u8 };
                    program.transitions.push(transition);
                }
                1 => {
                    let target = random_states(r, &program);
                    program.targets.push(target);
                }
                2 => {
                    let p = r.below(program.processes);
                    program.initial[p] = r.below(program.states[p] as usize) as u8;
                }
                3 => {
                    let p = r.below(program.processes);
                    entries[at].states[p] = r.below(program.states[p] as usize) as u8;
                }
                _ => {
                    let queue = r.below(entries[at].queues.len());
                    let value = random_value(r, &program, queue % program.variables);
                    entries[at].queues[queue] = if entries[at].queues[queue].is_empty() { vec![value] } else { Vec::new() };
                }
            },
            _ => {
                let entry = &mut entries[at];
                match r.below(3) {
                    0 => {
                        let message = r.below(entry.channel.len());
                        entry.channel[message].process = r.below(program.processes) as u8;
                        entry.channel[message].variable = r.below(program.variables) as u8;
                    }
                    1 => entry.pointers[r.below(program.processes)] = 1 + r.below(entry.channel.len()),
                    _ => {
                        let message = r.below(entry.channel.len());
                        entry.channel.remove(message);
                    }
                }
            }
        }
    }
    (program, entries)
}

/// Shape, how many programs of it, how many spoilt variants of each list, the longest list, and whether an entry is given beside the
/// targets. Long lists take most of the time, so there are few of them.
const LISTS: [(usize, usize, usize, usize, usize, bool); 9] = [
    (1, 1, 150, 12, 200, false),
    (1, 1, 100, 12, 200, true),
    (1, 2, 40, 12, 100, false),
    (1, 2, 20, 12, 250, true),
    (1, 3, 3, 8, 500, false),
    (1, 3, 3, 8, 500, true),
    (2, 1, 3, 8, 500, false),
    (2, 1, 12, 8, 400, true),
    (2, 1, 2, 4, 900, true),
];

/// Closed lists of the shapes that can be accepted, with spoilt ones.
pub fn lists(r: &mut Random, each: &mut dyn FnMut(&Program, &[Configuration])) {
    for (processes, variables, programs, variants, most, given) in LISTS {
        for _ in 0..programs {
            let values = values(r, variables, if variables == 1 { 4 } else { 3 });
            let (program, entries) = list(r, processes, variables, values, most, given);
            each(&program, &entries);
            for number in 0..variants {
                let (program, entries) = match number % 4 {
                    3 if !entries.is_empty() => (program.clone(), split_often(r, &program, &entries)),
                    _ => spoilt_list(r, &program, &entries),
                };
                each(&program, &entries);
            }
        }
    }
    // Two processes, one of which does an arw into the target: its list, and that list shuffled without one of its further entries, where
    // the lowest entry with a predecessor outside depends on every kind of predecessor.
    let program = Program {
        processes: 2,
        variables: 1,
        values: [2, 0, 0, 0],
        states: vec![3, 1],
        initial: vec![2, 0],
        transitions: vec![Transition { process: 0, from: 0, operation: Operation::Arw { variable: 0, old: 1, new: 0 }, to: 1 }],
        targets: vec![[1, 0, 0, 0]],
    };
    let entries = closed_list(&program, &[], 1_000).expect("a closed list");
    each(&program, &entries);
    for number in 0..30 {
        let mut fewer = entries.clone();
        // The smallest ones are few, and matter most.
        let small = |entry: &Configuration| match number % 3 {
            0 => entry.channel.len() == 1 && entry.queues.iter().all(|q| q.is_empty()),
            messages => entry.channel.len() == messages,
        };
        let further: Vec<usize> = (0..fewer.len()).filter(|n| fewer[*n].states[0] == 0 && small(&fewer[*n])).collect();
        fewer.remove(further[number / 3 % further.len()]);
        r.shuffle(&mut fewer);
        each(&program, &fewer);
    }
}
