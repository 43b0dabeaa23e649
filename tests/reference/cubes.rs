//! Lists by predecessor cubes: an entry stands for its fillings, and so does a predecessor.

use crate::entries::{Cube, List};
use crate::index::{ByHash, Index, Structure};
use crate::machine::{Message, Operation, Program, Step};
use crate::{Verdict, FF};
use std::collections::{HashMap, HashSet};

fn met(a: u8, b: u8) -> Option<u8> {
    if a == FF || a == b {
        Some(b)
    } else if b == FF {
        Some(a)
    } else {
        None
    }
}

fn met_snapshots(program: &Program, a: [u8; 4], b: [u8; 4]) -> Option<[u8; 4]> {
    let mut both = [0; 4];
    for v in 0..program.variables {
        both[v] = met(a[v], b[v])?;
    }
    Some(both)
}

fn any_snapshot(program: &Program) -> [u8; 4] {
    let mut snapshot = [0; 4];
    snapshot[..program.variables].fill(FF);
    snapshot
}

/// The cubes whose upward closure is exactly what gets above the entry by this step, as long as `each` says to go on; false if it did not.
pub fn predecessors(program: &Program, entry: &Cube, step: Step, mut each: impl FnMut(&Cube) -> bool) -> bool {
    let newest = entry.channel().len();
    match step {
        Step::Transition(number) => {
            let transition = program.transitions[number];
            let p = transition.process;
            if entry.states[p] != transition.to {
                return true;
            }
            let fenced = || (0..program.variables).all(|v| entry.queue(program.queue(p, v)).is_empty());
            let mut before = entry.clone();
            before.states[p] = transition.from;
            match transition.operation {
                Operation::Nop => each(&before),
                Operation::Sfence => !fenced() || each(&before),
                Operation::Mfence => !fenced() || entry.pointers[p] as usize != newest || each(&before),
                Operation::Read { variable, value } => {
                    let last = entry.last_write(p, variable);
                    let place = match before.queue_mut(program.queue(p, variable)).last_mut() {
                        Some(waiting) => waiting,
                        None => &mut before.channel_mut()[last - 1].snapshot[variable],
                    };
                    let Some(both) = met(*place, value) else { return true };
                    *place = both;
                    each(&before)
                }
                Operation::Write { variable, value } => {
                    let queue = program.queue(p, variable);
                    let Some(last) = before.pop_newest(queue) else { return true };
                    if met(last, value).is_none() {
                        return true;
                    }
                    if !each(&before) {
                        return false;
                    }
                    before.push_newest(queue, FF);
                    each(&before)
                }
                Operation::Arw { variable, old, new } => {
                    let message = entry.channel()[newest - 1];
                    let alone = (0..program.processes).all(|q| (entry.pointers[q] as usize == newest) == (q == p));
                    if !entry.queue(program.queue(p, variable)).is_empty()
                        || !alone
                        || !message.is_labelled(p, variable)
                        || met(message.snapshot[variable], new).is_none()
                    {
                        return true;
                    }
                    let mut snapshot = message.snapshot;
                    snapshot[variable] = old;
                    before.drop_newest();
                    if let Some(previous) = before.channel().last() {
                        if let Some(both) = met_snapshots(program, previous.snapshot, snapshot) {
                            let mut cube = before.clone();
                            cube.channel_mut()[newest - 2].snapshot = both;
                            cube.pointers[p] = newest as u8 - 1;
                            if !each(&cube) {
                                return false;
                            }
                        }
                    }
                    (0..program.variables).all(|y| {
                        let mut cube = before.clone();
                        cube.append(Message { process: p as u8, variable: y as u8, snapshot });
                        each(&cube)
                    })
                }
            }
        }
        Step::Serialise(p, v) => {
            let message = entry.channel()[newest - 1];
            if newest < 2 || !message.is_labelled(p, v) || entry.pointers.contains(&(newest as u8)) {
                return true;
            }
            let mut before = entry.clone();
            before.drop_newest();
            before.push_oldest(program.queue(p, v), message.snapshot[v]);
            let mut snapshot = message.snapshot;
            snapshot[v] = FF;
            // The newest message then is the one before, possibly with the LastWrite of (p, v) somewhere that the entry does not have.
            if let Some(both) = met_snapshots(program, before.channel()[newest - 2].snapshot, snapshot) {
                let mut cube = before.clone();
                cube.channel_mut()[newest - 2].snapshot = both;
                for at in (entry.pointers[p] as usize + 1..newest).rev() {
                    if entry.channel()[at - 1].is_labelled(p, v) {
                        break;
                    }
                    let mut longer = cube.clone();
                    longer.insert(at, Message { process: p as u8, variable: v as u8, snapshot: any_snapshot(program) });
                    if !each(&longer) {
                        return false;
                    }
                }
                if !each(&cube) {
                    return false;
                }
            }
            // Or it is one that the entry does not have: then only (p, v) can have needed it.
            before.append(Message { process: p as u8, variable: v as u8, snapshot });
            each(&before)
        }
        Step::Update(p) => {
            let z = entry.pointers[p] as usize;
            if z >= 2 {
                let mut cube = entry.clone();
                cube.pointers[p] = z as u8 - 1;
                if !each(&cube) {
                    return false;
                }
            }
            for r in 0..program.processes {
                for y in 0..program.variables {
                    let later = entry.channel()[z - 1..].iter().any(|message| message.is_labelled(r, y));
                    if r == p || entry.pointers[r] as usize >= z || later {
                        let mut cube = entry.clone();
                        cube.insert(z, Message { process: r as u8, variable: y as u8, snapshot: any_snapshot(program) });
                        cube.pointers[p] = z as u8;
                        if !each(&cube) {
                            return false;
                        }
                    }
                }
            }
            true
        }
    }
}

/// All channels in which every message is needed, newest message first chosen, with pointers; `each` says whether to go on.
pub fn needed_channels(program: &Program, each: &mut dyn FnMut(&[Message], &[u8; 4]) -> bool) -> bool {
    fn extend(
        program: &Program,
        reversed: &mut Vec<Message>,
        seen: u16,
        placed: &mut [Option<usize>; 4],
        each: &mut dyn FnMut(&[Message], &[u8; 4]) -> bool,
    ) -> bool {
        let processes = program.processes;
        if placed[..processes].iter().all(|z| z.is_some()) {
            let channel: Vec<Message> = reversed.iter().rev().copied().collect();
            let mut pointers = [0; 4];
            for p in 0..processes {
                pointers[p] = (channel.len() - placed[p].unwrap()) as u8;
            }
            return each(&channel, &pointers);
        }
        for p in 0..processes {
            for v in 0..program.variables {
                let label = 1u16 << (4 * p + v);
                for group in 0..1usize << processes {
                    if (0..processes).any(|q| group >> q & 1 == 1 && placed[q].is_some()) {
                        continue;
                    }
                    if group == 0 && (seen & label != 0 || placed[p].is_some()) {
                        continue;
                    }
                    let old = *placed;
                    for q in 0..processes {
                        if group >> q & 1 == 1 {
                            placed[q] = Some(reversed.len());
                        }
                    }
                    reversed.push(Message { process: p as u8, variable: v as u8, snapshot: any_snapshot(program) });
                    let on = extend(program, reversed, seen | label, placed, each);
                    reversed.pop();
                    *placed = old;
                    if !on {
                        return false;
                    }
                }
            }
        }
        true
    }
    extend(program, &mut Vec::new(), 0, &mut [None; 4], each)
}

/// The least configurations of given local states, values any: every message is needed, every queue holds at most one value.
pub fn least(program: &Program, states: [u8; 4], each: &mut dyn FnMut(&Cube) -> bool) -> bool {
    let pairs = program.processes * program.variables;
    needed_channels(program, &mut |channel, pointers| {
        let mut bare = Cube::new(states, *pointers);
        for message in channel {
            bare.append(*message);
        }
        for waiting in 0..1usize << pairs {
            let mut cube = bare.clone();
            for queue in (0..pairs).filter(|queue| waiting >> queue & 1 == 1) {
                cube.push_newest(queue, FF);
            }
            if !each(&cube) {
                return false;
            }
        }
        true
    })
}

/// How many least configurations a program's shape has for each choice of local states; None if more than `at_most`.
fn least_count(program: &Program, at_most: usize) -> Option<usize> {
    let pairs = program.processes * program.variables;
    let mut channels = 0usize;
    let limit = at_most >> pairs;
    if needed_channels(program, &mut |_, _| {
        channels += 1;
        channels <= limit
    }) {
        Some(channels << pairs)
    } else {
        None
    }
}

/// Number 9 for one target. Only an entry that is least itself, of the same structure, can be below a filling of a least configuration:
/// so the structures of such entries are counted, and each must hold for all values.
fn target_held(index: &Index, states: [u8; 4], count: Option<usize>) -> bool {
    let Some(count) = count else { return false };
    let program = index.program;
    let mut structures: HashSet<Structure, ByHash> = HashSet::default();
    for number in 0..index.len() {
        if index.states(number) != states {
            continue;
        }
        let mut cube = index.entry(number);
        let structure = Structure::of(program, &cube);
        if structure.is_least() && cube.lengths().iter().all(|length| *length <= 1) && structures.insert(structure) {
            for message in cube.channel_mut() {
                message.snapshot = any_snapshot(program);
            }
            for queue in 0..16 {
                cube.queue_mut(queue).fill(FF);
            }
            if !index.holds(&cube) {
                return false;
            }
        }
    }
    structures.len() == count
}

/// Number 10 for one entry: its values do not matter, since a start has any memory.
pub fn start_above(program: &Program, entry: &Cube) -> bool {
    (0..program.processes).all(|p| entry.states[p] == program.initial[p])
        && entry.lengths().iter().all(|length| *length == 0)
        && entry.channel().len() == 1
}

/// Claim 0, the list's entries being well formed.
pub fn judge_list(program: &Program, list: &List) -> Verdict {
    if list.is_empty() {
        return Verdict::Refused(9, 0);
    }
    let index = Index::of(program, list);
    let count = least_count(program, list.len());
    let mut held: HashMap<[u8; 4], bool> = HashMap::new();
    for (number, target) in program.targets.iter().enumerate() {
        if !*held.entry(*target).or_insert_with(|| target_held(&index, *target, count)) {
            return Verdict::Refused(9, number as u64);
        }
    }
    if let Some(number) = (0..list.len()).position(|number| start_above(program, &list.entry(number))) {
        return Verdict::Refused(10, number as u64);
    }
    let steps = program.all_steps();
    for number in 0..list.len() {
        let entry = list.entry(number);
        if let Some(step) = steps.iter().find(|step| !predecessors(program, &entry, **step, |cube| index.holds(cube))) {
            return Verdict::Open(number as u64, *step);
        }
    }
    Verdict::Safe(list.len() as u64)
}
