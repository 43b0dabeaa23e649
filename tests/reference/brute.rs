//! Lists again, for tiny shapes, straight from the definitions of document 01: "Above" by trying every map of messages, every entry by
//! trying every filling, and every configuration up to a bound with every step. It knows no cubes, no needed messages and no index.
//! What it refuses is refused; what it accepts is accepted up to the bound.

use crate::machine::{Configuration, Message, Program};
use crate::{Verdict, FF};

/// Equal, or filled in so that they are.
fn fits(low: u8, high: u8) -> bool {
    low == high || low == FF
}

fn message_fits(low: &Message, high: &Message) -> bool {
    (low.process, low.variable) == (high.process, high.variable) && low.snapshot.iter().zip(high.snapshot).all(|(low, high)| fits(*low, high))
}

/// Each queue of c is a subsequence of d's, and both are empty or both end in the same value.
fn queue_below(low: &[u8], high: &[u8]) -> bool {
    fn subsequence(low: &[u8], high: &[u8]) -> bool {
        match (low, high) {
            ([], _) => true,
            (_, []) => false,
            ([a, more @ ..], [b, rest @ ..]) => (fits(*a, *b) && subsequence(more, rest)) || subsequence(low, rest),
        }
    }
    match (low, high) {
        ([], []) => true,
        ([more @ .., a], [rest @ .., b]) => fits(*a, *b) && subsequence(more, rest),
        _ => false,
    }
}

fn lowest(program: &Program, c: &Configuration) -> usize {
    c.pointers[..program.processes].iter().copied().min().unwrap()
}

/// c below d, document 01 "Above"; c may be an entry: each of its values goes to one value of d, which fills it in if it is FF.
pub fn below(program: &Program, c: &Configuration, d: &Configuration) -> bool {
    /// Maps the messages of c from number `from` on to messages of d above all of `to`; to[i] is where message first + i goes.
    fn map(program: &Program, c: &Configuration, d: &Configuration, first: usize, to: &mut Vec<usize>, next: usize) -> bool {
        let number = first + to.len();
        if number > c.channel.len() {
            let image = |n: usize| to[n - first];
            return (0..program.processes).all(|p| {
                image(c.pointers[p]) == d.pointers[p]
                    && (0..program.variables).all(|v| image(c.last_write(p, v)) == d.last_write(p, v))
            });
        }
        for other in next..=d.channel.len() {
            if message_fits(&c.channel[number - 1], &d.channel[other - 1]) {
                to.push(other);
                if map(program, c, d, first, to, other + 1) {
                    return true;
                }
                to.pop();
            }
        }
        false
    }
    c.states == d.states
        && c.queues.iter().zip(&d.queues).all(|(low, high)| queue_below(low, high))
        && map(program, c, d, lowest(program, c), &mut Vec::new(), lowest(program, d))
}

/// Every filling in of an entry's FFs; None if there are more than `limit`.
pub fn fillings(program: &Program, entry: &Configuration, limit: usize) -> Option<Vec<Configuration>> {
    let mut all = vec![entry.clone()];
    let mut fill = |variable: usize, change: &dyn Fn(&mut Configuration) -> &mut u8| {
        if *change(&mut all[0]) == FF {
            let mut more = Vec::new();
            for c in &all {
                for value in 0..program.values[variable] {
                    let mut filled = c.clone();
                    *change(&mut filled) = value;
                    more.push(filled);
                }
            }
            all = more;
        }
        all.len() <= limit
    };
    for message in 0..entry.channel.len() {
        for v in 0..program.variables {
            if !fill(v, &|c| &mut c.channel[message].snapshot[v]) {
                return None;
            }
        }
    }
    for queue in 0..entry.queues.len() {
        for at in 0..entry.queues[queue].len() {
            if !fill(queue % program.variables, &|c| &mut c.queues[queue][at]) {
                return None;
            }
        }
    }
    Some(all)
}

/// All sequences of up to `longest` of the given things, from the shortest on.
fn sequences<T: Clone>(things: &[T], shortest: usize, longest: usize) -> Vec<Vec<T>> {
    let mut all = Vec::new();
    let mut of_length: Vec<Vec<T>> = vec![Vec::new()];
    for length in 0..=longest {
        if length >= shortest {
            all.extend(of_length.iter().cloned());
        }
        of_length = of_length
            .iter()
            .flat_map(|s| {
                things.iter().map(move |t| {
                    let mut longer = s.clone();
                    longer.push(t.clone());
                    longer
                })
            })
            .collect();
    }
    all
}

pub struct Bounds {
    pub messages: usize,
    pub waiting: usize,
}

/// Bounds that theory says are enough for this list: one more than its entries have, and what a least configuration of a target has.
pub fn bounds(program: &Program, entries: &[Configuration]) -> Bounds {
    let pairs = program.processes * program.variables;
    Bounds {
        messages: entries.iter().map(|e| e.channel.len() + 1).max().unwrap_or(1).max(program.processes + pairs),
        waiting: entries.iter().flat_map(|e| e.queues.iter().map(|q| q.len() + 1)).max().unwrap_or(1).max(1),
    }
}

/// Roughly how many configurations there are under a bound, for each choice of local states.
pub fn size(program: &Program, bounds: &Bounds) -> f64 {
    let sum = |base: f64, from: usize, to: usize| (from..=to).map(|n| base.powi(n as i32)).sum::<f64>();
    let counts = program.values[..program.variables].iter().map(|count| *count as f64);
    let pairs = program.processes * program.variables;
    let label_values = pairs as f64 * counts.clone().product::<f64>();
    let channels: f64 =
        (1..=bounds.messages).map(|n| label_values.powi(n as i32) * (n as f64).powi(program.processes as i32)).sum();
    channels * counts.map(|count| sum(count, 0, bounds.waiting)).product::<f64>().powi(program.processes as i32)
}

/// Judges a list by looking at every configuration up to the bounds. None if some entry has too many fillings.
pub fn judge_list(program: &Program, entries: &[Configuration], bounds: &Bounds) -> Option<Verdict> {
    let mut filled = Vec::new();
    for entry in entries {
        filled.push(fillings(program, entry, 4_096)?);
    }
    let above_entry = |c: &Configuration, number: usize| filled[number].iter().any(|low| below(program, low, c));
    let above = |c: &Configuration| (0..entries.len()).any(|number| entries[number].states == c.states && above_entry(c, number));

    let snapshots = program.memories();
    let mut messages = Vec::new();
    for p in 0..program.processes {
        for v in 0..program.variables {
            messages.extend(snapshots.iter().map(|s| Message { process: p as u8, variable: v as u8, snapshot: *s }));
        }
    }
    let channels = sequences(&messages, 1, bounds.messages);
    let mut all_queues: Vec<Vec<Vec<u8>>> = vec![Vec::new()];
    for queue in 0..program.processes * program.variables {
        let values: Vec<u8> = (0..program.values[queue % program.variables]).collect();
        let one = sequences(&values, 0, bounds.waiting);
        all_queues = all_queues
            .iter()
            .flat_map(|queues| {
                one.iter().map(move |queue| {
                    let mut more = queues.clone();
                    more.push(queue.clone());
                    more
                })
            })
            .collect();
    }
    let mut all_states = vec![[0u8; 4]];
    for p in 0..program.processes {
        all_states = all_states
            .iter()
            .flat_map(|s| {
                (0..program.states[p]).map(move |state| {
                    let mut next = *s;
                    next[p] = state;
                    next
                })
            })
            .collect();
    }

    let steps = program.all_steps();
    let mut target_missed: Option<usize> = None;
    // The lowest entry, and the lowest step that leads above it from outside the list.
    let mut not_closed: Option<(usize, usize)> = None;
    for channel in &channels {
        let mut all_pointers = vec![[0usize; 4]];
        for p in 0..program.processes {
            all_pointers = all_pointers
                .iter()
                .flat_map(|z| {
                    (1..=channel.len()).map(move |pointer| {
                        let mut next = *z;
                        next[p] = pointer;
                        next
                    })
                })
                .collect();
        }
        for pointers in &all_pointers {
            for queues in &all_queues {
                for states in &all_states {
                    let c = Configuration { states: *states, queues: queues.clone(), channel: channel.clone(), pointers: *pointers };
                    if above(&c) {
                        continue;
                    }
                    let target = program.targets.iter().position(|t| t == states);
                    target_missed = lower(target_missed, target);
                    for (number, step) in steps.iter().enumerate() {
                        let mut next = c.clone();
                        if next.take(program, *step) {
                            let until = not_closed.map_or(entries.len(), |(entry, _)| entry + 1);
                            let entry = (0..until).find(|n| entries[*n].states == next.states && above_entry(&next, *n));
                            not_closed = lower(not_closed, entry.map(|entry| (entry, number)));
                        }
                    }
                }
            }
        }
    }
    if let Some(target) = target_missed {
        return Some(Verdict::Refused(9, target as u64));
    }
    let starts: Vec<Configuration> = messages
        .iter()
        .map(|message| {
            let mut start = Configuration::start(program, message.snapshot);
            start.channel[0] = *message;
            start
        })
        .collect();
    for (number, entry) in filled.iter().enumerate() {
        if starts.iter().any(|start| entry.iter().any(|low| below(program, low, start))) {
            return Some(Verdict::Refused(10, number as u64));
        }
    }
    if let Some((entry, step)) = not_closed {
        return Some(Verdict::Open(entry as u64, steps[step]));
    }
    Some(Verdict::Safe(entries.len() as u64))
}

fn lower<T: Ord>(a: Option<T>, b: Option<T>) -> Option<T> {
    match (a, b) {
        (Some(a), Some(b)) => Some(a.min(b)),
        (a, b) => a.or(b),
    }
}
