//! Pattern lists in tests: the separate judge of them as a program, and beside the machine.
//!   patterns judge [--area BYTES] FILE [EVIDENCE]   the line of a combined file, or of a program file and an evidence file
//!   patterns cases FILE                             hand-worked files with their lines (cases.txt says how they are written)
//!   patterns damaged SEED COUNT FILE..              damaged copies of combined files, each also judged as the pair that it is when it is cut at its claim
//!   patterns rules SEED PROGRAMS                    fitting, within and predecessors of random patterns, held to the machine
//!   patterns search SEED PROGRAMS                   closed lists from a backward search, held to a forward search of the machine

#[path = "../reference/patterns.rs"]
mod patterns;

use patterns::{dropped, fits, judge, predecessors, start_fits, verdict, within, Clue, Groups, Pattern, Read, Verdict};
use reference::{Configuration, Operation, Program, Step, Transition, FF};
use std::collections::HashSet;

// ---- random programs and patterns

struct Random(u64);

impl Random {
    fn below(&mut self, n: usize) -> usize {
        self.0 ^= self.0 << 13;
        self.0 ^= self.0 >> 7;
        self.0 ^= self.0 << 17;
        ((self.0 >> 33) as usize) % n
    }

    fn one_in(&mut self, n: usize) -> bool {
        self.below(n) == 0
    }
}

fn random_program(random: &mut Random) -> Program {
    let (processes, variables) = [(1, 1), (1, 2), (1, 2), (2, 1), (2, 2), (2, 2), (2, 2), (3, 1)][random.below(8)];
    let mut values = [0; 4];
    for v in 0..variables {
        values[v] = 2 + random.one_in(6) as u8;
    }
    let states: Vec<u8> = (0..processes).map(|_| 2 + random.below(3) as u8).collect();
    let mut transitions = Vec::new();
    for _ in 0..3 + random.below(6) {
        let p = random.below(processes);
        let variable = random.below(variables);
        let mut value = || random.below(values[variable] as usize) as u8;
        let (value, old, new) = (value(), value(), value());
        let operation = match random.below(11) {
            0 => Operation::Nop,
            1..=3 => Operation::Read { variable, value },
            4..=7 => Operation::Write { variable, value },
            8 => Operation::Mfence,
            9 => Operation::Sfence,
            _ => Operation::Arw { variable, old, new },
        };
        let from = random.below(states[p] as usize) as u8;
        let to = if random.one_in(4) { random.below(states[p] as usize) as u8 } else { (from + 1) % states[p] };
        transitions.push(Transition { process: p, from, operation, to });
    }
    let mut target = [0; 4];
    for p in 0..processes {
        target[p] = random.below(states[p] as usize) as u8;
    }
    Program { processes, variables, values, initial: vec![0; processes], states, transitions, targets: vec![target] }
}

/// No more values in a queue, and no more messages.
const WAITING: usize = 3;
const MESSAGES: usize = 7;

fn small(c: &Configuration) -> bool {
    c.channel.len() <= MESSAGES && c.queues.iter().all(|queue| queue.len() <= WAITING)
}

fn after(program: &Program, c: &Configuration, step: Step) -> Option<Configuration> {
    let mut d = c.clone();
    if d.take(program, step) && small(&d) { Some(d) } else { None }
}

/// Configurations that runs visit, from every memory.
fn visited(program: &Program, random: &mut Random, walks: usize) -> Vec<Configuration> {
    let steps = program.all_steps();
    let memories = program.memories();
    let mut all = HashSet::new();
    for _ in 0..walks {
        let mut c = Configuration::start(program, memories[random.below(memories.len())]);
        for _ in 0..40 {
            let next: Vec<Configuration> = steps.iter().filter_map(|step| after(program, &c, *step)).collect();
            all.insert(c);
            if next.is_empty() {
                break;
            }
            c = next[random.below(next.len())].clone();
        }
    }
    let mut all: Vec<Configuration> = all.into_iter().collect();
    all.sort_by_cached_key(|c| format!("{:?}", c));
    all
}

fn random_word(random: &mut Random, queue: &[u8]) -> Vec<u8> {
    let mut word = Vec::new();
    for value in queue {
        match random.below(3) {
            0 => word.push(*value),
            1 => word.push(FF),
            _ => {}
        }
    }
    word
}

/// A pattern that d fits.
fn random_pattern(program: &Program, random: &mut Random, d: &Configuration) -> Pattern {
    let mut a = Pattern::of_target(program, d.states);
    let n = d.channel.len();
    for v in 0..program.variables {
        if random.one_in(3) {
            a.newest[v] = d.channel[n - 1].snapshot[v];
        }
    }
    for (clue, queue) in a.clues.iter_mut().zip(&d.queues) {
        *clue = match (random.below(3), queue.split_last()) {
            (0, None) => Clue::Empty,
            (1, Some((newest, rest))) => {
                let mut word = random_word(random, rest);
                word.push(*newest);
                Clue::Ends(word)
            }
            _ => Clue::Contains(random_word(random, queue)),
        };
    }
    for p in 0..program.processes {
        let mut at = 0;
        for _ in 0..random.below(5) {
            let x = random.below(program.variables);
            let low = d.last_write(p, x).max(at);
            let i = if random.one_in(2) { low } else { low + random.below(n + 1 - low) };
            let message = d.channel[i - 1];
            let own = at > 0 && i > at && message.is_labelled(p, x) && !random.one_in(4);
            a.paths[p].push(Read { variable: x, value: message.snapshot[x], own });
            at = i;
        }
    }
    a
}

// ---- the rules

/// From c, by updates and serialises and then the step, the machine gets into a.
fn leads_in(program: &Program, a: &Pattern, step: Step, c: &Configuration) -> bool {
    let mut seen = HashSet::new();
    let mut next = vec![c.clone()];
    while let Some(c) = next.pop() {
        let mut d = c.clone();
        if d.take(program, step) && fits(program, a, &d) {
            return true;
        }
        for other in program.all_steps() {
            if !matches!(other, Step::Transition(_)) {
                let mut d = c.clone();
                if d.take(program, other) && seen.insert(d.clone()) {
                    next.push(d);
                }
            }
        }
    }
    false
}

/// A pattern like a: a value, an own or a read is changed or left out here and there.
fn near(program: &Program, random: &mut Random, a: &Pattern) -> Pattern {
    let mut b = a.clone();
    for v in 0..program.variables {
        if random.one_in(3) {
            b.newest[v] = FF;
        }
    }
    for clue in &mut b.clues {
        if let Clue::Contains(word) | Clue::Ends(word) = clue {
            if random.one_in(2) && !word.is_empty() {
                let i = random.below(word.len());
                let value = [0, 1, FF][random.below(3)];
                match random.below(3) {
                    0 if i + 1 < word.len() => word[i] = value,
                    1 if i + 1 == word.len() && value != FF => word[i] = value,
                    _ if word.len() > 1 => {
                        word.remove(0);
                    }
                    _ => *clue = Clue::Contains(Vec::new()),
                }
            }
        }
    }
    for path in &mut b.paths {
        if random.one_in(2) && !path.is_empty() {
            let i = random.below(path.len());
            if i > 0 && random.one_in(2) {
                path[i].own = !path[i].own;
            } else {
                path.remove(i);
            }
        }
        if let Some(first) = path.first_mut() {
            first.own = false;
        }
    }
    b
}

fn rules(seed: u64, programs: usize) -> bool {
    let mut random = Random(seed.wrapping_mul(0x9e37_79b9_7f4a_7c15) | 1);
    let (mut into, mut out_of, mut held) = (0, 0, 0);
    for number in 0..programs {
        let program = random_program(&mut random);
        let steps = program.all_steps();
        let pool = visited(&program, &mut random, 40);
        for _ in 0..40 {
            // A step into a pattern comes from a predecessor that is not dropped.
            let c = &pool[random.below(pool.len())];
            let may: Vec<(Step, Configuration)> = steps.iter().filter_map(|step| after(&program, c, *step).map(|d| (*step, d))).collect();
            if may.is_empty() {
                continue;
            }
            for (step, d) in &may {
                let a = random_pattern(&program, &mut random, d);
                if !fits(&program, &a, d) {
                    println!("patterns: program {}: a configuration does not fit the pattern made from it: {:?} {:?} {:?}", number, program, a, d);
                    return false;
                }
                into += 1;
                let before = predecessors(&program, &a, *step);
                if !fits(&program, &a, c) && !before.iter().any(|b| !dropped(&program, b) && fits(&program, b, c)) {
                    println!("patterns: program {}: {} leads into a pattern from no predecessor: {:?} {:?} {:?}", number, step, program, a, c);
                    return false;
                }
            }
            // A predecessor leads in.
            let e = &pool[random.below(pool.len())];
            let a = random_pattern(&program, &mut random, e);
            let step = steps[random.below(steps.len())];
            for b in &predecessors(&program, &a, step) {
                for c in pool.iter().filter(|c| fits(&program, b, c)).take(2) {
                    out_of += 1;
                    if !leads_in(&program, &a, step, c) {
                        println!("patterns: program {}: a predecessor under {} does not lead in: {:?} {:?} {:?} {:?}", number, step, program, a, b, c);
                        return false;
                    }
                }
            }
            // What fits a pattern fits whatever it is within.
            for _ in 0..4 {
                let b = near(&program, &mut random, &a);
                if within(&program, &a, &b) {
                    for c in pool.iter().filter(|c| fits(&program, &a, c)) {
                        held += 1;
                        if !fits(&program, &b, c) {
                            println!("patterns: program {}: within, and does not fit: {:?} {:?} {:?} {:?}", number, program, a, b, c);
                            return false;
                        }
                    }
                }
            }
        }
    }
    println!("patterns: {} steps into a pattern, {} configurations of a predecessor, {} of a pattern within another", into, out_of, held);
    into > 0 && out_of > 0 && held > 0
}

// ---- searches

/// Patterns that hold the targets and their predecessors; None if they are too many.
fn backward(program: &Program) -> Option<Vec<Pattern>> {
    let mut groups = Groups::default();
    let mut list: Vec<Pattern> = Vec::new();
    let mut wait: Vec<Pattern> = program.targets.iter().map(|t| Pattern::of_target(program, *t)).collect();
    while let Some(a) = wait.pop() {
        if dropped(program, &a) || groups.hold(program, &a) {
            continue;
        }
        if list.len() == 300 {
            return None;
        }
        for step in program.all_steps() {
            wait.extend(predecessors(program, &a, step));
        }
        groups.add(a.clone());
        list.push(a);
    }
    Some(list)
}

enum Found {
    Reached,
    NotReached,
    Unfinished,
}

fn forward(program: &Program) -> Found {
    let mut seen: HashSet<Configuration> = HashSet::new();
    let mut next: Vec<Configuration> = program.memories().into_iter().map(|memory| Configuration::start(program, memory)).collect();
    let mut cut = false;
    while let Some(c) = next.pop() {
        if program.targets.contains(&c.states) {
            return Found::Reached;
        }
        if seen.len() > 60_000 {
            return Found::Unfinished;
        }
        for step in program.all_steps() {
            let mut d = c.clone();
            if d.take(program, step) {
                if !small(&d) {
                    cut = true;
                } else if seen.insert(d.clone()) {
                    next.push(d);
                }
            }
        }
    }
    if cut { Found::Unfinished } else { Found::NotReached }
}

fn search(seed: u64, programs: usize) -> bool {
    let mut random = Random(seed.wrapping_mul(0x9e37_79b9_7f4a_7c15) | 1);
    let (mut safe, mut reached, mut left, mut refused, mut long) = (0, 0, 0, 0, 0);
    for number in 0..programs {
        let program = random_program(&mut random);
        let Some(list) = backward(&program) else {
            long += 1;
            continue;
        };
        let starts = list.iter().any(|a| start_fits(&program, a));
        let found = forward(&program);
        let clash = match found {
            Found::Reached => !starts,
            Found::NotReached => starts,
            Found::Unfinished => false,
        };
        if clash {
            println!("patterns: program {}: searches differ, a start fits: {}: {:?} {:?}", number, starts, program, list);
            return false;
        }
        match (starts, found) {
            (false, _) => safe += 1,
            (true, Found::Reached) => reached += 1,
            (true, _) => left += 1,
        }
        if starts {
            continue;
        }
        let line = verdict(&program, &list);
        if line != Verdict::Safe(list.len()) {
            println!("patterns: program {}: a closed list is {}: {:?} {:?}", number, line, program, list);
            return false;
        }
        // Without one of its patterns nothing else holds it, or what needs it is named.
        let k = random.below(list.len());
        let mut short = list.clone();
        let gone = short.remove(k);
        match verdict(&program, &short) {
            Verdict::Safe(_) => {}
            Verdict::Refused(9, _) => refused += 1,
            Verdict::Open(entry, step) => {
                refused += 1;
                if !predecessors(&program, &short[entry], step).iter().any(|b| within(&program, b, &gone)) {
                    println!("patterns: program {}: 11 names what the pattern left out does not hold: {:?} {:?} {:?}", number, program, list, gone);
                    return false;
                }
            }
            line => {
                println!("patterns: program {}: without a pattern {}: {:?} {:?}", number, line, program, short);
                return false;
            }
        }
    }
    println!("patterns: {} programs certified, {} refused without a pattern; {} reached, {} not within bounds, {} lists too long", safe, refused, reached, left, long);
    safe > 0 && reached > 0 && refused > 0
}

// ---- files

/// Lines `LINE = HEX ..`, where LINE is `safe 1` or `refused 2 11`; a name `NAME := HEX ..` may stand for its bytes further on.
fn cases(path: &str) -> std::io::Result<bool> {
    let text = std::fs::read_to_string(path)?;
    let mut names: Vec<(&str, Vec<u8>)> = Vec::new();
    let (mut count, mut good) = (0, true);
    for (number, line) in text.lines().enumerate() {
        let line = line.split('#').next().unwrap().trim();
        if line.is_empty() {
            continue;
        }
        let (head, rest, named) = match line.split_once(":=") {
            Some((head, rest)) => (head.trim(), rest, true),
            None => line.split_once('=').map(|(head, rest)| (head.trim(), rest, false)).expect("a line has = or :="),
        };
        let mut bytes = Vec::new();
        for word in rest.split_whitespace() {
            match names.iter().find(|(name, _)| *name == word) {
                Some((_, part)) => bytes.extend(part),
                None => bytes.push(u8::from_str_radix(word, 16).unwrap_or_else(|_| panic!("line {}: {}", number + 1, word))),
            }
        }
        if named {
            names.push((head, bytes));
            continue;
        }
        count += 1;
        let said = judge(&[&bytes], 65_536).to_string();
        if said != head {
            println!("patterns: {} line {}: {} and not {}", path, number + 1, said, head);
            good = false;
        }
    }
    println!("patterns: {} files worked by hand", count);
    Ok(good)
}

/// Where the claim stands.
fn claim_at(file: &[u8]) -> usize {
    let mut at = 0;
    while file[at] != 0x0f {
        at += [0, 7, 3, 8, 5][file[at] as usize];
    }
    at
}

/// Every byte behind the claim may be changed, left out or doubled, and the file may end anywhere there.
fn damaged(seed: u64, count: usize, file: &[u8]) -> bool {
    let mut random = Random(seed.wrapping_mul(0x9e37_79b9_7f4a_7c15) | 1);
    let claim = claim_at(file);
    for _ in 0..count {
        let mut bytes = file.to_vec();
        for _ in 0..1 + random.below(2) {
            let at = claim + 1 + random.below(bytes.len() - claim - 1);
            let byte = [0, 1, 2, 3, 0x0f, 0x12, 0x13, 0x14, 0x15, 0x20, FF, random.below(256) as u8][random.below(12)];
            match random.below(4) {
                0 => bytes.truncate(at.max(claim + 2)),
                1 => bytes[at] = byte,
                2 => bytes.insert(at, byte),
                _ => {
                    if bytes.len() > claim + 2 {
                        bytes.remove(at);
                    }
                }
            }
        }
        let whole = judge(&[&bytes], 65_536);
        let pair = judge(&[&bytes[..claim], &bytes[claim..]], 65_536);
        let shifted = match pair {
            Verdict::Refused(number, place) if number < 9 => Verdict::Refused(number, claim + place),
            other => other,
        };
        if whole != shifted {
            println!("patterns: a damaged file is {}, and cut at its claim {}: {:02x?}", whole, pair, bytes);
            return false;
        }
    }
    true
}

fn main() -> std::io::Result<()> {
    let words: Vec<String> = std::env::args().skip(1).collect();
    let number = |i: usize| words[i].parse().expect("a number");
    let good = match words.first().map(String::as_str) {
        Some("judge") => {
            let (area, files) = if words[1] == "--area" { (number(2) as usize, &words[3..]) } else { (reference::AREA_MOST, &words[1..]) };
            let files = files.iter().map(std::fs::read).collect::<Result<Vec<_>, _>>()?;
            println!("{}", judge(&files.iter().map(Vec::as_slice).collect::<Vec<_>>(), area));
            true
        }
        Some("cases") => cases(&words[1])?,
        Some("damaged") => {
            let files = words[3..].iter().map(std::fs::read).collect::<Result<Vec<_>, _>>()?;
            files.iter().all(|file| damaged(number(1), number(2) as usize, file))
        }
        Some("rules") => rules(number(1), number(2) as usize),
        Some("search") => search(number(1), number(2) as usize),
        _ => panic!("judge, cases, damaged, rules or search"),
    };
    std::process::exit(if good { 0 } else { 1 })
}
