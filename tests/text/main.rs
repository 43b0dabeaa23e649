//! Text and bytes, back and forth: `round FILE..` for files, `pair PROGRAM EVIDENCE` for two, `random SEED COUNT` for
//! random ones of every kind, `fuzz SEED COUNT FILE..` for damaged ones; and `walk SEED PROCESSES VARIABLES STEPS
//! pws|pso` makes a file with a random run. Ends in status 1 with a line if something does not come back.

use hrafnolt_tools::contents::{
    self, Clue, Contents, Entry, Evidence, Item, Machine, Message, Operation, Pattern, Program, Run, Step, Transition,
};
use hrafnolt_tools::machine::Configuration;
use hrafnolt_tools::text::assemble::{assemble, Assembled};
use hrafnolt_tools::text::{listing, Names};
use hrafnolt_tools::{picture, trace};
use std::io::Write;
use std::process::exit;

struct Random(u64);

impl Random {
    fn next(&mut self) -> u64 {
        self.0 = self.0.wrapping_mul(6_364_136_223_846_793_005).wrapping_add(1_442_695_040_888_963_407);
        let x = self.0 ^ self.0 >> 29;
        x.wrapping_mul(0x9e37_79b9_7f4a_7c15) >> 17
    }

    fn below(&mut self, n: usize) -> usize {
        (self.next() % n.max(1) as u64) as usize
    }
}

fn fail(words: String) -> ! {
    println!("text: {words}");
    exit(1)
}

/// The names that a text was listed with come back with it: the text of its file, with them, is the text.
fn text_again(name: &str, text: &str, given: Option<(&Program, &Names)>) -> Assembled {
    let assembled = match assemble(text.as_bytes(), &[], given) {
        Ok(assembled) => assembled,
        Err(complaint) => fail(format!("{name}: its text is not taken back: {complaint}\n{text}")),
    };
    let again = listing::list(&assembled.contents, given.map(|g| g.0), &assembled.contents_names, false);
    if again != text {
        fail(format!("{name}: its text comes back as another:\n{text}---\n{again}"));
    }
    assembled
}

/// Bytes that were read: they come back from their text, by name and by letter, and their runs can be told and drawn.
/// `names` are made up.
fn bytes_again(name: &str, bytes: &[u8], contents: &Contents, given: Option<&Program>) {
    if contents.bytes() != bytes {
        fail(format!("{name}: what was read is written otherwise"));
    }
    let program = contents.program.as_ref().or(given);
    let names = Names::made_up(program);
    for by_letter in [false, true] {
        let text = listing::list(contents, given, &names, by_letter);
        match assemble(text.as_bytes(), &[], given.map(|program| (program, &names))) {
            Ok(back) if back.contents.bytes() == bytes => {}
            Ok(_) => fail(format!("{name}: its text is of other bytes:\n{text}")),
            Err(complaint) => fail(format!("{name}: its text is not taken back: {complaint}\n{text}")),
        }
    }
    let text = listing::list(contents, given, &names, false);
    text_again(name, &text, given.map(|program| (program, &names)));
    for evidence in &contents.evidence {
        if let (Some(program), Evidence::Run(run)) = (program, evidence) {
            let told = trace::lines(program, &names, run);
            let short = trace::steps(program, &names, run);
            let (svg, drawn) = picture::draw(program, &names, run, "a & b", picture::WIDTH);
            if told.accepted != short.accepted || told.accepted != drawn || !svg.ends_with("</svg>\n") {
                fail(format!("{name}: its run is told and drawn otherwise"));
            }
        }
    }
}

/// A file of either kind: true if it was taken.
fn round(name: &str, bytes: &[u8]) -> bool {
    if let Ok(contents) = contents::read(bytes, None) {
        bytes_again(name, bytes, &contents, None);
        return true;
    }
    match assemble(bytes, &[], None) {
        Err(_) => false,
        Ok(assembled) => {
            let text = listing::list(&assembled.contents, None, &assembled.contents_names, false);
            let back = text_again(name, &text, None);
            if back.contents.bytes() != assembled.contents.bytes() {
                fail(format!("{name}: the text of its text is of other bytes:\n{text}"));
            }
            let bytes = assembled.contents.bytes();
            match contents::read(&bytes, None) {
                Ok(contents) => bytes_again(name, &bytes, &contents, None),
                Err(fault) => fail(format!("{name}: its bytes can't be read: {fault}")),
            }
            true
        }
    }
}

/// One of the ways to damage a file: bytes, records and words change, go, come twice or are exchanged.
fn damaged(r: &mut Random, from: &[u8], other: &[u8]) -> Vec<u8> {
    let mut out = from.to_vec();
    for _ in 0..1 + r.below(3) {
        let at = r.below(out.len() + 1);
        let length = r.below(12).min(out.len() - at.min(out.len()));
        match r.below(12) {
            9..=11 => {
                // A word, or a number, by another one of the file.
                let word = |b: &u8| b.is_ascii_alphanumeric() || *b == b'_';
                let starts: Vec<usize> =
                    (0..out.len()).filter(|i| word(&out[*i]) && (*i == 0 || !word(&out[i - 1]))).collect();
                if starts.len() > 1 {
                    let end =
                        |start: usize| out[start..].iter().position(|b| !word(b)).map_or(out.len(), |n| start + n);
                    let (to, from) = (starts[r.below(starts.len())], starts[r.below(starts.len())]);
                    let (range, taken) = (to..end(to), out[from..end(from)].to_vec());
                    out.splice(range, taken);
                }
            }
            0 if at < out.len() => out[at] ^= 1 << r.below(8),
            1 if at < out.len() => out[at] = r.next() as u8,
            2 => drop(out.drain(at..at + length)),
            3 => {
                let part = out[at..at + length].to_vec();
                let to = r.below(out.len() + 1);
                out.splice(to..to, part);
            }
            4 => out.truncate(at),
            5 => {
                let from = r.below(other.len() + 1);
                out.splice(at..at, other[from..(from + 20).min(other.len())].iter().copied());
            }
            6 => {
                let words: [&[u8]; 12] = [
                    b" -> ",
                    b"or ",
                    b"process p again\n",
                    b":",
                    b"*",
                    b"\n",
                    b"fence a\n",
                    b"never ",
                    b"99999999999",
                    b"\xff",
                    b"run\n",
                    b"#",
                ];
                let word = words[r.below(words.len())];
                out.splice(at..at, word.iter().copied());
            }
            7 if at < out.len() => out[at] = r.below(6) as u8,
            _ => {
                // A whole line twice, or gone.
                let lines: Vec<Vec<u8>> = out.split_inclusive(|b| *b == b'\n').map(<[u8]>::to_vec).collect();
                let which = r.below(lines.len().max(1));
                let twice = r.below(2) == 0;
                out = lines
                    .iter()
                    .enumerate()
                    .flat_map(|(i, line)| line.repeat(if i == which { 2 * twice as usize } else { 1 }))
                    .collect();
            }
        }
    }
    out
}

/// A file of any kind that holds what it says, with no regard to sense.
fn random(r: &mut Random) -> Contents {
    let registers = r.below(5) == 0;
    let (processes, variables) = (1 + r.below(4), 1 + r.below(4));
    let mut program = Program {
        processes,
        variables,
        values: [0; 4],
        states: [0; 4],
        initial: [0; 4],
        registers,
        transitions: Vec::new(),
        targets: Vec::new(),
    };
    let most = [2, 4, 32][r.below(3)];
    program
        .values
        .iter_mut()
        .take(variables)
        .for_each(|count| *count = if registers { 4 } else { 1 + r.below(4) as u8 });
    for p in 0..processes {
        program.states[p] = 1 + r.below(most) as u8;
        program.initial[p] = if r.below(2) == 0 { 0 } else { r.below(program.states[p] as usize) as u8 };
    }
    let (states_of, values_of) = (program.states, program.values);
    let states = |r: &mut Random| {
        let mut states = [0; 4];
        (0..processes).for_each(|p| states[p] = r.below(states_of[p] as usize) as u8);
        states
    };
    let values = |r: &mut Random, any: bool| {
        let mut values = [0; 4];
        for v in 0..variables {
            values[v] = if any && r.below(2) == 0 { contents::ANY } else { r.below(values_of[v] as usize) as u8 };
        }
        values
    };
    let sorted = r.below(2) == 0;
    for _ in 0..[0, 1, 5, 20, 256][r.below(5)] {
        let process = r.below(processes) as u8;
        let variable = r.below(variables) as u8;
        let count = values_of[variable as usize] as usize;
        let (value, new) = (r.below(count) as u8, r.below(count) as u8);
        let operation = match r.below(if registers { 9 } else { 6 }) {
            0 => Operation::Nop,
            1 => Operation::Read { variable, value },
            2 => Operation::Write { variable, value },
            3 => Operation::Mfence,
            4 => Operation::Sfence,
            5 => Operation::Arw { variable, old: value, new },
            6 => Operation::Load { variable },
            7 => Operation::Save { variable },
            _ => Operation::Test { value },
        };
        let count = states_of[process as usize] as usize;
        program.transitions.push(Transition {
            process,
            from: r.below(count) as u8,
            operation,
            to: r.below(count) as u8,
        });
    }
    if sorted {
        program.transitions.sort_by_key(|t| (t.process, t.from));
    }
    program.registers &= !program.transitions.is_empty();
    for _ in 0..1 + r.below(4) {
        let target = states(r);
        // Now and then all that differ in one process.
        let free = r.below(2 * processes);
        for state in 0..if free < processes { states_of[free] } else { 1 } {
            let mut target = target;
            if free < processes {
                target[free] = state;
            }
            if program.targets.len() < 16 {
                program.targets.push(target);
            }
        }
    }
    let waiting = |r: &mut Random, counts: &mut [[usize; 4]; 4]| {
        let (p, v) = (r.below(processes), r.below(variables));
        counts[p][v] += 1;
        let value = if r.below(2) == 0 { contents::ANY } else { r.below(values_of[v] as usize) as u8 };
        (counts[p][v] <= 8).then_some((p as u8, v as u8, value))
    };
    let run = |r: &mut Random, machine: Machine, transitions: usize| {
        let steps = (0..r.below(40)).map(|_| match r.below(if transitions == 0 { 2 } else { 5 }) {
            0 => Step::Serialise(r.below(processes) as u8, r.below(variables) as u8),
            1 => Step::Update(r.below(processes) as u8),
            _ => Step::Transition(r.below(transitions) as u8),
        });
        let steps = steps.collect();
        Evidence::Run(Run { machine, memory: values(r, false), steps })
    };
    let list = |r: &mut Random| {
        let entries = (0..r.below(6)).map(|_| {
            let mut items = Vec::new();
            let mut counts = [[0; 4]; 4];
            let messages = 1 + r.below(16);
            for _ in 0..messages {
                items.push(Item::Message(Message {
                    process: r.below(processes) as u8,
                    variable: r.below(variables) as u8,
                    values: values(r, true),
                }));
                for _ in 0..r.below(3) {
                    items.extend(waiting(r, &mut counts).map(|(process, variable, value)| Item::Waiting {
                        process,
                        variable,
                        value,
                    }));
                }
            }
            let mut pointers = [0; 4];
            (0..processes).for_each(|p| pointers[p] = 1 + r.below(messages) as u8);
            pointers[r.below(processes)] = 1;
            Entry { states: states(r), pointers, items }
        });
        Evidence::List(entries.collect())
    };
    let patterns = |r: &mut Random| {
        let patterns = (0..1 + r.below(6)).map(|_| {
            let mut clues = Vec::new();
            let (mut counts, mut reads, mut ends) = ([[0; 4]; 4], [0; 4], [[false; 4]; 4]);
            for _ in 0..r.below(20) {
                match r.below(3) {
                    0 => {
                        let waits = waiting(r, &mut counts).filter(|(p, v, _)| !ends[*p as usize][*v as usize]);
                        clues.extend(waits.map(|(process, variable, value)| Clue::Waiting { process, variable, value }));
                    }
                    1 => {
                        let (p, v) = (r.below(processes), r.below(variables));
                        reads[p] += 1;
                        let own = reads[p] > 1 && r.below(2) == 0;
                        if reads[p] <= 16 {
                            clues.push(Clue::Read { process: p as u8, variable: v as u8, value: r.below(values_of[v] as usize) as u8, own });
                        }
                    }
                    _ => {
                        let (p, v) = (r.below(processes), r.below(variables));
                        if !std::mem::replace(&mut ends[p][v], true) {
                            let has = clues.iter().any(|clue| matches!(clue, Clue::Waiting { process, variable, .. } if (*process as usize, *variable as usize) == (p, v)));
                            clues.push(Clue::Queue { process: p as u8, variable: v as u8, ends: has });
                        }
                    }
                }
            }
            Pattern { states: states(r), newest: values(r, true), clues }
        });
        Evidence::Patterns(patterns.collect())
    };
    let transitions = program.transitions.len();
    let mut marks = Vec::new();
    let mut evidence = Vec::new();
    match if program.registers { 0 } else { r.below(6) } {
        0 => {}
        1 => evidence.push(list(r)),
        2 => evidence.push(run(r, Machine::Pws, transitions)),
        3 => evidence.push(run(r, Machine::Pso, transitions)),
        4 => evidence.push(patterns(r)),
        _ if transitions > 0 => {
            marks = (0..1 + r.below(8)).map(|_| r.below(transitions) as u8).collect();
            evidence.push(list(r));
            (0..marks.len()).for_each(|_| evidence.push(run(r, Machine::Pws, transitions)));
        }
        _ => {}
    }
    Contents { program: Some(program), marks, evidence }
}

fn walk(r: &mut Random, processes: usize, variables: usize, length: usize, machine: Machine) -> Contents {
    let mut program = Program {
        processes,
        variables,
        values: [0; 4],
        states: [0; 4],
        initial: [0; 4],
        registers: false,
        transitions: Vec::new(),
        targets: Vec::new(),
    };
    program.values.iter_mut().take(variables).for_each(|count| *count = 2 + r.below(3) as u8);
    program.states.iter_mut().take(processes).for_each(|count| *count = 2 + r.below(4) as u8);
    for _ in 0..processes * 10 {
        let process = r.below(processes) as u8;
        let variable = r.below(variables) as u8;
        let count = program.values[variable as usize] as usize;
        let (value, new) = (r.below(count) as u8, r.below(count) as u8);
        let operation = match r.below(12) {
            0 => Operation::Nop,
            1..=4 => Operation::Read { variable, value },
            5..=8 => Operation::Write { variable, value },
            9 => Operation::Mfence,
            10 => Operation::Sfence,
            _ => Operation::Arw { variable, old: value, new },
        };
        let state = |r: &mut Random| r.below(program.states[process as usize] as usize) as u8;
        program.transitions.push(Transition { process, from: state(r), operation, to: state(r) });
    }
    let mut c = Configuration::start(&program, machine, [0; 4]);
    let mut run = Run { machine, memory: [0; 4], steps: Vec::new() };
    for _ in 0..length * 40 {
        if run.steps.len() == length {
            break;
        }
        let step = match r.below(4) {
            0 => Step::Serialise(r.below(processes) as u8, r.below(variables) as u8),
            1 => Step::Update(r.below(processes) as u8),
            _ => Step::Transition(r.below(program.transitions.len()) as u8),
        };
        if c.take(&program, step).is_ok() {
            run.steps.push(step);
        }
    }
    program.targets.push(c.states);
    Contents { program: Some(program), marks: Vec::new(), evidence: vec![Evidence::Run(run)] }
}

fn main() {
    let words: Vec<String> = std::env::args().skip(1).collect();
    let number = |at: usize| {
        words
            .get(at)
            .and_then(|word| word.parse::<usize>().ok())
            .unwrap_or_else(|| fail(String::from("round|pair|random|fuzz|walk ..")))
    };
    let read = |name: &String| std::fs::read(name).unwrap_or_else(|error| fail(format!("{name}: {error}")));
    match words.first().map(String::as_str) {
        Some("round") => {
            let mut taken = 0;
            for name in &words[1..] {
                let bytes = read(name);
                taken += round(name, &bytes) as usize;
            }
            println!("text: {} files, {taken} of them readable, come back as themselves", words.len() - 1);
        }
        Some("pair") => {
            let (first, second) = (read(&words[1]), read(&words[2]));
            let program = contents::read(&first, None)
                .ok()
                .and_then(|c| c.program)
                .unwrap_or_else(|| fail(format!("{}: no program", words[1])));
            match contents::read(&second, Some(&program)) {
                Ok(contents) => bytes_again(&words[2], &second, &contents, Some(&program)),
                Err(fault) => fail(format!("{}: {fault}", words[2])),
            }
        }
        Some("fuzz") => {
            let mut r = Random(number(1) as u64);
            let files: Vec<Vec<u8>> = words[3..].iter().map(read).filter(|file| file.len() < 1_500).collect();
            let mut taken = 0;
            for count in 0..number(2) {
                let other = r.below(files.len());
                let bytes = damaged(&mut r, &files[count % files.len()], &files[other]);
                taken += round(&format!("damaged file {count} of seed {}", words[1]), &bytes) as usize;
            }
            println!("text: {} damaged files, {taken} of them readable and come back", number(2));
        }
        Some("random") => {
            let mut r = Random(number(1) as u64);
            for count in 0..number(2) {
                let made = random(&mut r);
                let bytes = made.bytes();
                let name = format!("random file {count} of seed {}", words[1]);
                match contents::read(&bytes, None) {
                    Ok(contents) if contents == made => bytes_again(&name, &bytes, &contents, None),
                    Ok(_) => fail(format!("{name}: read as another")),
                    Err(fault) => fail(format!("{name}: {fault}")),
                }
                // Its evidence alone, for its program and for none.
                if let (Some(program), true) = (&made.program, made.marks.is_empty() && !made.evidence.is_empty()) {
                    let part = Contents { program: None, ..made.clone() };
                    let bytes = part.bytes();
                    for given in [Some(program), None] {
                        match contents::read(&bytes, given) {
                            Ok(contents) => bytes_again(&name, &bytes, &contents, given),
                            Err(fault) => fail(format!("{name}, its evidence: {fault}")),
                        }
                    }
                }
            }
            println!("text: {} random files of every kind, and their evidence alone, come back", number(2));
        }
        Some("walk") => {
            let machine = if words.get(5).is_some_and(|word| word == "pso") { Machine::Pso } else { Machine::Pws };
            let contents = walk(&mut Random(number(1) as u64), number(2), number(3), number(4), machine);
            std::io::stdout().write_all(&contents.bytes()).unwrap_or_else(|error| fail(error.to_string()));
        }
        _ => fail(String::from("round|pair|random|fuzz|walk ..")),
    }
}
