//! registers walks SEED COUNT: random walks of the machine of a program with registers and of the machine of the program that is written
//! for it, side by side, for PWS and PSO: at every configuration the same steps are permitted, each with the number that the request gives it,
//! the configurations are a pair, and they are in the same targets.
//! registers limits: files at the limits of the request, and one past them.
//! registers faults: the faults of each kind of record, with their places.
//! registers front FILE ROOM [OUT]: what the front part answers for an output slice of that many bytes; what it writes goes to OUT.
//! registers proved DRIVER SEED COUNT: the proved front part, called by that program (tests/drawing/driver.c), answers as the one here does and
//! leaves what it may not touch, on sound, damaged and large programs, with room enough, just enough, a byte too little and none.
//! Exit status 0 if all is as it should be.

#[path = "../reference/registers.rs"]
mod registers;
#[path = "../corpora/seeded.rs"]
mod seeded;

use reference::{Machine, Operation, Program, Running, Step};
use registers::{front, read, Origin, RegisterConfiguration, RegisterOperation, RegisterProgram, RegisterTransition};
use seeded::Random;
use std::collections::BTreeSet;

fn random_operation(random: &mut Random, variables: usize, registers: bool) -> RegisterOperation {
    let variable = random.below(variables);
    let mut value = || random.below(4) as u8;
    let (value, new) = (value(), value());
    match random.below(if registers { 12 } else { 6 }) {
        0 => RegisterOperation::Plain(Operation::Nop),
        1 => RegisterOperation::Plain(Operation::Read { variable, value }),
        2 => RegisterOperation::Plain(Operation::Write { variable, value }),
        3 => RegisterOperation::Plain(Operation::Mfence),
        4 => RegisterOperation::Plain(Operation::Sfence),
        5 => RegisterOperation::Plain(Operation::Arw { variable, old: value, new }),
        6 | 7 => RegisterOperation::Load { variable },
        8 | 9 => RegisterOperation::Store { variable },
        _ => RegisterOperation::Test { value },
    }
}

fn random_program(random: &mut Random) -> RegisterProgram {
    let processes = 1 + random.below(4);
    let variables = 1 + random.below(4);
    let states: Vec<u8> = (0..processes).map(|_| 1 + random.below(4) as u8).collect();
    let with: Vec<bool> = (0..processes).map(|_| !random.one_in(3)).collect();
    let transitions = (0..4 + random.below(20))
        .map(|_| {
            let process = random.below(processes);
            let mut state = || random.below(states[process] as usize) as u8;
            let (from, to) = (state(), state());
            RegisterTransition { process, from, operation: random_operation(random, variables, with[process]), to }
        })
        .collect();
    let targets = (0..1 + random.below(4))
        .map(|_| {
            let mut target = [0; 4];
            (0..processes).for_each(|p| target[p] = random.below(states[p] as usize) as u8);
            target
        })
        .collect();
    let initial = states.iter().map(|n| random.below(*n as usize) as u8).collect();
    RegisterProgram { processes, variables, states, initial, transitions, targets }
}

/// Records 01, 02, 05 and 04.
fn records(program: &RegisterProgram) -> Vec<u8> {
    let mut out = vec![1, program.processes as u8, program.variables as u8];
    out.extend((0..4).map(|v| if v < program.variables { 4 } else { 0 }));
    for p in 0..program.processes {
        out.extend([2, program.states[p], program.initial[p]]);
    }
    for t in &program.transitions {
        let [number, variable, value, new] = match t.operation {
            RegisterOperation::Plain(Operation::Nop) => [0, 0, 0, 0],
            RegisterOperation::Plain(Operation::Read { variable, value }) => [1, variable as u8, value, 0],
            RegisterOperation::Plain(Operation::Write { variable, value }) => [2, variable as u8, value, 0],
            RegisterOperation::Plain(Operation::Mfence) => [3, 0, 0, 0],
            RegisterOperation::Plain(Operation::Sfence) => [4, 0, 0, 0],
            RegisterOperation::Plain(Operation::Arw { variable, old, new }) => [5, variable as u8, old, new],
            RegisterOperation::Load { variable } => [6, variable as u8, 0, 0],
            RegisterOperation::Store { variable } => [7, variable as u8, 0, 0],
            RegisterOperation::Test { value } => [8, 0, value, 0],
        };
        out.extend([5, t.process as u8, t.from, number, variable, value, new, t.to]);
    }
    for target in &program.targets {
        out.push(4);
        out.extend(target);
    }
    out
}

// ---- walks

/// The step of the written program for one of the program with registers: the number of the transition with this origin.
fn written_step(program: &RegisterProgram, origins: &[Origin], at: &RegisterConfiguration, step: Step) -> Option<Step> {
    let Step::Transition(number) = step else { return Some(step) };
    let t = program.transitions[number];
    let register = if program.has_register(t.process) { Some(at.registers[t.process]) } else { None };
    let seen = if let RegisterOperation::Load { variable } = t.operation { Some(at.sees(program, t.process, variable)) } else { None };
    origins.iter().position(|o| *o == Origin { transition: number, register, seen }).map(Step::Transition)
}

fn all_steps(program: &RegisterProgram) -> Vec<Step> {
    let mut steps: Vec<Step> = (0..program.transitions.len()).map(Step::Transition).collect();
    for p in 0..program.processes {
        steps.extend((0..program.variables).map(|v| Step::Serialise(p, v)));
        steps.push(Step::Update(p));
    }
    steps
}

fn name(step: &Step) -> String {
    step.to_string()
}

/// The number of steps walked, or what went wrong.
fn walk(random: &mut Random, program: &RegisterProgram, written: &Program, origins: &[Origin], machine: Machine) -> Result<usize, String> {
    let mut memory = [0; 4];
    memory[..program.variables].iter_mut().for_each(|value| *value = random.below(4) as u8);
    let mut c = RegisterConfiguration::start(machine, program, memory);
    let mut d = Running::start(machine, written, memory);
    for taken in 0..60 {
        if !c.is_paired(program, &d) {
            return Err(format!("no pair after {} steps: {:?} {:?}", taken, c, d));
        }
        for (k, target) in program.targets.iter().enumerate() {
            let here = (0..program.processes).all(|p| c.states[p] == target[p]);
            let each = written.targets.len() / program.targets.len();
            let there = written.targets[k * each..(k + 1) * each].iter().any(|target| *target == d.states());
            if here != there {
                return Err(format!("target {}: {} and {}", k, here, there));
            }
        }
        let mut mapped = Vec::new();
        for step in all_steps(program) {
            let mut next = c.clone();
            if next.take(program, step) {
                let to = written_step(program, origins, &c, step).ok_or(format!("nothing is written for {}", name(&step)))?;
                mapped.push((step, to));
            }
        }
        let here: BTreeSet<String> = mapped.iter().map(|(_, to)| name(to)).collect();
        let there: BTreeSet<String> = written.all_steps().iter().filter(|step| d.refusal(written, **step).is_none()).map(name).collect();
        if here != there || here.len() != mapped.len() {
            return Err(format!("permitted steps: {:?} and {:?}", here, there));
        }
        if mapped.is_empty() {
            return Ok(taken);
        }
        let (step, to) = *random.pick(&mapped);
        if !c.take(program, step) || !d.take(written, to) {
            return Err(format!("{} and {}", name(&step), name(&to)));
        }
    }
    Ok(60)
}

fn walks(seed: u64, count: usize) -> Result<(), String> {
    let mut random = Random(seed);
    let (mut steps, mut with) = (0, 0);
    for number in 0..count {
        let program = random_program(&mut random);
        let (written, origins) = program.without_registers();
        with += program.has_register(0) as usize;
        if read(&records(&program)).as_ref() != Ok(&program) {
            return Err(format!("program {} is not read again", number));
        }
        for machine in [Machine::Pws, Machine::Pso] {
            steps += walk(&mut random, &program, &written, &origins, machine).map_err(|e| format!("program {}: {}\n{:?}", number, e, program))?;
        }
        damaged(&mut random, &records(&program));
    }
    println!("walks: {} programs, {} steps; process 0 has a register in {}", count, steps, with);
    Ok(())
}

/// A refusal's place is in the file, whatever was changed in it.
fn damaged(random: &mut Random, file: &[u8]) {
    let mut spoilt = file.to_vec();
    let at = random.below(spoilt.len());
    spoilt[at] = random.below(256) as u8;
    spoilt.truncate(random.below(spoilt.len() + 1).max(at));
    if let Err((number, place)) = front(&spoilt, 0) {
        assert!(number == 29 || number == 19 || number == 28 || place <= spoilt.len());
    }
}

// ---- limits

fn single(states: u8, operations: &[RegisterOperation], targets: usize) -> RegisterProgram {
    let transitions = operations.iter().map(|operation| RegisterTransition { process: 0, from: 0, operation: *operation, to: 0 }).collect();
    RegisterProgram { processes: 1, variables: 1, states: vec![states], initial: vec![0], transitions, targets: vec![[0; 4]; targets] }
}

fn limits() -> Result<(), String> {
    let nop = RegisterOperation::Plain(Operation::Nop);
    let load = RegisterOperation::Load { variable: 0 };
    let test = RegisterOperation::Test { value: 1 };
    let many = |n: usize, operation: RegisterOperation| vec![operation; n];
    let two = |a: RegisterProgram, states: u8| RegisterProgram { processes: 2, states: vec![a.states[0], states], initial: vec![0, 0], ..a };
    let bytes = |processes: usize, transitions: usize, targets: usize| Ok(7 + 3 * processes + 8 * transitions + 5 * targets);
    // 64 nops of a process with a register are 256 transitions, and with the register's own one more
    let rows: Vec<(&str, RegisterProgram, Result<usize, (u64, usize)>)> = vec![
        ("8 states with a register", single(8, &[load], 1), bytes(1, 16, 4)),
        ("9 states with a register", single(9, &[load], 1), Err((19, 0))),
        ("32 states without", single(32, &[nop], 1), bytes(1, 1, 1)),
        ("33 states without", single(33, &[nop], 1), Err((3, 7))),
        ("process 1 without, of 32 states", two(single(8, &[test], 1), 32), bytes(2, 1, 4)),
        ("16 loads", single(1, &many(16, load), 1), bytes(1, 256, 4)),
        ("17 loads", single(1, &many(17, load), 1), Err((28, 16))),
        ("a test and 64 nops", single(1, &[&[test][..], &many(64, nop)].concat(), 1), Err((28, 64))),
        ("63 nops, a test and a nop", single(1, &[&many(63, nop)[..], &[test], &[nop]].concat(), 1), Err((28, 64))),
        ("63 nops and 4 tests", single(1, &[&many(63, nop)[..], &many(4, test)].concat(), 1), bytes(1, 256, 4)),
        ("63 nops and 5 tests", single(1, &[&many(63, nop)[..], &many(5, test)].concat(), 1), Err((28, 67))),
        ("256 tests", single(1, &many(256, test), 1), bytes(1, 256, 4)),
        ("257 tests", single(1, &many(257, test), 1), Err((5, 10 + 256 * 8))),
        ("256 nops without", single(1, &many(256, nop), 1), bytes(1, 256, 1)),
        ("16 targets", single(1, &[test], 16), bytes(1, 1, 64)),
        ("17 targets", single(1, &[test], 17), Err((5, 10 + 8 + 16 * 5))),
        ("9 states and 17 loads", single(9, &many(17, load), 1), Err((19, 0))),
        ("no transition", single(1, &[], 1), bytes(1, 0, 1)),
        ("no target", single(1, &[test], 0), Err((6, 18))),
    ];
    for (what, program, wanted) in &rows {
        let file = records(program);
        let lengths = |room: usize| front(&file, room).map(|bytes| bytes.len());
        if lengths(usize::MAX) != *wanted {
            return Err(format!("{}: {:?}, not {:?}", what, lengths(usize::MAX), wanted));
        }
        let short = match wanted {
            Ok(length) => Err((29, *length)),
            Err(refusal) => Err(*refusal),
        };
        for room in [0, wanted.map_or(0, |length| length - 1)] {
            if lengths(room) != short {
                return Err(format!("{}, room for {}: {:?}", what, room, lengths(room)));
            }
        }
        if let Ok(length) = wanted {
            if lengths(*length) != *wanted {
                return Err(format!("{}, just room enough: {:?}", what, lengths(*length)));
            }
        }
    }
    // Four processes with registers: each of 16 targets becomes 256, which the judge allows.
    let mut most = single(1, &[test], 16);
    most.processes = 4;
    most.states = vec![1; 4];
    most.initial = vec![0; 4];
    most.transitions = (0..4).map(|process| RegisterTransition { process, from: 0, operation: test, to: 0 }).collect();
    if most.without_registers().0.targets.len() != 4_096 {
        return Err("16 targets of four processes with registers".to_string());
    }
    println!("limits: {} files", rows.len() + 1);
    Ok(())
}

// ---- faults

fn faults() -> Result<(), String> {
    let parts: [&[u8]; 4] = [&[1, 1, 1, 4, 0, 0, 0], &[2, 2, 0], &[5, 0, 0, 6, 0, 0, 0, 1], &[4, 1, 0, 0, 0]];
    let whole = parts.concat();
    let mut tried = 0;
    let mut refused = |what: String, file: &[u8], wanted: Result<usize, (u64, usize)>| {
        tried += 1;
        let answer = front(file, usize::MAX).map(|bytes| bytes.len());
        if answer == wanted {
            Ok(())
        } else {
            Err(format!("{}: {:?}, not {:?}", what, answer, wanted))
        }
    };
    refused("the file".to_string(), &whole, Ok(7 + 3 + 8 * 16 + 5 * 4))?;
    // a byte of the file, what it becomes, and the answer
    let bytes: &[(usize, &[u8], u64, usize)] = &[
        (0, &[0, 2, 3, 4, 5, 6, 15, 16, 31, 32, 48, 255], 2, 0),
        (1, &[0, 5, 255], 3, 0),
        (2, &[0, 5, 255], 3, 0),
        (3, &[0, 1, 2, 3, 5, 255], 3, 0),
        (4, &[1, 4], 4, 0),
        (6, &[1, 4], 4, 0),
        (7, &[0, 1, 3, 4, 5, 15], 2, 7),
        (8, &[0, 33, 255], 3, 7),
        (9, &[2, 255], 4, 7),
        (10, &[0, 1, 2, 3, 6, 15, 48], 2, 10),
        (11, &[1, 255], 4, 10),
        (12, &[2, 255], 4, 10),
        (13, &[9, 255], 4, 10),
        (14, &[1, 255], 4, 10),
        (15, &[1, 255], 4, 10),
        (16, &[1, 255], 4, 10),
        (17, &[2, 255], 4, 10),
        (18, &[0, 1, 2, 3, 15, 48], 2, 18),
        (19, &[2, 255], 4, 18),
        (20, &[1], 4, 18),
        (22, &[1], 4, 18),
    ];
    for (at, becomes, number, place) in bytes {
        for byte in *becomes {
            let mut file = whole.clone();
            file[*at] = *byte;
            refused(format!("byte {} is {}", at, byte), &file, Err((*number, *place)))?;
        }
    }
    // 3 comes before 4
    refused("3 and 4".to_string(), &[&[1, 1, 1, 3, 1, 0, 0][..], &whole[7..]].concat(), Err((3, 0)))?;
    // number, variable, value, new of an operation that is refused
    let operations: &[[u8; 4]] = &[
        [0, 1, 0, 0], [0, 0, 1, 0], [0, 0, 0, 1], [1, 1, 0, 0], [1, 0, 4, 0], [1, 0, 0, 1], [2, 1, 0, 0], [2, 0, 4, 0], [2, 0, 0, 1], [3, 1, 0, 0],
        [3, 0, 1, 0], [3, 0, 0, 1], [4, 1, 0, 0], [4, 0, 1, 0], [4, 0, 0, 1], [5, 1, 0, 0], [5, 0, 4, 0], [5, 0, 0, 4], [6, 1, 0, 0], [6, 0, 1, 0],
        [6, 0, 0, 1], [7, 1, 0, 0], [7, 0, 1, 0], [7, 0, 0, 1], [8, 1, 0, 0], [8, 0, 4, 0], [8, 0, 0, 1], [9, 0, 0, 0],
    ];
    for operation in operations {
        let mut file = whole.clone();
        file[13..17].copy_from_slice(operation);
        refused(format!("operation {:?}", operation), &file, Err((4, 10)))?;
    }
    // cut: 1 within a record, 6 between records before the last
    let starts = [0, 7, 10, 18];
    for cut in 0..whole.len() {
        let begun = starts.iter().filter(|at| **at < cut).max();
        let wanted = match begun {
            Some(at) if !starts.contains(&cut) => (1, *at),
            _ => (6, cut),
        };
        refused(format!("cut at {}", cut), &whole[..cut], Err(wanted))?;
    }
    // records out of their order, and one too many
    for (order, place) in [(vec![0, 0], 7), (vec![1], 0), (vec![0, 2], 7), (vec![0, 1, 1], 10), (vec![0, 1, 2, 3, 2], 23), (vec![0, 3], 7), (vec![0, 1, 2, 3, 1], 23)] {
        let file: Vec<u8> = order.iter().flat_map(|part| parts[*part].to_vec()).collect();
        refused(format!("{:?}", order), &file, Err((2, place)))?;
    }
    println!("faults: {} files", tried);
    Ok(())
}

// ---- the proved front part

/// Calls for the driver, and what it is to answer: number and value, and the output as it is left.
fn call(file: &[u8], room: usize, calls: &mut Vec<u8>, answers: &mut Vec<u8>) {
    calls.push(2);
    calls.extend((file.len() as u32).to_le_bytes());
    calls.extend((room as u32).to_le_bytes());
    calls.extend(file);
    let (number, value, mut out) = match front(file, room) {
        Ok(written) => (0, written.len() as u64, written),
        Err((number, place)) => (number, place as u64, Vec::new()),
    };
    out.resize(room, 0xA5);
    answers.extend(number.to_le_bytes());
    answers.extend(value.to_le_bytes());
    answers.extend(out);
}

fn proved(driver: &str, seed: u64, count: usize) -> Result<(), String> {
    use std::io::{Read, Write};
    let mut random = Random(seed);
    let (mut calls, mut answers) = (Vec::new(), Vec::new());
    for n in 0..count {
        let mut program = random_program(&mut random);
        if random.one_in(8) {
            // about as many states, transitions and targets as are allowed, or more
            let process = random.below(program.processes);
            program.states[process] = [7, 8, 9, 31, 32, 33][random.below(6)];
            let some = program.transitions.clone();
            program.transitions = some.iter().cycle().take([16, 17, 63, 64, 65, 250, 256, 257][random.below(8)]).cloned().collect();
            let target = program.targets[0];
            program.targets.resize([1, 15, 16, 17][random.below(4)], target);
        }
        let mut file = records(&program);
        if n % 3 == 0 {
            let at = random.below(file.len());
            match random.below(3) {
                0 => file[at] = random.below(256) as u8,
                1 => file.truncate(at),
                _ => file.insert(at, random.below(6) as u8),
            }
        }
        let needed = front(&file, usize::MAX).map_or(40, |bytes| bytes.len());
        for room in [0, needed - 1, needed, needed + 7] {
            call(&file, room, &mut calls, &mut answers);
        }
    }
    let mut child = std::process::Command::new(driver)
        .stdin(std::process::Stdio::piped())
        .stdout(std::process::Stdio::piped())
        .spawn()
        .map_err(|e| format!("{}: {}", driver, e))?;
    let mut input = child.stdin.take().ok_or("no input")?;
    let writer = std::thread::spawn(move || input.write_all(&calls));
    let mut said = Vec::new();
    child.stdout.take().ok_or("no output")?.read_to_end(&mut said).map_err(|e| e.to_string())?;
    let written = writer.join().map_err(|_| "the writer failed")?;
    let status = child.wait().map_err(|e| e.to_string())?;
    written.map_err(|e| e.to_string())?;
    if !status.success() {
        return Err(format!("the driver ended with {}", status));
    }
    if said != answers {
        let at = said.iter().zip(&answers).take_while(|(a, b)| a == b).count();
        return Err(format!("the proved front part answers otherwise, at byte {} of {} and {}", at, said.len(), answers.len()));
    }
    println!("registers: {} calls of the proved front part", 4 * count);
    Ok(())
}

// ---- one file

fn one(file: &str, room: usize, out: Option<&String>) -> Result<(), String> {
    let bytes = std::fs::read(file).map_err(|e| format!("{}: {}", file, e))?;
    match front(&bytes, room) {
        Ok(written) => {
            println!("written {}", written.len());
            out.map_or(Ok(()), |out| std::fs::write(out, written)).map_err(|e| e.to_string())
        }
        Err((number, place)) => {
            println!("refused {} {}", number, place);
            Ok(())
        }
    }
}

fn main() {
    let words: Vec<String> = std::env::args().skip(1).collect();
    let number = |at: usize| words.get(at).and_then(|word| word.parse().ok());
    let result = match (words.first().map(String::as_str), words.len()) {
        (Some("walks"), 3) => walks(number(1).unwrap_or(1), number(2).unwrap_or(1) as usize),
        (Some("limits"), 1) => limits(),
        (Some("faults"), 1) => faults(),
        (Some("proved"), 4) => proved(&words[1], number(2).unwrap_or(1), number(3).unwrap_or(0) as usize),
        (Some("front"), 3 | 4) => one(&words[1], number(2).unwrap_or(0) as usize, words.get(3)),
        _ => Err("registers walks SEED COUNT | limits | faults | proved DRIVER SEED COUNT | front FILE ROOM [OUT]".to_string()),
    };
    if let Err(what) = result {
        println!("registers: {}", what);
        std::process::exit(1);
    }
}
