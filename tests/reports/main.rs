//! reports judge FILE [AREA]: the line of a report and its offending record, as file, offset and length.
//! reports cases: reports worked out by hand, with every refusal at the places where it can be.
//! reports parts: small reports with every byte changed to every value, cut everywhere, and with records left out, doubled and swapped, beside the
//!     judgement of each part as a combined file.
//! reports choices SEED COUNT: small programs with fences, of which all configurations of both machines are searched, from memory 0 or every one.
//!     A run is still one, step for step, when more fences are nops; where no target is reached and one is with each marked fence a nop, one is
//!     with every choice of fences that makes a marked one a nop, on both machines.
//! reports vary FILE: an accepted report, and with its runs swapped and shortened and an entry left out; no run is one of the unchanged program.
//! Exit status 0 if all is as it should be.

#[path = "../reference/reports.rs"]
mod reports;
#[path = "../corpora/search.rs"]
mod search;
#[path = "../corpora/seeded.rs"]
mod seeded;
mod small;

use reference::{Machine, Operation, Program, Run, Transition, Verdict};
use reports::{judge, read, with_nops, Judged, Report};
use seeded::Random;
use small::{offsets, AREA};

/// What the report answers, and its record where that is not the empty end.
fn line(file: &[u8], area: usize) -> String {
    let (judged, record) = judge(file, area);
    if record.length == 0 && record.at == file.len() {
        judged.to_string()
    } else {
        format!("{}, record {} {}", judged, record.at, record.length)
    }
}

fn cases() -> Result<(), String> {
    let mut count = 0;
    small::cases(|what, file, area, wanted| {
        count += 1;
        let said = line(file, area);
        if said == wanted { Ok(()) } else { Err(format!("{}: {} and not {}", what, said, wanted)) }
    })?;
    println!("reports: {} cases", count);
    Ok(())
}

// ---- parts

/// The answer of a report, from that of its parts as combined files.
fn by_parts(file: &[u8]) -> Result<(), String> {
    let said = judge(file, AREA).0;
    let offsets = offsets(file);
    let claims: Vec<usize> = offsets.iter().copied().filter(|at| file.get(*at) == Some(&0x0f)).collect();
    let first = claims.first().copied().unwrap_or(file.len());
    let marks: Vec<usize> = offsets.iter().copied().filter(|at| *at < first && file.get(*at) == Some(&0x30)).collect();
    let start = marks.first().copied().unwrap_or(first);
    let fail = |what: String| Err(format!("{}, but {}: {:02x?}", said, what, file));
    // The part from one claim to the next, behind the program, whose own answer has this offset in the report.
    let part = |k: usize| [&file[..start], &file[claims[k]..claims.get(k + 1).copied().unwrap_or(file.len())]].concat();
    let back = |k: usize, place: u64| place - start as u64 + claims[k] as u64;
    match said {
        Judged::Refused(number, place) if number < 8 => {
            let at = place as usize;
            let k = claims.iter().filter(|claim| **claim <= at).count();
            // Faults of marks, claims and of the file's end are the report's own.
            if number == 6 || matches!(file.get(at), Some(0x30 | 0x0f)) || k == 0 && !marks.is_empty() {
                return Ok(());
            }
            let (own, wanted) = if k == 0 { (file.to_vec(), place) } else { (part(k - 1), place) };
            match reference::judge(&own, AREA).verdict {
                Verdict::Refused(n, p) if n == number && (if k == 0 { p } else { back(k - 1, p) }) == wanted => Ok(()),
                other => fail(format!("its part {}", other)),
            }
        }
        _ => {
            let list = reference::judge(&part(0), AREA).verdict;
            let numbers: Vec<usize> = marks.iter().map(|at| file[at + 1] as usize).collect();
            let operation = |number: usize| file[10 + 8 * number + 3];
            let wrong = (0..numbers.len()).find(|i| numbers[..*i].contains(&numbers[*i]) || !matches!(operation(numbers[*i]), 3 | 4));
            let run = |i: usize| {
                let mut own = part(i + 1);
                own[10 + 8 * numbers[i] + 3] = 0;
                reference::judge(&own, AREA).verdict
            };
            let failing = (0..numbers.len()).find(|i| !matches!(run(*i), Verdict::Reachable(..)));
            let wanted = match (wrong, list, failing) {
                (Some(i), _, _) => Judged::Refused(22, i as u64),
                (_, Verdict::Safe(n), None) => Judged::Needed(numbers.len() as u64, n),
                (_, Verdict::Safe(_), Some(i)) => Judged::Refused(23, i as u64),
                _ => Judged::Refused(23, 8),
            };
            if wanted == said { Ok(()) } else { fail(format!("its parts give {}", wanted)) }
        }
    }
}

fn parts() -> Result<(), String> {
    let mut count = 0;
    small::damaged(|file| {
        count += 1;
        by_parts(file)
    })?;
    println!("reports: {} files by their parts", count);
    Ok(())
}

// ---- choices

fn any_operation(r: &mut Random) -> Operation {
    let (variable, value) = (r.below(2), r.below(2) as u8);
    match r.below(8) {
        0 => Operation::Mfence,
        1 => Operation::Sfence,
        2 => Operation::Arw { variable, old: value, new: 1 - value },
        3 | 4 => Operation::Write { variable, value },
        _ => Operation::Read { variable, value },
    }
}

/// Two processes without loops: store buffering or message passing with fences, often with an operation that is changed or added.
fn fenced(r: &mut Random) -> Program {
    let mut fence = || if r.one_in(2) { Operation::Mfence } else { Operation::Sfence };
    let (one, two) = (fence(), fence());
    let write = |variable| Operation::Write { variable, value: 1 };
    let read = |variable, value| Operation::Read { variable, value };
    let mut operations = match r.below(3) {
        0 => [vec![write(0), Operation::Mfence, read(1, 0)], vec![write(1), Operation::Mfence, read(0, 0)]],
        1 => [vec![write(0), one, read(1, 0)], vec![write(1), two, read(0, 0)]],
        _ => [vec![write(0), one, write(1)], vec![read(1, 1), read(0, 0)]],
    };
    for process in &mut operations {
        if r.one_in(3) {
            let at = r.below(process.len());
            process[at] = any_operation(r);
        }
        if r.one_in(3) {
            process.insert(r.below(process.len() + 1), any_operation(r));
        }
    }
    let mut transitions = Vec::new();
    for (process, operations) in operations.iter().enumerate() {
        let step = |(from, operation): (usize, &Operation)| Transition { process, from: from as u8, operation: *operation, to: from as u8 + 1 };
        transitions.extend(operations.iter().enumerate().map(step));
    }
    let states: Vec<u8> = operations.iter().map(|operations| operations.len() as u8 + 1).collect();
    let target = [states[0] - 1, states[1] - 1, 0, 0];
    Program { processes: 2, variables: 2, values: [2, 2, 0, 0], states, initial: vec![0; 2], transitions, targets: vec![target] }
}

fn choices(seed: u64, count: usize) -> Result<(), String> {
    let mut r = Random(seed);
    let (mut searched, mut needed, mut least) = (0, 0, 0);
    for _ in 0..count {
        let program = fenced(&mut r);
        // Most idioms are safe from memory 0 alone.
        let memories = if r.one_in(3) { program.memories() } else { vec![[0; 4]] };
        let is_fence = |t: &Transition| matches!(t.operation, Operation::Mfence | Operation::Sfence);
        let fences: Vec<usize> = (0..program.transitions.len()).filter(|n| is_fence(&program.transitions[*n])).collect();
        let chosen = |choice: usize| -> Vec<usize> { (0..fences.len()).filter(|i| choice >> i & 1 == 1).map(|i| fences[i]).collect() };
        let reach = |choice: usize| -> Result<Option<Run>, String> {
            let program = with_nops(&program, &chosen(choice));
            let pws = search::shortest_run(&program, Machine::Pws, &memories, 8).ok();
            let pso = search::shortest_run(&program, Machine::Pso, &memories, 8).ok();
            if pws.is_some() == pso.is_some() { Ok(pws) } else { Err(format!("the machines differ: {:?}", program)) }
        };
        let runs = (0..1 << fences.len()).map(reach).collect::<Result<Vec<_>, _>>()?;
        searched += runs.len();
        for (choice, run) in runs.iter().enumerate() {
            let Some(run) = run else { continue };
            // The very steps are a run when more fences are nops.
            for more in (0..runs.len()).filter(|more| more & choice == choice) {
                let said = reference::replay(&with_nops(&program, &chosen(more)), run);
                if !matches!(said, Verdict::Reachable(..)) {
                    return Err(format!("{} with {:?} nops, a run with {:?}: {:?} {:?}", said, chosen(more), chosen(choice), program, run));
                }
            }
        }
        // Marked are the fences that are needed by themselves.
        let marked = (0..fences.len()).filter(|i| runs[1 << i].is_some()).fold(0, |marked, i| marked | 1 << i);
        if runs[0].is_none() && marked != 0 {
            needed += 1;
            least += (marked + 1 == runs.len()) as usize;
            if let Some(choice) = (1..runs.len()).find(|choice| choice & marked != 0 && runs[*choice].is_none()) {
                return Err(format!("no run with {:?} nops: {:?}", chosen(choice), program));
            }
            let own: Vec<Run> = (0..fences.len()).filter(|i| marked >> i & 1 == 1).filter_map(|i| runs[1 << i].clone()).collect();
            let report = Report { program: program.clone(), marks: chosen(marked), runs: own, ..Report::default() };
            if let Some(i) = report.wrong_mark().or(report.failing_run()) {
                return Err(format!("mark {} of {:?}: {:?}", i, report.marks, program));
            }
        }
    }
    if needed == 0 || least == 0 {
        return Err("no program needs its fences".to_string());
    }
    println!("reports: {} choices of {} programs; {} need a fence, {} all of theirs", searched, count, needed, least);
    Ok(())
}

// ---- long reports

fn vary(file: &str) -> Result<(), String> {
    let bytes = std::fs::read(file).map_err(|error| error.to_string())?;
    let mut report = read(&bytes, 524_288).map_err(|(number, place)| format!("refused {} {}", number, place))?;
    let said = report.judge();
    if !matches!(said, Judged::Needed(..)) {
        return Err(said.to_string());
    }
    let mut count = 0;
    // The report with this run in place i fails there.
    let mut fails = |report: &mut Report, what: &str, i: usize, run: Run| {
        count += 1;
        let kept = std::mem::replace(&mut report.runs[i], run);
        let failing = report.failing_run();
        report.runs[i] = kept;
        if failing == Some(i) { Ok(()) } else { Err(format!("{}: {:?} and not {}", what, failing, i)) }
    };
    let runs = report.runs.clone();
    for (i, run) in runs.iter().enumerate() {
        for other in (0..runs.len()).filter(|j| *j != i) {
            fails(&mut report, "another mark's run", i, runs[other].clone())?;
        }
        for length in 0..run.steps.len() {
            fails(&mut report, "a shorter run", i, Run { steps: run.steps[..length].to_vec(), ..run.clone() })?;
        }
        if matches!(reference::replay(&report.program, run), Verdict::Reachable(..)) {
            return Err(format!("the run of mark {} is one of the unchanged program", i));
        }
    }
    // One entry left out: the first, one in the middle, the last.
    let starts: Vec<usize> = offsets(&bytes).into_iter().filter(|at| matches!(bytes.get(*at), Some(0x10 | 0x0f))).skip(1).collect();
    let entries = starts.len() - runs.len();
    for k in [0, entries / 2, entries - 1] {
        let end = starts.get(k + 1).copied().unwrap_or(bytes.len());
        let said = judge(&[&bytes[..starts[k]], &bytes[end..]].concat(), reference::AREA_MOST).0;
        if said != Judged::Refused(23, 8) {
            return Err(format!("without entry {}: {}", k, said));
        }
    }
    println!("reports: {}: {}; {} other runs fail, and so does the list without an entry", file, said, count);
    Ok(())
}

fn main() {
    let words: Vec<String> = std::env::args().skip(1).collect();
    let number = |k: usize| words.get(k).and_then(|n| n.parse::<usize>().ok());
    let done = match words.first().map(String::as_str) {
        Some("judge") => std::fs::read(&words[1]).map_err(|error| error.to_string()).map(|file| {
            let (judged, record) = judge(&file, number(2).unwrap_or(reference::AREA_MOST));
            println!("{}, record {}", judged, record);
        }),
        Some("cases") => cases(),
        Some("parts") => parts(),
        Some("choices") => choices(number(1).unwrap_or(1) as u64, number(2).unwrap_or(100)),
        Some("vary") => vary(&words[1]),
        _ => Err("judge FILE [AREA], cases, parts, choices SEED COUNT or vary FILE".to_string()),
    };
    if let Err(what) = done {
        eprintln!("reports: {}", what);
        std::process::exit(1);
    }
}
