//! agree SEED COUNT FILE..: of damaged files, and of each cut at its claim, the reading for words gives the numbers 1
//! to 7 and the places of the separate judge, and the two machines stop a run where it does. (Of targets the separate
//! judge may allow fewer: such files are passed over.)

use hrafnolt_tools::contents::{self, Evidence, Fault, Program};
use hrafnolt_tools::text::Names;
use hrafnolt_tools::trace;
use reference::{Lent, Verdict};
use std::process::exit;

fn fail(words: String) -> ! {
    println!("text: {words}");
    exit(1)
}

fn next(state: &mut u64) -> usize {
    *state = state.wrapping_mul(6_364_136_223_846_793_005).wrapping_add(1_442_695_040_888_963_407);
    (*state >> 33) as usize
}

/// What the trace ends with, as the judge's line.
fn line(read: Result<(Program, Evidence), Fault>) -> Option<String> {
    match read {
        Err(fault) => Some(format!("refused {} {}", fault.number, fault.place)),
        Ok((program, Evidence::Run(run))) => {
            let told = trace::steps(&program, &Names::made_up(Some(&program)), &run);
            let last = told.lines.last().cloned().unwrap_or_default();
            let target = last.rsplit(' ').next().unwrap_or("");
            let kind = if run.machine == contents::Machine::Pws { "reachable" } else { "pso" };
            Some(if told.accepted {
                format!("{kind} {} {target}", run.steps.len())
            } else {
                last.split(':').next().unwrap_or("").to_string()
            })
        }
        Ok(_) => None,
    }
}

fn compare(name: &str, lent: Lent, file: &[u8], mine: Option<String>) -> bool {
    let theirs = match reference::read(lent, 524_288) {
        Err(refusal) => Verdict::Refused(refusal.number, refusal.place as u64).to_string(),
        Ok((program, reference::Evidence::Run(run))) => reference::replay(&program, &run).to_string(),
        Ok(_) => return mine.is_none() || fail(format!("{name}: a list, read as {mine:?}")),
    };
    let of_targets = theirs
        .strip_prefix("refused 5 ")
        .and_then(|place| place.parse::<usize>().ok())
        .is_some_and(|place| file.get(place) == Some(&4));
    match mine {
        Some(mine) if mine == theirs => true,
        _ if of_targets => false,
        mine => fail(format!("{name}: {mine:?}, but the separate judge says {theirs}")),
    }
}

fn main() {
    let words: Vec<String> = std::env::args().skip(1).collect();
    let mut state: u64 = words[0].parse().unwrap_or(1);
    let count: usize = words[1].parse().unwrap_or(1);
    let read = |name: &String| std::fs::read(name).unwrap_or_else(|error| fail(format!("{name}: {error}")));
    let files: Vec<Vec<u8>> = words[2..].iter().map(read).filter(|file| file.len() < 4_000).collect();
    let mut runs = 0;
    for number in 0..count {
        let mut file = files[number % files.len()].clone();
        for _ in 0..next(&mut state) % 4 {
            let at = next(&mut state) % (file.len() + 1);
            match next(&mut state) % 6 {
                0 => file.truncate(at),
                1 => drop(file.drain(at..(at + 1 + next(&mut state) % 8).min(file.len()))),
                2 => file
                    .splice(
                        at..at,
                        [[1, 2, 3, 4, 0x0f, 0x10, 0x11, 0x12, 0x1f, 0x20, 0x21, 0x22, 5, 0x13, 0x30, 7]
                            [next(&mut state) % 16]],
                    )
                    .for_each(drop),
                3 => {
                    let part = file[at..(at + 20).min(file.len())].to_vec();
                    file.extend(part);
                }
                _ if at < file.len() => file[at] = (next(&mut state) % 8) as u8,
                _ => {}
            }
        }
        let name = format!("damaged file {number} of seed {}", words[0]);
        runs += compare(&name, Lent::Combined(&file), &file, line(contents::read_combined(&file))) as usize;
        let cut = file.iter().position(|b| *b == 0x0f).unwrap_or(file.len() / 2);
        let (program, evidence) = file.split_at(cut);
        let mine = line(contents::read_pair(program, evidence).map_err(|(_, fault)| fault));
        compare(&name, Lent::Pair(program, evidence), program, mine);
    }
    println!("text: {count} damaged files and pairs of them are read as the separate judge reads them, {runs} of the files with one line");
}
