//! What reads a file again, for -w and -e, on bytes that are not what the judge saw: none of it may fail. `tests/tools` compiles and runs it.
//! tools SEED COUNT FILE..
//! Of the files, NAME.reg is a program with registers, NAME.evid evidence for one, and NAME.report a fence report.

use hrafnolt_tools::contents::{read_registers, read_report};
use hrafnolt_tools::explain::{why, why_from, why_report};
use hrafnolt_tools::library::{self, judge, Area, Lent, Verdict, REFUSED};
use hrafnolt_tools::outside::outside;
use hrafnolt_tools::registers::{self, Origins};
use hrafnolt_tools::reports::Report;
use hrafnolt_tools::text::registers::without;
use hrafnolt_tools::words;
use std::time::{Duration, Instant};

struct Random(u64);

impl Random {
    fn below(&mut self, n: usize) -> usize {
        self.0 ^= self.0 << 13;
        self.0 ^= self.0 >> 7;
        self.0 ^= self.0 << 17;
        (self.0 % n.max(1) as u64) as usize
    }
}

fn damage(random: &mut Random, file: &[u8]) -> Vec<u8> {
    let mut file = file.to_vec();
    for _ in 0..1 + random.below(4) {
        let at = random.below(file.len() + 1);
        let byte = [0, 1, 3, 4, 15, 16, 17, 18, 31, 32, 33, 34, 255, random.below(256) as u8][random.below(14)];
        match random.below(5) {
            0 => file.truncate(at),
            1 => file.insert(at, byte),
            2 if at < file.len() => drop(file.remove(at)),
            3 => {
                let piece = file[at..file.len().min(at + random.below(40))].to_vec();
                (0..random.below(30)).for_each(|_| drop(file.splice(at..at, piece.clone())));
            }
            _ if at < file.len() => file[at] = byte,
            _ => {}
        }
    }
    file
}

/// A program with registers: what reads it for words has the number and place of the library, or the bytes; and evidence for it has words.
fn with_registers(file: &[u8], evidence: &[u8], area: &mut Area) -> bool {
    let read = read_registers(file).map_err(|fault| (fault.number, fault.place as u64));
    let own = read.and_then(|program| without(&program).map_err(|large| (large.number, large.place as u64)));
    let written = library::registers(file);
    assert!(written == own.map(|program| program.bytes()), "{file:02x?}: {written:?}");
    let bytes = match written {
        Ok(bytes) => bytes,
        Err(refused) => {
            let said = registers::why(file, refused);
            assert!(!said.contains('\n') && said != words::says(refused.0), "{file:02x?}: {said}");
            let v = registers::verdict(file, refused, evidence.len());
            assert!(v.record(Lent { program: Some(file), file: evidence }).is_some());
            return true;
        }
    };
    let origins = Origins::of(file, &bytes).expect("the same bytes");
    let lent = Lent { program: Some(&bytes), file: evidence };
    let v = judge(lent, area).expect("memory");
    if v.is_refused() {
        let said = why_from(lent, v, Some(&origins));
        assert!(!said.contains('\n'));
        // a step by a transition, and one that leads above an entry
        let named = (0..10).any(|digit| said.contains(&format!(", t{digit}")) || said.starts_with(&format!("t{digit}")));
        assert!(!named || said.contains(", from 05 number "), "{said}");
    }
    false
}

/// A report: what reads it for words has the number and place of the library, and each answer has words; so has one that is about other bytes.
fn report(file: &[u8], other: Verdict, area: &mut Area) -> bool {
    let v = library::report(file, area).expect("memory");
    let own = read_report(file).map(|_| ()).map_err(|fault| (fault.number, fault.place as u64));
    assert!(own == if v.about_records() { Err((v.first, v.second)) } else { Ok(()) }, "{file:02x?}: {v}, {own:?}");
    for v in [v, other] {
        assert!(!why_report(file, v).contains('\n'));
        let Some(report) = Report::of(file) else { continue };
        let words = [report.wrong_mark(v).into_iter().collect(), report.fences(), report.trace(v)].concat();
        assert!(words.iter().all(|words| !words.contains('\n')));
        if let Some(part) = report.failing(v) {
            let alone = judge(part.lent(), area).expect("memory");
            assert!(v != other || !why(part.lent(), alone).contains('\n'));
        }
    }
    if !v.refuses(&[22, 23]) {
        return v.is_refused();
    }
    let report = Report::of(file).expect("a report");
    match v.first {
        22 => assert!(report.wrong_mark(v).is_some()),
        // The part that fails is refused by itself too.
        _ => assert!(judge(report.failing(v).expect("a part").lent(), area).expect("memory").is_refused()),
    }
    true
}

fn main() {
    let words: Vec<String> = std::env::args().collect();
    let number = |n: usize| words[n].parse::<usize>().expect("a number");
    let (mut random, count) = (Random(number(1) as u64 * 2 + 1), number(2));
    let read = |ending: &str, other: bool| -> Vec<Vec<u8>> {
        let known = |name: &str| [".evid", ".reg", ".report"].iter().any(|ending| name.ends_with(ending));
        let names = words[3..].iter().filter(|name| name.ends_with(ending) && (!other || !known(name)));
        names.map(|name| std::fs::read(name).expect("a file")).collect()
    };
    let (files, programs, evidence, reports) = (read("", true), read(".reg", false), read(".evid", false), read(".report", false));
    let mut area = Area::default();
    let (mut refused, mut shown) = (0, 0);
    for _ in 0..count {
        let number = random.below(files.len());
        let whole = damage(&mut random, &files[number]);
        let cut = random.below(whole.len() + 1);
        let lent = match random.below(3) {
            0 => Lent { program: Some(&whole[..cut]), file: &whole[cut..] },
            _ => Lent { program: None, file: &whole },
        };
        let verdict = judge(lent, &mut area).expect("memory");
        // its own verdict, and one that is about other bytes
        let other = Verdict {
            kind: REFUSED,
            first: 1 + random.below(27) as u64,
            second: [random.below(8), random.below(1000), usize::MAX][random.below(3)] as u64,
            step_kind: 0x20 + random.below(4) as u64,
            step_first: random.below(6) as u64,
            step_second: random.below(6) as u64,
            record_file: random.below(2) as u64,
            ..Verdict::default()
        };
        for v in [verdict, other] {
            if v.is_refused() {
                assert!(!why(lent, v).contains('\n'));
                refused += 1;
            }
            if v.refuses(&[9, 11]) {
                shown += usize::from(outside(lent, v, Some(Instant::now() + Duration::from_millis(5))).is_ok());
            }
            let _ = v.record(lent);
        }
    }
    let mut turned_away = 0;
    for _ in 0..if reports.is_empty() { 0 } else { count } {
        let number = random.below(reports.len());
        let file = damage(&mut random, &reports[number]);
        let (first, second) = ([1, 6, 7, 22, 23][random.below(5)], [random.below(10), random.below(200), usize::MAX][random.below(3)] as u64);
        turned_away += usize::from(report(&file, Verdict { kind: REFUSED, first, second, ..Verdict::default() }, &mut area));
    }
    println!("tools: {count} reports, {turned_away} of them refused, read as the library reads them");
    let mut wrong = 0;
    for _ in 0..if programs.is_empty() { 0 } else { count } {
        let (program, mut run) = (&programs[random.below(programs.len())], evidence[random.below(evidence.len())].clone());
        let program = if random.below(3) == 0 { program.clone() } else { damage(&mut random, program) };
        if random.below(2) == 0 {
            run = damage(&mut random, &run);
        }
        wrong += usize::from(with_registers(&program, &run, &mut area));
    }
    println!("tools: {count} programs with registers, {wrong} of them refused, read as the library reads them");
    println!("tools: {refused} refusals explained, and {shown} configurations outside a list found, in damaged files");
}
