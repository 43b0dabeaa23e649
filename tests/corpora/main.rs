//! compare cases FILE [JUDGES]     the hand-worked lines and records
//! compare brute SEED COUNT        the separate judge's two algorithms against each other
//! compare reach SEED [JUDGES]     small programs without loops: a forward search finds a run, or else a backward search a safe list
//! compare corpora SEED [JUDGES]   the corpora
//! JUDGES: --caller PROGRAM (the exported functions through C), --program PROGRAM (standard input to one line), --files PROGRAM
//! (hrafnolt-files: what its -w prints under each refusal 9 and 11 is held to the machine and the order, what its -r prints to the record).
//! --first: stop at the first difference.
//! Every line and offending record is compared with the separate judge's, for each combined file, and for the pair that it is when it is
//! cut at its claim. Exit status 0 if all agree.

mod fixed;
mod groups;
mod outside;
mod pairs;
mod random;
mod search;
mod seeded;
mod shown;

use reference::{brute, cubes, judge, judge_input, writing};
use reference::{Answer, Configuration, Lent, Machine, Program, Step, Verdict, AREA_LEAST, AREA_MOST};
use seeded::Random;
use std::collections::{BTreeMap, HashMap};
use std::io::{BufRead, BufReader, Read, Write};
use std::process::{Child, ChildStdin, ChildStdout, Command, Stdio};

struct Caller {
    child: Child,
    input: ChildStdin,
    output: BufReader<ChildStdout>,
}

impl Caller {
    fn new(name: &str) -> Caller {
        let mut child = Command::new(name).stdin(Stdio::piped()).stdout(Stdio::piped()).spawn().expect("the caller starts");
        let input = child.stdin.take().unwrap();
        let output = BufReader::new(child.stdout.take().unwrap());
        Caller { child, input, output }
    }

    /// The line and the record, in the protocol of tests/caller.
    fn line(&mut self, lent: Lent, area: usize) -> String {
        let (program, file) = match lent {
            Lent::Combined(file) => (None, file),
            Lent::Pair(program, evidence) => (Some(program), evidence),
        };
        let mut sent = Vec::with_capacity(24 + program.map_or(0, |program| program.len()) + file.len());
        for number in [area as u64, program.map_or(u64::MAX, |program| program.len() as u64), file.len() as u64] {
            sent.extend(number.to_le_bytes());
        }
        sent.extend(program.unwrap_or(&[]));
        sent.extend(file);
        let mut line = String::new();
        let sent = self.input.write_all(&sent).and_then(|_| self.input.flush());
        if sent.is_err() || self.output.read_line(&mut line).unwrap_or(0) == 0 {
            return format!("the caller ended: {:?}", self.child.wait());
        }
        line.trim_end_matches('\n').to_string()
    }
}

fn program_line(name: &str, file: &[u8]) -> String {
    let mut child = Command::new(name).stdin(Stdio::piped()).stdout(Stdio::piped()).spawn().expect("the program starts");
    let mut input = child.stdin.take().unwrap();
    // The program may stop reading after 65,537 bytes.
    let _ = input.write_all(file);
    drop(input);
    let mut line = String::new();
    child.stdout.take().unwrap().read_to_string(&mut line).expect("text");
    let status = child.wait().expect("the program ends");
    match line.strip_suffix('\n') {
        Some(line) if status.success() => line.to_string(),
        _ => format!("{:?}, {}", line, status),
    }
}

struct Judges {
    caller: Option<Caller>,
    /// Stop at the first difference.
    first: bool,
    program: Option<String>,
    files: Option<shown::Files>,
    judged: usize,
    pairs: usize,
    by_caller: usize,
    by_program: usize,
    failed: usize,
    lines: BTreeMap<String, usize>,
    met: pairs::Met,
}

impl Judges {
    fn fail<'a>(&mut self, what: &str, who: &str, wanted: &str, got: &str, lent: impl Into<Lent<'a>>, area: usize) {
        self.failed += 1;
        if self.failed <= 20 {
            let mut kept = format!("target/tests/differs-{}", self.failed);
            let file = match lent.into() {
                Lent::Combined(file) => file,
                Lent::Pair(program, evidence) => {
                    let _ = std::fs::write(format!("{}.program", kept), program);
                    kept = format!("{}.program, {}", kept, kept);
                    evidence
                }
            };
            let _ = std::fs::write(format!("target/tests/differs-{}", self.failed), file);
            println!("{}: area {}: {} says '{}', wanted '{}' ({}, {} bytes)", what, area, who, got, wanted, kept, file.len());
        }
        if self.first || got.starts_with("the caller ended") {
            println!("stopped");
            std::process::exit(1);
        }
    }

    /// Faults in what hrafnolt-files says.
    fn unshown(&mut self, faults: Vec<shown::Fault>) {
        for shown::Fault { shown, said, fault } in faults {
            self.fail(&shown.what, "hrafnolt-files -r -w", &fault, &said, shown.lent(), AREA_MOST);
        }
    }

    /// What is lent, through C and in hrafnolt-files.
    fn exported(&mut self, what: &str, lent: Lent, area: usize, wanted: Answer) {
        if let Some(files) = &mut self.files {
            let faults = files.add(what, lent, wanted);
            self.unshown(faults);
        }
        self.met.add(lent, wanted);
        if let Some(caller) = &mut self.caller {
            self.by_caller += 1;
            let got = caller.line(lent, area);
            let wanted = wanted.to_string();
            if got != wanted {
                self.fail(what, "the exported function", &wanted, &got, lent, area);
            }
        }
    }

    fn compare_pair(&mut self, what: &str, program: &[u8], evidence: &[u8], area: usize, wanted: Answer) {
        self.pairs += 1;
        self.exported(what, Lent::Pair(program, evidence), area, wanted);
    }

    /// The pair that a combined file is when it is cut: its answer follows from that of the combined file. So a list need not be judged a
    /// second time here, and of long lists the exported function judges every tenth as a pair.
    fn compare_cut(&mut self, what: &str, file: &[u8], area: usize, combined: Answer) {
        let (at, wanted) = pairs::cut(file, combined);
        let lent = Lent::Pair(&file[..at], &file[at..]);
        let long = file.len() > 5_000 && matches!(combined.verdict, Verdict::Safe(_) | Verdict::Refused(9 | 10, _) | Verdict::Open(..));
        if !long {
            let got = judge(lent, area);
            if got != wanted {
                self.fail(what, "the separate judge of the pair", &wanted.to_string(), &got.to_string(), lent, area);
            }
        }
        if !long || self.judged % 10 == 0 {
            self.compare_pair(what, &file[..at], &file[at..], area, wanted);
        }
    }

    /// Judges one combined file everywhere and compares with the answer wanted.
    fn compare(&mut self, what: &str, file: &[u8], area: usize, wanted: Answer, program_too: bool) {
        self.judged += 1;
        let kind = match wanted.verdict {
            Verdict::Safe(_) => "safe".to_string(),
            Verdict::Reachable(..) => "reachable".to_string(),
            Verdict::Pso(..) => "pso".to_string(),
            Verdict::Refused(number, _) => format!("{:>2}", number),
            Verdict::Open(..) => "11".to_string(),
        };
        *self.lines.entry(kind).or_default() += 1;
        self.exported(what, Lent::Combined(file), area, wanted);
        self.compare_cut(what, file, area, wanted);
        if program_too && self.program.is_some() {
            self.by_program += 1;
            let wanted = judge_input(file).to_string();
            let got = program_line(self.program.as_ref().unwrap(), file);
            if got != wanted {
                self.fail(what, "the program", &wanted, &got, file, AREA_LEAST);
            }
        }
    }

    /// The same where the machine, and not the separate judge, says what is wanted of a run.
    fn compare_known(&mut self, what: &str, file: &[u8], area: usize, wanted: Verdict, program_too: bool) {
        let answer = Answer::without_record(Lent::Combined(file), wanted);
        let got = judge(file, area);
        if got != answer {
            self.fail(what, "the separate judge", &answer.to_string(), &got.to_string(), file, area);
        }
        self.compare(what, file, area, answer, program_too);
    }

    /// Judges a list as it is and shuffled, every other one with the records of each entry mingled too; gives its file.
    fn in_any_order(
        &mut self,
        what: &str,
        program: &Program,
        entries: &[Configuration],
        area: usize,
        r: &mut Random,
        program_too: bool,
    ) -> Vec<u8> {
        let file = writing::list_file(program, entries);
        let answer = judge(&file, area);
        self.compare(what, &file, area, answer, program_too);
        let mut entries = entries.to_vec();
        r.shuffle(&mut entries);
        let mut shuffled = writing::list_file(program, &[]);
        let mingles = r.below(2) == 0;
        for entry in &entries {
            let records = writing::entry(program, entry);
            shuffled.extend(if mingles { mingled(&records, r) } else { records });
        }
        let of_shuffled = judge(&shuffled, area);
        if !same_in_any_order(answer.verdict, of_shuffled.verdict) {
            self.fail(what, "the separate judge of the list shuffled", &answer.to_string(), &of_shuffled.to_string(), &shuffled, area);
        }
        self.compare(&format!("{}, shuffled", what), &shuffled, area, of_shuffled, program_too);
        file
    }

    fn end(&mut self, what: &str) -> i32 {
        let faults = self.files.as_mut().map(|files| files.end());
        self.unshown(faults.unwrap_or_default());
        let spread: Vec<String> = self.lines.iter().map(|(kind, n)| format!("{}: {}", kind.trim(), n)).collect();
        println!("{}: {} files and {} pairs, {} differ ({})", what, self.judged, self.pairs, self.failed, spread.join(", "));
        if self.caller.is_some() || self.program.is_some() {
            println!("{}: {} through C, {} through the program", what, self.by_caller, self.by_program);
        }
        if let Some(files) = &self.files {
            println!("{}: {} configurations outside a list and {} records, as hrafnolt-files shows them", what, files.outside, files.records);
        }
        (self.failed > 0) as i32
    }
}

/// The records of an entry in an order chosen by chance: messages, and the values of each queue, stay in theirs.
fn mingled(entry: &[u8], r: &mut Random) -> Vec<u8> {
    let (head, mut rest) = entry.split_at(9);
    let mut rows: Vec<(Vec<u8>, Vec<&[u8]>)> = Vec::new();
    while !rest.is_empty() {
        let message = rest[0] == 0x11;
        let (record, left) = rest.split_at(if message { 7 } else { 4 });
        let key = if message { vec![0x11] } else { record[..3].to_vec() };
        match rows.iter_mut().find(|row| row.0 == key) {
            Some(row) => row.1.push(record),
            None => rows.push((key, vec![record])),
        }
        rest = left;
    }
    let mut out = head.to_vec();
    while !rows.is_empty() {
        let row = r.below(rows.len());
        out.extend(rows[row].1.remove(0));
        if rows[row].1.is_empty() {
            rows.remove(row);
        }
    }
    out
}

/// The syntax of tests/cases: bytes, names, repetition.
fn bytes(text: &str, names: &HashMap<String, Vec<u8>>) -> Vec<u8> {
    let mut stack: Vec<(usize, Vec<u8>)> = vec![(1, Vec::new())];
    for word in text.split_whitespace() {
        if let Some(name) = word.strip_prefix('$') {
            let named = names.get(name).unwrap_or_else(|| panic!("no name {}", name));
            stack.last_mut().unwrap().1.extend(named);
        } else if let Some(count) = word.strip_suffix("*(") {
            stack.push((count.parse().expect("a count"), Vec::new()));
        } else if word == ")" {
            let (count, part) = stack.pop().unwrap();
            stack.last_mut().unwrap().1.extend(part.repeat(count));
        } else {
            assert!(word.len() == 2, "two digits: {}", word);
            stack.last_mut().unwrap().1.push(u8::from_str_radix(word, 16).expect("hexadecimal digits"));
        }
    }
    assert!(stack.len() == 1, "unbalanced: {}", text);
    stack.pop().unwrap().1
}

fn cases(name: &str, judges: &mut Judges) {
    let text = std::fs::read_to_string(name).expect("the cases");
    let mut logical: Vec<String> = Vec::new();
    for line in text.lines() {
        let line = line.split('#').next().unwrap();
        if line.starts_with(' ') && !line.trim().is_empty() {
            let last = logical.last_mut().unwrap();
            last.push_str(line);
        } else if !line.trim().is_empty() {
            logical.push(line.to_string());
        }
    }
    let mut names = HashMap::new();
    let mut r = Random(1);
    for line in &logical {
        if let Some((name, text)) = line.split_once(":=") {
            let value = bytes(text, &names);
            names.insert(name.trim().to_string(), value);
            continue;
        }
        let (wanted, text) = line.split_once("<-").expect("LINE <- BYTES");
        let mut wanted = wanted.trim();
        let mut area = AREA_LEAST;
        let mut program_only = false;
        if let Some((before, rest)) = wanted.split_once(':') {
            match before.strip_prefix("area ") {
                Some(n) => area = n.trim().parse().expect("an area"),
                None => program_only = true,
            }
            wanted = rest.trim();
        }
        if let Some((program, evidence)) = text.split_once('|') {
            pair_case(judges, line, wanted, &bytes(program, &names), &bytes(evidence, &names), area);
            continue;
        }
        let file = bytes(text, &names);
        let answer = judge(&file, area);
        let said = if program_only { judge_input(&file).to_string() } else { as_wanted(answer, wanted) };
        if said != wanted {
            judges.fail(line, "the separate judge", wanted, &said, &file, area);
        }
        if program_only {
            judges.judged += 1;
            if let Some(program) = judges.program.clone() {
                judges.by_program += 1;
                let got = program_line(&program, &file);
                if got != wanted {
                    judges.fail(line, "the program", wanted, &got, &file, AREA_LEAST);
                }
            }
        } else {
            judges.compare(line, &file, area, answer, area == AREA_LEAST);
            both_algorithms(judges, line, &file, area, 50_000.0);
            if let Ok((program, reference::Evidence::List(list))) = reference::read(&file, reference::entries_allowed(area)) {
                judges.in_any_order(line, &program, &list.configurations(&program), area, &mut r, false);
            }
        }
    }
}

/// The line, and the record where the case has it.
fn as_wanted(answer: Answer, wanted: &str) -> String {
    if wanted.contains(", record ") {
        answer.to_string()
    } else {
        answer.verdict.to_string()
    }
}

fn pair_case(judges: &mut Judges, line: &str, wanted: &str, program: &[u8], evidence: &[u8], area: usize) {
    let answer = judge(Lent::Pair(program, evidence), area);
    let said = as_wanted(answer, wanted);
    if said != wanted {
        judges.fail(line, "the separate judge", wanted, &said, Lent::Pair(program, evidence), area);
    }
    judges.compare_pair(line, program, evidence, area, answer);
}

/// The brute force beside the cubes, where the file is a list of a shape that is tiny enough.
fn both_algorithms(judges: &mut Judges, what: &str, file: &[u8], area: usize, most: f64) -> bool {
    let Ok((program, reference::Evidence::List(list))) = reference::read(file, reference::entries_allowed(area)) else { return false };
    if list.len() > 1_000 {
        return false;
    }
    let entries = list.configurations(&program);
    let bounds = brute::bounds(&program, &entries);
    let combinations: f64 = program.states.iter().map(|n| *n as f64).product();
    if brute::size(&program, &bounds) * combinations > most {
        return false;
    }
    let Some(slow) = brute::judge_list(&program, &entries, &bounds) else { return false };
    let fast = cubes::judge_list(&program, &list);
    if slow != fast {
        judges.fail(what, "the brute force", &fast.to_string(), &slow.to_string(), file, area);
    }
    true
}

fn brute_force(seed: u64, count: usize, judges: &mut Judges) {
    let mut r = Random(seed);
    let mut number = 0;
    while number < count {
        // One process with one variable, mostly; the other shapes with one value in some variable, so that there are few configurations.
        let (processes, variables, values) = match r.below(20) {
            0..=10 => (1, 1, [2, 0, 0, 0]),
            11..=12 => (1, 1, [3, 0, 0, 0]),
            13..=15 => (1, 2, [1, 1, 0, 0]),
            16 => (1, 2, [1, 2, 0, 0]),
            17 => (1, 2, [2, 1, 0, 0]),
            18 => (1, 1, [1, 0, 0, 0]),
            _ => (2, 1, [1, 0, 0, 0]),
        };
        let (program, entries) = random::list(&mut r, processes, variables, values, 400, number % 3 == 0);
        for variant in 0..6 {
            let (program, entries) =
                if variant == 0 { (program.clone(), entries.clone()) } else { random::spoilt_list(&mut r, &program, &entries) };
            let file = writing::list_file(&program, &entries);
            let area = AREA_MOST;
            let most = if processes == 2 || values[0] != values[1] && variables == 2 { 150_000.0 } else { 40_000.0 };
            if both_algorithms(judges, "random list", &file, area, most) {
                let answer = judge(&file, area);
                judges.compare("random list", &file, area, answer, false);
                number += 1;
                // Of an accepted list PSO reaches no target, as far as a bound on what waits goes. The search always ends, loops or not.
                if matches!(answer.verdict, Verdict::Safe(_)) {
                    if let Ok(run) = search::shortest_run(&program, Machine::Pso, &program.memories(), 4) {
                        let found = judge(&writing::run_file(&program, &run), area);
                        judges.fail("a PSO run beside a safe list", "the search", &answer.to_string(), &found.to_string(), &file, area);
                    }
                }
            }
            if processes == 2 && variant == 1 {
                break;
            }
        }
    }
}

/// For a program without loops all configurations can be searched, from every memory. Then exactly one of the two claims has evidence:
/// either there is a run, and a start is above the closed list; or there is none, and the closed list is safe. Among those with a run are
/// some that have none from cleared memory.
fn reach(seed: u64, judges: &mut Judges) {
    let mut r = Random(seed);
    for (processes, variables, programs, most) in [(1, 1, 300, 400), (1, 2, 200, 600), (2, 1, 60, 2_500), (1, 3, 15, 2_500)] {
        let (mut reached, mut uncleared, mut safe) = (0, 0, 0);
        while reached + safe < programs {
            let values = random::values(&mut r, variables, 3);
            let program = random::program_without_loops(&mut r, processes, variables, values);
            let run = search::shortest_run(&program, Machine::Pws, &program.memories(), usize::MAX);
            let from_cleared = search::shortest_run(&program, Machine::Pws, &[[0; 4]], usize::MAX).is_ok();
            // Most random programs reach their target: half of those taken shall not, and some only from other memories.
            if run.is_ok() && (reached > safe || from_cleared && reached > 3 * uncleared) {
                continue;
            }
            let Some(entries) = search::closed_list(&program, &[], most) else { continue };
            *if run.is_ok() { &mut reached } else { &mut safe } += 1;
            uncleared += (run.is_ok() && !from_cleared) as usize;
            let list = writing::list_file(&program, &entries);
            let area = enough(entries.len());
            let line = judge(&list, area).verdict;
            // Long lists that are safe take the judges long; the search has been made for them all.
            let short = entries.len() <= 600;
            pso_too(&program, run.is_ok(), area, judges);
            match run {
                Ok(found) => {
                    let run = writing::run_file(&program, &found);
                    let wanted = Verdict::Reachable(found.steps.len() as u64, 0);
                    judges.compare_known("a run", &run, area, wanted, false);
                    if !matches!(line, Verdict::Refused(10, _)) {
                        judges.fail("a list beside a run", "the separate judge", "refused 10", &line.to_string(), &list, area);
                    }
                    judges.in_any_order("a list beside a run", &program, &entries, area, &mut r, false);
                }
                Err(_) => {
                    let wanted = Verdict::Safe(entries.len() as u64);
                    if line != wanted {
                        judges.fail("a list, no run", "the separate judge", &wanted.to_string(), &line.to_string(), &list, area);
                    }
                    if short {
                        judges.in_any_order("a list, no run", &program, &entries, area, &mut r, false);
                    }
                }
            }
        }
    }
}

/// PSO reaches a target exactly when PWS does; then its run is accepted too.
fn pso_too(program: &Program, reached: bool, area: usize, judges: &mut Judges) {
    match search::shortest_run(program, Machine::Pso, &program.memories(), usize::MAX) {
        Ok(found) => {
            let file = writing::run_file(program, &found);
            let wanted = Verdict::Pso(found.steps.len() as u64, 0);
            if !reached {
                judges.fail("a PSO run", "the search", "no run", &wanted.to_string(), &file, area);
            }
            judges.compare_known("a PSO run", &file, area, wanted, false);
        }
        Err(_) if reached => judges.fail("no PSO run", "the search", "a run", "none", &writing::program(program), area),
        Err(_) => {}
    }
}

/// Every cause of a refused step at random depths, and every two causes of a transition at once: the first in the order 12, 16, 17, 15 is said.
/// PSO has no pointers, and more reasons for 18.
fn refused_steps(r: &mut Random, machine: Machine, judges: &mut Judges) {
    let mut met: BTreeMap<(Vec<u64>, &str), usize> = BTreeMap::new();
    for _ in 0..600 {
        random::refused_steps(r, machine, &mut |causes, reason, depth, file| {
            *met.entry((causes.to_vec(), reason)).or_insert(0) += 1;
            let wanted = Verdict::Refused(causes[0], depth as u64);
            judges.compare_known("a refused step", file, AREA_LEAST, wanted, depth % 100 == 7);
        });
    }
    let (causes, reasons): (&[&[u64]], &[&str]) = match machine {
        Machine::Pws => (
            &[&[12], &[16], &[17], &[15], &[12, 16], &[12, 17], &[12, 15], &[16, 17], &[16, 15], &[17, 15], &[12, 16, 17, 15]],
            &["nothing to serialise", "no newer message"],
        ),
        Machine::Pso => (
            &[&[12], &[16], &[15], &[12, 16], &[12, 15], &[16, 15], &[12, 16, 15]],
            &["nothing to update", "a mark heads the buffer", "no mark", "not every head a mark"],
        ),
    };
    let wanted = causes.iter().map(|causes| (causes.to_vec(), "")).chain(reasons.iter().map(|reason| (vec![18], *reason)));
    for wanted in wanted {
        assert!(met.get(&wanted).is_some_and(|n| *n >= 10), "causes {:?} are met too seldom: {:?}", wanted, met);
    }
}

/// The lowest entry and its lowest step that some filling of `lost`, being outside the list, leads above by one step of the machine.
fn way_in(program: &Program, entries: &[Configuration], lost: &Configuration) -> Option<(usize, usize)> {
    let above = |c: &Configuration, entry: &Configuration| entry.states == c.states && brute::below(program, entry, c);
    let steps = program.all_steps();
    let mut lowest = None;
    for c in brute::fillings(program, lost, 256)?.iter().filter(|c| !entries.iter().any(|entry| above(c, entry))) {
        for (number, step) in steps.iter().enumerate() {
            let mut next = c.clone();
            if next.take(program, *step) {
                let found = entries.iter().position(|entry| above(&next, entry)).map(|entry| (entry, number));
                lowest = [lowest, found].into_iter().flatten().min();
            }
        }
    }
    lowest
}

/// Closed lists with one entry left out: 11 names an entry and a step that it led to, the lowest, or one that is lower still through what
/// is above it. Mostly the entries are those that the targets do not need.
fn left_out(r: &mut Random, judges: &mut Judges) {
    let mut met: BTreeMap<&str, (usize, usize)> = BTreeMap::new();
    for number in 0..60 {
        let (processes, variables) = *r.pick(&[(1, 1), (1, 1), (1, 2), (2, 1), (2, 1)]);
        let values = random::values(r, variables, 3);
        let (program, entries) = random::list(r, processes, variables, values, 500, number % 2 == 0);
        let steps = program.all_steps();
        let further: Vec<usize> = (0..entries.len()).filter(|n| !program.targets.contains(&entries[*n].states)).collect();
        for _ in 0..10 {
            let at = if further.is_empty() || r.one_in(10) { r.below(entries.len()) } else { *r.pick(&further) };
            let mut fewer = entries.clone();
            let lost = fewer.remove(at);
            if r.one_in(2) {
                r.shuffle(&mut fewer);
            }
            let file = writing::list_file(&program, &fewer);
            let answer = judge(&file, AREA_LEAST);
            judges.compare("an entry left out", &file, AREA_LEAST, answer, false);
            let Some((entry, step)) = way_in(&program, &fewer, &lost) else { continue };
            let lowest = Verdict::Open(entry as u64, steps[step]);
            let (named, kind) = match answer.verdict {
                Verdict::Refused(9 | 10, _) => continue,
                Verdict::Open(number, by) => {
                    let kind = match by {
                        Step::Transition(_) => "t",
                        Step::Serialise(..) => "s",
                        Step::Update(_) => "u",
                    };
                    (Some((number as usize, steps.iter().position(|s| *s == by).unwrap())), kind)
                }
                _ => (None, "none"),
            };
            if named.is_none() || named > Some((entry, step)) {
                judges.fail("an entry left out", "the separate judge", &lowest.to_string(), &answer.to_string(), &file, AREA_LEAST);
            }
            let (same, all) = met.entry(kind).or_default();
            *same += (named == Some((entry, step))) as usize;
            *all += 1;
        }
    }
    for kind in ["t", "s", "u"] {
        assert!(met.get(kind).is_some_and(|(same, all)| *same >= 10 && same * 2 >= *all), "steps of kind {} are met too seldom: {:?}", kind, met);
    }
}

/// A file cut at its claim with one of the two parts damaged by itself, and cut anywhere.
fn damaged_pair(r: &mut Random, what: &str, file: &[u8], area: usize, judges: &mut Judges) {
    let at = pairs::claim(file).0.expect("a claim");
    let (program, evidence) = (&file[..at], &file[at..]);
    let anywhere = r.below(file.len() + 1);
    let of_program = r.one_in(2);
    let changed = random::damaged_bytes(r, if of_program { program } else { evidence });
    let damaged = if of_program { (&changed[..], evidence) } else { (program, &changed[..]) };
    for (program, evidence) in [(&file[..anywhere], &file[anywhere..]), damaged] {
        judges.compare_pair(&format!("{} as a damaged pair", what), program, evidence, area, judge(Lent::Pair(program, evidence), area));
    }
}

fn corpora(seed: u64, judges: &mut Judges) {
    let mut r = Random(seed);
    let areas = [65_536, 65_536, 65_536, 65_536, 65_537, 65_547, 65_548, 66_000, 100_001, 150_000];
    let odd_areas = [0, 1, 16_384, 32_768, 65_535];
    let mut counter = 0usize;
    let mut sample = move || {
        counter += 1;
        counter % 150 == 0
    };
    let all = fixed::full_files();
    for full in &all {
        fixed::sweeps(full, &mut |what, file| {
            let area = if r.one_in(60) { *r.pick(&odd_areas) } else { *r.pick(&areas) };
            judges.compare(what, &file, area, judge(&file, area), sample());
        });
        for area in odd_areas.iter().chain(&areas) {
            judges.compare(full.name, &full.bytes, *area, judge(&full.bytes, *area), false);
        }
        pairs::sweeps(&all, full, &mut |what, program, evidence| {
            let area = if r.one_in(60) { *r.pick(&odd_areas) } else { *r.pick(&areas) };
            judges.compare_pair(what, program, evidence, area, judge(Lent::Pair(program, evidence), area));
        });
    }
    fixed::limits(&mut |what, file, area| {
        judges.compare(what, &file, area, judge(&file, area), area == AREA_LEAST);
    });
    // Steps of each kind that the PSO machine has taken.
    let mut taken = [0; 3];
    for number in 0..4_000 {
        let machine = if number % 2 == 0 { Machine::Pws } else { Machine::Pso };
        let (program, run) = random::walk(&mut r, machine);
        let file = writing::run_file(&program, &run);
        let area = *r.pick(&areas);
        judges.compare("run", &file, area, judge(&file, area), sample());
        for step in run.steps.iter().filter(|_| machine == Machine::Pso) {
            taken[match step {
                Step::Transition(_) => 0,
                Step::Serialise(..) => 1,
                Step::Update(_) => 2,
            }] += 1;
        }
        for _ in 0..4 {
            let file = random::damaged_run(&mut r, &program, &run);
            let area = *r.pick(&areas);
            judges.compare("damaged run", &file, area, judge(&file, area), sample());
        }
        damaged_pair(&mut r, "run", &file, area, judges);
    }
    assert!(taken.iter().all(|n| *n >= 1_000), "a kind of step is taken too seldom by PSO: {:?}", taken);
    refused_steps(&mut Random(seed ^ 0xca05e), Machine::Pws, judges);
    refused_steps(&mut Random(seed ^ 0xca05e), Machine::Pso, judges);
    for number in 0..200 {
        let machine = if number % 2 == 0 { Machine::Pws } else { Machine::Pso };
        random::every_memory(&mut Random(r.next()), machine, &mut |program, run| {
            let file = writing::run_file(program, run);
            judges.compare("run from every memory", &file, AREA_LEAST, judge(&file, AREA_LEAST), sample());
        });
    }
    fixed::shapes(&mut |what, file| {
        judges.compare(what, &file, AREA_LEAST, judge(&file, AREA_LEAST), sample());
    });
    fixed::memories(&mut |what, file| {
        judges.compare(what, &file, AREA_LEAST, judge(&file, AREA_LEAST), sample());
    });
    let mut s = Random(seed ^ 0x5eed);
    random::lists(&mut r, &mut |program, entries| {
        let area = *s.pick(&areas);
        let file = judges.in_any_order("list", program, entries, area, &mut s, sample());
        if s.one_in(4) {
            damaged_pair(&mut s, "list", &file, area, judges);
            let file = random::damaged_bytes(&mut s, &file);
            judges.compare("damaged list", &file, area, judge(&file, area), sample());
        }
    });
    groups::lists(&mut r, &mut |what, program, entries| {
        judges.in_any_order(what, program, entries, enough(entries.len()), &mut s, sample());
    });
    left_out(&mut Random(seed ^ 0x1eff), judges);
    judges.met.check();
}

/// The least area that so many entries fit into.
fn enough(entries: usize) -> usize {
    AREA_LEAST.max(16_384 + 12 * entries)
}

/// The order of a list decides only which entry is the lowest, in numbers 10 and 11, with its step, and what is read first of a list that
/// is refused in its records.
fn same_in_any_order(one: Verdict, other: Verdict) -> bool {
    match (one, other) {
        (Verdict::Refused(10, _), Verdict::Refused(10, _)) | (Verdict::Open(..), Verdict::Open(..)) => true,
        (Verdict::Refused(1..=8, _), Verdict::Refused(1..=8, _)) => true,
        _ => one == other,
    }
}

fn main() {
    let words: Vec<String> = std::env::args().skip(1).collect();
    let after = |name: &str| words.iter().position(|w| w == name).map(|at| words[at + 1].clone());
    let mut judges = Judges {
        caller: after("--caller").map(|name| Caller::new(&name)),
        program: after("--program"),
        files: after("--files").map(|name| shown::Files::new(name, if words[0] == "cases" { 1 } else { 100 })),
        first: words.iter().any(|w| w == "--first"),
        judged: 0,
        pairs: 0,
        by_caller: 0,
        by_program: 0,
        failed: 0,
        lines: BTreeMap::new(),
        met: pairs::Met::default(),
    };
    let number = |at: usize| words[at].parse::<u64>().expect("a number");
    match words[0].as_str() {
        "cases" => cases(&words[1], &mut judges),
        "brute" => brute_force(number(1), number(2) as usize, &mut judges),
        "reach" => reach(number(1), &mut judges),
        "corpora" => corpora(number(1), &mut judges),
        other => panic!("no part {}", other),
    }
    std::process::exit(judges.end(&words[0]));
}
