//! library short SEED COUNT: the library's judge of reports beside the tests' own, on reports worked out by hand, with every byte changed, with every choice
//!     of marks, with areas around the limits and COUNT times damaged at random.
//! library long GALLERY LIST..: long reports, made of the gallery's programs and runs and of the lists named (NAME.list): the accepted ones, each
//!     run damaged in turn, runs and marks swapped, an idle fence, eight equal fences, an entry left out. Only these show how runs are judged: the
//!     list comes first, and no short one is safe where a fence is needed.
//! Exit status 0 if every answer is the same and every area as the header says.

mod guarded;
#[path = "../region.rs"]
mod region;
#[path = "../reference/reports.rs"]
mod reports;
#[path = "../corpora/seeded.rs"]
mod seeded;
mod small;

use guarded::Caller;
use region::PAGE;
use reports::{judge, read, Judged, Report};
use seeded::Random;
use small::{entries, join, marks, offsets, program, AREA, MFENCE, NOP, RUN, SFENCE, WRITE};

// ---- short reports

fn short(seed: u64, count: usize) -> Result<(), String> {
    let mut caller = Caller::new();
    small::cases(|what, file, area, _| caller.same(file, area).map_err(|other| format!("{}: {}", what, other)))?;
    small::damaged(|file| caller.same(file, AREA))?;
    every_mark(&mut caller)?;
    areas(&mut caller)?;
    largest_programs(&mut caller)?;
    let r = &mut Random(seed);
    let kinds = [0, 1, 2, 3, 4, 5, 8, 9, 0x0f, 0x10, 0x11, 0x12, 0x13, 0x1f, 0x20, 0x21, 0x22, 0x30, 0x31, 0xff];
    for _ in 0..count {
        let mut file = any_report(r);
        for _ in 0..r.below(4) {
            let at = r.below(file.len().max(1));
            match r.below(4) {
                0 => file[at] = *r.pick(&kinds),
                1 => file.insert(at, *r.pick(&kinds)),
                2 if file.len() > 1 => drop(file.remove(at)),
                _ => file.truncate(at.max(1)),
            }
        }
        caller.same(&file, AREA)?;
    }
    println!("reports: {} short reports, the library as the separate judge", caller.calls);
    Ok(())
}

const READS: [u8; 7] = [0, 0, 1, 0, 1, 0, 0];
const ARW: [u8; 7] = [0, 0, 5, 0, 0, 1, 0];

fn any_report(r: &mut Random) -> Vec<u8> {
    let transitions: Vec<[u8; 7]> = (0..r.below(5)).map(|_| *r.pick(&[MFENCE, SFENCE, SFENCE, NOP, WRITE, READS, ARW])).collect();
    let numbers: Vec<u8> = (0..r.below(4).min(transitions.len())).map(|_| r.below(transitions.len()) as u8).collect();
    let mut file = join(&[&program(&transitions), &marks(&numbers), &[0x0f, 0], &entries(1, r.below(9))]);
    for _ in &numbers {
        file.extend(RUN);
        for _ in 0..r.below(6) {
            match r.below(3) {
                0 => file.extend([0x20, r.below(transitions.len()) as u8]),
                1 => file.extend([0x21, 0, 0]),
                _ => file.extend([0x22, 0]),
            }
        }
    }
    file
}

/// Marks of every operation, in every order, up to four; up to nine different fences, and nine places where one is repeated.
fn every_mark(caller: &mut Caller) -> Result<(), String> {
    let operations = program(&[MFENCE, SFENCE, NOP, WRITE, READS, ARW]);
    let fences = program(&[[0, 0, 3, 0, 0, 0, 0], [0, 0, 4, 0, 0, 0, 0], MFENCE, SFENCE, MFENCE, SFENCE, MFENCE, SFENCE, MFENCE, SFENCE]);
    let lists = [join(&[&[0x0f, 0], &entries(1, 4)]), join(&[&[0x0f, 0], &entries(1, 2)])];
    let report = |program: &[u8], numbers: &[u8], list: &[u8]| join(&[program, &marks(numbers), list, &RUN.repeat(numbers.len())]);
    for length in 0..=4u32 {
        for choice in 0..6usize.pow(length) {
            let numbers: Vec<u8> = (0..length).map(|k| (choice / 6usize.pow(k) % 6) as u8).collect();
            for list in &lists {
                caller.same(&report(&operations, &numbers, list), AREA)?;
            }
        }
    }
    for length in 0..=9u8 {
        let numbers: Vec<u8> = (0..length).collect();
        caller.same(&report(&fences, &numbers, &lists[0]), AREA)?;
        for (at, from) in (0..length as usize).flat_map(|at| (0..length as usize).map(move |from| (at, from))) {
            let mut numbers = numbers.clone();
            numbers[at] = numbers[from];
            caller.same(&report(&fences, &numbers, &lists[0]), AREA)?;
        }
    }
    Ok(())
}

/// Areas around the least, around what the entries need, and around the most that is used.
fn areas(caller: &mut Caller) -> Result<(), String> {
    let head = program(&[MFENCE, SFENCE]);
    let list = |count: usize| join(&[&[0x0f, 0], &entries(1, 4).repeat(count.div_ceil(4))[..]]);
    let report = |count: usize, numbers: &[u8]| join(&[&head, &marks(numbers), &list(count), &RUN.repeat(numbers.len())]);
    for numbers in [&[][..], &[0, 1], &[0, 0]] {
        for area in [0, 1, 16_383, 16_384, 65_524, 65_535, 65_536, 65_537, 70_000] {
            caller.same(&report(4, numbers), area)?;
        }
        for count in [4_096, 4_100, 5_000] {
            for area in [0, 1, 11, 12, 13].iter().flat_map(|apart| [16_384 + 12 * count - apart, 16_384 + 12 * count + apart]) {
                caller.same(&report(count, numbers), area)?;
            }
        }
    }
    let most = reference::AREA_MOST;
    let file = report(524_288, &[0, 1]);
    for area in [most - 12, most, most + 1, most + PAGE] {
        caller.same(&file, area)?;
    }
    caller.same(&report(524_292, &[]), most + 12)
}

/// Programs of 256 transitions and 4,096 targets, with one process and with four.
fn largest_programs(caller: &mut Caller) -> Result<(), String> {
    for processes in 1..=4 {
        let mut head = vec![1, processes, 1, 2, 0, 0, 0];
        (0..processes).for_each(|_| head.extend([2, 2, 0]));
        let file = join(&[&head, &join(&[&[3], &SFENCE]).repeat(256), &[4, 1, 0, 0, 0].repeat(4_096)]);
        for numbers in [&[255][..], &[255, 0], &[0, 1, 2, 3, 252, 253, 254, 255], &[255, 254, 255]] {
            let more = join(&[&file, &marks(numbers), &[0x0f, 0], &entries(1, 4), &join(&[&RUN, &[0x20, 255].repeat(1_024)]).repeat(numbers.len())]);
            caller.same(&more, AREA)?;
        }
        caller.same(&join(&[&file, &[4, 1, 0, 0, 0]]), AREA)?;
    }
    Ok(())
}

// ---- long reports

/// A program, its marks, and a safe list and runs for them, as bytes of a report.
#[derive(Clone)]
struct Long<'a> {
    program: Vec<u8>,
    marks: Vec<u8>,
    entries: &'a [u8],
    count: u64,
    is_safe: bool,
    runs: Vec<Vec<u8>>,
}

impl Long<'_> {
    fn bytes(&self, entries: &[u8]) -> Vec<u8> {
        join(&[&self.program, &marks(&self.marks), &[0x0f, 0], entries, &self.runs.concat()])
    }

    /// By the separate judge, which has judged the list for this program before.
    fn wanted(&self) -> Judged {
        let report: Report = read(&self.bytes(&[]), 0).unwrap_or_else(|fault| panic!("{:?}", fault));
        match (report.wrong_mark(), self.is_safe, report.failing_run()) {
            (Some(place), _, _) => Judged::Refused(22, place as u64),
            (_, false, _) => Judged::Refused(23, 8),
            (_, _, Some(place)) => Judged::Refused(23, place as u64),
            _ => Judged::Needed(self.marks.len() as u64, self.count),
        }
    }

    fn check(&self, caller: &mut Caller, what: &str, wanted: Judged) -> Result<(), String> {
        let file = self.bytes(self.entries);
        let own = self.wanted();
        if own != wanted {
            return Err(format!("{}: the separate judge says {} and not {}", what, own, wanted));
        }
        caller.expect(&file, reference::AREA_MOST, (wanted, file.len(), 0)).map_err(|other| format!("{}: {}", what, other))
    }

    /// The list is safe for this program too, by the separate judge.
    fn judged(mut self) -> Result<Self, String> {
        self.is_safe = true;
        let said = judge(&self.bytes(self.entries), reference::AREA_MOST).0;
        if said == self.wanted() { Ok(self) } else { Err(format!("its list: {}", said)) }
    }

    fn with_runs(&self, runs: Vec<Vec<u8>>) -> Self {
        Long { runs, ..self.clone() }
    }
}

/// The same run by another transition.
fn by(run: &[u8], from: u8, to: u8) -> Vec<u8> {
    let mut run = run.to_vec();
    for at in offsets(&run) {
        if run.get(at) == Some(&0x20) && run[at + 1] == from {
            run[at + 1] = to;
        }
    }
    run
}

/// The run without its last step.
fn cut(run: &[u8]) -> Vec<u8> {
    let offsets = offsets(run);
    run[..offsets[offsets.len() - 2]].to_vec()
}

/// The program with more transitions, behind those that it has.
fn with(program: &[u8], more: &[[u8; 7]]) -> Vec<u8> {
    let target = offsets(program).into_iter().find(|at| program.get(*at) == Some(&4)).unwrap_or(program.len());
    let more: Vec<u8> = more.iter().flat_map(|body| [&[3][..], body].concat()).collect();
    join(&[&program[..target], &more, &program[target..]])
}

fn long(gallery: &str, lists: &[String]) -> Result<(), String> {
    let mut caller = Caller::new();
    for list in lists {
        let name = list.rsplit('/').next().and_then(|name| name.strip_suffix(".list")).ok_or("NAME.list")?;
        let get = |file: &str| std::fs::read(file).map_err(|error| format!("{}: {}", file, error));
        let own = |end: &str| get(&format!("{}/evidence/{}{}", gallery, name, end));
        let (program, all) = (own("-fixed.prog")?, get(list)?);
        let entries = all.strip_prefix(&[&program[..], &[0x0f, 0]].concat()[..]).ok_or("a list of another program")?;
        let count = offsets(entries).iter().filter(|at| entries.get(**at) == Some(&0x10)).count() as u64;
        let fences: Vec<u8> = (0..8).filter(|n| own(&format!("-need-t{}.evid", n)).is_ok()).collect();
        let runs = fences.iter().map(|n| own(&format!("-need-t{}.evid", n))).collect::<Result<Vec<_>, _>>()?;
        let base = Long { program, marks: fences, entries, count, is_safe: true, runs }.judged()?;
        let said = if base.marks.len() == 1 { equal_fences(&mut caller, &base) } else { two_fences(&mut caller, &base) };
        said.map_err(|what| format!("{}: {}", name, what))?;
    }
    println!("reports: {} long reports of {}, the library as the separate judge", caller.calls, lists.join(" and "));
    Ok(())
}

fn refused(number: u64, place: usize) -> Judged {
    Judged::Refused(number, place as u64)
}

/// One fence, and seven more that are equal to it: each run is by its own. And an idle one, whose run needs the other fence away.
fn equal_fences(caller: &mut Caller, base: &Long) -> Result<(), String> {
    base.check(caller, "as it is", Judged::Needed(1, base.count))?;
    let (first, run) = (base.marks[0], &base.runs[0]);
    let records: Vec<usize> = offsets(&base.program).into_iter().filter(|at| base.program.get(*at) == Some(&3)).collect();
    let transitions = records.len() as u8;
    let fence: [u8; 7] = *base.program[records[first as usize] + 1..].first_chunk().ok_or("no such transition")?;
    let marks: Vec<u8> = [first].into_iter().chain(transitions..transitions + 7).collect();
    let runs: Vec<Vec<u8>> = marks.iter().map(|mark| by(run, first, *mark)).collect();
    // The list is safe for it, since equal transitions do the same.
    let eight = Long { program: with(&base.program, &[fence; 7]), marks, runs, ..base.clone() };
    eight.check(caller, "eight equal fences", Judged::Needed(8, base.count))?;
    for i in 0..8 {
        let mut runs = eight.runs.clone();
        runs[i] = eight.runs[(i + 1) % 8].clone();
        eight.with_runs(runs).check(caller, "its neighbour's run", refused(23, i))?;
    }
    let cut_from = |j: usize| if j < 3 { eight.runs[j].clone() } else { cut(&eight.runs[j]) };
    eight.with_runs((0..8).map(cut_from).collect()).check(caller, "cut runs from the fourth on", refused(23, 3))?;
    // The longest program: 256 transitions and 4,096 targets, which say the same.
    let targets = &base.program[offsets(&base.program).into_iter().find(|at| base.program.get(*at) == Some(&4)).unwrap_or(0)..];
    let program = join(&[&with(&base.program, &vec![fence; 256 - records.len()]), &targets[..5].repeat(4_096 - targets.len() / 5)]);
    let runs = vec![by(run, first, 255), run.clone()];
    let largest = Long { program, marks: vec![255, first], runs: runs.clone(), ..base.clone() };
    largest.check(caller, "the longest program", Judged::Needed(2, base.count))?;
    largest.with_runs(vec![runs[0].clone(), runs[0].clone()]).check(caller, "the longest program, its first run twice", refused(23, 1))?;
    // An mfence that leads from the state behind the fence to itself: the list stays safe.
    let idle = [fence[0], fence[6], 3, 0, 0, 0, fence[6]];
    let program = with(&base.program, &[idle]);
    let idle = Long { program, marks: vec![first, transitions], runs: vec![run.clone(); 2], ..base.clone() }.judged()?;
    idle.check(caller, "an idle fence", refused(23, 1))?;
    let turned = Long { marks: vec![transitions, first], ..idle.clone() };
    turned.check(caller, "an idle fence, first", refused(23, 0))
}

fn two_fences(caller: &mut Caller, base: &Long) -> Result<(), String> {
    base.check(caller, "as it is", Judged::Needed(2, base.count))?;
    let [one, two] = [&base.runs[0], &base.runs[1]].map(Clone::clone);
    let turned = vec![base.marks[1], base.marks[0]];
    base.with_runs(vec![two.clone(), one.clone()]).check(caller, "swapped runs", refused(23, 0))?;
    Long { marks: turned.clone(), ..base.clone() }.check(caller, "swapped marks", refused(23, 0))?;
    Long { marks: turned, ..base.with_runs(vec![two.clone(), one.clone()]) }.check(caller, "both swapped", Judged::Needed(2, base.count))?;
    base.with_runs(vec![one.clone(), cut(&two)]).check(caller, "the second cut", refused(23, 1))?;
    base.with_runs(vec![cut(&one), two.clone()]).check(caller, "the first cut", refused(23, 0))?;
    base.with_runs(vec![one.clone(), one.clone()]).check(caller, "the first run twice", refused(23, 1))?;
    for (marks, runs) in [(vec![], vec![]), (vec![base.marks[1]], vec![two.clone()])] {
        let said = Judged::Needed(marks.len() as u64, base.count);
        Long { marks, ..base.with_runs(runs) }.check(caller, "fewer marks", said)?;
    }
    let same = Long { marks: vec![base.marks[0]; 2], ..base.clone() };
    same.check(caller, "a repeated mark", refused(22, 1))?;
    // Runs of 1,024 steps: stores that change nothing come out and are looked up first. One step more is too much.
    let longer = |run: &[u8]| join(&[&run[..7], &[0x20, 0, 0x21, 0, 1, 0x22, 1].repeat(336), &run[7..], &[0x22, 0]]);
    let longest = base.with_runs(base.runs.iter().map(|run| longer(run)).collect());
    longest.check(caller, "1,024 steps in each run", Judged::Needed(2, base.count))?;
    let mut file = longest.bytes(base.entries);
    file.extend([0x22, 0]);
    caller.expect(&file, reference::AREA_MOST, (refused(5, file.len() - 2), file.len() - 2, 2))?;
    // A step of one run changed, at random.
    let r = &mut Random(1);
    for _ in 0..3 {
        let mut runs = base.runs.clone();
        let i = r.below(2);
        let steps: Vec<usize> = offsets(&runs[i]).into_iter().filter(|at| runs[i].get(*at) == Some(&0x20)).collect();
        runs[i][r.pick(&steps) + 1] = r.below(8) as u8;
        let other = base.with_runs(runs);
        other.check(caller, "a changed step", other.wanted())?;
    }
    // An entry left out, though the runs are bad too; and faults of the records behind the list.
    let starts: Vec<usize> = offsets(base.entries).into_iter().filter(|at| matches!(base.entries.get(*at), None | Some(0x10))).collect();
    let whole = base.bytes(base.entries);
    for k in [0, starts.len() / 2, starts.len() - 2] {
        let rest = join(&[&base.entries[..starts[k]], &base.entries[starts[k + 1]..]]);
        let file = base.with_runs(vec![two.clone(), cut(&two)]).bytes(&rest);
        caller.expect(&file, reference::AREA_MOST, (refused(23, 8), file.len(), 0)).map_err(|what| format!("without entry {}: {}", k, what))?;
        if k == 0 && judge(&file, reference::AREA_MOST).0 != refused(23, 8) {
            return Err("the separate judge says something else without entry 0".to_string());
        }
    }
    caller.same(&whole[..whole.len() - 1], reference::AREA_MOST)?;
    caller.same(&join(&[&whole, &[0x0f, 1]]), reference::AREA_MOST)?;
    caller.same(&whole, 16_384 + 12 * (base.count as usize - 1))
}

fn main() {
    let words: Vec<String> = std::env::args().skip(1).collect();
    let number = |k: usize| words.get(k).and_then(|n| n.parse::<usize>().ok());
    let done = match words.first().map(String::as_str) {
        Some("short") => short(number(1).unwrap_or(1) as u64, number(2).unwrap_or(1_000)),
        Some("long") if words.len() > 2 => long(&words[1], &words[2..]),
        _ => Err("short SEED COUNT, or long GALLERY LIST..".to_string()),
    };
    if let Err(what) = done {
        eprintln!("reports: {}", what);
        std::process::exit(1);
    }
}
