//! Cases with the verdict that each gets alone, and the own turn at which it is due.

use crate::guarded::File;
use crate::library::{judge, Verdict};
use crate::random;
use crate::seeded::Random;
use reference::reading::body_length;
use reference::{entries_allowed, read, writing, Evidence, Lent, Machine, AREA_LEAST};
use std::collections::BTreeSet;

/// What a case gets alone: its verdict, at that turn of its own.
#[derive(Clone, Copy, Debug)]
pub struct Alone {
    pub verdict: Verdict,
    pub turn: u64,
}

/// The reading; each target, each entry against the starts, each entry's predecessors; or each step and the last test.
pub fn units(lent: Lent, area: usize) -> u64 {
    if area < AREA_LEAST {
        return 1;
    }
    match read(lent, entries_allowed(area)) {
        Err(_) => 1,
        Ok((program, Evidence::List(list))) => 1 + program.targets.len() as u64 + 2 * list.len() as u64,
        Ok((_, Evidence::Run(run))) => 1 + run.steps.len() as u64 + 1,
    }
}

fn lent<'a>(program: &'a [u8], evidence: Option<&'a [u8]>) -> Lent<'a> {
    evidence.map_or(Lent::Combined(program), |evidence| Lent::Pair(program, evidence))
}

/// The verdict is the library's own, the counts are the separate reader's.
pub fn alone(program: &[u8], evidence: Option<&[u8]>, area: usize) -> Alone {
    let verdict = judge(program, evidence, area);
    let lent = lent(program, evidence);
    let units = units(lent, area);
    let (targets, entries) = match read(lent, entries_allowed(area)) {
        Ok((program, Evidence::List(list))) => (program.targets.len() as u64, list.len() as u64),
        _ => (0, 0),
    };
    let k = verdict.second;
    let turn = match (verdict.kind, verdict.first) {
        (2, 1..=8) => 1,
        (2, 9) => k + 2,
        (2, 10) => targets + k + 2,
        (2, 11) => targets + entries + k + 2,
        (2, 12 | 15..=18) => k + 2,
        _ => units,
    };
    Alone { verdict, turn }
}

/// A case that can be opened any number of times, its files between guard pages.
pub struct Case {
    pub program: File,
    pub evidence: Option<File>,
    pub area: usize,
    pub alone: Alone,
}

impl Case {
    pub fn new(program: &[u8], evidence: Option<&[u8]>, area: usize) -> Case {
        Case { program: File::new(program), evidence: evidence.map(File::new), area, alone: alone(program, evidence, area) }
    }

    /// What the verdict is about: with the step of 11, and whether the place is 0.
    fn met(&self) -> Met {
        let v = self.alone.verdict;
        let number = if v.kind == 2 { v.first } else { 0 };
        let placed = matches!(number, 9..=12 | 15..=18);
        (self.evidence.is_some(), v.kind, number, v.step[0], placed && v.second > 0)
    }
}

type Met = (bool, u64, u64, u64, bool);

/// Every verdict that exists: of one file and of two, with every kind of step for 11, at place 0 and further on. At a start nothing waits and every
/// pointer is at the newest message, so step 0 is never 16 or 17.
fn every_verdict() -> BTreeSet<Met> {
    let mut all = BTreeSet::new();
    for two in [false, true] {
        for (kind, number, steps) in [(0, 0, &[0][..]), (1, 0, &[0]), (3, 0, &[0])]
            .into_iter()
            .chain((1..=18).filter(|n| *n != 14).map(|n| (2, n, if n == 11 { &[0x20, 0x21, 0x22][..] } else { &[0] })))
        {
            for step in steps {
                if !matches!(number, 16 | 17) {
                    all.insert((two, kind, number, *step, false));
                }
                if matches!(number, 9..=12 | 15..=18) {
                    all.insert((two, kind, number, *step, true));
                }
            }
        }
    }
    all
}

/// Where the claim stands, if whole records lead there.
fn claim(file: &[u8]) -> Option<usize> {
    let mut at = 0;
    while *file.get(at)? != 0x0f {
        at += 1 + body_length(file[at])?;
    }
    Some(at)
}

/// An area for it: mostly the least, or a larger one, or by chance one that is too small.
fn area(r: &mut Random) -> usize {
    match r.below(12) {
        0 => *r.pick(&[0, 1, 16_383, 16_384, 65_535]),
        1 | 2 => AREA_LEAST + r.below(5_000),
        _ => AREA_LEAST,
    }
}

pub struct Pool {
    pub cases: Vec<Case>,
    met: BTreeSet<Met>,
}

impl Pool {
    /// As a combined file, as the pair that it is when it is cut at its claim, and by chance damaged.
    fn add(&mut self, r: &mut Random, file: &[u8]) {
        let at = claim(file).unwrap_or(r.below(file.len() + 1));
        let damaged = random::damaged_bytes(r, file);
        let area = area(r);
        self.push(Case::new(file, None, area));
        self.push(Case::new(&file[..at], Some(&file[at..]), area));
        let at = at.min(damaged.len());
        self.push(Case::new(&damaged, None, AREA_LEAST));
        self.push(Case::new(&damaged[..at], Some(&damaged[at..]), AREA_LEAST));
    }

    fn push(&mut self, case: Case) {
        self.met.insert(case.met());
        self.cases.push(case);
    }

    /// The examples, random runs of both machines and random lists, until every verdict has been met.
    pub fn new(r: &mut Random, examples: &str) -> Pool {
        let mut pool = Pool { cases: Vec::new(), met: BTreeSet::new() };
        let mut names: Vec<_> = std::fs::read_dir(examples).expect("the examples").map(|entry| entry.expect("an example").path()).collect();
        names.sort();
        for name in names.iter().filter(|name| name.extension().is_some_and(|end| end == "evidence")) {
            pool.add(r, &std::fs::read(name).expect("an example"));
        }
        for round in 0..20 {
            for machine in [Machine::Pws, Machine::Pso] {
                for _ in 0..6 {
                    let (program, run) = random::walk(r, machine);
                    pool.add(r, &writing::run_file(&program, &run));
                    let damaged = random::damaged_run(r, &program, &run);
                    pool.add(r, &damaged);
                }
                let mut steps = Vec::new();
                random::refused_steps(r, machine, &mut |_, _, _, file| steps.push(file.to_vec()));
                steps.iter().take(8).for_each(|file| pool.add(r, file));
            }
            let mut lists = Vec::new();
            random::lists(r, &mut |program, entries| lists.push(writing::list_file(program, entries)));
            r.shuffle(&mut lists);
            lists.iter().filter(|file| file.len() < 20_000).take(60).for_each(|file| pool.add(r, file));
            let missing: Vec<_> = every_verdict().difference(&pool.met).copied().collect();
            if missing.is_empty() {
                return pool;
            }
            if round == 19 {
                panic!("no case has {:?}", missing);
            }
        }
        pool
    }

    /// Cases of at least so many turns of their own.
    pub fn longer_than(&self, turns: u64) -> Vec<usize> {
        (0..self.cases.len()).filter(|n| self.cases[*n].alone.turn > turns).collect()
    }
}
