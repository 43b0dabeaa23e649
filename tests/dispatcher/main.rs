//! The library's dispatcher beside a model that is written from request N9. Files and areas lie between guard pages, the verdict of a case
//! alone is the library's own, and the turn at which it is due comes from the separate reader's counts.
//! dispatcher rounds: every set of open places after each place last served.
//! dispatcher verdicts SEED EXAMPLES: every verdict that exists, alone at its exact turn, and eight cases at a time.
//! dispatcher histories SEED EXAMPLES CALLS: random histories; `changed`: with files and areas that come back changed, which harms nobody else;
//!     `older`: the state and the areas go back to how they were, again and again.
//! dispatcher unmade SEED EXAMPLES CALLS: dispatchers that no call made.
//! Exit status 0 if all is as the model has it.

mod guarded;
mod library;
mod model;
mod play;
mod pool;
#[allow(dead_code)]
#[path = "../corpora/random.rs"]
mod random;
#[path = "../region.rs"]
mod region;
#[allow(dead_code)]
#[path = "../corpora/search.rs"]
mod search;
#[path = "../corpora/seeded.rs"]
mod seeded;
mod spoilt;

use guarded::File;
use play::History;
use pool::{Case, Pool};
use reference::AREA_LEAST;
use seeded::Random;

// ---- the round

/// A run of as many steps as can be: a process stays where it is by nops.
fn long_run() -> Vec<u8> {
    let program = [&[1, 1, 1, 2, 0, 0, 0, 2, 2, 0, 3][..], &[0; 7], &[4, 1, 0, 0, 0]].concat();
    [&program[..], &[0x0f, 1, 0x1f, 0, 0, 0, 0], &[0x20, 0].repeat(1_024)].concat()
}

/// All 256 sets of open places, before any turn and after each place last served: sixteen turns, then openings until there is no room.
fn rounds() -> Result<(), String> {
    let cases = [Case::new(&long_run(), None, AREA_LEAST)];
    let mut calls = 0;
    for served in 0..=8 {
        let mut full = History::new(&cases);
        (0..8).try_for_each(|_| full.open(0, 1).map(drop))?;
        for _ in 0..served {
            full.turn(None, None)?;
        }
        for open in 0..256 {
            let mut history = full.clone();
            for place in (0..8).filter(|place| open >> place & 1 == 0) {
                history.withdraw(place)?;
            }
            let mut turned = history.clone();
            for _ in 0..16 {
                turned.turn(None, None)?;
            }
            // The round goes on behind the place last served, whatever is opened or given up.
            for place in [0, 7, 3] {
                history.withdraw(place)?;
                history.open(0, 2)?;
                history.turn(None, None)?;
            }
            while history.open(0, 3)?.is_some() {}
            for _ in 0..9 {
                history.turn(None, None)?;
            }
            calls += history.calls + turned.calls;
        }
    }
    println!("dispatcher: 256 sets of open places after each place last served, {} calls", calls);
    Ok(())
}

// ---- every verdict

/// To its verdict, which the history holds to the one alone.
fn to_the_end(history: &mut History, wanted: u64) -> Result<(), String> {
    let mut ended = 0;
    while ended < wanted {
        ended += (history.turn(None, None)?.number == 2) as u64;
    }
    Ok(())
}

fn verdicts(r: &mut Random, pool: &Pool) -> Result<(), String> {
    let mut calls = 0;
    for number in 0..pool.cases.len() {
        let mut history = History::new(&pool.cases);
        history.open(number, 1 + r.below(255) as u8)?;
        to_the_end(&mut history, 1).map_err(|what| format!("case {}: {}", number, what))?;
        history.turn(None, None)?;
        calls += history.calls;
    }
    // A list of 8,000 entries, and one of 4,096 targets: case A's, again and again.
    let a = std::fs::read("examples/case-a.evidence").map_err(|error| error.to_string())?;
    let (head, target, claim, entries) = (&a[..10], &a[10..15], &a[15..17], &a[17..]);
    let list = [head, target, claim, &entries.repeat(2_000)].concat();
    let targets = [head, &target.repeat(4_096), claim, entries].concat();
    let long = [Case::new(&list, None, 16_384 + 12 * 8_000 + 5), Case::new(&targets, None, AREA_LEAST)];
    if long.iter().map(|case| (case.alone.verdict.kind, case.alone.turn)).ne([(0, 16_002), (0, 4_105)]) {
        return Err("the long lists have other verdicts".to_string());
    }
    let mut history = History::new(&long);
    history.open(0, 9)?;
    history.open(1, 9)?;
    to_the_end(&mut history, 2)?;
    calls += history.calls;
    // Eight at a time, each place free again and again.
    let mut numbers: Vec<usize> = (0..pool.cases.len()).collect();
    r.shuffle(&mut numbers);
    let mut history = History::new(&pool.cases);
    for number in numbers {
        while history.model.lowest_free().is_none() {
            history.turn(None, None)?;
        }
        history.open(number, 1 + r.below(255) as u8)?;
    }
    let left = history.model.places.iter().flatten().count() as u64;
    to_the_end(&mut history, left)?;
    println!("dispatcher: {} cases with every verdict that exists, each at its turn, {} calls", pool.cases.len(), calls + history.calls);
    Ok(())
}

// ---- random histories

/// One call of a history. A combined case is lent any second file.
fn call(r: &mut Random, history: &mut History, few: &[usize], any: &File) -> Result<(), String> {
    match r.below(20) {
        0..=2 => history.open(if r.one_in(2) { *r.pick(few) } else { r.below(history.cases.len()) }, 1 + r.below(255) as u8).map(drop),
        3 => history.withdraw(if r.one_in(8) { *r.pick(&[8, 9, 255, 256, 1 << 32, u64::MAX]) } else { r.below(8) as u64 }),
        _ => history.turn(None, if r.one_in(3) { Some(any) } else { None }).map(drop),
    }
}

fn histories(r: &mut Random, pool: &Pool, calls: u64) -> Result<(), String> {
    let (longer, any) = (pool.longer_than(20), File::new(&[3; 50]));
    let (mut done, mut ended) = (0, 0);
    while done < calls {
        let mut history = History::new(&pool.cases);
        for _ in 0..1 + r.below(2_000) {
            call(r, &mut history, &longer, &any)?;
        }
        done += history.calls;
        ended += history.ended;
    }
    println!("dispatcher: {} calls of random histories, {} verdicts as alone", done, ended);
    Ok(())
}

/// Older copies of the state, with the areas of that time: what follows is as from there on, whatever was done since.
fn older(r: &mut Random, pool: &Pool, calls: u64) -> Result<(), String> {
    let (longer, any) = (pool.longer_than(50), File::new(&[]));
    let mut kept = vec![History::new(&pool.cases)];
    let (mut done, mut back) = (0, 0);
    while done < calls {
        let mut history = kept[r.below(kept.len())].clone();
        for _ in 0..r.below(60) {
            call(r, &mut history, &longer, &any)?;
            done += 1;
        }
        if kept.len() < 12 {
            kept.push(history);
        } else {
            let at = r.below(12);
            kept[at] = history;
        }
        back += 1;
    }
    println!("dispatcher: {} calls of histories that went back {} times", done, back);
    Ok(())
}

fn main() {
    let words: Vec<String> = std::env::args().skip(1).collect();
    let number = |at: usize| words.get(at).and_then(|word| word.parse::<u64>().ok()).unwrap_or(0);
    let r = &mut Random(number(1));
    let mut pool = || Pool::new(r, &words[2]);
    let said = match words[0].as_str() {
        "rounds" => rounds(),
        "verdicts" => {
            let pool = pool();
            verdicts(r, &pool)
        }
        "histories" => {
            let pool = pool();
            histories(r, &pool, number(3))
        }
        "older" => {
            let pool = pool();
            older(r, &pool, number(3))
        }
        "changed" => {
            let pool = pool();
            spoilt::changed(r, &pool, number(3))
        }
        "unmade" => {
            let pool = pool();
            spoilt::unmade(r, &pool, number(3))
        }
        other => Err(format!("no {}", other)),
    };
    if let Err(what) = said {
        println!("dispatcher: {}: {}", words.join(" "), what);
        std::process::exit(1);
    }
}
