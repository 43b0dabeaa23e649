//! Files and areas that come back changed, exchanged, shortened or emptied; and dispatchers that no call made. Each call returns, and touches
//! nothing but what it was lent; a case ends within the units that were counted at its reading; no other case is harmed.

use crate::guarded::{Area, File};
use crate::library::{self, Dispatcher, Place, Verdict, OWN};
use crate::play::{is_within, is_zeroed, Changed, History};
use crate::pool::{Case, Pool};
use crate::random::damaged_bytes;
use crate::seeded::Random;
use reference::AREA_LEAST;

const LENGTHS: [usize; 10] = [0, 1, 16_383, 16_384, 16_395, 16_396, 65_535, 65_536, 65_537, 80_000];

fn any_bytes(r: &mut Random, length: usize) -> Vec<u8> {
    let mut bytes: Vec<u8> = (0..length.div_ceil(8)).flat_map(|_| r.next().to_le_bytes()).collect();
    bytes.truncate(length);
    bytes
}

/// Bytes that an area may come back with, in place of these.
fn spoilt_area(r: &mut Random, own: &[u8], other: &[u8]) -> Vec<u8> {
    let mut bytes = own.to_vec();
    match r.below(8) {
        0 => bytes.fill(0),
        1 => bytes.fill(255),
        2 => bytes = any_bytes(r, own.len()),
        3 => bytes.resize(*r.pick(&LENGTHS), r.next() as u8),
        4 => bytes = other.to_vec(),
        5 => bytes.rotate_right((12 + r.below(16_384)).min(own.len())),
        _ => {
            for _ in 0..1 + r.below(40) {
                if let Some(last) = bytes.len().checked_sub(1) {
                    // The words of an entry's offset and of its summary are among the first.
                    let at = if r.one_in(2) { r.below(last + 1) } else { (16_384 + r.below(256)).min(last) };
                    bytes[at] = r.next() as u8;
                }
            }
        }
    }
    bytes
}

/// What a file may come back as.
fn spoilt_file(r: &mut Random, own: &[u8], other: &[u8]) -> Vec<u8> {
    match r.below(6) {
        0 => Vec::new(),
        1 => own[..r.below(own.len() + 1)].to_vec(),
        2 => other.to_vec(),
        3 => {
            let length = r.below(2_000);
            any_bytes(r, length)
        }
        4 => [own, other].concat(),
        _ => damaged_bytes(r, own),
    }
}

fn spoil(r: &mut Random, history: &History) -> Option<Changed> {
    let open = history.model.places[history.model.due()?].as_ref()?;
    let (case, other) = (&history.cases[open.case], &history.cases[r.below(history.cases.len())]);
    let own_evidence = case.evidence.as_ref().unwrap_or(&case.program);
    let other_evidence = other.evidence.as_ref().unwrap_or(&other.program);
    let (files, areas) = *r.pick(&[(1, true), (2, false), (3, false), (0, true), (3, true)]);
    let file = |r: &mut Random, changes: bool, own: &File, other: &File| {
        if changes {
            File::new(&spoilt_file(r, own.bytes(), other.bytes()))
        } else {
            File::new(own.bytes())
        }
    };
    let program = file(r, files & 1 > 0, &case.program, &other.program);
    let evidence = file(r, files & 2 > 0, own_evidence, other_evidence);
    let neighbour = history.model.places.iter().flatten().next()?;
    let area = areas.then(|| Area::new(&spoilt_area(r, open.area.seen(), neighbour.area.seen())));
    Some(Changed { program, evidence, area })
}

/// Some cases come back changed, at one turn or at each from then on; the history holds all the others to their verdicts alone.
pub fn changed(r: &mut Random, pool: &Pool, calls: u64) -> Result<(), String> {
    let longer = pool.longer_than(20);
    let (mut done, mut spoilt, mut ended) = (0, 0, 0);
    while done < calls {
        let mut history = History::new(&pool.cases);
        for _ in 0..1 + r.below(1_000) {
            match r.below(20) {
                0..=2 => drop(history.open(if r.one_in(2) { *r.pick(&longer) } else { r.below(pool.cases.len()) }, r.next() as u8)?),
                3 => {
                    let length = *r.pick(&LENGTHS);
                    let other = if r.one_in(2) { Some(Area::new(&any_bytes(r, length))) } else { None };
                    history.withdraw_with(r.below(9) as u64, other)?;
                }
                _ => {
                    // Of four places one or two have such cases.
                    let open = history.model.due().and_then(|p| history.model.places[p].as_ref().map(|open| (p, open)));
                    let often = open.map_or(1_000, |(p, open)| {
                        if p % 4 != 1 {
                            1_000
                        } else if open.kept {
                            6
                        } else {
                            2
                        }
                    });
                    let change = if often < 1_000 && r.one_in(often) { spoil(r, &history) } else { None };
                    spoilt += change.is_some() as u64;
                    history.turn(change, None)?;
                }
            }
        }
        done += history.calls;
        ended += history.ended;
    }
    println!("dispatcher: {} calls, in {} of which files or areas came back changed; {} verdicts", done, spoilt, ended);
    Ok(())
}

/// A state of any bytes; of small numbers; or one that calls made, with some words changed.
fn any_state(r: &mut Random, made: Dispatcher) -> Dispatcher {
    let mut d = if r.one_in(2) { made } else { Dispatcher::default() };
    let how = r.below(3);
    for place in &mut d.places {
        let mut words = [0; 1 + OWN];
        words[0] = place.taken;
        words[1..].copy_from_slice(&place.own);
        for word in &mut words {
            match how {
                0 => *word = r.next(),
                1 => *word = *r.pick(&[0, 1, 2, 3, 4, 5, 100, 4_096, 65_536, u64::MAX, u64::MAX - 1, 1 << 63, 0x0101_0101_0101_0101]),
                _ if r.one_in(10) => *word = r.next() >> r.below(64),
                _ => {}
            }
        }
        if r.one_in(3) {
            words[0] %= 3;
        }
        *place = Place { taken: words[0], own: words[1..].try_into().unwrap_or([0; OWN]) };
    }
    if r.one_in(2) {
        d.next = if r.one_in(2) { r.next() } else { r.below(9) as u64 };
    }
    d
}

/// One call of such a dispatcher: it returns, goes by which places are taken, and writes nothing but what it may of the area that it is lent.
fn any_call(r: &mut Random, d: Dispatcher, case: &Case, area: &mut Area) -> Result<Dispatcher, String> {
    let before = area.seen().to_vec();
    let due = library::due(d);
    let open: Vec<bool> = d.places.iter().map(|place| place.taken > 0).collect();
    let right = if due < 8 { open[due as usize] } else { due == 8 && !open.contains(&true) };
    library::progress(d, r.next() >> r.below(64));
    let (right, next) = match r.below(8) {
        0 => {
            let said = library::open(d, &case.program, case.evidence.as_ref(), 0, area);
            let free = open.iter().position(|open| !open);
            let wanted = free.map_or((20, 0), |p| (0, p as u64));
            (right && (said.number, said.place) == wanted && area.seen() == before && said.dispatcher.next == d.next, said.dispatcher)
        }
        1 => {
            let place = r.below(9);
            let said = library::withdraw(d, place as u64, area);
            let was_open = open.get(place) == Some(&true);
            let wanted = if was_open { (0, place as u64) } else { (21, 0) };
            let zeroed = if was_open { is_zeroed(&before, area.seen()) } else { area.seen() == before };
            (right && (said.number, said.place) == wanted && zeroed && said.dispatcher.next == d.next, said.dispatcher)
        }
        _ => {
            let said = library::turn(d, &case.program, case.evidence.as_ref().unwrap_or(&case.program), 1, area);
            let silent = said.verdict == Verdict::default();
            let fits = match said.number {
                0 => due == 8 && said.place == 0 && silent && area.seen() == before && said.dispatcher == d,
                1 => said.place == due && silent && is_within(&before, area.seen()),
                2 => said.place == due && is_zeroed(&before, area.seen()),
                _ => false,
            };
            (right && fits && (due == 8) == (said.number == 0), said.dispatcher)
        }
    };
    if right && area.is_alone() {
        Ok(next)
    } else {
        Err(format!("an area of {} bytes, due {}, of {:?}, then {:?}", before.len(), due, d, next))
    }
}

pub fn unmade(r: &mut Random, pool: &Pool, calls: u64) -> Result<(), String> {
    let mut made = History::new(&pool.cases);
    let mut number = 0;
    while number < calls {
        if r.one_in(50) {
            made = History::new(&pool.cases);
        }
        made.open(r.below(pool.cases.len()), 5)?;
        made.turn(None, None)?;
        let mut d = any_state(r, made.d);
        let length = if r.one_in(3) { *r.pick(&LENGTHS) } else { AREA_LEAST };
        let bytes = any_bytes(r, length);
        let mut area = Area::new(&spoilt_area(r, &bytes, &bytes));
        let case = &pool.cases[r.below(pool.cases.len())];
        for _ in 0..1 + r.below(12) {
            number += 1;
            d = any_call(r, d, case, &mut area)?;
        }
    }
    println!("dispatcher: {} calls of dispatchers that no call made", number);
    Ok(())
}
