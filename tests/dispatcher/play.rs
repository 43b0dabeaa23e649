//! A history of calls, each held to the model: the answer, the state that it leaves, and the area that it was lent.

use crate::guarded::{Area, File};
use crate::library::{self, Dispatcher, Progress, Turned, Verdict};
use crate::model::Model;
use crate::pool::{units, Alone, Case};
use reference::{entries_allowed, Lent, AREA_LEAST};

/// An open case: its area, the turns that it has had, all turns since it was opened, and those since one was its own.
#[derive(Clone)]
pub struct Open {
    pub case: usize,
    pub area: Area,
    pub had: u64,
    since: u64,
    waited: u64,
    /// Units in all, by what was lent at the reading; 0 before.
    units: u64,
    /// Files and area came back as they were.
    pub kept: bool,
}

/// What is lent in place of a case's own files and area.
pub struct Changed {
    pub program: File,
    pub evidence: File,
    pub area: Option<Area>,
}

#[derive(Clone)]
pub struct History<'a> {
    pub cases: &'a [Case],
    pub d: Dispatcher,
    pub model: Model<Open>,
    pub calls: u64,
    pub ended: u64,
}

macro_rules! check {
    ($what:expr, $($words:tt)*) => {
        if !$what {
            return Err(format!($($words)*));
        }
    };
}

/// "Zeroes the area then lent by document 01's rule (one under 65,536 bytes stays untouched)."
pub fn is_zeroed(before: &[u8], after: &[u8]) -> bool {
    if before.len() < AREA_LEAST {
        return before == after;
    }
    let used = 16_384 + 12 * entries_allowed(before.len());
    after[..used].iter().all(|byte| *byte == 0) && after[used..] == before[used..]
}

/// Turns before the verdict write there only.
pub fn is_within(before: &[u8], after: &[u8]) -> bool {
    let used = (16_384 + 12 * entries_allowed(before.len())).min(before.len());
    after[used..] == before[used..]
}

/// The record is a part of the file that it names.
fn is_part(v: &Verdict, program: &File, evidence: Option<&File>) -> bool {
    let file = match (v.record_file, evidence) {
        (0, _) => program,
        (1, Some(evidence)) => evidence,
        _ => return false,
    };
    v.record_at.checked_add(v.record_length).is_some_and(|end| end <= file.length as u64)
}

impl<'a> History<'a> {
    pub fn new(cases: &'a [Case]) -> History<'a> {
        History { cases, d: Dispatcher::default(), model: Model::empty(), calls: 0, ended: 0 }
    }

    /// What can be asked of the state: the place that is due, and how far each case is.
    fn look(&self) -> Result<(), String> {
        let due = self.model.due().map_or(8, |p| p as u64);
        check!(library::due(self.d) == due, "due is {} and not {}", library::due(self.d), due);
        for p in 0..10 {
            let wanted = match self.model.at(p) {
                None => Progress::default(),
                Some(n) => self.model.places[n].as_ref().map_or(Progress::default(), |open| Progress { done: open.had, all: open.units }),
            };
            let said = library::progress(self.d, p);
            check!(said == wanted, "progress of place {} is {:?} and not {:?}", p, said, wanted);
        }
        Ok(())
    }

    /// Nothing but these places, and where the round goes on, differs from what was before.
    fn only(&mut self, d: Dispatcher, places: &[usize], moved: bool) -> Result<(), String> {
        let same = (0..8).all(|n| places.contains(&n) || self.d.places[n] == d.places[n]);
        check!(same && (moved || self.d.next == d.next), "the state changed elsewhere: {:?}, before {:?}", d, self.d);
        self.d = d;
        self.look()
    }

    pub fn open(&mut self, number: usize, filling: u8) -> Result<Option<usize>, String> {
        self.calls += 1;
        let case = &self.cases[number];
        let mut area = Area::new(&vec![filling; case.area]);
        let said = library::open(self.d, &case.program, case.evidence.as_ref(), self.calls as usize % 2, &mut area);
        check!(area.seen().iter().all(|byte| *byte == filling) && area.is_alone(), "opening wrote to the area");
        let Some(p) = self.model.lowest_free() else {
            check!((said.number, said.place) == (20, 0), "opening with all eight taken: {} {}", said.number, said.place);
            return self.only(said.dispatcher, &[], false).map(|_| None);
        };
        check!((said.number, said.place) == (0, p as u64), "opening: {} {} and not place {}", said.number, said.place, p);
        self.model.places[p] = Some(Open { case: number, area, had: 0, since: 0, waited: 0, units: 0, kept: true });
        self.only(said.dispatcher, &[p], false).map(|_| Some(p))
    }

    pub fn withdraw(&mut self, place: u64) -> Result<(), String> {
        self.withdraw_with(place, None)
    }

    /// Any place may be named, and another area lent. One that is not open is lent an area of its own.
    pub fn withdraw_with(&mut self, place: u64, other: Option<Area>) -> Result<(), String> {
        self.calls += 1;
        let Some(p) = self.model.at(place) else {
            let mut area = Area::new(&[7; AREA_LEAST]);
            let said = library::withdraw(self.d, place, &mut area);
            check!((said.number, said.place) == (21, 0), "withdrawing {}: {} {}", place, said.number, said.place);
            check!(area.seen().iter().all(|byte| *byte == 7) && area.is_alone(), "21 wrote to the area");
            return self.only(said.dispatcher, &[], false);
        };
        let Some(open) = self.model.places[p].take() else { return Ok(()) };
        let mut area = other.unwrap_or(open.area);
        let before = area.seen().to_vec();
        let said = library::withdraw(self.d, place, &mut area);
        check!((said.number, said.place) == (0, place), "withdrawing {}: {} {}", place, said.number, said.place);
        check!(is_zeroed(&before, area.seen()) && area.is_alone(), "the area of {} bytes after a withdrawal", before.len());
        self.only(said.dispatcher, &[p], false)
    }

    /// A turn, of the case that is due: with its own files and area, or with others. Of a combined case any second file can be lent.
    pub fn turn(&mut self, changed: Option<Changed>, second: Option<&File>) -> Result<Turned, String> {
        self.calls += 1;
        let copy = self.calls as usize % 2;
        let Some(p) = self.model.due() else {
            let (file, mut area) = (File::new(b"any"), Area::new(&[7; AREA_LEAST]));
            let said = library::turn(self.d, &file, &file, copy, &mut area);
            check!((said.number, said.place, said.verdict) == (0, 0, Verdict::default()), "an idle turn: {:?}", said);
            check!(area.seen().iter().all(|byte| *byte == 7) && area.is_alone(), "an idle turn wrote to the area");
            self.only(said.dispatcher, &[], false)?;
            return Ok(said);
        };
        let Some(mut open) = self.model.places[p].take() else { return Err("nothing there".to_string()) };
        let case = &self.cases[open.case];
        let two = case.evidence.is_some();
        open.kept &= changed.is_none();
        let changed = changed.as_ref();
        let program = changed.map_or(&case.program, |other| &other.program);
        let evidence = changed.map_or(case.evidence.as_ref().or(second).unwrap_or(program), |other| &other.evidence);
        // Now and then the area comes back at another address.
        let mut other = changed.and_then(|other| other.area.clone()).or_else(|| (self.calls % 8 == 0).then(|| open.area.clone()));
        let area = other.as_mut().unwrap_or(&mut open.area);
        let before = area.seen().to_vec();
        let said = library::turn(self.d, program, evidence, copy, area);
        check!(said.place == p as u64, "place {} was served and not {}", said.place, p);
        check!(area.is_alone(), "bytes before the area were written");
        let after = area.seen().to_vec();
        open.area = other.unwrap_or(open.area);
        open.had += 1;
        if open.had == 1 {
            let lent = if two { Lent::Pair(program.bytes(), evidence.bytes()) } else { Lent::Combined(program.bytes()) };
            open.units = units(lent, before.len());
        }
        self.count(p, &mut open)?;
        let ends = match said.number {
            1 => false,
            2 => true,
            _ => return Err(format!("a turn of place {} says {}", p, said.number)),
        };
        let part = is_part(&said.verdict, program, if two { Some(evidence) } else { None });
        check!(if ends { is_zeroed(&before, &after) } else { is_within(&before, &after) }, "the area of {} bytes, {:?}", before.len(), said.verdict);
        check!(ends && part || said.verdict == Verdict::default(), "the verdict {:?} with {}", said.verdict, said.number);
        check!(ends || open.had < open.units, "{} turns of {} units, and no verdict", open.had, open.units);
        if open.kept {
            as_alone(&said, open.had, &case.alone).map_err(|what| format!("place {}: {}", p, what))?;
        }
        self.model.last_served = Some(p);
        self.model.places[p] = if ends { None } else { Some(open) };
        self.ended += ends as u64;
        self.only(said.dispatcher, &[p], true)?;
        Ok(said)
    }

    /// "In any eight turns every case open throughout gets one", and the verdict is there within 8 turns for each unit.
    fn count(&mut self, p: usize, open: &mut Open) -> Result<(), String> {
        open.since += 1;
        open.waited = 0;
        check!(open.since <= 8 * open.units, "{} turns for {} units", open.since, open.units);
        for (q, other) in self.model.places.iter_mut().enumerate() {
            if let Some(other) = other.as_mut().filter(|_| q != p) {
                other.since += 1;
                other.waited += 1;
                check!(other.waited < 8, "place {} waits for {} turns", q, other.waited);
            }
        }
        Ok(())
    }
}

/// The verdict that the case gets alone, at the turn of its own at which it is due, and not before.
fn as_alone(said: &Turned, had: u64, alone: &Alone) -> Result<(), String> {
    let wanted = if had == alone.turn { (2, alone.verdict) } else { (1, Verdict::default()) };
    check!((said.number, said.verdict) == wanted, "own turn {}: {} {:?}, alone {:?}", had, said.number, said.verdict, alone);
    Ok(())
}
