//! Pattern lists, judged as docs/PATTERNS.md says and by nothing else. The driver is tests/patterns.

use reference::machine::last_write;
use reference::{Configuration, Operation, Program, Step, Transition, FF};
use std::collections::HashMap;

/// A read of a path.
#[derive(Clone, Copy, PartialEq, Eq, Hash, Debug)]
pub struct Read {
    pub variable: usize,
    pub value: u8,
    pub own: bool,
}

/// What a queue is asked for. A word that would end in FF contains it.
#[derive(Clone, PartialEq, Eq, Hash, Debug)]
pub enum Clue {
    Empty,
    Ends(Vec<u8>),
    Contains(Vec<u8>),
}

impl Clue {
    fn ends(word: Vec<u8>) -> Clue {
        if word.last() == Some(&FF) {
            Clue::Contains(word)
        } else {
            Clue::Ends(word)
        }
    }

    fn nothing() -> Clue {
        Clue::Contains(Vec::new())
    }

    fn can_be_emptied(&self) -> bool {
        *self == Clue::Empty || *self == Clue::nothing()
    }

    fn word(&self) -> &[u8] {
        match self {
            Clue::Empty => &[],
            Clue::Ends(word) | Clue::Contains(word) => word,
        }
    }
}

#[derive(Clone, PartialEq, Eq, Hash, Debug)]
pub struct Pattern {
    pub states: [u8; 4],
    /// FF: free; absent variables are free.
    pub newest: [u8; 4],
    /// Of p and v at p * variables + v.
    pub clues: Vec<Clue>,
    pub paths: Vec<Vec<Read>>,
}

impl Pattern {
    pub fn of_target(program: &Program, states: [u8; 4]) -> Pattern {
        Pattern {
            states,
            newest: [FF; 4],
            clues: vec![Clue::nothing(); program.processes * program.variables],
            paths: vec![Vec::new(); program.processes],
        }
    }
}

/// Does each of xs go, in order, to one of ys? All ways are tried, from the ends on.
fn subsequence<A, B>(xs: &[A], ys: &[B], goes: &dyn Fn(&A, &B) -> bool) -> bool {
    let mut fits = vec![false; xs.len() + 1];
    fits[0] = true;
    for y in ys {
        for i in (0..xs.len()).rev() {
            fits[i + 1] = fits[i + 1] || (fits[i] && goes(&xs[i], y));
        }
    }
    fits[xs.len()]
}

// ---- fitting

fn clue_fits(clue: &Clue, queue: &[u8]) -> bool {
    let goes = |asked: &u8, value: &u8| asked == value || *asked == FF;
    match clue {
        Clue::Empty => queue.is_empty(),
        Clue::Contains(word) => subsequence(word, queue, &goes),
        Clue::Ends(word) => match (word.split_last(), queue.split_last()) {
            (Some((last, word)), Some((newest, queue))) => goes(last, newest) && subsequence(word, queue, &goes),
            _ => false,
        },
    }
}

/// The reads, with the read before them at message `before` (0: none).
fn path_fits(c: &Configuration, p: usize, path: &[Read], before: usize) -> bool {
    let Some((read, rest)) = path.split_first() else { return true };
    let low = before.max(last_write(&c.channel, c.pointers[p], p, read.variable));
    (low..=c.channel.len()).any(|i| {
        let message = &c.channel[i - 1];
        message.snapshot[read.variable] == read.value
            && (!read.own || before < i && message.is_labelled(p, read.variable))
            && path_fits(c, p, rest, i)
    })
}

pub fn fits(program: &Program, a: &Pattern, c: &Configuration) -> bool {
    let newest = c.channel[c.channel.len() - 1].snapshot;
    a.states == c.states
        && (0..program.variables).all(|v| a.newest[v] == FF || a.newest[v] == newest[v])
        && a.clues.iter().zip(&c.queues).all(|(clue, queue)| clue_fits(clue, queue))
        && (0..program.processes).all(|p| path_fits(c, p, &a.paths[p], 0))
}

// ---- within

fn clue_within(a: &Clue, b: &Clue) -> bool {
    let goes = |b: &u8, a: &u8| b == a || *b == FF;
    match (a, b) {
        (_, Clue::Contains(word)) if word.is_empty() => true,
        (Clue::Empty, Clue::Empty) => true,
        (Clue::Contains(w) | Clue::Ends(w), Clue::Contains(word)) => subsequence(word, w, &goes),
        (Clue::Ends(w), Clue::Ends(word)) => {
            let (v, w) = w.split_last().unwrap();
            let (u, word) = word.split_last().unwrap();
            u == v && subsequence(word, w, &goes)
        }
        _ => false,
    }
}

fn path_within(newest: &[u8; 4], a: &[Read], b: &[Read]) -> bool {
    let goes = |b: &Read, a: &Read| (b.variable, b.value) == (a.variable, a.value) && (!b.own || a.own);
    (0..=b.len()).any(|cut| {
        let (front, rest) = b.split_at(cut);
        rest.iter().all(|read| !read.own && newest[read.variable] == read.value) && subsequence(front, a, &goes)
    })
}

pub fn within(program: &Program, a: &Pattern, b: &Pattern) -> bool {
    a.states == b.states
        && (0..program.variables).all(|v| b.newest[v] == FF || b.newest[v] == a.newest[v])
        && a.clues.iter().zip(&b.clues).all(|(a, b)| clue_within(a, b))
        && a.paths.iter().zip(&b.paths).all(|(p, q)| path_within(&a.newest, p, q))
}

// ---- predecessors

/// None: can't be joined.
fn joined<'a>(newest: [u8; 4], reads: impl Iterator<Item = &'a Read>) -> Option<[u8; 4]> {
    let mut newest = newest;
    for read in reads {
        let asked = &mut newest[read.variable];
        if read.own || *asked != FF && *asked != read.value {
            return None;
        }
        *asked = read.value;
    }
    Some(newest)
}

/// A new message of label (p, x), of which p reads `end` and has read `front` before: what is asked of the newest message once all ends are
/// joined, and the fronts, in every combination of the others' cuts.
fn new_message(program: &Program, a: &Pattern, p: usize, x: usize, front: &[Read], end: Vec<Read>) -> Vec<([u8; 4], Vec<Vec<Read>>)> {
    let Some(newest) = joined(a.newest, end.iter()) else { return Vec::new() };
    let mut all = vec![(newest, Vec::new())];
    for q in 0..program.processes {
        let path = &a.paths[q];
        let mut cuts = vec![path.len()];
        cuts.extend((0..path.len()).filter(|i| path[*i].variable == x));
        let mut next = Vec::new();
        for (newest, fronts) in all {
            let mut put = |newest, front: &[Read]| {
                let mut fronts: Vec<Vec<Read>> = fronts.clone();
                fronts.push(front.to_vec());
                next.push((newest, fronts));
            };
            if q == p {
                put(newest, front);
                continue;
            }
            for cut in &cuts {
                if let Some(newest) = joined(newest, path[*cut..].iter()) {
                    put(newest, &path[..*cut]);
                }
            }
        }
        all = next;
    }
    all
}

fn with_clue(a: &Pattern, queue: usize, clue: Clue) -> Pattern {
    let mut b = a.clone();
    b.clues[queue] = clue;
    b
}

/// The word without its last value, if that is v or FF.
fn without_last(word: &[u8], v: u8) -> Vec<u8> {
    match word.split_last() {
        Some((last, word)) if *last == v || *last == FF => word.to_vec(),
        _ => word.to_vec(),
    }
}

fn before_read(program: &Program, a: &Pattern, p: usize, x: usize, v: u8) -> Vec<Pattern> {
    let queue = program.queue(p, x);
    let mut all = Vec::new();
    // From the queue.
    match &a.clues[queue] {
        Clue::Empty => {}
        Clue::Ends(word) => {
            if word.last() == Some(&v) {
                all.push(a.clone());
            }
        }
        Clue::Contains(word) => {
            let mut word = without_last(word, v);
            word.push(v);
            all.push(with_clue(a, queue, Clue::Ends(word)));
        }
    }
    // From a message.
    if a.clues[queue].can_be_emptied() {
        let b = with_clue(a, queue, Clue::Empty);
        let path = &a.paths[p];
        if let Some(own) = path.iter().find(|read| read.own && read.variable == x) {
            if own.value == v {
                all.push(b);
            }
        } else {
            for l in 0..=path.len() {
                if path[..l].iter().any(|read| read.variable == x) {
                    break;
                }
                let mut b = b.clone();
                b.paths[p].insert(l, Read { variable: x, value: v, own: l > 0 });
                all.push(b);
            }
        }
    }
    all
}

fn before_operation(program: &Program, a: &Pattern, p: usize, operation: Operation) -> Vec<Pattern> {
    let emptied = || {
        let mut b = a.clone();
        for v in 0..program.variables {
            let clue = &mut b.clues[program.queue(p, v)];
            if !clue.can_be_emptied() {
                return None;
            }
            *clue = Clue::Empty;
        }
        Some(b)
    };
    match operation {
        Operation::Nop => vec![a.clone()],
        Operation::Sfence => emptied().into_iter().collect(),
        Operation::Mfence => {
            let Some(mut b) = emptied() else { return Vec::new() };
            let Some(newest) = joined(a.newest, a.paths[p].iter()) else { return Vec::new() };
            b.newest = newest;
            b.paths[p].clear();
            vec![b]
        }
        Operation::Write { variable, value } => {
            let queue = program.queue(p, variable);
            match &a.clues[queue] {
                Clue::Empty => Vec::new(),
                Clue::Ends(word) if word.last() != Some(&value) => Vec::new(),
                Clue::Ends(word) => vec![with_clue(a, queue, Clue::Contains(word[..word.len() - 1].to_vec()))],
                Clue::Contains(word) => vec![with_clue(a, queue, Clue::Contains(without_last(word, value)))],
            }
        }
        Operation::Read { variable, value } => before_read(program, a, p, variable, value),
        Operation::Arw { variable, old, new } => {
            let queue = program.queue(p, variable);
            if !a.clues[queue].can_be_emptied() {
                return Vec::new();
            }
            let mut all = Vec::new();
            for (mut newest, paths) in new_message(program, a, p, variable, &[], a.paths[p].clone()) {
                if newest[variable] == FF || newest[variable] == new {
                    newest[variable] = old;
                    let mut b = with_clue(a, queue, Clue::Empty);
                    (b.newest, b.paths) = (newest, paths);
                    all.push(b);
                }
            }
            all
        }
    }
}

pub fn predecessors(program: &Program, a: &Pattern, step: Step) -> Vec<Pattern> {
    match step {
        Step::Update(_) => Vec::new(),
        Step::Transition(number) => {
            let Transition { process: p, from, operation, to } = program.transitions[number];
            if a.states[p] != to {
                return Vec::new();
            }
            let mut all = before_operation(program, a, p, operation);
            for b in &mut all {
                b.states[p] = from;
            }
            all
        }
        Step::Serialise(p, x) => {
            let path = &a.paths[p];
            let cut = path.iter().position(|read| read.variable == x).unwrap_or(path.len());
            let mut end = path[cut..].to_vec();
            if let Some(first) = end.first_mut() {
                first.own = false;
            }
            let queue = program.queue(p, x);
            let mut all = Vec::new();
            for (mut newest, paths) in new_message(program, a, p, x, &path[..cut], end) {
                let mut word = vec![newest[x]];
                word.extend(a.clues[queue].word());
                let mut b = with_clue(a, queue, if matches!(a.clues[queue], Clue::Contains(_)) { Clue::Contains(word) } else { Clue::ends(word) });
                newest[x] = FF;
                (b.newest, b.paths) = (newest, paths);
                all.push(b);
            }
            all
        }
    }
}

// ---- never stored

pub fn dropped(program: &Program, a: &Pattern) -> bool {
    let some = |p: usize, is: &dyn Fn(Operation) -> bool| program.transitions.iter().any(|t| t.process == p && is(t.operation));
    (0..program.processes).any(|p| {
        (0..program.variables).any(|x| {
            a.clues[program.queue(p, x)].word().iter().any(|v| {
                !some(p, &|o| matches!(o, Operation::Write { variable, value } if variable == x && (value == *v || *v == FF)))
            })
        }) || a.paths[p].iter().any(|read| {
            let stores = |o| match o {
                Operation::Write { variable, value } | Operation::Arw { variable, new: value, .. } => (variable, value) == (read.variable, read.value),
                _ => false,
            };
            read.own && !some(p, &stores)
        })
    })
}

// ---- verdict

pub fn start_fits(program: &Program, a: &Pattern) -> bool {
    (0..program.processes).all(|p| a.states[p] == program.initial[p])
        && a.clues.iter().all(Clue::can_be_emptied)
        && joined(a.newest, a.paths.iter().flatten()).is_some()
}

/// What the line says.
#[derive(Clone, Copy, PartialEq, Eq, Debug)]
pub enum Verdict {
    Safe(usize),
    Refused(u64, usize),
    Open(usize, Step),
}

impl std::fmt::Display for Verdict {
    fn fmt(&self, f: &mut std::fmt::Formatter) -> std::fmt::Result {
        match self {
            Verdict::Safe(n) => write!(f, "safe {}", n),
            Verdict::Refused(number, place) => write!(f, "refused {} {}", number, place),
            Verdict::Open(pattern, step) => write!(f, "refused 11 {} {}", pattern, step),
        }
    }
}

/// Patterns by their local states.
#[derive(Default)]
pub struct Groups(HashMap<[u8; 4], Vec<Pattern>>);

impl Groups {
    pub fn add(&mut self, a: Pattern) {
        self.0.entry(a.states).or_default().push(a);
    }

    pub fn hold(&self, program: &Program, a: &Pattern) -> bool {
        self.0.get(&a.states).is_some_and(|group| group.iter().any(|b| within(program, a, b)))
    }
}

/// A predecessor under the step that is not dropped, and within no pattern.
pub fn open_before(program: &Program, groups: &Groups, a: &Pattern, step: Step) -> Option<Pattern> {
    predecessors(program, a, step).into_iter().find(|b| !within(program, b, a) && !dropped(program, b) && !groups.hold(program, b))
}

pub fn verdict(program: &Program, patterns: &[Pattern]) -> Verdict {
    let mut groups = Groups::default();
    patterns.iter().for_each(|a| groups.add(a.clone()));
    if let Some(k) = program.targets.iter().position(|t| !groups.hold(program, &Pattern::of_target(program, *t))) {
        return Verdict::Refused(9, k);
    }
    if let Some(k) = patterns.iter().position(|a| start_fits(program, a)) {
        return Verdict::Refused(10, k);
    }
    let steps = program.all_steps();
    for (k, a) in patterns.iter().enumerate() {
        if let Some(step) = steps.iter().find(|step| open_before(program, &groups, a, **step).is_some()) {
            return Verdict::Open(k, *step);
        }
    }
    Verdict::Safe(patterns.len())
}

// ---- reading

fn body_length(kind: u8) -> Option<usize> {
    Some(match kind {
        0x01 => 6,
        0x02 => 2,
        0x03 => 7,
        0x04 | 0x14 => 4,
        0x0f => 1,
        0x12 | 0x15 => 3,
        0x13 => 8,
        _ => return None,
    })
}

/// A pattern as its records give it.
struct Given {
    at: usize,
    states: [u8; 4],
    newest: [u8; 4],
    words: Vec<Vec<u8>>,
    ends: Vec<Option<u8>>,
    paths: Vec<Vec<Read>>,
}

impl Given {
    /// Number 7.
    fn faulty(&self) -> bool {
        self.words.iter().zip(&self.ends).any(|(word, end)| *end == Some(0) && !word.is_empty() || *end == Some(1) && word.is_empty())
            || self.paths.iter().any(|path| path.first().is_some_and(|read| read.own))
    }

    fn pattern(self) -> Pattern {
        let clue = |(word, end): (Vec<u8>, Option<u8>)| match end {
            Some(0) => Clue::Empty,
            Some(_) => Clue::ends(word),
            None => Clue::Contains(word),
        };
        Pattern { states: self.states, newest: self.newest, clues: self.words.into_iter().zip(self.ends).map(clue).collect(), paths: self.paths }
    }
}

#[derive(Default)]
struct Reader {
    shape: bool,
    program: Program,
    claim: bool,
    patterns: Vec<Pattern>,
    latest: Option<Given>,
}

impl Reader {
    fn in_place(&self, kind: u8, file: usize, pair: bool) -> bool {
        let states = self.shape && self.program.states.len() == self.program.processes;
        let targets = !self.program.targets.is_empty();
        match kind {
            0x01..=0x04 if self.claim || file == 1 => false,
            0x01 => !self.shape,
            0x02 => self.shape && !states,
            0x03 => states && !targets,
            0x04 => states,
            0x0f => !self.claim && states && targets && (!pair || file == 1),
            0x13 => self.claim,
            _ => self.latest.is_some(),
        }
    }

    fn too_many(&self, kind: u8, body: &[u8], allowed: usize) -> bool {
        let Program { processes, variables, .. } = self.program;
        let queue = || {
            let (p, v) = (body[0] as usize, body[1] as usize);
            if p < processes && v < variables { Some(self.program.queue(p, v)) } else { None }
        };
        match kind {
            0x03 => self.program.transitions.len() == 256,
            0x04 => self.program.targets.len() == 4_096,
            0x13 => self.patterns.len() + self.latest.is_some() as usize == allowed,
            0x12 => queue().is_some_and(|q| self.latest.as_ref().unwrap().words[q].len() == 8),
            0x15 => queue().is_some_and(|q| self.latest.as_ref().unwrap().ends[q].is_some()),
            0x14 => (body[0] as usize) < processes && self.latest.as_ref().unwrap().paths[body[0] as usize].len() == 16,
            _ => false,
        }
    }

    fn out_of_range(kind: u8, body: &[u8]) -> bool {
        let outside = |n: u8| !(1..=4).contains(&n);
        match kind {
            0x01 => outside(body[0]) || outside(body[1]) || (0..body[1] as usize).any(|v| outside(body[2 + v])),
            0x02 => !(1..=32).contains(&body[0]),
            _ => false,
        }
    }

    /// None: number 4.
    fn take(&mut self, at: usize, kind: u8, body: &[u8]) -> Option<()> {
        let program = &mut self.program;
        let (processes, variables, values) = (program.processes, program.variables, program.values);
        let ok = |good: bool| if good { Some(()) } else { None };
        let process = |byte: u8| ok((byte as usize) < processes).map(|_| byte as usize);
        let variable = |byte: u8| ok((byte as usize) < variables).map(|_| byte as usize);
        let states = |program: &Program, bytes: &[u8]| {
            let limit = |p: usize| if p < processes { program.states[p] } else { 1 };
            ok((0..4).all(|p| bytes[p] < limit(p))).map(|_| [bytes[0], bytes[1], bytes[2], bytes[3]])
        };
        match kind {
            0x01 => {
                ok((body[1] as usize..4).all(|v| body[2 + v] == 0))?;
                (program.processes, program.variables) = (body[0] as usize, body[1] as usize);
                program.values.copy_from_slice(&body[2..]);
                self.shape = true;
            }
            0x02 => {
                ok(body[1] < body[0])?;
                program.states.push(body[0]);
                program.initial.push(body[1]);
            }
            0x03 => {
                let p = process(body[0])?;
                ok(body[1] < program.states[p] && body[6] < program.states[p])?;
                let operation = if [0, 3, 4].contains(&body[2]) {
                    ok(body[3..6] == [0, 0, 0])?;
                    match body[2] {
                        0 => Operation::Nop,
                        3 => Operation::Mfence,
                        _ => Operation::Sfence,
                    }
                } else {
                    let x = variable(body[3])?;
                    ok(body[4] < values[x] && body[5] < if body[2] == 5 { values[x] } else { 1 })?;
                    match body[2] {
                        1 => Operation::Read { variable: x, value: body[4] },
                        2 => Operation::Write { variable: x, value: body[4] },
                        5 => Operation::Arw { variable: x, old: body[4], new: body[5] },
                        _ => return None,
                    }
                };
                program.transitions.push(Transition { process: p, from: body[1], operation, to: body[6] });
            }
            0x04 => {
                let target = states(program, body)?;
                program.targets.push(target);
            }
            0x0f => {
                ok(body[0] == 0)?;
                self.claim = true;
            }
            0x13 => {
                let states = states(program, body)?;
                ok((0..4).all(|v| if v < variables { body[4 + v] == FF || body[4 + v] < values[v] } else { body[4 + v] == 0 }))?;
                let mut newest = [FF; 4];
                newest[..variables].copy_from_slice(&body[4..4 + variables]);
                if let Some(given) = self.latest.take() {
                    self.patterns.push(given.pattern());
                }
                let queues = processes * variables;
                let (words, ends, paths) = (vec![Vec::new(); queues], vec![None; queues], vec![Vec::new(); processes]);
                self.latest = Some(Given { at, states, newest, words, ends, paths });
            }
            0x12 => {
                let (p, x) = (process(body[0])?, variable(body[1])?);
                ok(body[2] == FF || body[2] < values[x])?;
                self.latest.as_mut()?.words[p * variables + x].push(body[2]);
            }
            0x14 => {
                let (p, x) = (process(body[0])?, variable(body[1])?);
                ok(body[2] < values[x] && body[3] <= 1)?;
                self.latest.as_mut()?.paths[p].push(Read { variable: x, value: body[2], own: body[3] == 1 });
            }
            _ => {
                let (p, x) = (process(body[0])?, variable(body[1])?);
                ok(body[2] <= 1)?;
                self.latest.as_mut()?.ends[p * variables + x] = Some(body[2]);
            }
        }
        Some(())
    }

    /// The number and the place of a refusal.
    fn read(&mut self, bytes: &[u8], file: usize, pair: bool, allowed: usize) -> Result<(), (u64, usize)> {
        let faulty = |reader: &Reader| reader.latest.as_ref().filter(|given| given.faulty()).map_or(Ok(()), |given| Err((7, given.at)));
        let mut at = 0;
        while at < bytes.len() {
            let kind = bytes[at];
            if kind == 0x13 {
                faulty(self)?;
            }
            let length = body_length(kind).filter(|_| self.in_place(kind, file, pair)).ok_or((2, at))?;
            let body = bytes.get(at + 1..at + 1 + length).ok_or((1, at))?;
            if self.too_many(kind, body, allowed) {
                return Err((5, at));
            }
            if Reader::out_of_range(kind, body) {
                return Err((3, at));
            }
            self.take(at, kind, body).ok_or((4, at))?;
            at += 1 + length;
        }
        faulty(self)?;
        let early = if pair && file == 0 { self.program.targets.is_empty() } else { !self.claim };
        if early {
            return Err((6, bytes.len()));
        }
        Ok(())
    }
}

pub fn read(files: &[&[u8]], area: usize) -> Result<(Program, Vec<Pattern>), Verdict> {
    if area < 65_536 {
        return Err(Verdict::Refused(8, 0));
    }
    let allowed = ((area - 16_384) / 12).min(524_288);
    let mut reader = Reader::default();
    for (number, bytes) in files.iter().enumerate() {
        reader.read(bytes, number, files.len() == 2, allowed).map_err(|(number, place)| Verdict::Refused(number, place))?;
    }
    reader.patterns.extend(reader.latest.take().map(Given::pattern));
    Ok((reader.program, reader.patterns))
}

/// One combined file, or a program file and an evidence file.
pub fn judge(files: &[&[u8]], area: usize) -> Verdict {
    match read(files, area) {
        Ok((program, patterns)) => verdict(&program, &patterns),
        Err(refused) => refused,
    }
}
