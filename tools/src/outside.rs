//! What a search author wants to see beside a refusal 9 or 11: a configuration that the list lacks, for 9 one of that target, for 11 one from which
//! that step leads above that entry. A cube stands for its fillings, as an entry does; docs/THEORY.md says why the cubes tried here are enough
//! (sections 4 and 5), and how one is split until a filling is outside (section 6). Every byte of the file is checked where it is read.

use crate::library::{Lent, Verdict, SERIALISE, TRANSITION, UPDATE};
use std::fmt::Write;
use std::time::Instant;

const FF: u8 = 255;
/// An entry's most, and one more: a predecessor has at most one message and one waiting value more.
const MESSAGES: usize = 17;
const WAITING: usize = 9;
const QUEUES: usize = 16;
const PLACES: usize = 4 * MESSAGES + QUEUES * WAITING;

#[derive(Clone, Copy, Default)]
struct Message {
    process: usize,
    variable: usize,
    snapshot: [u8; 4],
}

impl Message {
    fn label(&self) -> usize {
        4 * self.process + self.variable
    }
}

/// An entry, or what may get above one. Message number n is channel[n - 1]; the queue of p and v is number 4 * p + v, oldest first.
#[derive(Clone, Copy, Default)]
struct Cube {
    states: [u8; 4],
    pointers: [usize; 4],
    messages: usize,
    channel: [Message; MESSAGES],
    waiting: [usize; QUEUES],
    queues: [[u8; WAITING]; QUEUES],
}

/// What all that is above a cube has in common with it, beside values: the states; which queues hold something; of each message its label
/// (bits 0 to 3), who points at it (4 to 7) and whose LastWrite it is (8 to 23). A message without such a role need not be there.
struct Outline {
    waiting: u32,
    roles: [u32; MESSAGES],
}

/// Why nothing is shown.
pub enum Stop {
    /// The bytes are not those of a file that the judge refuses so.
    Unread,
    NoMemory,
    /// The search has taken as long as it may.
    Late,
}

type Found = Result<bool, Stop>;

struct Transition {
    process: usize,
    from: u8,
    operation: u8,
    variable: usize,
    value: u8,
    new: u8,
    to: u8,
}

struct List<'a> {
    evidence: &'a [u8],
    processes: usize,
    variables: usize,
    /// How many, by variable.
    values: [u8; 4],
    transitions: Vec<Transition>,
    targets: Vec<[u8; 4]>,
    /// Where each entry begins; the entries in chains by the hash of what their outlines need.
    offsets: Vec<usize>,
    next: Vec<usize>,
    first: Vec<usize>,
    until: Option<Instant>,
}

const NONE: usize = usize::MAX;

fn has_role(role: u32) -> bool {
    role >> 4 != 0
}

impl Cube {
    fn last_write(&self, p: usize, v: usize) -> usize {
        let mut n = self.messages;
        while n > self.pointers[p] && self.channel[n - 1].label() != 4 * p + v {
            n -= 1;
        }
        n
    }

    fn value_at(&mut self, place: usize) -> &mut u8 {
        if place < 4 * MESSAGES {
            return &mut self.channel[place / 4].snapshot[place % 4];
        }
        let place = place - 4 * MESSAGES;
        &mut self.queues[place / WAITING][place % WAITING]
    }

    /// A message in front of number n; pointers from there on go up with theirs.
    fn insert(&mut self, processes: usize, n: usize, m: Message) {
        self.channel.copy_within(n - 1..self.messages, n);
        self.channel[n - 1] = m;
        self.messages += 1;
        for pointer in &mut self.pointers[..processes] {
            *pointer += usize::from(*pointer >= n);
        }
    }

    fn pointed_at(&self, processes: usize, n: usize) -> usize {
        (0..processes).filter(|p| self.pointers[*p] == n).map(|p| 1 << p).sum()
    }
}

fn variable_at(place: usize) -> usize {
    if place < 4 * MESSAGES {
        place % 4
    } else {
        (place - 4 * MESSAGES) / WAITING % 4
    }
}

/// Does the entry's value hold for all fillings of the cube's, or, if `some`, for one of them?
fn fits(entry: u8, cube: u8, some: bool) -> bool {
    entry == FF || entry == cube || some && cube == FF
}

fn vote(votes: &mut Option<&mut [u32; PLACES]>, place: usize, entry: u8, cube: u8) {
    if let Some(votes) = votes {
        if entry != FF && cube == FF {
            votes[place] += 1;
        }
    }
}

fn meet(a: u8, b: u8) -> Option<u8> {
    (a == FF || b == FF || a == b).then_some(if a == FF { b } else { a })
}

/// A snapshot that is both, if there is one.
fn meet_snapshot(a: [u8; 4], b: [u8; 4]) -> Option<[u8; 4]> {
    let mut both = [0; 4];
    for v in 0..4 {
        both[v] = meet(a[v], b[v])?;
    }
    Some(both)
}

/// Bytes of a record of the evidence of a list.
fn length_of(kind: u8) -> Option<usize> {
    match kind {
        0x10 => Some(9),
        0x11 => Some(7),
        0x12 => Some(4),
        _ => None,
    }
}

impl List<'_> {
    fn outline(&self, c: &Cube) -> Outline {
        let mut o = Outline { waiting: 0, roles: [0; MESSAGES] };
        for (q, waiting) in c.waiting.iter().enumerate() {
            o.waiting |= u32::from(*waiting > 0) << q;
        }
        for (role, message) in o.roles.iter_mut().zip(&c.channel[..c.messages]) {
            *role = message.label() as u32;
        }
        for p in 0..self.processes {
            o.roles[c.pointers[p] - 1] |= 16 << p;
            for v in 0..self.variables {
                o.roles[c.last_write(p, v) - 1] |= 256 << (4 * p + v);
            }
        }
        o
    }

    fn chain_of(&self, c: &Cube, o: &Outline) -> usize {
        let mut hash = u64::from(o.waiting);
        for state in c.states {
            hash = (hash ^ u64::from(state)).wrapping_mul(0x0100_0000_01b3);
        }
        for role in o.roles[..c.messages].iter().filter(|role| has_role(**role)) {
            hash = (hash ^ u64::from(*role)).wrapping_mul(0x9e37_79b9_7f4a_7c15);
        }
        ((hash ^ hash >> 32) % self.first.len() as u64) as usize
    }

    fn entry(&self, number: usize) -> Result<Cube, Stop> {
        self.offsets.get(number).and_then(|at| self.entry_at(*at)).ok_or(Stop::Unread)
    }

    /// None if it is not one that the judge reads.
    fn entry_at(&self, at: usize) -> Option<Cube> {
        let mut c = Cube::default();
        let head = self.evidence.get(at..at + 9)?;
        c.states.copy_from_slice(head.get(1..5)?);
        for (pointer, byte) in c.pointers.iter_mut().zip(head.get(5..9)?) {
            *pointer = usize::from(*byte);
        }
        let mut rest = self.evidence.get(at + 9..)?;
        while let Some(kind) = rest.first().filter(|kind| **kind != 0x10) {
            let (record, after) = rest.split_at_checked(length_of(*kind)?)?;
            rest = after;
            let (p, v) = (usize::from(record[1]), usize::from(record[2]));
            if p >= self.processes || v >= self.variables {
                return None;
            }
            if *kind == 0x11 {
                if c.messages == MESSAGES - 1 {
                    return None;
                }
                c.channel[c.messages] = Message { process: p, variable: v, snapshot: record.get(3..7)?.try_into().ok()? };
                c.messages += 1;
            } else {
                let q = 4 * p + v;
                if c.waiting[q] == WAITING - 1 {
                    return None;
                }
                c.queues[q][c.waiting[q]] = record[3];
                c.waiting[q] += 1;
            }
        }
        c.pointers[..self.processes].iter().all(|pointer| (1..=c.messages).contains(pointer)).then_some(c)
    }

    /// Is the entry below all fillings of the cube, or, if `some`, may it be below one? Then the places where the cube has FF and the entry a
    /// value get a vote.
    fn matches(&self, e: &Cube, c: &Cube, oc: &Outline, some: bool, votes: Option<&mut [u32; PLACES]>) -> bool {
        let mut votes = votes;
        let (mut image, mut n) = ([0; MESSAGES], 0);
        let oe = self.outline(e);
        if e.states != c.states || oe.waiting != oc.waiting {
            return false;
        }
        for m in 0..e.messages {
            loop {
                if n == c.messages {
                    return false;
                }
                let values = |v: usize| fits(e.channel[m].snapshot[v], c.channel[n].snapshot[v], some);
                if oe.roles[m] == oc.roles[n] && (0..4).all(values) {
                    break;
                }
                if has_role(oc.roles[n]) {
                    return false;
                }
                n += 1;
            }
            image[m] = n;
            n += 1;
        }
        if oc.roles[n..c.messages].iter().any(|role| has_role(*role)) {
            return false;
        }
        let mut places = [[0; WAITING]; QUEUES];
        for q in 0..QUEUES {
            let (Some(last), Some(end)) = (e.waiting[q].checked_sub(1), c.waiting[q].checked_sub(1)) else { continue };
            let mut at = 0;
            for k in 0..last {
                while at < end && !fits(e.queues[q][k], c.queues[q][at], some) {
                    at += 1;
                }
                if at >= end {
                    return false;
                }
                places[q][k] = at;
                at += 1;
            }
            if !fits(e.queues[q][last], c.queues[q][end], some) {
                return false;
            }
            places[q][last] = end;
        }
        for m in 0..e.messages {
            for v in 0..4 {
                vote(&mut votes, 4 * image[m] + v, e.channel[m].snapshot[v], c.channel[image[m]].snapshot[v]);
            }
        }
        for q in 0..QUEUES {
            for k in 0..e.waiting[q] {
                vote(&mut votes, 4 * MESSAGES + WAITING * q + places[q][k], e.queues[q][k], c.queues[q][places[q][k]]);
            }
        }
        true
    }

    fn covered(&self, c: &Cube, o: &Outline, numbers: &[usize]) -> Found {
        for number in numbers {
            if self.matches(&self.entry(*number)?, c, o, false, None) {
                return Ok(true);
            }
        }
        Ok(false)
    }

    /// Is some filling of the cube outside the list? Then the cube has values for it, and FF only where any value does. Only the entries of
    /// these numbers can have to do with it.
    fn gap(&self, c: &mut Cube, o: &Outline, numbers: &[usize]) -> Found {
        if self.until.is_some_and(|until| Instant::now() > until) {
            return Err(Stop::Late);
        }
        if self.covered(c, o, numbers)? {
            return Ok(false);
        }
        let mut votes = [0; PLACES];
        let mut meeting = Vec::new();
        meeting.try_reserve_exact(numbers.len()).map_err(|_| Stop::NoMemory)?;
        for number in numbers {
            if self.matches(&self.entry(*number)?, c, o, true, Some(&mut votes)) {
                meeting.push(*number);
            }
        }
        if meeting.is_empty() {
            return Ok(true);
        }
        // the first of those with most votes
        let place = (0..PLACES).fold(0, |best, k| if votes[k] > votes[best] { k } else { best });
        for value in 0..self.values[variable_at(place)] {
            *c.value_at(place) = value;
            if self.gap(c, o, &meeting)? {
                return Ok(true);
            }
            *c.value_at(place) = FF;
        }
        Ok(false)
    }

    /// The same for all entries; the cube gets a value everywhere.
    fn outside(&self, c: &mut Cube) -> Found {
        let o = self.outline(c);
        let mut numbers = Vec::new();
        let mut n = self.first[self.chain_of(c, &o)];
        while n != NONE {
            numbers.push(n);
            n = self.next[n];
        }
        if !self.gap(c, &o, &numbers)? {
            return Ok(false);
        }
        for place in 0..PLACES {
            let value = c.value_at(place);
            if *value == FF {
                *value = 0;
            }
        }
        Ok(true)
    }

    // ---- 9: the least configurations of a target. Each of their messages has a role, each queue holds at most one value.

    fn any_message(&self, process: usize, variable: usize) -> Message {
        let mut snapshot = [0; 4];
        snapshot[..self.variables].fill(FF);
        Message { process, variable, snapshot }
    }

    /// With this channel and these pointers, for every choice of queues that hold a value.
    fn try_queues(&self, c: &Cube, found: &mut Cube) -> Found {
        for choice in 0..1u32 << (self.processes * self.variables) {
            *found = *c;
            for k in 0..self.processes * self.variables {
                let q = 4 * (k / self.variables) + k % self.variables;
                found.waiting[q] = (choice >> k & 1) as usize;
                if found.waiting[q] > 0 {
                    found.queues[q][0] = FF;
                }
            }
            if self.outside(found)? {
                return Ok(true);
            }
        }
        Ok(false)
    }

    /// Channels are made from the newest message on: c holds the latest ones, pointers count from the newest, from 1 on, and are 0 where a
    /// process has none yet. `seen` has the labels of c.
    fn try_channels(&self, c: &Cube, seen: u32, found: &mut Cube) -> Found {
        let open: usize = c.pointed_at(self.processes, 0);
        if open == 0 {
            let mut whole = *c;
            whole.channel[..c.messages].reverse();
            for pointer in &mut whole.pointers[..self.processes] {
                *pointer = c.messages + 1 - *pointer;
            }
            return self.try_queues(&whole, found);
        }
        if c.messages == MESSAGES {
            return Ok(false); // not met: a whole channel as long came first, and no entry has so many messages
        }
        for p in 0..self.processes {
            for v in 0..self.variables {
                // short channels first
                for pointing in (0..=open).rev() {
                    // Without a pointer it is the LastWrite of its label, or has no role.
                    let roleless = pointing == 0 && (seen >> (4 * p + v) & 1 == 1 || open >> p & 1 == 0);
                    if pointing & !open != 0 || roleless {
                        continue;
                    }
                    let mut longer = *c;
                    longer.channel[c.messages] = self.any_message(p, v);
                    longer.messages += 1;
                    for q in (0..self.processes).filter(|q| pointing >> q & 1 == 1) {
                        longer.pointers[q] = longer.messages;
                    }
                    if self.try_channels(&longer, seen | 1 << (4 * p + v), found)? {
                        return Ok(true);
                    }
                }
            }
        }
        Ok(false)
    }

    fn try_target(&self, states: [u8; 4], found: &mut Cube) -> Found {
        self.try_channels(&Cube { states, ..Cube::default() }, 0, found)
    }

    // ---- 11: what gets above the entry e by a step.

    fn try_arw(&self, e: &Cube, before: &Cube, t: &Transition, found: &mut Cube) -> Found {
        let (p, v, n) = (t.process, t.variable, e.messages);
        let newest = &e.channel[n - 1];
        if e.waiting[4 * p + v] > 0
            || e.pointed_at(self.processes, n) != 1 << p
            || newest.label() != 4 * p + v
            || meet(newest.snapshot[v], t.new).is_none()
        {
            return Ok(false);
        }
        let mut snapshot = newest.snapshot;
        snapshot[v] = t.value;
        if n > 1 {
            if let Some(both) = meet_snapshot(e.channel[n - 2].snapshot, snapshot) {
                *found = *before;
                found.messages -= 1;
                found.channel[n - 2].snapshot = both;
                found.pointers[p] = n - 1;
                if self.outside(found)? {
                    return Ok(true);
                }
            }
        }
        for y in 0..self.variables {
            *found = *before;
            found.channel[n - 1].variable = y;
            found.channel[n - 1].snapshot = snapshot;
            if self.outside(found)? {
                return Ok(true);
            }
        }
        Ok(false)
    }

    fn try_transition(&self, e: &Cube, t: &Transition, found: &mut Cube) -> Found {
        let (p, v) = (t.process, t.variable);
        let q = 4 * p + v;
        if e.states[p] != t.to {
            return Ok(false);
        }
        let mut before = *e;
        before.states[p] = t.from;
        let empty = (0..self.variables).all(|v| e.waiting[4 * p + v] == 0);
        *found = before;
        match t.operation {
            1 => {
                let seen = match e.waiting[q].checked_sub(1) {
                    Some(last) => &mut found.queues[q][last],
                    None => &mut found.channel[e.last_write(p, v) - 1].snapshot[v],
                };
                let Some(both) = meet(*seen, t.value) else { return Ok(false) };
                *seen = both;
                self.outside(found)
            }
            2 => {
                let Some(last) = e.waiting[q].checked_sub(1) else { return Ok(false) };
                if meet(e.queues[q][last], t.value).is_none() {
                    return Ok(false);
                }
                found.waiting[q] = last;
                found.queues[q][last] = 0;
                if self.outside(found)? {
                    return Ok(true);
                }
                *found = before;
                found.queues[q][last] = FF;
                self.outside(found)
            }
            3 if !empty || e.pointers[p] != e.messages => Ok(false),
            4 if !empty => Ok(false),
            5 => self.try_arw(e, &before, t, found),
            _ => self.outside(found),
        }
    }

    fn try_serialise(&self, e: &Cube, p: usize, v: usize, found: &mut Cube) -> Found {
        let (n, q) = (e.messages, 4 * p + v);
        if n < 2 || e.channel[n - 1].label() != q || e.pointed_at(self.processes, n) != 0 {
            return Ok(false);
        }
        let newest = e.channel[n - 1];
        let mut snapshot = newest.snapshot;
        snapshot[v] = FF;
        let mut before = *e;
        before.queues[q].copy_within(0..e.waiting[q], 1);
        before.queues[q][0] = newest.snapshot[v];
        before.waiting[q] += 1;
        before.channel[n - 1] = Message::default();
        before.messages -= 1;
        if let Some(both) = meet_snapshot(e.channel[n - 2].snapshot, snapshot) {
            before.channel[n - 2].snapshot = both;
            *found = before;
            if self.outside(found)? {
                return Ok(true);
            }
            // The LastWrite of p and v may have been a message that the entry does not have.
            let mut at = n - 1;
            while at > e.pointers[p] && e.channel[at - 1].label() != q {
                *found = before;
                found.insert(self.processes, at, self.any_message(p, v));
                if self.outside(found)? {
                    return Ok(true);
                }
                at -= 1;
            }
        }
        // Or the newest message was.
        *found = before;
        found.channel[n - 2].snapshot = e.channel[n - 2].snapshot;
        found.channel[n - 1] = Message { snapshot, ..newest };
        found.messages = n;
        self.outside(found)
    }

    fn try_update(&self, e: &Cube, p: usize, found: &mut Cube) -> Found {
        let z = e.pointers[p];
        if z >= 2 {
            *found = *e;
            found.pointers[p] -= 1;
            if self.outside(found)? {
                return Ok(true);
            }
        }
        for r in 0..self.processes {
            for y in (0..self.variables).filter(|y| e.last_write(r, *y) >= z) {
                *found = *e;
                found.insert(self.processes, z, self.any_message(r, y));
                found.pointers[p] = z;
                if self.outside(found)? {
                    return Ok(true);
                }
            }
        }
        Ok(false)
    }

    fn words(&self, c: &Cube) -> String {
        let mut text = "states".to_string();
        for state in &c.states[..self.processes] {
            let _ = write!(text, " {state}");
        }
        for (q, values) in c.queues.iter().enumerate().filter(|(q, _)| c.waiting[*q] > 0) {
            let _ = write!(text, "; queue ({},{}):", q / 4, q % 4);
            for value in &values[..c.waiting[q]] {
                let _ = write!(text, " {value}");
            }
        }
        text += "; messages";
        for (n, message) in c.channel[..c.messages].iter().enumerate() {
            let _ = write!(text, "{} ({},{}):", if n == 0 { "" } else { "," }, message.process, message.variable);
            for value in &message.snapshot[..self.variables] {
                let _ = write!(text, " {value}");
            }
        }
        text += "; pointers";
        for pointer in &c.pointers[..self.processes] {
            let _ = write!(text, " {pointer}");
        }
        text
    }
}

// ---- the file

/// The program part, and the evidence from behind its claim on.
fn cut(lent: Lent<'_>) -> Option<(&[u8], &[u8])> {
    let at = match lent.program {
        Some(program) => return Some((program, lent.file.get(2..)?)),
        None => {
            let mut at = 0;
            while let Some(length) = lent.file.get(at).and_then(|kind| program_length(*kind)) {
                at += length;
            }
            at
        }
    };
    Some((lent.file.get(..at)?, lent.file.get(at + 2..)?))
}

fn program_length(kind: u8) -> Option<usize> {
    match kind {
        1 => Some(7),
        2 => Some(3),
        3 => Some(8),
        4 => Some(5),
        _ => None,
    }
}

fn index(space: usize, value: usize) -> Result<Vec<usize>, Stop> {
    let mut all = Vec::new();
    all.try_reserve_exact(space).map_err(|_| Stop::NoMemory)?;
    all.resize(space, value);
    Ok(all)
}

fn list(lent: Lent, until: Option<Instant>) -> Result<List, Stop> {
    let (program, evidence) = cut(lent).ok_or(Stop::Unread)?;
    let mut l = List {
        evidence,
        processes: 0,
        variables: 0,
        values: [0; 4],
        transitions: Vec::new(),
        targets: Vec::new(),
        offsets: Vec::new(),
        next: Vec::new(),
        first: Vec::new(),
        until,
    };
    read_program(&mut l, program).ok_or(Stop::Unread)?;
    let mut at = 0;
    let mut entries = 0;
    while let Some(kind) = evidence.get(at) {
        entries += usize::from(*kind == 0x10);
        at += length_of(*kind).ok_or(Stop::Unread)?;
    }
    l.offsets = index(entries, 0)?;
    l.next = index(entries, NONE)?;
    l.first = index(2 * entries + 1, NONE)?;
    let (mut at, mut n) = (0, 0);
    while let Some(kind) = evidence.get(at) {
        if *kind == 0x10 {
            let c = l.entry_at(at).ok_or(Stop::Unread)?;
            let chain = l.chain_of(&c, &l.outline(&c));
            l.offsets[n] = at;
            l.next[n] = l.first[chain];
            l.first[chain] = n;
            n += 1;
        }
        at += length_of(*kind).ok_or(Stop::Unread)?;
    }
    Ok(l)
}

fn read_program(l: &mut List, program: &[u8]) -> Option<()> {
    let mut rest = program;
    while let Some(kind) = rest.first() {
        let (record, after) = rest.split_at_checked(program_length(*kind)?)?;
        rest = after;
        match kind {
            1 => {
                (l.processes, l.variables) = (usize::from(record[1]), usize::from(record[2]));
                l.values.copy_from_slice(record.get(3..7)?);
            }
            3 => l.transitions.push(Transition {
                process: usize::from(record[1]),
                from: record[2],
                operation: record[3],
                variable: usize::from(record[4]),
                value: record[5],
                new: record[6],
                to: record[7],
            }),
            4 => l.targets.push(record.get(1..5)?.try_into().ok()?),
            _ => {}
        }
    }
    let exist = |t: &Transition| t.process < l.processes && t.variable < l.variables;
    let shaped = (1..=4).contains(&l.processes) && (1..=4).contains(&l.variables) && l.transitions.iter().all(exist);
    shaped.then_some(())
}

/// One configuration outside the list of a file that the judge refused with 9 or 11, in words:
/// `states 0 1; queue (0,1): 1 0; messages (0,0): 0 0, (1,0): 1 0; pointers 1 2; step t0`.
/// States and pointers by process, values oldest first, messages with their label and the value of each variable, oldest first. Queues that are
/// not named are empty, and the step is there for 11 only.
pub fn outside(lent: Lent, v: Verdict, until: Option<Instant>) -> Result<String, Stop> {
    let l = list(lent, until)?;
    let mut found = Cube::default();
    let number = |n: u64| usize::try_from(n).map_err(|_| Stop::Unread);
    let is = if v.first == 9 {
        l.try_target(*l.targets.get(number(v.second)?).ok_or(Stop::Unread)?, &mut found)?
    } else {
        let e = l.entry(number(v.second)?)?;
        let (first, second) = (number(v.step_first)?, number(v.step_second)?);
        match v.step_kind {
            TRANSITION => l.try_transition(&e, l.transitions.get(first).ok_or(Stop::Unread)?, &mut found)?,
            SERIALISE if first < l.processes && second < l.variables => l.try_serialise(&e, first, second, &mut found)?,
            UPDATE if first < l.processes => l.try_update(&e, first, &mut found)?,
            _ => return Err(Stop::Unread),
        }
    };
    if !is {
        return Ok("none found".to_string()); // the judge says that there is one
    }
    let step = if v.first == 11 { v.step().map(|step| format!("; step {step}")) } else { None };
    Ok(l.words(&found) + &step.unwrap_or_default())
}
