//! A list indexed by structure: by what every configuration has in common with all that is above it. These are local states, which
//! queues are empty, and the messages that somebody points at or that are somebody's LastWrite, in order. A cube is compared with the
//! entries of its own structure alone.

use crate::entries::{Cube, List, MESSAGES, WAITING};
use crate::machine::{Message, Program};
use crate::FF;
use std::collections::HashMap;
use std::hash::{BuildHasherDefault, Hasher};

/// A message's label (bits 0 to 3) and roles: the processes that point at it (bits 4 to 7) and the pairs (p, v) whose LastWrite it is
/// (bits 8 to 23).
type Tag = u32;

/// A message that nobody needs has a label only.
fn needed(tag: Tag) -> bool {
    tag >= 16
}

/// What is compared of a cube beside its values.
#[derive(Clone, PartialEq, Eq)]
pub struct Structure {
    states: [u8; 4],
    /// Bit n: queue n is not empty.
    waiting: u16,
    length: usize,
    tags: [Tag; MESSAGES],
}

impl Structure {
    pub fn of(program: &Program, cube: &Cube) -> Structure {
        let mut waiting = 0;
        for (queue, length) in cube.lengths().iter().enumerate() {
            waiting |= ((*length > 0) as u16) << queue;
        }
        let variables: u32 = (1 << program.variables) - 1;
        let mut tags = [0; MESSAGES];
        let mut written: u32 = 0; // pairs with a label on a later message
        for (at, message) in cube.channel().iter().enumerate().rev() {
            let mut pointing = 0;
            let mut last_write = 0;
            for p in 0..program.processes {
                if cube.pointers[p] as usize == at + 1 {
                    pointing |= 1 << p;
                    last_write |= variables << (4 * p);
                }
            }
            let label = 4 * message.process as u32 + message.variable as u32;
            if cube.pointers[message.process as usize] as usize <= at {
                last_write |= 1 << label;
            }
            tags[at] = label | pointing << 4 | (last_write & !written) << 8;
            written |= 1 << label;
        }
        Structure { states: cube.states, waiting, length: cube.channel().len(), tags }
    }

    fn tags(&self) -> &[Tag] {
        &self.tags[..self.length]
    }

    /// The same for an entry and every cube above it: messages that nobody needs are left out.
    fn fingerprint(&self) -> u64 {
        fn mix(hash: u64, word: u64) -> u64 {
            (hash.rotate_left(25) ^ word).wrapping_mul(0x9e37_79b9_7f4a_7c15)
        }
        let mut hash = mix(u32::from_le_bytes(self.states) as u64, self.waiting as u64);
        for tag in self.tags() {
            if needed(*tag) {
                hash = mix(hash, *tag as u64);
            }
        }
        hash ^ hash >> 32
    }

    /// Every message is needed.
    pub fn is_least(&self) -> bool {
        self.tags().iter().all(|tag| needed(*tag))
    }
}

impl std::hash::Hash for Structure {
    fn hash<H: Hasher>(&self, hasher: &mut H) {
        hasher.write_u64(self.fingerprint());
    }
}

/// For keys that are fingerprints already.
#[derive(Default)]
pub struct Hashed(u64);

impl Hasher for Hashed {
    fn finish(&self) -> u64 {
        self.0
    }

    fn write(&mut self, _: &[u8]) {
        unreachable!("only numbers of 64 bits");
    }

    fn write_u64(&mut self, hash: u64) {
        self.0 = hash;
    }
}

pub type ByHash = BuildHasherDefault<Hashed>;

/// How an entry's value and a cube's value may stand to each other.
#[derive(Clone, Copy, PartialEq)]
enum Relation {
    /// The entry's value holds for every filling of the cube's.
    Covers,
    /// It holds for some filling.
    Meets,
}

#[inline]
fn related(relation: Relation, entry: u8, cube: u8) -> bool {
    entry == FF || entry == cube || (relation == Relation::Meets && cube == FF)
}

/// A value's place in a cube: the snapshots' values, then the waiting ones.
type Place = usize;
const PLACES: usize = 4 * MESSAGES + WAITING * 16;

fn snapshot_place(message: usize, variable: usize) -> Place {
    4 * message + variable
}

fn waiting_place(queue: usize, at: usize) -> Place {
    4 * MESSAGES + WAITING * queue + at
}

/// The variable whose value stands there.
fn variable_at(program: &Program, place: Place) -> usize {
    match place.checked_sub(4 * MESSAGES) {
        None => place % 4,
        Some(waiting) => waiting / WAITING % program.variables,
    }
}

fn at_mut(cube: &mut Cube, place: Place) -> &mut u8 {
    match place.checked_sub(4 * MESSAGES) {
        None => &mut cube.channel_mut()[place / 4].snapshot[place % 4],
        Some(waiting) => &mut cube.queue_mut(waiting / WAITING)[waiting % WAITING],
    }
}

/// An entry lies in one piece: 4 bytes for the place of the entry before it whose structure has the same hash; its states (4), non-empty
/// queues (2) and number of messages (2); tag (4) and snapshot (4) of each message; length (1) and values of each non-empty queue.
const HEAD: usize = 12;
const MESSAGE: usize = 8;
/// No entry lies there.
const NONE: u32 = u32::MAX;

fn word(bytes: &[u8], at: usize) -> u32 {
    u32::from_le_bytes(bytes[at..at + 4].try_into().unwrap())
}

#[derive(Clone, Copy)]
struct Entry<'a> {
    next: u32,
    states: [u8; 4],
    waiting: u16,
    messages: &'a [u8],
    queues: &'a [u8],
}

impl<'a> Entry<'a> {
    fn messages(self) -> impl Iterator<Item = (Tag, [u8; 4])> + 'a {
        self.messages.chunks_exact(MESSAGE).map(|bytes| (word(bytes, 0), word(bytes, 4).to_le_bytes()))
    }

    /// The non-empty queues by number.
    fn queues(self) -> impl Iterator<Item = (usize, &'a [u8])> {
        let Entry { mut waiting, mut queues, .. } = self;
        std::iter::from_fn(move || {
            if waiting == 0 {
                return None;
            }
            let number = waiting.trailing_zeros() as usize;
            waiting &= waiting - 1;
            let (values, rest) = queues[1..].split_at(queues[0] as usize);
            queues = rest;
            Some((number, values))
        })
    }
}

pub struct Index<'a> {
    pub program: &'a Program,
    bytes: Vec<u8>,
    /// Where each entry lies.
    places: Vec<u32>,
    /// Where the latest entry of each hash lies.
    latest: HashMap<u64, u32, ByHash>,
}

impl<'a> Index<'a> {
    pub fn new(program: &'a Program) -> Index<'a> {
        Index { program, bytes: Vec::new(), places: Vec::new(), latest: HashMap::default() }
    }

    pub fn of(program: &'a Program, list: &List) -> Index<'a> {
        let mut index = Index::new(program);
        index.places.reserve(list.len());
        index.latest.reserve(list.len());
        for number in 0..list.len() {
            index.add(&list.entry(number));
        }
        index
    }

    pub fn add(&mut self, entry: &Cube) {
        let structure = Structure::of(self.program, entry);
        let place = self.bytes.len() as u32;
        let next = self.latest.insert(structure.fingerprint(), place).unwrap_or(NONE);
        self.places.push(place);
        self.bytes.extend(next.to_le_bytes());
        self.bytes.extend(structure.states);
        self.bytes.extend(structure.waiting.to_le_bytes());
        self.bytes.extend((structure.length as u16).to_le_bytes());
        for (tag, message) in structure.tags().iter().zip(entry.channel()) {
            self.bytes.extend(tag.to_le_bytes());
            self.bytes.extend(message.snapshot);
        }
        for queue in (0..16).filter(|queue| structure.waiting >> queue & 1 == 1) {
            self.bytes.push(entry.lengths()[queue]);
            self.bytes.extend_from_slice(entry.queue(queue));
        }
    }

    pub fn len(&self) -> usize {
        self.places.len()
    }

    pub fn is_empty(&self) -> bool {
        self.places.is_empty()
    }

    fn at(&self, place: u32) -> Entry<'_> {
        let bytes = &self.bytes[place as usize..];
        let (head, rest) = bytes.split_at(HEAD);
        let (waiting, messages) = (word(head, 8) as u16, word(head, 8) >> 16);
        let (messages, queues) = rest.split_at(messages as usize * MESSAGE);
        Entry { next: word(head, 0), states: word(head, 4).to_le_bytes(), waiting, messages, queues }
    }

    pub fn states(&self, number: usize) -> [u8; 4] {
        self.at(self.places[number]).states
    }

    pub fn entry(&self, number: usize) -> Cube {
        let entry = self.at(self.places[number]);
        let mut cube = Cube::new(entry.states, [0; 4]);
        for (tag, snapshot) in entry.messages() {
            cube.append(Message { process: (tag >> 2 & 3) as u8, variable: (tag & 3) as u8, snapshot });
            for p in (0..4).filter(|p| tag >> (4 + p) & 1 == 1) {
                cube.pointers[p] = cube.channel().len() as u8;
            }
        }
        for (queue, values) in entry.queues() {
            for value in values {
                cube.push_newest(queue, *value);
            }
        }
        cube
    }

    /// The entries of a hash.
    fn candidates(&self, hash: u64) -> impl Iterator<Item = Entry<'_>> {
        let mut next = self.latest.get(&hash).copied().unwrap_or(NONE);
        std::iter::from_fn(move || {
            if next == NONE {
                return None;
            }
            let entry = self.at(next);
            next = entry.next;
            Some(entry)
        })
    }

    /// Is every filling of the cube above the list?
    pub fn holds(&self, cube: &Cube) -> bool {
        let structure = Structure::of(self.program, cube);
        let hash = structure.fingerprint();
        if self.candidates(hash).any(|entry| matches(entry, Relation::Covers, cube, &structure, |_| ())) {
            return true;
        }
        let candidates: Vec<Entry> = self.candidates(hash).collect();
        !self.gap(&mut cube.clone(), &structure, &candidates)
    }

    /// Is some filling of the cube outside the list? Only these entries can have to do with it, and none covers it alone.
    #[cold]
    fn gap(&self, cube: &mut Cube, structure: &Structure, candidates: &[Entry]) -> bool {
        let mut split = Vec::new();
        let mut meeting = Vec::new();
        let mut votes = [0; PLACES];
        for entry in candidates {
            split.clear();
            if matches(*entry, Relation::Meets, cube, structure, |place| split.push(place)) {
                meeting.push(*entry);
                for place in &split {
                    votes[*place] += 1;
                }
            }
        }
        // The place that most entries speak of; the first one if several.
        let place = (0..PLACES).rev().max_by_key(|place| votes[*place]).unwrap();
        if votes[place] == 0 {
            return true;
        }
        let mut found = false;
        for value in 0..self.program.values[variable_at(self.program, place)] {
            *at_mut(cube, place) = value;
            let covered = meeting.iter().any(|entry| matches(*entry, Relation::Covers, cube, structure, |_| ()));
            if !covered && self.gap(cube, structure, &meeting) {
                found = true;
                break;
            }
        }
        *at_mut(cube, place) = FF;
        found
    }
}

/// Matches an entry with a cube, messages and values from the oldest on. `split` gets the places where the cube has FF and the entry a
/// value; they count only if the match succeeds.
#[inline]
fn matches(entry: Entry, relation: Relation, cube: &Cube, structure: &Structure, mut split: impl FnMut(Place)) -> bool {
    if entry.states != structure.states || entry.waiting != structure.waiting {
        return false;
    }
    let tags = structure.tags();
    let channel = cube.channel();
    let mut at = 0;
    for (tag, snapshot) in entry.messages() {
        loop {
            if at == tags.len() {
                return false;
            }
            let high = &channel[at].snapshot;
            if tag == tags[at] && snapshot.iter().zip(high).all(|(low, high)| related(relation, *low, *high)) {
                break;
            }
            if needed(tags[at]) {
                return false; // a needed message is never left out
            }
            at += 1;
        }
        for v in 0..4 {
            if snapshot[v] != FF && channel[at].snapshot[v] == FF {
                split(snapshot_place(at, v));
            }
        }
        at += 1;
    }
    if tags[at..].iter().any(|tag| needed(*tag)) {
        return false;
    }
    for (queue, low) in entry.queues() {
        let high = cube.queue(queue);
        if low.len() > high.len() {
            return false;
        }
        let (last_low, last_high) = (low.len() - 1, high.len() - 1);
        let mut at = 0;
        for value in &low[..last_low] {
            while at < last_high && !related(relation, *value, high[at]) {
                at += 1;
            }
            if at == last_high {
                return false;
            }
            if *value != FF && high[at] == FF {
                split(waiting_place(queue, at));
            }
            at += 1;
        }
        if !related(relation, low[last_low], high[last_high]) {
            return false;
        }
        if low[last_low] != FF && high[last_high] == FF {
            split(waiting_place(queue, last_high));
        }
    }
    true
}
