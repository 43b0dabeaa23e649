//! Entries in memory. A `Cube` has its parts in place, so that it is copied and changed without the heap; a `List` keeps the parts of all
//! entries of a file one after the other.

use crate::machine::{last_write, Configuration, Message, Program};

/// What an entry can have and one more: a predecessor has at most one message and one waiting value more than its entry.
pub const MESSAGES: usize = 17;
pub const WAITING: usize = 9;

/// An entry or a predecessor of one. Some pointer is 1.
#[derive(Clone)]
pub struct Cube {
    pub states: [u8; 4],
    /// Message numbers, counted from 1; 0 for absent processes.
    pub pointers: [u8; 4],
    length: u8,
    messages: [Message; MESSAGES],
    /// Waiting values of p and v at p * variables + v.
    lengths: [u8; 16],
    values: [[u8; WAITING]; 16],
}

impl Cube {
    pub fn new(states: [u8; 4], pointers: [u8; 4]) -> Cube {
        Cube { states, pointers, length: 0, messages: [Message::default(); MESSAGES], lengths: [0; 16], values: [[0; WAITING]; 16] }
    }

    /// Oldest message first; message number n is at n - 1.
    pub fn channel(&self) -> &[Message] {
        &self.messages[..self.length as usize]
    }

    pub fn channel_mut(&mut self) -> &mut [Message] {
        &mut self.messages[..self.length as usize]
    }

    pub fn append(&mut self, message: Message) {
        self.messages[self.length as usize] = message;
        self.length += 1;
    }

    pub fn drop_newest(&mut self) {
        self.length -= 1;
    }

    /// Puts a message before number `number`; pointers from there on go up with their messages.
    pub fn insert(&mut self, number: usize, message: Message) {
        self.messages.copy_within(number - 1..self.length as usize, number);
        self.messages[number - 1] = message;
        self.length += 1;
        for pointer in &mut self.pointers {
            *pointer += (*pointer as usize >= number) as u8;
        }
    }

    /// Oldest value first.
    pub fn queue(&self, queue: usize) -> &[u8] {
        &self.values[queue][..self.lengths[queue] as usize]
    }

    pub fn queue_mut(&mut self, queue: usize) -> &mut [u8] {
        &mut self.values[queue][..self.lengths[queue] as usize]
    }

    pub fn push_newest(&mut self, queue: usize, value: u8) {
        self.values[queue][self.lengths[queue] as usize] = value;
        self.lengths[queue] += 1;
    }

    pub fn pop_newest(&mut self, queue: usize) -> Option<u8> {
        let newest = *self.queue(queue).last()?;
        self.lengths[queue] -= 1;
        Some(newest)
    }

    pub fn push_oldest(&mut self, queue: usize, value: u8) {
        let length = self.lengths[queue] as usize;
        self.values[queue].copy_within(..length, 1);
        self.values[queue][0] = value;
        self.lengths[queue] += 1;
    }

    pub fn lengths(&self) -> &[u8; 16] {
        &self.lengths
    }

    pub fn last_write(&self, process: usize, variable: usize) -> usize {
        last_write(self.channel(), self.pointers[process] as usize, process, variable)
    }

    pub fn of(c: &Configuration) -> Cube {
        let mut cube = Cube::new(c.states, c.pointers.map(|pointer| pointer as u8));
        for message in &c.channel {
            cube.append(*message);
        }
        for (number, queue) in c.queues.iter().enumerate() {
            for value in queue {
                cube.push_newest(number, *value);
            }
        }
        cube
    }

    pub fn configuration(&self, program: &Program) -> Configuration {
        Configuration {
            states: self.states,
            queues: (0..program.processes * program.variables).map(|number| self.queue(number).to_vec()).collect(),
            channel: self.channel().to_vec(),
            pointers: self.pointers.map(|pointer| pointer as usize),
        }
    }
}

struct Head {
    states: [u8; 4],
    pointers: [u8; 4],
    lengths: [u8; 16],
    first_message: u32,
    first_value: u32,
}

#[derive(Default)]
pub struct List {
    heads: Vec<Head>,
    messages: Vec<Message>,
    values: Vec<u8>,
}

impl List {
    pub fn of(entries: &[Configuration]) -> List {
        let mut list = List::default();
        for entry in entries {
            list.push(&Cube::of(entry));
        }
        list
    }

    pub fn len(&self) -> usize {
        self.heads.len()
    }

    pub fn is_empty(&self) -> bool {
        self.heads.is_empty()
    }

    pub fn push(&mut self, entry: &Cube) {
        self.heads.push(Head {
            states: entry.states,
            pointers: entry.pointers,
            lengths: entry.lengths,
            first_message: self.messages.len() as u32,
            first_value: self.values.len() as u32,
        });
        self.messages.extend_from_slice(entry.channel());
        for queue in (0..16).filter(|queue| entry.lengths[*queue] > 0) {
            self.values.extend_from_slice(entry.queue(queue));
        }
    }

    pub fn states(&self, number: usize) -> [u8; 4] {
        self.heads[number].states
    }

    pub fn entry(&self, number: usize) -> Cube {
        let head = &self.heads[number];
        let mut entry = Cube::new(head.states, head.pointers);
        let end = self.heads.get(number + 1).map_or(self.messages.len(), |next| next.first_message as usize);
        for message in &self.messages[head.first_message as usize..end] {
            entry.append(*message);
        }
        let mut at = head.first_value as usize;
        for queue in (0..16).filter(|queue| head.lengths[*queue] > 0) {
            let length = head.lengths[queue] as usize;
            entry.values[queue][..length].copy_from_slice(&self.values[at..at + length]);
            at += length;
        }
        entry.lengths = head.lengths;
        entry
    }

    pub fn configurations(&self, program: &Program) -> Vec<Configuration> {
        (0..self.len()).map(|number| self.entry(number).configuration(program)).collect()
    }
}
