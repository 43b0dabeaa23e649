//! Program files and evidence files (request N6): what a combined file says as a pair, parts that are damaged by themselves, and which
//! records were handed back.

use crate::fixed::{boundaries, Full};
use reference::reading::body_length;
use reference::{Answer, Lent, Record, Verdict};
use std::collections::BTreeMap;

/// Where the first claim of a combined file stands, if whole records of known kinds lead there; and whether a target stands before it.
pub fn claim(file: &[u8]) -> (Option<usize>, bool) {
    let mut at = 0;
    let mut target = false;
    while at < file.len() && file[at] != 0x0f {
        let Some(body) = body_length(file[at]) else { return (None, target) };
        target |= file[at] == 0x04;
        at += 1 + body;
    }
    (if at < file.len() { Some(at) } else { None }, target)
}

/// A combined file cut at its claim, or else at its end, and the answer that the pair has to have, by that of the combined file: what stands
/// before the cut is said as before, and what stands behind it in the evidence file, with its place and record counted from there.
pub fn cut(file: &[u8], combined: Answer) -> (usize, Answer) {
    let (claim, target) = claim(file);
    let at = claim.unwrap_or(file.len());
    let lent = Lent::Pair(&file[..at], &file[at..]);
    let Verdict::Refused(number @ 1..=7, place) = combined.verdict else {
        return (at, Answer::without_record(lent, combined.verdict));
    };
    let place = place as usize;
    if place < at {
        return (at, combined);
    }
    if !target {
        // A claim before the first target is 2 in a combined file; the program file ends there.
        return (at, Answer { verdict: Verdict::Refused(6, at as u64), record: Record { file: 0, at, length: 0 } });
    }
    let record = Record { file: 1, at: place - at, length: combined.record.length };
    (at, Answer { verdict: Verdict::Refused(number, record.at as u64), record })
}

/// Pairs in which one part is damaged by itself, so that the records of the one do not lead to the other; a full file cut anywhere; and
/// parts of different files.
pub fn sweeps(all: &[Full], full: &Full, each: &mut dyn FnMut(&str, &[u8], &[u8])) {
    let file = &full.bytes;
    let at = claim(file).0.unwrap();
    let (program, evidence) = (&file[..at], &file[at..]);
    for length in 0..=file.len() {
        each(&format!("{} cut at {}", full.name, length), &file[..length], &file[length..]);
    }
    for length in 0..at {
        each(&format!("{}, program cut to {}", full.name, length), &program[..length], evidence);
        each(&format!("{}, program cut to {}, no evidence", full.name, length), &program[..length], &[]);
    }
    for length in 0..evidence.len() {
        each(&format!("{}, evidence cut to {}", full.name, length), program, &evidence[..length]);
        each(&format!("{}, no program, evidence cut to {}", full.name, length), &[], &evidence[..length]);
    }
    damaged(program, &mut |what, changed| each(&format!("{}, program {}", full.name, what), changed, evidence));
    damaged(evidence, &mut |what, changed| each(&format!("{}, evidence {}", full.name, what), program, changed));
    each("the parts exchanged", evidence, program);
    each("the program twice", program, program);
    each("the evidence twice", evidence, evidence);
    each("the file twice", file, file);
    each("the program and the file", program, file);
    each("the file and the evidence", file, evidence);
    for other in all {
        let at = claim(&other.bytes).0.unwrap();
        each("the evidence of another file", program, &other.bytes[at..]);
    }
}

/// One file with another kind in the place of each, and with a record of each kind at each boundary, whole and cut. What is changed inside of
/// records is in the combined files, which are cut at their claims.
fn damaged(part: &[u8], each: &mut dyn FnMut(&str, &[u8])) {
    let all = boundaries(part);
    for at in &all {
        for kind in 0..=255 {
            let mut changed = part.to_vec();
            if *at < part.len() {
                changed[*at] = kind;
                each(&format!("with kind {} at {}", kind, at), &changed);
            }
            changed.truncate(*at);
            changed.push(kind);
            each(&format!("cut to {} and kind {}", at, kind), &changed);
            // With a body of zeros that lacks its last byte, and whole before the rest.
            let body = body_length(kind).unwrap_or(0);
            changed.extend(vec![0; body.saturating_sub(1)]);
            each(&format!("cut to {} and most of a record {}", at, kind), &changed);
            changed.truncate(at + 1);
            changed.extend(vec![0; body]);
            changed.extend(&part[*at..]);
            each(&format!("with a record {} at {}", kind, at), &changed);
        }
    }
}

/// How often each refusal came with a record of each kind, in each file.
#[derive(Default)]
pub struct Met(BTreeMap<(u64, &'static str, &'static str), usize>);

impl Met {
    pub fn add(&mut self, lent: Lent, answer: Answer) {
        let number = match answer.verdict {
            Verdict::Refused(number, _) => number,
            Verdict::Open(..) => 11,
            _ => 0,
        };
        let (file, bytes) = match (lent, answer.record.file) {
            (Lent::Combined(file), _) => ("combined", file),
            (Lent::Pair(program, _), 0) => ("program", program),
            (Lent::Pair(_, evidence), _) => ("evidence", evidence),
        };
        let shape = match bytes.get(answer.record.at).map(|kind| body_length(*kind)) {
            None => "end",
            Some(None) => "kind alone",
            Some(Some(body)) if answer.record.length == 1 + body => "whole",
            Some(Some(_)) => "cut",
        };
        *self.0.entry((number, file, shape)).or_default() += 1;
    }

    /// Every refusal with every record that it can come with is there.
    pub fn check(&self) {
        let mut wanted = vec![(3, "combined", "whole"), (3, "program", "whole"), (7, "combined", "whole"), (7, "evidence", "whole")];
        for file in ["combined", "program", "evidence"] {
            wanted.extend([(1, file, "cut"), (2, file, "whole"), (2, file, "cut"), (2, file, "kind alone")]);
            wanted.extend([(4, file, "whole"), (5, file, "whole"), (6, file, "end")]);
        }
        for number in [0, 8, 9, 10, 11, 12, 13, 15, 16, 17, 18] {
            wanted.extend([(number, "combined", "end"), (number, "evidence", "end")]);
        }
        for key in &wanted {
            assert!(self.0.get(key).is_some_and(|n| *n >= 5), "{:?} is met too seldom: {:?}", key, self.0);
        }
        assert_eq!(self.0.len(), wanted.len(), "an answer with a record that it can't have: {:?}", self.0);
    }
}
