//! The offending record, handed back with every answer (request N6).

use crate::reading::{body_length, Lent, Refusal};

/// A part of the combined or program file (file 0), or of the evidence file (file 1).
#[derive(Clone, Copy, PartialEq, Eq, Debug)]
pub struct Record {
    pub file: usize,
    pub at: usize,
    pub length: usize,
}

impl std::fmt::Display for Record {
    fn fmt(&self, f: &mut std::fmt::Formatter) -> std::fmt::Result {
        write!(f, "{} {} {}", self.file, self.at, self.length)
    }
}

impl Record {
    /// The empty end of the evidence or combined file.
    pub fn none(lent: Lent) -> Record {
        let (file, bytes) = match lent {
            Lent::Combined(file) => (0, file),
            Lent::Pair(_, evidence) => (1, evidence),
        };
        Record { file, at: bytes.len(), length: 0 }
    }

    /// What stands at the refusal's place: nothing at the end of a file, for 6; else a record, cut where its file ends, or the kind byte
    /// alone if no record has that kind.
    pub fn refused(lent: Lent, refusal: Refusal) -> Record {
        let bytes = match (lent, refusal.file) {
            (Lent::Combined(file), _) => file,
            (Lent::Pair(program, _), 0) => program,
            (Lent::Pair(_, evidence), _) => evidence,
        };
        let left = bytes.len() - refusal.place;
        let length = match bytes.get(refusal.place) {
            None => 0,
            Some(kind) => body_length(*kind).map_or(1, |body| left.min(1 + body)),
        };
        Record { file: refusal.file, at: refusal.place, length }
    }
}
