//! What is asked for at the places for fences.

use crate::contents::Operation;

/// What stands at a place for a fence.
#[derive(Clone, Copy, PartialEq, Eq, Debug)]
pub enum Fence {
    /// Left out: a nop only where the line has a label, an arrow or an `or`.
    Out,
    Is(Operation),
}

/// What is asked for at the places of one name, of one process or of all.
#[derive(Clone, PartialEq, Eq, Debug)]
pub struct Choice {
    pub process: Option<String>,
    pub place: String,
    pub fence: Fence,
}

impl Choice {
    /// `a=sfence` or `module.a=nop`.
    pub fn parse(word: &str) -> Option<Choice> {
        let (place, fence) = word.split_once('=')?;
        let fence = match fence {
            "out" => Fence::Out,
            "nop" => Fence::Is(Operation::Nop),
            "sfence" => Fence::Is(Operation::Sfence),
            "mfence" => Fence::Is(Operation::Mfence),
            _ => return None,
        };
        let (process, place) = match place.split_once('.') {
            Some((process, place)) => (Some(process.to_string()), place),
            None => (None, place),
        };
        Some(Choice { process, place: place.to_string(), fence })
    }
}
