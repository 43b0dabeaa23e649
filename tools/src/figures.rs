//! The figures of -s: counts, and the three fractions of the library; of reports the counts alone, since the fractions are about safe files.

use crate::library::{Collection, Fraction, Verdict, NEEDED, PSO, REACHABLE, SAFE};
use crate::words;

#[derive(Default)]
pub struct Figures {
    reports: bool,
    judged: Collection,
    /// 25 once a result could not be added.
    uncounted: u64,
    safe: u64,
    reachable: u64,
    pso: u64,
    needed: u64,
    refused: u64,
    pub unread: u64,
}

impl Figures {
    pub fn of(reports: bool) -> Figures {
        Figures { reports, ..Figures::default() }
    }

    pub fn add(&mut self, v: Verdict) {
        let added = self.judged.add(v);
        self.judged = added.collection;
        if added.number != 0 {
            self.uncounted = added.number;
        }
        match v.kind {
            SAFE => self.safe += 1,
            REACHABLE => self.reachable += 1,
            PSO => self.pso += 1,
            NEEDED => self.needed += 1,
            _ => self.refused += 1,
        }
    }

    pub fn any_refused(&self) -> bool {
        self.refused > 0
    }

    fn counts(&self) -> Vec<(&'static str, u64)> {
        let accepted = match self.reports {
            true => vec![("needed", self.needed)],
            false => vec![("safe", self.safe), ("reachable", self.reachable), ("pso", self.pso)],
        };
        let judged = accepted.iter().map(|(_, n)| n).sum::<u64>() + self.refused;
        [vec![("judged", judged)], accepted, vec![("refused", self.refused), ("unread", self.unread)]].concat()
    }

    fn fractions(&self) -> Vec<(&'static str, Fraction)> {
        if self.reports {
            return Vec::new();
        }
        let mut all = vec![("mean", self.judged.mean()), ("variance", self.judged.variance()), ("share", self.judged.share())];
        if self.uncounted != 0 {
            all.iter_mut().for_each(|(_, f)| f.number = self.uncounted);
        }
        all
    }

    /// With what a refusal says below it, if that is wanted.
    pub fn lines(&self, explain: bool) -> String {
        let counts: Vec<String> = self.counts().iter().map(|(name, n)| format!("{name} {n}")).collect();
        let mut text = format!("{}\n", counts.join(", "));
        for (name, f) in self.fractions() {
            text += &match f.number {
                0 => format!("{name} {}/{} ({:.6})\n", f.numerator, f.denominator, f.numerator as f64 / f.denominator as f64),
                number => format!("{name} refused {number}\n"),
            };
            if explain && f.number != 0 {
                text += &format!("{name}: why: {}\n", words::says(f.number));
            }
        }
        text
    }

    pub fn json(&self) -> String {
        let mut parts: Vec<String> = self.counts().iter().map(|(name, n)| format!("\"{name}\":{n}")).collect();
        parts.extend(self.fractions().iter().map(|(name, f)| match f.number {
            0 => format!("\"{name}\":{{\"numerator\":{},\"denominator\":{}}}", f.numerator, f.denominator),
            number => format!("\"{name}\":{{\"refused\":{number}}}"),
        }));
        format!("{{\"figures\":{{{}}}}}\n", parts.join(","))
    }
}
