//! Steps as columns, in rows.

use super::layout::{cut, length, Picture, MOST_LETTERS, NARROW, WIDE};
use super::story::{Change, From, Kind};

/// Half of what an arrow takes.
const ARROW: f64 = 5.0;

/// The columns of one row, by their middle.
pub(super) struct Row {
    pub(super) first: usize,
    pub(super) middles: Vec<f64>,
    /// Where its lines end.
    pub(super) right: f64,
    pub(super) last: bool,
}

impl Row {
    /// The middle of a column of this row.
    pub(super) fn x(&self, column: usize) -> Option<f64> {
        column.checked_sub(self.first).and_then(|at| self.middles.get(at)).copied()
    }

    pub(super) fn end(&self) -> usize {
        self.first + self.middles.len()
    }
}

impl Picture<'_> {
    pub(super) fn change_half(&self, change: &Change) -> f64 {
        (length(&self.value(change.variable, change.value)) * WIDE + 10.0) / 2.0
    }

    /// What a column needs room for, as half a width around its middle: in lane p at p, in the strip of variable v at 4
    /// + v, and at 8 the step's number. An arrow needs a little in each lane and strip that it crosses.
    fn needs(&self, number: usize) -> [f64; 9] {
        let mut needs = [0.0f64; 9];
        let Some(column) = self.story.columns.get(number) else { return needs };
        let p = column.process.min(3);
        let text = cut(&column.text, MOST_LETTERS);
        needs[8] = length(&format!("{number} {}", column.step)) * NARROW / 2.0;
        needs[p] = match column.kind {
            Kind::Out(_) if !self.is_refused(number) => ARROW,
            Kind::Look => (length(&text) * NARROW + 12.0) / 2.0,
            _ => (length(&text) * WIDE + 12.0) / 2.0,
        };
        let mut crosses = |variable: u8| {
            let lanes = if self.is_above(p) { p + 1..self.above } else { self.above..p };
            let strips =
                if self.is_above(p) { 0..variable as usize + 1 } else { variable as usize..self.program.variables };
            for place in lanes.chain(strips.map(|v| 4 + v)) {
                if let Some(half) = needs.get_mut(place.min(7)) {
                    *half = half.max(ARROW);
                }
            }
        };
        let sight = self
            .story
            .sights
            .binary_search_by_key(&number, |sight| sight.column)
            .ok()
            .and_then(|at| self.story.sights.get(at));
        match sight.map(|sight| (sight.from, sight.variable)) {
            Some((From::Change(_), variable)) => crosses(variable),
            Some((From::Message(..), _)) => crosses(if self.is_above(p) { 0 } else { 3 }),
            _ => {}
        }
        if let Some(change) = self.change_in(number) {
            crosses(change.variable);
            needs[8] = needs[8].max(8.0 + length(&format!("#{}", change.message)) * 5.5);
            needs[4 + change.variable.min(3) as usize] = self.change_half(change);
        }
        needs
    }

    /// Columns in rows, as near to each other as what stands in them allows.
    pub(super) fn rows(&self) -> Vec<Row> {
        let start = self.left + 8.0;
        let new = |first: usize| Row { first, middles: Vec::new(), right: start, last: false };
        let mut rows = Vec::new();
        let mut row = new(0);
        let mut taken = [start; 9];
        for number in 0..self.story.columns.len() {
            let needs = self.needs(number);
            let widest = needs.iter().copied().fold(0.0, f64::max);
            let place = |taken: &[f64; 9], row: &Row| {
                let apart =
                    taken.iter().zip(needs).filter(|(_, half)| *half > 0.0).map(|(taken, half)| taken + 9.0 + half);
                apart.chain(row.middles.last().map(|x| x + 24.0)).fold(start, f64::max)
            };
            let mut x = place(&taken, &row);
            if x + widest > self.width && !row.middles.is_empty() {
                rows.push(std::mem::replace(&mut row, new(number)));
                taken = [start; 9];
                x = place(&taken, &row);
            }
            row.middles.push(x);
            row.right = row.right.max(x + widest + 8.0);
            taken.iter_mut().zip(needs).filter(|(_, half)| *half > 0.0).for_each(|(taken, half)| *taken = x + half);
        }
        row.last = true;
        row.right = row.right.max(start + 40.0);
        rows.push(row);
        rows
    }
}
