//! Waiting stores as bars.

use super::columns::Row;
use super::layout::{colour, cut, length, Picture, GREY, LANE, MOST_LETTERS, NARROW, TRACK};
use super::story::{Bar, Kind, Sight};

/// Bars that a row shows of a process; more are counted.
const MOST_TRACKS: usize = 12;

/// A bar's part in a row: its number, from where to where, and its track.
pub(super) struct Part {
    pub(super) bar: usize,
    pub(super) from: f64,
    pub(super) to: f64,
    pub(super) track: usize,
    /// It began in this row, it comes out in this row.
    pub(super) begins: bool,
    pub(super) ends: bool,
    /// It stands for so many.
    pub(super) many: usize,
}

impl Picture<'_> {
    /// The bars of a process that a row shows, and how many it does not.
    pub(super) fn parts(&self, row: &Row, process: usize) -> (Vec<Part>, usize) {
        let mut free: Vec<f64> = Vec::new();
        let mut parts: Vec<Part> = Vec::new();
        let mut hidden = 0;
        let here =
            |bar: &Bar| bar.process == process && bar.start < row.end() && bar.end.map_or(true, |end| end >= row.first);
        // Bars that only go through the row: many of one variable are one.
        let read: Vec<usize> = self
            .story
            .sights
            .iter()
            .filter(|sight| row.x(sight.column).is_some())
            .filter_map(|sight| sight.bar())
            .collect();
        let through = |number: usize, bar: &Bar| {
            here(bar)
                && bar.start < row.first
                && bar.end.map_or(true, |end| end >= row.end())
                && !read.contains(&number)
        };
        let mut counts = [0usize; 5];
        let slot = |bar: &Bar| bar.variable.map_or(4, |v| v.min(3) as usize);
        for (_, bar) in self.story.bars.iter().enumerate().filter(|(number, bar)| through(*number, bar)) {
            counts[slot(bar)] += 1;
        }
        for (number, bar) in self.story.bars.iter().enumerate() {
            if !here(bar) {
                continue;
            }
            let many = if through(number, bar) && counts[slot(bar)] > 2 { counts[slot(bar)] } else { 1 };
            if many > 1
                && parts.iter().any(|part| {
                    part.many > 1 && self.story.bars.get(part.bar).is_some_and(|other| slot(other) == slot(bar))
                })
            {
                continue;
            }
            let begins = bar.start >= row.first;
            let from = row.x(bar.start).unwrap_or(self.left + 6.0);
            let ends = bar.end.and_then(|end| row.x(end));
            let to = ends.unwrap_or(row.right);
            let track = match free.iter().position(|until| *until + 6.0 <= from) {
                Some(track) => track,
                None => {
                    free.push(0.0);
                    free.len() - 1
                }
            };
            free[track] = to;
            if track >= MOST_TRACKS {
                hidden += 1;
                continue;
            }
            parts.push(Part { bar: number, from, to, track, begins, ends: ends.is_some(), many });
        }
        (parts, hidden)
    }

    pub(super) fn track(&self, process: usize, lane: f64, track: usize) -> f64 {
        let away = 4.0 + TRACK * (track as f64 + 0.5);
        if self.is_above(process) {
            lane - away
        } else {
            lane + LANE + away
        }
    }

    pub(super) fn bars(&mut self, row: &Row, process: usize, lane: f64, parts: &(Vec<Part>, usize), memory: f64) {
        let outer = if self.is_above(process) { lane } else { lane + LANE };
        // What goes between memory and the lanes behind this one.
        let behind = |q: usize| {
            self.is_above(q) == self.is_above(process) && if self.is_above(process) { q < process } else { q > process }
        };
        let lines = (row.first..row.end()).filter(|number| {
            self.story
                .columns
                .get(*number)
                .is_some_and(|c| behind(c.process) && !matches!(c.kind, Kind::Store(_) | Kind::Fence | Kind::Other))
        });
        let lines: Vec<f64> = lines.filter_map(|number| row.x(number)).collect();
        for part in &parts.0 {
            let Some(bar) = self.story.bars.get(part.bar) else { continue };
            let (strong, light) = bar.variable.map_or(GREY, colour);
            let y = self.track(process, lane, part.track);
            if part.begins {
                self.svg.way(
                    &[(part.from, outer), (part.from, y)],
                    0.0,
                    &format!("stroke=\"{strong}\" stroke-width=\"1.5\""),
                );
            }
            let waits_on = bar.end.is_none();
            let dashes = if waits_on && row.last { " stroke-dasharray=\"4 2\"" } else { "" };
            let (from, to) = (part.from - 5.0, part.to + if part.ends { 5.0 } else { 6.0 });
            let style = format!("fill=\"{light}\" stroke=\"{strong}\"{dashes}");
            self.svg.rect(from, y - 6.5, to - from, 13.0, 6.5, &style);
            let long = match (bar.variable, waits_on && row.last) {
                (Some(v), _) if part.many > 1 => {
                    format!("{} stores to {} wait", part.many, cut(self.names.variable(v as usize), MOST_LETTERS))
                }
                (None, _) if part.many > 1 => format!("{} marks of sfences", part.many),
                (None, _) => String::from("mark of the sfence"),
                (_, true) => format!("{} still waits", bar.text),
                _ => format!("{} waits", bar.text),
            };
            let value = bar.text.rsplit(' ').next().unwrap_or("").to_string();
            // The text stands where no line of a bar farther out crosses this one.
            let farther = parts.0.iter().filter(|other| other.track > part.track);
            let crossing = farther
                .flat_map(|other| [other.begins.then_some(other.from), other.ends.then_some(other.to)])
                .flatten();
            let crossing = crossing.chain(lines.iter().copied()).chain(
                parts.0.iter().filter(|other| other.track > part.track).flat_map(|other| {
                    let seen = |sight: &&Sight| sight.bar() == Some(other.bar);
                    self.story.sights.iter().filter(seen).filter_map(|sight| row.x(sight.column))
                }),
            );
            let mut cuts: Vec<f64> = crossing.filter(|x| *x > from && *x < to).collect();
            cuts.extend([from + 3.0, to - 3.0]);
            cuts.sort_by(f64::total_cmp);
            let widest = cuts
                .windows(2)
                .map(|pair| (pair[1] - pair[0], (pair[0] + pair[1]) / 2.0))
                .max_by(|a, b| a.0.total_cmp(&b.0));
            let (room, middle) = widest.unwrap_or((0.0, from));
            let text = [long, cut(&bar.text, MOST_LETTERS), value]
                .into_iter()
                .find(|text| length(text) * NARROW + 4.0 <= room);
            if let Some(text) = text {
                let style = format!("font-size=\"10\" text-anchor=\"middle\" fill=\"{strong}\"");
                self.svg.text(middle, y + 3.5, &text, &style);
            }
        }
        if parts.1 > 0 {
            let tracks = parts.0.iter().map(|part| part.track + 1).max().unwrap_or(0) as f64;
            let away = 4.0 + TRACK * tracks;
            let y = if self.is_above(process) { lane - away - 2.0 } else { lane + LANE + away + 10.0 };
            let words = format!("and {} more waiting in this row", parts.1);
            self.svg.text(self.left + 8.0, y, &words, &format!("font-size=\"10\" fill=\"{}\"", GREY.0));
        }
        // Where they come out: from the bar's end across the lane, in a column where nothing else of it stands.
        for column in row.first..row.end() {
            let (Some(x), Some(change)) = (row.x(column), self.change_in(column).copied()) else { continue };
            let out = self.story.columns.get(column).filter(|c| c.process == process && matches!(c.kind, Kind::Out(_)));
            if out.is_none() {
                continue;
            }
            let part = parts
                .0
                .iter()
                .find(|part| part.ends && self.story.bars.get(part.bar).is_some_and(|bar| bar.end == Some(column)));
            let from = part.map_or(outer, |part| {
                let y = self.track(process, lane, part.track);
                if self.is_above(process) {
                    y + 6.5
                } else {
                    y - 6.5
                }
            });
            let strip = self.strip(memory, change.variable);
            let to = if self.is_above(process) { strip - 10.0 } else { strip + 10.0 };
            self.arrow(&[(x, from), (x, to)], change.variable as usize, "stroke-width=\"1.7\"");
        }
    }
}
