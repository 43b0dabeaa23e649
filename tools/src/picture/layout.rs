//! Where everything of a story stands. Steps are columns, wrapped in rows; in a row the first processes stand above
//! memory and the others below it, and each process's waiting stores on its far side. A column has one step, so what
//! goes up or down in it meets no operation.

use super::bars::Part;
use super::columns::Row;
use super::story::{Change, From, Kind, Sight, Story};
use super::svg::Svg;
use crate::contents::{Machine, Program};
use crate::text::Names;

/// The width of a character of the two sizes of letters, 12 and 10, and of the smallest, 9.
pub(super) const WIDE: f64 = 7.25;
pub(super) const NARROW: f64 = 6.05;
pub(super) const TRACK: f64 = 17.0;
pub(super) const LANE: f64 = 24.0;
const STRIP: f64 = 24.0;
const GAP: f64 = 26.0;
pub(super) const MOST_LETTERS: usize = 24;
/// How far a look up is drawn from what it sees.
const NEAR: f64 = 130.0;

/// For each variable a strong colour and a light one.
const COLOURS: [(&str, &str); 4] =
    [("#1d4ed8", "#dbeafe"), ("#b45309", "#fef0d5"), ("#7e22ce", "#f1e4fd"), ("#0f766e", "#d3f3ee")];
pub(super) const GREY: (&str, &str) = ("#57606a", "#eef1f4");
const RED: (&str, &str) = ("#c81e1e", "#fde2e2");
const GREEN: (&str, &str) = ("#166534", "#dcf5e4");

pub(super) fn colour(variable: u8) -> (&'static str, &'static str) {
    COLOURS.get(variable as usize).copied().unwrap_or(GREY)
}

pub(super) fn cut(text: &str, most: usize) -> String {
    if text.chars().count() <= most {
        text.to_string()
    } else {
        text.chars().take(most.saturating_sub(1)).chain(std::iter::once('…')).collect()
    }
}

pub(super) fn length(text: &str) -> f64 {
    text.chars().count() as f64
}

pub(super) struct Picture<'a> {
    pub(super) program: &'a Program,
    pub(super) names: &'a Names,
    pub(super) story: &'a Story,
    pub(super) svg: Svg,
    pub(super) left: f64,
    pub(super) width: f64,
    pub(super) above: usize,
}

pub fn draw(program: &Program, names: &Names, story: &Story, title: &str, width: f64) -> String {
    let longest = |names: &[String]| names.iter().map(|name| length(&cut(name, 18))).fold(0.0, f64::max);
    let states = names.states.iter().flatten().map(|state| length(&cut(&state.name, 18))).fold(0.0, f64::max);
    let lanes = (longest(&names.processes) * WIDE).max(states * NARROW);
    let strips = longest(&names.variables) * WIDE + 2.0 * WIDE;
    let left = 16.0 + lanes.max(strips) + 20.0;
    let above = (program.processes + 1) / 2;
    let mut picture = Picture { program, names, story, svg: Svg::new(), left, width: width.max(left + 200.0), above };
    let rows = picture.rows();
    let machine = if story.machine == Machine::Pso { " of the PSO machine" } else { "" };
    let steps = format!("{} step{}", story.steps, if story.steps == 1 { "" } else { "s" });
    let mut y = 26.0;
    let head = format!(
        "{title}{}a run{machine}, {steps}, from {}",
        if title.is_empty() { "" } else { ": " },
        names.memory(&story.memory)
    );
    let mut widest: f64 = 0.0;
    for line in wrapped(&head, 130) {
        picture.svg.text(16.0, y, &line, "font-size=\"13\" font-weight=\"bold\" fill=\"#1f2328\"");
        widest = widest.max(16.0 + length(&line) * 7.9);
        y += 18.0;
    }
    y += 6.0;
    for row in &rows {
        y = picture.row(row, y);
        widest = widest.max(row.right + if row.last { picture.end_width() + 24.0 } else { 16.0 });
    }
    let (ending, colours) = match (&story.refused, story.target) {
        (Some(why), _) => (why.clone(), RED),
        (None, Some(target)) => (format!("ends with {}: target {target}", names.places(&story.states)), GREEN),
        (None, None) => (String::new(), GREY),
    };
    for line in wrapped(&ending, 130) {
        picture.svg.text(
            16.0,
            y + 4.0,
            &line,
            &format!("font-size=\"13\" font-weight=\"bold\" fill=\"{}\"", colours.0),
        );
        widest = widest.max(16.0 + length(&line) * 7.9);
        y += 18.0;
    }
    let legend =
        "a store waits in its bar until it comes out into memory; an arrow leads to each read from what it sees";
    for line in wrapped(legend, ((widest - 16.0) / NARROW).max(40.0) as usize) {
        picture.svg.text(16.0, y + 6.0, &line, &format!("font-size=\"10\" fill=\"{}\"", GREY.0));
        widest = widest.max(16.0 + length(&line) * NARROW);
        y += 14.0;
    }
    y += 8.0;
    let mut definitions = String::from("<defs>\n");
    for (number, (strong, _)) in COLOURS.iter().chain([&GREY, &RED]).enumerate() {
        definitions.push_str(&format!(
            "<marker id=\"a{number}\" viewBox=\"0 0 8 8\" refX=\"7\" refY=\"4\" markerWidth=\"7\" markerHeight=\"7\" orient=\"auto\">\
             <path d=\"M0 0.5L8 4L0 7.5z\" fill=\"{strong}\"/></marker>\n"
        ));
    }
    definitions.push_str("</defs>\n");
    picture.svg.finish(widest.ceil() + 16.0, y, &head, &definitions)
}

/// A text in lines of so many letters, cut at spaces where there are some.
fn wrapped(text: &str, most: usize) -> Vec<String> {
    let mut lines: Vec<String> = Vec::new();
    for word in text.split(' ') {
        let word = cut(word, most);
        match lines.last_mut() {
            Some(line) if line.chars().count() + 1 + word.chars().count() <= most => {
                line.push(' ');
                line.push_str(&word);
            }
            _ => lines.push(word),
        }
    }
    lines.retain(|line| !line.is_empty());
    lines
}

impl Picture<'_> {
    pub(super) fn value(&self, variable: u8, value: u8) -> String {
        format!("{}={value}", cut(self.names.variable(variable as usize), 18))
    }

    fn end_width(&self) -> f64 {
        let states =
            (0..self.program.processes).map(|p| length(&cut(self.names.state(p, self.story.states[p & 3]), 18)));
        states.fold(0.0, f64::max) * WIDE + 20.0
    }

    pub(super) fn change_in(&self, column: usize) -> Option<&Change> {
        self.story
            .changes
            .binary_search_by_key(&column, |change| change.column)
            .ok()
            .and_then(|at| self.story.changes.get(at))
    }

    fn row(&mut self, row: &Row, top: f64) -> f64 {
        let processes = self.program.processes.min(4);
        let variables = self.program.variables.min(4);
        let parts: Vec<(Vec<Part>, usize)> = (0..processes).map(|p| self.parts(row, p)).collect();
        let bars_height = |p: usize| {
            let (parts, hidden) = &parts[p];
            let tracks = parts.iter().map(|part| part.track + 1).max().unwrap_or(0) as f64;
            tracks * TRACK + if *hidden > 0 { 12.0 } else { 0.0 } + if tracks > 0.0 { 4.0 } else { 0.0 }
        };
        // From the top: step numbers, the processes above with their bars, memory, the processes below with theirs.
        let mut y = top + 18.0;
        let mut lanes = [0.0; 4];
        for p in 0..self.above.min(processes) {
            y += bars_height(p);
            lanes[p] = y;
            y += LANE + 10.0;
        }
        y += GAP - 10.0;
        let memory = y;
        y += STRIP * variables as f64 + GAP;
        for p in self.above..processes {
            lanes[p] = y;
            y += LANE + bars_height(p) + 10.0;
        }
        let bottom = y;

        for (at, x) in row.middles.iter().enumerate() {
            let number = row.first + at;
            if let Some(column) = self.story.columns.get(number) {
                let refused = self.is_refused(number);
                let fill = if refused { RED.0 } else { "#8a939d" };
                self.svg.text(
                    *x,
                    top + 8.0,
                    &format!("{number} {}", column.step),
                    &format!("font-size=\"10\" text-anchor=\"middle\" fill=\"{fill}\""),
                );
            }
        }
        self.memory(row, memory, variables);
        for p in 0..processes {
            self.lane(row, p, lanes[p]);
        }
        for p in 0..processes {
            self.bars(row, p, lanes[p], &parts[p], memory);
        }
        for sight in &self.story.sights {
            if let Some(x) = row.x(sight.column) {
                self.sight(row, sight, x, &lanes, memory, &parts);
            }
        }
        for at in 0..row.middles.len() {
            self.operation(row, row.first + at, &lanes, memory);
        }
        if row.last {
            self.ends(row, &lanes);
        }
        bottom + 22.0
    }

    pub(super) fn is_refused(&self, column: usize) -> bool {
        self.story.refused.is_some()
            && self.story.columns.len() == column + 1
            && self.story.target.is_none()
            && self.failed_step()
    }

    /// The run was refused at a step, and not for its end.
    fn failed_step(&self) -> bool {
        self.story.refused.as_ref().is_some_and(|why| !why.starts_with("refused 13 "))
    }

    pub(super) fn is_above(&self, process: usize) -> bool {
        process < self.above
    }

    /// The side of a lane that looks to memory.
    fn inner(&self, process: usize, lane: f64) -> f64 {
        if self.is_above(process) {
            lane + LANE
        } else {
            lane
        }
    }

    fn memory_edge(&self, process: usize, memory: f64) -> f64 {
        if self.is_above(process) {
            memory
        } else {
            memory + STRIP * self.program.variables.min(4) as f64
        }
    }

    pub(super) fn strip(&self, memory: f64, variable: u8) -> f64 {
        memory + STRIP * (variable.min(3) as f64 + 0.5)
    }

    /// The value of a variable in the newest memory before a column, and the change that made it.
    fn newest(&self, variable: u8, column: usize) -> (u8, Option<usize>) {
        let upto = self.story.changes.partition_point(|change| change.column < column);
        match self.story.changes[..upto].iter().rposition(|change| change.variable == variable) {
            Some(at) => (self.story.changes[at].value, Some(at)),
            None => (self.story.memory.get(variable as usize).copied().unwrap_or(0), None),
        }
    }

    fn memory(&mut self, row: &Row, memory: f64, variables: usize) {
        let height = STRIP * variables as f64;
        self.svg.rect(
            self.left,
            memory,
            row.right - self.left + 6.0,
            height,
            4.0,
            "fill=\"#f6f8fa\" stroke=\"#d8dee4\"",
        );
        for v in 0..variables as u8 {
            let y = self.strip(memory, v);
            let (strong, light) = colour(v);
            let (value, _) = self.newest(v, row.first);
            let text = self.value(v, value);
            self.svg.text(self.left - 8.0, y + 4.0, &text, &format!("text-anchor=\"end\" fill=\"{strong}\""));
            let mut from = self.left;
            let changes =
                self.story.changes.iter().filter(|change| change.variable == v && row.x(change.column).is_some());
            let ends: Vec<f64> = changes.filter_map(|change| row.x(change.column)).chain([row.right + 6.0]).collect();
            for to in ends {
                self.svg.rect(
                    from + 2.0,
                    y - 3.0,
                    to - from - 4.0,
                    6.0,
                    3.0,
                    &format!("fill=\"{light}\" stroke=\"{strong}\" stroke-opacity=\"0.25\""),
                );
                from = to;
            }
        }
    }

    fn lane(&mut self, row: &Row, process: usize, lane: f64) {
        let y = lane + LANE / 2.0;
        let state = self.story.columns.get(row.first).map_or(self.story.states, |column| column.states);
        let style = format!("text-anchor=\"end\" fill=\"{}\"", GREY.0);
        self.svg.text(
            self.left - 8.0,
            y - 1.0,
            &cut(self.names.process(process), 18),
            "text-anchor=\"end\" font-weight=\"bold\" fill=\"#1f2328\"",
        );
        let state = state.get(process).copied().unwrap_or(0);
        if self.names.labelled(process, state) {
            self.svg.text(
                self.left - 8.0,
                y + 11.0,
                &cut(self.names.state(process, state), 18),
                &format!("font-size=\"10\" {style}"),
            );
        }
        self.svg.way(&[(self.left, y), (row.right + 6.0, y)], 0.0, "stroke=\"#c5ccd3\" stroke-width=\"1.5\"");
    }

    pub(super) fn arrow(&mut self, points: &[(f64, f64)], marker: usize, style: &str) {
        let stroke = COLOURS.get(marker).copied().unwrap_or(if marker == 5 { RED } else { GREY }).0;
        self.svg.way(points, 6.0, &format!("stroke=\"{stroke}\" marker-end=\"url(#a{marker})\" {style}"));
    }

    fn sight(&mut self, row: &Row, sight: &Sight, x: f64, lanes: &[f64; 4], memory: f64, parts: &[(Vec<Part>, usize)]) {
        let p = sight.process;
        let (Some(lane), Some(own)) = (lanes.get(p).copied(), parts.get(p)) else { return };
        let to = self.inner(p, lane) + if self.is_above(p) { 1.0 } else { -1.0 };
        let edge = self.memory_edge(p, memory);
        let v = sight.variable;
        // Between memory and the nearest lane, a height for each variable.
        let between = |slot: f64| if self.is_above(p) { edge - 4.0 - 4.0 * slot } else { edge + 4.0 + 4.0 * slot };
        match sight.from {
            From::Bar(number) => {
                let Some(part) = own.0.iter().find(|part| part.bar == number) else { return };
                let y = self.track(p, lane, part.track);
                let (from, to) = if self.is_above(p) { (y + 6.5, lane - 1.0) } else { (y - 6.5, lane + LANE + 1.0) };
                self.arrow(&[(x, from), (x, to)], v as usize, "stroke-width=\"1.3\"");
            }
            From::Change(origin) => {
                let (_, newest) = self.newest(v, sight.column);
                let strip = self.strip(memory, v);
                if origin == newest {
                    self.svg.dot(x, strip, 2.6, &format!("fill=\"{}\"", colour(v).0));
                    self.arrow(&[(x, strip), (x, to)], v as usize, "stroke-width=\"1.3\"");
                    return;
                }
                // An older value: from where it ended, or if that was in a row before, from its message's number.
                let after = origin.map_or(0, |at| at + 1);
                let next = self.story.changes.iter().skip(after).find(|change| change.variable == v);
                let style = "stroke-width=\"1.3\" stroke-dasharray=\"5 2.5\"";
                match next.and_then(|next| row.x(next.column).map(|x| x - self.change_half(next))) {
                    Some(end) => {
                        let xs = end - 3.0;
                        let track = between(1.0 + v as f64);
                        self.svg.dot(xs, strip, 2.6, &format!("fill=\"{}\"", colour(v).0));
                        self.arrow(&[(xs, strip), (xs, track), (x, track), (x, to)], v as usize, style);
                    }
                    None => {
                        let message =
                            origin.and_then(|at| self.story.changes.get(at)).map_or(1, |change| change.message);
                        let foot = between(3.0);
                        self.arrow(&[(x, foot), (x, to)], v as usize, style);
                        let style = format!("font-size=\"9\" fill=\"{}\"", colour(v).0);
                        self.svg.text(x + 4.0, foot + 3.0, &format!("#{message}"), &style);
                    }
                }
            }
            From::Message(_, change) => {
                let at = change.and_then(|at| self.story.changes.get(at)).copied();
                let Some((from, change)) = at.and_then(|change| row.x(change.column).map(|x| (x, change))) else {
                    return;
                };
                // Farther away its number has to do: such lines would lie upon each other.
                if x - from > NEAR {
                    return;
                }
                let track = between(5.0);
                let strip = self.strip(memory, change.variable) + if self.is_above(p) { -10.0 } else { 10.0 };
                let style = "stroke-width=\"1\" stroke-dasharray=\"1.5 2.5\"";
                self.arrow(&[(from + 6.0, strip), (from + 6.0, track), (x, track), (x, to)], 4, style);
            }
        }
    }

    fn operation(&mut self, row: &Row, number: usize, lanes: &[f64; 4], memory: f64) {
        let (Some(column), Some(x)) = (self.story.columns.get(number).cloned(), row.x(number)) else { return };
        let Some(lane) = lanes.get(column.process).copied() else { return };
        let refused = self.is_refused(number);
        if let Some(change) = self.change_in(number).copied() {
            let (strong, light) = colour(change.variable);
            let y = self.strip(memory, change.variable);
            let text = self.value(change.variable, change.value);
            let width = length(&text) * WIDE + 10.0;
            if let Kind::Atomic(_) = column.kind {
                let (from, to) = if self.is_above(column.process) { (lane + LANE, y - 10.0) } else { (lane, y + 10.0) };
                self.arrow(&[(x, from), (x, to)], change.variable as usize, "stroke-width=\"1.7\"");
            }
            self.svg.rect(
                x - width / 2.0,
                y - 9.0,
                width,
                18.0,
                4.0,
                &format!("fill=\"{light}\" stroke=\"{strong}\" stroke-width=\"1.5\""),
            );
            self.svg.text(x, y + 4.0, &text, &format!("text-anchor=\"middle\" fill=\"{strong}\""));
            if self.story.machine == Machine::Pws {
                let style = format!("font-size=\"9\" text-anchor=\"end\" fill=\"{}\"", GREY.0);
                self.svg.text(x - 8.0, memory - 4.0, &format!("#{}", change.message), &style);
            }
        }
        let text = cut(&column.text, MOST_LETTERS);
        let y = lane + LANE / 2.0;
        let (strong, fill, weight) = match column.kind {
            Kind::Store(v) => (colour(v).0, colour(v).1, "1.2"),
            Kind::Atomic(v) => (colour(v).0, colour(v).1, "2.4"),
            Kind::Read(v) => (colour(v).0, "#ffffff", "1.2"),
            Kind::Fence => (GREY.0, GREY.1, "1.2"),
            _ => (GREY.0, "#ffffff", "1"),
        };
        let (strong, fill, weight) = if refused { (RED.0, RED.1, "2.4") } else { (strong, fill, weight) };
        match column.kind {
            Kind::Out(_) if !refused => {}
            Kind::Look => {
                let width = length(&text) * NARROW + 12.0;
                self.svg.rect(
                    x - width / 2.0,
                    y - 8.0,
                    width,
                    16.0,
                    8.0,
                    &format!("fill=\"{fill}\" stroke=\"{strong}\" stroke-width=\"{weight}\""),
                );
                self.svg.text(x, y + 3.5, &text, &format!("font-size=\"10\" text-anchor=\"middle\" fill=\"{strong}\""));
            }
            _ => {
                let width = length(&text) * WIDE + 12.0;
                self.svg.rect(
                    x - width / 2.0,
                    lane + 2.0,
                    width,
                    LANE - 4.0,
                    4.0,
                    &format!("fill=\"{fill}\" stroke=\"{strong}\" stroke-width=\"{weight}\""),
                );
                self.svg.text(x, y + 4.0, &text, &format!("text-anchor=\"middle\" fill=\"{strong}\""));
            }
        }
    }

    /// The local states in which the run ends: a target, or not.
    fn ends(&mut self, row: &Row, lanes: &[f64; 4]) {
        let (strong, light) = match (self.story.target, self.failed_step()) {
            (Some(_), _) => GREEN,
            (None, true) => GREY,
            (None, false) => RED,
        };
        for p in 0..self.program.processes.min(4) {
            let text = cut(self.names.state(p, self.story.states[p]), 18);
            let y = lanes[p] + LANE / 2.0;
            let width = length(&text) * WIDE + 14.0;
            self.svg.rect(
                row.right + 8.0,
                y - 10.0,
                width,
                20.0,
                10.0,
                &format!("fill=\"{light}\" stroke=\"{strong}\" stroke-width=\"1.6\""),
            );
            let style = format!("text-anchor=\"middle\" font-weight=\"bold\" fill=\"{strong}\"");
            self.svg.text(row.right + 8.0 + width / 2.0, y + 4.0, &text, &style);
        }
    }
}
