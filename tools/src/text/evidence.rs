//! The evidence part of a text: runs, lists, patterns.

use super::lexer::{Cursor, Token};
use super::operations::{assignments, operation, process_state};
use super::{Complaint, Names};
use crate::contents::{
    Clue, Entry, Evidence, Item, Machine, Message, Operation, Program, Run, Step, ANY, ENTRIES, MESSAGES, STEPS,
    TRANSITIONS, WAITING,
};

#[derive(Clone, Copy, PartialEq, Eq, Debug)]
pub enum Section {
    None,
    Run,
    List,
    Patterns,
}

/// What evidence is assembled for, and what there is of it.
pub struct Context {
    program: Option<Program>,
    pub(super) names: Names,
    memory: [u8; 4],
    /// Of a report: its list comes first, and then so many runs.
    marks: usize,
    pub(super) parts: Vec<Evidence>,
    pub section: Section,
    /// In a run, where each process is.
    states: [u8; 4],
    /// Line and column of the latest entry or pattern.
    pub(super) place: (usize, usize),
    pub(super) waiting: [[usize; 4]; 4],
}

/// The transitions that a step by name can be: those of this process with this operation, and if one is named to this
/// state; from where the process is, or else from anywhere.
pub fn candidates(program: &Program, at: u8, process: usize, operation: Operation, to: Option<u8>) -> Vec<u8> {
    let fits = |here: bool| -> Vec<u8> {
        let all = program.transitions.iter().enumerate().filter(|(_, t)| {
            t.process as usize == process
                && t.operation == operation
                && to.map_or(true, |to| to == t.to)
                && (!here || t.from == at)
        });
        all.map(|(number, _)| number as u8).collect()
    };
    let here = fits(true);
    if here.is_empty() {
        fits(false)
    } else {
        here
    }
}

/// `t0`, `s01`, `u1`.
fn letters(text: &str) -> Option<Step> {
    let digits = text.get(1..)?;
    if !digits.bytes().all(|b| b.is_ascii_digit()) {
        return None;
    }
    match (text.as_bytes().first()?, digits.as_bytes()) {
        (b't', _) if digits == "0" || !digits.starts_with('0') => digits.parse().ok().map(Step::Transition),
        (b's', [p, v]) => Some(Step::Serialise(p - b'0', v - b'0')),
        (b'u', [p]) => Some(Step::Update(p - b'0')),
        _ => None,
    }
}

impl Context {
    pub fn new(program: Option<Program>, names: Names, memory: [u8; 4], marks: usize) -> Context {
        Context {
            program,
            names,
            memory,
            marks,
            parts: Vec::new(),
            section: Section::None,
            states: [0; 4],
            place: (1, 1),
            waiting: [[0; 4]; 4],
        }
    }

    fn transitions(&self) -> usize {
        self.program.as_ref().map_or(TRANSITIONS, |p| p.transitions.len())
    }

    pub(super) fn variable(&self, name: &str) -> Option<(u8, u8)> {
        let v = self.names.variables.iter().position(|known| known == name)?;
        Some((v as u8, self.program.as_ref().map_or(4, |p| p.values.get(v).copied().unwrap_or(0))))
    }

    pub fn begin(&mut self, cursor: &mut Cursor) -> Result<(), Complaint> {
        self.end_of_item()?;
        let due = match (self.marks, self.parts.len()) {
            (0, 0) => "`run`, `pso run`, `list` or `patterns`",
            (0, _) => "a line of the evidence that began before",
            (_, 0) => "the report's `list`",
            (marks, parts) if parts <= marks => "`run`, for the next mark of the report",
            _ => "the end of the report",
        };
        let (pso, report) = (cursor.eat("pso"), self.marks > 0);
        let allowed = |run: bool| {
            if report {
                self.parts.len() <= self.marks && (self.parts.is_empty() != run) && !pso
            } else {
                self.parts.is_empty()
            }
        };
        if cursor.ahead(0, "run") && allowed(true) {
            cursor.at += 1;
            let mut memory = self.memory;
            if cursor.eat("from") {
                memory = [0; 4];
                let variable = |name: &str| self.variable(name);
                assignments(cursor, &variable, &mut memory, false)?;
            }
            cursor.done("`from` or the end of the line")?;
            self.states = self.program.as_ref().map_or([0; 4], |p| p.initial);
            self.section = Section::Run;
            let machine = if pso { Machine::Pso } else { Machine::Pws };
            self.parts.push(Evidence::Run(Run { machine, memory, steps: Vec::new() }));
        } else if !pso && cursor.ahead(0, "list") && allowed(false) {
            cursor.at += 1;
            cursor.done("the end of the line")?;
            self.section = Section::List;
            self.parts.push(Evidence::List(Vec::new()));
        } else if !pso && !report && cursor.ahead(0, "patterns") && allowed(false) {
            cursor.at += 1;
            cursor.done("the end of the line")?;
            self.section = Section::Patterns;
            self.parts.push(Evidence::Patterns(Vec::new()));
        } else {
            return cursor.complain(due);
        }
        Ok(())
    }

    pub fn line(&mut self, cursor: &mut Cursor) -> Result<(), Complaint> {
        match self.section {
            Section::None => cursor.complain("evidence"),
            Section::Run => self.steps(cursor),
            Section::List => self.entry_line(cursor),
            Section::Patterns => self.pattern_line(cursor),
        }
    }

    pub fn finish(mut self, end: (usize, usize)) -> Result<(Option<Program>, Names, Vec<Evidence>), Complaint> {
        self.end_of_item()?;
        if self.marks > 0 && self.parts.len() != self.marks + 1 {
            let words = format!("expected a `run` for each of the {} marks, found the end of the text", self.marks);
            return Err(Complaint { line: end.0, column: end.1, words });
        }
        // Patterns with no pattern are a list with no entry: the bytes are the same.
        for part in &mut self.parts {
            if *part == Evidence::Patterns(Vec::new()) {
                *part = Evidence::List(Vec::new());
            }
        }
        Ok((self.program, self.names, self.parts))
    }

    pub(super) fn process(&self, cursor: &mut Cursor) -> Result<usize, Complaint> {
        let name = cursor.name("a process")?;
        match self.names.processes.iter().position(|known| known == name.text) {
            Some(p) if p < 4 => Ok(p),
            _ => cursor.complain_back("a process"),
        }
    }

    pub(super) fn known_variable(&self, cursor: &mut Cursor) -> Result<(usize, u8), Complaint> {
        let name = cursor.name("a variable")?;
        match self.variable(name.text) {
            Some((v, count)) if v < 4 => Ok((v as usize, count)),
            _ => cursor.complain_back("a variable"),
        }
    }

    fn push(&mut self, cursor: &Cursor, step: Step) -> Result<(), Complaint> {
        let Some(Evidence::Run(run)) = self.parts.last_mut() else { return Ok(()) };
        if run.steps.len() == STEPS {
            return cursor.complain(&format!("at most {STEPS} steps"));
        }
        run.steps.push(step);
        if let (Step::Transition(number), Some(program)) = (step, &self.program) {
            if let Some(t) = program.transitions.get(number as usize) {
                if let Some(state) = self.states.get_mut(t.process as usize) {
                    *state = t.to;
                }
            }
        }
        Ok(())
    }

    /// `module: gate := 1`, `module writes out gate`, `page looks up`, `page removes its mark`, or letters.
    fn steps(&mut self, cursor: &mut Cursor) -> Result<(), Complaint> {
        let by_name = [":", "writes", "looks", "removes"].iter().any(|word| cursor.ahead(1, word));
        if !by_name {
            while let Some(token) = cursor.peek() {
                let step = self.letters_step(cursor, token)?;
                self.push(cursor, step)?;
                cursor.at += 1;
            }
            return Ok(());
        }
        let pso = matches!(self.parts.last(), Some(Evidence::Run(run)) if run.machine == Machine::Pso);
        let p = self.process(cursor)?;
        if cursor.eat("writes") {
            cursor.expect("out")?;
            let (v, _) = self.known_variable(cursor)?;
            cursor.done("the end of the line")?;
            return self.push(cursor, Step::Serialise(p as u8, v as u8));
        }
        if !pso && cursor.eat("looks") {
            cursor.expect("up")?;
            cursor.done("the end of the line")?;
            return self.push(cursor, Step::Update(p as u8));
        }
        if pso && cursor.eat("removes") {
            cursor.expect("its")?;
            cursor.expect("mark")?;
            cursor.done("the end of the line")?;
            return self.push(cursor, Step::Update(p as u8));
        }
        if !cursor.eat(":") {
            return cursor.complain(if pso {
                "`:`, `writes out` or `removes its mark`"
            } else {
                "`:`, `writes out` or `looks up`"
            });
        }
        let Some(program) = &self.program else {
            return cursor.complain("a step by letter, since no program is given");
        };
        let start = cursor.at;
        let operation = operation(cursor, &|name| self.variable(name), None)?;
        let mut to = None;
        if cursor.eat("->") {
            let expected = format!("a state of {}", self.names.process(p));
            let name = cursor.name(&expected)?;
            let state =
                self.names.states.get(p).and_then(|states| states.iter().position(|known| known.name == name.text));
            match state {
                Some(state) => to = Some(state as u8),
                None => return cursor.complain_back(&expected),
            }
        }
        cursor.done("`->` or the end of the line")?;
        let found = candidates(program, self.states[p], p, operation, to);
        match found[..] {
            [one] => self.push(cursor, Step::Transition(one)),
            [] => {
                cursor.at = start;
                cursor.complain(&format!("a transition of {} with this operation", self.names.process(p)))
            }
            _ => {
                let all: Vec<String> = found.iter().take(8).map(|number| format!("t{number}")).collect();
                cursor.complain(&format!("`->` and a state, or a letter, to tell apart {}", all.join(", ")))
            }
        }
    }

    fn letters_step(&self, cursor: &Cursor, token: Token) -> Result<Step, Complaint> {
        let (processes, variables) = (self.names.processes.len(), self.names.variables.len());
        let exists = |step: &Step| match *step {
            Step::Transition(number) => (number as usize) < self.transitions(),
            Step::Serialise(p, v) => (p as usize) < processes && (v as usize) < variables,
            Step::Update(p) => (p as usize) < processes,
        };
        match letters(token.text).filter(exists) {
            Some(step) => Ok(step),
            None => cursor.complain(&format!(
                "a step: PROCESS: OPERATION, PROCESS writes out VARIABLE, or letters (t below {}, s with process below {processes} and variable below {variables}, u)",
                self.transitions()
            )),
        }
    }

    /// An entry has a message, its pointers name messages, and one names the first; of patterns, number 7.
    pub(super) fn end_of_item(&self) -> Result<(), Complaint> {
        let complain = |words: String| Err(Complaint { line: self.place.0, column: self.place.1, words });
        match self.parts.last() {
            Some(Evidence::List(entries)) => {
                let Some(entry) = entries.last() else { return Ok(()) };
                let messages = entry.items.iter().filter(|item| matches!(item, Item::Message(_))).count();
                if messages == 0 {
                    return complain(String::from("expected a `message` in this entry"));
                }
                let present = |p: usize| {
                    p < self.names.processes.len()
                        && (self.program.is_some() || entry.pointers[p] != 0 || entry.states[p] != 0)
                };
                for p in (0..4).filter(|p| present(*p)) {
                    if !(1..=messages).contains(&(entry.pointers[p] as usize)) {
                        return complain(format!(
                            "expected {} at one of this entry's messages, 1 to {messages}, found {}",
                            self.names.process(p),
                            entry.pointers[p]
                        ));
                    }
                }
                if !(0..4).any(|p| present(p) && entry.pointers[p] == 1) {
                    return complain(String::from("expected a process at message 1 in this entry"));
                }
                Ok(())
            }
            Some(Evidence::Patterns(patterns)) => {
                let Some(pattern) = patterns.last() else { return Ok(()) };
                let mut read = [false; 4];
                for clue in &pattern.clues {
                    match *clue {
                        Clue::Queue { process, variable, ends } => {
                            let word = pattern.clues.iter().any(|clue| {
                                matches!(clue, Clue::Waiting { process: p, variable: v, .. } if (*p, *v) == (process, variable))
                            });
                            if word != ends {
                                let (p, v) =
                                    (self.names.process(process as usize), self.names.variable(variable as usize));
                                let what = if ends { "a `waits` beside" } else { "no `waits` beside" };
                                return complain(format!(
                                    "expected {what} the `{}` of {p} {v} in this pattern",
                                    if ends { "ends" } else { "empty" }
                                ));
                            }
                        }
                        Clue::Read { process, own, .. } => {
                            let Some(seen) = read.get_mut(process as usize) else { continue };
                            if own && !*seen {
                                return complain(format!(
                                    "expected a first read of {} that is not own in this pattern",
                                    self.names.process(process as usize)
                                ));
                            }
                            *seen = true;
                        }
                        Clue::Waiting { .. } => {}
                    }
                }
                Ok(())
            }
            _ => Ok(()),
        }
    }

    /// `P STATE at N, Q STATE at N`, or without `at N`.
    pub(super) fn states(
        &self,
        cursor: &mut Cursor,
        pointers: Option<&mut [u8; 4]>,
        last: Option<&str>,
    ) -> Result<[u8; 4], Complaint> {
        let mut states = [0; 4];
        let mut named = [false; 4];
        let mut pointers = pointers;
        loop {
            let (p, state) = process_state(cursor, &self.names)?;
            if std::mem::replace(&mut named[p], true) {
                return cursor.complain_back("one state for each process");
            }
            states[p] = state;
            if let Some(pointers) = &mut pointers {
                cursor.expect("at")?;
                let number = cursor.number("the number of a message")?;
                if !(1..=MESSAGES as u32).contains(&number) {
                    return cursor.complain_back(&format!("the number of a message, 1 to {MESSAGES}"));
                }
                pointers[p] = number as u8;
            }
            let ends = cursor.peek().is_none() || last.is_some_and(|word| cursor.ahead(0, word));
            if ends {
                break;
            }
            if !cursor.eat(",") {
                return cursor.complain(&format!(
                    "`,`{} or the end of the line",
                    last.map_or(String::new(), |word| format!(", `{word}`"))
                ));
            }
        }
        if self.program.is_some() {
            if let Some(p) = (0..self.names.processes.len()).find(|p| !named[*p & 3]) {
                return cursor.complain(&format!("`,` and the state of {}", self.names.process(p)));
            }
        }
        Ok(states)
    }

    fn entry_line(&mut self, cursor: &mut Cursor) -> Result<(), Complaint> {
        let column = cursor.column();
        if cursor.eat("entry") {
            self.end_of_item()?;
            let mut pointers = [0; 4];
            let states = self.states(cursor, Some(&mut pointers), None)?;
            let Some(Evidence::List(entries)) = self.parts.last_mut() else { return Ok(()) };
            if entries.len() == ENTRIES {
                cursor.at = 0;
                return cursor.complain(&format!("at most {ENTRIES} entries"));
            }
            entries.push(Entry { states, pointers, items: Vec::new() });
            self.place = (cursor.line.number, column);
            self.waiting = [[0; 4]; 4];
            return Ok(());
        }
        let began = matches!(self.parts.last(), Some(Evidence::List(entries)) if !entries.is_empty());
        let mut items = Vec::new();
        if began && cursor.eat("message") {
            let p = self.process(cursor)?;
            let (v, _) = self.known_variable(cursor)?;
            let mut values = [0; 4];
            values.iter_mut().take(self.names.variables.len()).for_each(|value| *value = ANY);
            if cursor.eat(":") {
                let variable = |name: &str| self.variable(name);
                assignments(cursor, &variable, &mut values, true)?;
            }
            cursor.done("`:` and values, or the end of the line")?;
            items.push(Item::Message(Message { process: p as u8, variable: v as u8, values }));
            let Some(Evidence::List(entries)) = self.parts.last() else { return Ok(()) };
            let before = entries
                .last()
                .map_or(0, |entry| entry.items.iter().filter(|item| matches!(item, Item::Message(_))).count());
            if before == MESSAGES {
                cursor.at = 0;
                return cursor.complain(&format!("at most {MESSAGES} messages in an entry"));
            }
        } else if began && cursor.eat("waits") {
            for (process, variable, value) in self.waits(cursor)? {
                items.push(Item::Waiting { process, variable, value });
            }
        } else {
            return cursor.complain(if began { "`entry`, `message` or `waits`" } else { "`entry`" });
        }
        if let Some(Evidence::List(entries)) = self.parts.last_mut() {
            if let Some(entry) = entries.last_mut() {
                entry.items.extend(items);
            }
        }
        Ok(())
    }

    /// `P VARIABLE: 1 2 *`, behind `waits`.
    pub(super) fn waits(&mut self, cursor: &mut Cursor) -> Result<Vec<(u8, u8, u8)>, Complaint> {
        let p = self.process(cursor)?;
        let (v, count) = self.known_variable(cursor)?;
        cursor.expect(":")?;
        let mut all = Vec::new();
        let expected = format!("a value of {}, 0 to {}, or `*`", self.names.variable(v), count.saturating_sub(1));
        while cursor.peek().is_some() || all.is_empty() {
            let value = if cursor.eat("*") {
                ANY
            } else {
                match cursor.number(&expected)? {
                    value if value < count as u32 => value as u8,
                    _ => return cursor.complain_back(&expected),
                }
            };
            if self.waiting[p][v] == WAITING {
                return cursor.complain_back(&format!("at most {WAITING} waiting values in a queue"));
            }
            self.waiting[p][v] += 1;
            all.push((p as u8, v as u8, value));
        }
        Ok(all)
    }
}
