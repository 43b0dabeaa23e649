//! The evidence part: lists, runs, patterns.

use super::program::{Reader, Scope, Takes};
use super::{
    Clue, Contents, Entry, Evidence, Fault, Item, Machine, Message, Pattern, Program, Run, Step, ENTRIES, MARKS, MESSAGES,
    READS, STEPS, WAITING,
};

impl Reader<'_> {
    /// One part of evidence, from its claim on. In a report it has a number, 0 for the list and then one for each mark's run, and ends at the
    /// next 0F.
    pub(super) fn evidence(&mut self, scope: &Scope, report: Option<usize>) -> Result<Evidence, Fault> {
        match (self.peek(), report) {
            (None, Some(part)) if part > 0 => {
                return self.fault(6, format!("the file ends before the claim (0F) of mark {}'s run", part - 1))
            }
            (None, _) => return self.fault(6, String::from("the file ends before its claim (0F)")),
            (Some(0x0f), _) => {}
            (Some(other), _) => return self.refuse_kind(other, "the claim (0F)"),
        }
        let [claim] = self.body::<1>()?;
        match report {
            Some(0) => self.check(claim == 0, || format!("claim {claim}, where a report has claim 0, its list"))?,
            Some(part) => {
                self.check(claim == 1, || format!("claim {claim}, where a report has claim 1, the run of mark {}", part - 1))?
            }
            None => self.check(claim <= 2, || {
                format!("claim {claim}: they are 0 (safe), 1 (reachable) and 2 (reachable by PSO)")
            })?,
        }
        self.passed(1);
        if claim == 0 {
            return if self.peek() == Some(0x13) && self.takes == Takes::Everything && report.is_none() {
                self.patterns(scope)
            } else {
                self.list(scope, report.is_some())
            };
        }
        match self.peek() {
            None => return self.fault(6, String::from("the file ends before the starting memory (1F) of its run")),
            Some(0x1f) => {}
            Some(other) => return self.refuse_kind(other, "the starting memory (1F)"),
        }
        let memory = self.body::<4>()?;
        self.check_values(scope, &memory, false)?;
        self.passed(4);
        let steps = self.steps(scope, report.is_some())?;
        Ok(Evidence::Run(Run { machine: if claim == 1 { Machine::Pws } else { Machine::Pso }, memory, steps }))
    }

    /// The marks of a report, its list, and a run for each mark.
    pub(super) fn report(&mut self, program: Program) -> Result<Contents, Fault> {
        let scope = Scope::of(Some(&program));
        let mut marks = Vec::new();
        while self.peek() == Some(0x30) {
            let [mark] = self.body::<1>()?;
            if marks.len() >= MARKS {
                return self.fault(5, format!("mark {MARKS}: there are at most {MARKS}"));
            }
            self.check((mark as usize) < scope.transitions, || {
                format!("transition {mark} does not exist: there are {}, numbered from 0", scope.transitions)
            })?;
            marks.push(mark);
            self.passed(1);
        }
        let mut evidence = Vec::new();
        for part in 0..=marks.len() {
            evidence.push(self.evidence(&scope, Some(part))?);
        }
        if self.peek() == Some(0x0f) {
            self.body::<1>()?;
            let asked = match marks.len() {
                0 => String::from("a report without marks has: its list"),
                1 => String::from("a report with one mark has: its list and a run"),
                marks => format!("a report with {marks} marks has: its list and {marks} runs"),
            };
            return self.fault(4, format!("a claim (0F) more than {asked}"));
        }
        Ok(Contents { program: Some(program), marks, evidence })
    }

    pub(super) fn steps(&mut self, scope: &Scope, report: bool) -> Result<Vec<Step>, Fault> {
        let mut steps = Vec::new();
        while let Some(byte) = self.peek() {
            let body = match byte {
                0x0f if report => break,
                0x20 => [self.body::<1>()?[0], 0],
                0x21 => self.body::<2>()?,
                0x22 => [self.body::<1>()?[0], 0],
                other => return self.refuse_kind(other, "a step (20, 21 or 22)"),
            };
            if steps.len() >= STEPS {
                return self.fault(5, format!("step {STEPS}: there are at most {STEPS}"));
            }
            if byte == 0x20 {
                self.check((body[0] as usize) < scope.transitions, || {
                    format!("transition {} does not exist: there are {}, numbered from 0", body[0], scope.transitions)
                })?;
                steps.push(Step::Transition(body[0]));
            } else {
                self.check_process(scope, body[0])?;
                if byte == 0x21 {
                    self.check_variable(scope, body[1])?;
                    steps.push(Step::Serialise(body[0], body[1]));
                } else {
                    steps.push(Step::Update(body[0]));
                }
            }
            self.passed(if byte == 0x21 { 2 } else { 1 });
        }
        Ok(steps)
    }

    /// Number 7 of the latest entry, whose 10 stands at `place`.
    fn entry_whole(&self, scope: &Scope, place: usize, entry: &Entry) -> Result<(), Fault> {
        let fault = |words: String| Err(Fault { number: 7, place, words });
        let messages = entry.items.iter().filter(|item| matches!(item, Item::Message(_))).count();
        if messages == 0 {
            return fault(String::from("the entry has no message (11)"));
        }
        let present = |p: usize| p < scope.processes && !(scope.bare && entry.pointers[p] == 0 && entry.states[p] == 0);
        for (p, pointer) in entry.pointers.iter().enumerate() {
            if present(p) && !(1..=messages).contains(&(*pointer as usize)) {
                return fault(format!(
                    "the pointer of process {p} is {pointer}, but the entry has messages 1 to {messages}"
                ));
            }
        }
        if !(0..4).any(|p| present(p) && entry.pointers[p] == 1) {
            return fault(String::from("no pointer of the entry is at message 1"));
        }
        Ok(())
    }

    fn list(&mut self, scope: &Scope, report: bool) -> Result<Evidence, Fault> {
        let mut entries: Vec<Entry> = Vec::new();
        let mut place = self.at;
        let (mut messages, mut waiting) = (0usize, [[0usize; 4]; 4]);
        loop {
            let byte = self.peek();
            if matches!(byte, None | Some(0x10)) || report && byte == Some(0x0f) {
                if let Some(entry) = entries.last() {
                    self.entry_whole(scope, place, entry)?;
                }
            }
            match byte {
                None => break,
                Some(0x0f) if report => break,
                Some(0x10) => {
                    let [a, b, c, d, pointers @ ..] = self.body::<8>()?;
                    if entries.len() >= ENTRIES {
                        return self.fault(5, format!("entry {ENTRIES}: there are at most {ENTRIES}"));
                    }
                    let states = [a, b, c, d];
                    self.check_states(scope, &states)?;
                    for (p, pointer) in pointers.iter().enumerate().skip(scope.processes) {
                        self.check(*pointer == 0, || {
                            format!("process {p} does not exist, and its pointer is {pointer} and not 0")
                        })?;
                    }
                    place = self.at;
                    (messages, waiting) = (0, [[0; 4]; 4]);
                    entries.push(Entry { states, pointers, items: Vec::new() });
                    self.passed(8);
                }
                Some(byte @ (0x11 | 0x12)) if !entries.is_empty() => {
                    let item = if byte == 0x11 {
                        let [process, variable, values @ ..] = self.body::<6>()?;
                        if messages >= MESSAGES {
                            return self.fault(5, format!("an entry has at most {MESSAGES} messages"));
                        }
                        messages += 1;
                        self.check_process(scope, process)?;
                        self.check_variable(scope, variable)?;
                        self.check_values(scope, &values, true)?;
                        Item::Message(Message { process, variable, values })
                    } else {
                        let [process, variable, value] = self.body::<3>()?;
                        self.count_waiting(scope, &mut waiting, process, variable)?;
                        self.check_value(scope, variable, value, true)?;
                        Item::Waiting { process, variable, value }
                    };
                    if let Some(entry) = entries.last_mut() {
                        entry.items.push(item);
                    }
                    self.passed(if byte == 0x11 { 6 } else { 3 });
                }
                Some(other) => {
                    return self.refuse_kind(other, "an entry (10), or its messages (11) and waiting values (12)")
                }
            }
        }
        Ok(Evidence::List(entries))
    }

    /// A full queue is 5 before anything is 4, but only a queue that exists can be full.
    fn count_waiting(
        &self,
        scope: &Scope,
        waiting: &mut [[usize; 4]; 4],
        process: u8,
        variable: u8,
    ) -> Result<(), Fault> {
        let (p, v) = (process as usize, variable as usize);
        if p < scope.processes && v < scope.variables {
            if let Some(count) = waiting.get_mut(p).and_then(|row| row.get_mut(v)) {
                if *count >= WAITING {
                    return self.fault(5, format!("a queue has at most {WAITING} waiting values, and that of process {p} and variable {v} has one more"));
                }
                *count += 1;
            }
        }
        self.check_process(scope, process)?;
        self.check_variable(scope, variable)
    }

    fn patterns(&mut self, scope: &Scope) -> Result<Evidence, Fault> {
        let mut patterns: Vec<Pattern> = Vec::new();
        let mut place = self.at;
        let (mut waiting, mut reads, mut ends) = ([[0usize; 4]; 4], [0usize; 4], [[false; 4]; 4]);
        loop {
            let byte = self.peek();
            if matches!(byte, None | Some(0x13)) {
                if let Some(pattern) = patterns.last() {
                    pattern_whole(place, pattern)?;
                }
            }
            match byte {
                None => break,
                Some(0x13) => {
                    let [a, b, c, d, newest @ ..] = self.body::<8>()?;
                    if patterns.len() >= ENTRIES {
                        return self.fault(5, format!("pattern {ENTRIES}: there are at most {ENTRIES}"));
                    }
                    let states = [a, b, c, d];
                    self.check_states(scope, &states)?;
                    self.check_values(scope, &newest, true)?;
                    place = self.at;
                    (waiting, reads, ends) = ([[0; 4]; 4], [0; 4], [[false; 4]; 4]);
                    patterns.push(Pattern { states, newest, clues: Vec::new() });
                    self.passed(8);
                }
                Some(byte @ (0x12 | 0x14 | 0x15)) if !patterns.is_empty() => {
                    let (clue, length) = match byte {
                        0x12 => {
                            let [process, variable, value] = self.body::<3>()?;
                            self.count_waiting(scope, &mut waiting, process, variable)?;
                            self.check_value(scope, variable, value, true)?;
                            (Clue::Waiting { process, variable, value }, 3)
                        }
                        0x14 => {
                            let [process, variable, value, own] = self.body::<4>()?;
                            if let (true, Some(count)) =
                                ((process as usize) < scope.processes, reads.get_mut(process as usize))
                            {
                                if *count >= READS {
                                    return self.fault(5, format!("a process has at most {READS} reads in a pattern"));
                                }
                                *count += 1;
                            }
                            self.check_process(scope, process)?;
                            self.check_variable(scope, variable)?;
                            self.check_value(scope, variable, value, false)?;
                            self.check(own <= 1, || format!("own is 0 or 1, and not {own}"))?;
                            (Clue::Read { process, variable, value, own: own == 1 }, 4)
                        }
                        _ => {
                            let [process, variable, last] = self.body::<3>()?;
                            let (p, v) = (process as usize, variable as usize);
                            if p < scope.processes && v < scope.variables {
                                if let Some(seen) = ends.get_mut(p).and_then(|row| row.get_mut(v)) {
                                    if *seen {
                                        return self.fault(
                                            5,
                                            format!("a second 15 of process {p} and variable {v} in one pattern"),
                                        );
                                    }
                                    *seen = true;
                                }
                            }
                            self.check_process(scope, process)?;
                            self.check_variable(scope, variable)?;
                            self.check(last <= 1, || {
                                format!("the last byte is 0 (empty) or 1 (ends), and not {last}")
                            })?;
                            (Clue::Queue { process, variable, ends: last == 1 }, 3)
                        }
                    };
                    if let Some(pattern) = patterns.last_mut() {
                        pattern.clues.push(clue);
                    }
                    self.passed(length);
                }
                Some(other) => return self.refuse_kind(other, "a pattern (13), or its 12, 14 and 15"),
            }
        }
        Ok(Evidence::Patterns(patterns))
    }
}

/// Number 7 of the latest pattern, whose 13 stands at `place`.
fn pattern_whole(place: usize, pattern: &Pattern) -> Result<(), Fault> {
    let fault = |words: String| Err(Fault { number: 7, place, words });
    let word = |p: u8, v: u8| {
        pattern
            .clues
            .iter()
            .any(|clue| matches!(clue, Clue::Waiting { process, variable, .. } if (*process, *variable) == (p, v)))
    };
    let mut read = [false; 4];
    for clue in &pattern.clues {
        match *clue {
            Clue::Queue { process, variable, ends } if ends != word(process, variable) => {
                let what = if ends {
                    "ends in a value, but none (12) is given"
                } else {
                    "is empty, but a value (12) is given"
                };
                return fault(format!("the queue of process {process} and variable {variable} {what}"));
            }
            Clue::Read { process, own, .. } => {
                if let Some(seen) = read.get_mut(process as usize) {
                    if own && !*seen {
                        return fault(format!("the first read (14) of process {process} is own"));
                    }
                    *seen = true;
                }
            }
            _ => {}
        }
    }
    Ok(())
}
