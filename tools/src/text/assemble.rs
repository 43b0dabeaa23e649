//! From a text to what a file holds. The program part stands here, the evidence part in `evidence`.

use super::evidence::{Context, Section};
use super::fences::{Choice, Fence};
use super::lexer::{Cursor, Kind, Lines, Token};
use super::operations::{assignments, operation, process_state};
use super::{registers, Complaint, Names, StateName};
use crate::contents::{
    Contents, Operation, Program, Transition, MARKS, REGISTER_TARGETS, STATES, TARGETS, TRANSITIONS,
};
use std::collections::{HashMap, HashSet};

/// What a text holds. A program with registers stands as it is in `program`; evidence is for the program without them,
/// which `contents` has then.
#[derive(Clone, PartialEq, Eq, Debug)]
pub struct Assembled {
    pub program: Option<Program>,
    pub names: Names,
    pub contents: Contents,
    /// The names of what `contents` has.
    pub contents_names: Names,
}

/// Words that an operation begins with, which no variable and no register can be named.
const OPERATIONS: [&str; 6] = ["or", "nop", "cas", "sfence", "mfence", "fence"];
/// Words that a line begins with, which no process can be named.
const STATEMENTS: [&str; 17] = [
    "variables",
    "process",
    "never",
    "memory",
    "needed",
    "run",
    "pso",
    "list",
    "patterns",
    "entry",
    "message",
    "waits",
    "pattern",
    "empty",
    "ends",
    "reads",
    "newest",
];

enum What<'a> {
    Bare,
    Way(Operation),
    Fence(Token<'a>),
}

/// A line of a process.
struct Body<'a> {
    process: usize,
    /// Lines of one block lead into each other.
    block: usize,
    line: usize,
    column: usize,
    end: usize,
    or: bool,
    label: Option<Token<'a>>,
    what: What<'a>,
    arrow: Option<Token<'a>>,
}

struct Process<'a> {
    name: &'a str,
    register: Option<&'a str>,
    from: Option<(usize, Token<'a>)>,
}

#[derive(Default)]
struct Assembler<'a> {
    variables: Vec<(&'a str, u8)>,
    processes: Vec<Process<'a>>,
    blocks: usize,
    bodies: Vec<Body<'a>>,
    program: Option<Program>,
    names: Names,
    registers: bool,
    marks: Vec<u8>,
}

impl<'a> Assembler<'a> {
    fn variable(&self, name: &str) -> Option<(u8, u8)> {
        self.variables.iter().position(|(known, _)| *known == name).map(|v| (v as u8, self.variables[v].1))
    }

    fn variables_line(&mut self, cursor: &mut Cursor<'_, 'a>) -> Result<(), Complaint> {
        while cursor.peek().is_some() || self.variables.is_empty() {
            let name = cursor.name("a variable's name")?;
            if OPERATIONS.contains(&name.text) {
                return cursor.complain_back("a variable's name that no operation begins with");
            }
            if self.variable(name.text).is_some() {
                return cursor.complain_back("a new variable's name");
            }
            if self.variables.len() == 4 {
                return cursor.complain_back("the end of the line, after four variables");
            }
            let mut count = 4;
            if cursor.eat(":") {
                count = cursor.number("a number of values, 1 to 4")?;
                if !(1..=4).contains(&count) {
                    return cursor.complain_back("a number of values, 1 to 4");
                }
            }
            self.variables.push((name.text, count as u8));
            cursor.eat(",");
        }
        Ok(())
    }

    /// `process NAME [with REGISTER] [from STATE]`, or `process NAME again`.
    fn process_line(&mut self, cursor: &mut Cursor<'_, 'a>) -> Result<usize, Complaint> {
        let name = cursor.name("a process's name")?;
        let known = self.processes.iter().position(|process| process.name == name.text);
        self.blocks += 1;
        if let Some(p) = known {
            if !cursor.eat("again") {
                return cursor.complain("`again`, since the process has been named before");
            }
            cursor.done("the end of the line")?;
            return Ok(p);
        }
        if STATEMENTS.contains(&name.text) {
            return cursor.complain_back("a process's name that no line begins with");
        }
        if self.processes.len() == 4 {
            return cursor.complain_back("at most four processes");
        }
        let mut process = Process { name: name.text, register: None, from: None };
        if cursor.eat("with") {
            let register = cursor.name("a register's name")?;
            if self.variable(register.text).is_some() || OPERATIONS.contains(&register.text) {
                return cursor
                    .complain_back("a register's name that is no variable's and that no operation begins with");
            }
            if let Some((name, count)) = self.variables.iter().find(|(_, count)| *count != 4) {
                return cursor.complain_back(&format!(
                    "four values for every variable of a program with registers ({name} has {count})"
                ));
            }
            process.register = Some(register.text);
            self.registers = true;
        }
        if cursor.eat("from") {
            let line = cursor.line.number;
            process.from = Some((line, cursor.name("the state that it starts in")?));
        }
        cursor.done("`with`, `from` or the end of the line")?;
        self.processes.push(process);
        Ok(self.processes.len() - 1)
    }

    fn body_line(&mut self, cursor: &mut Cursor<'_, 'a>, process: usize) -> Result<(), Complaint> {
        let column = cursor.column();
        let mut label = None;
        let or = cursor.ahead(0, "or") && !cursor.ahead(1, ":");
        if or {
            cursor.at += 1;
        } else if cursor.ahead(1, ":") {
            label = Some(cursor.name("a state's label")?);
            cursor.at += 1;
        }
        let what = if cursor.peek().is_none() && label.is_some() {
            What::Bare
        } else if cursor.eat("fence") {
            What::Fence(cursor.name("the name of a place for a fence")?)
        } else {
            let register = self.processes.get(process).and_then(|p| p.register);
            What::Way(operation(cursor, &|name| self.variable(name), register)?)
        };
        let mut arrow = None;
        if !matches!(what, What::Bare) && cursor.eat("->") {
            arrow = Some(cursor.name("a state")?);
        }
        cursor.done("`->` or the end of the line")?;
        let (line, end) = (cursor.line.number, cursor.line.end);
        self.bodies.push(Body { process, block: self.blocks, line, column, end, or, label, what, arrow });
        Ok(())
    }

    /// Places for fences become operations, or go.
    fn choose(&mut self, choices: &[Choice]) {
        let mut kept: Vec<Body<'a>> = Vec::new();
        let mut rest = std::mem::take(&mut self.bodies).into_iter().peekable();
        while let Some(mut body) = rest.next() {
            if let What::Fence(place) = body.what {
                let process = self.processes.get(body.process).map_or("", |p| p.name);
                let meant =
                    |c: &&Choice| c.place == place.text && c.process.as_ref().map_or(true, |name| name == process);
                match choices.iter().rev().find(meant).map_or(Fence::Out, |c| c.fence) {
                    Fence::Is(operation) => body.what = What::Way(operation),
                    Fence::Out => {
                        let leads_on = rest.peek().is_some_and(|next| next.block == body.block && !next.or);
                        if body.label.is_none() && !body.or && body.arrow.is_none() && leads_on {
                            continue;
                        }
                        body.what = What::Way(Operation::Nop);
                    }
                }
            }
            kept.push(body);
        }
        self.bodies = kept;
    }

    /// States get their numbers in the order in which their lines stand, and transitions in the order of the lines.
    fn resolve(&mut self, choices: &[Choice], at: (usize, usize)) -> Result<(), Complaint> {
        let complain = |line, column, words: String| Err(Complaint { line, column, words });
        if self.processes.is_empty() {
            return complain(at.0, at.1, String::from("expected `process`"));
        }
        self.choose(choices);
        let mut labels: Vec<HashMap<&'a str, u8>> = self.processes.iter().map(|_| HashMap::new()).collect();
        let mut states: Vec<Vec<(Option<&'a str>, usize)>> = self.processes.iter().map(|_| Vec::new()).collect();
        let mut state_of: Vec<u8> = Vec::new();
        for (i, body) in self.bodies.iter().enumerate() {
            let (labels, states) = (&mut labels[body.process], &mut states[body.process]);
            let before = i.checked_sub(1).filter(|j| self.bodies[*j].block == body.block);
            let bare = before.filter(|j| matches!(self.bodies[*j].what, What::Bare));
            let known = match (body.or, body.label, before, bare) {
                (true, _, Some(j), None) => Some(state_of[j]),
                (true, ..) => {
                    return complain(
                        body.line,
                        body.column,
                        String::from("expected a way on from a state before its `or`"),
                    )
                }
                (false, Some(label), ..) => labels.get(label.text).copied(),
                (false, None, _, Some(j)) => Some(state_of[j]),
                (false, None, _, None) => None,
            };
            let state = match known {
                Some(state) => state,
                None => {
                    let state = states.len() as u8;
                    if state >= STATES {
                        return complain(
                            body.line,
                            body.column,
                            format!("expected at most {STATES} states in a process"),
                        );
                    }
                    states.push((body.label.map(|label| label.text), body.line));
                    if let Some(label) = body.label {
                        labels.insert(label.text, state);
                    }
                    state
                }
            };
            state_of.push(state);
        }
        let mut program = Program {
            processes: self.processes.len(),
            variables: self.variables.len(),
            values: [0; 4],
            states: [0; 4],
            initial: [0; 4],
            registers: self.registers,
            transitions: Vec::new(),
            targets: Vec::new(),
        };
        for (place, (_, count)) in program.values.iter_mut().zip(&self.variables) {
            *place = *count;
        }
        let wanted = |p: usize, token: Token, line: usize| {
            let words = || {
                format!(
                    "expected a state of {}, found `{}`",
                    self.processes[p].name,
                    super::lexer::shortened(token.text)
                )
            };
            labels[p].get(token.text).copied().ok_or_else(|| Complaint { line, column: token.column, words: words() })
        };
        for (p, process) in self.processes.iter().enumerate() {
            if states[p].is_empty() {
                return complain(at.0, at.1, format!("expected a state of process {} before this line", process.name));
            }
            program.states[p] = states[p].len() as u8;
            if let Some((line, token)) = process.from {
                program.initial[p] = wanted(p, token, line)?;
            }
        }
        for (i, body) in self.bodies.iter().enumerate() {
            let What::Way(operation) = body.what else { continue };
            let to = match body.arrow {
                Some(arrow) => wanted(body.process, arrow, body.line)?,
                None => {
                    let next = self.bodies[i + 1..]
                        .iter()
                        .position(|next| next.block != body.block || !next.or)
                        .map(|n| i + 1 + n);
                    match next.filter(|j| self.bodies[*j].block == body.block) {
                        Some(j) => state_of[j],
                        None => {
                            return complain(
                                body.line,
                                body.end,
                                String::from("expected `->` and a state, since no line follows that it could lead to"),
                            )
                        }
                    }
                }
            };
            if program.transitions.len() == TRANSITIONS {
                return complain(body.line, body.column, format!("expected at most {TRANSITIONS} transitions"));
            }
            program.transitions.push(Transition { process: body.process as u8, from: state_of[i], operation, to });
        }
        self.names = Names {
            processes: self.processes.iter().map(|p| p.name.to_string()).collect(),
            variables: self.variables.iter().map(|v| v.0.to_string()).collect(),
            registers: self.processes.iter().map(|p| p.register.map(str::to_string)).collect(),
            states: Vec::new(),
            memory: None,
        };
        for (p, states) in states.iter().enumerate() {
            let mut named: Vec<StateName> = Vec::new();
            for (label, line) in states {
                let mut name = label.map_or_else(|| format!("line{line}"), str::to_string);
                while label.is_none()
                    && (labels[p].contains_key(name.as_str()) || named.iter().any(|state| state.name == name))
                {
                    name.push('_');
                }
                named.push(StateName { name, labelled: label.is_some() });
            }
            self.names.states.push(named);
        }
        self.program = Some(program);
        Ok(())
    }

    /// `never P STATE, Q STATE`: a process that is not named may be in any state, process 0's changing slowest; of
    /// these, targets that there are already are not given again.
    fn never_line(&mut self, cursor: &mut Cursor<'_, 'a>) -> Result<(), Complaint> {
        let Some(program) = &mut self.program else { return cursor.complain("`process`") };
        let mut named: [Option<u8>; 4] = [None; 4];
        loop {
            let (p, state) = process_state(cursor, &self.names)?;
            if named[p].replace(state).is_some() {
                return cursor.complain_back("one state for each process");
            }
            if cursor.peek().is_none() {
                break;
            }
            if !cursor.eat(",") {
                return cursor.complain("`,` or the end of the line");
            }
        }
        let most = if program.registers { REGISTER_TARGETS } else { TARGETS };
        let mut targets = vec![[0u8; 4]];
        for p in 0..program.processes {
            let choices: Vec<u8> = named[p].map_or_else(|| (0..program.states[p]).collect(), |state| vec![state]);
            let with = |target: &[u8; 4], state: u8| {
                let mut next = *target;
                next[p] = state;
                next
            };
            targets = targets.iter().flat_map(|target| choices.iter().map(move |state| with(target, *state))).collect();
        }
        if named.iter().flatten().count() < program.processes {
            let known: HashSet<[u8; 4]> = program.targets.iter().copied().collect();
            targets.retain(|target| !known.contains(target));
        }
        if program.targets.len() + targets.len() > most {
            cursor.at = 0;
            return cursor.complain(&format!("at most {most} targets"));
        }
        program.targets.extend(targets);
        Ok(())
    }
}

/// A text, with what is asked for at its places for fences. Evidence alone is for the program that is given.
pub fn assemble(source: &[u8], choices: &[Choice], given: Option<(&Program, &Names)>) -> Result<Assembled, Complaint> {
    let mut lines = Lines::new(source);
    let mut it = Assembler::default();
    let mut current: Option<usize> = None;
    let mut evidence: Option<Context> = None;
    let mut memory: Option<[u8; 4]> = None;
    while let Some(line) = lines.next()? {
        let mut cursor = Cursor::new(&line);
        let first = line.tokens[0];
        let at = (line.number, first.column);
        let statement = first.kind == Kind::Name && !["=", ":=", ":"].iter().any(|sign| cursor.ahead(1, sign));
        match if statement { first.text } else { "" } {
            "variables" if it.variables.is_empty() && evidence.is_none() => {
                cursor.at += 1;
                it.variables_line(&mut cursor)?;
            }
            "process" if !it.variables.is_empty() && it.program.is_none() => {
                cursor.at += 1;
                current = Some(it.process_line(&mut cursor)?);
            }
            "never" if !it.variables.is_empty() && evidence.is_none() && it.marks.is_empty() => {
                if it.program.is_none() {
                    it.resolve(choices, at)?;
                    current = None;
                }
                cursor.at += 1;
                it.never_line(&mut cursor)?;
            }
            "memory"
                if evidence.is_none()
                    && memory.is_none()
                    && (it.program.is_some() || it.variables.is_empty() && given.is_some()) =>
            {
                cursor.at += 1;
                let mut values = [0; 4];
                let given = given.filter(|_| it.variables.is_empty());
                let variable = |name: &str| match given {
                    Some((program, names)) => {
                        names.variables.iter().position(|known| known == name).map(|v| (v as u8, program.values[v & 3]))
                    }
                    None => it.variable(name),
                };
                assignments(&mut cursor, &variable, &mut values, false)?;
                memory = Some(values);
            }
            "needed" if it.program.is_some() && evidence.is_none() => {
                cursor.at += 1;
                let transitions = it.program.as_ref().map_or(0, |p| p.transitions.len());
                while cursor.peek().is_some() || it.marks.is_empty() {
                    let expected = format!("the number of a transition, t0 to t{}", transitions.saturating_sub(1));
                    let name = cursor.name(&expected)?;
                    let number =
                        name.text.strip_prefix('t').and_then(|n| n.parse::<usize>().ok()).filter(|n| *n < transitions);
                    let Some(number) = number.filter(|_| it.marks.len() < MARKS && !it.registers) else {
                        return cursor.complain_back(&format!(
                            "{expected}, at most {MARKS} of them, in a program without registers"
                        ));
                    };
                    it.marks.push(number as u8);
                    cursor.eat(",");
                }
            }
            "run" | "pso" | "list" | "patterns" if it.program.is_some() || it.variables.is_empty() => {
                if evidence.is_none() {
                    let context = match (&it.program, given) {
                        (Some(program), _) if program.registers => match registers::without(program) {
                            Ok(without) => (Some(without), registers::names(program, &it.names)),
                            Err(why) => return Err(Complaint { line: at.0, column: at.1, words: why.words }),
                        },
                        (Some(program), _) => (Some(program.clone()), it.names.clone()),
                        (None, Some((program, names))) => (Some(program.clone()), names.clone()),
                        (None, None) => (None, Names::made_up(None)),
                    };
                    let default = memory.or(given.filter(|_| it.program.is_none()).and_then(|(_, names)| names.memory));
                    evidence = Some(Context::new(context.0, context.1, default.unwrap_or([0; 4]), it.marks.len()));
                }
                if let Some(evidence) = &mut evidence {
                    evidence.begin(&mut cursor)?;
                }
            }
            _ => match (&mut evidence, current) {
                (Some(evidence), _) if !matches!(evidence.section, Section::None) => evidence.line(&mut cursor)?,
                (None, Some(process)) if it.program.is_none() => it.body_line(&mut cursor, process)?,
                _ => {
                    let expected = match (it.variables.is_empty(), it.processes.is_empty(), &it.program) {
                        (true, ..) if given.is_some() => {
                            "`variables`, or evidence: `run`, `pso run`, `list` or `patterns`"
                        }
                        (true, ..) => "`variables`, or evidence by letters: `run`, `pso run`, `list` or `patterns`",
                        (false, true, _) => "`process`",
                        (false, false, None) => "`process`, a line of a process or `never`",
                        _ => "`never`, `memory`, `needed`, `run`, `pso run`, `list` or `patterns`",
                    };
                    return cursor.complain(expected);
                }
            },
        }
    }
    let end = (lines.number() + 1, 1);
    let complain = |words: &str| {
        Err(Complaint { line: end.0, column: end.1, words: format!("expected {words}, found the end of the text") })
    };
    if it.program.is_none() && !it.variables.is_empty() {
        return complain(if it.processes.is_empty() { "`process`" } else { "`never`" });
    }
    if it.program.is_none() && evidence.is_none() {
        return complain("`variables`");
    }
    it.names.memory = memory;
    let mut contents = Contents { program: it.program.clone(), marks: it.marks, evidence: Vec::new() };
    let mut names = it.names.clone();
    if let Some(context) = evidence {
        let (program, context_names, parts) = context.finish(end)?;
        if it.program.is_some() {
            contents.program = program;
        }
        let memory = names.memory;
        names = Names { memory, ..context_names };
        contents.evidence = parts;
    } else if !contents.marks.is_empty() {
        return complain("the report's `list`");
    }
    Ok(Assembled { program: it.program, names: it.names, contents, contents_names: names })
}
