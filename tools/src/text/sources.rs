//! What the programs of words and pictures are given: a file or a text, maybe a program for its evidence, and maybe
//! names. What fails is an exit status and a line.

use super::assemble::{assemble, Assembled};
use super::fences::Choice;
use super::{registers, Names};
use crate::contents::{self, Contents, Program};
use crate::input;
use crate::names::quoted;
use crate::options;
use std::ffi::{OsStr, OsString};
use std::os::unix::ffi::OsStrExt;

pub type Failure = (i32, String);

/// The options that these programs share.
pub const FENCE: options::Choice = options::choice(
    'f',
    "fence",
    "PLACE=FENCE",
    "what stands at a place for a fence: out, nop, sfence or mfence\n(PROCESS.PLACE for one process)",
);
pub const NAMES: options::Choice = options::choice('n', "names", "TEXT", "take the names from this text");
pub const PROGRAM: options::Choice =
    options::choice('p', "program", "PROGRAM", "the program of evidence alone, a file or a text");

#[derive(Default)]
pub struct Given {
    pub choices: Vec<Choice>,
    pub names: Option<OsString>,
    pub program: Option<OsString>,
    /// A program with registers is wanted without them.
    pub expand: bool,
    /// A text is wanted, and no file.
    pub only_text: bool,
}

/// What a file holds, the program that was given for it, and names for both.
pub struct Loaded {
    pub contents: Contents,
    pub program: Option<Program>,
    pub names: Names,
}

impl Loaded {
    /// The program that the evidence is for.
    pub fn any_program(&self) -> Option<&Program> {
        self.contents.program.as_ref().or(self.program.as_ref())
    }
}

fn failed(name: &OsStr, words: impl std::fmt::Display) -> Failure {
    (1, format!("{}: {words}", quoted(name.as_bytes())))
}

fn read(name: &OsStr) -> Result<Vec<u8>, Failure> {
    input::read(name).map_err(|words| (2, format!("{}: {words}", quoted(name.as_bytes()))))
}

/// A file's first byte is that of a record; a text has no control characters but those between words.
fn is_text(bytes: &[u8]) -> bool {
    !matches!(bytes.first(), None | Some(0x00..=0x08 | 0x0e..=0x1f))
}

impl Given {
    /// Takes an option that these programs share; true if it was one.
    pub fn option(&mut self, name: &str, value: &OsStr) -> Result<bool, String> {
        match name {
            "fence" => {
                let choice = value.to_str().and_then(Choice::parse);
                self.choices.push(choice.ok_or_else(|| {
                    format!("--fence {}: it is PLACE=out, nop, sfence or mfence", quoted(value.as_bytes()))
                })?);
            }
            "names" => self.names = Some(value.to_os_string()),
            "program" if self.program.is_some() => {
                return Err(String::from("there is one program, and -p was given twice"))
            }
            "program" => self.program = Some(value.to_os_string()),
            _ => return Ok(false),
        }
        Ok(true)
    }

    fn assembled(&self, name: &OsStr, text: &[u8], given: Option<(&Program, &Names)>) -> Result<Assembled, Failure> {
        assemble(text, &self.choices, given)
            .map_err(|complaint| (1, format!("{}:{complaint}", quoted(name.as_bytes()))))
    }

    /// The program that was given, without registers, since evidence is for that one, and its names.
    fn program(&self) -> Result<Option<(Program, Names)>, Failure> {
        let Some(name) = &self.program else { return Ok(None) };
        let bytes = read(name)?;
        let (contents, names) = if is_text(&bytes) {
            let text = self.assembled(name, &bytes, None)?;
            (text.contents, text.contents_names)
        } else {
            let contents = contents::read(&bytes, None).map_err(|fault| failed(name, fault))?;
            let names = Names::made_up(contents.program.as_ref());
            (contents, names)
        };
        match contents.program {
            Some(program) if contents.evidence.is_empty() => without_registers(name, program, names).map(Some),
            _ => Err(failed(name, "is no program alone")),
        }
    }

    /// The file, or the text, with what it is for.
    pub fn load(&self, name: &OsStr) -> Result<Loaded, Failure> {
        let program = self.program()?;
        let bytes = read(name)?;
        let (mut contents, mut names) = if is_text(&bytes) || self.only_text {
            let text = self.assembled(name, &bytes, program.as_ref().map(|(program, names)| (program, names)))?;
            (text.contents, text.contents_names)
        } else {
            let contents =
                contents::read(&bytes, program.as_ref().map(|p| &p.0)).map_err(|fault| failed(name, fault))?;
            let names = match (&contents.program, &program) {
                (None, Some((_, names))) => names.clone(),
                (own, _) => Names::made_up(own.as_ref()),
            };
            (contents, names)
        };
        if contents.program.is_some() && program.is_some() {
            return Err(failed(name, "has a program of its own, and -p gives another"));
        }
        if let Some(own) = contents.program.take_if(|_| self.expand) {
            let (without, named) = without_registers(name, own, names)?;
            contents.program = Some(without);
            names = named;
        }
        let program = program.map(|(program, _)| program);
        if let (Some(text), Some(own)) = (&self.names, contents.program.as_ref().or(program.as_ref())) {
            names = self.named(text, own)?;
        }
        Ok(Loaded { contents, program, names })
    }

    /// The names of a text, for this program.
    fn named(&self, name: &OsStr, program: &Program) -> Result<Names, Failure> {
        let text = self.assembled(name, &read(name)?, None)?;
        Ok(match text.program.filter(|own| own.registers && !program.registers) {
            Some(own) => registers::names(&own, &text.names).for_program(program),
            None => text.names.for_program(program),
        })
    }
}

fn without_registers(name: &OsStr, program: Program, names: Names) -> Result<(Program, Names), Failure> {
    if !program.registers {
        return Ok((program, names));
    }
    match registers::without(&program) {
        Ok(without) => Ok((without, registers::names(&program, &names))),
        Err(why) => Err(failed(name, format!("refused {} {}: {}", why.number, why.place, why.words))),
    }
}
