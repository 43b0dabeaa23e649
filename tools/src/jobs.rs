//! What a command line names: evidence files, and the program that each is for.

use crate::batch;
use crate::input;
use crate::library;
use crate::names::quoted;
use crate::output::say;
use crate::registers::Origins;
use std::collections::HashMap;
use std::ffi::{OsStr, OsString};
use std::os::unix::ffi::{OsStrExt, OsStringExt};
use std::sync::Arc;

/// Files, with the program file of -p or the program with registers of -g, if there is one; or the list of --pairs.
#[derive(Default)]
pub struct Named {
    pub program: Option<OsString>,
    pub registers: Option<OsString>,
    pub pairs: Option<OsString>,
    pub files: Vec<OsString>,
}

pub struct Program {
    pub name: OsString,
    pub bytes: Result<Vec<u8>, String>,
    pub registers: Option<Registers>,
}

/// Of a program with registers: its bytes are those that the library writes for it without them, or none if it is refused.
pub struct Registers {
    pub file: Vec<u8>,
    pub refused: Option<(u64, u64)>,
    pub origins: Option<Origins>,
}

impl Program {
    fn with_registers(name: OsString, file: Vec<u8>) -> Program {
        let written = library::registers(&file);
        let refused = written.as_ref().err().copied();
        let bytes = written.unwrap_or_default();
        let origins = Origins::of(&file, &bytes);
        Program { name, bytes: Ok(bytes), registers: Some(Registers { file, refused, origins }) }
    }
}

/// A file to be judged, or one that is already known to be none.
pub struct Job {
    pub program: Option<Arc<Program>>,
    pub name: OsString,
    pub problem: Option<String>,
}

impl Job {
    pub fn registers(&self) -> Option<&Registers> {
        self.program.as_ref()?.registers.as_ref()
    }
}

impl Named {
    /// What is to be judged, with folders opened; or the exit status, if a program or a list can't be read.
    pub fn jobs(&self, threads: usize, null: bool) -> Result<Vec<Job>, i32> {
        let unread = |name: &OsStr, what: String| {
            say(&format!("{}: {what}", quoted(name.as_bytes())));
            2
        };
        if let Some(list) = &self.pairs {
            let bytes = input::read(list).map_err(|what| unread(list, what))?;
            return pairs(&bytes, null).map_err(|what| unread(list, what));
        }
        let program = match self.program.as_ref().or(self.registers.as_ref()) {
            None => None,
            Some(name) => {
                let bytes = input::read(name).map_err(|what| unread(name, what))?;
                Some(Arc::new(match self.registers {
                    None => Program { name: name.clone(), bytes: Ok(bytes), registers: None },
                    Some(_) => Program::with_registers(name.clone(), bytes),
                }))
            }
        };
        let mut jobs = Vec::with_capacity(self.files.len());
        for (name, is_folder) in self.files.iter().zip(folders(&self.files, threads)?) {
            let mut add = |name: OsString, problem: Option<String>| jobs.push(Job { program: program.clone(), name, problem });
            if !is_folder {
                add(name.clone(), None);
                continue;
            }
            let below = input::below(name.as_ref());
            if below.is_empty() {
                add(name.clone(), Some("no file stands below this folder".to_string()));
            }
            for (path, read) in below {
                add(path.into_os_string(), read.err());
            }
        }
        Ok(jobs)
    }
}

/// Which names are folders. Each takes a call, so they are shared out too.
fn folders(files: &[OsString], threads: usize) -> Result<Vec<bool>, i32> {
    let is_folder = |name: &OsString| !input::is_standard_input(name) && std::path::Path::new(name).is_dir();
    let parts: Vec<&[OsString]> = files.chunks(256).collect();
    let mut all = Vec::with_capacity(files.len());
    batch::run(
        &parts,
        threads.min(parts.len()),
        || (),
        |_, part| part.iter().map(is_folder).collect::<Vec<bool>>(),
        |part| {
            all.extend(part);
            Ok(())
        },
    )?;
    Ok(all)
}

/// Each line has a program file, a tab and an evidence file; or each name has a NUL byte behind it. A program file is read once.
fn pairs(list: &[u8], null: bool) -> Result<Vec<Job>, String> {
    let mut names = Vec::new();
    if null {
        let all: Vec<&[u8]> = list.strip_suffix(b"\0").unwrap_or(list).split(|byte| *byte == 0).collect();
        for two in all.chunks(2) {
            let [program, evidence] = two else { return Err("its last program file has no evidence file".to_string()) };
            names.push((*program, *evidence));
        }
    } else {
        for (number, line) in list.strip_suffix(b"\n").unwrap_or(list).split(|byte| *byte == b'\n').enumerate() {
            let tab = line.iter().position(|byte| *byte == b'\t');
            let two = tab.and_then(|tab| Some((line.get(..tab)?, line.get(tab + 1..)?)));
            names.push(two.ok_or(format!("line {} is no program file, a tab and an evidence file", number + 1))?);
        }
    }
    let mut programs: HashMap<&[u8], Arc<Program>> = HashMap::new();
    let own = |name: &[u8]| OsString::from_vec(name.to_vec());
    let read = |name: &[u8]| Arc::new(Program { name: own(name), bytes: input::read(&own(name)), registers: None });
    Ok(names
        .into_iter()
        .map(|(program, evidence)| {
            let program = programs.entry(program).or_insert_with(|| read(program)).clone();
            Job { program: Some(program), name: own(evidence), problem: None }
        })
        .collect())
}
