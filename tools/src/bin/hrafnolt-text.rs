//! hrafnolt-text: programs and evidence in words, and back; runs step by step (man/hrafnolt-text.1).
//! Exit status: 0 if it was written, 1 if the text or the file is wrong or its run is not accepted, 2 if a file can't
//! be read or written, or the options are wrong.

use hrafnolt_tools::input::in_words;
use hrafnolt_tools::names::quoted;
use hrafnolt_tools::options::{self, choice, Choice, Word, NO_LETTER};
use hrafnolt_tools::output::{misused, print_and_end, say, Output};
use hrafnolt_tools::text::listing;
use hrafnolt_tools::text::sources::{Failure, Given, FENCE, NAMES, PROGRAM};
use hrafnolt_tools::trace;
use std::ffi::OsString;
use std::os::unix::ffi::OsStrExt;
use std::process::exit;

const NAME: &str = "hrafnolt-text";

const USAGE: &str = "usage: hrafnolt-text assemble|list|steps|trace [OPTION..] FILE
";

const ABOUT: &str = "Programs and evidence in words.
  assemble   the file that a text is of
  list       the text of a file, which assemble takes back
  steps      a run, a line for each step, and what waits
  trace      a run, and after each step where every process is, what waits and what it sees
FILE may be -, standard input; the last three take a text too.

";

const STATUS: &str = "
Exit status: 0 if it was written, 1 if FILE is wrong or its run not accepted, 2 if a file can't be read or written.
";

static CHOICES: [Choice; 8] = [
    FENCE,
    choice('l', "letters", "", "list steps by letter (t0, s02, u1)"),
    NAMES,
    choice('o', "output", "FILE", "write to this file"),
    PROGRAM,
    choice('x', "expand", "", "write a program with registers without them"),
    choice(NO_LETTER, "help", "", "this text"),
    choice(NO_LETTER, "version", "", "the version"),
];

struct Options {
    given: Given,
    by_letter: bool,
    output: Option<OsString>,
    command: String,
    file: OsString,
}

fn read_options() -> Result<Options, i32> {
    let misuse = |what: &str| misused(NAME, what, USAGE);
    let (mut given, mut by_letter, mut output, mut files) = (Given::default(), false, None, Vec::new());
    for word in options::read(&CHOICES, std::env::args_os().skip(1)).map_err(|what| misuse(&what))? {
        match word {
            Word::File(name) => files.push(name),
            Word::Option("help", _) => {
                return Err(print_and_end(&format!("{USAGE}{ABOUT}{}{STATUS}", options::help(&CHOICES))))
            }
            Word::Option("version", _) => {
                return Err(print_and_end(&format!("{NAME} {}\n", hrafnolt_tools::version())))
            }
            Word::Option("letters", _) => by_letter = true,
            Word::Option("output", value) => output = Some(value),
            Word::Option("expand", _) => given.expand = true,
            Word::Option(name, value) => drop(given.option(name, &value).map_err(|what| misuse(&what))?),
        }
    }
    let mut files = files.into_iter();
    let command = files.next().map(|word| word.to_string_lossy().into_owned()).unwrap_or_default();
    if !["assemble", "list", "steps", "trace"].contains(&command.as_str()) {
        return Err(misuse("the first word is assemble, list, steps or trace"));
    }
    match (files.next(), files.next()) {
        (Some(file), None) => {
            given.only_text = command == "assemble";
            Ok(Options { given, by_letter, output, command, file })
        }
        _ => Err(misuse("one file is read")),
    }
}

/// What is to be written, and the exit status then.
fn made(options: &Options) -> Result<(Vec<u8>, i32), Failure> {
    let loaded = options.given.load(&options.file)?;
    let name = quoted(options.file.as_bytes());
    match options.command.as_str() {
        "assemble" => return Ok((loaded.contents.bytes(), 0)),
        "list" => {
            let text = listing::list(&loaded.contents, loaded.program.as_ref(), &loaded.names, options.by_letter);
            return Ok((text.into_bytes(), 0));
        }
        _ => {}
    }
    if loaded.any_program().is_none() {
        return Err((1, format!("{name}: has no program, so its steps can't be followed; -p gives one")));
    }
    let runs = loaded.contents.runs(loaded.program.as_ref());
    if runs.is_empty() {
        return Err((1, format!("{name}: holds no run")));
    }
    let (mut text, mut accepted) = (String::new(), true);
    for (mark, program, run) in runs {
        if let Some(mark) = mark {
            text.push_str(&format!("with the fence t{mark} as a nop:\n"));
        }
        let told = if options.command == "trace" {
            trace::lines(&program, &loaded.names, run)
        } else {
            trace::steps(&program, &loaded.names, run)
        };
        told.lines.iter().for_each(|line| text.extend([line, "\n"]));
        accepted &= told.accepted;
    }
    Ok((text.into_bytes(), !accepted as i32))
}

fn main() {
    let run = || {
        let options = read_options()?;
        let (bytes, status) = made(&options).map_err(|(status, line)| {
            say(&line);
            status
        })?;
        match &options.output {
            None => Output::new()?.write(&bytes)?,
            Some(name) => std::fs::write(name, bytes).map_err(|error| {
                say(&format!("{}: {}", quoted(name.as_bytes()), in_words(&error)));
                2
            })?,
        }
        Ok(status)
    };
    exit(run().unwrap_or_else(|status: i32| status));
}
