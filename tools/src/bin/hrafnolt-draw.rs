//! hrafnolt-draw: a run as a picture, in SVG (man/hrafnolt-draw.1).
//! Exit status: 0 if the run is accepted, 1 if it is drawn and not accepted or there is none, 2 if a file can't be read
//! or written, or the options are wrong.

use hrafnolt_tools::input::in_words;
use hrafnolt_tools::names::quoted;
use hrafnolt_tools::options::{self, choice, Choice, Word, NO_LETTER};
use hrafnolt_tools::output::{misused, print_and_end, say, Output};
use hrafnolt_tools::picture;
use hrafnolt_tools::text::sources::{Failure, Given, FENCE, NAMES, PROGRAM};
use std::ffi::OsString;
use std::os::unix::ffi::OsStrExt;
use std::path::Path;
use std::process::exit;

const NAME: &str = "hrafnolt-draw";

const USAGE: &str = "usage: hrafnolt-draw [OPTION..] FILE
";

const ABOUT: &str = "Draws the run in FILE as SVG: a combined file, a text, or with -p evidence alone.
FILE may be -, standard input. A run that the machine can't take is drawn up to the step that fails.

";

const STATUS: &str = "
Exit status: 0 if the run is accepted, 1 if it is not or FILE is wrong, 2 if a file can't be read or written.
";

/// How wide rows can be.
const NARROWEST: u64 = 300;
const WIDEST: u64 = 20_000;

static CHOICES: [Choice; 8] = [
    FENCE,
    NAMES,
    choice('o', "output", "FILE", "write to this file"),
    PROGRAM,
    choice('t', "title", "TITLE", "the title; else it is the name of the file"),
    choice('w', "width", "WIDTH", "how wide rows are, 300 to 20000; else 1200"),
    choice(NO_LETTER, "help", "", "this text"),
    choice(NO_LETTER, "version", "", "the version"),
];

struct Options {
    given: Given,
    output: Option<OsString>,
    title: Option<String>,
    width: usize,
    file: OsString,
}

fn read_options() -> Result<Options, i32> {
    let misuse = |what: &str| misused(NAME, what, USAGE);
    let (mut given, mut output, mut title, mut width, mut files) =
        (Given::default(), None, None, picture::WIDTH, Vec::new());
    for word in options::read(&CHOICES, std::env::args_os().skip(1)).map_err(|what| misuse(&what))? {
        match word {
            Word::File(name) => files.push(name),
            Word::Option("help", _) => {
                return Err(print_and_end(&format!("{USAGE}{ABOUT}{}{STATUS}", options::help(&CHOICES))))
            }
            Word::Option("version", _) => {
                return Err(print_and_end(&format!("{NAME} {}\n", hrafnolt_tools::version())))
            }
            Word::Option("output", value) => output = Some(value),
            Word::Option("title", value) => title = Some(value.to_string_lossy().into_owned()),
            Word::Option("width", value) => {
                let number = options::number("width", &value, WIDEST).ok().filter(|number| *number >= NARROWEST);
                width = number.ok_or_else(|| misuse("--width needs a number from 300 to 20000"))? as usize;
            }
            Word::Option(name, value) => drop(given.option(name, &value).map_err(|what| misuse(&what))?),
        }
    }
    let mut files = files.into_iter();
    match (files.next(), files.next()) {
        (Some(file), None) => Ok(Options { given, output, title, width, file }),
        _ => Err(misuse("one file is drawn")),
    }
}

/// The picture, and the exit status then.
fn drawn(options: &Options) -> Result<(String, i32), Failure> {
    let loaded = options.given.load(&options.file)?;
    let name = quoted(options.file.as_bytes());
    if loaded.any_program().is_none() {
        return Err((1, format!("{name}: has no program; -p gives one")));
    }
    let runs = loaded.contents.runs(loaded.program.as_ref());
    let Some((mark, program, run)) = runs.first() else { return Err((1, format!("{name}: holds no run"))) };
    let file = Path::new(&options.file)
        .file_name()
        .filter(|_| options.file != "-")
        .map(|name| name.to_string_lossy().into_owned());
    let mut title = options.title.clone().or(file).unwrap_or_default();
    if let Some(mark) = mark {
        title.push_str(&format!(" with the fence t{mark} as a nop"));
    }
    let (svg, accepted) = picture::draw(program, &loaded.names, run, &title, options.width);
    Ok((svg, !accepted as i32))
}

fn main() {
    let run = || {
        let options = read_options()?;
        let (svg, status) = drawn(&options).map_err(|(status, line)| {
            say(&line);
            status
        })?;
        match &options.output {
            None => Output::new()?.write(svg.as_bytes())?,
            Some(name) => std::fs::write(name, svg).map_err(|error| {
                say(&format!("{}: {}", quoted(name.as_bytes()), in_words(&error)));
                2
            })?,
        }
        Ok(status)
    };
    exit(run().unwrap_or_else(|status: i32| status));
}
