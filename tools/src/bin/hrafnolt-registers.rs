//! hrafnolt-registers: a program with registers to the program file that says the same without them, on standard output (man/hrafnolt-registers.1).
//! Exit status: 0 if it was written, 1 if the file is refused (`FILE: refused NUMBER PLACE` on standard error), 2 if it can't be read, the output
//! can't be written, or the options are wrong.

use hrafnolt_tools::input;
use hrafnolt_tools::library;
use hrafnolt_tools::names::quoted;
use hrafnolt_tools::options::{self, choice, Choice, Word, NO_LETTER};
use hrafnolt_tools::output::{misused, print_and_end, say, Output};
use hrafnolt_tools::registers;
use std::ffi::OsString;
use std::os::unix::ffi::OsStrExt;
use std::process::exit;

const NAME: &str = "hrafnolt-registers";

const USAGE: &str = "usage: hrafnolt-registers [-e] [-o OUT] FILE
";

const ABOUT: &str = "Writes the program file that says without registers what FILE, a program with registers, says. FILE may be -,
standard input.

";

const STATUS: &str = "
Exit status: 0 if it was written, 1 if FILE is refused, 2 if a file can't be read or written.
";

static CHOICES: [Choice; 4] = [
    choice('e', "explain", "", "say under a refusal why it is refused, in a sentence"),
    choice('o', "output", "OUT", "write to this file"),
    choice(NO_LETTER, "help", "", "this text"),
    choice(NO_LETTER, "version", "", "the version"),
];

struct Options {
    explain: bool,
    output: Option<OsString>,
    file: OsString,
}

fn read_options() -> Result<Options, i32> {
    let misuse = |what: &str| misused(NAME, what, USAGE);
    let (mut explain, mut output, mut files) = (false, None, Vec::new());
    for word in options::read(&CHOICES, std::env::args_os().skip(1)).map_err(|what| misuse(&what))? {
        match word {
            Word::File(name) => files.push(name),
            Word::Option("help", _) => return Err(print_and_end(&format!("{USAGE}{ABOUT}{}{STATUS}", options::help(&CHOICES)))),
            Word::Option("version", _) => return Err(print_and_end(&format!("{NAME} {}\n", hrafnolt_tools::version()))),
            Word::Option("explain", _) => explain = true,
            Word::Option(_, _) if output.is_some() => return Err(misuse("there is one output, and -o was given twice")),
            Word::Option(_, value) => output = Some(value),
        }
    }
    match files.pop() {
        Some(file) if files.is_empty() => Ok(Options { explain, output, file }),
        _ => Err(misuse("one file is read")),
    }
}

fn write() -> Result<i32, i32> {
    let options = read_options()?;
    let name = quoted(options.file.as_bytes());
    let file = input::read(&options.file).map_err(|what| {
        say(&format!("{name}: {what}"));
        2
    })?;
    let program = library::registers(&file).map_err(|(number, place)| {
        say(&format!("{name}: refused {number} {place}"));
        if options.explain {
            say(&format!("{name}: why: {}", registers::why(&file, (number, place))));
        }
        1
    })?;
    match &options.output {
        None => Output::new()?.write(&program)?,
        Some(out) => std::fs::write(out, program).map_err(|error| {
            say(&format!("{}: {}", quoted(out.as_bytes()), input::in_words(&error)));
            2
        })?,
    }
    Ok(0)
}

fn main() {
    exit(write().unwrap_or_else(|status| status));
}
