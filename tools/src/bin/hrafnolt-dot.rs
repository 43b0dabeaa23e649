//! hrafnolt-dot: the drawing of a run, in the DOT graph language, on standard output; with -r a drawing back to step records (man/hrafnolt-dot.1).
//! In a run of claim 2, s01 is the PSO machine's update of process 0 and variable 1, and u0 the removal of process 0's mark.
//! Exit status: 0 if it was written, 1 if the file is refused (`FILE: refused NUMBER PLACE` on standard error), 2 if it can't be read, holds no run,
//! the output can't be written, or the options are wrong.

use hrafnolt_tools::explain;
use hrafnolt_tools::input;
use hrafnolt_tools::library::{self, Area, Lent};
use hrafnolt_tools::names::quoted;
use hrafnolt_tools::options::{self, choice, Choice, Word, NO_LETTER};
use hrafnolt_tools::output::{misused, print_and_end, say, Output};
use hrafnolt_tools::words;
use std::ffi::{OsStr, OsString};
use std::os::unix::ffi::OsStrExt;
use std::process::exit;

const NAME: &str = "hrafnolt-dot";

const USAGE: &str = "usage: hrafnolt-dot [-e] [-p PROGRAM] FILE
       hrafnolt-dot [-e] -r FILE
";

const ABOUT: &str = "Draws a run: FILE is a combined file or an evidence file whose claim is 1 or 2, or bare step records.
FILE may be -, standard input. A run that the judge refuses is drawn up to the step that it refuses.

";

const STATUS: &str = "
Exit status: 0 if it was written, 1 if the file is refused, 2 if it can't be read or holds no run.
";

static CHOICES: [Choice; 5] = [
    choice('p', "program", "PROGRAM", "judge the run of an evidence file with this program file"),
    choice('e', "explain", "", "say under a refusal why it is refused, in a sentence"),
    choice('r', "read", "", "read a drawing and write its step records"),
    choice(NO_LETTER, "help", "", "this text"),
    choice(NO_LETTER, "version", "", "the version"),
];

struct Options {
    program: Option<OsString>,
    back: bool,
    explain: bool,
    file: OsString,
}

fn read_options() -> Result<Options, i32> {
    let misuse = |what: &str| misused(NAME, what, USAGE);
    let (mut program, mut back, mut explain, mut files) = (None, false, false, Vec::new());
    for word in options::read(&CHOICES, std::env::args_os().skip(1)).map_err(|what| misuse(&what))? {
        match word {
            Word::File(name) => files.push(name),
            Word::Option("help", _) => return Err(print_and_end(&format!("{USAGE}{ABOUT}{}{STATUS}", options::help(&CHOICES)))),
            Word::Option("version", _) => return Err(print_and_end(&format!("{NAME} {}\n", hrafnolt_tools::version()))),
            Word::Option("read", _) => back = true,
            Word::Option("explain", _) => explain = true,
            Word::Option(_, _) if program.is_some() => return Err(misuse("there is one program file, and -p was given twice")),
            Word::Option(_, value) => program = Some(value),
        }
    }
    match files.pop() {
        Some(file) if files.is_empty() && !(back && program.is_some()) => Ok(Options { program, back, explain, file }),
        Some(_) if files.is_empty() => Err(misuse("-r reads a drawing, which needs no program")),
        _ => Err(misuse("one file is drawn")),
    }
}

/// Bytes of a record of the program part, by its kind.
fn length_of(kind: u8) -> Option<usize> {
    match kind {
        1 => Some(7),
        2 => Some(3),
        3 => Some(8),
        4 => Some(5),
        _ => None,
    }
}

/// What a file to be drawn begins with.
enum Held {
    Bare,
    /// Where the steps begin, and whether there is a program before them.
    Run(usize, bool),
}

/// Where the step records begin: at the file's start, or after a claim that is 1 or 2 and the starting memory. An evidence file has no program
/// before its claim. Or why there is no run to draw.
fn find_steps(file: &[u8]) -> Result<Held, &'static str> {
    if !matches!(file.first(), Some(1 | 0x0F)) {
        return Ok(Held::Bare);
    }
    let mut at = 0;
    while let Some(length) = file.get(at).and_then(|kind| length_of(*kind)) {
        at += length;
    }
    match file.get(at..).unwrap_or(&[]) {
        [0x0F, 0, ..] => Err("its claim is 0: it holds a list and no run"),
        [0x0F, 1 | 2, 0x1F, _, _, _, _, ..] => Ok(Held::Run(at + 7, at > 0)),
        [0x0F, 1 | 2, ..] => Err("no starting memory follows its claim"),
        [0x0F, _, ..] => Err("its claim is none of 0, 1 and 2"),
        _ => Err("no claim follows its program"),
    }
}

/// Where step number n begins.
fn step_at(steps: &[u8], n: u64) -> usize {
    let mut at = 0;
    for _ in 0..n {
        match steps.get(at) {
            Some(0x21) => at += 3,
            Some(_) => at += 2,
            None => break,
        }
    }
    at.min(steps.len())
}

fn read(name: &OsStr) -> Result<Vec<u8>, i32> {
    input::read(name).map_err(|what| {
        say(&format!("{}: {what}", quoted(name.as_bytes())));
        2
    })
}

/// `FILE: refused NUMBER PLACE`, with what was drawn of it and, if that is wanted, why.
struct Refused {
    number: u64,
    place: u64,
    drawn: String,
    why: String,
}

fn draw(options: &Options, file: &[u8], output: &mut Output) -> Result<i32, i32> {
    let name = quoted(options.file.as_bytes());
    let refused = |refused: Refused| {
        say(&format!("{name}: refused {} {}{}", refused.number, refused.place, refused.drawn));
        if options.explain {
            say(&format!("{name}: why: {}", refused.why));
        }
        1
    };
    if options.back {
        let steps = library::dot_read(file).map_err(|(number, place)| {
            let why = if number == 27 { explain::no_drawing(file, place) } else { words::says(number).to_string() };
            refused(Refused { number, place, drawn: String::new(), why })
        })?;
        return output.write(&steps).map(|()| 0);
    }
    let held = find_steps(file).map_err(|why| {
        say(&format!("{name}: {why}"));
        2
    })?;
    let (start, combined) = match held {
        Held::Bare => (0, false),
        Held::Run(start, combined) => (start, combined),
    };
    let steps = file.get(start..).unwrap_or(&[]);
    let program = match &options.program {
        Some(program) => Some(read(program)?),
        None => None,
    };
    let unwritten = |(number, place): (u64, u64)| {
        refused(Refused { number, place: start as u64 + place, drawn: String::new(), why: words::says(number).to_string() })
    };
    // The judge knows the program, if there is one.
    if !combined && program.is_none() {
        let drawing = library::dot_write(steps).map_err(unwritten)?;
        return output.write(&drawing).map(|()| 0);
    }
    let lent = Lent { program: program.as_deref(), file };
    let Some(v) = library::judge(lent, &mut Area::default()) else {
        say(&format!("{name}: no memory for a work area"));
        return Err(2);
    };
    if v.about_records() {
        let in_program = options.program.as_ref().filter(|_| v.record_file == library::PROGRAM_FILE);
        let drawn = in_program.map_or(String::new(), |program| format!(" in {}", quoted(program.as_bytes())));
        return Err(refused(Refused { number: v.first, place: v.second, drawn, why: explain::why(lent, v) }));
    }
    let (taken, drawn) = match (v.is_refused(), v.first) {
        (false, _) => (steps, String::new()),
        (true, 13) => (steps, "; all of it is drawn".to_string()),
        (true, _) => {
            let taken = steps.get(..step_at(steps, v.second)).unwrap_or(&[]);
            (taken, format!("; drawn up to c{}, from where step {} can't be taken", v.second, v.second))
        }
    };
    output.write(&library::dot_write(taken).map_err(unwritten)?)?;
    if !v.is_refused() {
        return Ok(0);
    }
    Ok(refused(Refused { number: v.first, place: v.second, drawn, why: explain::why(lent, v) }))
}

fn main() {
    let run = || {
        let options = read_options()?;
        let mut output = Output::new()?;
        let file = read(&options.file)?;
        draw(&options, &file, &mut output)
    };
    exit(run().unwrap_or_else(|status| status));
}
