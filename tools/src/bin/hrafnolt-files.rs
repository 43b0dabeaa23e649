//! hrafnolt-files: judges files of any size and prints `NAME: LINE` for each, with what its options ask for below it (man/hrafnolt-files.1).
//! Exit status: 0 if all were accepted (safe, reachable, pso or needed), 1 if any was refused, 2 if a file can't be read, a line can't be written or the
//! options are wrong.

use hrafnolt_tools::answers::{Answer, Room, Wanted};
use hrafnolt_tools::batch::{self, Progress};
use hrafnolt_tools::figures::Figures;
use hrafnolt_tools::input;
use hrafnolt_tools::jobs::Named;
use hrafnolt_tools::options::{self, choice, Choice, Word, NO_LETTER};
use hrafnolt_tools::output::{misused, print_and_end, say, Output};
use hrafnolt_tools::timeout;
use hrafnolt_tools::words;
use std::process::exit;
use std::time::Duration;

const NAME: &str = "hrafnolt-files";

const USAGE: &str = "usage: hrafnolt-files [OPTION].. FILE..
       hrafnolt-files [OPTION].. -p PROGRAM EVIDENCE..
       hrafnolt-files [OPTION].. -g REGISTERS EVIDENCE..
       hrafnolt-files [OPTION].. --pairs LIST
       hrafnolt-files [OPTION].. -n REPORT..
";

const ABOUT: &str =
    "Judges evidence files of any size and prints `NAME: LINE` for each. A FILE may be -, standard input, and a folder stands for
the files below it.

";

const STATUS: &str = "
Exit status: 0 if all were accepted, 1 if any was refused, 2 if a file can't be read.
";

static CHOICES: [Choice; 17] = [
    choice('p', "program", "PROGRAM", "judge evidence files against this program file; a refusal that stands in it ends\nin `in PROGRAM`"),
    choice('g', "registers", "REGISTERS", "judge evidence files for this program with registers"),
    choice(NO_LETTER, "pairs", "LIST", "judge pairs: each line of LIST has a program file, a tab and an evidence file"),
    choice('n', "needed", "", "judge fence reports: which fences are needed, or which mark is wrong or which part\nfails"),
    choice('r', "record", "", "under each refusal 1 to 7 the offending record, in hexadecimal digits"),
    choice('e', "explain", "", "under each refusal why it is refused, in a sentence"),
    choice('w', "outside", "", "under each refusal 9 or 11 a configuration that the list lacks, in words"),
    choice('t', "trace", "", "under each run its configurations, step by step, up to the step that fails"),
    choice('s', "figures", "", "at the end counts, the mean and variance of entries per safe file, and the share\nof safe files"),
    choice('q', "quiet", "", "no line for a file that is accepted"),
    choice('j', "jobs", "N", "judge N files at a time; the lines keep their order"),
    choice(NO_LETTER, "timeout", "SECONDS", "give up on a file that takes longer to judge"),
    choice(NO_LETTER, "json", "", "a JSON object for each file, with every field of the verdict"),
    choice('0', "null", "", "names as they are, with a NUL byte behind each in place of `: `; in LIST a NUL\nbyte behind each name"),
    choice(NO_LETTER, "reasons", "", "what each refusal's number says"),
    choice(NO_LETTER, "help", "", "this text"),
    choice(NO_LETTER, "version", "", "the version"),
];

#[derive(Default)]
struct Options {
    named: Named,
    wanted: Wanted,
    figures: bool,
    threads: usize,
}

// ---- the command line

fn read_options() -> Result<Options, i32> {
    let misuse = |what: String| misused(NAME, &what, USAGE);
    let mut options = Options { threads: 1, ..Options::default() };
    for word in options::read(&CHOICES, std::env::args_os().skip(1)).map_err(misuse)? {
        let (long, value) = match word {
            Word::File(name) => {
                options.named.files.push(name);
                continue;
            }
            Word::Option(long, value) => (long, value),
        };
        match long {
            "help" => return Err(print_and_end(&format!("{USAGE}{ABOUT}{}{STATUS}", options::help(&CHOICES)))),
            "reasons" => return Err(print_and_end(&words::table())),
            "version" => return Err(print_and_end(&format!("{NAME} {}\n", hrafnolt_tools::version()))),
            "program" if options.named.program.is_some() => {
                return Err(misuse("there is one program file, and -p was given twice".to_string()))
            }
            "program" => options.named.program = Some(value),
            "registers" if options.named.registers.is_some() => {
                return Err(misuse("there is one program, and -g was given twice".to_string()))
            }
            "registers" => options.named.registers = Some(value),
            "pairs" if options.named.pairs.is_some() => return Err(misuse("--pairs was given twice".to_string())),
            "pairs" => options.named.pairs = Some(value),
            "needed" => options.wanted.reports = true,
            "record" => options.wanted.records = true,
            "explain" => options.wanted.explain = true,
            "outside" => options.wanted.outside = true,
            "trace" => options.wanted.trace = true,
            "figures" => options.figures = true,
            "quiet" => options.wanted.quiet = true,
            "json" => options.wanted.json = true,
            "null" => options.wanted.null = true,
            "jobs" => options.threads = options::number(long, &value, 256).map_err(misuse)? as usize,
            _ => options.wanted.timeout = Some(Duration::from_secs(options::number(long, &value, 1 << 32).map_err(misuse)?)),
        }
    }
    let named = options.named.files.iter().chain(&options.named.program).chain(&options.named.registers).chain(&options.named.pairs);
    let inputs = named.filter(|name| input::is_standard_input(name)).count();
    let wrong = if inputs > 1 {
        "standard input can be read once, and - was given twice"
    } else if options.wanted.reports && named_program(&options.named) {
        "-n goes with none of -p, -g and --pairs: a report has its program in it"
    } else if options.named.pairs.is_some() && options.named.program.is_some() {
        "--pairs and -p don't go together"
    } else if options.named.registers.is_some() && (options.named.program.is_some() || options.named.pairs.is_some()) {
        "-g goes with neither -p nor --pairs"
    } else if options.named.pairs.is_some() != options.named.files.is_empty() {
        if options.named.files.is_empty() {
            "no file to judge"
        } else {
            "the files of --pairs stand in its LIST"
        }
    } else {
        return Ok(options);
    };
    Err(misuse(wrong.to_string()))
}

fn named_program(named: &Named) -> bool {
    named.program.is_some() || named.registers.is_some() || named.pairs.is_some()
}

fn judge_all() -> Result<i32, i32> {
    let options = read_options()?;
    let mut output = Output::new()?;
    let jobs = options.named.jobs(options.threads, options.wanted.null)?;
    let mut figures = Figures::of(options.wanted.reports);
    let mut incomplete = false;
    let progress = Progress::new(jobs.len());
    let take = |answer: Answer| {
        match answer.verdict {
            Some(v) => figures.add(v),
            None => figures.unread += 1,
        }
        incomplete |= !answer.errors.is_empty();
        progress.done(|| {
            if !answer.errors.is_empty() {
                say(answer.errors.trim_end_matches('\n'));
            }
            if answer.lines.is_empty() {
                return Ok(());
            }
            output.write(&answer.lines)
        })
    };
    let threads = options.threads.min(jobs.len()).max(1);
    progress.during(|| batch::run(&jobs, threads, Room::default, |room, job| options.wanted.answer(room, job), take))?;
    if options.figures {
        output.write(if options.wanted.json { figures.json() } else { figures.lines(options.wanted.explain) }.as_bytes())?;
    }
    Ok(if incomplete { 2 } else { i32::from(figures.any_refused()) })
}

fn main() {
    if std::env::args_os().nth(1).is_some_and(|word| word == timeout::JUDGING) {
        exit(timeout::serve());
    }
    exit(judge_all().unwrap_or_else(|status| status));
}
