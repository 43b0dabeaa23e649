//! bench FOLDER LIMIT [TIMER]: makes its inputs in the folder and prints the tables. TIMER calls the exported function; without it only
//! the separate judge is timed. The two judges take turns at each input. All times are processor time, the least of several calls. A row
//! that the timer does not end within LIMIT seconds says so.

mod inputs;
#[path = "../tests/corpora/search.rs"]
mod search;
#[path = "../tests/corpora/seeded.rs"]
mod seeded;

use inputs::Listing;
use reference::judge;
use std::process::Command;

#[repr(C)]
struct Timespec {
    seconds: i64,
    nanoseconds: i64,
}

extern "C" {
    fn clock_gettime(clock: i32, time: *mut Timespec) -> i32;
}

/// Processor time of this process so far, in seconds.
fn used() -> f64 {
    let mut time = Timespec { seconds: 0, nanoseconds: 0 };
    unsafe { clock_gettime(2, &mut time) }; // CLOCK_PROCESS_CPUTIME_ID
    time.seconds as f64 + time.nanoseconds as f64 / 1e9
}

/// Each judge repeats an input in each round until it has used so many seconds.
const ROUND: f64 = 0.02;

/// Work areas as the timer names them.
#[derive(Clone, Copy)]
enum Area {
    /// Room for every entry that the file can have.
    Enough,
    /// The least that is not refused with 8.
    Least,
}

/// Times in seconds; None if the limit was passed, or nothing is exported.
struct Times {
    exported: Option<f64>,
    separate: f64,
    line: String,
}

impl Times {
    fn ratio(&self) -> String {
        self.exported.map_or("-".to_string(), |exported| format!("{:.2}", exported / self.separate))
    }
}

struct Bench {
    folder: String,
    limit: String,
    timer: Option<String>,
}

impl Bench {
    /// The least time of the calls of the exported function in one round, and its line.
    fn exported(&self, path: &str, area: Area) -> Option<(f64, String)> {
        let area = match area {
            Area::Enough => "enough",
            Area::Least => "least",
        };
        let out = Command::new("timeout")
            .args([&self.limit, self.timer.as_ref()?, path, area, &(ROUND * 1e3).to_string()])
            .output()
            .expect("timeout starts");
        let text = String::from_utf8_lossy(&out.stdout).trim().to_string();
        let (nanoseconds, line) = text.split_once(' ')?;
        Some((nanoseconds.parse::<f64>().ok()? / 1e9, line.to_string()))
    }

    fn times(&self, name: &str, file: &[u8], area: Area) -> Times {
        let path = format!("{}/{}.evidence", self.folder, name);
        std::fs::write(&path, file).expect("the folder can be written");
        let mut line = String::new();
        let mut separate = f64::MAX;
        let mut exported: Option<f64> = None;
        let mut said = None;
        let mut round = 0;
        // Long inputs twice, others some times more.
        while round < if separate < 0.5 { 5 } else { 2 } {
            let first = used();
            loop {
                let start = used();
                line = judge(file, usize::MAX).verdict.to_string();
                separate = separate.min(used() - start);
                if used() - first >= ROUND {
                    break;
                }
            }
            if round == 0 || exported.is_some() {
                let taken = self.exported(&path, area);
                exported = taken.as_ref().map(|(time, _)| time.min(exported.unwrap_or(f64::MAX)));
                said = taken.map(|(_, line)| line);
            }
            round += 1;
        }
        std::fs::remove_file(&path).expect("the folder can be written");
        if let Some(said) = said {
            assert_eq!(said, line, "{}: the judges differ", name);
        }
        Times { exported, separate, line }
    }

    fn shown(&self, exported: Option<f64>, show: &dyn Fn(f64) -> String) -> String {
        match (exported, &self.timer) {
            (Some(time), _) => show(time),
            (None, Some(_)) => format!("over {} s", self.limit),
            (None, None) => "-".to_string(),
        }
    }

    fn row(&self, what: &str, times: &Times, show: &dyn Fn(f64) -> String) {
        println!("| {} | {} | {} | {} | {} |", what, times.line, self.shown(times.exported, show), show(times.separate), times.ratio());
    }

    /// A list in file order and shuffled.
    fn list(&self, what: &str, listing: &Listing) {
        let ordered = self.times("list", &listing.file(), Area::Enough);
        let shuffled = self.times("list", &listing.shuffled(1).file(), Area::Enough);
        let line = if ordered.line == shuffled.line { ordered.line.clone() } else { format!("{}; {}", ordered.line, shuffled.line) };
        let count = listing.len();
        let each = |time: Option<f64>| time.map_or("-".to_string(), |time| format!("{:.1}", time * 1e6 / count as f64));
        let columns = [&ordered, &shuffled]
            .map(|times| format!("{} | {} | **{}**", self.shown(times.exported, &duration), duration(times.separate), times.ratio()));
        let per_entry = format!("{}, {}", each(ordered.exported), each(shuffled.exported));
        println!("| {} {} | {} | {} | {} | {} |", inputs::thousands(count), what, line, columns[0], columns[1], per_entry);
    }
}

fn duration(seconds: f64) -> String {
    match seconds {
        t if t < 1e-3 => format!("{:.1} us", t * 1e6),
        t if t < 1.0 => format!("{:.1} ms", t * 1e3),
        t => format!("{:.2} s", t),
    }
}

fn main() {
    let words: Vec<String> = std::env::args().skip(1).collect();
    let bench = Bench { folder: words[0].clone(), limit: words[1].clone(), timer: words.get(2).cloned() };

    println!("| input | line | exported function | separate judge | ratio of times |");
    println!("|---|---|---|---|---|");
    let file = inputs::long_reading();
    let megabytes = file.len() as f64 / 1e6;
    let speed = |time: f64| format!("{:.0} MB/s", megabytes / time);
    bench.row(&format!("reading {:.1} MB, refused at the last record", megabytes), &bench.times("reading", &file, Area::Enough), &speed);
    let file = [&[7], &file[..]].concat();
    bench.row(
        &format!("{:.1} MB, refused at the first record, least area", megabytes),
        &bench.times("first", &file, Area::Least),
        &duration,
    );
    let runs = |time: f64| format!("{:.0} runs/s", 1.0 / time);
    bench.row("run of 1,024 steps, least area", &bench.times("run", &inputs::long_run(), Area::Least), &runs);
    bench.row("PSO run of 1,024 steps, least area", &bench.times("pso", &inputs::long_pso_run(), Area::Least), &runs);
    bench.row("empty file, least area", &bench.times("empty", &[], Area::Least), &duration);

    println!();
    println!("| list (processes, variables; local states) | line | file order: exported | separate | ratio | shuffled: exported | separate | ratio | us an entry |");
    println!("|---|---|---|---|---|---|---|---|---|");
    for (first, second) in [(1, 1), (2, 1), (5, 1), (5, 2), (5, 4)] {
        bench.list(&format!("(2, 1; {})", first * second), &inputs::rounds(first, second));
    }
    bench.list("(2, 1; 900), 60 transitions", &inputs::rounds(30, 30));
    bench.list("(1, 4; 12)", &inputs::chain(1, 4, 12));
    bench.list("(3, 1; 1)", &inputs::chain(3, 1, 1));
    bench.list("(2, 2; 1)", &inputs::chain(2, 2, 1));
    bench.list("(2, 2; 1), its target 4,096 times", &inputs::repeated(inputs::chain(2, 2, 1), 4_096));
    bench.list("(3, 1; 11)", &inputs::chain(3, 1, 11));
    let long = inputs::chain(2, 2, 10);
    bench.list("(2, 2; 10)", &long);
    bench.list("(2, 2; 10), without the last", &long.without(long.len() - 1));
    bench.list("(2, 2; 10), without one in the middle", &long.without(long.len() / 2));
    let targets = inputs::many_targets(2, 2, 10);
    bench.list("(2, 2), 10 targets, without the last", &targets.without(targets.len() - 1));
    bench.list("(2, 2), 10 targets, without one in the middle", &targets.without(targets.len() / 2));
    let found = inputs::found();
    bench.list("(2, 2; 2), from a backward search", &found);
    bench.list("(2, 2; 2), the same, 12s before 11s", &found.waits_first());
    bench.list("(2, 2; 2), its FFs split in every third entry", &inputs::split(&found));
    bench.list("(2, 2; 2), from a backward search for a read", &inputs::found_for_read());
}
