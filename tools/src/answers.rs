//! What hrafnolt-files says of one file: its line, and below it what the options ask for.

use crate::explain::{why_from, why_report};
use crate::input;
use crate::jobs::Job;
use crate::library::{self, Area, Lent, Verdict, NEEDED, PROGRAM_FILE, TRANSITION};
use crate::names::{hex, json_name, json_string, quoted};
use crate::outside::{outside, Stop};
use crate::registers;
use crate::reports::{Part, Report};
use crate::timeout::{Failed, Other};
use crate::trace;
use crate::words;
use std::ffi::OsStr;
use std::os::unix::ffi::OsStrExt;
use std::panic::AssertUnwindSafe;
use std::time::{Duration, Instant};

/// What is asked for, by the options' names.
#[derive(Default)]
pub struct Wanted {
    pub reports: bool,
    pub records: bool,
    pub explain: bool,
    pub outside: bool,
    pub trace: bool,
    pub quiet: bool,
    pub json: bool,
    pub null: bool,
    pub timeout: Option<Duration>,
}

pub struct Answer {
    pub lines: Vec<u8>,
    pub errors: String,
    pub verdict: Option<Verdict>,
}

/// What a thread keeps from file to file.
#[derive(Default)]
pub struct Room {
    area: Area,
    other: Other,
}

impl Wanted {
    fn name(&self, name: &OsStr) -> Vec<u8> {
        let bytes = name.as_bytes();
        match self.null {
            true => [bytes, b"\0"].concat(),
            false => format!("{}: ", quoted(bytes)).into_bytes(),
        }
    }

    /// What can't be read or judged.
    fn failed(&self, job: &Job, of: &OsStr, what: &str) -> Answer {
        let mut lines = Vec::new();
        if self.json {
            lines = format!("{{{},\"error\":{}}}\n", named(job), json_string(what.as_bytes())).into_bytes();
        }
        Answer { lines, errors: format!("{}: {what}\n", quoted(of.as_bytes())), verdict: None }
    }

    /// A fault of this program is an error of the file that it happens on, and of no other.
    pub fn answer(&self, room: &mut Room, job: &Job) -> Answer {
        let answer = std::panic::catch_unwind(AssertUnwindSafe(|| self.judged(room, job)));
        answer.unwrap_or_else(|_| self.failed(job, &job.name, "a fault in hrafnolt-files, and no verdict"))
    }

    fn judged(&self, room: &mut Room, job: &Job) -> Answer {
        if let Some(what) = &job.problem {
            return self.failed(job, &job.name, what);
        }
        let program = match job.program.as_deref().map(|program| (program, &program.bytes)) {
            None => None,
            Some((_, Ok(bytes))) => Some(bytes.as_slice()),
            Some((program, Err(what))) => return self.failed(job, &program.name, what),
        };
        let file = match input::read(&job.name) {
            Ok(bytes) => bytes,
            Err(what) => return self.failed(job, &job.name, &what),
        };
        if let Some((registers, refused)) = job.registers().and_then(|registers| Some((registers, registers.refused?))) {
            let verdict = registers::verdict(&registers.file, refused, file.len());
            return self.show(job, Lent { program: Some(&registers.file), file: &file }, verdict);
        }
        let lent = Lent { program, file: &file };
        let verdict = match (self.reports, self.timeout) {
            (false, _) => self.asked(room, lent),
            (true, None) => library::report(&file, &mut room.area).ok_or(no_area()),
            (true, Some(limit)) => room.other.report(&file, limit),
        };
        match verdict {
            Ok(verdict) if self.reports => self.show_report(room, job, &file, verdict),
            Ok(verdict) => self.show(job, lent, verdict),
            Err(why) => self.failed(job, &job.name, &self.no_verdict(why)),
        }
    }

    fn asked(&self, room: &mut Room, lent: Lent) -> Result<Verdict, Failed> {
        match self.timeout {
            None => library::judge(lent, &mut room.area).ok_or(no_area()),
            Some(limit) => room.other.judge(lent, limit),
        }
    }

    fn no_verdict(&self, why: Failed) -> String {
        match why {
            Failed::Other(what) => what,
            Failed::Late => format!("no verdict within {}", self.limit()),
        }
    }

    fn show(&self, job: &Job, lent: Lent, v: Verdict) -> Answer {
        let mut answer = Answer { lines: Vec::new(), errors: String::new(), verdict: Some(v) };
        if self.quiet && !v.is_refused() {
            return answer;
        }
        let refused = job.registers().and_then(|registers| registers.refused);
        let origins = job.registers().and_then(|registers| registers.origins.as_ref());
        let in_program = match &job.program {
            Some(program) if refused.is_some() || v.about_records() && v.record_file == PROGRAM_FILE => {
                format!(" in {}", quoted(program.name.as_bytes()))
            }
            _ => String::new(),
        };
        let mut shown = vec![("line", format!("{v}{in_program}"))];
        self.show_record(lent, v, &mut shown);
        if self.explain && v.is_refused() {
            let is_mark = v.refuses(&[2]) && v.record(lent).and_then(|record| record.first()) == Some(&0x30);
            let why = match (refused, lent.program) {
                (Some(refused), Some(file)) => registers::why(file, refused),
                _ => why_from(lent, v, origins),
            };
            shown.push(("why", if is_mark { why + "; fence reports are judged with -n" } else { why }));
        }
        match self.outside_words(lent, v) {
            None => {}
            Some(Ok(words)) => {
                let step = usize::try_from(v.step_first).ok().filter(|_| v.step_kind == TRANSITION);
                let from = step.zip(origins).map_or(String::new(), |(step, origins)| origins.transition(step));
                shown.push(("outside", words + &from));
            }
            Some(Err(what)) => answer.errors = self.error(job, &what),
        }
        if self.trace && !v.about_records() {
            // What holds no run has no trace.
            let told = match lent.program {
                Some(program) => trace::of_files(program, Some(lent.file), origins.map(|origins| &origins.program)),
                None => trace::of_files(lent.file, None, None),
            };
            shown.extend(told.ok().map(|told| ("trace", told.lines.join("\n"))));
        }
        answer.lines = self.lines(job, v, &shown, &in_program);
        answer
    }

    /// A report: its fences, or the wrong mark, or the failing part with what the library says of that alone.
    fn show_report(&self, room: &mut Room, job: &Job, file: &[u8], v: Verdict) -> Answer {
        let mut answer = Answer { lines: Vec::new(), errors: String::new(), verdict: Some(v) };
        if self.quiet && !v.is_refused() {
            return answer;
        }
        let mut shown = vec![("line", v.to_string())];
        self.show_record(Lent { program: None, file }, v, &mut shown);
        let report = Report::of(file).filter(|_| v.kind == NEEDED || v.refuses(&[22, 23]));
        let failing = report.as_ref().and_then(|report| report.failing(v)).filter(|_| v.refuses(&[23]));
        match (&report, &failing) {
            (_, Some(part)) => answer.errors = self.show_part(room, job, part, &mut shown),
            (Some(report), _) if v.kind == NEEDED => shown.push(("fence", report.fences().join("\n"))),
            (Some(report), _) => shown.extend(report.wrong_mark(v).map(|words| ("mark", words))),
            _ if self.explain && v.is_refused() => shown.push(("why", why_report(file, v))),
            _ => {}
        }
        if self.trace {
            let told = report.filter(|_| !v.refuses(&[22])).map_or(Vec::new(), |report| report.trace(v));
            shown.extend(Some(told.join("\n")).filter(|all| !all.is_empty()).map(|all| ("trace", all)));
        }
        answer.lines = self.lines(job, v, &shown, "");
        answer
    }

    /// What the library says of a part of a report alone; what can't be said is an error.
    fn show_part(&self, room: &mut Room, job: &Job, part: &Part, shown: &mut Vec<(&str, String)>) -> String {
        let alone = match self.asked(room, part.lent()) {
            Ok(alone) => alone,
            Err(why) => {
                shown.push(("part", part.words.clone()));
                return self.error(job, &format!("{}: {}", part.words, self.no_verdict(why)));
            }
        };
        let says = if alone.is_refused() { format!(" ({})", words::says(alone.first)) } else { String::new() };
        shown.push(("part", format!("{}: {alone}{says}", part.words)));
        if self.explain && alone.is_refused() {
            shown.push(("why", why_from(part.lent(), alone, None)));
        }
        match self.outside_words(part.lent(), alone) {
            None => {}
            Some(Ok(words)) => shown.push(("outside", words)),
            Some(Err(what)) => return self.error(job, &what),
        }
        String::new()
    }

    fn show_record(&self, lent: Lent, v: Verdict, shown: &mut Vec<(&str, String)>) {
        if self.records && v.about_records() {
            let record = v.record(lent).filter(|record| !record.is_empty());
            shown.push(("record", record.map_or("none, the file ends here".to_string(), |record| hex(record, " "))));
        }
    }

    /// A configuration that the list lacks, or why none was found; None if it is not asked for.
    fn outside_words(&self, lent: Lent, v: Verdict) -> Option<Result<String, String>> {
        let asked = self.outside && v.refuses(&[9, 11]);
        asked.then(|| outside(lent, v, self.timeout.map(|limit| Instant::now() + limit)).map_err(|stop| self.why_not(stop)))
    }

    fn error(&self, job: &Job, what: &str) -> String {
        format!("{}: {what}\n", quoted(job.name.as_bytes()))
    }

    fn lines(&self, job: &Job, v: Verdict, shown: &[(&str, String)], in_program: &str) -> Vec<u8> {
        if self.json {
            return self.object(job, v, shown).into_bytes();
        }
        let (name, mut lines) = (self.name(&job.name), Vec::new());
        for (what, words) in shown {
            let head = match *what {
                "line" => String::new(),
                "record" => format!("record{in_program}: "),
                _ => format!("{what}: "),
            };
            for line in words.split('\n') {
                lines.extend(&name);
                lines.extend(format!("{head}{line}\n").bytes());
            }
        }
        lines
    }

    fn limit(&self) -> String {
        match self.timeout.unwrap_or_default().as_secs() {
            1 => "a second".to_string(),
            seconds => format!("{seconds} seconds"),
        }
    }

    fn why_not(&self, stop: Stop) -> String {
        match stop {
            Stop::Late => format!("no configuration that it lacks was found within {}", self.limit()),
            Stop::NoMemory => "no memory to look for what it lacks".to_string(),
            Stop::Unread => "what it lacks can't be looked for: its bytes are not as the judge read them".to_string(),
        }
    }

    fn object(&self, job: &Job, v: Verdict, shown: &[(&str, String)]) -> String {
        let mut parts = vec![named(job)];
        parts.extend(shown.iter().map(|(what, words)| format!("\"{what}\":{}", json_string(words.as_bytes()))));
        if v.is_refused() {
            parts.push(format!("\"reason\":{}", json_string(words::says(v.first).as_bytes())));
        }
        parts.push(format!("\"kind\":\"{}\"", v.kind_word()));
        let numbers = [
            ("first", v.first),
            ("second", v.second),
            ("step_kind", v.step_kind),
            ("step_first", v.step_first),
            ("step_second", v.step_second),
            ("record_file", v.record_file),
            ("record_at", v.record_at),
            ("record_length", v.record_length),
        ];
        parts.extend(numbers.iter().map(|(name, n)| format!("\"{name}\":{n}")));
        format!("{{{}}}\n", parts.join(","))
    }
}

fn no_area() -> Failed {
    Failed::Other("no memory for a work area".to_string())
}

fn named(job: &Job) -> String {
    let name = json_name("name", job.name.as_bytes());
    match &job.program {
        Some(program) => {
            let key = if program.registers.is_some() { "registers" } else { "program" };
            format!("{name},{}", json_name(key, program.name.as_bytes()))
        }
        None => name,
    }
}
