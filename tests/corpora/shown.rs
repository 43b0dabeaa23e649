//! What `hrafnolt-files -r -w` prints, for combined files and with `-p` for pairs: the line, the offending record under a refusal 1 to 7, and
//! under 9 and 11 a configuration outside the list (`outside.rs`). Every 9 and 11 is looked at, and a sample of the others.

use crate::outside;
use reference::{Answer, Lent, Verdict};
use std::collections::BTreeMap;
use std::process::Command;

/// The files to be looked at are gathered, so that the program is started seldom.
const FILES: usize = 200;
const BYTES: usize = 20_000_000;

pub struct Shown {
    pub what: String,
    program: Option<Vec<u8>>,
    file: Vec<u8>,
    answer: Answer,
}

impl Shown {
    pub fn lent(&self) -> Lent<'_> {
        match &self.program {
            None => Lent::Combined(&self.file),
            Some(program) => Lent::Pair(program, &self.file),
        }
    }
}

/// What was said of a file, and what is wrong with it.
pub struct Fault {
    pub shown: Shown,
    pub said: String,
    pub fault: String,
}

pub struct Files {
    name: String,
    /// By program file, since the program takes one of these at a time.
    gathered: BTreeMap<Option<Vec<u8>>, Vec<Shown>>,
    number: usize,
    bytes: usize,
    /// Of other answers than 9 and 11, and of pairs, one in so many is looked at.
    sample: usize,
    seen: usize,
    pub outside: usize,
    pub records: usize,
}

impl Files {
    pub fn new(name: String, sample: usize) -> Files {
        Files { name, gathered: BTreeMap::new(), number: 0, bytes: 0, sample, seen: 0, outside: 0, records: 0 }
    }

    pub fn add(&mut self, what: &str, lent: Lent, answer: Answer) -> Vec<Fault> {
        let (program, file) = match lent {
            Lent::Combined(file) => (None, file),
            Lent::Pair(program, evidence) => (Some(program.to_vec()), evidence),
        };
        self.seen += 1;
        let sampled = self.seen % self.sample == 0;
        let wanted = match answer.verdict {
            Verdict::Refused(9, _) | Verdict::Open(..) => program.is_none() || sampled,
            // The program's area is as large as the file needs: it allows other counts of entries, and is never 8.
            Verdict::Refused(8, _) => false,
            Verdict::Refused(5, place) => sampled && file.get(place as usize) != Some(&0x10),
            _ => sampled,
        };
        if !wanted {
            return Vec::new();
        }
        let shown = Shown { what: what.to_string(), program: program.clone(), file: file.to_vec(), answer };
        self.number += 1;
        self.bytes += file.len();
        self.gathered.entry(program).or_default().push(shown);
        if self.number < FILES && self.bytes < BYTES {
            return Vec::new();
        }
        self.end()
    }

    pub fn end(&mut self) -> Vec<Fault> {
        let folder = format!("target/tests/shown-{}", std::process::id());
        let mut faults = Vec::new();
        for (program, all) in std::mem::take(&mut self.gathered) {
            std::fs::create_dir_all(&folder).expect("a folder");
            self.show(&folder, program, all, &mut faults);
            std::fs::remove_dir_all(&folder).expect("the folder");
        }
        self.number = 0;
        self.bytes = 0;
        faults
    }

    /// The files of one program file, or all combined ones.
    fn show(&mut self, folder: &str, program: Option<Vec<u8>>, all: Vec<Shown>, faults: &mut Vec<Fault>) {
        let mut command = Command::new(&self.name);
        command.args(["-r", "-w"]);
        let program_name = format!("{}/program", folder);
        if let Some(program) = program {
            std::fs::write(&program_name, program).expect("a file");
            command.args(["-p", &program_name]);
        }
        for (number, shown) in all.iter().enumerate() {
            let name = format!("{}/{}", folder, number);
            std::fs::write(&name, &shown.file).expect("a file");
            command.arg(name);
        }
        let out = command.output().expect("hrafnolt-files starts");
        let text = String::from_utf8_lossy(&out.stdout).to_string();
        let mut lines = text.lines();
        for (number, shown) in all.into_iter().enumerate() {
            let name = format!("{}/{}: ", folder, number);
            let mut said = Vec::new();
            let mut next = |wanted: Option<&str>| {
                let line = lines.next().unwrap_or("nothing").to_string();
                said.push(line.clone());
                match (line.strip_prefix(&name), wanted) {
                    (Some(rest), None) => Ok(rest.to_string()),
                    (Some(rest), Some(wanted)) if rest == wanted => Ok(rest.to_string()),
                    (_, wanted) => Err(format!("{}{}", name, wanted.unwrap_or(".."))),
                }
            };
            let checked = self.check(&shown, &program_name, &mut next);
            if let Err(fault) = checked {
                faults.push(Fault { shown, said: said.join(", "), fault });
            }
        }
        if let Some(line) = lines.next() {
            panic!("hrafnolt-files says more: {}", line);
        }
    }

    fn check(&mut self, shown: &Shown, program: &str, next: &mut dyn FnMut(Option<&str>) -> Result<String, String>) -> Result<(), String> {
        let record = shown.answer.record;
        let verdict = shown.answer.verdict;
        let in_program = if shown.program.is_some() && record.file == 0 { format!(" in {}", program) } else { String::new() };
        next(Some(&format!("{}{}", verdict, in_program)))?;
        match verdict {
            Verdict::Refused(1..=7, _) => {
                let bytes = if in_program.is_empty() { &shown.file } else { shown.program.as_ref().unwrap() };
                let hex: Vec<String> = bytes[record.at..record.at + record.length].iter().map(|byte| format!("{:02X}", byte)).collect();
                let words = if record.length == 0 { "none, the file ends here".to_string() } else { hex.join(" ") };
                self.records += 1;
                next(Some(&format!("record{}: {}", in_program, words)))?;
            }
            Verdict::Refused(9, _) | Verdict::Open(..) => {
                self.outside += 1;
                let words = next(None)?;
                let words = words.strip_prefix("outside: ").ok_or("no configuration")?;
                outside::check(shown.lent(), verdict, words)?;
            }
            _ => {}
        }
        Ok(())
    }
}
