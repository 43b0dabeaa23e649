//! Judging with a limit of time. The judge can't be interrupted, so it runs in a process of its own, which is ended when the time is over. The process
//! is this program again; it gets files on its standard input and gives verdicts on its standard output.

use crate::library::{judge, report, Area, Lent, Verdict};
use std::io::{self, Read, Write};
use std::process::{Child, ChildStdin, Command, Stdio};
use std::sync::mpsc::{channel, Receiver, RecvTimeoutError};
use std::time::Duration;

/// The one word on the command line of the process that judges.
pub const JUDGING: &str = "--judging-for-another-process";

/// In place of the length of a program file.
const NO_PROGRAM: u64 = u64::MAX;
const REPORT: u64 = u64::MAX - 1;

struct Process {
    child: Child,
    files: ChildStdin,
    verdicts: Receiver<Verdict>,
}

impl Drop for Process {
    fn drop(&mut self) {
        let _ = self.child.kill();
        let _ = self.child.wait();
    }
}

/// A process that judges; it is begun when it is needed, and again after it was ended.
#[derive(Default)]
pub struct Other(Option<Process>);

pub enum Failed {
    Late,
    Other(String),
}

impl Other {
    pub fn judge(&mut self, lent: Lent, limit: Duration) -> Result<Verdict, Failed> {
        let before = lent.program.map_or(NO_PROGRAM, |program| program.len() as u64);
        self.ask(before, lent.program.unwrap_or(&[]), lent.file, limit)
    }

    pub fn report(&mut self, file: &[u8], limit: Duration) -> Result<Verdict, Failed> {
        self.ask(REPORT, &[], file, limit)
    }

    fn ask(&mut self, before: u64, program: &[u8], file: &[u8], limit: Duration) -> Result<Verdict, Failed> {
        let other = |error: io::Error| Failed::Other(format!("the process that judges failed: {}", crate::input::in_words(&error)));
        let mut process = match self.0.take() {
            Some(process) => process,
            None => begin().map_err(other)?,
        };
        send(&mut process.files, before, program, file).map_err(other)?;
        match process.verdicts.recv_timeout(limit) {
            Ok(verdict) => {
                self.0 = Some(process);
                Ok(verdict)
            }
            Err(RecvTimeoutError::Timeout) => Err(Failed::Late),
            Err(RecvTimeoutError::Disconnected) => Err(Failed::Other("the process that judges ended".to_string())),
        }
    }
}

fn begin() -> io::Result<Process> {
    let mut child = Command::new(std::env::current_exe()?).arg(JUDGING).stdin(Stdio::piped()).stdout(Stdio::piped()).spawn()?;
    let missing = || io::Error::from(io::ErrorKind::BrokenPipe);
    let files = child.stdin.take().ok_or_else(missing)?;
    let mut out = child.stdout.take().ok_or_else(missing)?;
    let (to, verdicts) = channel();
    std::thread::spawn(move || {
        let mut bytes = [0; 72];
        while out.read_exact(&mut bytes).is_ok() && to.send(from_bytes(&bytes)).is_ok() {}
    });
    Ok(Process { child, files, verdicts })
}

fn send(to: &mut ChildStdin, before: u64, program: &[u8], file: &[u8]) -> io::Result<()> {
    to.write_all(&before.to_le_bytes())?;
    to.write_all(&(file.len() as u64).to_le_bytes())?;
    to.write_all(program)?;
    to.write_all(file)
}

fn from_bytes(bytes: &[u8; 72]) -> Verdict {
    let mut n = bytes.chunks_exact(8).map(|word| word.iter().rev().fold(0, |n, byte| n << 8 | u64::from(*byte)));
    let mut next = || n.next().unwrap_or(0);
    Verdict {
        kind: next(),
        first: next(),
        second: next(),
        step_kind: next(),
        step_first: next(),
        step_second: next(),
        record_file: next(),
        record_at: next(),
        record_length: next(),
    }
}

fn to_bytes(v: Verdict) -> Vec<u8> {
    let words = [v.kind, v.first, v.second, v.step_kind, v.step_first, v.step_second, v.record_file, v.record_at, v.record_length];
    words.iter().flat_map(|word| word.to_le_bytes()).collect()
}

extern "C" {
    fn prctl(option: i32, ...) -> i32;
}

/// The process that judges: files come until standard input ends.
pub fn serve() -> i32 {
    // It ends with the one that began it, even in the middle of a file.
    const PR_SET_PDEATHSIG: i32 = 1;
    const SIGKILL: u64 = 9;
    unsafe { prctl(PR_SET_PDEATHSIG, SIGKILL) };
    let (mut input, mut output) = (io::stdin().lock(), io::stdout().lock());
    let mut area = Area::default();
    let mut one = || -> io::Result<()> {
        let mut lengths = [[0; 8]; 2];
        for length in &mut lengths {
            input.read_exact(length)?;
        }
        let [before, after] = lengths.map(u64::from_le_bytes);
        let mut part = |length: u64| -> io::Result<Vec<u8>> {
            let mut bytes = Vec::new();
            let n = usize::try_from(length).map_err(io::Error::other)?;
            bytes.try_reserve_exact(n).map_err(io::Error::other)?;
            bytes.resize(n, 0);
            input.read_exact(&mut bytes)?;
            Ok(bytes)
        };
        let program = if matches!(before, NO_PROGRAM | REPORT) { None } else { Some(part(before)?) };
        let file = part(after)?;
        let verdict = match before {
            REPORT => report(&file, &mut area),
            _ => judge(Lent { program: program.as_deref(), file: &file }, &mut area),
        };
        output.write_all(&to_bytes(verdict.ok_or(io::ErrorKind::OutOfMemory)?))?;
        output.flush()
    };
    while one().is_ok() {}
    0
}
