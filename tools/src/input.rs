//! Files in memory of one's own. What is judged, shown and searched is this copy, whatever happens to the file afterwards; and a copy is handed out
//! only if the file did not change while it was made.

use std::ffi::OsStr;
use std::fs::{File, FileType, Metadata};
use std::io::{self, Read, Seek};
use std::os::fd::AsFd;
use std::os::unix::ffi::OsStrExt;
use std::os::unix::fs::{FileExt, MetadataExt};
use std::path::{Path, PathBuf};
use std::time::{Duration, SystemTime, UNIX_EPOCH};

/// More bytes than any evidence that is accepted: 524,288 entries with 16 messages and 16 queues of 8 values have 633 bytes each, and a program of
/// 4,096 targets 22,549; the eight runs of a report have 24,632 more.
pub const MOST: usize = 332_000_000;

/// The kernel's clock for files ticks in up to 10 ms, and some file systems keep whole seconds, or every second one: two changes within a tick have
/// the same time.
const TICK: Duration = Duration::from_millis(20);
const COARSE_TICK: Duration = Duration::from_millis(2_100);

/// What tells a file that was written to from one that was not.
#[derive(PartialEq)]
struct Stamp {
    size: u64,
    modified: (i64, i64),
    changed: (i64, i64),
}

impl Stamp {
    fn of(about: &Metadata) -> Stamp {
        Stamp { size: about.size(), modified: (about.mtime(), about.mtime_nsec()), changed: (about.ctime(), about.ctime_nsec()) }
    }

    /// Could a change now leave the times as they are?
    fn is_fresh(&self) -> bool {
        let Ok(now) = SystemTime::now().duration_since(UNIX_EPOCH) else { return false };
        let (seconds, nanoseconds) = self.modified.max(self.changed);
        let then = i128::from(seconds) * 1_000_000_000 + i128::from(nanoseconds);
        let tick = if nanoseconds == 0 { COARSE_TICK } else { TICK };
        (now.as_nanos() as i128 - then).unsigned_abs() < tick.as_nanos()
    }
}

/// All bytes of a file, of a pipe, or, for `-`, of standard input; or what went wrong.
pub fn read(name: &OsStr) -> Result<Vec<u8>, String> {
    let open = || -> io::Result<(File, Metadata)> {
        let file = match is_standard_input(name) {
            true => File::from(io::stdin().as_fd().try_clone_to_owned()?),
            false => File::open(name)?,
        };
        let about = file.metadata()?;
        Ok((file, about))
    };
    let (mut file, about) = open().map_err(|error| in_words(&error))?;
    if about.is_dir() {
        return Err("Is a directory".to_string());
    }
    if !about.is_file() {
        return read_stream(file);
    }
    // Somebody may have read a part of standard input already.
    let start = if is_standard_input(name) { file.stream_position().map_err(|error| in_words(&error))? } else { 0 };
    read_regular(&file, start, Stamp::of(&about))
}

pub fn is_standard_input(name: &OsStr) -> bool {
    name == "-"
}

/// A pipe, a device, a socket: what comes until it ends.
fn read_stream(mut file: File) -> Result<Vec<u8>, String> {
    let mut bytes = Vec::new();
    loop {
        let from = more_room(&mut bytes, 0)?;
        let n = match file.read(bytes.get_mut(from..).unwrap_or(&mut [])) {
            Err(error) if error.kind() == io::ErrorKind::Interrupted => {
                bytes.truncate(from);
                continue;
            }
            other => other.map_err(|error| in_words(&error))?,
        };
        bytes.truncate(from + n);
        if n == 0 {
            return Ok(bytes);
        }
    }
}

/// A file that was written to a moment ago is left alone until the clock has gone on: from then on a write shows in the file's times. And each byte is
/// read twice, and the two passes must agree, for a writer that maps the file, which shows in its times only now and then.
fn read_regular(file: &File, start: u64, before: Stamp) -> Result<Vec<u8>, String> {
    let stamp = || file.metadata().map(|about| Stamp::of(&about)).map_err(|error| in_words(&error));
    while before.is_fresh() {
        std::thread::sleep(TICK);
        if stamp()? != before {
            return Err(changed());
        }
    }
    // The files under /proc have a size of 0, so it is only a first guess.
    let guess = usize::try_from(before.size.saturating_sub(start)).unwrap_or(usize::MAX);
    if guess > MOST {
        return Err(too_long());
    }
    let mut bytes = Vec::new();
    loop {
        let from = more_room(&mut bytes, guess)?;
        let n = read_at(file, bytes.get_mut(from..).unwrap_or(&mut []), start + from as u64)?;
        bytes.truncate(from + n);
        if n == 0 || guess > 0 && bytes.len() == guess {
            break;
        }
    }
    let same = same_again(file, start, &bytes)?;
    if !same || stamp()? != before {
        return Err(changed());
    }
    Ok(bytes)
}

/// Room behind what was read; where that ends.
fn more_room(bytes: &mut Vec<u8>, guess: usize) -> Result<usize, String> {
    let from = bytes.len();
    if from > MOST {
        return Err(too_long());
    }
    // one byte more than the guess, so that a longer file shows
    let more = if from == 0 && guess > 0 { guess + 1 } else { from.clamp(65_536, 16_777_216) };
    bytes.try_reserve(more).map_err(|_| "no memory for its bytes".to_string())?;
    bytes.resize(from + more, 0);
    Ok(from)
}

fn same_again(file: &File, start: u64, bytes: &[u8]) -> Result<bool, String> {
    let mut again = vec![0; (bytes.len() + 1).min(1 << 18)];
    let mut at = 0;
    loop {
        let n = read_at(file, &mut again, start + at as u64)?;
        if n == 0 {
            return Ok(at == bytes.len());
        }
        if bytes.get(at..at + n) != again.get(..n) {
            return Ok(false);
        }
        at += n;
        if at == bytes.len() && n < again.len() {
            return Ok(true);
        }
    }
}

fn read_at(file: &File, to: &mut [u8], at: u64) -> Result<usize, String> {
    loop {
        match file.read_at(to, at) {
            Err(error) if error.kind() == io::ErrorKind::Interrupted => {}
            other => return other.map_err(|error| in_words(&error)),
        }
    }
}

fn changed() -> String {
    "it changed while it was read".to_string()
}

fn too_long() -> String {
    format!("it has more than {MOST} bytes, and no evidence is as long")
}

/// The C library's words for an error, without its number.
pub fn in_words(error: &io::Error) -> String {
    let words = error.to_string();
    match words.find(" (os error") {
        Some(end) => words[..end].to_string(),
        None => words,
    }
}

/// The regular files below a folder, in the order of their names' bytes; what can't be read there comes with its error. Links are not followed.
pub fn below(folder: &Path) -> Vec<(PathBuf, Result<(), String>)> {
    let (mut found, mut folders) = (Vec::new(), vec![folder.to_path_buf()]);
    while let Some(path) = folders.pop() {
        let list = || -> io::Result<Vec<(PathBuf, FileType)>> {
            std::fs::read_dir(&path)?.map(|entry| entry.and_then(|entry| Ok((entry.path(), entry.file_type()?)))).collect()
        };
        match list() {
            Err(error) => found.push((path, Err(in_words(&error)))),
            Ok(all) => {
                for (path, kind) in all {
                    if kind.is_dir() {
                        folders.push(path);
                    } else if kind.is_file() {
                        found.push((path, Ok(())));
                    }
                }
            }
        }
    }
    found.sort_by(|a, b| a.0.as_os_str().as_bytes().cmp(b.0.as_os_str().as_bytes()));
    found
}
