//! Standard output that says when it can't be written to, and standard error behind it.

use crate::input::in_words;
use std::fs::File;
use std::io::{self, Write};
use std::os::fd::AsFd;
use std::sync::atomic::{AtomicBool, Ordering};

/// Was standard output closed when the program began? Rust opens /dev/null in its place before main, and then nobody would hear that all lines are
/// lost. What .init_array names is called before that.
static CLOSED: AtomicBool = AtomicBool::new(false);

extern "C" {
    fn fcntl(fd: i32, command: i32, ...) -> i32;
}

extern "C" fn look() {
    const F_GETFD: i32 = 1;
    CLOSED.store(unsafe { fcntl(1, F_GETFD) } == -1, Ordering::Relaxed);
}

#[used]
#[link_section = ".init_array"]
static LOOK: extern "C" fn() = look;

/// What can't be written is said on standard error, but for a reader that went away; either way the exit status is 2.
pub struct Output {
    file: File,
}

impl Output {
    pub fn new() -> Result<Output, i32> {
        if CLOSED.load(Ordering::Relaxed) {
            say("standard output: it is closed");
            return Err(2);
        }
        match io::stdout().as_fd().try_clone_to_owned() {
            Ok(fd) => Ok(Output { file: File::from(fd) }),
            Err(error) => Err(failed(&error)),
        }
    }

    /// All of it, at once: nothing waits in a buffer.
    pub fn write(&mut self, bytes: &[u8]) -> Result<(), i32> {
        self.file.write_all(bytes).map_err(|error| failed(&error))
    }
}

fn failed(error: &io::Error) -> i32 {
    if error.kind() != io::ErrorKind::BrokenPipe {
        say(&format!("standard output: {}", in_words(error)));
    }
    2
}

/// A line on standard error; if nobody can be told, nothing more can be done.
pub fn say(line: &str) {
    let _ = io::stderr().write_all(format!("{line}\n").as_bytes());
}

/// The words for a command line that can't be obeyed.
pub fn misused(program: &str, what: &str, usage: &str) -> i32 {
    say(&format!("{program}: {what}\n{usage}{program} --help says what the options do."));
    2
}

/// For an exit before anything is read.
pub fn print_and_end(text: &str) -> i32 {
    match Output::new().and_then(|mut out| out.write(text.as_bytes())) {
        Ok(()) => 0,
        Err(status) => status,
    }
}
