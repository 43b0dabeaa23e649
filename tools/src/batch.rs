//! Many jobs, by several threads, with the answers taken in the order of the jobs; and how far it has come, on a terminal.

use std::collections::VecDeque;
use std::io::{self, IsTerminal, Write};
use std::sync::{Condvar, Mutex, MutexGuard, PoisonError};
use std::time::{Duration, Instant};

struct State<A> {
    /// The next job to be begun, and the next whose answer is to be taken.
    next: usize,
    taken: usize,
    /// Answers from `taken` on.
    ready: VecDeque<Option<A>>,
    /// Is a thread taking answers? Threads that are too far ahead of it wait.
    taking: bool,
    waiting: usize,
    end: Result<(), i32>,
}

impl<A> State<A> {
    fn next_ready(&mut self) -> Option<A> {
        self.ready.front().filter(|answer| answer.is_some())?;
        self.taken += 1;
        self.ready.pop_front().flatten()
    }
}

fn lock<S>(mutex: &Mutex<S>) -> MutexGuard<'_, S> {
    mutex.lock().unwrap_or_else(PoisonError::into_inner)
}

/// Does `work` for each job, with a `room` for each thread, and hands the answers to `take` in the order of the jobs, each as soon as all before it
/// are taken. Ends early if `take` gives an error.
pub fn run<J, R, A, T>(
    jobs: &[J],
    threads: usize,
    room: impl Fn() -> R + Sync,
    work: impl Fn(&mut R, &J) -> A + Sync,
    take: T,
) -> Result<(), i32>
where
    J: Sync,
    A: Send,
    T: FnMut(A) -> Result<(), i32> + Send,
{
    // No thread gets so far ahead that answers pile up behind a slow file.
    let ahead = 64 * threads;
    let state = Mutex::new(State { next: 0, taken: 0, ready: VecDeque::new(), taking: false, waiting: 0, end: Ok(()) });
    let take = Mutex::new(take);
    let moved = Condvar::new();
    let worker = || {
        let mut room = room();
        let mut guard = lock(&state);
        loop {
            while guard.next >= guard.taken + ahead && guard.end.is_ok() {
                guard.waiting += 1;
                guard = moved.wait(guard).unwrap_or_else(PoisonError::into_inner);
                guard.waiting -= 1;
            }
            let number = guard.next;
            let Some(job) = jobs.get(number).filter(|_| guard.end.is_ok()) else { return };
            guard.next += 1;
            guard.ready.push_back(None);
            drop(guard);
            let answer = work(&mut room, job);
            guard = lock(&state);
            let at = number - guard.taken;
            guard.ready[at] = Some(answer);
            if guard.taking {
                continue;
            }
            // Whoever finds an answer that is due takes all that are, while the others go on.
            guard.taking = true;
            while let Some(answer) = guard.next_ready() {
                if guard.waiting > 0 {
                    moved.notify_all();
                }
                if guard.end.is_ok() {
                    drop(guard);
                    let end = lock(&take)(answer);
                    guard = lock(&state);
                    guard.end = guard.end.and(end);
                }
            }
            guard.taking = false;
        }
    };
    std::thread::scope(|scope| {
        for _ in 1..threads {
            // what can't be started is done by the others
            let _ = std::thread::Builder::new().stack_size(8 << 20).spawn_scoped(scope, &worker);
        }
        worker();
    });
    let end = lock(&state).end;
    end
}

/// How many of all files are judged, on standard error if that is a terminal, from two seconds on.
pub struct Progress {
    total: usize,
    state: Mutex<Shown>,
    wake: Condvar,
}

struct Shown {
    done: usize,
    is_shown: bool,
    ended: bool,
}

impl Progress {
    pub fn new(total: usize) -> Progress {
        Progress { total, state: Mutex::new(Shown { done: 0, is_shown: false, ended: false }), wake: Condvar::new() }
    }

    /// Does `body` with the number of files done beside it.
    pub fn during<V>(&self, body: impl FnOnce() -> V) -> V {
        if !io::stderr().is_terminal() {
            return body();
        }
        std::thread::scope(|scope| {
            scope.spawn(|| self.show());
            let value = body();
            let mut shown = lock(&self.state);
            self.wipe(&mut shown);
            shown.ended = true;
            self.wake.notify_all();
            value
        })
    }

    fn show(&self) {
        let start = Instant::now();
        let mut shown = lock(&self.state);
        while !shown.ended {
            let pause = if start.elapsed() < Duration::from_secs(2) { Duration::from_secs(2) } else { Duration::from_millis(500) };
            shown = self.wake.wait_timeout(shown, pause).unwrap_or_else(PoisonError::into_inner).0;
            if !shown.ended {
                let line = format!("\r{} of {} files, {} s\x1b[K", shown.done, self.total, start.elapsed().as_secs());
                shown.is_shown = io::stderr().write_all(line.as_bytes()).is_ok();
            }
        }
    }

    fn wipe(&self, shown: &mut Shown) {
        if shown.is_shown {
            let _ = io::stderr().write_all(b"\r\x1b[K");
            shown.is_shown = false;
        }
    }

    /// A file is done; `lines` prints what is to be said of it, where the number stood.
    pub fn done<V>(&self, lines: impl FnOnce() -> V) -> V {
        let mut shown = lock(&self.state);
        shown.done += 1;
        self.wipe(&mut shown);
        lines()
    }
}
