//! A line on the terminal while work takes longer than a second, and messages beside it. Where standard error is no terminal
//! there is no such line.
use std::io::{self, IsTerminal, Write};
use std::sync::atomic::{AtomicUsize, Ordering::Relaxed};
use std::sync::mpsc::{channel, Receiver, RecvTimeoutError, Sender};
use std::thread::{spawn, JoinHandle};
use std::time::{Duration, Instant};

/// How many of many files are done, and how many there are; 0 where there is one.
static DONE: AtomicUsize = AtomicUsize::new(0);
static ALL: AtomicUsize = AtomicUsize::new(0);

/// To the start of the line, and all of it gone.
const CLEAR: &str = "\r\x1b[K";

/// The line is there until this is dropped.
pub struct Progress {
    stop: Option<Sender<()>>,
    thread: Option<JoinHandle<()>>,
}

pub fn start(name: &'static str) -> Progress {
    if !io::stderr().is_terminal() {
        return Progress { stop: None, thread: None };
    }
    let (stop, stopped) = channel();
    Progress { stop: Some(stop), thread: Some(spawn(move || show(name, &stopped))) }
}

impl Drop for Progress {
    fn drop(&mut self) {
        self.stop = None;
        // The thread shows a line and no more; that it failed would be no news.
        let _ = self.thread.take().map(JoinHandle::join);
    }
}

fn show(name: &str, stopped: &Receiver<()>) {
    let start = Instant::now();
    let mut shown = false;
    while stopped.recv_timeout(Duration::from_secs(1)) == Err(RecvTimeoutError::Timeout) {
        let files = match ALL.load(Relaxed) {
            0 => String::new(),
            all => format!(", {} of {all} files", DONE.load(Relaxed)),
        };
        put(&format!("{CLEAR}corbel {name}: {} s{files}", start.elapsed().as_secs()));
        shown = true;
    }
    if shown {
        put(CLEAR);
    }
}

/// There are so many files to be done.
pub fn all(files: usize) {
    ALL.store(files, Relaxed);
}

/// One more is done.
pub fn done() {
    DONE.fetch_add(1, Relaxed);
}

/// A message, in the place of the line where there is one.
pub fn say(text: &str) {
    put(&format!("{}{text}\n", if io::stderr().is_terminal() { CLEAR } else { "" }));
}

/// What cannot be said on standard error cannot be said at all.
fn put(text: &str) {
    let _ = io::stderr().write_all(text.as_bytes());
}
