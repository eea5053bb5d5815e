//! A line on standard error for work that takes longer than a second, if that is a terminal.

use crate::status::complain;
use crate::words;
use std::ffi::OsStr;
use std::io::{self, IsTerminal};
use std::sync::atomic::{AtomicU64, Ordering};
use std::sync::mpsc::{self, Receiver, RecvTimeoutError, Sender};
use std::sync::Arc;
use std::thread::{self, JoinHandle};
use std::time::Duration;

const PERIOD: Duration = Duration::from_secs(1);
const ERASE_LINE: &[u8] = b"\r\x1b[K";

/// The line, which is gone when this is dropped.
pub struct Progress {
    done: Arc<AtomicU64>,
    /// The thread that draws the line, and what tells it to end.
    drawer: Option<(Sender<()>, JoinHandle<()>)>,
}

impl Progress {
    /// Begins to watch the reading of `name`.
    pub fn start(name: &OsStr) -> Progress {
        let done = Arc::new(AtomicU64::new(0));
        let drawer = io::stderr().is_terminal().then(|| {
            let (sender, receiver) = mpsc::channel();
            let (count, name) = (done.clone(), words::shown(name));
            let drawing = move || draw(&name, &count, &receiver);
            let thread = thread::Builder::new().spawn(drawing);
            thread.ok().map(|thread| (sender, thread))
        });
        Progress {
            done,
            drawer: drawer.flatten(),
        }
    }

    /// So many bytes more are done.
    pub fn add(&self, count: usize) {
        self.done.fetch_add(count as u64, Ordering::Relaxed);
    }
}

fn draw(name: &[u8], done: &AtomicU64, end: &Receiver<()>) {
    let mut drawn = false;
    while end.recv_timeout(PERIOD) == Err(RecvTimeoutError::Timeout) {
        let count = done.load(Ordering::Relaxed);
        let text = format!(": {count} bytes read");
        complain(&[ERASE_LINE, name, text.as_bytes()].concat());
        drawn = true;
    }
    if drawn {
        complain(ERASE_LINE);
    }
}

impl Drop for Progress {
    fn drop(&mut self) {
        if let Some((sender, thread)) = self.drawer.take() {
            drop(sender);
            let _ = thread.join();
        }
    }
}
