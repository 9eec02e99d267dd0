//! A word on standard error about what takes long.

use std::io::IsTerminal;
use std::sync::mpsc::{channel, RecvTimeoutError, Sender};
use std::sync::{Arc, Mutex};
use std::thread::JoinHandle;
use std::time::Duration;

use indicatif::{ProgressBar, ProgressStyle};

/// What is being done, shown after a second where standard error is a terminal.
pub struct Progress {
    what: Arc<Mutex<&'static str>>,
    stop: Option<Sender<()>>,
    thread: Option<JoinHandle<()>>,
}

impl Progress {
    pub fn start() -> Progress {
        let what = Arc::new(Mutex::new(""));
        if !std::io::stderr().is_terminal() {
            return Progress { what, stop: None, thread: None };
        }
        let (stop, stopped) = channel::<()>();
        let shared = Arc::clone(&what);
        let thread = std::thread::spawn(move || {
            let mut bar: Option<ProgressBar> = None;
            let mut wait = Duration::from_secs(1);
            while stopped.recv_timeout(wait) == Err(RecvTimeoutError::Timeout) {
                let bar = bar.get_or_insert_with(|| {
                    let style = ProgressStyle::with_template("{spinner} {msg}, {elapsed}");
                    let bar = ProgressBar::new_spinner();
                    bar.set_style(style.unwrap_or_else(|_| ProgressStyle::default_spinner()));
                    bar
                });
                if let Ok(what) = shared.lock() {
                    bar.set_message(*what);
                }
                bar.tick();
                wait = Duration::from_millis(100);
            }
            if let Some(bar) = bar {
                bar.finish_and_clear();
            }
        });
        Progress { what, stop: Some(stop), thread: Some(thread) }
    }

    /// Says what is done from now on.
    pub fn say(&self, what: &'static str) {
        if let Ok(mut shared) = self.what.lock() {
            *shared = what;
        }
    }

    /// Takes the word away, before something is printed.
    pub fn end(mut self) {
        self.close();
    }

    fn close(&mut self) {
        drop(self.stop.take());
        if let Some(thread) = self.thread.take() {
            let _ = thread.join();
        }
    }
}

impl Drop for Progress {
    fn drop(&mut self) {
        self.close();
    }
}
