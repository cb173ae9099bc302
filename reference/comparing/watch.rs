//! Ends a run in which a file gets no answer: a search that goes wrong may have no end.

use std::process;
use std::sync::{Arc, Mutex};
use std::thread;
use std::time::{Duration, Instant};

const LONGEST: Duration = Duration::from_secs(60);

/// Shares with a thread of its own what to say if the file at hand is never done.
pub struct Watch {
    at_hand: Arc<Mutex<Option<(String, Instant)>>>,
}

impl Watch {
    pub fn start() -> Watch {
        let at_hand = Arc::new(Mutex::new(None));
        let watched = Arc::clone(&at_hand);
        thread::spawn(move || loop {
            thread::sleep(Duration::from_secs(1));
            end_if_late(&watched);
        });
        Watch { at_hand }
    }

    /// A new file is at hand.
    pub fn begin(&self, last_words: String) {
        *self.at_hand.lock().unwrap() = Some((last_words, Instant::now()));
    }

    /// No file is at hand.
    pub fn rest(&self) {
        *self.at_hand.lock().unwrap() = None;
    }
}

fn end_if_late(at_hand: &Mutex<Option<(String, Instant)>>) {
    match &*at_hand.lock().unwrap() {
        Some((last_words, since)) if since.elapsed() > LONGEST => {
            println!("{last_words}");
            process::exit(1);
        }
        _ => {}
    }
}
