//! A watch on calls: one that does not come back is noticed.
use std::sync::{Arc, Mutex};
use std::thread;
use std::time::{Duration, Instant};

/// How long a call may take; the slowest takes some hundredths of a second.
pub const LONGEST: Duration = Duration::from_secs(60);

/// When the present call began, and what it is.
type Present = Mutex<Option<(Instant, String)>>;

pub struct Watch(Arc<Present>);

impl Watch {
    /// A watch that tells `late`, once, which call takes longer than this.
    pub fn new(longest: Duration, late: impl FnOnce(&str) + Send + 'static) -> Watch {
        let present: Arc<Present> = Arc::default();
        let seen = Arc::downgrade(&present);
        thread::spawn(move || loop {
            thread::sleep(longest / 20);
            // Without a watch there is nothing to look at any more.
            let Some(present) = seen.upgrade() else { return };
            if let Some(name) = overdue(&present, longest) {
                return late(&name);
            }
        });
        Watch(present)
    }

    /// A watch that ends the process, as a failure.
    pub fn ending() -> Watch {
        Watch::new(LONGEST, |name| {
            println!("FAILED {name}: not back after {} s\n0 passed, 1 failed", LONGEST.as_secs());
            std::process::exit(1);
        })
    }

    pub fn during<T>(&self, name: String, call: impl FnOnce() -> T) -> T {
        self.note(Some((Instant::now(), name)));
        let answer = call();
        self.note(None);
        answer
    }

    fn note(&self, call: Option<(Instant, String)>) {
        *self.0.lock().expect("nobody panics with it") = call;
    }
}

fn overdue(present: &Present, longest: Duration) -> Option<String> {
    let call = present.lock().expect("nobody panics with it");
    call.as_ref().filter(|(began, _)| began.elapsed() > longest).map(|(_, name)| name.clone())
}
