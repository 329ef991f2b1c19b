//! Counting of passes and failures, and the parts of a run on all processors.

use std::collections::BTreeMap;
use std::fmt::Write;
use std::panic::{catch_unwind, AssertUnwindSafe};
use std::sync::atomic::{AtomicUsize, Ordering};
use std::sync::mpsc;
use std::time::{Duration, Instant};

/// At most this many failures of a part are told in full.
const SHOWN: u64 = 10;

/// How many inputs were of each of N kinds.
pub struct Counts<const N: usize>([usize; N]);

impl<const N: usize> Default for Counts<N> {
    fn default() -> Self {
        Counts([0; N])
    }
}

impl<const N: usize> Counts<N> {
    /// Counts an input that is of these kinds.
    pub fn add(&mut self, kinds: [bool; N]) {
        for (count, is) in self.0.iter_mut().zip(kinds) {
            *count += usize::from(is);
        }
    }

    /// Tells the counts; every kind that is due must have been met.
    pub fn check(
        &self,
        tally: &mut Tally,
        what: &str,
        names: [&str; N],
        due: impl Fn(usize) -> bool,
    ) {
        tally.note(what);
        for (kind, (count, name)) in self.0.iter().zip(names).enumerate() {
            tally.note(&format!("{count:6} {name}"));
            tally.check(*count > 0 || !due(kind), || format!("{what}: never {name}"));
        }
    }
}

#[derive(Default)]
pub struct Tally {
    pub passed: u64,
    pub failed: u64,
    text: String,
}

impl Tally {
    /// Counts one case; the description is made only for a failure.
    pub fn check(&mut self, good: bool, describe: impl FnOnce() -> String) {
        if good {
            self.passed += 1;
            return;
        }
        self.failed += 1;
        if self.failed <= SHOWN {
            self.line(&format!("FAILED: {}", describe()));
        }
    }

    /// A line that is printed with the part.
    pub fn note(&mut self, text: &str) {
        self.line(&format!("  {text}"));
    }

    fn line(&mut self, text: &str) {
        let _ = writeln!(self.text, "{text}");
    }
}

/// One part of the tests.
pub struct Part<'a> {
    pub name: &'static str,
    pub run: Box<dyn Fn(&mut Tally) + Sync + 'a>,
}

impl Part<'_> {
    /// Runs the part; its passes and its time are the last line of its text. A panic is one failure.
    fn tally(&self) -> Tally {
        let (start, used) = (Instant::now(), processor_time());
        let mut tally = Tally::default();
        if catch_unwind(AssertUnwindSafe(|| (self.run)(&mut tally))).is_err() {
            tally.failed += 1;
        }
        let used = processor_time().saturating_sub(used).as_secs_f64();
        let text = format!(
            "{}: {} passed, {} failed, {:.2} s, {used:.2} s of a processor",
            self.name,
            tally.passed,
            tally.failed,
            start.elapsed().as_secs_f64(),
        );
        tally.line(&text);
        tally
    }
}

/// What this thread has used of a processor; nothing where the system does not tell.
fn processor_time() -> Duration {
    let told = std::fs::read_to_string("/proc/thread-self/schedstat").unwrap_or_default();
    let first = told.split(' ').next().and_then(|word| word.parse().ok());
    Duration::from_nanos(first.unwrap_or(0))
}

/// Runs the parts on all processors, in the order of the list, and prints them in that order.
pub fn run(parts: &[Part]) -> Tally {
    let threads = std::thread::available_parallelism().map_or(1, usize::from);
    let next = AtomicUsize::new(0);
    let (sender, receiver) = mpsc::channel();
    let mut whole = Tally::default();
    std::thread::scope(|scope| {
        for _ in 0..threads {
            let (sender, next) = (sender.clone(), &next);
            scope.spawn(move || loop {
                let at = next.fetch_add(1, Ordering::Relaxed);
                let Some(part) = parts.get(at) else {
                    return;
                };
                sender.send((at, part.tally())).expect("they are received");
            });
        }
        drop(sender);
        print_in_order(receiver, &mut whole);
    });
    whole
}

/// Prints what comes, each part when those before it are printed, and adds it up.
fn print_in_order(receiver: mpsc::Receiver<(usize, Tally)>, whole: &mut Tally) {
    let mut waiting = BTreeMap::new();
    let mut printed = 0;
    for (at, tally) in receiver {
        waiting.insert(at, tally);
        while let Some(tally) = waiting.remove(&printed) {
            print!("{}", tally.text);
            whole.passed += tally.passed;
            whole.failed += tally.failed;
            printed += 1;
        }
    }
}
