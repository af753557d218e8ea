//! Cases in turn, on so many threads.

use std::sync::atomic::{AtomicU64, Ordering};
use std::time::{Duration, Instant};

/// How often the progress is said.
const PAUSE: Duration = Duration::from_secs(10);

/// Runs the cases below `count` and hands back what each thread found. `one` runs a case and says how many of its runs differ; `what` are the cases in words.
pub fn run<T: Default + Send>(
    count: u64,
    threads: u64,
    what: &str,
    one: impl Fn(u64, &mut T) -> usize + Sync,
) -> Vec<T> {
    let (next, differ) = (AtomicU64::new(0), AtomicU64::new(0));
    let turns = || {
        let mut found = T::default();
        loop {
            let case = next.fetch_add(1, Ordering::Relaxed);
            if case >= count {
                return found;
            }
            let parted = one(case, &mut found);
            differ.fetch_add(parted as u64, Ordering::Relaxed);
        }
    };
    std::thread::scope(|scope| {
        let threads: Vec<_> = (0..threads.max(1)).map(|_| scope.spawn(turns)).collect();
        watch(count, &next, &differ, what);
        let found = threads.into_iter().map(|t| t.join());
        found.collect::<Result<_, _>>().expect("no thread failed")
    })
}

/// Says how far the threads are until they are done.
fn watch(count: u64, next: &AtomicU64, differ: &AtomicU64, what: &str) {
    let start = Instant::now();
    let mut said = start;
    while next.load(Ordering::Relaxed) < count {
        std::thread::sleep(Duration::from_millis(100));
        if said.elapsed() >= PAUSE {
            said = Instant::now();
            let done = next.load(Ordering::Relaxed).min(count);
            let differ = differ.load(Ordering::Relaxed);
            let seconds = start.elapsed().as_secs();
            eprintln!("{done} of {count} {what}, {differ} runs differ, {seconds} s");
        }
    }
}
