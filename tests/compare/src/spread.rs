//! Many cases over two threads, until one disagrees.

use std::any::Any;
use std::panic::{catch_unwind, AssertUnwindSafe};
use std::sync::atomic::{AtomicU64, Ordering};
use std::sync::Mutex;
use std::thread;

use crate::checks::{Disagreement, Verdict};
use crate::tally::Tally;

const THREADS: usize = 2;

/// The first case found that disagrees.
pub struct Failure {
    pub case: u64,
    pub disagreement: Disagreement,
}

/// Works through cases 0 to `cases` - 1, each on its own, in any order.
pub fn spread(
    cases: u64,
    work: impl Fn(u64, &mut Tally) -> Verdict + Sync,
) -> Result<Tally, Failure> {
    let next = AtomicU64::new(0);
    let failure = Mutex::new(None);
    let total = Mutex::new(Tally::default());
    thread::scope(|scope| {
        for _ in 0..THREADS {
            scope.spawn(|| {
                let mut tally = Tally::default();
                if let Some(found) = work_through(&next, cases, &work, &mut tally) {
                    // Nobody begins another case once one has failed.
                    next.store(cases, Ordering::Relaxed);
                    failure
                        .lock()
                        .expect("no thread panics")
                        .get_or_insert(found);
                }
                total.lock().expect("no thread panics").add(&tally);
            });
        }
    });
    match failure.into_inner().expect("no thread panics") {
        Some(found) => Err(found),
        None => Ok(total.into_inner().expect("no thread panics")),
    }
}

fn work_through(
    next: &AtomicU64,
    cases: u64,
    work: &impl Fn(u64, &mut Tally) -> Verdict,
    tally: &mut Tally,
) -> Option<Failure> {
    loop {
        let case = next.fetch_add(1, Ordering::Relaxed);
        if case >= cases {
            return None;
        }
        if let Err(disagreement) = guarded(|| work(case, tally)) {
            return Some(Failure { case, disagreement });
        }
    }
}

/// A panic inside a case is a disagreement of that case, not the end of a run
/// whose case nobody knows.
pub fn guarded<T>(work: impl FnOnce() -> Result<T, Disagreement>) -> Result<T, Disagreement> {
    catch_unwind(AssertUnwindSafe(work)).unwrap_or_else(|panic| {
        Err(Disagreement::without_file(format!(
            "a panic: {}",
            message(panic.as_ref())
        )))
    })
}

fn message(panic: &(dyn Any + Send)) -> &str {
    let owned = panic.downcast_ref::<String>().map(String::as_str);
    let fixed = panic.downcast_ref::<&str>().copied();
    owned.or(fixed).unwrap_or("without a message")
}
