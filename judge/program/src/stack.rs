//! Room for deep trees.

use std::thread;

/// Trees grow as deep as a source is long, and are walked by plain calls.
const SIZE: usize = 1 << 29;

/// Runs `work` where the deepest tree can be walked.
pub fn large<T: Send + 'static>(work: impl FnOnce() -> T + Send + 'static) -> T {
    let worker = thread::Builder::new().stack_size(SIZE).spawn(work);
    worker.expect("a thread can be had").join().expect("the work has stopped")
}
