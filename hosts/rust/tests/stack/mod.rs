//! A stack that is large enough for the library.

use std::thread;

/// A test's own thread has 2 MiB, and a call may take nearly all of it.
const STACK: usize = 16 << 20;

pub fn on_a_large_stack<Outcome: Send + 'static>(
    work: impl FnOnce() -> Outcome + Send + 'static,
) -> Outcome {
    let working = thread::Builder::new().stack_size(STACK).spawn(work);
    let working = working.expect("a thread can be started");
    working.join().expect("the work comes to an end")
}
