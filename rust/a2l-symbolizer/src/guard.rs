//! Calls of code that reads strangers' bytes and might panic: a panic there is no answer, and ends
//! nothing.

use std::panic::{catch_unwind, AssertUnwindSafe};

/// The result of a call; none where it panics. What the call was changing isn't used after that.
pub fn guarded<T>(call: impl FnOnce() -> T) -> Option<T> {
    catch_unwind(AssertUnwindSafe(call)).ok()
}

/// From now on a panic is no line on standard error, which stands in the middle of a client's
/// report.
pub fn silence_panics() {
    std::panic::set_hook(Box::new(|_| {}));
}
