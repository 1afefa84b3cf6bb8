//! What happens where bytes of a mapped file are read that are there no more.

use std::io;

/// From now on, where this process reads bytes of a mapped file that another process has cut off,
/// it writes a message to standard error and ends with a status. Without this the signal SIGBUS
/// ends it, without a message.
pub fn end_where_cut_off(message: &'static str, status: i32) -> io::Result<()> {
    let end = move || {
        // SAFETY: both calls may be made in a handler of a signal. The message is there for as long
        // as the process.
        unsafe {
            libc::write(libc::STDERR_FILENO, message.as_ptr().cast(), message.len());
            libc::_exit(status)
        }
    };
    // SAFETY: the action calls only what may be called in a handler of a signal.
    unsafe { signal_hook_registry::register(libc::SIGBUS, end) }.map(drop)
}
