//! The few calls of the C library that std does not have, and nothing else: all `unsafe` of the opener is here.

use std::fs::File;
use std::io;
use std::os::raw::c_int;
use std::os::unix::io::AsRawFd;

/// A set of signals has 128 bytes, of which a bit stands for each signal from 1 on.
type Signals = [u64; 16];

extern "C" {
    fn flock(fd: c_int, operation: c_int) -> c_int;
    fn sigprocmask(how: c_int, set: *const Signals, old: *mut Signals) -> c_int;
    fn sigwait(set: *const Signals, signal: *mut c_int) -> c_int;
}

const LOCK_EX_NB: c_int = 2 | 4;
const SIG_BLOCK: c_int = 0;
/// SIGHUP, which is signal 1.
const HANG_UP: Signals = [1, 0, 0, 0, 0, 0, 0, 0, 0, 0, 0, 0, 0, 0, 0, 0];

/// A flag of `open`: nothing that is no file is waited for.
pub const O_NONBLOCK: c_int = 0o4000;

/// Takes the lock of a file, which goes with the process. It is an error where another process has it.
pub fn lock(file: &File) -> io::Result<()> {
    // SAFETY: the descriptor is open.
    match unsafe { flock(file.as_raw_fd(), LOCK_EX_NB) } {
        0 => Ok(()),
        _ => Err(io::Error::last_os_error()),
    }
}

/// Has SIGHUP wait for [`hang_up`], in this thread and in those that it starts.
pub fn hold_hang_up() {
    // SAFETY: the set lives as long as the call, and nothing is handed back.
    unsafe { sigprocmask(SIG_BLOCK, &HANG_UP, std::ptr::null_mut()) };
}

/// Waits for SIGHUP, which is held. It is false where that cannot be waited for.
pub fn hang_up() -> bool {
    let mut signal = 0;
    // SAFETY: both live as long as the call.
    unsafe { sigwait(&HANG_UP, &mut signal) == 0 }
}
