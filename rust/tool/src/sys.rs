//! The few calls of the C library that std does not have, and nothing else: all `unsafe` of the tool is here.

use std::ffi::{CStr, CString, OsString};
use std::fs::{File, OpenOptions};
use std::io;
use std::os::raw::{c_char, c_int, c_uint};
use std::os::unix::ffi::{OsStrExt, OsStringExt};
use std::os::unix::io::{AsRawFd, FromRawFd, RawFd};
use std::path::Path;

extern "C" {
    fn linkat(from: c_int, old: *const c_char, to: c_int, new: *const c_char, flags: c_int) -> c_int;
    fn flock(fd: c_int, operation: c_int) -> c_int;
    fn fcntl(fd: c_int, command: c_int, ...) -> c_int;
    fn fchown(fd: c_int, owner: c_uint, group: c_uint) -> c_int;
    fn isatty(fd: c_int) -> c_int;
    fn signal(number: c_int, handler: usize) -> usize;
    fn sigprocmask(how: c_int, set: *const [u64; 16], old: *mut [u64; 16]) -> c_int;
    #[link_name = "umask"]
    fn set_umask(mask: c_uint) -> c_uint;
}

const AT_FDCWD: c_int = -100;
const AT_SYMLINK_FOLLOW: c_int = 0x400;
const LOCK_EX_NB: c_int = 2 | 4;
const F_GETFD: c_int = 1;
const F_DUPFD_CLOEXEC: c_int = 1030;
const SIGXFSZ: c_int = 25;
const SIG_IGN: usize = 1;
pub const ENOENT: i32 = 2;
pub const EEXIST: i32 = 17;
pub const EWOULDBLOCK: i32 = 11;

/// Flags of `open`, of which two differ between Arm and the other machines.
pub const O_NONBLOCK: c_int = 0o4000;
#[cfg(any(target_arch = "aarch64", target_arch = "arm"))]
pub const O_NOFOLLOW: c_int = 0o100_000;
#[cfg(not(any(target_arch = "aarch64", target_arch = "arm")))]
pub const O_NOFOLLOW: c_int = 0o400_000;
#[cfg(any(target_arch = "aarch64", target_arch = "arm"))]
pub const O_TMPFILE: c_int = 0o20_040_000;
#[cfg(not(any(target_arch = "aarch64", target_arch = "arm")))]
pub const O_TMPFILE: c_int = 0o20_200_000;

/// Replaces Rust's own start-up code, which hides that a descriptor is closed, and makes writing to a closed pipe an
/// error.
#[cfg(not(test))]
#[no_mangle]
pub extern "C" fn main(count: c_int, words: *const *const c_char) -> c_int {
    let count = usize::try_from(count).unwrap_or(0);
    // SAFETY: the system hands over as many pointers to words as it says, each ending with 0.
    let word = |at| OsString::from_vec(unsafe { CStr::from_ptr(*words.add(at)) }.to_bytes().to_vec());
    let words: Vec<OsString> = (0..count).map(word).collect();
    stand_in();
    // SAFETY: what passes a limit on file sizes is to be an error that is told, and is no signal then.
    unsafe { signal(SIGXFSZ, SIG_IGN) };
    c_int::from(crate::run(&words))
}

/// Puts a file that nothing can be read from, or written to, in the place of a closed standard input or output, so that
/// the first file that is opened is not taken for it.
fn stand_in() {
    for fd in 0..3 {
        // SAFETY: it asks for a descriptor's flags.
        if unsafe { fcntl(fd, F_GETFD) } == -1 {
            // the lowest descriptor that is free is this one
            let null = OpenOptions::new().read(fd == 1).write(fd != 1).open("/dev/null");
            null.map(std::mem::forget).unwrap_or_default();
        }
    }
}

fn done(answer: c_int) -> io::Result<()> {
    if answer == -1 {
        Err(io::Error::last_os_error())
    } else {
        Ok(())
    }
}

/// Gives an open file, which may have no name yet, a new name. It never replaces a file.
pub fn link(file: &File, to: &Path) -> io::Result<()> {
    let from = CString::new(format!("/proc/self/fd/{}", file.as_raw_fd()))?;
    let to = CString::new(to.as_os_str().as_bytes())?;
    // SAFETY: both are strings that end with 0, and live as long as the call.
    done(unsafe { linkat(AT_FDCWD, from.as_ptr(), AT_FDCWD, to.as_ptr(), AT_SYMLINK_FOLLOW) })
}

/// Whether the lock of a file could be taken, which goes with the last descriptor of this opening.
pub fn lock(file: &File) -> io::Result<bool> {
    // SAFETY: the descriptor is open.
    match done(unsafe { flock(file.as_raw_fd(), LOCK_EX_NB) }) {
        Err(error) if error.raw_os_error() == Some(EWOULDBLOCK) => Ok(false),
        ended => ended.map(|()| true),
    }
}

/// A copy of a descriptor, which shares the place where it reads or writes.
pub fn copy_of(fd: RawFd) -> io::Result<File> {
    // SAFETY: it asks for a new descriptor, at least 3, which is nobody else's.
    let new = unsafe { fcntl(fd, F_DUPFD_CLOEXEC, 3 as c_int) };
    done(new)?;
    // SAFETY: the descriptor is open, and this is its only owner.
    Ok(unsafe { File::from_raw_fd(new) })
}

/// Gives a file to an owner and a group.
pub fn give(file: &File, owner: u32, group: u32) -> io::Result<()> {
    // SAFETY: the descriptor is open.
    done(unsafe { fchown(file.as_raw_fd(), owner, group) })
}

pub fn is_terminal(fd: RawFd) -> bool {
    // SAFETY: it asks about a descriptor, open or not.
    unsafe { isatty(fd) == 1 }
}

/// The permissions that a new file does not get, which are asked for once, before there is any other thread.
pub fn umask() -> u32 {
    // SAFETY: they are numbers, and what was there before is put back.
    unsafe {
        let mask = set_umask(0o077);
        set_umask(mask);
        mask
    }
}

/// Blocks HUP, INT and TERM from now on: the rest is short, and would leave a file behind if interrupted.
pub fn hold_signals() {
    let set = [1 | 1 << 1 | 1 << 14, 0, 0, 0, 0, 0, 0, 0, 0, 0, 0, 0, 0, 0, 0, 0];
    // SAFETY: a set of signals has 128 bytes, of which a bit stands for each signal from 1 on; nothing is handed back.
    unsafe { sigprocmask(0, &set, std::ptr::null_mut()) };
}

/// Overwrites bytes. The compiler cannot leave that out, since for all that it knows the empty assembly reads them.
pub fn wipe(bytes: &mut [u8]) {
    bytes.fill(0);
    // SAFETY: there is no instruction in it.
    unsafe { std::arch::asm!("/* {0} */", in(reg) bytes.as_ptr(), options(nostack, preserves_flags)) };
}

#[cfg(test)]
mod tests {
    #[test]
    fn every_byte_is_wiped() {
        for length in 0..40 {
            for start in 0..8.min(length + 1) {
                let mut bytes = vec![7; length];
                super::wipe(&mut bytes[start..]);
                assert!(bytes[..start].iter().all(|byte| *byte == 7));
                assert!(bytes[start..].iter().all(|byte| *byte == 0));
            }
        }
    }
}
