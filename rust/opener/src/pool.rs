//! A pool of threads for connections, and permits that limit work which takes memory and time.

use crate::log;
use std::os::unix::net::{UnixListener, UnixStream};
use std::sync::atomic::{AtomicUsize, Ordering};
use std::sync::{Arc, Condvar, Mutex, PoisonError};
use std::thread;
use std::time::{Duration, Instant};

/// How many threads wait for a connection before one that has done its work ends.
const SPARE: usize = 8;

/// So many at a time, and no more.
pub struct Permits {
    free: Mutex<usize>,
    freed: Condvar,
}

pub struct Permit<'a>(&'a Permits);

impl Permits {
    pub fn new(free: usize) -> Permits {
        Permits { free: Mutex::new(free), freed: Condvar::new() }
    }

    /// A permit, for as long as it is held, or none by the deadline.
    pub fn take(&self, until: Instant) -> Option<Permit<'_>> {
        let free = self.free.lock().unwrap_or_else(PoisonError::into_inner);
        let left = until.saturating_duration_since(Instant::now());
        let waited = self.freed.wait_timeout_while(free, left, |free| *free == 0);
        let (mut free, _) = waited.unwrap_or_else(PoisonError::into_inner);
        *free = free.checked_sub(1)?;
        Some(Permit(self))
    }
}

impl Drop for Permit<'_> {
    fn drop(&mut self) {
        *self.0.free.lock().unwrap_or_else(PoisonError::into_inner) += 1;
        self.0.freed.notify_one();
    }
}

/// Threads that each take a connection, answer it, and take the next. Whenever none waits, one more is started, up to
/// `most`: so many connections there are at a time, and others wait in the system's queue.
pub struct Pool<F> {
    listener: UnixListener,
    most: usize,
    all: AtomicUsize,
    idle: AtomicUsize,
    serve: F,
}

impl<F: Fn(UnixStream) + Send + Sync + 'static> Pool<F> {
    pub fn start(listener: UnixListener, most: usize, serve: F) -> Arc<Pool<F>> {
        let pool = Arc::new(Pool { listener, most, all: AtomicUsize::new(0), idle: AtomicUsize::new(0), serve });
        pool.start_one();
        pool
    }

    fn start_one(self: &Arc<Pool<F>>) {
        if self.all.fetch_add(1, Ordering::SeqCst) < self.most {
            // it waits from now on, so that nobody starts another for its sake
            self.idle.fetch_add(1, Ordering::SeqCst);
            let pool = self.clone();
            match thread::Builder::new().stack_size(1 << 19).spawn(move || pool.work()) {
                Ok(_) => return,
                Err(error) => {
                    self.idle.fetch_sub(1, Ordering::SeqCst);
                    log(&format!("cannot start a thread: {error}"));
                }
            }
        }
        self.all.fetch_sub(1, Ordering::SeqCst);
    }

    fn work(self: &Arc<Pool<F>>) {
        loop {
            match self.listener.accept() {
                Ok((stream, _)) => {
                    self.wait_no_more();
                    (self.serve)(stream);
                    if self.idle.fetch_add(1, Ordering::SeqCst) >= SPARE {
                        break;
                    }
                }
                // no descriptors, or a client that has gone
                Err(_) => thread::sleep(Duration::from_millis(10)),
            }
        }
        self.all.fetch_sub(1, Ordering::SeqCst);
        self.wait_no_more();
    }

    /// A thread that was the last to wait has another wait in its place.
    fn wait_no_more(self: &Arc<Pool<F>>) {
        if self.idle.fetch_sub(1, Ordering::SeqCst) == 1 {
            self.start_one();
        }
    }
}

#[cfg(test)]
mod tests {
    use super::*;
    use crate::files::tests::Folder;
    use std::io::{Read, Write};

    #[test]
    fn permits_are_given_back() {
        let permits = Permits::new(2);
        let now = Instant::now();
        let (a, b) = (permits.take(now), permits.take(now));
        assert!(a.is_some() && b.is_some() && permits.take(now).is_none());
        drop(a);
        assert!(permits.take(now).is_some());
    }

    #[test]
    fn a_permit_is_waited_for() {
        let permits = Permits::new(1);
        let held = permits.take(Instant::now());
        thread::scope(|scope| {
            let waits = scope.spawn(|| permits.take(Instant::now() + Duration::from_secs(60)).is_some());
            drop(held);
            assert!(waits.join().unwrap());
        });
    }

    #[test]
    fn silent_connections_are_in_nobodys_way() {
        let folder = Folder::new();
        let socket = folder.0.join("socket");
        let listener = UnixListener::bind(&socket).unwrap();
        let echo = |mut stream: UnixStream| {
            let mut byte = [0];
            if stream.read_exact(&mut byte).is_ok() {
                let _ = stream.write_all(&byte);
            }
        };
        let pool = Pool::start(listener, 40, echo);
        let ask = || {
            let mut stream = UnixStream::connect(&socket).unwrap();
            stream.write_all(b"x").unwrap();
            let mut answer = Vec::new();
            stream.read_to_end(&mut answer).unwrap();
            answer == b"x"
        };
        let silent: Vec<UnixStream> = (0..30).map(|_| UnixStream::connect(&socket).unwrap()).collect();
        for _ in 0..50 {
            assert!(ask());
        }
        assert!(pool.all.load(Ordering::SeqCst) <= 40);
        drop(silent);
        thread::scope(|scope| {
            for _ in 0..60 {
                scope.spawn(|| assert!(ask()));
            }
        });
        assert!(ask());
    }
}
