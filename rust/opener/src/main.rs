//! `luossavin-opener`: shows transcripts behind nginx. The cache behind it holds sealed files; for every request it
//! asks which edition is current, opens the file under that edition's label, and shows the text, or says that nothing
//! is shown.
//!
//! This program is not proved. The library decides what opens under which label; `host/morning` tests the rest.

#![deny(unsafe_code)]

mod current;
mod files;
mod keys;
mod opener;
mod options;
mod pool;
mod scgi;
mod seen;
#[allow(unsafe_code)]
mod sys;
mod upstream;

use current::Current;
use files::Timed;
use keys::Keys;
use opener::{Answer, Body, Opener, Room, LONGEST};
use options::Options;
use pool::{Permits, Pool};
use scgi::{Method, Request};
use seen::Seen;
use std::cell::RefCell;
use std::ffi::OsString;
use std::fs;
use std::io::{self, BufReader, ErrorKind, Read, Write};
use std::os::unix::fs::{FileTypeExt, MetadataExt};
use std::os::unix::net::{UnixListener, UnixStream};
use std::path::Path;
use std::sync::{Arc, PoisonError, RwLock};
use std::thread;
use std::time::{Duration, Instant};

/// How long nginx may take to hand over a request, and to take an answer.
const REQUEST: Duration = Duration::from_secs(2);
const ANSWER: Duration = Duration::from_secs(10);

/// How long a sealed file may take to come.
const PATIENCE: Duration = Duration::from_secs(5);

/// How many requests there are at a time. Others wait in the system's queue.
const CONNECTIONS: usize = 128;

/// How often the shelf is read where nobody asks.
const WATCH: Duration = Duration::from_secs(1);

/// The statuses that the opener ends with, which are the tool's.
const USAGE: i32 = 64;
const FILES: i32 = 66;

/// Writes a line to the log. Errors are ignored: there is nowhere to report them.
fn log(text: &str) {
    let _ = io::stderr().write_all(format!("luossavin-opener: {text}\n").as_bytes());
}

fn main() {
    let words: Vec<OsString> = std::env::args_os().skip(1).collect();
    match words.first().and_then(|word| word.to_str()) {
        Some("--help" | "-h" | "help") => return print!("{}", include_str!("../help.txt")),
        Some("--version") => return println!("luossavin-opener {}", env!("CARGO_PKG_VERSION")),
        _ => {}
    }
    let ended = match Options::read(&words) {
        Err(why) => Err((USAGE, format!("{why}\nFor an example: luossavin-opener --help"))),
        Ok(options) if options.is_check => check(&options).map_err(|why| (FILES, why)),
        Ok(options) => run(options).map_err(|why| (FILES, why)),
    };
    if let Err((status, why)) = ended {
        log(&why);
        std::process::exit(status);
    }
}

/// Reads the keys and the shelf, and says what they are.
fn check(options: &Options) -> Result<(), String> {
    let keys = Keys::read(&options.keys)?.told();
    let bytes = files::read(&options.shelf, luossavin::shelf::LARGEST)?;
    let shelf = luossavin::shelf::Shelf::load(&bytes, bytes.len()).map_err(|refusal| refusal.to_string())?;
    println!("keys: {keys}\njobs: {}", luossavin::reference::current(&shelf).count());
    Ok(())
}

fn run(options: Options) -> Result<(), String> {
    sys::hold_hang_up();
    if fs::metadata("/proc/self").map_or(false, |about| about.uid() == 0) {
        log("warning: it runs as root, and needs no more than to read the keys and the shelf, and to write what was seen");
    }
    // each takes twice as much memory as its text, of up to 16 MiB
    let openings = 2 * thread::available_parallelism().map_or(2, usize::from).max(2);
    let opener = Arc::new(Opener {
        current: Current::new(options.shelf, Seen::open(&options.seen)?),
        keys: RwLock::default(),
        upstream: options.upstream,
        openings: Permits::new(openings),
        patience: PATIENCE,
    });
    read_keys(&opener, &options.keys);
    match opener.current.watch() {
        Ok(jobs) => log(&format!("the shelf has {jobs} jobs")),
        Err(why) => log(&format!("{why}; nothing is shown until that is mended")),
    }
    let listener = listen(&options.listen)?;
    log(&format!("version {} listens at {}", env!("CARGO_PKG_VERSION"), options.listen.display()));
    let (serving, path) = (opener.clone(), options.keys);
    let _pool = Pool::start(listener, CONNECTIONS, move |stream| serve(&serving, &stream));
    let reading = opener.clone();
    thread::spawn(move || {
        while sys::hang_up() {
            read_keys(&reading, &path);
        }
    });
    loop {
        thread::sleep(WATCH);
        // whoever asks is told what is wrong
        let _ = opener.current.watch();
    }
}

/// Reads the keys, in the place of those that are held. Where they cannot be read there are none.
fn read_keys(opener: &Opener, path: &Path) {
    let keys = Keys::read(path).unwrap_or_else(|why| {
        log(&format!("{why}; nothing is shown until that is mended, and SIGHUP sent"));
        Keys::default()
    });
    log(&format!("keys: {}", keys.told()));
    if fs::metadata(path).map_or(false, |about| about.mode() & 0o044 != 0) {
        log(&format!("warning: others can read {0}: chmod 400 {0}", path.display()));
    }
    *opener.keys.write().unwrap_or_else(PoisonError::into_inner) = Arc::new(keys);
}

/// Listens at a socket. One that a process left behind is removed first, and one that is listened at is not.
fn listen(path: &Path) -> Result<UnixListener, String> {
    if UnixStream::connect(path).is_ok() {
        return Err(format!("another process listens at {}", path.display()));
    }
    if fs::symlink_metadata(path).map_or(false, |about| about.file_type().is_socket()) {
        let _ = fs::remove_file(path);
    }
    UnixListener::bind(path).map_err(|error| format!("cannot listen at {}: {error}", path.display()))
}

/// Answers a connection. A client that leaves, or is too slow, does not affect others.
fn serve(opener: &Opener, stream: &UnixStream) {
    thread_local!(static ROOM: RefCell<Room> = RefCell::default());
    ROOM.with(|room| {
        let room = &mut *room.borrow_mut();
        let _ = answer(opener, stream, room);
        room.tidy();
    });
}

fn answer(opener: &Opener, stream: &UnixStream, room: &mut Room) -> io::Result<()> {
    let until = Instant::now() + REQUEST;
    let mut from = BufReader::new(Timed { stream, until });
    let request = match Request::read(&mut from) {
        Err(error) if error.kind() == ErrorKind::InvalidData => {
            log("a request that is no SCGI, or is too long");
            let bad = Answer::new("400 Bad Request", String::new(), Body::Words("This is no request.\n"));
            return respond(stream, Method::Other, &bad, &[]);
        }
        read => read?,
    };
    if request.length > LONGEST {
        let long = Answer::new("413 Content Too Large", String::new(), Body::Words("This is too long.\n"));
        return respond(stream, request.method, &long, &[]);
    }
    let length = request.length as u64;
    // a file that was sent takes memory as one that is fetched does
    let _permit = match request.method {
        Method::Post if length > 0 => {
            let permit = opener.openings.take(until).ok_or(ErrorKind::TimedOut)?;
            room.file.clear();
            from.take(length).read_to_end(&mut room.file)?;
            Some(permit)
        }
        _ => io::copy(&mut from.take(length), &mut io::sink()).map(|_| None)?,
    };
    let answer = opener.answer(&request, room);
    respond(stream, request.method, &answer, &room.text)
}

fn respond(stream: &UnixStream, method: Method, answer: &Answer, text: &[u8]) -> io::Result<()> {
    let body = match answer.body {
        Body::None => None,
        Body::Words(words) => Some(words.as_bytes()),
        Body::Text(length) => Some(text.get(..length).unwrap_or_default()),
    };
    let mut head = format!("Status: {}\r\n{}", answer.status, answer.headers);
    if let Some(body) = body {
        head += "Content-Type: text/plain; charset=utf-8\r\nX-Content-Type-Options: nosniff\r\n";
        head += &format!("Content-Length: {}\r\n", body.len());
    }
    head += "\r\n";
    let mut to = Timed { stream, until: Instant::now() + ANSWER };
    to.write_all(head.as_bytes())?;
    to.write_all(body.filter(|_| method != Method::Head).unwrap_or_default())
}
