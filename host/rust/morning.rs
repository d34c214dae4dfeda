//! Clients of a portal over a Unix socket, for host/morning.
//!
//!   morning load SOCKET PATH CLIENTS SECONDS [TAG]
//!       how many requests a second are answered, how many milliseconds one takes, and how many there were; with a TAG, of
//!       If-None-Match
//!   morning publications SOCKET PATH CLIENTS COUNT COMMAND..
//!       editions 2 to COUNT + 1 are published by COMMAND.. EDITION, while clients ask: is a response ever older than what was
//!       current when it was asked for?
//!   morning bother SOCKET COUNT
//!       so many connections that say nothing, half of a request, or none, and stay until standard input ends

use std::collections::BTreeSet;
use std::env;
use std::io::{self, BufRead, BufReader, ErrorKind, Read, Write};
use std::os::unix::net::UnixStream;
use std::process::{exit, Command};
use std::sync::atomic::{AtomicBool, AtomicU64, Ordering::SeqCst};
use std::thread;
use std::time::{Duration, Instant};

struct Client {
    stream: BufReader<UnixStream>,
    request: String,
    body: Vec<u8>,
}

impl Client {
    fn new(socket: &str, path: &str, tag: Option<&str>) -> io::Result<Client> {
        let stream = UnixStream::connect(socket)?;
        stream.set_read_timeout(Some(Duration::from_secs(30)))?;
        let tag = tag.map_or(String::new(), |tag| format!("If-None-Match: {tag}\r\n"));
        let request = format!("GET {path} HTTP/1.1\r\nHost: portal\r\n{tag}\r\n");
        Ok(Client { stream: BufReader::with_capacity(1 << 16, stream), request, body: Vec::new() })
    }

    /// Asks, and answers the status; the body is kept.
    fn ask(&mut self) -> io::Result<u16> {
        self.stream.get_mut().write_all(self.request.as_bytes())?;
        let (mut status, mut length, mut line) = (None, 0, String::new());
        loop {
            line.clear();
            if self.stream.read_line(&mut line)? == 0 {
                return Err(ErrorKind::UnexpectedEof.into());
            }
            let text = line.trim_end().to_ascii_lowercase();
            if text.is_empty() {
                break;
            }
            if let Some(rest) = text.strip_prefix("http/1.1 ") {
                status = rest.get(..3).and_then(|status| status.parse().ok());
            } else if let Some(rest) = text.strip_prefix("content-length:") {
                length = rest.trim().parse().map_err(|_| ErrorKind::InvalidData)?;
            } else if text.starts_with("transfer-encoding:") {
                return Err(ErrorKind::Unsupported.into());
            }
        }
        self.body.resize(length, 0);
        self.stream.read_exact(&mut self.body)?;
        status.ok_or_else(|| ErrorKind::InvalidData.into())
    }

    /// The edition that the text says it is.
    fn edition(&self) -> Option<u64> {
        let mark = b"EDITION ";
        let at = self.body.windows(mark.len()).position(|window| window == mark)? + mark.len();
        let digits = self.body[at..].iter().take_while(|byte| byte.is_ascii_digit());
        let digits: String = digits.map(|byte| char::from(*byte)).collect();
        digits.parse().ok()
    }
}

fn load(socket: &str, path: &str, clients: usize, seconds: u64, tag: Option<&str>) -> io::Result<()> {
    let wanted = if tag.is_some() { 304 } else { 200 };
    let began = Instant::now();
    let until = began + Duration::from_secs(seconds);
    let counts: Vec<io::Result<u64>> = thread::scope(|scope| {
        let one = || -> io::Result<u64> {
            let (mut client, mut count) = (Client::new(socket, path, tag)?, 0);
            while Instant::now() < until {
                let status = client.ask()?;
                if status != wanted {
                    return Err(io::Error::new(ErrorKind::Other, format!("status {status}, not {wanted}")));
                }
                count += 1;
            }
            Ok(count)
        };
        let all: Vec<_> = (0..clients).map(|_| scope.spawn(one)).collect();
        all.into_iter().map(|client| client.join().expect("a client")).collect()
    });
    let took = began.elapsed().as_secs_f64();
    let mut all = 0;
    for count in counts {
        all += count?;
    }
    println!("{:.0} {:.2} {all}", all as f64 / took, clients as f64 * took * 1e3 / all as f64);
    Ok(())
}

/// What the clients have seen.
#[derive(Default)]
struct Counts {
    asked: AtomicU64,
    shown: AtomicU64,
    updating: AtomicU64,
    older: AtomicU64,
    newer: AtomicU64,
    other: AtomicU64,
}

fn publications(socket: &str, path: &str, clients: usize, count: u64, command: &[String]) -> io::Result<()> {
    let counts = Counts::default();
    // what is surely current, and what may be
    let (current, begun, stop) = (AtomicU64::new(1), AtomicU64::new(1), AtomicBool::new(false));
    let one = || -> io::Result<BTreeSet<u64>> {
        let (mut client, mut editions) = (Client::new(socket, path, None)?, BTreeSet::new());
        while !stop.load(SeqCst) {
            let least = current.load(SeqCst);
            let status = client.ask()?;
            let most = begun.load(SeqCst);
            let kind = match (status, client.edition()) {
                (200, Some(edition)) => {
                    editions.insert(edition);
                    match edition {
                        older if older < least => &counts.older,
                        newer if newer > most => &counts.newer,
                        _ => &counts.shown,
                    }
                }
                (503, None) => &counts.updating,
                _ => &counts.other,
            };
            kind.fetch_add(1, SeqCst);
            counts.asked.fetch_add(1, SeqCst);
        }
        Ok(editions)
    };
    let publish = || -> io::Result<()> {
        let (name, words) = command.split_first().ok_or(ErrorKind::InvalidInput)?;
        for edition in 2..count + 2 {
            begun.store(edition, SeqCst);
            if !Command::new(name).args(words).arg(edition.to_string()).status()?.success() {
                return Err(io::Error::new(ErrorKind::Other, format!("edition {edition} could not be published")));
            }
            current.store(edition, SeqCst);
            // until some who asked after that have an answer, and no longer than it would take a crash to be noticed
            let (answers, since) = (counts.asked.load(SeqCst), Instant::now());
            while counts.asked.load(SeqCst) < answers + 3 * clients as u64 && since.elapsed() < Duration::from_secs(10) {
                thread::sleep(Duration::from_millis(5));
            }
        }
        Ok(())
    };
    let (published, seen): (io::Result<()>, Vec<io::Result<BTreeSet<u64>>>) = thread::scope(|scope| {
        let all: Vec<_> = (0..clients).map(|_| scope.spawn(one)).collect();
        let published = publish();
        stop.store(true, SeqCst);
        (published, all.into_iter().map(|client| client.join().expect("a client")).collect())
    });
    published?;
    let mut editions = BTreeSet::new();
    for some in seen {
        editions.extend(some?);
    }
    let said = |count: &AtomicU64| count.load(SeqCst);
    println!(
        "asked {}, shown {}, updating {}, older {}, newer {}, other {}, editions {}",
        said(&counts.asked),
        said(&counts.shown),
        said(&counts.updating),
        said(&counts.older),
        said(&counts.newer),
        said(&counts.other),
        editions.len()
    );
    Ok(())
}

fn bother(socket: &str, count: usize) -> io::Result<()> {
    let said: [&[u8]; 6] = [b"", b"7", b"70:CONTENT_LENGTH", b"GET / HTTP/1.1\r\n\r\n", b"99999999:", b"24:CONTENT_LENGTH\0x\0SCGI\x001\0,"];
    let mut all = Vec::new();
    for words in said.iter().cycle().take(count) {
        let mut stream = UnixStream::connect(socket)?;
        // the other side may have gone
        let _ = stream.write_all(words);
        all.push(stream);
    }
    println!("{} connections", all.len());
    io::stdin().read_to_end(&mut Vec::new()).map(|_| ())
}

fn main() {
    let words: Vec<String> = env::args().skip(1).collect();
    let number = |at: usize| words.get(at).and_then(|word| word.parse::<u64>().ok());
    let done = match (words.first().map(String::as_str), number(3), number(4)) {
        (Some("load"), Some(clients), Some(seconds)) => {
            load(&words[1], &words[2], clients as usize, seconds, words.get(5).map(String::as_str))
        }
        (Some("publications"), Some(clients), Some(count)) => {
            publications(&words[1], &words[2], clients as usize, count, &words[5..])
        }
        (Some("bother"), _, _) => bother(&words[1], number(2).unwrap_or(0) as usize),
        _ => Err(ErrorKind::InvalidInput.into()),
    };
    if let Err(error) = done {
        eprintln!("morning: {error}");
        exit(1);
    }
}
