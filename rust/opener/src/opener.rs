//! The question, for every request: does this file open under the edition that is current now?

use crate::current::{etag, Current, Entry, Trouble};
use crate::keys::Keys;
use crate::log;
use crate::pool::Permits;
use crate::scgi::{Method, Request};
use crate::upstream::Upstream;
use luossavin::editions::label;
use luossavin::reference::{is_named, split, LENGTH};
use luossavin::LONGEST_TEXT;
use std::sync::atomic::Ordering;
use std::sync::{Arc, PoisonError, RwLock};
use std::time::{Duration, Instant};

/// The most bytes of a sealed file with its IV.
pub const LONGEST: usize = LONGEST_TEXT + LENGTH;

pub struct Opener {
    pub current: Current,
    pub keys: RwLock<Arc<Keys>>,
    pub upstream: Upstream,
    /// How many files are fetched and opened at a time.
    pub openings: Permits,
    /// How long a file may take to come.
    pub patience: Duration,
}

/// What a worker reads into and opens into, from one request to the next.
#[derive(Default)]
pub struct Room {
    pub file: Vec<u8>,
    pub text: Vec<u8>,
}

impl Room {
    /// Gives up what a long text took, and not what most take.
    pub fn tidy(&mut self) {
        for buffer in [&mut self.file, &mut self.text] {
            if buffer.capacity() > 1 << 21 {
                *buffer = Vec::new();
            }
        }
    }
}

/// An answer, but for its text.
#[derive(Debug, PartialEq, Eq)]
pub struct Answer {
    pub status: &'static str,
    pub headers: String,
    pub body: Body,
}

#[derive(Debug, PartialEq, Eq)]
pub enum Body {
    None,
    Words(&'static str),
    /// So many bytes at the front of the room's text.
    Text(usize),
}

const UPDATING: &str = "This transcript is being updated, and nothing is shown. Please try again in a few seconds.\n";

impl Answer {
    pub fn new(status: &'static str, headers: String, body: Body) -> Answer {
        Answer { status, headers, body }
    }

    fn words(status: &'static str, words: &'static str) -> Answer {
        Answer::new(status, "Cache-Control: no-store\r\n".to_string(), Body::Words(words))
    }

    /// An answer about the current edition of a job.
    fn current(job: u32, entry: &Entry, status: &'static str, body: Body) -> Answer {
        let (tag, edition) = (etag(job, entry), entry.edition);
        let headers = format!("ETag: {tag}\r\nCache-Control: private, no-cache\r\nLuossavin-Edition: {edition}\r\n");
        Answer::new(status, headers, body)
    }

    /// What is said where nothing may be shown. The reason is in the log alone.
    fn closed() -> Answer {
        let headers = "Cache-Control: no-store\r\nRetry-After: 5\r\n".to_string();
        Answer::new("503 Service Unavailable", headers, Body::Words(UPDATING))
    }
}

impl Opener {
    /// Answers a request; the body of a POST is in `room.file`.
    pub fn answer(&self, request: &Request, room: &mut Room) -> Answer {
        if request.method == Method::Other {
            let headers = "Allow: GET, HEAD, POST\r\n".to_string();
            return Answer::new("405 Method Not Allowed", headers, Body::Words("This is not allowed here.\n"));
        }
        let job = match request.job {
            Some(job) => job,
            None => return Answer::words("404 Not Found", "There is no such transcript.\n"),
        };
        let entry = match self.current.find(job) {
            Ok(entry) => entry,
            Err(trouble) => {
                log(&format!("job {job}: {trouble}"));
                return match trouble {
                    Trouble::NotThere => Answer::words("404 Not Found", "There is no such transcript.\n"),
                    Trouble::Closed(_) => Answer::closed(),
                };
            }
        };
        let is_post = request.method == Method::Post;
        if !is_post && request.names(&etag(job, &entry)) {
            return Answer::current(job, &entry, "304 Not Modified", Body::None);
        }
        if is_post && request.length > 0 {
            return match self.open(job, &entry, 0, room) {
                Ok(_) => Answer::current(job, &entry, "204 No Content", Body::None),
                Err(why) => {
                    log(&format!("job {job}, edition {}: what was sent: {why}", entry.edition));
                    Answer::words("409 Conflict", "This is not the current edition.\n")
                }
            };
        }
        match self.fetch_and_open(job, entry, room) {
            Some((entry, _)) if is_post => Answer::current(job, &entry, "204 No Content", Body::None),
            Some((entry, length)) => Answer::current(job, &entry, "200 OK", Body::Text(length)),
            None => Answer::closed(),
        }
    }

    /// Fetches the file and opens it; where it does not open, it is asked once more which edition is current, and the
    /// cache is to fetch the file anew. The edition that opened and how long its text is, or none, where nothing may be
    /// shown.
    fn fetch_and_open(&self, job: u32, mut entry: Arc<Entry>, room: &mut Room) -> Option<(Arc<Entry>, usize)> {
        let until = Instant::now() + self.patience;
        let permit = self.openings.take(until);
        if permit.is_none() {
            log(&format!("job {job}, edition {}: too many others are being opened", entry.edition));
            return None;
        }
        for again in [false, true] {
            let fetched = self.upstream.fetch(job, again, until, LONGEST, &mut room.file);
            match fetched.and_then(|start| self.open(job, &entry, start, room)) {
                Ok(length) => return Some((entry, length)),
                Err(why) => {
                    let next = if again { "nothing is shown" } else { "the cache is to fetch it once more" };
                    log(&format!("job {job}, edition {}: {why}; {next}", entry.edition));
                }
            }
            if !again {
                // a new edition may have come since the shelf was read
                let found = self.current.find(job).map_err(|trouble| log(&format!("job {job}: {trouble}")));
                entry = found.ok()?;
            }
        }
        None
    }

    /// Opens the file that begins at a place of the room, under the label of the current edition and no other.
    fn open(&self, job: u32, entry: &Entry, start: usize, room: &mut Room) -> Result<usize, String> {
        let keys = self.keys.read().unwrap_or_else(PoisonError::into_inner).clone();
        let (iv, sealed) = split(room.file.get(start..).unwrap_or_default()).map_err(|refusal| refusal.to_string())?;
        let label = label(job, entry.edition);
        let (length, key) = keys.open(entry.key.load(Ordering::Relaxed), &label, sealed, iv, &mut room.text)?;
        if !is_named(&entry.bytes, iv, sealed) {
            return Err("it opens, and is another file than the shelf names".to_string());
        }
        entry.key.store(key, Ordering::Relaxed);
        Ok(length)
    }
}

#[cfg(test)]
mod tests {
    use super::*;
    use crate::files::tests::Folder;
    use crate::seen::Seen;
    use luossavin::reference::reference;
    use luossavin::shelf::Shelf;
    use luossavin::sm4::cipher_mode::{CipherMode, Sm4CipherMode};

    const KEY: &str = "000102030405060708090a0b0c0d0e0f";

    /// A file as the store has it.
    fn stored(edition: u16, iv: u8, text: &str) -> Vec<u8> {
        let gcm = Sm4CipherMode::new(&(0..16).collect::<Vec<u8>>(), CipherMode::Gcm).unwrap();
        let sealed = gcm.encrypt(&label(4711, edition), text.as_bytes(), &[iv; 16]).unwrap();
        [&[iv; 16], &sealed[..]].concat()
    }

    fn named(edition: u16, file: &[u8]) -> Vec<u8> {
        let (iv, sealed) = split(file).unwrap();
        let mut shelf = Shelf::new();
        shelf.put(4711, edition, &reference(iv, sealed).unwrap()).unwrap();
        shelf.as_bytes().to_vec()
    }

    /// An opener over a folder that has the final of job 4711, edition 2.
    fn opener(folder: &Folder) -> Opener {
        let file = stored(2, 9, "the final");
        folder.file("4711", &file);
        let shelf = folder.file("shelf", &named(2, &file));
        let seen = Seen::open(&folder.file("seen", b"")).unwrap();
        let keys = Keys::read(&folder.file("keys", format!("1 {KEY}\n").as_bytes())).unwrap();
        Opener {
            current: Current::new(shelf, seen),
            keys: RwLock::new(Arc::new(keys)),
            upstream: Upstream::Folder(folder.0.clone()),
            openings: Permits::new(1),
            patience: Duration::from_secs(1),
        }
    }

    fn request(method: Method, job: Option<u32>, tags: &str) -> Request {
        Request { method, job, tags: tags.to_string(), length: 0 }
    }

    fn status(opener: &Opener, method: Method, tags: &str) -> (&'static str, Body) {
        let answer = opener.answer(&request(method, Some(4711), tags), &mut Room::default());
        (&answer.status[..3], answer.body)
    }

    const CLOSED: (&str, Body) = ("503", Body::Words(UPDATING));

    #[test]
    fn the_current_edition_is_shown() {
        let folder = Folder::new();
        let (opener, mut room) = (opener(&folder), Room::default());
        let answer = opener.answer(&request(Method::Get, Some(4711), ""), &mut room);
        assert_eq!((answer.status, answer.body), ("200 OK", Body::Text(9)));
        assert_eq!(&room.text[..9], b"the final");
        assert!(answer.headers.contains("\r\nLuossavin-Edition: 2\r\n"));
        let tag = answer.headers.strip_prefix("ETag: ").and_then(|rest| rest.split("\r\n").next()).unwrap();
        assert!(tag.starts_with("\"4711-2-0909") && tag.len() == 9 + 64);
        assert_eq!(status(&opener, Method::Get, tag), ("304", Body::None));
        assert_eq!(status(&opener, Method::Get, &format!("\"x\", W/{tag}")), ("304", Body::None));
        assert_eq!(status(&opener, Method::Get, "\"4711-1-09\""), ("200", Body::Text(9)));
        assert_eq!(status(&opener, Method::Head, ""), ("200", Body::Text(9)));
        assert_eq!(status(&opener, Method::Post, tag), ("204", Body::None));
        assert_eq!(status(&opener, Method::Other, "").0, "405");
        assert_eq!(opener.answer(&request(Method::Get, Some(4712), ""), &mut room).status, "404 Not Found");
        assert_eq!(opener.answer(&request(Method::Get, None, ""), &mut room).status, "404 Not Found");
    }

    #[test]
    fn nothing_else_is_shown() {
        let folder = Folder::new();
        let opener = opener(&folder);
        let (right, rough) = (stored(2, 9, "the final"), stored(1, 8, "the rough"));
        for wrong in [&rough[..], &right[..right.len() - 1], &right[1..], &right[..20], &[0; 40], &right[..15], b""] {
            folder.file("4711", wrong);
            assert_eq!(status(&opener, Method::Get, ""), CLOSED);
            assert_eq!(status(&opener, Method::Head, ""), CLOSED);
            assert_eq!(status(&opener, Method::Post, ""), CLOSED);
        }
        // sealed as the same edition, and not the one that the shelf names
        folder.file("4711", &stored(2, 7, "another"));
        assert_eq!(status(&opener, Method::Get, ""), CLOSED);
        // the rough, named on the shelf as a higher edition
        folder.file("4711", &rough);
        folder.file("shelf", &named(3, &rough));
        assert_eq!(status(&opener, Method::Get, ""), CLOSED);
        std::fs::remove_file(folder.0.join("4711")).unwrap();
        assert_eq!(status(&opener, Method::Get, ""), CLOSED);
    }

    #[test]
    fn without_keys_nothing_is_shown() {
        let folder = Folder::new();
        let opener = opener(&folder);
        let hold = |keys: Keys| *opener.keys.write().unwrap() = Arc::new(keys);
        hold(Keys::default());
        assert_eq!(status(&opener, Method::Get, ""), CLOSED);
        hold(Keys::read(&folder.file("keys", b"1 ffffffffffffffffffffffffffffffff\n")).unwrap());
        assert_eq!(status(&opener, Method::Get, ""), CLOSED);
        hold(Keys::read(&folder.file("keys", format!("7 {KEY} retired\n").as_bytes())).unwrap());
        assert_eq!(status(&opener, Method::Get, ""), ("200", Body::Text(9)));
    }

    #[test]
    fn what_waits_too_long_is_not_shown() {
        let folder = Folder::new();
        let opener = Opener { patience: Duration::from_millis(1), ..opener(&folder) };
        let other = opener.openings.take(Instant::now());
        assert_eq!(status(&opener, Method::Get, ""), CLOSED);
        drop(other);
        assert_eq!(status(&opener, Method::Get, ""), ("200", Body::Text(9)));
    }

    #[test]
    fn a_file_that_is_sent_is_asked_about() {
        let folder = Folder::new();
        let (opener, mut room) = (opener(&folder), Room::default());
        let rough = stored(1, 8, "the rough");
        for (file, status) in
            [(stored(2, 9, "the final"), "204 No Content"), (rough, "409 Conflict"), (vec![7; 9], "409 Conflict")]
        {
            let request = Request { length: file.len(), ..request(Method::Post, Some(4711), "") };
            room.file = file;
            assert_eq!(opener.answer(&request, &mut room).status, status);
        }
    }

    #[test]
    fn long_texts_leave_no_room_behind() {
        let mut room = Room { file: Vec::with_capacity(1 << 22), text: vec![0; 1 << 20] };
        room.tidy();
        assert_eq!((room.file.capacity(), room.text.len()), (0, 1 << 20));
    }
}
