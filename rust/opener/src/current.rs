//! What is current: reads the shelf for every request, and compares it with the editions that were seen.

use crate::seen::Seen;
use crate::{files, log};
use luossavin::reference;
use luossavin::shelf::{Shelf, LARGEST};
use luossavin::Refusal;
use std::collections::HashMap;
use std::fmt;
use std::path::PathBuf;
use std::sync::atomic::AtomicU16;
use std::sync::{Arc, Mutex, PoisonError, RwLock};

/// The current edition of a job.
pub struct Entry {
    pub edition: u16,
    /// What stands on the shelf: the sealed file's IV and tag or, on a shelf of small files, the file itself.
    pub bytes: Vec<u8>,
    /// The number of the key that has opened it, 0 where none has yet: that one is asked first.
    pub key: AtomicU16,
}

/// Why there is no current edition to be shown.
#[derive(Debug, PartialEq, Eq)]
pub enum Trouble {
    /// There is no such job, and never was.
    NotThere,
    Closed(String),
}

impl fmt::Display for Trouble {
    fn fmt(&self, f: &mut fmt::Formatter<'_>) -> fmt::Result {
        match self {
            Trouble::NotThere => Refusal::NoCurrent.fmt(f),
            Trouble::Closed(why) => why.fmt(f),
        }
    }
}

/// The shelf as it was read last. Asking the library takes milliseconds on a full one, so what it says is kept for as
/// long as the bytes are the same.
#[derive(Default)]
struct Held {
    bytes: Vec<u8>,
    jobs: HashMap<u32, Arc<Entry>>,
}

pub struct Current {
    path: PathBuf,
    held: RwLock<Option<Held>>,
    seen: Mutex<Seen>,
}

impl Held {
    /// The shelf that some bytes are. Whether they are one is the library's to say.
    fn new(bytes: Vec<u8>) -> Result<Held, String> {
        let shelf = Shelf::load(&bytes, LARGEST).map_err(|refusal| refusal.to_string())?;
        let entry = |edition, bytes: &[u8]| Entry { edition, bytes: bytes.to_vec(), key: AtomicU16::new(0) };
        let jobs = reference::current(&shelf).map(|(job, edition, bytes)| (job, Arc::new(entry(edition, bytes))));
        Ok(Held { jobs: jobs.collect(), bytes })
    }
}

impl Current {
    pub fn new(path: PathBuf, seen: Seen) -> Current {
        Current { path, held: RwLock::default(), seen: Mutex::new(seen) }
    }

    /// The current edition of a job, which is on disk as seen, and is no older than what was seen before.
    pub fn find(&self, job: u32) -> Result<Arc<Entry>, Trouble> {
        let (path, mut old) = (self.path.display(), false);
        loop {
            let entry = self.look(|held| held.jobs.get(&job).cloned()).map_err(Trouble::Closed)?;
            let mut seen = self.seen.lock().unwrap_or_else(PoisonError::into_inner);
            let why = match (entry, seen.highest(job)) {
                (None, None) => return Err(Trouble::NotThere),
                (None, Some(highest)) => {
                    format!("{path} has no edition of it, and edition {highest} was current: is it an old one?")
                }
                (Some(entry), Some(highest)) if entry.edition < highest => {
                    format!(
                        "{path} has edition {}, and edition {highest} was current: is it an old one?",
                        entry.edition
                    )
                }
                (Some(entry), _) => {
                    seen.note([(job, entry.edition)]).map_err(Trouble::Closed)?;
                    return Ok(entry);
                }
            };
            // another request may have read a newer shelf after this one has read it
            if old {
                return Err(Trouble::Closed(why));
            }
            old = true;
        }
    }

    /// Reads the shelf, and has all that is current on it be seen, for when nobody asks. How many jobs it has.
    pub fn watch(&self) -> Result<usize, String> {
        self.look(|held| held.jobs.len())
    }

    fn look<T>(&self, ask: impl Fn(&Held) -> T) -> Result<T, String> {
        let bytes = files::read(&self.path, LARGEST)?;
        if let Some(held) = &*self.held.read().unwrap_or_else(PoisonError::into_inner) {
            if held.bytes == bytes {
                return Ok(ask(held));
            }
        }
        let held = Held::new(bytes).map_err(|why| format!("{}: {why}", self.path.display()))?;
        let editions: Vec<(u32, u16)> = held.jobs.iter().map(|(job, entry)| (*job, entry.edition)).collect();
        let noted = self.seen.lock().unwrap_or_else(PoisonError::into_inner).note(editions);
        if let Err(why) = noted {
            // a job that is asked for is noted again, and not shown where that cannot be done
            log(&why);
        }
        let answer = ask(&held);
        *self.held.write().unwrap_or_else(PoisonError::into_inner) = Some(held);
        Ok(answer)
    }
}

/// The tag by which a browser asks whether its copy is current: of job, edition, and the IV and tag of the sealed file.
/// Of a file that stands on the shelf itself, its last 32 bytes take their place.
pub fn etag(job: u32, entry: &Entry) -> String {
    let from = entry.bytes.len().saturating_sub(reference::LENGTH);
    let end: String = entry.bytes.iter().skip(from).map(|byte| format!("{byte:02x}")).collect();
    format!("\"{job}-{}-{end}\"", entry.edition)
}

#[cfg(test)]
mod tests {
    use super::*;
    use crate::files::tests::Folder;
    use std::fs;

    fn shelf(editions: &[(u32, u16)]) -> Vec<u8> {
        let mut shelf = Shelf::new();
        for (job, edition) in editions {
            shelf.put(*job, *edition, &[*edition as u8; reference::LENGTH]).unwrap();
        }
        shelf.as_bytes().to_vec()
    }

    fn edition(current: &Current, job: u32) -> Result<u16, Trouble> {
        current.find(job).map(|entry| entry.edition)
    }

    fn is_closed<T>(found: Result<T, Trouble>) -> bool {
        matches!(found, Err(Trouble::Closed(_)))
    }

    #[test]
    fn an_old_shelf_is_told_from_the_current_one() {
        let folder = Folder::new();
        let (path, seen) = (folder.file("shelf", &shelf(&[(4711, 1), (12, 3)])), folder.file("seen", b""));
        let current = Current::new(path.clone(), Seen::open(&seen).unwrap());
        assert_eq!((edition(&current, 4711), edition(&current, 12)), (Ok(1), Ok(3)));
        assert_eq!(edition(&current, 13), Err(Trouble::NotThere));
        assert!(Trouble::NotThere.to_string().starts_with("22 NoCurrent"));
        folder.file("shelf", &shelf(&[(4711, 1), (12, 3), (4711, 2), (8, 9)]));
        assert_eq!(edition(&current, 4711), Ok(2));
        // job 8 was asked for by nobody
        folder.file("shelf", &shelf(&[(4711, 1), (8, 8)]));
        assert!(
            is_closed(edition(&current, 4711)) && is_closed(edition(&current, 8)) && is_closed(edition(&current, 12))
        );
        drop(current);
        let current = Current::new(path, Seen::open(&seen).unwrap());
        assert!(is_closed(edition(&current, 4711)), "after a new start too");
        folder.file("shelf", &shelf(&[(4711, 2), (8, 10), (12, 3)]));
        assert_eq!((edition(&current, 4711), edition(&current, 8), edition(&current, 12)), (Ok(2), Ok(10), Ok(3)));
    }

    #[test]
    fn what_is_no_shelf_closes() {
        let folder = Folder::new();
        let (path, seen) = (folder.file("shelf", &shelf(&[(4711, 1)])), folder.file("seen", b""));
        let current = Current::new(path.clone(), Seen::open(&seen).unwrap());
        assert_eq!(edition(&current, 4711), Ok(1));
        for bytes in [&b"no shelf"[..], &[b'R'; LARGEST + 1], &shelf(&[(4711, 1)])[..20], b""] {
            folder.file("shelf", bytes);
            assert!(is_closed(edition(&current, 4711)), "{} bytes", bytes.len());
        }
        fs::remove_file(&path).unwrap();
        assert!(is_closed(edition(&current, 4711)) && current.watch().is_err());
        folder.file("shelf", &shelf(&[(4711, 1)]));
        assert_eq!((edition(&current, 4711), current.watch()), (Ok(1), Ok(1)));
    }

    #[test]
    fn what_cannot_be_kept_as_seen_closes() {
        let folder = Folder::new();
        let (path, seen) = (folder.file("shelf", &shelf(&[(4711, 1), (12, 3)])), folder.file("seen", b""));
        let current = Current::new(path, Seen::open(&seen).unwrap());
        assert_eq!(edition(&current, 4711), Ok(1));
        fs::create_dir(folder.0.join("seen.new")).unwrap();
        folder.file("shelf", &shelf(&[(4711, 2), (12, 3)]));
        assert!(is_closed(edition(&current, 4711)));
        assert_eq!(edition(&current, 12), Ok(3));
        fs::remove_dir(folder.0.join("seen.new")).unwrap();
        assert_eq!(edition(&current, 4711), Ok(2));
    }

    #[test]
    fn a_tag_is_of_job_edition_iv_and_tag() {
        let entry = |edition, bytes: &[u8]| Entry { edition, bytes: bytes.to_vec(), key: AtomicU16::new(0) };
        let tag = etag(4711, &entry(2, &[0xab; 32]));
        assert_eq!(tag, format!("\"4711-2-{}\"", "ab".repeat(32)));
        let long: Vec<u8> = (0..100).collect();
        for other in
            [etag(4712, &entry(2, &[0xab; 32])), etag(4711, &entry(3, &[0xab; 32])), etag(4711, &entry(2, &long))]
        {
            assert_ne!(tag, other);
        }
        assert_eq!(etag(1, &entry(2, &long)), etag(1, &entry(2, &long[68..])));
        assert_eq!(etag(1, &entry(2, b"")), "\"1-2-\"");
    }
}
