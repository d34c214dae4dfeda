//! The highest edition that was seen of each job, on disk: it shows that an old shelf was put back.

use crate::{files, sys};
use std::collections::BTreeMap;
use std::ffi::OsString;
use std::fs::{self, File, OpenOptions};
use std::io::{self, Write};
use std::os::unix::fs::OpenOptionsExt;
use std::path::{Path, PathBuf};

/// No list of editions is as long as this: it has room for some four million jobs.
const LONGEST: usize = 1 << 26;

/// A job and an edition to a line, in the file and in memory.
pub struct Seen {
    path: PathBuf,
    editions: BTreeMap<u32, u16>,
    /// Kept open for its lock.
    _lock: File,
}

impl Seen {
    /// Reads the list, which has to be there. It is this process's until it ends.
    pub fn open(path: &Path) -> Result<Seen, String> {
        let name = beside(path, ".lock");
        let cannot = |error: io::Error| format!("cannot lock {}: {error}", name.display());
        let lock = OpenOptions::new().append(true).create(true).mode(0o600).open(&name).map_err(cannot)?;
        sys::lock(&lock).map_err(cannot)?;
        let bytes = files::read(path, LONGEST)?;
        let editions = parse(&bytes).map_err(|at| {
            format!("{}, line {at}: expected a job and an edition; what was seen is not known", path.display())
        })?;
        Ok(Seen { path: path.to_path_buf(), editions, _lock: lock })
    }

    /// The highest edition of a job, which is on disk.
    pub fn highest(&self, job: u32) -> Option<u16> {
        self.editions.get(&job).copied()
    }

    /// Stores the editions that are higher than before. They are on disk when this returns; after an error none of them
    /// counts.
    pub fn note(&mut self, current: impl IntoIterator<Item = (u32, u16)>) -> Result<(), String> {
        let is_new = |(job, edition): &(u32, u16)| self.highest(*job).map_or(true, |highest| highest < *edition);
        let new: Vec<(u32, u16)> = current.into_iter().filter(is_new).collect();
        if new.is_empty() {
            return Ok(());
        }
        let mut editions = self.editions.clone();
        editions.extend(new);
        let text: String = editions.iter().map(|(job, edition)| format!("{job} {edition}\n")).collect();
        replace(&self.path, text.as_bytes())
            .map_err(|error| format!("cannot write {}: {error}", self.path.display()))?;
        self.editions = editions;
        Ok(())
    }
}

/// The list, or the line that is none of its.
fn parse(bytes: &[u8]) -> Result<BTreeMap<u32, u16>, usize> {
    let mut editions = BTreeMap::new();
    let mut lines = bytes.split(|byte| *byte == b'\n').enumerate().peekable();
    while let Some((at, line)) = lines.next() {
        // behind the last end of a line there is nothing
        if line.is_empty() && lines.peek().is_none() {
            break;
        }
        let read = std::str::from_utf8(line).ok().and_then(|line| line.split_once(' '));
        let read = read.and_then(|(job, edition)| Some((job.parse().ok()?, edition.parse().ok()?)));
        let is_whole = lines.peek().is_some();
        match read.filter(|_| is_whole) {
            Some((job, edition)) if editions.insert(job, edition).is_none() => {}
            _ => return Err(at + 1),
        }
    }
    Ok(editions)
}

fn beside(path: &Path, end: &str) -> PathBuf {
    let mut name = OsString::from(path);
    name.push(end);
    PathBuf::from(name)
}

/// Writes a file that is the old one or the new one, whenever the machine stops.
fn replace(path: &Path, bytes: &[u8]) -> io::Result<()> {
    let new = beside(path, ".new");
    let mut file = OpenOptions::new().write(true).create(true).truncate(true).mode(0o600).open(&new)?;
    file.write_all(bytes)?;
    file.sync_all()?;
    fs::rename(&new, path)?;
    let folder = path.parent().filter(|folder| !folder.as_os_str().is_empty()).unwrap_or_else(|| Path::new("."));
    File::open(folder)?.sync_all()
}

#[cfg(test)]
mod tests {
    use super::*;
    use crate::files::tests::Folder;

    #[test]
    fn the_highest_edition_is_kept_on_disk() {
        let folder = Folder::new();
        let path = folder.file("seen", b"");
        let mut seen = Seen::open(&path).unwrap();
        assert_eq!(seen.highest(4711), None);
        seen.note([(4711, 1), (12, 0)]).unwrap();
        seen.note([(4711, 2), (12, 0)]).unwrap();
        seen.note([(4711, 1)]).unwrap();
        assert_eq!((seen.highest(4711), seen.highest(12), seen.highest(13)), (Some(2), Some(0), None));
        assert_eq!(fs::read(&path).unwrap(), b"12 0\n4711 2\n");
        drop(seen);
        assert_eq!(Seen::open(&path).unwrap().highest(4711), Some(2));
    }

    #[test]
    fn what_is_not_on_disk_was_not_seen() {
        let folder = Folder::new();
        let path = folder.file("seen", b"");
        let mut seen = Seen::open(&path).unwrap();
        fs::create_dir(folder.0.join("seen.new")).unwrap();
        assert!(seen.note([(4711, 2)]).unwrap_err().starts_with("cannot write"));
        assert_eq!(seen.highest(4711), None);
        fs::remove_dir(folder.0.join("seen.new")).unwrap();
        seen.note([(4711, 2)]).unwrap();
        assert_eq!(seen.highest(4711), Some(2));
    }

    #[test]
    fn a_list_that_is_missing_or_damaged_is_an_error() {
        let folder = Folder::new();
        assert!(Seen::open(&folder.0.join("seen")).err().unwrap().starts_with("cannot read"));
        let whole = b"1 2\n3 65535\n4294967295 0\n";
        assert_eq!(parse(whole).unwrap().len(), 3);
        for cut in 0..whole.len() {
            let is_line = cut == 0 || whole[cut - 1] == b'\n';
            assert_eq!(parse(&whole[..cut]).is_ok(), is_line, "{cut}");
        }
        for wrong in
            ["1 2\n\n", "1\n", "1 65536\n", "4294967296 1\n", "1 2\n1 3\n", "1  2\n", "-1 2\n", "1 2 3\n", "1 2\r\n"]
        {
            assert!(parse(wrong.as_bytes()).is_err(), "{wrong:?}");
        }
        assert!(parse(b"\xff 1\n").is_err() && parse(&[0; 4096]).is_err());
    }

    #[test]
    fn a_list_has_one_owner() {
        let folder = Folder::new();
        let path = folder.file("seen", b"");
        let seen = Seen::open(&path).unwrap();
        assert!(Seen::open(&path).err().unwrap().starts_with("cannot lock"));
        drop(seen);
        assert!(Seen::open(&path).is_ok());
    }
}
