//! The commands of a shelf: put, find, open, verify, collect and list.

use crate::files::{are_one, descriptor, look_at_shelf, replace, Output, Secret, Source};
use crate::keys;
use crate::message::Asked;
use crate::progress::Progress;
use crate::say::{answer, cannot, input, say, shown, told, Fail, FILES};
use crate::sys;
use crate::words::{Line, Thing};
use luossavin::reference::reference;
use luossavin::shelf::{Shelf, LARGEST};
use luossavin::{Direction, Refusal};
use std::ffi::{OsStr, OsString};
use std::fs::{self, File, OpenOptions, Permissions};
use std::io::{self, ErrorKind};
use std::os::unix::fs::{MetadataExt, OpenOptionsExt, PermissionsExt};
use std::path::{Path, PathBuf};
use std::thread::sleep;
use std::time::{Duration, Instant};

/// Mark, job, edition and length.
const HEAD: usize = 12;

/// A record of a shelf, as its head has it.
#[derive(Clone, Copy, Debug, PartialEq, Eq)]
struct Record {
    job: u32,
    edition: u16,
    is_current: bool,
    /// How many sealed bytes it has.
    length: usize,
}

/// The record at the front of some bytes, where one stands whole.
fn front(bytes: &[u8]) -> Option<Record> {
    let head: [u8; HEAD] = bytes.get(..HEAD)?.try_into().ok()?;
    let [r, mark, a, b, c, d, e, f, g, h, i, j] = head;
    let length = usize::try_from(u32::from_be_bytes([g, h, i, j])).ok()?;
    let is_whole = r == b'R' && (mark == b'D' || mark == b'X') && length <= bytes.len() - HEAD;
    let (job, edition) = (u32::from_be_bytes([a, b, c, d]), u16::from_be_bytes([e, f]));
    is_whole.then_some(Record { job, edition, is_current: mark == b'D', length })
}

/// The records of a shelf, up to where it breaks off, and that place.
fn records(bytes: &[u8]) -> (Vec<Record>, usize) {
    let mut records: Vec<Record> = Vec::new();
    let mut at = 0;
    while let Some(record) = bytes.get(at..).and_then(front) {
        let is_second = |other: &Record| record.is_current && other.is_current && other.job == record.job;
        if records.iter().any(is_second) {
            break;
        }
        at += HEAD + record.length;
        records.push(record);
    }
    (records, at)
}

fn refuse(line: &Line, refusal: Refusal, facts: &[(&str, String)]) -> Fail {
    let words = told(refusal, facts);
    Fail::refused(refusal, format!("{}{words}", line.about(&shown(line.word(Thing::Shelf)))))
}

/// The shelf that some bytes are, and these bytes.
fn load(line: &Line, bytes: Secret) -> Result<(Secret, Shelf), Fail> {
    match Shelf::load(&bytes, LARGEST) {
        Ok(shelf) => Ok((bytes, shelf)),
        Err(refusal) => {
            let general = "this shelf breaks off: there is no whole record, or a second current one of its job, or it has more than 65536 bytes";
            let fact = if bytes.len() > LARGEST {
                format!("this file has more than {LARGEST} bytes, which no shelf has")
            } else {
                let place = records(&bytes).1;
                format!("this shelf breaks off at byte {place}: there is no whole record there, or a second current one of its job")
            };
            Err(refuse(line, refusal, &[(general, fact)]))
        }
    }
}

/// Reads the shelf that a line names.
fn read(line: &Line) -> Result<(Secret, Shelf), Fail> {
    load(line, Source::open_shelf(line.word(Thing::Shelf))?.read(LARGEST, &mut Progress::none())?)
}

/// The current record of a job.
fn current<'a>(line: &Line, shelf: &'a Shelf, job: u32) -> Result<luossavin::shelf::Record<'a>, Fail> {
    shelf.find(job).map_err(|refusal| refuse(line, refusal, &[("of the job", format!("of job {job}"))]))
}

pub fn list(line: &Line) -> Result<u8, Fail> {
    let (records, _) = records(&read(line)?.0);
    let state = |record: &Record| if record.is_current { "current" } else { "superseded" };
    if line.says(Thing::Json) {
        let row = |record: &Record| {
            let (job, edition, state, length) = (record.job, record.edition, state(record), record.length);
            format!("{{\"job\":{job},\"edition\":{edition},\"state\":\"{state}\",\"bytes\":{length}}}")
        };
        let rows: Vec<String> = records.iter().map(row).collect();
        return answer(&line.object(0, None, &format!(",\"records\":[{}]", rows.join(","))));
    }
    let mut table = "       job   edition  state          bytes\n".to_string();
    for record in &records {
        let (job, edition, length) = (record.job, record.edition, record.length);
        table += &format!("{job:>10}{edition:>10}  {:<10}{length:>10}\n", state(record));
    }
    answer(&table)
}

pub fn find(line: &Line) -> Result<u8, Fail> {
    let job = line.number(Thing::Job)?.unwrap_or(0);
    let (_, shelf) = read(line)?;
    let record = current(line, &shelf, job)?;
    let (edition, length) = (record.edition(), record.sealed().len());
    let word = line.word(Thing::Shelf);
    if line.says(Thing::Out) {
        Output::look(line, false, &[])?.write(record.sealed())?;
        say(&format!("{}wrote edition {edition} of job {job}", line.about(&shown(word))));
    }
    if line.says(Thing::Json) && line.value(Thing::Out).and_then(descriptor) != Some(1) {
        answer(&line.object(0, None, &format!(",\"job\":{job},\"edition\":{edition},\"bytes\":{length}")))?;
    } else if !line.says(Thing::Out) {
        let what = format!("has edition {edition} of job {job} as the current one, a sealed file of {length} bytes");
        answer(&format!("{} {what}\n", shown(word)))?;
    }
    Ok(0)
}

pub fn open(line: &Line) -> Result<u8, Fail> {
    let mut asked = Asked::read(line, Direction::Decrypt)?;
    let job = asked.label.0;
    let (_, shelf) = read(line)?;
    let record = current(line, &shelf, job)?;
    let edition = record.edition();
    let name = std::mem::take(&mut asked.name);
    asked.name = format!("{name}, edition {edition} of job {job}");
    asked.label = (job, edition);
    let held = asked.key()?;
    let output = Output::look(line, true, &[("key", &held.file), ("IV", &asked.iv_file)])?;
    let (text, done) = asked.work(&held.key, record.sealed())?;
    output.write(&text)?;
    asked.warn(done);
    say(&format!("{}opened edition {edition} of job {job}", line.about(&name)));
    Ok(0)
}

/// Checks that every current record opens under its own label, with its IV in the list.
pub fn verify(line: &Line) -> Result<u8, Fail> {
    let mut asked = Asked::read(line, Direction::Decrypt)?;
    let ivs = keys::ivs(line)?;
    let (bytes, shelf) = read(line)?;
    let name = shown(line.word(Thing::Shelf));
    let held = keys::read(line, &name)?;
    let (mut first, mut missing, mut lines) = (None, 0, String::new());
    for record in records(&bytes).0.iter().filter(|record| record.is_current) {
        let (job, edition) = (record.job, record.edition);
        let what = format!("edition {edition} of job {job}");
        let iv = ivs.iter().find(|iv| (iv.0, iv.1) == (job, edition));
        lines += &match iv {
            None => {
                missing += 1;
                format!("{what}: not asked, since the list has no IV for it\n")
            }
            Some((_, _, iv)) => {
                (asked.name, asked.label, asked.iv) = (format!("{name}, {what}"), (job, edition), iv.clone());
                match asked.work(&held.key, current(line, &shelf, job)?.sealed()) {
                    Ok(_) => format!("{what}: opens\n"),
                    Err(fail) => {
                        let words = format!("{what}: {} {}\n", fail.status, fail.refusal.map_or("", Refusal::name));
                        first = first.or(Some(fail));
                        words
                    }
                }
            }
        };
    }
    answer(&lines)?;
    match (first, missing) {
        (Some(fail), _) => Err(fail),
        (None, 0) => Ok(0),
        (None, n) => {
            let list = input(line.word(Thing::Ivs));
            Err(Fail::new(FILES, format!("{}{list} has no IV for {n} of the current records", line.about(&name))))
        }
    }
}

/// The lock of a shelf: a file beside it that can be written but not read, so that only who may change the shelf can
/// take it. It is removed at the end; the system releases the lock of a run that was killed.
struct Turn {
    path: PathBuf,
    _file: File,
}

impl Turn {
    fn take(line: &Line) -> Result<Turn, Fail> {
        let word = line.word(Thing::Shelf);
        let path = PathBuf::from([word, OsStr::new(".lock")].into_iter().collect::<OsString>());
        let seconds = line.number::<u32>(Thing::Wait)?.map_or(30, u64::from);
        let began = Instant::now();
        let mut is_told = false;
        loop {
            let taken = Turn::try_take(word.as_ref(), &path).map_err(|error| cannot("write", &shown(word), &error))?;
            if let Some(file) = taken {
                return Ok(Turn { path, _file: file });
            }
            let name = line.about(&shown(word));
            if began.elapsed() >= Duration::from_secs(seconds) {
                let held = format!("another run has held {} for {seconds} seconds", shown(path.as_os_str()));
                let text = format!("{name}{held}; nothing was changed: try again, or wait longer with --wait SECONDS");
                return Err(Fail::new(FILES, text));
            }
            if !is_told && began.elapsed() >= Duration::from_secs(1) {
                say(&format!("{name}waiting for another run, which is changing it"));
                is_told = true;
            }
            sleep(Duration::from_millis(20));
        }
    }

    fn try_take(shelf: &Path, path: &Path) -> io::Result<Option<File>> {
        // a lock is an empty file; anything else of that name is somebody's, and is left alone
        if fs::symlink_metadata(path).map_or(false, |there| !there.is_file() || there.len() > 0) {
            let text = format!("{} is there, and is no lock of a shelf", shown(path.as_os_str()));
            return Err(io::Error::new(ErrorKind::AlreadyExists, text));
        }
        let mode = fs::metadata(shelf).map_or(0o666 & !sys::umask(), |about| about.mode()) & 0o222;
        let flags = sys::O_NOFOLLOW | sys::O_NONBLOCK;
        let file = match OpenOptions::new().write(true).create(true).mode(mode | 0o200).custom_flags(flags).open(path) {
            // of someone else, whose run is about to let us
            Err(error) if error.kind() == ErrorKind::PermissionDenied && path.exists() => return Ok(None),
            opened => opened?,
        };
        if !sys::lock(&file)? {
            return Ok(None);
        }
        // whoever had it before may have removed it, and another file may have its name
        let (ours, there) = (file.metadata()?, fs::symlink_metadata(path));
        if ours.len() > 0 || !there.map_or(false, |there| are_one(&there, &ours)) {
            return Ok(None);
        }
        // for the others who may write to the shelf; that it cannot be done keeps nobody from it
        if let Ok(about) = fs::metadata(shelf) {
            let _ = sys::give(&file, ours.uid(), about.gid());
            let _ = file.set_permissions(Permissions::from_mode(mode | 0o200));
        }
        Ok(Some(file))
    }
}

impl Drop for Turn {
    fn drop(&mut self) {
        let _ = fs::remove_file(&self.path);
    }
}

/// Changes a shelf, one run at a time. `is_new`: it may not be there yet.
fn change(line: &Line, is_new: bool, act: impl Fn(&mut Shelf, &[Record]) -> Result<(), Fail>) -> Result<(), Fail> {
    let word = line.word(Thing::Shelf);
    if look_at_shelf(word)?.is_none() && !is_new {
        read(line)?;
    }
    let turn = Turn::take(line)?;
    let old = look_at_shelf(word)?;
    let (bytes, mut shelf) = if old.is_none() && is_new { load(line, Secret::default())? } else { read(line)? };
    let (before, _) = records(&bytes);
    act(&mut shelf, &before)?;
    if old.is_none() || shelf.as_bytes() != &*bytes {
        replace(Path::new(word), &shown(word), shelf.as_bytes(), old.as_ref())?;
    }
    let (after, _) = records(shelf.as_bytes());
    let is_gone = |record: &&Record| !after.iter().any(|left| (left.job, left.edition) == (record.job, record.edition));
    for record in before.iter().filter(is_gone).filter(|_| is_new) {
        let what = format!("dropped edition {} of job {}, which is superseded, for room", record.edition, record.job);
        say(&format!("{}{what}", line.about(&shown(word))));
    }
    drop(turn);
    Ok(())
}

pub fn collect(line: &Line) -> Result<u8, Fail> {
    let collect = |shelf: &mut Shelf, _: &[Record]| shelf.collect().map_err(|refusal| refuse(line, refusal, &[]));
    change(line, false, collect)?;
    Ok(0)
}

/// Puts a sealed file on the shelf, or the reference to it: one that opens under its label, or, unchecked, any.
pub fn put(line: &Line) -> Result<u8, Fail> {
    let asked = Asked::read(line, Direction::Decrypt)?;
    let (job, edition) = asked.label;
    let is_checked = line.says(Thing::Key) && (line.says(Thing::Iv) || line.says(Thing::IvFile));
    if !is_checked && !line.says(Thing::Unchecked) {
        let text = "expected --key FILE and --iv HEX, to check that IN opens as this edition, or --unchecked to put it on the shelf without that check";
        return Err(line.fault(text));
    }
    look_at_shelf(line.word(Thing::Shelf))?;
    let sealed = if is_checked { asked.ask(&asked.key()?)? } else { asked.data()? };
    let named = if line.says(Thing::Reference) { Some(refer(line, &asked.iv, &sealed)?) } else { None };
    let entry = named.as_ref().map_or(&*sealed, |reference| &reference[..]);
    change(line, true, |shelf, before| {
        shelf.put(job, edition, entry).map_err(|refusal| {
            let highest = before.iter().filter(|record| record.job == job).map(|record| record.edition).max();
            let has = format!("edition {} of job {job} already,", highest.unwrap_or(0));
            let not = format!("only a higher one, not {edition}");
            let facts = [("that edition of the job already, or a higher one,", has), ("only a higher one", not)];
            refuse(line, refusal, &facts)
        })
    })?;
    Ok(0)
}

/// The IV and the tag of a sealed file, in its place.
fn refer(line: &Line, iv: &[u8], sealed: &[u8]) -> Result<[u8; luossavin::reference::LENGTH], Fail> {
    reference(iv, sealed).map_err(|refusal| {
        let size = format!("{} bytes, and a reference has one of 16", iv.len());
        refuse(line, refusal, &[("another size, not 16 bytes, nor 12 in gcm", size)])
    })
}

#[cfg(test)]
mod tests {
    use super::*;

    fn record(mark: u8, job: u8, edition: u8, sealed: &[u8]) -> Vec<u8> {
        [&[b'R', mark, 0, 0, 0, job, 0, edition, 0, 0, 0, sealed.len() as u8], sealed].concat()
    }

    #[test]
    fn a_turn_is_one_runs_and_its_lock_cannot_be_read() {
        let shelf = std::env::temp_dir().join(format!("luossavin-turn-{}", std::process::id()));
        let path = shelf.with_extension("lock");
        for mode in [0o644, 0o664, 0o600] {
            fs::write(&shelf, b"").unwrap();
            fs::set_permissions(&shelf, Permissions::from_mode(mode)).unwrap();
            let file = Turn::try_take(&shelf, &path).unwrap().unwrap();
            assert_eq!(fs::metadata(&path).unwrap().mode() & 0o777, mode & 0o222);
            assert!(Turn::try_take(&shelf, &path).unwrap().is_none());
            drop(Turn { path: path.clone(), _file: file });
            assert!(!path.exists());
        }
        fs::remove_file(shelf).unwrap();
    }

    #[test]
    fn records_are_read_up_to_where_a_shelf_breaks_off() {
        let whole = [record(b'X', 1, 1, b"old"), record(b'D', 1, 2, b"new!"), record(b'D', 2, 0, b"")].concat();
        let (list, end) = records(&whole);
        assert_eq!(end, whole.len());
        assert_eq!(list.len(), 3);
        assert_eq!(list[1], Record { job: 1, edition: 2, is_current: true, length: 4 });
        for cut in 0..whole.len() {
            let place = [0, 15, 31, 43].into_iter().filter(|place| *place <= cut).max().unwrap();
            assert_eq!(records(&whole[..cut]).1, place);
            let bad = Shelf::load(&whole[..cut], LARGEST).is_err();
            assert_eq!(bad, place != cut);
        }
        let second = [&whole[..], &record(b'D', 1, 3, b"")].concat();
        assert_eq!(records(&second).1, whole.len());
        let mark = [&whole[..], &record(b'E', 3, 3, b"")].concat();
        assert_eq!(records(&mark).1, whole.len());
    }
}
