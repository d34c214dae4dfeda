//! Files: each input is read once, into one buffer; an output appears whole or not at all.

use crate::progress::Progress;
use crate::say::{cannot, input, shown, why, Fail};
use crate::sys;
use crate::words::{name, Line, Thing};
use std::ffi::{OsStr, OsString};
use std::fs::{self, File, Metadata, OpenOptions, Permissions};
use std::io::{self, ErrorKind, Read, Write};
use std::os::unix::ffi::OsStrExt;
use std::os::unix::fs::{FileTypeExt, MetadataExt, OpenOptionsExt, PermissionsExt};
use std::os::unix::io::{AsRawFd, RawFd};
use std::path::{Path, PathBuf};

/// How many bytes are read at a time if the length is not known.
pub const PORTION: usize = 65_536;

/// Bytes that are overwritten when they are dropped: keys, and texts.
#[derive(Default)]
pub struct Secret(pub Vec<u8>);

impl Secret {
    /// Shortens it to at most `n` bytes.
    pub fn shorten(&mut self, n: usize) {
        if let Some(rest) = self.0.get_mut(n..) {
            sys::wipe(rest);
            self.0.truncate(n);
        }
    }

    /// More room, in new memory; the old is wiped.
    fn grow(&mut self, n: usize) {
        let mut larger = vec![0; n.max(self.0.len())];
        larger.iter_mut().zip(&self.0).for_each(|(to, from)| *to = *from);
        sys::wipe(&mut self.0);
        self.0 = larger;
    }
}

impl std::ops::Deref for Secret {
    type Target = [u8];

    fn deref(&self) -> &[u8] {
        &self.0
    }
}

impl std::ops::DerefMut for Secret {
    fn deref_mut(&mut self) -> &mut [u8] {
        &mut self.0
    }
}

impl Drop for Secret {
    fn drop(&mut self) {
        sys::wipe(&mut self.0);
    }
}

/// A file that is read, once.
pub struct Source {
    file: File,
    /// Its name in error messages: "the key team.key".
    called: String,
    pub about: Metadata,
}

impl Source {
    /// Opens a file, or standard input for `-`.
    pub fn open(word: &OsStr, what: &str) -> Result<Source, Fail> {
        let called = format!("{what}{}", input(word));
        let opened = if word == "-" { sys::copy_of(0) } else { File::open(word) };
        Source::of(opened, called)
    }

    fn of(opened: io::Result<File>, called: String) -> Result<Source, Fail> {
        match opened.and_then(|file| file.metadata().map(|about| (file, about))) {
            Ok((file, about)) => Ok(Source { file, called, about }),
            Err(error) => Err(cannot("read", &called, &error)),
        }
    }

    /// Opens a shelf, which must be a regular file: a pipe could block.
    pub fn open_shelf(word: &OsStr) -> Result<Source, Fail> {
        let source = Source::of(OpenOptions::new().read(true).custom_flags(sys::O_NONBLOCK).open(word), shown(word))?;
        if !source.about.is_file() && !source.about.is_dir() {
            return Err(Fail::files(format!("cannot read {}: expected a file", source.called)));
        }
        Ok(source)
    }

    /// How many bytes the file has, if the system knows.
    pub fn size(&self) -> Option<u64> {
        self.about.is_file().then_some(self.about.len())
    }

    /// Some of the next bytes; none at the end.
    pub fn some(&mut self, into: &mut [u8]) -> Result<usize, Fail> {
        loop {
            match self.file.read(into) {
                Err(error) if error.kind() == ErrorKind::Interrupted => {}
                read => return read.map_err(|error| cannot("read", &self.called, &error)),
            }
        }
    }

    /// All of it, up to `most` + 1 bytes: one byte more shows that it is too long.
    pub fn read(&mut self, most: usize, progress: &mut Progress) -> Result<Secret, Fail> {
        let expected = self.size().and_then(|size| usize::try_from(size).ok()).unwrap_or(PORTION);
        let mut held = Secret(vec![0; expected.min(most) + 1]);
        let mut filled = 0;
        while filled <= most {
            if filled == held.len() {
                held.grow((2 * filled).min(most + 1));
            }
            let room = held.get_mut(filled..).unwrap_or_default();
            let n = self.some(room)?;
            if n == 0 {
                break;
            }
            filled += n;
            progress.at(filled as u64);
        }
        held.shorten(filled);
        Ok(held)
    }
}

/// All of a small file that is named by an option.
pub fn read_small(word: &OsStr, what: &str, most: usize) -> Result<Secret, Fail> {
    Source::open(word, what)?.read(most, &mut Progress::none())
}

/// Whether two names are the same file.
pub fn are_one(a: &Metadata, b: &Metadata) -> bool {
    (a.dev(), a.ino()) == (b.dev(), b.ino())
}

/// The words of a line that name files which are read.
const READ: [Thing; 7] =
    [Thing::Key, Thing::IvFile, Thing::Candidates, Thing::Keys, Thing::Ivs, Thing::Shelf, Thing::In];

/// Checks that standard input is used for one argument only, that a shelf is named once, and that standard output or a
/// descriptor is not a file that is read.
pub fn mind(line: &Line) -> Result<(), Fail> {
    let said: Vec<(Thing, &OsStr)> = READ.iter().filter_map(|thing| Some((*thing, line.value(*thing)?))).collect();
    let mut from_input = said.iter().filter(|said| said.1 == "-");
    if line.word(Thing::Shelf) == "-" {
        return Err(line.wrong(Thing::Shelf, line.word(Thing::Shelf)));
    }
    if let (Some(a), Some(b)) = (from_input.next(), from_input.next()) {
        let both = format!("{} and {}", name(a.0), name(b.0));
        return Err(line.fault(&format!("expected standard input for one of {both}, not for both")));
    }
    let about =
        |word: &OsStr| if word == "-" { sys::copy_of(0).and_then(|file| file.metadata()) } else { fs::metadata(word) };
    let out = line.value(Thing::Out).filter(|word| descriptor(word).is_none());
    let files: Vec<(Thing, Metadata)> = said
        .iter()
        .copied()
        .chain(out.map(|word| (Thing::Out, word)))
        .filter_map(|(thing, word)| Some((thing, about(word).ok().filter(Metadata::is_file)?)))
        .collect();
    if let Some((_, shelf)) = files.iter().find(|file| file.0 == Thing::Shelf) {
        if files.iter().any(|file| file.0 != Thing::Shelf && are_one(&file.1, shelf)) {
            return Err(Fail::files("the shelf is named twice on the command line; expected another file".to_string()));
        }
    }
    let out = line.value(Thing::Out).and_then(descriptor).unwrap_or(1);
    for (fd, what) in [(1, "standard output"), (out, "OUT")] {
        let about = sys::copy_of(fd).and_then(|file| file.metadata());
        if about.map_or(false, |about| about.is_file() && files.iter().any(|file| are_one(&file.1, &about))) {
            return Err(Fail::files(format!(
                "{what} is a file that is named elsewhere on the command line; expected another"
            )));
        }
    }
    Ok(())
}

/// Where OUT goes.
enum Target {
    /// A descriptor, a device or a named pipe: written directly.
    Descriptor(RawFd),
    Device,
    Pipe,
    /// A file that exists, and one that does not.
    Old(Metadata),
    New,
}

/// What OUT is, with nothing done to it yet.
pub struct Output {
    word: OsString,
    called: String,
    target: Target,
    pub is_terminal: bool,
}

/// The descriptor that a name stands for, such as /dev/stdout.
pub fn descriptor(word: &OsStr) -> Option<RawFd> {
    match word.to_str()? {
        "-" | "/dev/stdout" => Some(1),
        "/dev/stderr" => Some(2),
        name => name.strip_prefix("/dev/fd/").or_else(|| name.strip_prefix("/proc/self/fd/"))?.parse().ok(),
    }
}

impl Output {
    /// Checks OUT: it must not be a folder or a link, nor the file of the key or the IV; and a terminal gets no binary
    /// output without `--force`.
    pub fn look(line: &Line, is_text: bool, held: &[(&str, &[u8])]) -> Result<Output, Fail> {
        let word = line.word(Thing::Out).to_os_string();
        let called = if word == "-" { "standard output".to_string() } else { shown(&word) };
        let refuse = |why: &str| Err(Fail::files(format!("cannot write {called}: {why}")));
        let fd = descriptor(&word);
        let target = match (fd, fs::symlink_metadata(&word)) {
            (Some(fd), _) => Target::Descriptor(fd),
            (None, Ok(about)) if about.is_symlink() => {
                return refuse("it is a link; expected the file itself, or - for standard output")
            }
            (None, Ok(about)) if about.is_dir() => return refuse("Is a directory"),
            (None, Ok(about)) if about.is_file() => Target::Old(about),
            (None, Ok(about)) if about.file_type().is_fifo() => Target::Pipe,
            (None, Ok(_)) => Target::Device,
            (None, Err(error)) if error.raw_os_error() == Some(sys::ENOENT) && !word.is_empty() => Target::New,
            (None, Err(error)) => return refuse(&why(&error)),
        };
        let is_terminal = match target {
            Target::Descriptor(fd) => sys::is_terminal(fd),
            Target::Device => File::open(&word).map_or(false, |file| sys::is_terminal(file.as_raw_fd())),
            _ => false,
        };
        if is_terminal && !is_text && !line.says(Thing::Force) {
            let text = "expected a file for OUT, not a terminal, since the output is binary; or --force";
            return Err(line.fault(text));
        }
        let path = fd.map_or(PathBuf::from(&word), |fd| PathBuf::from(format!("/proc/self/fd/{fd}")));
        for (what, bytes) in held {
            if holds(&path, bytes) {
                return refuse(&format!("it holds the {what}; expected another file"));
            }
        }
        Ok(Output { word, called, target, is_terminal })
    }

    /// Whether output is written directly, and cannot be taken back.
    pub fn is_straight(&self) -> bool {
        !matches!(self.target, Target::Old(_) | Target::New)
    }

    /// Opens an output that is written directly.
    pub fn straight(&self) -> Result<File, Fail> {
        let opened = match self.target {
            Target::Descriptor(fd) => sys::copy_of(fd),
            _ => OpenOptions::new().write(true).custom_flags(sys::O_NOFOLLOW).open(&self.word),
        };
        opened.map_err(|error| cannot("write", &self.called, &error))
    }

    /// Writes a part of an output that is written directly.
    pub fn put(&self, to: &mut File, bytes: &[u8]) -> Result<(), Fail> {
        to.write_all(bytes).map_err(|error| cannot("write", &self.called, &error))
    }

    /// The error message of a run that fails after a part of OUT was written.
    pub fn not_whole(&self, fail: Fail) -> Fail {
        let text = format!("{}\nluossavin: what was written to {} is not whole", fail.text, self.called);
        Fail { text, ..fail }
    }

    /// Writes all of OUT.
    pub fn write(&self, bytes: &[u8]) -> Result<(), Fail> {
        match &self.target {
            Target::Old(about) => replace(Path::new(&self.word), &self.called, bytes, Some(about)),
            Target::New => replace(Path::new(&self.word), &self.called, bytes, None),
            _ => self.put(&mut self.straight()?, bytes),
        }
    }
}

/// Whether a file exists with exactly these bytes.
fn holds(path: &Path, bytes: &[u8]) -> bool {
    let is_as_long = |about: Metadata| about.is_file() && about.len() == bytes.len() as u64;
    let mut here = Secret(vec![0; bytes.len()]);
    !bytes.is_empty()
        && fs::metadata(path).map_or(false, is_as_long)
        && File::open(path).and_then(|mut file| file.read_exact(&mut here)).is_ok()
        && *here == *bytes
}

/// Random bytes in hex digits.
pub fn random(n: usize) -> io::Result<String> {
    let mut random = vec![0; n];
    File::open("/dev/urandom")?.read_exact(&mut random)?;
    Ok(random.iter().map(|byte| format!("{byte:02x}")).collect())
}

/// A name in a folder that nobody can guess.
fn unguessed(folder: &Path) -> io::Result<PathBuf> {
    Ok(folder.join(format!(".luossavin-{}", random(8)?)))
}

/// The folder that a file is in.
fn folder_of(path: &Path) -> &Path {
    path.parent().filter(|folder| !folder.as_os_str().is_empty()).unwrap_or_else(|| Path::new("."))
}

/// A new file without a name; or, if there are no such files, with a temporary name that is removed again.
struct Unfinished {
    file: File,
    name: Option<PathBuf>,
}

impl Unfinished {
    fn start(folder: &Path) -> io::Result<Unfinished> {
        let unnamed = OpenOptions::new().write(true).mode(0o600).custom_flags(sys::O_TMPFILE).open(folder);
        match unnamed {
            Ok(file) if Path::new("/proc/self/fd").is_dir() => Ok(Unfinished { file, name: None }),
            Err(error) if matches!(error.kind(), ErrorKind::NotFound | ErrorKind::PermissionDenied) => Err(error),
            // a file system that has no files without names
            _ => {
                sys::hold_signals();
                let name = unguessed(folder)?;
                let file = OpenOptions::new().write(true).create_new(true).mode(0o600).open(&name)?;
                Ok(Unfinished { file, name: Some(name) })
            }
        }
    }

    /// Gives the file a name that no file has.
    fn link(&self, path: &Path) -> io::Result<()> {
        match &self.name {
            None => sys::link(&self.file, path),
            // where there are no links, nothing better is to be had than to look first
            Some(name) => fs::hard_link(name, path).or_else(|error| match error.raw_os_error() {
                Some(sys::EEXIST) => Err(error),
                _ if fs::symlink_metadata(path).is_ok() => Err(io::Error::from_raw_os_error(sys::EEXIST)),
                _ => fs::rename(name, path),
            }),
        }
    }

    /// Puts the file in the place of another.
    fn put_over(&mut self, path: &Path) -> io::Result<()> {
        if self.name.is_none() {
            let name = unguessed(folder_of(path))?;
            sys::hold_signals();
            sys::link(&self.file, &name)?;
            self.name = Some(name);
        }
        // what no rename took away is taken away when this is dropped
        self.name.as_ref().map_or(Ok(()), |name| fs::rename(name, path))
    }
}

impl Drop for Unfinished {
    fn drop(&mut self) {
        if let Some(name) = &self.name {
            let _ = fs::remove_file(name);
        }
    }
}

/// Writes a file that appears whole or not at all, in the place of the old one where there is one, with its
/// permissions, owner and group.
pub fn replace(path: &Path, called: &str, bytes: &[u8], old: Option<&Metadata>) -> Result<(), Fail> {
    let cannot_write = |error: io::Error| cannot("write", called, &error);
    let folder = folder_of(path);
    let mut new = Unfinished::start(folder).map_err(cannot_write)?;
    new.file.write_all(bytes).map_err(cannot_write)?;
    let made = new.file.metadata().map_err(cannot_write)?;
    if let Some(old) = old.filter(|old| (old.uid(), old.gid()) != (made.uid(), made.gid())) {
        let whose = format!("{called}, which belongs to user {} and group {}", old.uid(), old.gid());
        let whose = format!("{whose}, and a new file cannot be given to them");
        sys::give(&new.file, old.uid(), old.gid()).map_err(|error| cannot("write", &whose, &error))?;
    }
    let mode = old.map_or(0o666 & !sys::umask(), |old| old.mode() & 0o7777);
    new.file.set_permissions(Permissions::from_mode(mode)).map_err(cannot_write)?;
    new.file.sync_all().map_err(cannot_write)?;
    let lost = "another run has written it meanwhile, and it is left as it is";
    match if old.is_some() { new.put_over(path) } else { new.link(path) } {
        Err(error) if old.is_none() && error.raw_os_error() == Some(sys::EEXIST) => {
            return Err(Fail::files(format!("cannot write {called}: {lost}")));
        }
        put => put.map_err(cannot_write)?,
    }
    // a folder that cannot be read cannot be synced either
    if let Ok(folder) = File::open(folder) {
        let _ = folder.sync_all();
    }
    Ok(())
}

/// What a shelf is that is to be changed: a file, or nothing yet.
pub fn look_at_shelf(word: &OsStr) -> Result<Option<Metadata>, Fail> {
    let refuse = |why: &str| Err(Fail::files(format!("cannot write {}: {why}", shown(word))));
    match fs::symlink_metadata(word) {
        Ok(about) if about.is_symlink() => refuse("it is a link; expected the file itself"),
        Ok(about) if about.is_file() => Ok(Some(about)),
        Ok(about) if about.file_type().is_dir() => refuse("Is a directory"),
        Ok(about) if about.file_type().is_fifo() => refuse("expected a file, and this is a pipe"),
        Ok(_) => refuse("expected a file, which can be replaced"),
        Err(error) if error.raw_os_error() == Some(sys::ENOENT) => Ok(None),
        Err(error) => Err(cannot("read", &shown(word), &error)),
    }
}

/// The lines of a text, without their ends, each with its number from 1 on.
pub fn lines(text: &[u8]) -> impl Iterator<Item = (usize, &OsStr)> {
    let text = text.strip_suffix(b"\n").unwrap_or(text);
    let count = if text.is_empty() { 0 } else { usize::MAX };
    text.split(|byte| *byte == b'\n')
        .take(count)
        .map(|line| OsStr::from_bytes(line.strip_suffix(b"\r").unwrap_or(line)))
        .enumerate()
        .map(|(at, line)| (at + 1, line))
}

#[cfg(test)]
mod tests {
    use super::*;

    fn room(name: &str) -> PathBuf {
        let room = std::env::temp_dir().join(format!("luossavin-files-{name}-{}", std::process::id()));
        fs::create_dir_all(&room).unwrap();
        room
    }

    #[test]
    fn a_new_file_appears_once_and_an_old_one_is_replaced() {
        let room = room("replace");
        let path = room.join("out");
        replace(&path, "out", b"first", None).unwrap();
        let fail = replace(&path, "out", b"second", None).unwrap_err();
        assert!(fail.text.contains("another run has written it meanwhile"), "{}", fail.text);
        assert_eq!(fs::read(&path).unwrap(), b"first");
        fs::set_permissions(&path, Permissions::from_mode(0o640)).unwrap();
        let about = fs::metadata(&path).unwrap();
        replace(&path, "out", b"third", Some(&about)).unwrap();
        assert_eq!(fs::read(&path).unwrap(), b"third");
        assert_eq!(fs::metadata(&path).unwrap().mode() & 0o7777, 0o640);
        assert_eq!(fs::read_dir(&room).unwrap().count(), 1);
        fs::remove_dir_all(room).unwrap();
    }

    #[test]
    fn a_file_with_a_name_is_taken_away_again() {
        let room = room("named");
        let start = |name: &str| {
            let name = room.join(name);
            Unfinished { file: File::create(&name).unwrap(), name: Some(name) }
        };
        start("dropped");
        start("linked").link(&room.join("new")).unwrap();
        assert_eq!(start("again").link(&room.join("new")).unwrap_err().raw_os_error(), Some(sys::EEXIST));
        start("over").put_over(&room.join("new")).unwrap();
        assert_eq!(fs::read_dir(&room).unwrap().count(), 1);
        fs::remove_dir_all(room).unwrap();
    }

    #[test]
    fn signals_wait_while_a_file_has_a_name_that_is_not_its_own() {
        let room = room("signals");
        // bits for HUP, INT and TERM, of the thread that asks
        let held = || {
            let status = fs::read_to_string("/proc/thread-self/status").unwrap();
            let set = status.lines().find_map(|line| line.strip_prefix("SigBlk:\t")).unwrap();
            u64::from_str_radix(set, 16).unwrap() & 0x4003
        };
        let mut new = Unfinished::start(&room).unwrap();
        assert_eq!(held() == 0, new.name.is_none());
        new.put_over(&room.join("out")).unwrap();
        assert_eq!(held(), 0x4003);
        fs::remove_dir_all(room).unwrap();
    }

    #[test]
    fn a_file_is_read_up_to_a_byte_more_than_it_may_have() {
        let room = room("read");
        let path = room.join("in");
        for n in [0, 1, 9, 10, 11, 12] {
            fs::write(&path, vec![7; n]).unwrap();
            let held = read_small(path.as_os_str(), "", 10).unwrap();
            assert_eq!(held.len(), n.min(11));
        }
        fs::remove_dir_all(room).unwrap();
    }

    #[test]
    fn a_secret_grows_and_shortens() {
        let mut secret = Secret(vec![1, 2, 3]);
        secret.grow(5);
        assert_eq!(*secret, [1, 2, 3, 0, 0]);
        secret.shorten(2);
        assert_eq!(*secret, [1, 2]);
    }

    #[test]
    fn lines_have_numbers_and_no_ends() {
        let read = |text: &'static [u8]| lines(text).map(|(n, line)| (n, line.to_str().unwrap())).collect::<Vec<_>>();
        assert_eq!(read(b""), []);
        assert_eq!(read(b"a\r\n\nb"), [(1, "a"), (2, ""), (3, "b")]);
        assert_eq!(read(b"a\n"), [(1, "a")]);
    }
}
