//! Files that are read whole, and the deadline of a stream.

use crate::sys;
use std::fs::OpenOptions;
use std::io::{self, ErrorKind, Read, Write};
use std::os::unix::fs::OpenOptionsExt;
use std::os::unix::net::UnixStream;
use std::path::Path;
use std::time::{Duration, Instant};

/// All of a file behind what `into` holds: no folder, no pipe, and no more than `most` bytes.
pub fn read_into(path: &Path, most: usize, into: &mut Vec<u8>) -> Result<(), String> {
    let cannot = |why: String| format!("cannot read {}: {why}", path.display());
    let opened = OpenOptions::new().read(true).custom_flags(sys::O_NONBLOCK).open(path);
    let file = opened.map_err(|error| cannot(error.to_string()))?;
    let about = file.metadata().map_err(|error| cannot(error.to_string()))?;
    if !about.is_file() {
        return Err(cannot("it is no file".to_string()));
    }
    let before = into.len();
    file.take(most as u64 + 1).read_to_end(into).map_err(|error| cannot(error.to_string()))?;
    if into.len() - before > most {
        return Err(cannot(format!("it has more than {most} bytes")));
    }
    Ok(())
}

pub fn read(path: &Path, most: usize) -> Result<Vec<u8>, String> {
    let mut bytes = Vec::new();
    read_into(path, most, &mut bytes).map(|()| bytes)
}

/// How long it is until then.
fn left(until: Instant) -> io::Result<Duration> {
    until
        .checked_duration_since(Instant::now())
        .filter(|left| !left.is_zero())
        .ok_or_else(|| ErrorKind::TimedOut.into())
}

/// A stream that is read and written until a deadline, however slowly the other side goes.
pub struct Timed<'a> {
    pub stream: &'a UnixStream,
    pub until: Instant,
}

impl Read for Timed<'_> {
    fn read(&mut self, into: &mut [u8]) -> io::Result<usize> {
        self.stream.set_read_timeout(Some(left(self.until)?))?;
        self.stream.read(into)
    }
}

impl Write for Timed<'_> {
    fn write(&mut self, bytes: &[u8]) -> io::Result<usize> {
        self.stream.set_write_timeout(Some(left(self.until)?))?;
        self.stream.write(bytes)
    }

    fn flush(&mut self) -> io::Result<()> {
        Ok(())
    }
}

#[cfg(test)]
pub mod tests {
    use super::*;
    use std::path::PathBuf;
    use std::sync::atomic::{AtomicUsize, Ordering};

    /// A new folder, which is removed at the end.
    pub struct Folder(pub PathBuf);

    impl Folder {
        pub fn new() -> Folder {
            static COUNT: AtomicUsize = AtomicUsize::new(0);
            let name = format!("luossavin-opener-{}-{}", std::process::id(), COUNT.fetch_add(1, Ordering::Relaxed));
            let path = std::env::temp_dir().join(name);
            std::fs::create_dir(&path).unwrap();
            Folder(path)
        }

        pub fn file(&self, name: &str, bytes: &[u8]) -> PathBuf {
            let path = self.0.join(name);
            std::fs::write(&path, bytes).unwrap();
            path
        }
    }

    impl Drop for Folder {
        fn drop(&mut self) {
            let _ = std::fs::remove_dir_all(&self.0);
        }
    }

    #[test]
    fn a_file_is_read_up_to_a_limit() {
        let folder = Folder::new();
        let path = folder.file("a", b"12345");
        assert_eq!(read(&path, 5).unwrap(), b"12345");
        assert!(read(&path, 4).unwrap_err().ends_with("it has more than 4 bytes"));
        assert!(read(&folder.0, 5).unwrap_err().ends_with("it is no file"));
        assert!(read(&folder.0.join("b"), 5).unwrap_err().contains("No such file"));
        let mut bytes = b"0".to_vec();
        read_into(&path, 5, &mut bytes).unwrap();
        assert_eq!(bytes, b"012345");
    }

    #[test]
    fn a_stream_ends_at_its_deadline() {
        let (stream, mut other) = UnixStream::pair().unwrap();
        let timed =
            |milliseconds| Timed { stream: &stream, until: Instant::now() + Duration::from_millis(milliseconds) };
        let mut bytes = [0; 4];
        other.write_all(b"ab").unwrap();
        assert_eq!(timed(60_000).read(&mut bytes).unwrap(), 2);
        assert!(timed(20).read(&mut bytes).is_err());
        assert!(timed(0).read(&mut bytes).is_err() && timed(0).write(&bytes).is_err());
        assert_eq!(timed(60_000).write(&bytes).unwrap(), 4);
    }
}
