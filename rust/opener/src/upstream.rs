//! Where the sealed files come from: a caching proxy, by HTTP/1.0 over a Unix socket, or a folder.

use crate::files::{self, Timed};
use std::io::{self, Read, Write};
use std::os::unix::net::UnixStream;
use std::path::{Path, PathBuf};
use std::time::Instant;

/// The most bytes of a response's head.
const LONGEST_HEAD: usize = 16_384;

pub enum Upstream {
    /// The socket of a cache that has the files below /sealed/.
    Cache(PathBuf),
    Folder(PathBuf),
}

impl Upstream {
    /// Fetches the file of a job, of up to `most` bytes; `again` has the cache ask the store. The file begins at the
    /// place in `into` that is answered.
    pub fn fetch(
        &self, job: u32, again: bool, until: Instant, most: usize, into: &mut Vec<u8>,
    ) -> Result<usize, String> {
        into.clear();
        match self {
            Upstream::Folder(folder) => files::read_into(&folder.join(job.to_string()), most, into).map(|()| 0),
            Upstream::Cache(socket) => {
                let cannot = |error: io::Error| format!("the cache {} does not answer: {error}", socket.display());
                get(socket, &format!("/sealed/{job}"), again, until, LONGEST_HEAD + most, into).map_err(cannot)?;
                let start = body(into)?;
                if into.len() - start > most {
                    return Err(format!("the cache's file has more than {most} bytes"));
                }
                Ok(start)
            }
        }
    }
}

/// The whole response to a request for a path, up to a byte more than `most`.
fn get(socket: &Path, path: &str, again: bool, until: Instant, most: usize, into: &mut Vec<u8>) -> io::Result<()> {
    let stream = UnixStream::connect(socket)?;
    let mut timed = Timed { stream: &stream, until };
    let control = if again { "Cache-Control: no-cache\r\n" } else { "" };
    timed.write_all(format!("GET {path} HTTP/1.0\r\nHost: luossavin\r\n{control}\r\n").as_bytes())?;
    timed.take(most as u64 + 1).read_to_end(into).map(|_| ())
}

/// Where the body of a response begins, which is 200 and whole.
fn body(response: &[u8]) -> Result<usize, String> {
    let front = response.get(..LONGEST_HEAD).unwrap_or(response);
    let end = front.windows(4).position(|four| four == b"\r\n\r\n").ok_or("the cache's answer is no HTTP")?;
    let (start, head) = (end + 4, String::from_utf8_lossy(front.get(..end).unwrap_or_default()));
    let mut lines = head.split("\r\n");
    let status = lines.next().and_then(|line| line.strip_prefix("HTTP/1.")?.get(2..5)?.parse::<u16>().ok());
    match status.ok_or("the cache's answer is no HTTP")? {
        200 => {}
        other => return Err(format!("the cache answers with {other}")),
    }
    for (name, value) in lines.filter_map(|line| line.split_once(':')) {
        if name.eq_ignore_ascii_case("content-length") && value.trim().parse() != Ok(response.len() - start) {
            return Err("the cache's answer breaks off, or is longer than it says".to_string());
        }
        if name.eq_ignore_ascii_case("transfer-encoding") || name.eq_ignore_ascii_case("content-encoding") {
            return Err("the cache's answer is packed or in chunks".to_string());
        }
    }
    Ok(start)
}

#[cfg(test)]
mod tests {
    use super::*;
    use crate::files::tests::Folder;
    use std::os::unix::net::UnixListener;
    use std::time::Duration;

    /// What is fetched from a cache that answers with some bytes, and what it was asked.
    fn fetched(answer: &'static [u8], again: bool, most: usize) -> (Result<Vec<u8>, String>, String) {
        let folder = Folder::new();
        let socket = folder.0.join("cache");
        let listener = UnixListener::bind(&socket).unwrap();
        let cache = std::thread::spawn(move || {
            let mut asked = vec![0; 200];
            let (mut stream, _) = listener.accept().unwrap();
            let length = stream.read(&mut asked).unwrap();
            // the other side may have gone
            let _ = stream.write_all(answer);
            String::from_utf8(asked[..length].to_vec()).unwrap()
        });
        let mut into = b"old".to_vec();
        let until = Instant::now() + Duration::from_secs(10);
        let start = Upstream::Cache(socket).fetch(4711, again, until, most, &mut into);
        (start.map(|start| into[start..].to_vec()), cache.join().unwrap())
    }

    #[test]
    fn a_file_is_fetched_from_a_cache() {
        let (file, asked) = fetched(b"HTTP/1.1 200 OK\r\nContent-Length: 4\r\nX: \xff\r\n\r\nfile", false, 4);
        assert_eq!(file.unwrap(), b"file");
        assert_eq!(asked, "GET /sealed/4711 HTTP/1.0\r\nHost: luossavin\r\n\r\n");
        let (file, asked) = fetched(b"HTTP/1.0 200\r\n\r\n", true, 0);
        assert_eq!(file.unwrap(), b"");
        assert!(asked.ends_with("\r\nCache-Control: no-cache\r\n\r\n"), "{asked}");
    }

    #[test]
    fn what_is_no_file_is_an_error() {
        let why = |answer| fetched(answer, false, 4).0.unwrap_err();
        assert_eq!(why(b"HTTP/1.1 404 Not Found\r\n\r\n"), "the cache answers with 404");
        assert_eq!(why(b"HTTP/1.1 200 OK\r\n\r\nfive."), "the cache's file has more than 4 bytes");
        for wrong in
            [&b""[..], b"HTTP/1.1 200 OK\r\n", b"HTTP/2 200\r\n\r\n", b"file", b"HTTP/1.\xff 200\r\n\r\n", &[0; 40_000]]
        {
            assert_eq!(why(wrong), "the cache's answer is no HTTP");
        }
        assert!(why(b"HTTP/1.1 200 OK\r\ncontent-length: 4\r\n\r\nfil").contains("breaks off"));
        assert!(why(b"HTTP/1.1 200 OK\r\nContent-Length: x\r\n\r\nfile").contains("breaks off"));
        assert!(why(b"HTTP/1.1 200 OK\r\nTransfer-Encoding: chunked\r\n\r\n0\r\n").contains("in chunks"));
    }

    #[test]
    fn a_cache_that_is_down_or_silent_is_an_error() {
        let folder = Folder::new();
        let upstream = Upstream::Cache(folder.0.join("cache"));
        let until = Instant::now() + Duration::from_millis(30);
        let fetch = |upstream: &Upstream| upstream.fetch(1, false, until, 9, &mut Vec::new()).unwrap_err();
        assert!(fetch(&upstream).contains("does not answer: No such file"));
        let _silent = UnixListener::bind(folder.0.join("cache")).unwrap();
        assert!(fetch(&upstream).contains("does not answer: "));
        assert!(Instant::now() >= until);
    }

    #[test]
    fn a_file_is_fetched_from_a_folder() {
        let folder = Folder::new();
        folder.file("4711", b"file");
        let upstream = Upstream::Folder(folder.0.clone());
        let mut into = b"old".to_vec();
        assert_eq!(upstream.fetch(4711, true, Instant::now(), 4, &mut into), Ok(0));
        assert_eq!(into, b"file");
        assert!(upstream.fetch(4711, true, Instant::now(), 3, &mut into).is_err());
        assert!(upstream.fetch(4712, true, Instant::now(), 4, &mut into).is_err());
    }
}
