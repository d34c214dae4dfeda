//! A request, as nginx hands it over by SCGI: a netstring of names and values, each ending with 0, and then the body.

use std::io::{self, BufRead, ErrorKind, Read};

/// The most bytes of names and values.
const LONGEST: usize = 65_536;

#[derive(Clone, Copy, Debug, PartialEq, Eq)]
pub enum Method {
    Get,
    Head,
    Post,
    Other,
}

#[derive(Debug, PartialEq, Eq)]
pub struct Request {
    pub method: Method,
    /// The job that the last part of the path names.
    pub job: Option<u32>,
    /// The tags of If-None-Match, as they came.
    pub tags: String,
    /// How many bytes of a body follow.
    pub length: usize,
}

impl Request {
    /// Reads a request up to its body. What is no SCGI is an error of the kind `InvalidData`.
    pub fn read(from: &mut impl BufRead) -> io::Result<Request> {
        let mut digits = Vec::new();
        from.take(7).read_until(b':', &mut digits)?;
        let length = match digits.split_last() {
            Some((b':', digits)) => number(digits).filter(|length| *length <= LONGEST as u64),
            None => return Err(ErrorKind::UnexpectedEof.into()),
            Some(_) => None,
        };
        let length = length.ok_or(ErrorKind::InvalidData)?;
        let mut header = Vec::new();
        from.take(length + 1).read_to_end(&mut header)?;
        match header.pop() {
            Some(b',') if header.len() as u64 == length => {
                Request::parse(&header).ok_or_else(|| ErrorKind::InvalidData.into())
            }
            _ => Err(ErrorKind::InvalidData.into()),
        }
    }

    /// The request that names and values say. No name that counts may stand there twice.
    fn parse(header: &[u8]) -> Option<Request> {
        let mut words = header.strip_suffix(&[0])?.split(|byte| *byte == 0);
        let [mut length, mut scgi, mut method, mut path, mut tags] = [None; 5];
        while let Some(name) = words.next() {
            let value = words.next()?;
            let to = match name {
                b"CONTENT_LENGTH" => &mut length,
                b"SCGI" => &mut scgi,
                b"REQUEST_METHOD" => &mut method,
                b"DOCUMENT_URI" => &mut path,
                b"HTTP_IF_NONE_MATCH" => &mut tags,
                _ => continue,
            };
            if to.replace(value).is_some() {
                return None;
            }
        }
        scgi.filter(|version| *version == b"1")?;
        let method = match method? {
            b"GET" => Method::Get,
            b"HEAD" => Method::Head,
            b"POST" => Method::Post,
            _ => Method::Other,
        };
        // nginx leaves it empty where there is no body
        let length = length.filter(|length| !length.is_empty()).map_or(Some(0), number)?;
        Some(Request {
            method,
            job: path?.rsplit(|byte| *byte == b'/').next().and_then(number).and_then(|job| u32::try_from(job).ok()),
            tags: String::from_utf8_lossy(tags.unwrap_or_default()).into_owned(),
            length: usize::try_from(length).ok()?,
        })
    }

    /// Whether a tag is among those that the request names. A proxy that has packed the text may have marked it as
    /// weak.
    pub fn names(&self, tag: &str) -> bool {
        self.tags.split(',').map(str::trim).any(|named| named.strip_prefix("W/").unwrap_or(named) == tag)
    }
}

/// A number without a sign, and without zeros in front.
fn number(digits: &[u8]) -> Option<u64> {
    let is_plain = digits.iter().all(u8::is_ascii_digit) && (digits.len() == 1 || digits.first() != Some(&b'0'));
    std::str::from_utf8(digits).ok().filter(|_| is_plain)?.parse().ok()
}

#[cfg(test)]
pub mod tests {
    use super::*;

    /// A request as nginx writes it.
    pub fn written(pairs: &[(&str, &str)]) -> Vec<u8> {
        let header: String = pairs.iter().map(|(name, value)| format!("{name}\0{value}\0")).collect();
        format!("{}:{header},", header.len()).into_bytes()
    }

    const GET: [(&str, &str); 4] =
        [("CONTENT_LENGTH", "0"), ("SCGI", "1"), ("REQUEST_METHOD", "GET"), ("DOCUMENT_URI", "/text/4711")];

    fn read(mut bytes: &[u8]) -> Option<Request> {
        Request::read(&mut bytes).ok()
    }

    #[test]
    fn a_request_is_read() {
        let request = read(&written(&GET)).unwrap();
        assert_eq!(request, Request { method: Method::Get, job: Some(4711), tags: String::new(), length: 0 });
        let more = [("SCGI", "1"), ("CONTENT_LENGTH", "12"), ("HTTP_IF_NONE_MATCH", "\"a\", W/\"b\"")];
        let more = [&more[..], &[("REQUEST_METHOD", "POST"), ("X", ""), ("DOCUMENT_URI", "4294967295")]].concat();
        let bytes = [&written(&more)[..], b"the body"].concat();
        let mut rest = &bytes[..];
        let request = Request::read(&mut rest).unwrap();
        assert_eq!((request.method, request.job, request.length), (Method::Post, Some(u32::MAX), 12));
        assert_eq!(rest, b"the body");
        assert!(request.names("\"a\"") && request.names("\"b\"") && !request.names("\"c\"") && !request.names("a"));
        assert!(!read(&written(&GET)).unwrap().names("\"a\""));
    }

    #[test]
    fn a_job_is_a_plain_number() {
        for (path, job) in [("/0", Some(0)), ("/a/b/7", Some(7)), ("/7/", None), ("/07", None), ("/4294967296", None)] {
            let request = [&GET[..3], &[("DOCUMENT_URI", path)]].concat();
            assert_eq!(read(&written(&request)).unwrap().job, job, "{path}");
        }
        for path in ["", "/", "/+7", "/-7", "/7a", "/ 7", "/18446744073709551616", "/\u{664}"] {
            let request = [&GET[..3], &[("DOCUMENT_URI", path)]].concat();
            assert_eq!(read(&written(&request)).unwrap().job, None, "{path}");
        }
    }

    #[test]
    fn what_is_no_scgi_is_refused() {
        let whole = written(&GET);
        for cut in 0..whole.len() {
            assert_eq!(read(&whole[..cut]), None, "{cut}");
        }
        for at in 0..whole.len() {
            for byte in [0, 1, b',', b':', b'9', 0xff] {
                let mut other = whole.clone();
                other[at] = byte;
                // whatever it is, it is answered
                let _ = read(&other);
            }
        }
        for wrong in
            ["GET / HTTP/1.1\r\n\r\n", ":,", "0:,", "00:,", "3:a\0b,", "4:a\0b\0;", "65537:", "9999999:", "-1:", ""]
        {
            assert_eq!(read(wrong.as_bytes()), None, "{wrong:?}");
        }
        for missing in 1..GET.len() {
            let less: Vec<(&str, &str)> =
                GET.iter().enumerate().filter(|pair| pair.0 != missing).map(|pair| *pair.1).collect();
            assert_eq!(read(&written(&less)), None, "{missing}");
        }
        let twice = [&GET[..], &[("REQUEST_METHOD", "POST")]].concat();
        let lengths = ["-1", "1 ", "0x1", "18446744073709551616"]
            .map(|length| [&[("CONTENT_LENGTH", length)], &GET[1..]].concat());
        for wrong in lengths.iter().chain([&twice, &vec![("SCGI", "2")]]) {
            assert_eq!(read(&written(wrong)), None, "{wrong:?}");
        }
    }
}
