//! `Write` and `Read`: whatever the portions and the errors, what comes out is the single call's, or nothing is sealed.

#[allow(dead_code)]
#[path = "../../host/rust/random.rs"]
mod random;

use luossavin::sm4::cipher_mode::{CipherMode, Sm4CipherMode};
use luossavin::streams::{open_to, opens, SealWriter};
use luossavin::{Engine, Key, Refusal, LONGEST_TEXT};
use random::Random;
use std::io::{self, ErrorKind, Read, Write};

const LABEL: &[u8] = b"job 4711";
const IV: [u8; 16] = [1; 16];

fn key() -> Key {
    Key::new(&[7; 16], 3).unwrap().with_engine(Engine::Tables)
}

fn sealed(text: &[u8]) -> Vec<u8> {
    Sm4CipherMode::with_key(key(), CipherMode::Gcm).encrypt(LABEL, text, &IV).unwrap()
}

fn refusal<T: std::fmt::Debug>(result: io::Result<T>) -> Option<Refusal> {
    Refusal::in_error(&result.unwrap_err())
}

/// Takes a few bytes at a time, with interruptions and errors in between.
struct Fitful {
    random: Random,
    taken: Vec<u8>,
}

impl Write for Fitful {
    fn write(&mut self, bytes: &[u8]) -> io::Result<usize> {
        match self.random.below(4) {
            0 => Err(ErrorKind::Interrupted.into()),
            1 => Err(ErrorKind::WouldBlock.into()),
            _ => {
                let n = 1 + self.random.below(bytes.len().min(30_000));
                self.taken.extend_from_slice(&bytes[..n]);
                Ok(n)
            }
        }
    }

    fn flush(&mut self) -> io::Result<()> {
        Ok(())
    }
}

/// Gives a few bytes at a time, with interruptions in between.
struct Slow<'a> {
    random: Random,
    rest: &'a [u8],
}

impl Read for Slow<'_> {
    fn read(&mut self, into: &mut [u8]) -> io::Result<usize> {
        if self.random.chance(4) {
            return Err(ErrorKind::Interrupted.into());
        }
        let most = into.len().min(1 + self.random.below(50));
        self.rest.read(&mut into[..most])
    }
}

#[test]
fn what_is_written_in_portions_is_the_single_call() {
    let mut random = Random::new(1);
    for length in [0, 1, 15, 16, 17, 1000, 65_535, 65_536, 65_537, 200_000] {
        let text = random.bytes(length);
        let mut writer = SealWriter::start(&key(), LABEL, &IV, Vec::new()).unwrap();
        let mut rest = &text[..];
        while !rest.is_empty() {
            let portion = rest.len().min(random.below(90_000));
            writer.write_all(&rest[..portion]).unwrap();
            if random.chance(3) {
                writer.flush().unwrap();
            }
            rest = &rest[portion..];
        }
        let (out, done) = writer.finish().unwrap();
        assert_eq!(out, sealed(&text), "{length} bytes");
        assert_eq!((done.length, done.key), (16, 3));
    }
}

#[test]
fn an_error_of_the_writer_below_loses_nothing() {
    let text = Random::new(2).bytes(300_000);
    let mut below = Fitful { random: Random::new(3), taken: vec![] };
    let mut writer = SealWriter::start(&key(), LABEL, &IV, &mut below).unwrap();
    let (mut rest, mut errors) = (&text[..], 0);
    while !rest.is_empty() {
        match writer.write(rest) {
            Ok(n) => rest = &rest[n..],
            Err(error) => {
                assert_eq!(error.kind(), ErrorKind::WouldBlock);
                errors += 1;
            }
        }
    }
    while writer.flush().is_err() {
        errors += 1;
    }
    assert!(errors > 0);
    drop(writer);
    assert_eq!(below.taken, sealed(&text)[..text.len()], "all but the tag");
}

#[test]
fn finish_is_tried_again_until_it_is_done() {
    for length in [0, 1, 15, 300, 65_536, 200_000] {
        let text = Random::new(8).bytes(length);
        let mut below = Fitful { random: Random::new(length as u64), taken: vec![] };
        let mut writer = SealWriter::start(&key(), LABEL, &IV, &mut below).unwrap();
        let (mut rest, mut errors) = (&text[..], 0);
        while !rest.is_empty() {
            match writer.write(&rest[..rest.len().min(777)]) {
                Ok(n) => rest = &rest[n..],
                Err(error) => assert_eq!(error.kind(), ErrorKind::WouldBlock),
            }
        }
        let done = loop {
            match writer.finish() {
                Ok((_, done)) => break done,
                Err(unfinished) => {
                    assert_eq!(unfinished.error().kind(), ErrorKind::WouldBlock);
                    errors += 1;
                    writer = unfinished.into_writer();
                }
            }
        };
        assert!(errors > 0 || length < 300, "no error was met");
        assert_eq!((done.length, done.key), (16, 3));
        assert_eq!(below.taken, sealed(&text), "{length} bytes");
    }
}

#[test]
fn nothing_is_taken_once_the_tag_is_made() {
    let mut room = [0; 20];
    let mut writer = SealWriter::start(&key(), LABEL, &IV, &mut room[..]).unwrap();
    writer.write_all(b"a text").unwrap();
    let mut writer = match writer.finish() {
        Err(unfinished) => unfinished.into_writer(),
        Ok(_) => panic!("six bytes and a tag in twenty"),
    };
    assert_eq!(refusal(writer.write(b"more")), Some(Refusal::Ended));
    assert_eq!(room[..], sealed(b"a text")[..20]);
}

/// What is written below, and how often.
struct Counted {
    writes: usize,
    bytes: usize,
}

impl Write for Counted {
    fn write(&mut self, bytes: &[u8]) -> io::Result<usize> {
        self.writes += 1;
        self.bytes += bytes.len();
        Ok(bytes.len())
    }

    fn flush(&mut self) -> io::Result<()> {
        Ok(())
    }
}

#[test]
fn lines_are_buffered() {
    let mut writer = SealWriter::start(&key(), LABEL, &IV, Counted { writes: 0, bytes: 0 }).unwrap();
    for _ in 0..10_000 {
        writer.write_all(b"Q. Where were you on that evening?\n").unwrap();
    }
    let (below, _) = writer.finish().unwrap();
    assert_eq!(below.bytes, 350_000 + 16);
    assert!(below.writes <= 350_000 / 65_536 + 2, "{} writes", below.writes);
}

#[test]
fn a_writer_below_that_only_refuses_is_not_kept_for_without_end() {
    struct Full;
    impl Write for Full {
        fn write(&mut self, _: &[u8]) -> io::Result<usize> {
            Err(ErrorKind::WouldBlock.into())
        }
        fn flush(&mut self) -> io::Result<()> {
            Ok(())
        }
    }
    let mut writer = SealWriter::start(&key(), LABEL, &IV, Full).unwrap();
    let taken: usize =
        (0..1000).map(|_| writer.write(&[9; 1000]).unwrap_or(0) + writer.flush().map_or(0, |()| 0)).sum();
    assert!(taken <= 140_000, "{taken} bytes were taken");
}

#[test]
fn without_finish_nothing_opens() {
    let mut out = Vec::new();
    let mut writer = SealWriter::start(&key(), LABEL, &IV, &mut out).unwrap();
    writer.write_all(&[9; 70_000]).unwrap();
    drop(writer);
    assert!(!opens(&key(), LABEL, &IV, &out[..]).unwrap());
}

#[test]
fn a_text_that_was_refused_is_not_sealed_without_its_end() {
    let mut out = Vec::new();
    let mut writer = SealWriter::start(&key(), LABEL, &IV, &mut out).unwrap();
    io::copy(&mut io::repeat(9).take(LONGEST_TEXT as u64), &mut writer).unwrap();
    assert_eq!(refusal(writer.write(b"x")), Some(Refusal::TooLong));
    writer.flush().unwrap();
    assert_eq!(refusal(writer.finish().map_err(io::Error::from)), Some(Refusal::TooLong));
    assert_eq!(out.len(), LONGEST_TEXT, "nothing comes of what was refused");
}

#[test]
fn a_writer_that_takes_nothing_is_an_error() {
    let mut room = [0; 10];
    let mut writer = SealWriter::start(&key(), LABEL, &IV, &mut room[..]).unwrap();
    writer.write_all(&[9; 11]).unwrap();
    assert_eq!(writer.flush().unwrap_err().kind(), ErrorKind::WriteZero);
    assert_eq!(writer.finish().unwrap_err().error().kind(), ErrorKind::WriteZero);
}

#[test]
fn refused_starts_give_no_writer_and_no_question() {
    let start = |key: &Key, iv: &[u8]| SealWriter::start(key, LABEL, iv, io::sink()).unwrap_err();
    assert_eq!(start(&key(), &[1; 13]), Refusal::WrongIv);
    assert_eq!(start(&key().retire(), &IV), Refusal::Retired);
    assert_eq!(refusal(opens(&key(), LABEL, &[1; 13], io::empty())), Some(Refusal::WrongIv));
}

#[test]
fn every_reader_is_asked_alike() {
    for length in [0, 1, 15, 16, 17, 300, 65_536, 65_552, 140_000] {
        let whole = sealed(&Random::new(4).bytes(length));
        assert!(opens(&key(), LABEL, &IV, &whole[..]).unwrap(), "{length} bytes");
        assert!(opens(&key().retire(), LABEL, &IV, Slow { random: Random::new(5), rest: &whole }).unwrap());
        assert!(!opens(&key(), b"job 4712", &IV, &whole[..]).unwrap());
        for at in [0, length / 2, length, length + 15] {
            let mut damaged = whole.clone();
            damaged[at] ^= 1;
            assert!(!opens(&key(), LABEL, &IV, &damaged[..]).unwrap(), "byte {at} of {length}");
        }
        if length > 0 {
            assert!(!opens(&key(), LABEL, &IV, &whole[..whole.len() - 1]).unwrap());
        }
    }
}

#[test]
fn a_short_message_says_what_is_missing() {
    for length in 0..16 {
        let missing = 16 - length as u8;
        let short = vec![9; length];
        assert_eq!(refusal(opens(&key(), LABEL, &IV, &short[..])), Some(Refusal::ShortGcm { missing }));
        assert_eq!(refusal(open_to(&key(), LABEL, &IV, &short[..], io::sink())), Some(Refusal::ShortGcm { missing }));
    }
}

#[test]
fn a_reader_without_an_end_is_refused() {
    assert_eq!(refusal(opens(&key(), LABEL, &IV, io::repeat(0))), Some(Refusal::TooLong));
    assert_eq!(refusal(open_to(&key(), LABEL, &IV, io::repeat(0), io::sink())), Some(Refusal::TooLong));
}

#[test]
fn no_byte_is_written_before_the_tag_is_settled() {
    let text = Random::new(6).bytes(100_000);
    let whole = sealed(&text);
    let mut out = Vec::new();
    let done = open_to(&key(), LABEL, &IV, Slow { random: Random::new(7), rest: &whole }, &mut out).unwrap();
    assert_eq!((out, done.length), (text, 100_000));
    for at in [0, 99_999, 100_000, 100_015] {
        let mut damaged = whole.clone();
        damaged[at] ^= 0x80;
        let mut out = Vec::new();
        assert_eq!(refusal(open_to(&key(), LABEL, &IV, &damaged[..], &mut out)), Some(Refusal::InvalidTag));
        assert!(out.is_empty());
    }
}

#[test]
fn an_error_of_the_reader_is_no_answer() {
    struct Broken;
    impl Read for Broken {
        fn read(&mut self, _: &mut [u8]) -> io::Result<usize> {
            Err(ErrorKind::ConnectionReset.into())
        }
    }
    let whole = sealed(b"a transcript");
    let asked = opens(&key(), LABEL, &IV, (&whole[..]).chain(Broken));
    assert_eq!(asked.unwrap_err().kind(), ErrorKind::ConnectionReset);
}

#[test]
fn a_reader_that_lies_about_its_count_is_an_error() {
    struct Lying;
    impl Read for Lying {
        fn read(&mut self, into: &mut [u8]) -> io::Result<usize> {
            Ok(into.len() + 1)
        }
    }
    assert_eq!(opens(&key(), LABEL, &IV, Lying).unwrap_err().kind(), ErrorKind::Other);
}
