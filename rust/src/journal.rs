//! A journal: recorded calls, to be replayed and added up.
//!
//! ```
//! use luossavin::journal::{replay, Call};
//! use luossavin::sm4::cipher_mode::{CipherMode, Sm4CipherMode};
//! use luossavin::{Direction, Key, Refusal};
//!
//! let cipher = Sm4CipherMode::with_key(Key::new(&[7; 16], 12)?, CipherMode::Gcm);
//! let mut journal = Vec::new();
//! let (label, text, iv) = (b"label", b"a transcript", [1; 16]);
//! let sealed = cipher.encrypt(label, text, &iv)?;
//! let call = Call::of(&cipher, Direction::Encrypt, label, text, &iv, sealed.len());
//! call.record(Ok(&sealed), &mut journal)?;
//!
//! let report = replay(&[cipher.key()], &journal).unwrap();
//! assert_eq!((report.records, report.by_mode[4], report.by_answer[0]), (1, 1, 1));
//! assert_eq!(report.first_difference, None);
//! # Ok::<(), Refusal>(())
//! ```
//!
//! A journal contains the texts of its calls: keep it as secret as they are. It is not sealed: who can write to it can
//! make a record agree.

use crate::ffi::{self, Secret};
use crate::sizes::{LONGEST_OUTPUT, LONGEST_PART, MOST_KEYS};
use crate::sm4::cipher_mode::{CipherMode, Sm4CipherMode};
use crate::{Direction, Key, Refusal};
use alloc::boxed::Box;
use alloc::vec::Vec;
use core::fmt;

/// A call as it was made, to be recorded with its answer.
#[derive(Clone, Copy)]
pub struct Call<'a> {
    direction: Direction,
    mode: CipherMode,
    key: u16,
    parts: [&'a [u8]; 3],
    room: usize,
}

impl<'a> Call<'a> {
    /// A call of `cipher`, with an output buffer of `room` bytes.
    #[must_use]
    pub fn of(
        cipher: &Sm4CipherMode, direction: Direction, aad: &'a [u8], data: &'a [u8], iv: &'a [u8], room: usize,
    ) -> Call<'a> {
        Call { direction, mode: cipher.mode(), key: cipher.key().number(), parts: [aad, data, iv], room }
    }

    /// Appends the record of the call and its answer to a journal. Refused with [`PartTooLong`](Refusal::PartTooLong)
    /// if label, data, IV or output is too long to be recorded; the journal is then as it was.
    pub fn record(&self, answer: Result<&[u8], Refusal>, journal: &mut Vec<u8>) -> Result<(), Refusal> {
        let (number, output) = match answer {
            Ok(output) => (0, output),
            Err(refusal) => (refusal.number(), &[][..]),
        };
        // as many as the record takes, but no more than the longest one
        let given = self.parts.iter().fold(output.len(), |sum, part| sum.saturating_add(part.len()));
        let room = BARE + given.min(3 * LONGEST_PART + LONGEST_OUTPUT);
        let before = journal.len();
        journal.resize(before + room, 0);
        let (key, parts, out) = (self.key, self.parts, &mut journal[before..]);
        let written = ffi::record(self.direction, self.mode, key, parts, self.room, (number, output), out).result();
        journal.truncate(before + written.map_or(0, |done| done.length));
        written.map(drop)
    }
}

/// How many bytes a record has beside its label, data, IV and output.
const BARE: usize = 27;

impl fmt::Debug for Call<'_> {
    fn fmt(&self, f: &mut fmt::Formatter<'_>) -> fmt::Result {
        let Call { direction, mode, key, .. } = self;
        write!(f, "Call {{ {direction:?} in {mode:?} under key {key}, .. }}")
    }
}

/// Replays a journal: makes each call again, on the key with its number. Pass up to eight keys; pass a key that was
/// retired since as it was before.
///
/// A record that cannot be replayed stops the replay. The error then has the report of the records before it.
pub fn replay(keys: &[&Key], journal: &[u8]) -> Result<Report, Stopped> {
    let none = ffi::Key { round_keys: [0; 32], answer: 0, number: 0, retired: 0, engine: 0 };
    // a count above eight is refused, so that the keys behind it are not missed
    let mut given = ffi::Keys { count: keys.len(), keys: [none; MOST_KEYS] };
    for (place, key) in given.keys.iter_mut().zip(keys) {
        *place = *key.record();
    }
    let given = Secret::take(&mut given);
    let replayed = ffi::replay(&given, journal);
    let report = Report::of(&replayed);
    match replayed.number {
        0 => Ok(report),
        number => Err(Stopped { refusal: Refusal::of(number, 0), place: replayed.place, report: Box::new(report) }),
    }
}

/// The totals of a replay. They count the answers of now.
#[derive(Clone, Debug, PartialEq, Eq)]
#[non_exhaustive]
pub struct Report {
    /// How many records there are.
    pub records: u64,
    /// How many in each mode, Cfb to Gcm; at index 5 those of an unknown mode.
    pub by_mode: [u64; 6],
    /// How many with each number.
    pub by_answer: [u64; 32],
    /// The bytes of their data, refused calls included.
    pub bytes_in: u64,
    /// The bytes of their outputs.
    pub bytes_out: u64,
    /// The first record whose number, length or output now differs from what was recorded.
    pub first_difference: Option<Difference>,
}

impl Report {
    fn of(replayed: &ffi::Replayed) -> Report {
        let first = Difference { record: replayed.first_record, place: replayed.first_place };
        Report {
            records: replayed.records,
            by_mode: replayed.by_mode,
            by_answer: replayed.by_answer,
            bytes_in: replayed.bytes_in,
            bytes_out: replayed.bytes_out,
            first_difference: (replayed.differs == 1).then_some(first),
        }
    }
}

/// A record whose answer differs.
#[derive(Clone, Copy, Debug, PartialEq, Eq)]
pub struct Difference {
    /// The index of the record, from 0.
    pub record: u64,
    /// Where its first byte stands in the journal.
    pub place: usize,
}

/// Why a replay stopped.
#[derive(Clone, Debug, PartialEq, Eq)]
#[non_exhaustive]
pub struct Stopped {
    /// [`BadKeys`](Refusal::BadKeys), before any record; or [`BadRecord`](Refusal::BadRecord),
    /// [`PartTooLong`](Refusal::PartTooLong) or [`UnknownKey`](Refusal::UnknownKey) of a record.
    pub refusal: Refusal,
    /// Where the record's first byte stands in the journal.
    pub place: usize,
    /// The report of the records before it.
    pub report: Box<Report>,
}

impl fmt::Display for Stopped {
    fn fmt(&self, f: &mut fmt::Formatter<'_>) -> fmt::Result {
        let Stopped { refusal, place, report } = self;
        match refusal {
            Refusal::BadKeys => write!(f, "{refusal}"),
            _ => write!(f, "record {}, which begins at byte {place}: {refusal}", report.records + 1),
        }
    }
}

#[cfg(feature = "std")]
impl std::error::Error for Stopped {
    fn source(&self) -> Option<&(dyn std::error::Error + 'static)> {
        Some(&self.refusal)
    }
}
