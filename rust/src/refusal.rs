//! Answers: done, or a refusal.

use crate::ffi;
use core::fmt;
use core::mem::discriminant;
#[cfg(feature = "std")]
use std::io;

/// Why a call was refused. Nothing was written, and the state of a message in pieces is as it was. The numbers are
/// those of `include/luossavin.h`.
///
/// The first four are libsm's names. libsm uses `ErrorBlockSize` for a wrong IV and a wrong block too; here these have
/// their own names. Two never come from this package's own calls: [`BadMode`](Refusal::BadMode), which a journal may
/// contain, and [`Ended`](Refusal::Ended), since an end consumes the state.
///
/// Padding oracle: never show [`InvalidLastU8`](Refusal::InvalidLastU8) or [`InvalidPadding`](Refusal::InvalidPadding)
/// of Cbc to untrusted callers.
///
/// ```
/// use luossavin::sm4::cipher_mode::{CipherMode, Sm4CipherMode};
/// use luossavin::Refusal;
///
/// let cipher = Sm4CipherMode::new(&[7; 16], CipherMode::Gcm)?;
/// let refusal = cipher.decrypt(b"label", b"too short", &[1; 16]).unwrap_err();
/// assert_eq!(refusal, Refusal::ShortGcm { missing: 7 });
/// assert_eq!(refusal.number(), 9);
/// assert_eq!(
///     refusal.to_string(),
///     "9 ShortGcm: a sealed message has at least 16 bytes, so 7 are missing: was it cut off?"
/// );
/// # Ok::<(), Refusal>(())
/// ```
#[derive(Clone, Copy, Debug, PartialEq, Eq, Hash)]
#[non_exhaustive]
pub enum Refusal {
    // numbers.txt: refusals of Rust
    /// 1: the key is not 16 bytes.
    ErrorBlockSize,
    /// 2: Cbc decryption: the length is not a multiple of 16.
    ErrorDataLen,
    /// 3: Cbc decryption: the last decrypted byte is 0 or above 16.
    InvalidLastU8,
    /// 4: Gcm decryption: the 16 bytes at the end are not the tag.
    InvalidTag,
    /// 5: a length is over its limit.
    TooLong,
    /// 6: the output buffer is shorter than the room needed.
    NoRoom,
    /// 7: the mode is above 4.
    BadMode,
    /// 8: Cbc decryption of 0 bytes.
    EmptyCbc,
    /// 9: Gcm decryption of fewer than 16 bytes; in streaming, a tag that is not 16 bytes.
    ShortGcm {
        /// How many bytes are missing of 16; 0 for a tag of more than 16.
        missing: u8,
    },
    /// 10: the IV is not 16 bytes; in Gcm, neither 12 nor 16.
    WrongIv,
    /// 11: the single block is not 16 bytes.
    WrongBlock,
    /// 12: streaming: the message has already ended.
    Ended,
    /// 13: the key's number is not from 1 to 65,535.
    WrongNumber,
    /// 14: encryption under a retired key.
    Retired,
    /// 15: Cbc decryption: the last decrypted byte p is 1 to 16, but not all of the last p bytes are p.
    InvalidPadding,
    /// 16: more than 64 candidate labels, or lengths that do not add up to the labels' buffer.
    BadList,
    /// 17: a plan for 0 workers, or for more than 64.
    BadWorkers,
    /// 18: the plan is not accepted for so many bytes.
    NotAccepted,
    /// 19: the buffer has more than 65,536 bytes, or its used bytes are not a shelf.
    BadShelf,
    /// 20: the shelf has that edition of the job already, or a higher one.
    NotHigher,
    /// 21: the records that would be current do not fit in the buffer.
    NoShelfRoom,
    /// 22: the shelf has no current record of the job.
    NoCurrent,
    /// 23: a recorded call is cut off or has no mark, or its direction is neither 0 nor 1.
    BadRecord,
    /// 24: a recorded label, data or IV has more than 16,384 bytes, or an output more than 16,400.
    PartTooLong,
    /// 25: a recorded call names a key that was not given.
    UnknownKey,
    /// 26: a replay with more than eight keys, with a retired key, or with two keys of one number.
    BadKeys,
    // numbers.txt: end
    /// A number that this package does not know, from a newer library.
    Unknown(u32),
}

use Refusal::*;

/// The refusals by their numbers from 1 on: name, sentence, and what to do next where that helps. `Display` and the
/// tool take their words from here; the tool puts what it knows of a file in the place of a sentence's general words.
#[rustfmt::skip]
const BY_NUMBER: [(Refusal, &str, &str, &str); 26] = [
    // numbers.txt: texts of Rust
    (ErrorBlockSize, "ErrorBlockSize", "the key has another size, and neither 16 raw bytes nor 32 hex digits", ""),
    (ErrorDataLen, "ErrorDataLen", "this message has another length, and cbc writes 16 or a multiple: cbc did not encrypt it, or it was cut short", ""),
    (InvalidLastU8, "InvalidLastU8", "this message was not encrypted with cbc, this key and IV, or it was changed since", ""),
    (InvalidTag, "InvalidTag", "this message was not sealed under this label, with this key and IV, or it was changed since", "`luossavin which` says which edition it is"),
    (TooLong, "TooLong", "this message, or its label, is longer than the 16777216 bytes that the cipher takes", "split the text, and give each part an IV of its own"),
    (NoRoom, "NoRoom", "the output is longer than the room that was given", ""),
    (BadMode, "BadMode", "there is no such mode", ""),
    (EmptyCbc, "EmptyCbc", "this message is empty, and cbc writes at least 16 bytes: was it cut off?", ""),
    (ShortGcm { missing: 0 }, "ShortGcm", "a tag has 16 bytes, and a sealed message at least 16", ""),
    (WrongIv, "WrongIv", "the IV has another size, not 16 bytes, nor 12 in gcm", ""),
    (WrongBlock, "WrongBlock", "a single block is 16 bytes, and this one is not", ""),
    (Ended, "Ended", "this message has already ended", ""),
    (WrongNumber, "WrongNumber", "the key's number is 1 to 65535", ""),
    (Retired, "Retired", "this key is retired: old files still open with it, and nothing new is sealed or encrypted under it; take the current key", ""),
    (InvalidPadding, "InvalidPadding", "the end of this message is damaged: it was changed since, or not encrypted with cbc, this key and IV", ""),
    (BadList, "BadList", "there are more than 64 candidates, and up to 64 are asked about at once: ask about 64 at a time", ""),
    (BadWorkers, "BadWorkers", "a plan is for 1 to 64 workers", ""),
    (NotAccepted, "NotAccepted", "this plan is not accepted for a message of so many bytes", ""),
    (BadShelf, "BadShelf", "this shelf breaks off: there is no whole record, or a second current one of its job, or it has more than 65536 bytes; it was changed or cut off, or is no shelf", "take the shelf from a backup, or put the sealed files on a new one"),
    (NotHigher, "NotHigher", "this shelf has that edition of the job already, or a higher one, and takes only a higher one", "`luossavin shelf list` shows what it has"),
    (NoShelfRoom, "NoShelfRoom", "a shelf has 65536 bytes, and this file and the current ones of the other jobs, with 12 bytes more for each, have more", "begin another shelf"),
    (NoCurrent, "NoCurrent", "this shelf has no current edition of the job", "`luossavin shelf list` shows what it has"),
    (BadRecord, "BadRecord", "a record is cut off, or its mark or direction is bad: was the journal cut off, or changed there?", ""),
    (PartTooLong, "PartTooLong", "a record has a label, data or an IV of more than 16384 bytes, or an output of more than 16400", "leave such calls out where the journal is made"),
    (UnknownKey, "UnknownKey", "a record is of a key that is not among the keys that were given", "give that key too"),
    (BadKeys, "BadKeys", "a replay takes up to 8 keys, none of them retired, and each number stands for one key", ""),
    // numbers.txt: end
];

impl Refusal {
    /// The number of the refusal, as in the header. It is also the exit status of the tool.
    #[must_use]
    pub fn number(self) -> u32 {
        match self {
            Unknown(number) => number,
            known => 1 + known.place().unwrap_or_default() as u32,
        }
    }

    /// The name of the refusal, as in the header.
    ///
    /// ```
    /// assert_eq!(luossavin::Refusal::NoShelfRoom.name(), "NoShelfRoom");
    /// ```
    #[must_use]
    pub fn name(self) -> &'static str {
        self.row().map_or("Unknown", |row| row.1)
    }

    /// What the refusal means, in one sentence.
    #[must_use]
    pub fn sentence(self) -> &'static str {
        self.row().map_or("a refusal that this package does not know", |row| row.2)
    }

    /// What to do next, if something helps.
    #[must_use]
    pub fn next(self) -> Option<&'static str> {
        self.row().map(|row| row.3).filter(|next| !next.is_empty())
    }

    /// The refusal with this number, as in a journal. `None` for 0, which is no refusal, and for an unknown number.
    #[must_use]
    pub fn with_number(number: u32) -> Option<Refusal> {
        match Refusal::of(number, 0) {
            Unknown(_) => None,
            known => Some(known),
        }
    }

    /// How many bytes were missing, for [`Refusal::ShortGcm`]; 0 for every other refusal.
    #[must_use]
    pub fn missing(self) -> u8 {
        match self {
            ShortGcm { missing } => missing,
            _ => 0,
        }
    }

    /// The refusal inside an error of [`std::io`], if there is one.
    ///
    /// ```
    /// use luossavin::Refusal;
    ///
    /// let error = std::io::Error::from(Refusal::InvalidTag);
    /// assert_eq!(Refusal::in_error(&error), Some(Refusal::InvalidTag));
    /// ```
    #[cfg(feature = "std")]
    #[must_use]
    pub fn in_error(error: &io::Error) -> Option<Refusal> {
        error.get_ref()?.downcast_ref().copied()
    }

    /// The refusal with this number; 0 is none, and unknown.
    pub(crate) fn of(number: u32, missing: u8) -> Refusal {
        match (number as usize).checked_sub(1).and_then(|place| BY_NUMBER.get(place)) {
            Some((ShortGcm { .. }, ..)) => ShortGcm { missing },
            Some((refusal, ..)) => *refusal,
            None => Unknown(number),
        }
    }

    /// Where a refusal with a number that is known stands among them.
    fn place(self) -> Option<usize> {
        BY_NUMBER.iter().position(|row| discriminant(&row.0) == discriminant(&self))
    }

    fn row(self) -> Option<&'static (Refusal, &'static str, &'static str, &'static str)> {
        self.place().and_then(|place| BY_NUMBER.get(place))
    }
}

impl fmt::Display for Refusal {
    fn fmt(&self, f: &mut fmt::Formatter<'_>) -> fmt::Result {
        match *self {
            Unknown(number) => write!(f, "{number}: {}", self.sentence()),
            ShortGcm { missing } if missing > 0 => {
                let are = if missing == 1 { "is" } else { "are" };
                let sentence = "a sealed message has at least 16 bytes";
                write!(f, "9 ShortGcm: {sentence}, so {missing} {are} missing: was it cut off?")
            }
            known => {
                write!(f, "{} {}: {}", known.number(), known.name(), known.sentence())?;
                known.next().map_or(Ok(()), |next| write!(f, "; {next}"))
            }
        }
    }
}

#[cfg(feature = "std")]
impl std::error::Error for Refusal {}

/// The words without the number, as libsm gives them.
impl From<Refusal> for &str {
    fn from(refusal: Refusal) -> Self {
        refusal.sentence()
    }
}

/// Damaged messages are `InvalidData`, and all else that is refused `InvalidInput`.
#[cfg(feature = "std")]
impl From<Refusal> for io::Error {
    fn from(refusal: Refusal) -> Self {
        let kind = match refusal {
            ErrorDataLen | InvalidLastU8 | InvalidTag | EmptyCbc | ShortGcm { .. } | InvalidPadding => {
                io::ErrorKind::InvalidData
            }
            _ => io::ErrorKind::InvalidInput,
        };
        io::Error::new(kind, refusal)
    }
}

/// The answer of a call that was done.
#[derive(Clone, Copy, Debug, PartialEq, Eq)]
#[non_exhaustive]
pub struct Done {
    /// How many bytes at the front of the output are the result.
    pub length: usize,
    /// The number of the key.
    pub key: u16,
    /// Whether the counter of a Ctr or Gcm message wrapped from all ones to zero. The output is right all the same. If
    /// you encrypt, take an unrelated IV for the next message, not one counted on from this one.
    pub came_round: bool,
}

impl ffi::Answer {
    /// The answer as a result.
    pub(crate) fn result(self) -> Result<Done, Refusal> {
        match self.number {
            0 => Ok(Done { length: self.length, key: self.key, came_round: self.came_round == 1 }),
            number => Err(Refusal::of(number, self.missing)),
        }
    }
}

#[cfg(test)]
mod tests {
    use super::*;

    /// What `include/numbers` says of the files that are written from `include/numbers.txt`, in a copy of them that was
    /// changed.
    fn numbers(change: &str) -> std::process::Output {
        let script =
            "set -e; cp -r --parents VERSION include lib rust/src docs/NUMBERS.md \"$1\"; cd \"$1\"; eval \"$2\"; \
                      include/numbers --check";
        let folder = std::env::temp_dir().join(format!("luossavin-numbers-{}-{}", std::process::id(), change.len()));
        std::fs::create_dir_all(&folder).unwrap();
        let output = std::process::Command::new("sh")
            .args(["-c", script, "sh"])
            .arg(&folder)
            .arg(change)
            .current_dir(concat!(env!("CARGO_MANIFEST_DIR"), "/.."))
            .output()
            .unwrap();
        std::fs::remove_dir_all(&folder).unwrap();
        output
    }

    #[test]
    fn header_package_and_document_are_what_the_one_table_says() {
        let output = numbers(":");
        assert!(output.status.success(), "{}", String::from_utf8_lossy(&output.stderr));
    }

    /// That the test above can fail: each file, changed by a word, and the table itself.
    #[test]
    fn another_word_anywhere_is_told() {
        for change in [
            "sed -i 's/LUOSSAVIN_INVALID_TAG = 4/LUOSSAVIN_INVALID_TAG = 5/' include/luossavin.h",
            "sed -i 's/\"InvalidTag\",/\"BadTag\",/' lib/luossavin.c",
            "sed -i 's/was it cut off/has it been cut off/' rust/src/refusal.rs",
            "sed -i 's/Gates = 2/Gates = 3/' rust/src/key.rs",
            "sed -i 's/    Cbc = 3/    Cbc = 4/' rust/src/sm4/cipher_mode.rs",
            "sed -i 's/16_777_216/16_777_217/' rust/src/sizes.rs",
            "sed -i 's/begin another shelf/begin a second shelf/' docs/NUMBERS.md",
            "sed -i 's/^refusal 26 /refusal 27 /' include/numbers.txt",
            "echo 0.0.1 >VERSION",
        ] {
            assert!(!numbers(change).status.success(), "unseen: {change}");
        }
    }

    #[test]
    fn every_number_is_a_refusal_by_its_name() {
        for (number, row) in (1..).zip(BY_NUMBER) {
            let (refusal, name) = (Refusal::of(number, 5), row.1);
            assert_eq!(refusal.number(), number);
            assert!(format!("{refusal:?}").split(' ').next() == Some(name), "{number} {name} is {refusal:?}");
            assert!(refusal.to_string().starts_with(&format!("{number} {name}: ")), "{refusal}");
            assert_eq!(refusal.missing(), if number == 9 { 5 } else { 0 });
        }
    }

    #[test]
    fn a_number_that_is_not_known_stays_itself() {
        for number in [27, 28, 255, 65_536, u32::MAX] {
            let refusal = Refusal::of(number, 0);
            assert_eq!(refusal, Unknown(number));
            assert_eq!(refusal.number(), number);
            assert!(refusal.to_string().starts_with(&number.to_string()));
        }
    }

    #[test]
    fn only_number_0_is_done() {
        for number in 0..300 {
            let answer = ffi::Answer { number, missing: 0, came_round: 1, key: 7, length: 3 };
            match answer.result() {
                Ok(done) => assert_eq!((number, done), (0, Done { length: 3, key: 7, came_round: true })),
                Err(refusal) => assert_eq!(refusal.number(), number),
            }
        }
    }

    #[test]
    fn what_to_do_next_is_said() {
        for number in [4, 5, 19, 20, 21, 22, 24, 25] {
            let refusal = Refusal::of(number, 0);
            let next = refusal.next().unwrap_or_else(|| panic!("{refusal} does not say what to do"));
            assert!(refusal.to_string().ends_with(next), "{refusal}");
        }
        assert!(InvalidTag.to_string().contains("which"));
    }

    #[test]
    fn one_missing_byte_is_said_as_one() {
        let said = |missing| ShortGcm { missing }.to_string();
        assert!(said(1).contains("so 1 is missing"));
        assert!(said(16).contains("so 16 are missing"));
        assert!(!said(0).contains("missing"), "a tag that is too long lacks nothing");
    }
}
