//! Editions of jobs: does this file open under this edition, and under which does it open?

use crate::sizes::{LONGEST_SEALED, MOST_LABELS};
use crate::sm4::cipher_mode::CipherMode;
use crate::{ffi, Direction, Key, Refusal, LONGEST_TEXT};
use alloc::vec;
use alloc::vec::Vec;
use core::fmt;

/// The label of a job and an edition: six bytes, big-endian.
///
/// ```
/// assert_eq!(luossavin::editions::label(4711, 2), [0, 0, 0x12, 0x67, 0, 2]);
/// ```
#[must_use]
pub fn label(job: u32, edition: u16) -> [u8; 6] {
    ffi::label(job, edition)
}

/// The number of an edition, for example 1 for a rough and 2 for the final that supersedes it. It is a type of its own,
/// so that job and edition cannot be swapped by mistake.
///
/// ```
/// use luossavin::Edition;
///
/// let (rough, last) = (Edition(1), Edition(2));
/// assert!(rough < last);
/// assert_eq!(last.to_string(), "edition 2");
/// assert_eq!(last.label_of(4711), [0, 0, 0x12, 0x67, 0, 2]);
/// ```
#[derive(Clone, Copy, Debug, PartialEq, Eq, PartialOrd, Ord, Hash)]
pub struct Edition(pub u16);

impl Edition {
    /// The label of a job and this edition.
    #[must_use]
    pub fn label_of(self, job: u32) -> [u8; 6] {
        label(job, self.0)
    }
}

impl From<u16> for Edition {
    fn from(number: u16) -> Edition {
        Edition(number)
    }
}

impl fmt::Display for Edition {
    fn fmt(&self, f: &mut fmt::Formatter<'_>) -> fmt::Result {
        write!(f, "edition {}", self.0)
    }
}

/// Sealing and opening under a job and an edition, and the question that a portal asks before it shows a file.
///
/// ```
/// use luossavin::{Edition, Key, Refusal};
///
/// let (key, iv) = (Key::new(&[7; 16], 1)?, [1; 16]);
/// let sealed = key.seal(4711, Edition(1), b"a transcript", &iv)?;
/// assert!(key.opens(4711, Edition(1), &sealed, &iv)?);
/// assert!(!key.opens(4711, Edition(2), &sealed, &iv)?);
/// assert_eq!(key.open(4711, Edition(1), &sealed, &iv)?, b"a transcript");
/// assert_eq!(key.open(4711, Edition(2), &sealed, &iv), Err(Refusal::InvalidTag));
/// # Ok::<(), Refusal>(())
/// ```
impl Key {
    /// Does this file open under this edition? Returns `true` if [`open`](Key::open) would open it, and `false` if that
    /// would be refused with [`InvalidTag`](Refusal::InvalidTag). Any other refusal is returned as an error. No text is
    /// made, and the file is read once. The key may be retired.
    ///
    /// A file that opens under one edition opens under no other. That is proved for every key that does not encrypt the
    /// all-zero block to zero.
    pub fn opens(&self, job: u32, edition: Edition, sealed: &[u8], iv: &[u8]) -> Result<bool, Refusal> {
        match ffi::edition_opens(self.record(), job, edition.0, sealed, iv).result() {
            Ok(_) => Ok(true),
            Err(Refusal::InvalidTag) => Ok(false),
            Err(refusal) => Err(refusal),
        }
    }

    /// Seals a text under an edition. The IV (nonce) has 12 or 16 bytes; never use it for another text under this key.
    /// The last 16 bytes of the result are the tag.
    pub fn seal(&self, job: u32, edition: Edition, text: &[u8], iv: &[u8]) -> Result<Vec<u8>, Refusal> {
        let room = CipherMode::Gcm.room_to_encrypt(text.len());
        self.under(Direction::Encrypt, job, edition, text, iv, room)
    }

    /// Opens a file that was sealed under this edition and IV. You get a text only if the tag is right.
    pub fn open(&self, job: u32, edition: Edition, sealed: &[u8], iv: &[u8]) -> Result<Vec<u8>, Refusal> {
        let room = CipherMode::Gcm.room_to_decrypt(sealed.len());
        self.under(Direction::Decrypt, job, edition, sealed, iv, room)
    }

    fn under(
        &self, direction: Direction, job: u32, edition: Edition, data: &[u8], iv: &[u8], room: usize,
    ) -> Result<Vec<u8>, Refusal> {
        // one that needs more room is refused for its length, whatever room it has
        let mut out = vec![0; room.min(LONGEST_SEALED)];
        let done = ffi::edition(direction, self.record(), job, edition.0, data, iv, &mut out).result()?;
        out.truncate(done.length);
        Ok(out)
    }
}

/// Which of up to 64 labels does a sealed message open under? Returns the index of the first, or `None`. The key may be
/// retired.
///
/// ```
/// use luossavin::editions::{label, which};
/// use luossavin::sm4::cipher_mode::{CipherMode, Sm4CipherMode};
/// use luossavin::Key;
///
/// let key = Key::new(&[7; 16], 1)?;
/// let cipher = Sm4CipherMode::with_key(key, CipherMode::Gcm);
/// let sealed = cipher.encrypt(&label(4711, 2), b"a transcript", &[1; 16])?;
/// let candidates = [label(4711, 1), label(4711, 2), label(4711, 3)];
/// assert_eq!(which(cipher.key(), &sealed, &[1; 16], &candidates)?, Some(1));
/// assert_eq!(which(cipher.key(), &sealed, &[1; 16], &candidates[..1])?, None);
/// # Ok::<(), luossavin::Refusal>(())
/// ```
///
/// Refused with [`BadList`](Refusal::BadList) for more than 64 labels, and otherwise like decryption, but never with
/// [`InvalidTag`](Refusal::InvalidTag): then the answer is `None`.
pub fn which<L: AsRef<[u8]>>(key: &Key, sealed: &[u8], iv: &[u8], labels: &[L]) -> Result<Option<usize>, Refusal> {
    // more than 64 are refused whatever they are, and so is a label at any length over the limit: no more than that
    // is copied
    let lent = |label: &L| label.as_ref().len().min(LONGEST_TEXT + 1);
    let lengths: Vec<usize> =
        if labels.len() > MOST_LABELS { vec![0; MOST_LABELS + 1] } else { labels.iter().map(lent).collect() };
    let mut joined = Vec::with_capacity(lengths.iter().sum());
    for (label, length) in labels.iter().zip(&lengths) {
        joined.extend_from_slice(&label.as_ref()[..*length]);
    }
    let found = ffi::which(key.record(), sealed, iv, &joined, &lengths);
    found.answer.result()?;
    Ok((found.found == 1).then_some(found.place as usize))
}
