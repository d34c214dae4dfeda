//! A shelf: sealed files in one buffer. The newest edition of each job is current.

use crate::editions::label;
use crate::sizes::SHELF_HEAD;
use crate::sm4::cipher_mode::{decrypted, CipherMode};
use crate::{ffi, Key, Refusal};
use alloc::vec;
use alloc::vec::Vec;
use core::fmt;

/// The most bytes that a shelf has.
pub const LARGEST: usize = crate::sizes::LARGEST_SHELF;

/// A shelf, with its buffer.
///
/// ```
/// use luossavin::editions::label;
/// use luossavin::shelf::Shelf;
/// use luossavin::sm4::cipher_mode::{CipherMode, Sm4CipherMode};
/// use luossavin::{Key, Refusal};
///
/// let (key, rough_iv, final_iv) = (Key::new(&[7; 16], 1)?, [1; 16], [2; 16]);
/// let cipher = Sm4CipherMode::with_key(key, CipherMode::Gcm);
/// let mut shelf = Shelf::new();
/// shelf.put(4711, 1, &cipher.encrypt(&label(4711, 1), b"rough", &rough_iv)?)?;
/// shelf.put(4711, 2, &cipher.encrypt(&label(4711, 2), b"final", &final_iv)?)?;
///
/// let current = shelf.find(4711)?;
/// assert_eq!(current.edition(), 2);
/// assert_eq!(current.open(cipher.key(), &final_iv)?, b"final");
/// assert_eq!(shelf.put(4711, 1, b"the rough again"), Err(Refusal::NotHigher));
/// assert_eq!(shelf.find(5).unwrap_err(), Refusal::NoCurrent);
/// # Ok::<(), Refusal>(())
/// ```
#[derive(Clone, PartialEq, Eq)]
pub struct Shelf {
    buffer: Vec<u8>,
    used: usize,
}

impl Shelf {
    /// An empty shelf of the largest size.
    #[must_use]
    pub fn new() -> Shelf {
        Shelf { buffer: vec![0; LARGEST], used: 0 }
    }

    /// Loads a shelf from the `bytes` that [`as_bytes`](Shelf::as_bytes) gave, with room for `size` bytes in all.
    /// Refused with [`BadShelf`](Refusal::BadShelf) if `bytes` are not a shelf, or if `size` is less than their length
    /// or more than [`LARGEST`].
    ///
    /// ```
    /// use luossavin::shelf::{Shelf, LARGEST};
    ///
    /// let mut shelf = Shelf::new();
    /// shelf.put(4711, 1, b"sealed bytes")?;
    /// let kept = shelf.as_bytes().to_vec();
    /// assert_eq!(Shelf::load(&kept, LARGEST)?.find(4711)?.sealed(), b"sealed bytes");
    /// assert!(Shelf::load(&kept[1..], LARGEST).is_err());
    /// # Ok::<(), luossavin::Refusal>(())
    /// ```
    pub fn load(bytes: &[u8], size: usize) -> Result<Shelf, Refusal> {
        if size > LARGEST || bytes.len() > size {
            return Err(Refusal::BadShelf);
        }
        let mut buffer = bytes.to_vec();
        buffer.resize(size, 0);
        // looking up tells what is no shelf from a job that is not there
        match ffi::shelf_find(&buffer, bytes.len(), 0).number {
            0 | 22 => Ok(Shelf { buffer, used: bytes.len() }),
            refused => Err(Refusal::of(refused, 0)),
        }
    }

    /// The used bytes: store these to keep the shelf.
    #[must_use]
    pub fn as_bytes(&self) -> &[u8] {
        &self.buffer[..self.used]
    }

    /// Puts in an edition of a job, and makes it the current one. If it does not fit, superseded records are removed
    /// first. Refused with [`NotHigher`](Refusal::NotHigher) or [`NoShelfRoom`](Refusal::NoShelfRoom).
    pub fn put(&mut self, job: u32, edition: u16, sealed: &[u8]) -> Result<(), Refusal> {
        let answer = ffi::shelf_put(&mut self.buffer, self.used, job, edition, sealed);
        self.take_up(answer)
    }

    /// Removes every superseded record.
    pub fn collect(&mut self) -> Result<(), Refusal> {
        let answer = ffi::shelf_collect(&mut self.buffer, self.used);
        self.take_up(answer)
    }

    /// The current record of a job, or [`NoCurrent`](Refusal::NoCurrent).
    pub fn find(&self, job: u32) -> Result<Record<'_>, Refusal> {
        let place = ffi::shelf_find(&self.buffer, self.used, job);
        match place.number {
            0 => Ok(Record { bytes: &self.buffer[place.start..place.start + place.length] }),
            refused => Err(Refusal::of(refused, 0)),
        }
    }

    fn take_up(&mut self, answer: ffi::Shelf) -> Result<(), Refusal> {
        // a refusal hands back the count that it was given
        self.used = answer.used;
        match answer.number {
            0 => Ok(()),
            refused => Err(Refusal::of(refused, 0)),
        }
    }
}

impl Default for Shelf {
    fn default() -> Shelf {
        Shelf::new()
    }
}

impl fmt::Debug for Shelf {
    fn fmt(&self, f: &mut fmt::Formatter<'_>) -> fmt::Result {
        f.debug_struct("Shelf").field("size", &self.buffer.len()).field("used", &self.used).finish_non_exhaustive()
    }
}

/// A current record of a shelf.
#[derive(Clone, Copy, PartialEq, Eq)]
pub struct Record<'a> {
    bytes: &'a [u8],
}

impl<'a> Record<'a> {
    /// The job.
    #[must_use]
    pub fn job(&self) -> u32 {
        u32::from_be_bytes([self.bytes[2], self.bytes[3], self.bytes[4], self.bytes[5]])
    }

    /// The edition.
    #[must_use]
    pub fn edition(&self) -> u16 {
        u16::from_be_bytes([self.bytes[6], self.bytes[7]])
    }

    /// The sealed bytes.
    #[must_use]
    pub fn sealed(&self) -> &'a [u8] {
        &self.bytes[SHELF_HEAD..]
    }

    /// Opens the sealed bytes under the label of the record's own job and edition.
    pub fn open(&self, key: &Key, iv: &[u8]) -> Result<Vec<u8>, Refusal> {
        let label = label(self.job(), self.edition());
        Ok(decrypted(key, CipherMode::Gcm, &label, self.sealed(), iv)?.0)
    }
}

impl fmt::Debug for Record<'_> {
    fn fmt(&self, f: &mut fmt::Formatter<'_>) -> fmt::Result {
        let (job, edition, sealed) = (self.job(), self.edition(), self.sealed().len());
        write!(f, "Record {{ job: {job}, edition: {edition}, sealed: {sealed} bytes }}")
    }
}
