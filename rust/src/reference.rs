//! References: an IV and a tag, 32 bytes, kept on a shelf for a sealed file that is stored elsewhere.
//!
//! A [shelf](crate::shelf) has room for 65,536 bytes, which is less than one long transcript. With references instead
//! of sealed files it can say which edition of up to 1,489 jobs is current. The files are in a store, each after its
//! IV. To show one, take job and edition from the shelf, open the file under them, and check that it is the file that
//! the reference names ([`is_named`]).
//!
//! ```
//! use luossavin::editions::label;
//! use luossavin::reference::{is_named, reference, split};
//! use luossavin::shelf::Shelf;
//! use luossavin::sm4::cipher_mode::{CipherMode, Sm4CipherMode};
//! use luossavin::Refusal;
//!
//! let gcm = Sm4CipherMode::new(&[7; 16], CipherMode::Gcm)?;
//! let (mut shelf, mut store) = (Shelf::new(), Vec::new());
//! for (edition, text) in [(1, "the rough"), (2, "the final")] {
//!     let iv = [edition as u8; 16]; // random in your program
//!     let sealed = gcm.encrypt(&label(4711, edition), text.as_bytes(), &iv)?;
//!     shelf.put(4711, edition, &reference(&iv, &sealed)?)?;
//!     store.push([&iv[..], &sealed].concat());
//! }
//!
//! let current = shelf.find(4711)?;
//! let label = label(4711, current.edition());
//! let (iv, sealed) = split(&store[1])?;
//! assert_eq!(gcm.decrypt(&label, sealed, iv)?, b"the final");
//! assert!(is_named(current.sealed(), iv, sealed));
//! let (iv, sealed) = split(&store[0])?;
//! assert_eq!(gcm.decrypt(&label, sealed, iv), Err(Refusal::InvalidTag));
//! # Ok::<(), Refusal>(())
//! ```

use crate::shelf::Shelf;
use crate::Refusal;

/// How many bytes a reference has.
pub const LENGTH: usize = IV + TAG;

/// How many bytes the IV has, in a reference and in front of a file.
const IV: usize = 16;

/// How many bytes a tag has.
const TAG: usize = 16;

/// The reference to a sealed file: its IV, and the tag at its end. Refused with [`WrongIv`](Refusal::WrongIv) if the IV
/// is not 16 bytes, and with [`ShortGcm`](Refusal::ShortGcm) for fewer than 16 sealed bytes.
pub fn reference(iv: &[u8], sealed: &[u8]) -> Result<[u8; LENGTH], Refusal> {
    let mut reference = [0; LENGTH];
    let (front, end) = reference.split_at_mut(IV);
    if iv.len() != IV {
        return Err(Refusal::WrongIv);
    }
    front.copy_from_slice(iv);
    end.copy_from_slice(tag(sealed)?);
    Ok(reference)
}

/// Splits a stored file into its IV and the sealed bytes. Refused like [`reference()`].
pub fn split(stored: &[u8]) -> Result<(&[u8], &[u8]), Refusal> {
    if stored.len() < IV {
        return Err(Refusal::WrongIv);
    }
    let (iv, sealed) = stored.split_at(IV);
    tag(sealed).map(|_| (iv, sealed))
}

/// Is this entry of a shelf the sealed file itself, or the reference to it?
pub fn is_named(entry: &[u8], iv: &[u8], sealed: &[u8]) -> bool {
    entry == sealed || reference(iv, sealed).map_or(false, |reference| entry == reference)
}

/// The current records of a shelf, in its order: job, edition, and the entry.
///
/// ```
/// use luossavin::{reference::current, shelf::Shelf};
///
/// let mut shelf = Shelf::new();
/// shelf.put(4711, 1, b"rough")?;
/// shelf.put(4712, 7, b"another")?;
/// shelf.put(4711, 2, b"final")?;
/// let all: Vec<(u32, u16, &[u8])> = current(&shelf).collect();
/// assert_eq!(all, [(4712, 7, &b"another"[..]), (4711, 2, &b"final"[..])]);
/// # Ok::<(), luossavin::Refusal>(())
/// ```
pub fn current(shelf: &Shelf) -> impl Iterator<Item = (u32, u16, &[u8])> {
    let mut rest = shelf.as_bytes();
    let records = core::iter::from_fn(move || {
        let (head, behind) = (rest.get(..12)?, rest.get(12..)?);
        let number =
            |from, to| head.get(from..to).unwrap_or_default().iter().fold(0, |n, byte| n << 8 | u32::from(*byte));
        let (job, edition) = (number(2, 6), number(6, 8) as u16);
        let length = number(8, 12) as usize;
        rest = behind.get(length..)?;
        Some((head.starts_with(b"RD"), (job, edition, behind.get(..length)?)))
    });
    records.filter(|record| record.0).map(|record| record.1)
}

/// The tag at the end of a sealed message.
fn tag(sealed: &[u8]) -> Result<&[u8], Refusal> {
    let missing = TAG.saturating_sub(sealed.len());
    match sealed.len().checked_sub(TAG) {
        Some(text) => Ok(&sealed[text..]),
        None => Err(Refusal::ShortGcm { missing: missing as u8 }),
    }
}

#[cfg(test)]
mod tests {
    use super::*;

    #[test]
    fn a_reference_is_the_iv_and_the_end() {
        let stored: Vec<u8> = (0..50).collect();
        let (iv, sealed) = split(&stored).unwrap();
        assert_eq!((iv, sealed), (&stored[..16], &stored[16..]));
        let bytes = reference(iv, sealed).unwrap();
        assert_eq!(bytes, *[&stored[..16], &stored[34..]].concat());
        assert!(is_named(&bytes, iv, sealed) && is_named(sealed, iv, sealed));
        assert!(!is_named(&stored, iv, sealed) && !is_named(&bytes[..31], iv, sealed) && !is_named(b"", iv, sealed));
        for at in 0..50 {
            let mut other = stored.clone();
            other[at] ^= 1;
            let (iv, sealed) = split(&other).unwrap();
            assert_eq!(is_named(&bytes, iv, sealed), (16..34).contains(&at), "byte {at}");
            assert_eq!(is_named(&stored[16..], iv, sealed), at < 16, "byte {at}");
        }
    }

    #[test]
    fn what_is_too_short_is_refused() {
        for length in 0..16 {
            assert_eq!(split(&[0; 40][..length]), Err(Refusal::WrongIv));
            let missing = Refusal::ShortGcm { missing: 16 - length as u8 };
            assert_eq!(split(&[0; 40][..16 + length]), Err(missing));
            assert_eq!(reference(&[0; 16], &[0; 40][..length]), Err(missing));
        }
        for length in [0, 12, 15, 17] {
            assert_eq!(reference(&[0; 40][..length], &[0; 16]), Err(Refusal::WrongIv));
        }
        assert!(split(&[0; 32]).is_ok() && reference(&[0; 16], &[0; 16]).is_ok());
    }

    #[test]
    fn what_is_current_is_what_the_library_finds() {
        let mut shelf = Shelf::new();
        for n in 0..400_u32 {
            let (job, edition) = (n * n % 37 + 65_530, (n / 3) as u16);
            // some are refused, since they are not higher
            let _ = shelf.put(job, edition, &vec![n as u8; n as usize % 90]);
            if n % 101 == 0 {
                shelf.collect().unwrap();
            }
        }
        let mut jobs = 0;
        for (job, edition, entry) in current(&shelf) {
            let record = shelf.find(job).unwrap();
            assert_eq!((record.edition(), record.sealed()), (edition, entry));
            jobs += 1;
        }
        assert_eq!(jobs, (0..70_000).filter(|job| shelf.find(*job).is_ok()).count());
        assert!(jobs > 10);
        assert_eq!(current(&Shelf::new()).count(), 0);
    }

    #[test]
    fn a_shelf_has_room_for_1489_references() {
        let record = |job: u32| [b"RD", &job.to_be_bytes()[..], &[0, 1, 0, 0, 0, 32], &[7; LENGTH]].concat();
        let bytes: Vec<u8> = (0..1489).flat_map(record).collect();
        let mut shelf = Shelf::load(&bytes, crate::shelf::LARGEST).unwrap();
        assert_eq!(shelf.put(1489, 1, &[7; LENGTH]), Err(Refusal::NoShelfRoom));
        assert_eq!(current(&shelf).last(), Some((1488, 1, &[7; LENGTH][..])));
    }
}
