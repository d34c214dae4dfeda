//! Gcm with a detached tag, and sealing in place.
//!
//! ```
//! use luossavin::detached::{open, opens, seal_in_place};
//! use luossavin::{Key, Refusal};
//!
//! let (key, label, iv) = (Key::new(&[7; 16], 1)?, b"label", [1; 12]);
//! let mut text = *b"a transcript";
//! let tag = seal_in_place(&key, label, &iv, &mut text)?;
//! assert!(opens(&key, label, &iv, &text, &tag)?);
//! assert_eq!(open(&key, label, &iv, &text, &tag)?, b"a transcript");
//! assert_eq!(open(&key, b"another", &iv, &text, &tag), Err(Refusal::InvalidTag));
//! # Ok::<(), Refusal>(())
//! ```
//!
//! Sealing in place works through a small buffer ([`Seal::piece_in_place`](crate::pieces::Seal::piece_in_place)): in
//! the proofs no output overlaps an input. There is no opening in place: an opening verifies the tag over the whole
//! ciphertext first, and writes to an output of its own.

use crate::pieces::{Opens, Seal};
use crate::sm4::cipher_mode::{decrypted, CipherMode};
use crate::{Key, Refusal, LONGEST_TEXT};
use alloc::vec::Vec;

/// Seals a text in place, and returns the tag. A refusal leaves the text as it was.
pub fn seal_in_place(key: &Key, label: &[u8], iv: &[u8], text: &mut [u8]) -> Result<[u8; 16], Refusal> {
    let mut seal = Seal::start(key, label, iv)?;
    seal.piece_in_place(text)?;
    Ok(seal.end()?.0)
}

/// Does a ciphertext open with this tag? Nothing is copied, and no text is made.
pub fn opens(key: &Key, label: &[u8], iv: &[u8], ciphertext: &[u8], tag: &[u8]) -> Result<bool, Refusal> {
    let mut question = Opens::start(key, label, iv)?;
    question.piece(ciphertext)?;
    question.end(tag)
}

/// Opens a ciphertext with its tag of 16 bytes. It copies both into one buffer: the library's call takes them so.
pub fn open(key: &Key, label: &[u8], iv: &[u8], ciphertext: &[u8], tag: &[u8]) -> Result<Vec<u8>, Refusal> {
    // what is too long is refused at any length over the limit: no more than that is copied
    let lent = &ciphertext[..ciphertext.len().min(LONGEST_TEXT + 1)];
    if tag.len() != 16 {
        return Err(Refusal::ShortGcm { missing: 16u8.saturating_sub(tag.len().min(16) as u8) });
    }
    Ok(decrypted(key, CipherMode::Gcm, label, &[lent, tag].concat(), iv)?.0)
}
