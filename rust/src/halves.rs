//! GHASH of a message from the hashes of its halves.
//!
//! Two servers each hold half of a ciphertext. Each hashes its own half, and they exchange two [`Half`]s:
//!
//! ```
//! use luossavin::halves::HashKey;
//! use luossavin::sm4::cipher::Sm4Cipher;
//! use luossavin::sm4::cipher_mode::{CipherMode, Sm4CipherMode};
//! use luossavin::Key;
//! use std::sync::Arc;
//!
//! let (key, label, iv) = (Arc::new(Key::new(&[7; 16], 1)?), b"label", [1; 12]);
//! let sealed = Sm4CipherMode::with_key(key.clone(), CipherMode::Gcm).encrypt(label, &[9; 40], &iv)?;
//! let (text, tag) = sealed.split_at(40);
//!
//! let h = HashKey::of(&key)?;
//! // the first half is whole blocks
//! let (first, second) = (h.half(&text[..16]), h.half(&text[16..]));
//! let mut whole = h.join(&h.half(label), &h.join(&first, &second)?)?;
//! whole = h.join(&whole, &h.lengths(label.len(), text.len()))?;
//!
//! let mut j0 = [0; 16];
//! j0[..12].copy_from_slice(&iv);
//! j0[15] = 1;
//! let mask = Sm4Cipher::with_key(key).encrypt(&j0)?;
//! let made: Vec<u8> = mask.iter().zip(whole.to_bytes()).map(|(a, b)| a ^ b).collect();
//! assert_eq!(made, tag);
//! # Ok::<(), luossavin::Refusal>(())
//! ```

use crate::ffi::{self, Secret};
use crate::sm4::cipher_mode::CipherMode;
use crate::{Direction, Key, Refusal};
use core::fmt;

/// The hash key H: the encryption of sixteen zero bytes. It is as secret as the key: with it tags can be forged.
pub struct HashKey(Secret<ffi::Hash>);

impl HashKey {
    /// The H of a key. Refused with [`Retired`](Refusal::Retired) for a retired key, which cannot encrypt.
    pub fn of(key: &Key) -> Result<HashKey, Refusal> {
        let mut block = [0; 16];
        // zeros in Ctr, and not a single block: that looks nothing up by the key where the library chooses the engine
        let answer =
            ffi::message(Direction::Encrypt, CipherMode::Ctr, key.record(), &[], &[0; 16], &[0; 16], &mut block);
        let h = hash_of(block);
        ffi::overwrite(&mut block);
        answer.result()?;
        Ok(HashKey(h))
    }

    /// The hash of bytes, in blocks of 16; the last block is filled up with zeros.
    #[must_use]
    pub fn half(&self, bytes: &[u8]) -> Half {
        let blocks = (bytes.len() / 16 + usize::from(bytes.len() % 16 != 0)) as u64;
        Half { hash: ffi::hash_blocks(&self.0, bytes), blocks }
    }

    /// The hash of the length block at the end of a message. Pass the lengths of label and ciphertext in bytes.
    #[must_use]
    pub fn lengths(&self, label: usize, text: usize) -> Half {
        let bits = |n: usize| (n as u64).wrapping_mul(8).to_be_bytes();
        self.half(&[bits(label), bits(text)].concat())
    }

    /// Joins two hashes: the result is the hash of the blocks of the first and then those of the second. Refused with
    /// [`TooLong`](Refusal::TooLong) if both have 2^64 blocks or more together.
    ///
    /// The first half of a text must be whole blocks, a multiple of 16 bytes: a shorter block was filled up with zeros.
    pub fn join(&self, first: &Half, second: &Half) -> Result<Half, Refusal> {
        let blocks = first.blocks.checked_add(second.blocks).ok_or(Refusal::TooLong)?;
        Ok(Half { hash: ffi::hash_join(&self.0, &first.hash, &second.hash, second.blocks), blocks })
    }
}

impl fmt::Debug for HashKey {
    fn fmt(&self, f: &mut fmt::Formatter<'_>) -> fmt::Result {
        f.write_str("HashKey { .. }")
    }
}

/// A hash, and how many blocks it is of. It is as secret as the key: who also has the bytes can compute H from it.
pub struct Half {
    hash: Secret<ffi::Hash>,
    blocks: u64,
}

impl Half {
    /// The hash that another host has sent, of so many blocks.
    #[must_use]
    pub fn from_parts(bytes: [u8; 16], blocks: u64) -> Half {
        Half { hash: hash_of(bytes), blocks }
    }

    /// The sixteen bytes of the hash, to send to another host.
    #[must_use]
    pub fn to_bytes(&self) -> [u8; 16] {
        (u128::from(self.hash.high) << 64 | u128::from(self.hash.low)).to_be_bytes()
    }

    /// How many blocks it is of.
    #[must_use]
    pub fn blocks(&self) -> u64 {
        self.blocks
    }
}

impl fmt::Debug for Half {
    fn fmt(&self, f: &mut fmt::Formatter<'_>) -> fmt::Result {
        f.debug_struct("Half").field("blocks", &self.blocks).finish_non_exhaustive()
    }
}

/// The hash that sixteen bytes are, as a big-endian number.
fn hash_of(bytes: [u8; 16]) -> Secret<ffi::Hash> {
    let number = u128::from_be_bytes(bytes);
    let mut hash = ffi::Hash { high: (number >> 64) as u64, low: number as u64 };
    Secret::take(&mut hash)
}
