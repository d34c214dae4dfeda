//! Messages in Cfb, Ofb, Ctr, Cbc and Gcm.

use super::error::Sm4Result;
use crate::sizes::LONGEST_SEALED;
use crate::{ffi, Direction, Done, Key};
use alloc::sync::Arc;
use alloc::vec;
use alloc::vec::Vec;

/// A mode of operation.
#[derive(Clone, Copy, Debug, PartialEq, Eq, Hash)]
pub enum CipherMode {
    // numbers.txt: modes of Rust
    /// Cipher feedback, in segments of 16 bytes.
    Cfb = 0,
    /// Output feedback.
    Ofb = 1,
    /// A counter of 16 bytes, which starts at the IV.
    Ctr = 2,
    /// Cipher block chaining, with a padding of 1 to 16 bytes.
    Cbc = 3,
    /// Galois/counter mode: the one that seals, with a label (AAD) and a tag.
    Gcm = 4,
    // numbers.txt: end
}

/// The longest output of a call. One that needs more room is refused for its length, whatever room it has.
const LONGEST: usize = LONGEST_SEALED;

impl CipherMode {
    /// The room needed to encrypt `n` bytes, which is also the length of the result.
    #[must_use]
    pub fn room_to_encrypt(self, n: usize) -> usize {
        match self {
            CipherMode::Cfb | CipherMode::Ofb | CipherMode::Ctr => n,
            CipherMode::Cbc => (n / 16).saturating_add(1).saturating_mul(16),
            CipherMode::Gcm => n.saturating_add(16),
        }
    }

    /// The room needed to decrypt `n` bytes. In Cbc the result is shorter.
    #[must_use]
    pub fn room_to_decrypt(self, n: usize) -> usize {
        match self {
            CipherMode::Gcm => n.saturating_sub(16),
            _ => n,
        }
    }
}

/// A mode under a key.
#[derive(Clone, Debug)]
pub struct Sm4CipherMode {
    key: Arc<Key>,
    mode: CipherMode,
}

impl Sm4CipherMode {
    /// Sets up a key of 16 bytes, under the number 1, for a mode.
    pub fn new(key: &[u8], mode: CipherMode) -> Sm4Result<Sm4CipherMode> {
        Ok(Sm4CipherMode::with_key(Key::new(key, 1)?, mode))
    }

    /// A mode under a key, which may be shared.
    ///
    /// ```
    /// use luossavin::sm4::cipher_mode::{CipherMode, Sm4CipherMode};
    /// use luossavin::Key;
    /// use std::sync::Arc;
    ///
    /// let key = Arc::new(Key::new(&[7; 16], 12)?);
    /// let gcm = Sm4CipherMode::with_key(key.clone(), CipherMode::Gcm);
    /// let ctr = Sm4CipherMode::with_key(key, CipherMode::Ctr);
    /// assert_eq!(gcm.encrypt(b"", b"text", &[1; 16])?.len(), 20);
    /// assert_eq!(ctr.encrypt(b"", b"text", &[2; 16])?.len(), 4);
    /// # Ok::<(), luossavin::Refusal>(())
    /// ```
    pub fn with_key(key: impl Into<Arc<Key>>, mode: CipherMode) -> Sm4CipherMode {
        Sm4CipherMode { key: key.into(), mode }
    }

    /// Encrypts `data`. In Gcm it also authenticates the label `aad` (the associated data), which other modes ignore.
    /// The IV (nonce) has 16 bytes; in Gcm 12 are allowed too. Never use a key and an IV twice.
    ///
    /// [`encrypt_into`](Sm4CipherMode::encrypt_into) also says whether the counter came round.
    pub fn encrypt(&self, aad: &[u8], data: &[u8], iv: &[u8]) -> Sm4Result<Vec<u8>> {
        let mut out = vec![0; self.mode.room_to_encrypt(data.len()).min(LONGEST)];
        let done = self.encrypt_into(aad, data, iv, &mut out)?;
        out.truncate(done.length);
        Ok(out)
    }

    /// Decrypts `data`. Use the label and IV that it was encrypted under. In Gcm you get a text only if the tag is
    /// right, and in Cbc only if the padding is.
    pub fn decrypt(&self, aad: &[u8], data: &[u8], iv: &[u8]) -> Sm4Result<Vec<u8>> {
        Ok(decrypted(&self.key, self.mode, aad, data, iv)?.0)
    }

    /// Encrypts `data` into your buffer, which needs [`room_to_encrypt`](CipherMode::room_to_encrypt). The bytes after
    /// the result are not changed; in a refusal, none are.
    ///
    /// ```
    /// use luossavin::sm4::cipher_mode::{CipherMode, Sm4CipherMode};
    ///
    /// let cipher = Sm4CipherMode::new(&[7; 16], CipherMode::Gcm)?;
    /// let mut buffer = [0; 64];
    /// let done = cipher.encrypt_into(b"label", b"text", &[1; 16], &mut buffer)?;
    /// assert_eq!(&buffer[..done.length], cipher.encrypt(b"label", b"text", &[1; 16])?);
    /// assert_eq!(buffer[done.length..], [0; 44]);
    /// # Ok::<(), luossavin::Refusal>(())
    /// ```
    pub fn encrypt_into(&self, aad: &[u8], data: &[u8], iv: &[u8], out: &mut [u8]) -> Sm4Result<Done> {
        ffi::message(Direction::Encrypt, self.mode, self.key.record(), aad, data, iv, out).result()
    }

    /// Decrypts `data` into your buffer, which needs [`room_to_decrypt`](CipherMode::room_to_decrypt). The bytes after
    /// the result are not changed; in a refusal, none are.
    pub fn decrypt_into(&self, aad: &[u8], data: &[u8], iv: &[u8], out: &mut [u8]) -> Sm4Result<Done> {
        ffi::message(Direction::Decrypt, self.mode, self.key.record(), aad, data, iv, out).result()
    }

    /// The key.
    #[must_use]
    pub fn key(&self) -> &Key {
        &self.key
    }

    /// The mode.
    #[must_use]
    pub fn mode(&self) -> CipherMode {
        self.mode
    }
}

/// Decrypts `data` to a text of its own.
pub(crate) fn decrypted(key: &Key, mode: CipherMode, aad: &[u8], data: &[u8], iv: &[u8]) -> Sm4Result<(Vec<u8>, Done)> {
    let mut out = vec![0; mode.room_to_decrypt(data.len()).min(LONGEST)];
    let done = ffi::message(Direction::Decrypt, mode, key.record(), aad, data, iv, &mut out).result()?;
    out.truncate(done.length);
    Ok((out, done))
}
