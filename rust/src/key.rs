//! Keys: their numbers, their retirement and their engines.

use crate::ffi::{self, Secret};
use crate::Refusal;
use core::fmt;

/// A key, set up, with its number.
///
/// Retire a key when a new one replaces it: it can still open and decrypt, and encryption under it is refused.
///
/// ```
/// use luossavin::sm4::cipher_mode::{CipherMode, Sm4CipherMode};
/// use luossavin::{Key, Refusal};
///
/// let (label, iv) = (b"job 4711", [1; 16]);
/// let current = Sm4CipherMode::with_key(Key::new(&[7; 16], 1)?, CipherMode::Gcm);
/// let sealed = current.encrypt(label, b"a transcript", &iv)?;
///
/// let retired = Sm4CipherMode::with_key(Key::new(&[7; 16], 1)?.retire(), CipherMode::Gcm);
/// assert_eq!(retired.decrypt(label, &sealed, &iv)?, b"a transcript");
/// assert_eq!(retired.encrypt(label, b"another", &iv), Err(Refusal::Retired));
/// # Ok::<(), Refusal>(())
/// ```
///
/// Share a key by reference, in an [`Arc`](alloc::sync::Arc), or in a `Keyring`, where it can be retired while other
/// threads use it. There is no `Clone`: a copy made before the key is retired would still encrypt. Two things are up to
/// you: keep track of which numbers are retired, since a key that is set up again from its bytes is not; and give no
/// two keys one number.
///
/// # Wiping
///
/// A key is on the heap, so moving it copies nothing, and it is overwritten when it is dropped. `Debug` shows no
/// secret. This does not cover:
///
/// - Copies on the stack: a call takes the record by value. [`wipe_stack`](crate::wipe_stack) overwrites them.
/// - The bytes that you passed to [`Key::new`]. Use [`wipe`](crate::wipe).
/// - A key that is never dropped: [`core::mem::forget`], a `static`, a killed process.
///
/// The same holds for the states of [`pieces`](crate::pieces), for a [`HashKey`](crate::halves::HashKey) and for a
/// [`Half`](crate::halves::Half).
pub struct Key(Secret<ffi::Key>);

impl Key {
    /// Sets up a key of 16 bytes under a number from 1 to 65,535. It is not retired, and has the default engine.
    /// Refused with [`ErrorBlockSize`](Refusal::ErrorBlockSize) or [`WrongNumber`](Refusal::WrongNumber).
    ///
    /// ```
    /// use luossavin::{Key, Refusal};
    ///
    /// assert_eq!(Key::new(&[7; 16], 12)?.number(), 12);
    /// assert_eq!(Key::new(&[7; 15], 12).unwrap_err(), Refusal::ErrorBlockSize);
    /// assert_eq!(Key::new(&[7; 16], 0).unwrap_err(), Refusal::WrongNumber);
    /// # Ok::<(), Refusal>(())
    /// ```
    pub fn new(bytes: &[u8], number: u32) -> Result<Key, Refusal> {
        let record = ffi::key_new(bytes, number);
        match record.answer {
            0 => Ok(Key(record)),
            refused => Err(Refusal::of(refused, 0)),
        }
    }

    /// Retires the key.
    #[must_use = "the key that was not retired is gone"]
    pub fn retire(mut self) -> Key {
        ffi::key_retire(&mut self.0);
        self
    }

    /// A second record of the key, retired.
    #[cfg(feature = "std")]
    pub(crate) fn retired(&self) -> Key {
        let mut record = *self.record();
        Key(Secret::take(&mut record)).retire()
    }

    /// Sets another engine. No answer and no output byte depends on it.
    ///
    /// ```
    /// use luossavin::{Engine, Key};
    ///
    /// let key = Key::new(&[7; 16], 1)?.with_engine(Engine::Tables);
    /// assert_eq!(key.engine(), Engine::Tables);
    /// # Ok::<(), luossavin::Refusal>(())
    /// ```
    #[must_use = "the key with the engine that it had is gone"]
    pub fn with_engine(mut self, engine: Engine) -> Key {
        ffi::key_engine(&mut self.0, engine as u32);
        self
    }

    /// The key's number: answers and journals name the key by it.
    #[must_use]
    pub fn number(&self) -> u16 {
        self.0.number
    }

    /// Whether the key is retired.
    #[must_use]
    pub fn is_retired(&self) -> bool {
        self.0.retired != 0
    }

    /// The engine of the key.
    #[must_use]
    pub fn engine(&self) -> Engine {
        match self.0.engine {
            1 => Engine::Tables,
            2 => Engine::Gates,
            3 => Engine::Plain,
            _ => Engine::Chosen,
        }
    }

    /// The record, for a call.
    pub(crate) fn record(&self) -> &ffi::Key {
        &self.0
    }
}

impl fmt::Debug for Key {
    fn fmt(&self, f: &mut fmt::Formatter<'_>) -> fmt::Result {
        f.debug_struct("Key")
            .field("number", &self.number())
            .field("retired", &self.is_retired())
            .field("engine", &self.engine())
            .finish_non_exhaustive()
    }
}

/// How the rounds of SM4 are computed. No answer depends on it; `docs/SPEED.md` has figures.
///
/// Use [`Gates`](Engine::Gates) if untrusted code shares your processor. Tables are read at addresses that depend on
/// key and text, and can leak through the cache (a side channel). The gates are written to be constant-time; that is
/// tested on the compiled library (`host/secrets`), not proved.
#[derive(Clone, Copy, Debug, PartialEq, Eq, Hash)]
#[non_exhaustive]
pub enum Engine {
    // numbers.txt: engines of Rust
    /// The library chooses: gates where blocks do not depend on one another, otherwise four tables.
    Chosen = 0,
    /// Four tables of 1 KiB, looked up by key and text (a cache side channel).
    Tables = 1,
    /// Gates: bitsliced, with no look-up and no branch by key or text (constant-time).
    Gates = 2,
    /// One table of 1 KiB, looked up by key and text (a cache side channel).
    Plain = 3,
    // numbers.txt: end
}

/// The direction, for calls that do both. A retired key can only decrypt.
#[derive(Clone, Copy, Debug, PartialEq, Eq, Hash)]
pub enum Direction {
    /// From text to ciphertext.
    Encrypt,
    /// From ciphertext to text.
    Decrypt,
}

impl Direction {
    pub(crate) fn is_decrypt(self) -> bool {
        self == Direction::Decrypt
    }
}
