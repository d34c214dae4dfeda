//! Single blocks.

use super::error::Sm4Error;
use crate::{ffi, Direction, Key};
use alloc::sync::Arc;

/// The block cipher SM4 (GB/T 32907-2016) under a key. By default it uses tables, a cache side channel: see
/// [`Engine`](crate::Engine).
#[derive(Clone, Debug)]
pub struct Sm4Cipher {
    key: Arc<Key>,
}

impl Sm4Cipher {
    /// Sets up a key of 16 bytes, under the number 1.
    pub fn new(key: &[u8]) -> Result<Sm4Cipher, Sm4Error> {
        Ok(Sm4Cipher::with_key(Key::new(key, 1)?))
    }

    /// The cipher under a key, which may be shared.
    pub fn with_key(key: impl Into<Arc<Key>>) -> Sm4Cipher {
        Sm4Cipher { key: key.into() }
    }

    /// Encrypts one block of 16 bytes.
    pub fn encrypt(&self, block_in: &[u8]) -> Result<[u8; 16], Sm4Error> {
        self.call(Direction::Encrypt, block_in)
    }

    /// Decrypts one block of 16 bytes.
    pub fn decrypt(&self, block_in: &[u8]) -> Result<[u8; 16], Sm4Error> {
        self.call(Direction::Decrypt, block_in)
    }

    fn call(&self, direction: Direction, block_in: &[u8]) -> Result<[u8; 16], Sm4Error> {
        let mut out = [0; 16];
        ffi::block(direction, self.key.record(), block_in, &mut out).result()?;
        Ok(out)
    }
}
