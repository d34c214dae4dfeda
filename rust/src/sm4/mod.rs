//! SM4 with libsm's names and signatures: change `use libsm::sm4::..` to `use luossavin::sm4::..`.
//!
//! ```
//! use luossavin::sm4::cipher::Sm4Cipher;
//! use luossavin::sm4::cipher_mode::{CipherMode, Sm4CipherMode};
//!
//! let (key, block, iv) = ([7; 16], [1; 16], [2; 16]);
//! let out = Sm4Cipher::new(&key)?.encrypt(&block)?;
//! assert_eq!(Sm4Cipher::new(&key)?.decrypt(&out)?, block);
//!
//! let sealed = Sm4CipherMode::new(&key, CipherMode::Gcm)?.encrypt(b"label", b"text", &iv)?;
//! assert_eq!(Sm4CipherMode::new(&key, CipherMode::Gcm)?.decrypt(b"label", &sealed, &iv)?, b"text");
//! # Ok::<(), luossavin::sm4::error::Sm4Error>(())
//! ```
//!
//! Differences from libsm (`docs/DIFFERENCES.md` has all): no input makes it panic, lengths have a limit, Cbc checks
//! all of the padding, Gcm also takes an IV of 12 bytes, and wrong sizes of key, IV and block each have a name of their
//! own.

pub mod cipher;
pub mod cipher_mode;
pub mod error;

pub use cipher::Sm4Cipher;
pub use cipher_mode::{CipherMode, CipherMode as Mode, Sm4CipherMode, Sm4CipherMode as Cipher};
pub use error::{Sm4Error, Sm4Result};
