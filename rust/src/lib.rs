//! SM4 (GB/T 32907-2016) in Cfb, Ofb, Ctr, Cbc and Gcm, with libsm's names, over the proved library of Luossavin.
//!
//! Seal a transcript under its job and edition, and ask before you show it: does this file open under this edition?
//!
//! ```
//! use luossavin::{Edition, Key};
//!
//! let (key, iv) = (Key::new(&[7; 16], 1)?, [1; 16]);
//! let sealed = key.seal(4711, Edition(1), b"a transcript", &iv)?;
//! assert!(key.opens(4711, Edition(1), &sealed, &iv)?);
//! assert!(!key.opens(4711, Edition(2), &sealed, &iv)?);
//! # Ok::<(), luossavin::Refusal>(())
//! ```
//!
//! If your server uses libsm, change the import. Two things differ: a message has at most 16 MiB, and a `match` on
//! libsm's four errors needs a fifth arm, `_ =>`.
//!
//! ```
//! // before: use libsm::sm4::cipher_mode::{CipherMode, Sm4CipherMode};
//! use luossavin::sm4::cipher_mode::{CipherMode, Sm4CipherMode};
//!
//! let (key, aad, data, iv) = ([7; 16], b"label", b"a transcript", [1; 16]);
//! let sealed = Sm4CipherMode::new(&key, CipherMode::Gcm)?.encrypt(aad, data, &iv)?;
//! assert_eq!(sealed.len(), data.len() + 16);
//! # Ok::<(), luossavin::Refusal>(())
//! ```
//!
//! | | |
//! |---|---|
//! | [`sm4`] | libsm's names and signatures, and messages into your own buffer |
//! | [`Key`], [`Engine`] | keys with numbers; retiring a key; how the rounds are computed (tables, or constant-time gates) |
//! | `keyring` | the keys of a server, by number; any thread may retire one |
//! | `streams` | streaming with `Write` and `Read`: seal, ask, open |
//! | [`pieces`] | streaming without `std::io`: messages in pieces, cut anywhere |
//! | [`detached`] | the tag apart from the ciphertext, and sealing in place |
//! | [`editions`] | [`Edition`], with [`Key::opens`], [`Key::seal`] and [`Key::open`]; which of up to 64 labels a file opens under |
//! | [`ranges`] | one Ctr message among several workers |
//! | [`shelf`] | sealed files in one buffer; the newest edition of each job is current |
//! | [`reference`](mod@reference) | an IV and a tag, kept on a shelf for a sealed file that is stored elsewhere |
//! | [`journal`] | recorded calls, to be replayed and added up |
//! | [`halves`] | GHASH of halves of a message, joined |
//!
//! The library is proved; `include/luossavin.h` has what it promises. It is included as assembly that was made from the
//! proved code, for Linux on x86-64 and aarch64. This package is a thin layer over it: it passes slices and converts
//! answers. It is tested, not proved. The library has no state, so all of it may be used from any thread. Its symbols
//! are C's: link either this package or the C library into a program, not both.

#![cfg_attr(not(feature = "std"), no_std)]
#![deny(unsafe_code, unsafe_op_in_unsafe_fn)]
#![warn(missing_docs)]

extern crate alloc;

#[cfg(not(all(
    target_os = "linux",
    target_pointer_width = "64",
    target_endian = "little",
    any(target_arch = "x86_64", target_arch = "aarch64")
)))]
compile_error!("Luossavin supports Linux on x86-64 and aarch64: the library is included as assembly");

pub mod detached;
pub mod editions;
#[allow(unsafe_code)]
mod ffi;
pub mod halves;
pub mod journal;
mod key;
#[cfg(feature = "std")]
pub mod keyring;
pub mod pieces;
pub mod ranges;
pub mod reference;
mod refusal;
pub mod shelf;
pub mod sizes;
pub mod sm4;
#[cfg(feature = "std")]
pub mod streams;
mod wiping;

pub use editions::Edition;
pub use key::{Direction, Engine, Key};
pub use refusal::{Done, Refusal};
pub use sizes::LONGEST_TEXT;
pub use wiping::{wipe, wipe_stack, WipedOnDrop};

// the examples of the README are run with the others
#[cfg(all(doctest, feature = "std"))]
#[doc = include_str!("../README.md")]
mod readme {}

/// The version of this package, and of the library in it.
pub const VERSION: &str = env!("CARGO_PKG_VERSION");
