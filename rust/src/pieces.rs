//! Streaming: messages in pieces, cut anywhere. Ctr, sealing in Gcm, and whether a Gcm message opens. If you have a
//! `Write` or a `Read`, use `streams`.
//!
//! Start, pass pieces, end. The end consumes the state, so nothing can come after it. There is no `Clone`: two texts
//! through copies of one state would use the same key stream. The pieces of a message have at most 16,777,216 bytes
//! together; the piece that would pass this is refused with [`TooLong`](Refusal::TooLong). A refused piece leaves the
//! state as it was: you may pass it again.
//!
//! If a state is dropped before its end, there is no tag, and what was sealed so far does not open.

use crate::ffi::{self, Secret};
use crate::{Direction, Done, Key, Refusal, LONGEST_TEXT};
use core::fmt;

/// Ctr in pieces, either way. The outputs, joined, are the output of the single call.
///
/// ```
/// use luossavin::pieces::Ctr;
/// use luossavin::sm4::cipher_mode::{CipherMode, Sm4CipherMode};
/// use luossavin::{Direction, Key};
///
/// let key = Key::new(&[7; 16], 1)?;
/// let mut ctr = Ctr::start(&key, Direction::Encrypt, &[1; 16])?;
/// let mut out = [0; 12];
/// ctr.piece(b"a trans", &mut out[..7])?;
/// ctr.piece(b"cript", &mut out[7..])?;
/// ctr.end()?;
/// let whole = Sm4CipherMode::with_key(key, CipherMode::Ctr).encrypt(b"", b"a transcript", &[1; 16])?;
/// assert_eq!(out[..], whole);
/// # Ok::<(), luossavin::Refusal>(())
/// ```
#[must_use = "a message that is not gone on with is cut off"]
pub struct Ctr(Secret<ffi::Ctr>);

impl Ctr {
    /// Starts a message under an IV of 16 bytes. A retired key can only decrypt.
    pub fn start(key: &Key, direction: Direction, iv: &[u8]) -> Result<Ctr, Refusal> {
        let (answer, state) = ffi::ctr_start(key.record(), direction, iv);
        answer.result()?;
        Ok(Ctr(state))
    }

    /// The next piece. Writes as many bytes to `out`.
    pub fn piece(&mut self, data: &[u8], out: &mut [u8]) -> Result<Done, Refusal> {
        ffi::ctr_piece(&mut self.0, data, out).result()
    }

    /// The next piece, in place. A refusal leaves it as it was.
    pub fn piece_in_place(&mut self, data: &mut [u8]) -> Result<(), Refusal> {
        fits(self.0.total, data)?;
        in_place(data, |portion, out| self.piece(portion, out))
    }

    /// Ends the message. Says whether the counter came round in all of it.
    pub fn end(mut self) -> Result<Done, Refusal> {
        ffi::ctr_end(&mut self.0).result()
    }
}

/// Sealing in Gcm in pieces. The outputs, joined, and then the tag, are the output of the single call.
///
/// ```
/// use luossavin::pieces::Seal;
/// use luossavin::sm4::cipher_mode::{CipherMode, Sm4CipherMode};
/// use luossavin::Key;
///
/// let key = Key::new(&[7; 16], 1)?;
/// let mut seal = Seal::start(&key, b"label", &[1; 12])?;
/// let mut sealed = vec![0; 12];
/// seal.piece(b"a trans", &mut sealed[..7])?;
/// seal.piece(b"cript", &mut sealed[7..])?;
/// let (tag, _) = seal.end()?;
/// sealed.extend(tag);
/// let whole = Sm4CipherMode::with_key(key, CipherMode::Gcm).encrypt(b"label", b"a transcript", &[1; 12])?;
/// assert_eq!(sealed, whole);
/// # Ok::<(), luossavin::Refusal>(())
/// ```
///
/// Nothing comes after the end:
///
/// ```compile_fail,E0382
/// # use luossavin::{pieces::Seal, Key};
/// let mut seal = Seal::start(&Key::new(&[7; 16], 1)?, b"label", &[1; 12])?;
/// let (tag, _) = seal.end()?;
/// seal.piece(b"more", &mut [0; 4])?;
/// # Ok::<(), luossavin::Refusal>(())
/// ```
#[must_use = "without `end` there is no tag, and what was sealed opens for nobody"]
pub struct Seal(Secret<ffi::Seal>);

impl Seal {
    /// Starts a message under the whole label and an IV of 12 or 16 bytes.
    pub fn start(key: &Key, label: &[u8], iv: &[u8]) -> Result<Seal, Refusal> {
        let (answer, state) = ffi::seal_start(key.record(), label, iv);
        answer.result()?;
        Ok(Seal(state))
    }

    /// The next piece of the text. Writes as many bytes to `out`.
    pub fn piece(&mut self, text: &[u8], out: &mut [u8]) -> Result<Done, Refusal> {
        ffi::seal_piece(&mut self.0, text, out).result()
    }

    /// The next piece of the text, in place. A refusal leaves it as it was.
    ///
    /// ```
    /// use luossavin::pieces::Seal;
    /// use luossavin::Key;
    ///
    /// let key = Key::new(&[7; 16], 1)?;
    /// let (mut apart, mut in_place) = ([0; 12], *b"a transcript");
    /// Seal::start(&key, b"label", &[1; 12])?.piece(b"a transcript", &mut apart)?;
    /// Seal::start(&key, b"label", &[1; 12])?.piece_in_place(&mut in_place)?;
    /// assert_eq!(in_place, apart);
    /// # Ok::<(), luossavin::Refusal>(())
    /// ```
    pub fn piece_in_place(&mut self, text: &mut [u8]) -> Result<(), Refusal> {
        fits(self.0.total, text)?;
        in_place(text, |portion, out| self.piece(portion, out))
    }

    /// Ends the message: returns its tag, and whether the counter came round in all of it.
    pub fn end(mut self) -> Result<([u8; 16], Done), Refusal> {
        let mut tag = [0; 16];
        let done = ffi::seal_end(&mut self.0, &mut tag).result()?;
        Ok((tag, done))
    }
}

/// Does a Gcm message open? In pieces; no text is made.
///
/// ```
/// use luossavin::pieces::Opens;
/// use luossavin::sm4::cipher_mode::{CipherMode, Sm4CipherMode};
/// use luossavin::Key;
///
/// let key = Key::new(&[7; 16], 1)?;
/// let mut opens = Opens::start(&key, b"label", &[1; 16])?;
/// let sealed = Sm4CipherMode::with_key(key, CipherMode::Gcm).encrypt(b"label", b"a transcript", &[1; 16])?;
/// opens.piece(&sealed[..5])?;
/// opens.piece(&sealed[5..12])?;
/// assert!(opens.end(&sealed[12..])?);
/// # Ok::<(), luossavin::Refusal>(())
/// ```
#[must_use = "without `end` nothing is answered"]
pub struct Opens(Secret<ffi::Opens>);

impl Opens {
    /// Starts with the whole label and an IV of 12 or 16 bytes. The key may be retired.
    pub fn start(key: &Key, label: &[u8], iv: &[u8]) -> Result<Opens, Refusal> {
        let (answer, state) = ffi::opens_start(key.record(), label, iv);
        answer.result()?;
        Ok(Opens(state))
    }

    /// The next piece of the ciphertext, without the tag.
    pub fn piece(&mut self, sealed: &[u8]) -> Result<(), Refusal> {
        ffi::opens_piece(&mut self.0, sealed).result()?;
        Ok(())
    }

    /// Ends with the tag of 16 bytes: does the message open? A tag of another length is refused with
    /// [`ShortGcm`](Refusal::ShortGcm); start again then.
    pub fn end(mut self, tag: &[u8]) -> Result<bool, Refusal> {
        match ffi::opens_end(&mut self.0, tag).result() {
            Ok(_) => Ok(true),
            Err(Refusal::InvalidTag) => Ok(false),
            Err(refusal) => Err(refusal),
        }
    }
}

/// How many bytes go through the buffer at a time.
const PORTION: usize = 8192;

/// A refusal where a piece would pass the limit of a message that has `total` bytes so far: no part of it is then done.
fn fits(total: usize, piece: &[u8]) -> Result<(), Refusal> {
    match total.checked_add(piece.len()) {
        Some(whole) if whole <= LONGEST_TEXT => Ok(()),
        _ => Err(Refusal::TooLong),
    }
}

/// Goes over bytes in their place, each portion from a copy, which is overwritten.
fn in_place(bytes: &mut [u8], mut step: impl FnMut(&[u8], &mut [u8]) -> Result<Done, Refusal>) -> Result<(), Refusal> {
    let mut copy = [0; PORTION];
    let done = bytes.chunks_mut(PORTION).try_for_each(|portion| {
        let copy = &mut copy[..portion.len()];
        copy.copy_from_slice(portion);
        step(copy, portion).map(drop)
    });
    crate::wipe(&mut copy);
    done
}

/// Shows a state by its name and its key's number.
macro_rules! show {
    ($($name:ident)*) => {
        $(impl fmt::Debug for $name {
            fn fmt(&self, f: &mut fmt::Formatter<'_>) -> fmt::Result {
                f.debug_struct(stringify!($name)).field("key", &self.0.key).finish_non_exhaustive()
            }
        })*
    };
}

show!(Ctr Seal Opens);
