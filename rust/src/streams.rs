//! Streaming: seal through a [`Write`], ask whether a message from a [`Read`] opens, open it to a [`Write`].
//!
//! A refusal is returned as an [`io::Error`]; [`Refusal::in_error`] gets it out.

use crate::pieces::{Opens, Seal};
use crate::sm4::cipher_mode::{decrypted, CipherMode};
use crate::{Done, Key, Refusal, LONGEST_TEXT};
use std::fmt;
use std::io::{self, ErrorKind, Read, Write};

/// How many bytes go through at a time.
const PORTION: usize = 65_536;

/// Seals what you write to it, and writes the ciphertext and then the tag to another [`Write`].
///
/// ```
/// use luossavin::editions::label;
/// use luossavin::streams::{open_to, opens, SealWriter};
/// use luossavin::Key;
/// use std::io::Write;
///
/// let (key, iv) = (Key::new(&[7; 16], 1)?, [1; 16]);
/// let mut writer = SealWriter::start(&key, &label(4711, 1), &iv, Vec::new())?;
/// writeln!(writer, "Q. Where were you?")?;
/// writeln!(writer, "A. In the garden.")?;
/// let (sealed, _) = writer.finish()?;
///
/// assert!(opens(&key, &label(4711, 1), &iv, &sealed[..])?);
/// assert!(!opens(&key, &label(4711, 2), &iv, &sealed[..])?);
/// let mut text = Vec::new();
/// open_to(&key, &label(4711, 1), &iv, &sealed[..], &mut text)?;
/// assert_eq!(text, b"Q. Where were you?\nA. In the garden.\n");
/// # Ok::<(), std::io::Error>(())
/// ```
///
/// It has a buffer of 64 KiB: write line by line, without a [`BufWriter`](std::io::BufWriter). `flush` seals and writes
/// what is in the buffer.
///
/// Call [`finish`](SealWriter::finish) at the end: it writes the tag. A writer that is dropped without it writes
/// nothing more, and its output does not open, so that a text that broke off cannot pass for a whole one. For the same
/// reason `finish` is refused after a write that was refused.
#[must_use = "without `finish` there is no tag, and what was written opens for nobody"]
pub struct SealWriter<W: Write> {
    /// The state, until the tag is made.
    seal: Option<Seal>,
    /// What the end said, once the tag is made.
    done: Option<Done>,
    /// Text that is still to be sealed.
    text: Buffered,
    /// How many bytes of text were taken, those among them.
    total: usize,
    /// Ciphertext, and then the tag, that are still to be written.
    kept: Vec<u8>,
    /// The refusal of a write.
    refused: Option<Refusal>,
    to: W,
}

/// Text, which is overwritten when it is taken out and when it is dropped. It never grows past its first capacity, so
/// that no copy is left behind.
struct Buffered(Vec<u8>);

impl Buffered {
    fn clear(&mut self) {
        crate::wipe(&mut self.0);
        self.0.clear();
    }
}

impl Drop for Buffered {
    fn drop(&mut self) {
        self.clear();
    }
}

impl<W: Write> SealWriter<W> {
    /// Starts a message under the whole label and an IV of 12 or 16 bytes.
    pub fn start(key: &Key, label: &[u8], iv: &[u8], to: W) -> Result<SealWriter<W>, Refusal> {
        let seal = Some(Seal::start(key, label, iv)?);
        let text = Buffered(Vec::with_capacity(PORTION));
        Ok(SealWriter { seal, done: None, text, total: 0, kept: Vec::new(), refused: None, to })
    }

    /// Writes the rest and the tag. Returns the writer below, which is not flushed, and whether the counter came round.
    ///
    /// After an error of the writer below, such as `WouldBlock`, try again: the error contains the writer. `?` converts
    /// it to an [`io::Error`].
    ///
    /// ```
    /// # use luossavin::{streams::SealWriter, Key};
    /// # let key = Key::new(&[7; 16], 1)?;
    /// # let mut tries = 0;
    /// let mut writer = SealWriter::start(&key, b"label", &[1; 16], Vec::new())?;
    /// let (sealed, _) = loop {
    ///     match writer.finish() {
    ///         Ok(finished) => break finished,
    ///         Err(unfinished) if unfinished.error().kind() == std::io::ErrorKind::WouldBlock => {
    ///             writer = unfinished.into_writer();
    ///         }
    ///         Err(unfinished) => return Err(unfinished.into()),
    ///     }
    /// };
    /// # assert_eq!(sealed.len(), 16);
    /// # Ok::<(), std::io::Error>(())
    /// ```
    pub fn finish(mut self) -> Result<(W, Done), Unfinished<W>> {
        match self.end() {
            Ok(done) => Ok((self.to, done)),
            Err(error) => Err(Unfinished { error, writer: Box::new(self) }),
        }
    }

    fn end(&mut self) -> io::Result<Done> {
        self.go_on()?;
        self.seal_text()?;
        if let Some(seal) = self.seal.take() {
            let (tag, done) = seal.end().map_err(|refusal| self.refuse(refusal))?;
            self.kept.extend_from_slice(&tag);
            self.done = Some(done);
        }
        self.pass_on()?;
        self.done.ok_or_else(|| Refusal::Ended.into())
    }

    /// An error where a write was refused before.
    fn go_on(&self) -> io::Result<()> {
        self.refused.map_or(Ok(()), |refusal| Err(refusal.into()))
    }

    fn refuse(&mut self, refusal: Refusal) -> io::Error {
        self.refused = Some(refusal);
        refusal.into()
    }

    /// Seals the text that is buffered, behind what is kept.
    fn seal_text(&mut self) -> io::Result<()> {
        if self.text.0.is_empty() {
            return Ok(());
        }
        let before = self.kept.len();
        self.kept.resize(before + self.text.0.len(), 0);
        let sealed = match &mut self.seal {
            Some(seal) => seal.piece(&self.text.0, &mut self.kept[before..]),
            None => Err(Refusal::Ended),
        };
        self.text.clear();
        if let Err(refusal) = sealed {
            self.kept.truncate(before);
            return Err(self.refuse(refusal));
        }
        Ok(())
    }

    /// Writes the ciphertext that is kept. What an error leaves is still kept.
    fn pass_on(&mut self) -> io::Result<()> {
        while !self.kept.is_empty() {
            match self.to.write(&self.kept) {
                Ok(0) => return Err(ErrorKind::WriteZero.into()),
                // no writer can have taken more than it was given
                Ok(n) => drop(self.kept.drain(..n.min(self.kept.len()))),
                Err(error) if error.kind() == ErrorKind::Interrupted => {}
                Err(error) => return Err(error),
            }
        }
        Ok(())
    }
}

impl<W: Write> Write for SealWriter<W> {
    /// Takes some of the text. After an error of the writer below none of it was taken: write it again.
    fn write(&mut self, text: &[u8]) -> io::Result<usize> {
        self.go_on()?;
        if self.text.0.len() == PORTION {
            self.pass_on()?;
            self.seal_text()?;
        }
        if self.kept.len() >= PORTION {
            self.pass_on()?;
        }
        let taken = text.len().min(PORTION - self.text.0.len());
        if self.seal.is_none() {
            return Err(self.refuse(Refusal::Ended));
        }
        if taken > LONGEST_TEXT - self.total {
            return Err(self.refuse(Refusal::TooLong));
        }
        self.text.0.extend_from_slice(&text[..taken]);
        self.total += taken;
        Ok(taken)
    }

    fn flush(&mut self) -> io::Result<()> {
        self.seal_text()?;
        self.pass_on()?;
        self.to.flush()
    }
}

impl<W: Write> fmt::Debug for SealWriter<W> {
    fn fmt(&self, f: &mut fmt::Formatter<'_>) -> fmt::Result {
        f.debug_struct("SealWriter").field("seal", &self.seal).finish_non_exhaustive()
    }
}

/// The error of [`SealWriter::finish`]: the writer below had an error, or a write was refused. It contains the writer,
/// to try again.
pub struct Unfinished<W: Write> {
    error: io::Error,
    writer: Box<SealWriter<W>>,
}

impl<W: Write> Unfinished<W> {
    /// The error.
    #[must_use]
    pub fn error(&self) -> &io::Error {
        &self.error
    }

    /// The writer, to try again: what was already written is not written twice.
    pub fn into_writer(self) -> SealWriter<W> {
        *self.writer
    }
}

impl<W: Write> From<Unfinished<W>> for io::Error {
    fn from(unfinished: Unfinished<W>) -> io::Error {
        unfinished.error
    }
}

impl<W: Write> fmt::Debug for Unfinished<W> {
    fn fmt(&self, f: &mut fmt::Formatter<'_>) -> fmt::Result {
        f.debug_struct("Unfinished").field("error", &self.error).finish_non_exhaustive()
    }
}

impl<W: Write> fmt::Display for Unfinished<W> {
    fn fmt(&self, f: &mut fmt::Formatter<'_>) -> fmt::Result {
        self.error.fmt(f)
    }
}

impl<W: Write> std::error::Error for Unfinished<W> {
    fn source(&self) -> Option<&(dyn std::error::Error + 'static)> {
        Some(&self.error)
    }
}

/// Does a sealed message open? Reads it to its end, 64 KiB at a time. No text is made.
///
/// Returns `true` if the tag is right, `false` if it is not, and an error for anything else: a message of fewer than 16
/// bytes is refused with [`ShortGcm`](Refusal::ShortGcm).
pub fn opens(key: &Key, label: &[u8], iv: &[u8], mut sealed: impl Read) -> io::Result<bool> {
    let mut question = Opens::start(key, label, iv)?;
    let mut held = vec![0; PORTION + 16];
    let mut filled = 0;
    loop {
        match sealed.read(&mut held[filled..]) {
            Ok(0) => break,
            Ok(n) if n <= held.len() - filled => filled += n,
            Ok(_) => return Err(io::Error::new(ErrorKind::Other, "a reader says that it read more than it was lent")),
            Err(error) if error.kind() == ErrorKind::Interrupted => {}
            Err(error) => return Err(error),
        }
        // the last 16 bytes may be the tag: they wait for what comes next
        let text = filled.saturating_sub(16);
        question.piece(&held[..text])?;
        held.copy_within(text..filled, 0);
        filled -= text;
    }
    Ok(question.end(&held[..filled])?)
}

/// Opens a sealed message: reads it to its end, verifies the tag, and only then writes the text.
///
/// The message is kept in memory, up to the limit of 16,777,232 bytes; no more is read of a longer one. After an error
/// of `text`, a part of the text may have been written.
pub fn open_to(key: &Key, label: &[u8], iv: &[u8], sealed: impl Read, mut text: impl Write) -> io::Result<Done> {
    let mut whole = Vec::new();
    // a byte more than a sealed message may have, so that a longer one is refused
    sealed.take(LONGEST_TEXT as u64 + 17).read_to_end(&mut whole)?;
    let (opened, done) = decrypted(key, CipherMode::Gcm, label, &whole, iv)?;
    text.write_all(&opened)?;
    Ok(done)
}
