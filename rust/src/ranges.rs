//! One Ctr message among several workers.
//!
//! A [`Plan`] divides a message. Each worker does its [`Share`], in any order, also at the same time:
//!
//! ```
//! use luossavin::ranges::Plan;
//! use luossavin::{Direction, Key, Refusal};
//! use std::thread;
//!
//! let key = Key::new(&[7; 16], 1)?;
//! let (key, iv) = (&key, &[1; 16]);
//! let text = vec![b'x'; 100_000];
//! let mut out = vec![0; text.len()];
//!
//! let shares = Plan::make(text.len(), 4)?.shares(&text, &mut out)?;
//! thread::scope(|scope| {
//!     for share in shares {
//!         scope.spawn(move || share.work(key, Direction::Encrypt, iv).expect("nothing stands against it"));
//!     }
//! });
//!
//! let mut whole = vec![0; text.len()];
//! Plan::make(text.len(), 1)?.work(key, Direction::Encrypt, iv, &text, &mut whole)?;
//! assert_eq!(out, whole);
//! # Ok::<(), Refusal>(())
//! ```
//!
//! None of these says whether the counter came round: a range does not know where the message ends.

use crate::sizes::MOST_WORKERS;
use crate::{ffi, Direction, Done, Key, Refusal};
use alloc::boxed::Box;
use alloc::vec::Vec;
use core::fmt;
use core::ops::Range;

/// How a message is divided: pieces one after another, each but the last of whole blocks. A `Plan` is always a valid
/// one.
#[derive(Clone)]
pub struct Plan(Box<ffi::Plan>);

impl Plan {
    /// Makes a plan of `n` bytes for 1 to 64 workers, with at most that many pieces. Refused with
    /// [`BadWorkers`](Refusal::BadWorkers) or [`TooLong`](Refusal::TooLong).
    pub fn make(n: usize, workers: usize) -> Result<Plan, Refusal> {
        let planned = ffi::plan_make(n, workers);
        planned.answer.result()?;
        Ok(Plan(Box::new(planned.plan)))
    }

    /// Your own plan, with pieces of these lengths. Refused with [`NotAccepted`](Refusal::NotAccepted) if there are
    /// more than 64, if one is empty, or if a length other than the last is not a multiple of 16.
    ///
    /// ```
    /// use luossavin::ranges::Plan;
    /// use luossavin::Refusal;
    ///
    /// let plan = Plan::of_lengths(&[32, 16, 5])?;
    /// assert_eq!(plan.pieces().collect::<Vec<_>>(), [0..32, 32..48, 48..53]);
    /// assert_eq!(Plan::of_lengths(&[5, 16]).unwrap_err(), Refusal::NotAccepted);
    /// # Ok::<(), Refusal>(())
    /// ```
    pub fn of_lengths(lengths: &[usize]) -> Result<Plan, Refusal> {
        let mut plan =
            Box::new(ffi::Plan { count: lengths.len(), starts: [0; MOST_WORKERS], lengths: [0; MOST_WORKERS] });
        let mut end = 0usize;
        for (at, length) in lengths.iter().enumerate().take(MOST_WORKERS) {
            plan.starts[at] = end;
            plan.lengths[at] = *length;
            end = end.checked_add(*length).ok_or(Refusal::NotAccepted)?;
        }
        if ffi::plan_accepts(&plan, end) {
            Ok(Plan(plan))
        } else {
            Err(Refusal::NotAccepted)
        }
    }

    /// The range of each piece in the message.
    #[must_use]
    pub fn pieces(&self) -> impl ExactSizeIterator<Item = Range<usize>> + '_ {
        (0..self.0.count).map(|at| self.0.starts[at]..self.0.starts[at] + self.0.lengths[at])
    }

    /// Is the plan one for `n` bytes?
    #[must_use]
    pub fn accepts(&self, n: usize) -> bool {
        ffi::plan_accepts(&self.0, n)
    }

    /// Divides a message and its output: one share for each piece. Refused with [`NotAccepted`](Refusal::NotAccepted)
    /// if the plan is for another length, and then with [`NoRoom`](Refusal::NoRoom) if `out` is shorter than the data.
    pub fn shares<'a>(&self, data: &'a [u8], out: &'a mut [u8]) -> Result<Vec<Share<'a>>, Refusal> {
        if !self.accepts(data.len()) {
            return Err(Refusal::NotAccepted);
        }
        let mut rest = out.get_mut(..data.len()).ok_or(Refusal::NoRoom)?;
        let share = |piece: Range<usize>| {
            let (out, behind) = core::mem::take(&mut rest).split_at_mut(piece.len());
            rest = behind;
            Share { offset: piece.start, data: &data[piece], out }
        };
        Ok(self.pieces().map(share).collect())
    }

    /// Does the whole message in one call, range by range.
    pub fn work(
        &self, key: &Key, direction: Direction, iv: &[u8], data: &[u8], out: &mut [u8],
    ) -> Result<Done, Refusal> {
        ffi::ctr_by_plan(key.record(), direction, iv, &self.0, data, out).result()
    }
}

impl fmt::Debug for Plan {
    fn fmt(&self, f: &mut fmt::Formatter<'_>) -> fmt::Result {
        f.debug_list().entries(self.pieces()).finish()
    }
}

/// One worker's part of a message and of its output. No two shares overlap.
#[must_use = "a share that nobody works on leaves its part of the output as it was"]
pub struct Share<'a> {
    offset: usize,
    data: &'a [u8],
    out: &'a mut [u8],
}

impl Share<'_> {
    /// Does the share. Pass the key and the IV of the message.
    pub fn work(self, key: &Key, direction: Direction, iv: &[u8]) -> Result<Done, Refusal> {
        ctr_range(key, direction, iv, self.offset, self.data, self.out)
    }
}

impl fmt::Debug for Share<'_> {
    fn fmt(&self, f: &mut fmt::Formatter<'_>) -> fmt::Result {
        let piece = self.offset..self.offset + self.data.len();
        f.debug_struct("Share").field("piece", &piece).finish_non_exhaustive()
    }
}

/// Ctr of `data`, which is at `offset` of its message, under the message's IV of 16 bytes. The result is that part of
/// the single call's output. Never encrypt two texts at the same offset under one key and IV.
///
/// ```
/// use luossavin::ranges::ctr_range;
/// use luossavin::sm4::cipher_mode::{CipherMode, Sm4CipherMode};
/// use luossavin::{Direction, Key};
///
/// let key = Key::new(&[7; 16], 1)?;
/// let mut stretch = [0; 5];
/// ctr_range(&key, Direction::Encrypt, &[1; 16], 7, b"cript", &mut stretch)?;
/// let whole = Sm4CipherMode::with_key(key, CipherMode::Ctr).encrypt(b"", b"a transcript", &[1; 16])?;
/// assert_eq!(stretch, whole[7..]);
/// # Ok::<(), luossavin::Refusal>(())
/// ```
pub fn ctr_range(
    key: &Key, direction: Direction, iv: &[u8], offset: usize, data: &[u8], out: &mut [u8],
) -> Result<Done, Refusal> {
    ffi::ctr_range(key.record(), direction, iv, offset, data, out).result()
}
