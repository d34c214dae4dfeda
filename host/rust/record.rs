//! A recorded call of libsm and what it answered, and the form in which a list of them is written.

use libsm::sm4::cipher::Sm4Cipher;
use libsm::sm4::cipher_mode::{CipherMode, Sm4CipherMode};
use libsm::sm4::error::{Sm4Error, Sm4Result};
use std::io::{Result, Write};
use std::panic::{catch_unwind, AssertUnwindSafe};
use std::sync::atomic::{AtomicBool, Ordering};

/// The first bytes of every list.
pub const MARK: &[u8; 20] = b"luossavin answers 1\n";

#[derive(Clone, Copy, PartialEq)]
pub enum Direction {
    Encrypt,
    Decrypt,
}

pub const DIRECTIONS: [Direction; 2] = [Direction::Encrypt, Direction::Decrypt];

#[derive(Clone, Copy, PartialEq)]
pub enum Mode {
    Cfb,
    Ofb,
    Ctr,
    Cbc,
    Gcm,
    /// A single block, through `Sm4Cipher`.
    Block,
}

pub const MODES: [Mode; 5] = [Mode::Cfb, Mode::Ofb, Mode::Ctr, Mode::Cbc, Mode::Gcm];

/// What libsm answers, by its own names.
#[derive(Clone, Copy, PartialEq, Debug)]
pub enum Name {
    Ok,
    ErrorBlockSize,
    ErrorDataLen,
    InvalidLastU8,
    InvalidTag,
    Panicked,
}

#[derive(Clone)]
pub struct Call {
    pub direction: Direction,
    pub mode: Mode,
    pub key: Vec<u8>,
    pub iv: Vec<u8>,
    pub label: Vec<u8>,
    pub data: Vec<u8>,
}

pub struct Answer {
    pub name: Name,
    pub output: Vec<u8>,
}

/// Set while libsm runs: a panic of its own is an answer and is not reported.
static IN_LIBSM: AtomicBool = AtomicBool::new(false);

/// Reports the panics that are not libsm's.
pub fn report_own_panics() {
    std::panic::set_hook(Box::new(|info| {
        if !IN_LIBSM.load(Ordering::Relaxed) {
            eprintln!("oracle: {info}");
        }
    }));
}

impl Call {
    /// A call on a single block, which has neither IV nor label.
    pub fn on_block(direction: Direction, key: Vec<u8>, data: Vec<u8>) -> Call {
        Call {
            direction,
            mode: Mode::Block,
            key,
            iv: vec![],
            label: vec![],
            data,
        }
    }

    /// Makes the call.
    pub fn answer(&self) -> Answer {
        IN_LIBSM.store(true, Ordering::Relaxed);
        let result = catch_unwind(AssertUnwindSafe(|| self.result()));
        IN_LIBSM.store(false, Ordering::Relaxed);
        match result {
            Ok(Ok(output)) => Answer {
                name: Name::Ok,
                output,
            },
            Ok(Err(error)) => Answer {
                name: name_of(error),
                output: vec![],
            },
            Err(_) => Answer {
                name: Name::Panicked,
                output: vec![],
            },
        }
    }

    /// Makes a call whose answer is known by name: what the case was made for.
    pub fn expect(&self, name: Name) -> Answer {
        let answer = self.answer();
        assert!(
            answer.name == name,
            "a case made for {name:?} is answered {:?}",
            answer.name
        );
        answer
    }

    /// The output of a call that is known to be done.
    pub fn output(&self) -> Vec<u8> {
        self.expect(Name::Ok).output
    }

    fn result(&self) -> Sm4Result<Vec<u8>> {
        let mode = match self.mode {
            Mode::Cfb => CipherMode::Cfb,
            Mode::Ofb => CipherMode::Ofb,
            Mode::Ctr => CipherMode::Ctr,
            Mode::Cbc => CipherMode::Cbc,
            Mode::Gcm => CipherMode::Gcm,
            Mode::Block => return self.block_result(),
        };
        let cipher = Sm4CipherMode::new(&self.key, mode)?;
        match self.direction {
            Direction::Encrypt => cipher.encrypt(&self.label, &self.data, &self.iv),
            Direction::Decrypt => cipher.decrypt(&self.label, &self.data, &self.iv),
        }
    }

    fn block_result(&self) -> Sm4Result<Vec<u8>> {
        let cipher = Sm4Cipher::new(&self.key)?;
        let block = match self.direction {
            Direction::Encrypt => cipher.encrypt(&self.data)?,
            Direction::Decrypt => cipher.decrypt(&self.data)?,
        };
        Ok(block.to_vec())
    }
}

fn name_of(error: Sm4Error) -> Name {
    match error {
        Sm4Error::ErrorBlockSize => Name::ErrorBlockSize,
        Sm4Error::ErrorDataLen => Name::ErrorDataLen,
        Sm4Error::InvalidLastU8 => Name::InvalidLastU8,
        Sm4Error::InvalidTag => Name::InvalidTag,
    }
}

/// Starts a list of `count` records.
pub fn write_head(out: &mut impl Write, count: usize) -> Result<()> {
    out.write_all(MARK)?;
    out.write_all(&(count as u32).to_be_bytes())
}

/// Writes one record: part, direction, mode, name; the lengths of key, IV, label, data and output,
/// four bytes each, big-endian; then those five.
pub fn write_record(out: &mut impl Write, part: u8, call: &Call, answer: &Answer) -> Result<()> {
    out.write_all(&[
        part,
        call.direction as u8,
        call.mode as u8,
        answer.name as u8,
    ])?;
    let fields = [&call.key, &call.iv, &call.label, &call.data, &answer.output];
    for field in fields {
        out.write_all(&(field.len() as u32).to_be_bytes())?;
    }
    for field in fields {
        out.write_all(field)?;
    }
    Ok(())
}
