//! libsm's own answers, which the program `rust_answers` replays too, against the package's calls of libsm's names.

use luossavin::sm4::cipher::Sm4Cipher;
use luossavin::sm4::cipher_mode::{CipherMode, Sm4CipherMode};
use luossavin::sm4::error::{Sm4Error, Sm4Result};

const LIST: &str = concat!(env!("CARGO_MANIFEST_DIR"), "/../crates/rust_answers/data/answers");
const MARK: &[u8] = b"luossavin answers 1\n";

/// A recorded call with libsm's answer.
struct Case<'a> {
    part: u8,
    decrypt: bool,
    /// Cfb to Gcm from 0 on, and 5 a single block.
    mode: u8,
    /// Done, ErrorBlockSize, ErrorDataLen, InvalidLastU8 or InvalidTag from 0 on.
    name: u8,
    key: &'a [u8],
    iv: &'a [u8],
    label: &'a [u8],
    data: &'a [u8],
    output: &'a [u8],
}

fn take<'a>(list: &mut &'a [u8], count: usize) -> &'a [u8] {
    let (front, rest) = list.split_at(count);
    *list = rest;
    front
}

fn number(list: &mut &[u8]) -> usize {
    take(list, 4).iter().fold(0, |number, byte| number << 8 | usize::from(*byte))
}

fn case<'a>(list: &mut &'a [u8]) -> Case<'a> {
    let head = take(list, 4);
    let lengths: Vec<usize> = (0..5).map(|_| number(list)).collect();
    let mut part = |at: usize| take(list, lengths[at]);
    let (key, iv, label, data, output) = (part(0), part(1), part(2), part(3), part(4));
    Case { part: head[0], decrypt: head[1] == 1, mode: head[2], name: head[3], key, iv, label, data, output }
}

impl Case<'_> {
    fn answer(&self) -> Sm4Result<Vec<u8>> {
        let mode = match self.mode {
            0 => CipherMode::Cfb,
            1 => CipherMode::Ofb,
            2 => CipherMode::Ctr,
            3 => CipherMode::Cbc,
            4 => CipherMode::Gcm,
            _ => return self.block(),
        };
        let cipher = Sm4CipherMode::new(self.key, mode)?;
        if self.decrypt {
            cipher.decrypt(self.label, self.data, self.iv)
        } else {
            cipher.encrypt(self.label, self.data, self.iv)
        }
    }

    fn block(&self) -> Sm4Result<Vec<u8>> {
        let cipher = Sm4Cipher::new(self.key)?;
        let block = if self.decrypt { cipher.decrypt(self.data)? } else { cipher.encrypt(self.data)? };
        Ok(block.to_vec())
    }

    /// What is due here. ErrorBlockSize is told apart by sizes (docs/DIFFERENCES.md, 6), and part 7 has paddings
    /// whose inner bytes differ (8).
    fn due(&self) -> Sm4Result<Vec<u8>> {
        match self.name {
            0 if self.part == 7 => Err(Sm4Error::InvalidPadding),
            0 => Ok(self.output.to_vec()),
            1 if self.key.len() != 16 => Err(Sm4Error::ErrorBlockSize),
            1 if self.mode == 5 => Err(Sm4Error::WrongBlock),
            1 => Err(Sm4Error::WrongIv),
            2 => Err(Sm4Error::ErrorDataLen),
            3 => Err(Sm4Error::InvalidLastU8),
            4 => Err(Sm4Error::InvalidTag),
            name => panic!("the list has no name {name}"),
        }
    }

    /// A 12-byte IV in Gcm, which libsm refuses and this takes (docs/DIFFERENCES.md, 7).
    fn has_short_iv(&self) -> bool {
        self.mode == 4 && self.iv.len() == 12 && self.key.len() == 16
    }
}

#[test]
fn libsm_and_this_answer_alike() {
    let list = std::fs::read(LIST).expect("the list of the checkout");
    let mut rest = list.strip_prefix(MARK).expect("the list has its mark");
    let count = number(&mut rest);
    let (mut alike, mut short_ivs) = (0, 0);
    for at in 0..count {
        let case = case(&mut rest);
        if case.has_short_iv() {
            assert_ne!(case.answer(), Err(Sm4Error::WrongIv), "case {at}");
            short_ivs += 1;
        } else {
            assert_eq!(case.answer(), case.due(), "case {at}");
            alike += 1;
        }
    }
    assert!(rest.is_empty());
    assert_eq!((alike, short_ivs), (2449, 8));
}
