//! The smallest input of each difference that docs/DIFFERENCES.md lists, so that a run shows that
//! both sides still do what is said there.

use crate::record::{write_head, write_record};
use crate::record::{Call, Direction, Mode, Name, DIRECTIONS};
use crate::sealing::{cbc_unpadded, there_or_back};
use std::io::{Result, Write};

const CBC_OF_NOTHING: u8 = 20;
const SHORT_GCM: u8 = 21;
const TOO_LONG: u8 = 22;
const INNER_PADDING_BYTE: u8 = 23;
const TWELVE_BYTE_IV: u8 = 24;
const CFB_TAIL: u8 = 25;
const ONE_BYTE_IV: u8 = 26;

const LIMIT: usize = 16_777_216;

pub fn write_differences(out: &mut impl Write) -> Result<()> {
    let mut calls = vec![
        (
            CBC_OF_NOTHING,
            plain(Direction::Decrypt, Mode::Cbc, 0),
            Name::Panicked,
        ),
        (
            SHORT_GCM,
            plain(Direction::Decrypt, Mode::Gcm, 0),
            Name::Panicked,
        ),
        (
            SHORT_GCM,
            plain(Direction::Decrypt, Mode::Gcm, 15),
            Name::Panicked,
        ),
        (INNER_PADDING_BYTE, inner_padding_byte(), Name::Ok),
        (CFB_TAIL, plain(Direction::Encrypt, Mode::Cfb, 1), Name::Ok),
    ];
    for direction in DIRECTIONS {
        calls.push((
            TWELVE_BYTE_IV,
            twelve_byte_iv(direction),
            Name::ErrorBlockSize,
        ));
    }
    calls.push((ONE_BYTE_IV, one_byte_iv(), Name::ErrorBlockSize));
    for mode in [Mode::Cfb, Mode::Ofb, Mode::Ctr, Mode::Cbc, Mode::Gcm] {
        calls.push((
            TOO_LONG,
            plain(Direction::Encrypt, mode, LIMIT + 1),
            Name::Ok,
        ));
    }
    for mode in [Mode::Cfb, Mode::Ofb, Mode::Ctr] {
        calls.push((
            TOO_LONG,
            plain(Direction::Decrypt, mode, LIMIT + 1),
            Name::Ok,
        ));
    }
    calls.push((
        TOO_LONG,
        plain(Direction::Decrypt, Mode::Cbc, LIMIT + 17),
        Name::ErrorDataLen,
    ));
    calls.push((TOO_LONG, back(Mode::Cbc, 0, LIMIT + 17), Name::Ok));
    calls.push((TOO_LONG, back(Mode::Gcm, 0, LIMIT + 1), Name::Ok));
    calls.push((TOO_LONG, back(Mode::Gcm, LIMIT + 1, 0), Name::Ok));
    write_head(out, calls.len())?;
    for (part, call, name) in &calls {
        write_record(out, *part, call, &call.expect(*name))?;
    }
    Ok(())
}

/// A call on zero bytes throughout.
fn plain(direction: Direction, mode: Mode, data: usize) -> Call {
    Call {
        direction,
        mode,
        key: vec![0; 16],
        iv: vec![0; 16],
        label: vec![],
        data: vec![0; data],
    }
}

/// Opening what zero bytes seal to.
fn back(mode: Mode, label: usize, text: usize) -> Call {
    let zeros = |count: usize| vec![0; count];
    there_or_back(
        Direction::Decrypt,
        mode,
        zeros(16),
        zeros(16),
        zeros(label),
        zeros(text),
    )
}

/// One block that decrypts to fifteen zero bytes and a 2: of the two padding bytes one is 0.
fn inner_padding_byte() -> Call {
    let mut call = plain(Direction::Decrypt, Mode::Cbc, 16);
    let mut text = [0; 16];
    text[15] = 2;
    call.data = cbc_unpadded(&call.key, &call.iv, &text);
    call
}

/// Sealing nothing, or opening what nothing seals to.
fn twelve_byte_iv(direction: Direction) -> Call {
    there_or_back(
        direction,
        Mode::Gcm,
        vec![0; 16],
        vec![0; 12],
        vec![],
        vec![],
    )
}

fn one_byte_iv() -> Call {
    Call {
        iv: vec![0; 1],
        ..plain(Direction::Encrypt, Mode::Gcm, 0)
    }
}
