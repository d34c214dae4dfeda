//! Fresh cases from a seed, in the differential domain: 16-byte key and IV, lengths within the
//! limits, without the two inputs on which libsm panics. Beside them Gcm with a 12-byte IV, which
//! libsm refuses: `compare.c` asks libgcrypt there.

use crate::random::Random;
use crate::record::{write_head, write_record};
use crate::record::{Call, Direction, Mode, Name, DIRECTIONS, MODES};
use crate::sealing::{cbc_unpadded, ctr_iv, gcm_iv, there_or_back};
use std::io::{Result, Write};

const FRESH: u8 = 12;
const LONG: u8 = 13;

/// The longest data to encrypt, and the longest label.
const LIMIT: usize = 16_777_216;

pub fn write_fresh(out: &mut impl Write, seed: u64, count: usize) -> Result<()> {
    let mut random = Random::new(seed);
    write_head(out, count)?;
    for _ in 0..count {
        let call = short(&mut random);
        write_record(out, FRESH, &call, &call.answer())?;
    }
    Ok(())
}

/// Every mode and direction at the limit; one byte below it; Gcm with the longest label; and Gcm at
/// the limit with a 12-byte IV.
pub fn write_long(out: &mut impl Write, seed: u64) -> Result<()> {
    let mut random = Random::new(seed);
    write_head(out, 24)?;
    for direction in DIRECTIONS {
        for mode in MODES {
            for text in [LIMIT, LIMIT - 1] {
                long(out, &mut random, direction, mode, 16, 0, text)?;
            }
        }
        long(out, &mut random, direction, Mode::Gcm, 16, LIMIT, 48)?;
        long(out, &mut random, direction, Mode::Gcm, 12, 0, LIMIT)?;
    }
    Ok(())
}

fn long(
    out: &mut impl Write,
    random: &mut Random,
    direction: Direction,
    mode: Mode,
    iv: usize,
    label: usize,
    text: usize,
) -> Result<()> {
    let key = random.bytes(16);
    let iv = iv_for(random, mode, iv, &key);
    let label = random.bytes(label);
    let text = random.bytes(text);
    let call = there_or_back(direction, mode, key, iv, label, text);
    let name = if call.iv.len() == 12 {
        Name::ErrorBlockSize
    } else {
        Name::Ok
    };
    write_record(out, LONG, &call, &call.expect(name))
}

fn short(random: &mut Random) -> Call {
    let direction = DIRECTIONS[random.below(2)];
    let key = key(random);
    if random.chance(20) {
        return Call::on_block(direction, key, random.bytes(16));
    }
    let mode = MODES[random.below(5)];
    let iv = if mode == Mode::Gcm && random.chance(3) {
        12
    } else {
        16
    };
    let iv = iv_for(random, mode, iv, &key);
    let label = label_length(random);
    let label = random.bytes(label);
    let text = text_length(random);
    let text = random.bytes(text);
    let mut call = there_or_back(direction, mode, key, iv, label, text);
    if direction == Direction::Decrypt {
        match mode {
            Mode::Gcm if random.chance(3) => damage(random, &mut call),
            Mode::Cbc if random.chance(2) => spoil(random, &mut call),
            _ => {}
        }
    }
    call
}

/// Mostly a few blocks, and now and then some hundred bytes or some thousand. One in twelve is about a length where the engine of gates
/// begins or ends a batch of blocks, one in fifty is spread over all lengths, with any rest behind any number of batches, and three in a
/// thousand are of many batches.
fn text_length(random: &mut Random) -> usize {
    match random.below(1000) {
        0..=2 => MANY_BATCHES - 17 + random.below(LONGEST_FRESH - MANY_BATCHES + 18),
        3..=82 => about_a_batch(random),
        83..=102 => spread(random),
        _ => short_length(random),
    }
}

/// Up to 256, 512, and so on to 131,072 bytes, one of these as often as another.
fn spread(random: &mut Random) -> usize {
    let most = 256 << random.below(10);
    random.below(most + 1)
}

/// The same without the longest: Gcm hashes a label as it hashes a text.
fn label_length(random: &mut Random) -> usize {
    match random.below(100) {
        0..=2 => about_a_batch(random),
        _ => short_length(random),
    }
}

fn short_length(random: &mut Random) -> usize {
    match random.below(20) {
        0 => random.below(5000),
        1 | 2 => (16 * random.below(40) + 17).saturating_sub(random.below(3)),
        3..=6 => random.below(300),
        _ => random.below(49),
    }
}

/// A group of 16 blocks on the gates, from which on eight hashes are interleaved too; two groups; four, which are the most; where sixteen hashes begin,
/// large batches, and where one of these ends, 512 blocks. Up to 17 bytes more or fewer.
const BATCHES: [usize; 6] = [256, 512, 1024, 1536, 3072, 8192];

/// From where on there are many batches, and the longest text among the short cases.
const MANY_BATCHES: usize = 65_536;
const LONGEST_FRESH: usize = 140_000;

fn about_a_batch(random: &mut Random) -> usize {
    BATCHES[random.below(BATCHES.len())] - 17 + random.below(35)
}

fn key(random: &mut Random) -> Vec<u8> {
    match random.below(50) {
        0 => vec![0; 16],
        1 => vec![0xff; 16],
        _ => random.bytes(16),
    }
}

/// A third of the 16-byte IVs make the counter come round soon; 12 bytes leave nothing to choose.
fn iv_for(random: &mut Random, mode: Mode, length: usize, key: &[u8]) -> Vec<u8> {
    if length == 12 || !random.chance(3) {
        return random.bytes(length);
    }
    if mode == Mode::Gcm {
        let front = if random.chance(2) {
            vec![0xff; 12]
        } else {
            random.bytes(12)
        };
        return gcm_iv(key, &front, random.below(6) as u32);
    }
    let width = 1 + random.below(16);
    let before = random.below(6) as u8;
    ctr_iv(random, width, before)
}

/// Changes one thing of a sealed message: a bit, a byte more or less, a part gone.
fn damage(random: &mut Random, call: &mut Call) {
    match random.below(6) {
        0 => flip(random, &mut call.iv),
        1 if !call.label.is_empty() => flip(random, &mut call.label),
        2 => call.label.push(0),
        3 if !call.label.is_empty() => {
            call.label.pop();
        }
        4 if call.data.len() > 16 => {
            let keep = 16 + random.below(call.data.len() - 16);
            call.data.truncate(keep);
        }
        _ => flip(random, &mut call.data),
    }
}

/// Gives a Cbc message an end of its own, or a length that does not divide by 16.
fn spoil(random: &mut Random, call: &mut Call) {
    let length = call.data.len();
    match random.below(8) {
        0 => call.data.truncate(1 + random.below(length)),
        1 => flip(random, &mut call.data),
        2 => {
            let mut text = random.bytes(length);
            text[length - 1] = random.below(20) as u8;
            call.data = cbc_unpadded(&call.key, &call.iv, &text);
        }
        _ => {
            let text = mispadded(random, length);
            call.data = cbc_unpadded(&call.key, &call.iv, &text);
        }
    }
}

/// A text with a padding of 1 to 16 bytes, each count as often as any other, of which one byte is then
/// another: mostly one of the padding, else one of the last block. Now and then it stays as it is.
fn mispadded(random: &mut Random, length: usize) -> Vec<u8> {
    let count = 1 + random.below(16);
    let mut text = random.bytes(length);
    text[length - count..].fill(count as u8);
    let among = if random.chance(4) { 16 } else { count };
    let back = random.below(among);
    if !random.chance(8) {
        text[length - 1 - back] ^= 1 + random.below(255) as u8;
    }
    text
}

fn flip(random: &mut Random, bytes: &mut [u8]) {
    let bit = random.below(8 * bytes.len());
    bytes[bit / 8] ^= 1 << (bit % 8);
}
