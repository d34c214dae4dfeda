//! The fixed list that the program `rust_answers` replays. It is the same at every run.

use crate::random::Random;
use crate::record::{write_head, write_record};
use crate::record::{Answer, Call, Direction, Mode, Name, DIRECTIONS, MODES};
use crate::sealing::{cbc_unpadded, check_gcm_counters, ctr_iv, gcm_iv, there_or_back};
use std::io::{Result, Write};

// The parts, 1 to 9 in the differential domain, 10 and 11 outside it.
const MESSAGES: u8 = 1;
const LABELS: u8 = 2;
const CTR_COUNTERS: u8 = 3;
const GCM_COUNTERS: u8 = 4;
const DAMAGED: u8 = 5;
const LAST_PADDING_BYTE: u8 = 6;
const INNER_PADDING_BYTES: u8 = 7;
const CBC_LENGTHS: u8 = 8;
const BLOCKS: u8 = 9;
const WRONG_SIZES: u8 = 10;
const TWELVE_BYTE_IV: u8 = 11;

struct List {
    random: Random,
    records: Vec<(u8, Call, Answer)>,
}

pub fn write_list(out: &mut impl Write) -> Result<()> {
    let mut list = List {
        random: Random::new(0x6a59_43c1_d7),
        records: vec![],
    };
    list.messages();
    list.labels();
    list.ctr_counters();
    list.gcm_counters();
    list.damaged();
    list.last_padding_byte();
    list.inner_padding_bytes();
    list.cbc_lengths();
    list.blocks();
    list.wrong_sizes();
    list.twelve_byte_iv();
    write_head(out, list.records.len())?;
    for (part, call, answer) in &list.records {
        write_record(out, *part, call, answer)?;
    }
    Ok(())
}

/// 0 to 48, and around 255, 256 and 4096.
fn lengths() -> Vec<usize> {
    (0..=48).chain(254..=257).chain(4095..=4097).collect()
}

fn flipped(bytes: &[u8], bit: usize) -> Vec<u8> {
    let mut out = bytes.to_vec();
    out[bit / 8] ^= 0x80 >> (bit % 8);
    out
}

impl List {
    /// Adds a call that was made for the answer `name`.
    fn add(&mut self, part: u8, call: Call, name: Name) {
        let answer = call.expect(name);
        self.records.push((part, call, answer));
    }

    /// A call that is done, on random key, IV, label and text.
    fn made(&mut self, direction: Direction, mode: Mode, label: usize, text: usize) -> Call {
        let key = self.random.bytes(16);
        let iv = self.random.bytes(16);
        let label = self.random.bytes(label);
        let text = self.random.bytes(text);
        there_or_back(direction, mode, key, iv, label, text)
    }

    fn messages(&mut self) {
        for mode in MODES {
            for direction in DIRECTIONS {
                for length in lengths() {
                    let label = if mode == Mode::Gcm { length % 7 } else { 0 };
                    let call = self.made(direction, mode, label, length);
                    self.add(MESSAGES, call, Name::Ok);
                }
            }
        }
    }

    fn labels(&mut self) {
        for direction in DIRECTIONS {
            for length in lengths() {
                let texts: &[usize] = if length < 1000 {
                    &[0, 1, 16, 37]
                } else {
                    &[16]
                };
                for text in texts {
                    let call = self.made(direction, Mode::Gcm, length, *text);
                    self.add(LABELS, call, Name::Ok);
                }
            }
            // the other modes ignore it
            for mode in [Mode::Cfb, Mode::Ofb, Mode::Ctr, Mode::Cbc] {
                for length in [1, 16, 300] {
                    let call = self.made(direction, mode, length, 20);
                    self.add(LABELS, call, Name::Ok);
                }
            }
        }
    }

    fn ctr_counters(&mut self) {
        for direction in DIRECTIONS {
            for width in 1..=16 {
                for before in 0..3 {
                    let key = self.random.bytes(16);
                    let iv = ctr_iv(&mut self.random, width, before);
                    let text = self.random.bytes(16 * before as usize + 37);
                    let call = there_or_back(direction, Mode::Ctr, key, iv, vec![], text);
                    self.add(CTR_COUNTERS, call, Name::Ok);
                }
            }
        }
    }

    fn gcm_counters(&mut self) {
        for direction in DIRECTIONS {
            for front in 0..3 {
                let key = self.random.bytes(16);
                // random; all ones, into which a carry would be seen to go; all zeros
                let front = [self.random.bytes(12), vec![0xff; 12], vec![0; 12]][front].clone();
                for before in 0..5 {
                    for text in [0, 1, 15, 16, 17, 64, 85] {
                        let iv = gcm_iv(&key, &front, before);
                        let label = self.random.bytes(text % 5);
                        let text = self.random.bytes(text);
                        let call =
                            there_or_back(direction, Mode::Gcm, key.clone(), iv, label, text);
                        check_gcm_counters(&call, &front, before);
                        self.add(GCM_COUNTERS, call, Name::Ok);
                    }
                }
            }
        }
    }

    fn damaged(&mut self) {
        for (label, text) in [(20, 37), (0, 16), (16, 0), (0, 0), (3, 48)] {
            let mut text_call = self.made(Direction::Encrypt, Mode::Gcm, label, text);
            if label > 0 {
                // so that there is a trailing zero byte to drop
                text_call.label[label - 1] = 0;
            }
            let whole = Call {
                direction: Direction::Decrypt,
                data: text_call.output(),
                ..text_call
            };
            self.add(DAMAGED, whole.clone(), Name::Ok);
            for call in self.damages(&whole) {
                self.add(DAMAGED, call, Name::InvalidTag);
            }
        }
    }

    /// Everything done to one sealed message that must keep it from opening.
    fn damages(&mut self, whole: &Call) -> Vec<Call> {
        let mut out = vec![];
        let text = whole.data.len() - 16;
        let with = |data: Vec<u8>, label: Vec<u8>| Call {
            data,
            label,
            ..whole.clone()
        };
        // every bit of the tag once, a bit of every other byte
        for bit in 8 * text..8 * whole.data.len() {
            if whole.label.len() == 20 || bit % 8 == bit / 8 % 8 {
                out.push(with(flipped(&whole.data, bit), whole.label.clone()));
            }
        }
        for byte in 0..text {
            let bit = 8 * byte + self.random.below(8);
            out.push(with(flipped(&whole.data, bit), whole.label.clone()));
        }
        for byte in 0..whole.label.len() {
            let bit = 8 * byte + self.random.below(8);
            out.push(with(whole.data.clone(), flipped(&whole.label, bit)));
        }
        // a label one zero byte longer; one byte shorter, which drops a zero byte
        out.push(with(whole.data.clone(), [&whole.label[..], &[0]].concat()));
        if let Some((last, front)) = whole.label.split_last() {
            out.push(with(whole.data.clone(), front.to_vec()));
            // the label's last byte moved to the front of the ciphertext
            out.push(with([&[*last], &whole.data[..]].concat(), front.to_vec()));
        }
        // one zero byte more before the tag
        let (front, tag) = whole.data.split_at(text);
        out.push(with([front, &[0], tag].concat(), whole.label.clone()));
        if text > 0 {
            // the first byte gone; the last byte gone, so that the tag is taken one byte early
            out.push(with(whole.data[1..].to_vec(), whole.label.clone()));
            out.push(with(whole.data[..text + 15].to_vec(), whole.label.clone()));
        }
        if text >= 32 {
            let mut swapped = whole.data.clone();
            swapped[..32].rotate_left(16);
            out.push(with(swapped, whole.label.clone()));
        }
        out.push(with([front, &[0; 16]].concat(), whole.label.clone()));
        out.push(Call {
            iv: flipped(&whole.iv, 127),
            ..whole.clone()
        });
        out.push(Call {
            key: flipped(&whole.key, 0),
            ..whole.clone()
        });
        out
    }

    fn last_padding_byte(&mut self) {
        for last in 0..=255u8 {
            self.padded(LAST_PADDING_BYTE, 1, last, None);
        }
        for last in [0, 1, 2, 15, 16, 17, 18, 127, 128, 255] {
            self.padded(LAST_PADDING_BYTE, 2, last, None);
            self.padded(LAST_PADDING_BYTE, 5, last, None);
        }
    }

    fn inner_padding_bytes(&mut self) {
        for last in 2..=16u8 {
            for place in 1..last as usize {
                self.padded(INNER_PADDING_BYTES, 1, last, Some(place));
            }
        }
        self.padded(INNER_PADDING_BYTES, 3, 16, Some(15));
    }

    /// Cbc decryption of blocks whose last byte is `last`, with the padding that it names; with
    /// `place` given, the padding byte so far before the last one is another.
    fn padded(&mut self, part: u8, blocks: usize, last: u8, place: Option<usize>) {
        let key = self.random.bytes(16);
        let iv = self.random.bytes(16);
        let mut text = self.random.bytes(16 * blocks);
        let end = text.len();
        text[end - 1] = last;
        let accepted = (1..=16).contains(&last);
        if accepted {
            text[end - last as usize..].fill(last);
        }
        if let Some(place) = place {
            text[end - 1 - place] ^= 1 + self.random.below(255) as u8;
        }
        let data = cbc_unpadded(&key, &iv, &text);
        let call = Call {
            direction: Direction::Decrypt,
            mode: Mode::Cbc,
            key,
            iv,
            label: vec![],
            data,
        };
        let name = if accepted {
            Name::Ok
        } else {
            Name::InvalidLastU8
        };
        self.add(part, call, name);
    }

    fn cbc_lengths(&mut self) {
        for length in lengths() {
            if length % 16 != 0 {
                let mut call = self.made(Direction::Decrypt, Mode::Cbc, 0, length);
                call.data.truncate(length);
                self.add(CBC_LENGTHS, call, Name::ErrorDataLen);
            }
        }
    }

    fn blocks(&mut self) {
        for direction in DIRECTIONS {
            for i in 0..64 {
                let key = match i {
                    0 => vec![0; 16],
                    1 => vec![0xff; 16],
                    _ => self.random.bytes(16),
                };
                let data = self.random.bytes(16);
                self.add(BLOCKS, Call::on_block(direction, key, data), Name::Ok);
            }
        }
    }

    fn wrong_sizes(&mut self) {
        for direction in DIRECTIONS {
            for mode in MODES {
                for key in [0, 1, 15, 17, 24, 32] {
                    self.sized(direction, mode, key, 16, 20);
                }
                for iv in [0, 1, 12, 15, 17, 32] {
                    if !(mode == Mode::Gcm && iv == 12) {
                        self.sized(direction, mode, 16, iv, 20);
                    }
                }
                // before whatever else is wrong: the length of the data, the IV
                self.sized(direction, mode, 15, 16, 0);
                self.sized(direction, mode, 16, 17, 0);
                self.sized(direction, mode, 15, 17, 7);
            }
            for data in [0, 1, 15, 17, 32] {
                self.sized(direction, Mode::Block, 16, 0, data);
            }
            for key in [0, 1, 15, 17, 32] {
                self.sized(direction, Mode::Block, key, 0, 16);
                self.sized(direction, Mode::Block, key, 0, 15);
            }
        }
    }

    fn sized(&mut self, direction: Direction, mode: Mode, key: usize, iv: usize, data: usize) {
        let key = self.random.bytes(key);
        let iv = self.random.bytes(iv);
        let data = self.random.bytes(data);
        let call = Call {
            direction,
            mode,
            key,
            iv,
            label: vec![],
            data,
        };
        self.add(WRONG_SIZES, call, Name::ErrorBlockSize);
    }

    fn twelve_byte_iv(&mut self) {
        for direction in DIRECTIONS {
            for length in [0, 1, 16, 37] {
                let tag = if direction == Direction::Decrypt {
                    16
                } else {
                    0
                };
                let call = Call {
                    direction,
                    mode: Mode::Gcm,
                    key: self.random.bytes(16),
                    iv: self.random.bytes(12),
                    label: self.random.bytes(5),
                    data: self.random.bytes(length + tag),
                };
                self.add(TWELVE_BYTE_IV, call, Name::ErrorBlockSize);
            }
        }
    }
}
