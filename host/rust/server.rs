//! A server's calls, written against libsm. `host/package` compiles it once with libsm and once with the package of
//! this repository, by changing its imports, and compares what it writes: a line for each call.
//!
//!   server SEED COUNT
//!
//! A call of which docs/DIFFERENCES.md says that the two answer otherwise is told by its inputs, and its line begins
//! with the number there; every other line begins with "same".

mod random;

use libsm::sm4::cipher::Sm4Cipher;
use libsm::sm4::cipher_mode::{CipherMode, Sm4CipherMode};
use libsm::sm4::error::{Sm4Error, Sm4Result};
use random::Random;
use std::panic::{catch_unwind, set_hook, AssertUnwindSafe};

const GCM: usize = 4;
const CBC: usize = 3;

struct Call {
    /// Cfb to Gcm, as libsm lists them; none for a single block.
    mode: Option<usize>,
    decrypt: bool,
    key: Vec<u8>,
    iv: Vec<u8>,
    label: Vec<u8>,
    data: Vec<u8>,
}

impl Call {
    fn result(&self) -> Sm4Result<Vec<u8>> {
        let mode = match self.mode {
            None => return self.block(),
            Some(0) => CipherMode::Cfb,
            Some(1) => CipherMode::Ofb,
            Some(2) => CipherMode::Ctr,
            Some(CBC) => CipherMode::Cbc,
            Some(_) => CipherMode::Gcm,
        };
        let cipher = Sm4CipherMode::new(&self.key, mode)?;
        if self.decrypt {
            cipher.decrypt(&self.label, &self.data, &self.iv)
        } else {
            cipher.encrypt(&self.label, &self.data, &self.iv)
        }
    }

    fn block(&self) -> Sm4Result<Vec<u8>> {
        let cipher = Sm4Cipher::new(&self.key)?;
        let block = if self.decrypt {
            cipher.decrypt(&self.data)?
        } else {
            cipher.encrypt(&self.data)?
        };
        Ok(block.to_vec())
    }

    /// The entry of docs/DIFFERENCES.md that the call falls under, by what it is given.
    fn difference(&self) -> Option<u32> {
        let Some(mode) = self.mode else {
            return (self.key.len() == 16 && self.data.len() != 16).then_some(6);
        };
        match (self.key.len(), self.iv.len()) {
            (16, 16) => {}
            (16, 12) if mode == GCM => return Some(7),
            (16, _) => return Some(6),
            _ => return None,
        }
        match mode {
            CBC if self.decrypt && self.data.is_empty() => Some(1),
            GCM if self.decrypt && self.data.len() < 16 => Some(2),
            CBC if self.decrypt && self.has_inner_padding_byte() => Some(8),
            _ => None,
        }
    }

    /// Whether the last decrypted byte names a padding that the bytes before it do not bear out.
    fn has_inner_padding_byte(&self) -> bool {
        let Some(before) = self.data.len().checked_sub(16) else {
            return false;
        };
        if before % 16 != 0 {
            return false;
        }
        let chained = [&self.iv[..], &self.data].concat();
        let cipher = Sm4Cipher::new(&self.key).unwrap();
        let mut last = cipher.decrypt(&self.data[before..]).unwrap();
        for (byte, other) in last.iter_mut().zip(&chained[before..]) {
            *byte ^= other;
        }
        let count = usize::from(last[15]);
        (1..=16).contains(&count) && last[16 - count..].iter().any(|byte| *byte != last[15])
    }
}

fn name(error: &Sm4Error) -> &'static str {
    match error {
        Sm4Error::ErrorBlockSize => "ErrorBlockSize",
        Sm4Error::ErrorDataLen => "ErrorDataLen",
        Sm4Error::InvalidLastU8 => "InvalidLastU8",
        Sm4Error::InvalidTag => "InvalidTag",
        #[allow(unreachable_patterns)]
        _ => "another",
    }
}

/// A call that is done or, now and then, has something wrong with it.
fn draw(random: &mut Random) -> Call {
    let mode = Some(random.below(5)).filter(|_| !random.chance(12));
    let decrypt = random.chance(2);
    let (label, text) = (random.below(40), random.below(200));
    let mut call = Call {
        mode,
        decrypt: false,
        key: random.bytes(16),
        iv: random.bytes(16),
        label: random.bytes(label),
        data: random.bytes(if mode.is_some() { text } else { 16 }),
    };
    if decrypt {
        call.data = call.result().unwrap();
        call.decrypt = true;
    }
    if random.chance(3) {
        spoil(random, &mut call);
    }
    call
}

/// Changes one thing: a bit or a length.
fn spoil(random: &mut Random, call: &mut Call) {
    let part = match random.below(6) {
        0 => &mut call.key,
        1 => &mut call.iv,
        2 => &mut call.label,
        _ => &mut call.data,
    };
    match random.below(6) {
        // half of them near the end, where Cbc has its padding and Gcm its tag
        choice @ (0 | 1) if !part.is_empty() => {
            let among = part.len().min(if choice == 0 { 32 } else { part.len() });
            let back = random.below(8 * among);
            let at = part.len() - 1 - back / 8;
            part[at] ^= 1 << (back % 8);
        }
        2 => part.resize(random.below(34), 7),
        3 => part.truncate(random.below(17)),
        4 => part.truncate(12),
        _ => part.clear(),
    }
}

fn hex(bytes: &[u8]) -> String {
    bytes.iter().map(|byte| format!("{byte:02x}")).collect()
}

fn main() {
    let numbers: Vec<u64> = std::env::args()
        .skip(1)
        .map(|word| word.parse().unwrap())
        .collect();
    let [seed, count] = numbers[..] else {
        panic!("usage: server SEED COUNT");
    };
    // a panic of the library's is an answer
    set_hook(Box::new(|_| {}));
    let mut random = Random::new(seed);
    for _ in 0..count {
        let call = draw(&mut random);
        let result = catch_unwind(AssertUnwindSafe(|| call.result()));
        match (call.difference(), result) {
            (Some(entry), Ok(Ok(_))) => println!("{entry} done"),
            (Some(entry), Ok(Err(error))) => {
                println!("{entry} {}", error.to_string().split(':').next().unwrap())
            }
            (Some(entry), Err(_)) => println!("{entry} panicked"),
            (None, Ok(Ok(output))) => println!("same {:?} {}", call.mode, hex(&output)),
            (None, Ok(Err(error))) => println!("same {:?} {}", call.mode, name(&error)),
            (None, Err(_)) => println!("same {:?} panicked", call.mode),
        }
    }
}
