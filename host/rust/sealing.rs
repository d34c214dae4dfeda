//! Calls that are known to open, counters that are known to wrap, and blocks that are known to
//! decrypt to a wanted text: what the fixed list and the fresh cases are both made from.

use crate::field;
use crate::random::Random;
use crate::record::{Call, Direction, Mode};
use libsm::sm4::cipher::Sm4Cipher;

/// A call on `text`: it is encrypted, or what it encrypts to is decrypted. What a 12-byte IV encrypts
/// to libsm does not say, and says of the 16-byte IV with the same J0.
pub fn there_or_back(
    direction: Direction,
    mode: Mode,
    key: Vec<u8>,
    iv: Vec<u8>,
    label: Vec<u8>,
    text: Vec<u8>,
) -> Call {
    let mut call = Call {
        direction: Direction::Encrypt,
        mode,
        key,
        iv,
        label,
        data: text,
    };
    if direction == Direction::Decrypt {
        call.data = if call.iv.len() == 12 {
            sealed_under_twelve(&call)
        } else {
            call.output()
        };
        call.direction = Direction::Decrypt;
    }
    call
}

/// What a Gcm call seals under a 12-byte IV, whose J0 is the IV and then 00000001.
fn sealed_under_twelve(call: &Call) -> Vec<u8> {
    let before = u32::MAX - 1;
    let same_j0 = Call {
        iv: gcm_iv(&call.key, &call.iv, before),
        ..call.clone()
    };
    check_gcm_counters(&same_j0, &call.iv, before);
    same_j0.output()
}

/// Cbc of whole blocks without a padding block, so that `text` itself stands where padding would.
pub fn cbc_unpadded(key: &[u8], iv: &[u8], text: &[u8]) -> Vec<u8> {
    assert!(text.len() % 16 == 0);
    let call = Call {
        direction: Direction::Encrypt,
        mode: Mode::Cbc,
        key: key.to_vec(),
        iv: iv.to_vec(),
        label: vec![],
        data: text.to_vec(),
    };
    let mut out = call.output();
    out.truncate(text.len());
    out
}

/// A Ctr IV whose last `width` bytes come round after `before` steps more than one.
pub fn ctr_iv(random: &mut Random, width: usize, before: u8) -> Vec<u8> {
    let mut iv = random.bytes(16);
    for byte in &mut iv[16 - width..] {
        *byte = 0xff;
    }
    iv[15] -= before;
    if width < 16 {
        iv[15 - width] &= 0x7f;
    }
    iv
}

/// A Gcm IV whose J0 starts with `front` and whose last four bytes are ffffffff less `before`.
pub fn gcm_iv(key: &[u8], front: &[u8], before: u32) -> Vec<u8> {
    let mut j0 = front.to_vec();
    j0.extend_from_slice(&(u32::MAX - before).to_be_bytes());
    let wanted = u128::from_be_bytes(j0.try_into().unwrap());
    field::iv_for(hash_key(key), wanted).to_be_bytes().to_vec()
}

/// That a sealed message really has the counters that `gcm_iv` promises: first twelve bytes kept,
/// last four from ffffffff to 0.
pub fn check_gcm_counters(call: &Call, front: &[u8], before: u32) {
    let encrypting = Call {
        direction: Direction::Encrypt,
        ..call.clone()
    };
    let (text, sealed) = match call.direction {
        Direction::Encrypt => (call.data.clone(), encrypting.output()),
        Direction::Decrypt => (call.output(), call.data.clone()),
    };
    let cipher = Sm4Cipher::new(&call.key).ok().unwrap();
    for (i, block) in text.chunks(16).enumerate() {
        let low = (u32::MAX - before).wrapping_add(1 + i as u32);
        let counter = [front, &low.to_be_bytes()].concat();
        let pad = cipher.encrypt(&counter).ok().unwrap();
        for (j, byte) in block.iter().enumerate() {
            assert!(
                sealed[16 * i + j] == byte ^ pad[j],
                "Gcm counter {i} is not the wanted one"
            );
        }
    }
}

fn hash_key(key: &[u8]) -> u128 {
    let cipher = Sm4Cipher::new(key).ok().unwrap();
    u128::from_be_bytes(cipher.encrypt(&[0; 16]).ok().unwrap())
}
