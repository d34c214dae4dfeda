//! The work that is counted, by libsm: a message of SIZE bytes, encrypted or decrypted TIMES times,
//! each time with its key set up anew.
//!
//!   work MODE encrypt|decrypt SIZE TIMES

use libsm::sm4::cipher_mode::{CipherMode, Sm4CipherMode};

const KEY: [u8; 16] = *b"\x01\x23\x45\x67\x89\xab\xcd\xef\xfe\xdc\xba\x98\x76\x54\x32\x10";
const IV: [u8; 16] = [7; 16];

fn keyed(mode: usize) -> Sm4CipherMode {
    let mode = match mode {
        0 => CipherMode::Cfb,
        1 => CipherMode::Ofb,
        2 => CipherMode::Ctr,
        3 => CipherMode::Cbc,
        4 => CipherMode::Gcm,
        _ => panic!("a mode is 0 to 4"),
    };
    Sm4CipherMode::new(&KEY, mode).ok().unwrap()
}

fn main() {
    let words: Vec<String> = std::env::args().skip(1).collect();
    let [mode, direction, size, times] = &words[..] else {
        panic!("usage: work MODE encrypt|decrypt SIZE TIMES");
    };
    let mode: usize = mode.parse().unwrap();
    let text = vec![0; size.parse().unwrap()];
    let sealed = keyed(mode).encrypt(&[], &text, &IV).ok().unwrap();
    for _ in 0..times.parse::<usize>().unwrap() {
        let cipher = keyed(mode);
        let done = match direction.as_str() {
            "decrypt" => cipher.decrypt(&[], &sealed, &IV),
            _ => cipher.encrypt(&[], &text, &IV),
        };
        std::hint::black_box(done.ok().unwrap());
    }
}
