//! Published vectors, those of the program `vectors`, on every engine.

use luossavin::sm4::cipher::Sm4Cipher;
use luossavin::sm4::cipher_mode::{CipherMode, Sm4CipherMode};
use luossavin::{Engine, Key};

const VECTORS: &str = concat!(env!("CARGO_MANIFEST_DIR"), "/../crates/vectors/data/vectors");

/// What the hex of the file spells, without comments.
fn bytes(file: &str) -> Vec<u8> {
    let without_comment = |line| str::split(line, '#').next().unwrap_or("");
    let digits: String = file.lines().map(without_comment).flat_map(str::split_whitespace).collect();
    (0..digits.len()).step_by(2).map(|at| u8::from_str_radix(&digits[at..at + 2], 16).unwrap()).collect()
}

/// The fields: each a byte that says how many follow, and then these.
fn fields(mut rest: &[u8]) -> Vec<&[u8]> {
    let mut all = Vec::new();
    while let [size, behind @ ..] = rest {
        let (field, next) = behind.split_at(usize::from(*size));
        all.push(field);
        rest = next;
    }
    all
}

/// Whether a vector of a kind that has a call here was held to its result.
fn is_held(engine: Engine, vector: &[&[u8]]) -> bool {
    let (kind, key, iv, label, text, result) = match *vector {
        [kind, key, iv, label, text, result] => (kind, key, iv, label, text, result),
        _ => panic!("a vector has six fields"),
    };
    let key = || Key::new(key, 1).unwrap().with_engine(engine);
    let mode = match kind {
        [0] => CipherMode::Cfb,
        [1] => CipherMode::Ofb,
        [2] => CipherMode::Ctr,
        [3] => CipherMode::Cbc,
        [4] => CipherMode::Gcm,
        [5] => {
            let cipher = Sm4Cipher::with_key(key());
            assert_eq!(cipher.encrypt(text).unwrap()[..], result[..]);
            assert_eq!(cipher.decrypt(result).unwrap()[..], text[..]);
            return true;
        }
        // a million blocks, and hashes under an H that is given, are for the program
        [6] | [7] => return false,
        other => panic!("no kind {other:?}"),
    };
    let cipher = Sm4CipherMode::with_key(key(), mode);
    let made = cipher.encrypt(label, text, iv).unwrap();
    // a vector of Cbc has no padding block
    let front = if mode == CipherMode::Cbc { result.len() } else { made.len() };
    assert_eq!(made[..front], result[..], "{mode:?}");
    assert_eq!(cipher.decrypt(label, &made, iv).unwrap(), *text, "{mode:?}");
    true
}

#[test]
fn results_are_the_published_ones() {
    let bytes = bytes(&std::fs::read_to_string(VECTORS).expect("the vectors of the checkout"));
    let fields = fields(&bytes);
    let vectors: Vec<&[&[u8]]> = fields.chunks(6).collect();
    let kept = vectors.iter().filter(|vector| matches!(vector[0], [6] | [7])).count();
    for engine in [Engine::Chosen, Engine::Plain, Engine::Tables, Engine::Gates] {
        let count = vectors.iter().filter(|vector| is_held(engine, vector)).count();
        assert_eq!(count, vectors.len() - kept);
        assert!(count >= 10);
    }
}
