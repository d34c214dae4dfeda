//! The keys, by their numbers. A retired key can open but not seal.

use crate::files;
use luossavin::sm4::cipher_mode::{CipherMode, Sm4CipherMode};
use luossavin::{Key, Refusal};
use std::path::Path;

/// The most keys that are held: each of them is asked about a file that opens under none.
const MOST: usize = 8;

/// No file of keys is as long as this.
const LONGEST: usize = 4096;

/// Keys: those that still seal in front of those that are retired.
#[derive(Default)]
pub struct Keys(Vec<Sm4CipherMode>);

impl Keys {
    /// Reads a file of keys.
    pub fn read(path: &Path) -> Result<Keys, String> {
        // room for all of it, so that no copy is left behind
        let mut file = Vec::with_capacity(LONGEST + 1);
        let read = files::read_into(path, LONGEST, &mut file);
        let keys = read.and_then(|()| Keys::parse(&file).map_err(|why| format!("{}, {why}", path.display())));
        luossavin::wipe(&mut file);
        keys
    }

    /// A number and 32 hex digits to a line and, behind those of a retired key, that word; from # on is a comment. What
    /// a line holds is never told, since it may be a key.
    fn parse(file: &[u8]) -> Result<Keys, String> {
        let mut keys: Vec<Key> = Vec::new();
        for (at, line) in file.split(|byte| *byte == b'\n').enumerate() {
            let said = line.split(|byte| *byte == b'#').next().unwrap_or_default();
            let words: Vec<&[u8]> = said.split(u8::is_ascii_whitespace).filter(|word| !word.is_empty()).collect();
            let (number, digits, is_retired) = match words[..] {
                [] => continue,
                [number, digits] => (number, digits, false),
                [number, digits, b"retired"] => (number, digits, true),
                _ => return Err(format!("line {}: {EXPECTED}", at + 1)),
            };
            let number = std::str::from_utf8(number).ok().and_then(|number| number.parse().ok());
            let mut bytes = [0; 16];
            let key = hex(digits, &mut bytes).and(number).and_then(|number| Key::new(&bytes, number).ok());
            luossavin::wipe(&mut bytes);
            let key = key.ok_or_else(|| format!("line {}: {EXPECTED}", at + 1))?;
            if keys.iter().any(|other| other.number() == key.number()) {
                return Err(format!("line {}: key {} is listed before", at + 1, key.number()));
            }
            keys.push(if is_retired { key.retire() } else { key });
        }
        if keys.len() > MOST {
            return Err(format!("there are more than {MOST} keys"));
        }
        keys.sort_by_key(Key::is_retired);
        Ok(Keys(keys.into_iter().map(|key| Sm4CipherMode::with_key(key, CipherMode::Gcm)).collect()))
    }

    /// "3, 1 retired"
    pub fn told(&self) -> String {
        let word = |key: &Key| format!("{}{}", key.number(), if key.is_retired() { " retired" } else { "" });
        let all: Vec<String> = self.0.iter().map(|gcm| word(gcm.key())).collect();
        if all.is_empty() {
            "none".to_string()
        } else {
            all.join(", ")
        }
    }

    /// Opens a sealed message under one of the keys, that with the number `first` before the others, into `text`: how
    /// many bytes it has, and the key's number. No byte is written before its tag is settled.
    pub fn open(
        &self, first: u16, label: &[u8], sealed: &[u8], iv: &[u8], text: &mut Vec<u8>,
    ) -> Result<(usize, u16), String> {
        let room = CipherMode::Gcm.room_to_decrypt(sealed.len());
        if text.len() < room {
            text.resize(room, 0);
        }
        let is_first = |gcm: &&Sm4CipherMode| gcm.key().number() == first;
        let rest = self.0.iter().filter(|gcm| !is_first(gcm));
        let mut refused = None;
        for gcm in self.0.iter().filter(is_first).chain(rest) {
            match gcm.decrypt_into(label, sealed, iv, text) {
                Ok(done) => return Ok((done.length, done.key)),
                Err(Refusal::InvalidTag) => refused = Some(Refusal::InvalidTag),
                Err(refusal) => return Err(refusal.to_string()),
            }
        }
        Err(refused.map_or("there is no key".to_string(), |refusal| refusal.to_string()))
    }
}

const EXPECTED: &str =
    "expected a key's number, from 1 to 65535, and 32 hex digits, and of a retired key the word retired";

/// The key that 32 hex digits say, into a buffer of the caller's, so that no copy is left behind.
fn hex(digits: &[u8], key: &mut [u8; 16]) -> Option<()> {
    let digit = |byte: &u8| char::from(*byte).to_digit(16).map(|digit| digit as u8);
    if digits.len() != 32 {
        return None;
    }
    for (byte, pair) in key.iter_mut().zip(digits.chunks(2)) {
        *byte = digit(pair.first()?)? << 4 | digit(pair.last()?)?;
    }
    Some(())
}

#[cfg(test)]
mod tests {
    use super::*;
    use crate::files::tests::Folder;
    use luossavin::editions::label;

    const A: &str = "000102030405060708090a0B0c0D0e0F";
    const B: &str = "ffffffffffffffffffffffffffffffff";

    #[test]
    fn keys_are_listed_a_line_each() {
        let told = |file: &str| Keys::parse(file.as_bytes()).map(|keys| keys.told());
        assert_eq!(told("").unwrap(), "none");
        assert_eq!(told(&format!("# keys\n\n 7  {A} # this quarter's\r\n")).unwrap(), "7");
        assert_eq!(told(&format!("1 {A} retired\n2 {B}")).unwrap(), "2, 1 retired");
        assert_eq!(told(&format!("1 {A} retired\n2 {B} retired")).unwrap(), "1 retired, 2 retired");
        let wrong =
            ["7", "7 00", "x y", &format!("0 {A}"), &format!("65536 {A}"), &format!("1 {A}0")].map(str::to_string);
        let more =
            [format!("1 {A} old"), format!("1 {A} retired {B}"), format!("1 {}g", &A[1..]), format!("1 {A}\n1 {B}")];
        for file in wrong.iter().chain(&more) {
            let why = told(file).unwrap_err();
            assert!(why.starts_with("line ") && !why.contains(&A[..8]), "{file}: {why}");
        }
        assert!(Keys::parse(b"1 \xff\xfe").is_err());
        let nine: String = (1..=9).map(|number| format!("{number} {A}\n")).collect();
        assert!(told(&nine).is_err());
    }

    #[test]
    fn a_file_that_cannot_be_read_holds_no_keys() {
        let folder = Folder::new();
        assert!(Keys::read(&folder.0.join("keys")).map(|keys| keys.told()).unwrap_err().starts_with("cannot read"));
        let wrong = Keys::read(&folder.file("keys", b"1 2 3")).map(|keys| keys.told()).unwrap_err();
        assert!(wrong.ends_with(&format!("keys, line 1: {EXPECTED}")), "{wrong}");
    }

    #[test]
    fn each_key_opens_what_it_sealed() {
        let keys = Keys::parse(format!("1 {A} retired\n2 {B}\n").as_bytes()).unwrap();
        let mut text = Vec::new();
        let keyed: [(u16, Vec<u8>); 2] = [(1, (0..16).collect()), (2, vec![255; 16])];
        for (number, bytes) in keyed {
            let gcm = Sm4CipherMode::new(&bytes, CipherMode::Gcm).unwrap();
            let sealed = gcm.encrypt(&label(4711, 2), b"the final", &[number as u8; 16]).unwrap();
            for first in 0..3 {
                let opened = keys.open(first, &label(4711, 2), &sealed, &[number as u8; 16], &mut text);
                assert_eq!(opened, Ok((9, number)));
                assert_eq!(&text[..9], b"the final");
                text.fill(0);
                let other = keys.open(first, &label(4711, 1), &sealed, &[number as u8; 16], &mut text);
                assert!(other.unwrap_err().starts_with("4 InvalidTag: "));
                assert!(text.iter().all(|byte| *byte == 0));
            }
            assert!(keys.open(0, b"", &sealed[..3], &[0; 16], &mut text).unwrap_err().starts_with("9 ShortGcm: "));
            assert_eq!(Keys::default().open(0, b"", &sealed, &[0; 16], &mut text), Err("there is no key".to_string()));
        }
    }
}
