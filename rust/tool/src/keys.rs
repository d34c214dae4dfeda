//! Keys and IVs, as files and words have them.

use crate::files::{lines, read_small, Secret, Source};
use crate::progress::Progress;
use crate::say::{bytes, input, quoted, say, shown, told, Fail};
use crate::words::{decimal, hex, Line, Thing};
use luossavin::{Key, Refusal};
use std::ffi::OsStr;
use std::os::unix::ffi::OsStrExt;
use std::os::unix::fs::MetadataExt;
use std::sync::Arc;

/// No key, IV or list is as long as this.
const MOST: usize = 65_535;

fn is_blank(byte: &u8) -> bool {
    b" \t\r\n".contains(byte)
}

/// A text without the blanks at its end.
fn trimmed(text: &[u8]) -> &[u8] {
    let end = text.iter().rposition(|byte| !is_blank(byte)).map_or(0, |last| last + 1);
    text.get(..end).unwrap_or_default()
}

/// The key in a key file: 32 hex digits with blanks at most after them, or else the bytes of the file.
fn spelled(file: &[u8]) -> Secret {
    match Some(trimmed(file)).filter(|digits| digits.len() == 32).and_then(hex) {
        Some(key) => Secret(key),
        None => Secret(file.to_vec()),
    }
}

/// The size of a key file that holds no key, for an error message.
fn size_of(file: &[u8], size: Option<u64>) -> String {
    let digits = trimmed(file);
    if file.len() > MOST {
        return size.map_or(format!("more than {MOST} bytes"), bytes);
    }
    if digits.len() > 16 && digits.iter().all(u8::is_ascii_hexdigit) {
        return format!("{} hex digits", digits.len());
    }
    bytes(file.len() as u64)
}

/// The number of the key: 1 by default. A number out of range is refused when the key is set up.
pub fn number(line: &Line) -> Result<u32, Fail> {
    let number: u64 = line.number(Thing::Number)?.unwrap_or(1);
    Ok(u32::try_from(number).unwrap_or(u32::MAX))
}

/// A key that was set up, with what its file holds.
pub struct Held {
    pub key: Arc<Key>,
    pub file: Secret,
    bytes: Secret,
}

/// Reads the key that a line names. `about` is what a refusal is about.
pub fn read(line: &Line, about: &str) -> Result<Held, Fail> {
    let number = number(line)?;
    let word = line.word(Thing::Key);
    let mut source = Source::open(word, "the key ")?;
    let file = source.read(MOST, &mut Progress::none())?;
    let bytes = spelled(&file);
    match Key::new(&bytes, number) {
        Ok(key) => {
            warn_of_readers(line, word, &source);
            let key = if line.says(Thing::Retired) { key.retire() } else { key };
            Ok(Held { key: Arc::new(key), file, bytes })
        }
        Err(refusal) => {
            let size = format!("the key file {} has {}", input(word), size_of(&file, source.size()));
            let not = format!("1 to 65535, not {}", shown(line.word(Thing::Number)));
            let facts = [("the key has another size", size), ("1 to 65535", not)];
            Err(Fail::refused(refusal, format!("{}{}", line.about(about), told(refusal, &facts))))
        }
    }
}

/// Warns of a file of keys that others can read.
fn warn_of_readers(line: &Line, word: &OsStr, source: &Source) {
    if source.about.is_file() && source.about.mode() & 0o044 != 0 {
        let next = if word == "-" { String::new() } else { format!(": chmod 600 {}", quoted(&shown(word))) };
        say(&format!("{}warning: others can read the key file {}{next}", line.start(), input(word)));
    }
}

/// The IV that a line says, of whatever length, and what its file holds.
pub fn iv(line: &Line) -> Result<(Vec<u8>, Secret), Fail> {
    if let Some(word) = line.value(Thing::Iv) {
        let iv = hex(word.as_bytes()).ok_or_else(|| line.wrong(Thing::Iv, word))?;
        return Ok((iv, Secret::default()));
    }
    let word = match line.value(Thing::IvFile) {
        Some(word) => word,
        None => return Ok(Default::default()),
    };
    let file = read_small(word, "the IV ", MOST)?;
    match hex(trimmed(&file)) {
        Some(iv) => Ok((iv, file)),
        None => {
            let name = input(word);
            Err(line.fault(&format!("expected --iv-file with a file of hex digits, two to a byte, and {name} is none")))
        }
    }
}

/// Warns of an IV that should not be used.
pub fn warn(line: &Line, held: &Held, iv: &[u8]) {
    let start = line.start();
    if !iv.is_empty() && iv.iter().all(|byte| *byte == 0) {
        say(&format!(
            "{start}warning: the IV is all zeros: take a random one for each file, as `openssl rand -hex 16` makes"
        ));
    }
    if *iv == *held.bytes {
        say(&format!("{start}warning: the IV is the key, and an IV is no secret: take another IV, and another key"));
    }
}

/// What is wrong with the size of an IV: "13 bytes, not 12 or 16: it takes 24 or 32 hex digits".
pub fn iv_size(iv: &[u8], is_gcm: bool) -> (&'static str, String) {
    let takes = if is_gcm { "not 12 or 16: it takes 24 or 32 hex digits" } else { "not 16: it takes 32 hex digits" };
    ("another size, not 16 bytes, nor 12 in gcm", format!("{}, {takes}", bytes(iv.len() as u64)))
}

/// The keys of a list, a number and 32 hex digits to a line. A line is never shown, since it may hold a key.
pub fn listed(line: &Line, about: &str) -> Result<Vec<Key>, Fail> {
    let word = line.word(Thing::Keys);
    let name = input(word);
    let most = 4096;
    let mut source = Source::open(word, "the keys ")?;
    let list = source.read(most - 1, &mut Progress::none())?;
    let bad = |start: String, words: String| {
        let text = format!("{start}26 {}: {words}", Refusal::BadKeys.name());
        Err(Fail::refused(Refusal::BadKeys, text))
    };
    if list.len() >= most {
        let words = format!("a replay takes up to 8 keys, and the list {name} has {most} bytes or more");
        return bad(line.about(about), words);
    }
    let mut keys: Vec<Key> = Vec::new();
    for (at, text) in lines(&list).filter(|(_, text)| !text.is_empty()) {
        let start = line.about(&format!("{name}, line {at}"));
        let (number, digits) = numbered(text).ok_or_else(|| {
            line.fault(&format!("{name}, line {at}: expected a key's number and 32 hex digits with a blank between"))
        })?;
        let key = Key::new(&digits, u32::try_from(number).unwrap_or(u32::MAX)).map_err(|refusal| {
            let size = format!("this key has {} hex digits", 2 * digits.len());
            let not = format!("1 to 65535, not {number}");
            let facts = [("the key has another size", size), ("the key's", "a key's".to_string()), ("1 to 65535", not)];
            Fail::refused(refusal, format!("{start}{}", told(refusal, &facts)))
        })?;
        if keys.iter().any(|other| other.number() == key.number()) {
            return bad(start, format!("key {number} is listed before: each number stands for one key"));
        }
        if keys.len() == 8 {
            return bad(start, "a replay takes up to 8 keys, and this is one more".to_string());
        }
        keys.push(key);
    }
    if !keys.is_empty() {
        warn_of_readers(line, word, &source);
    }
    Ok(keys)
}

/// "7 0123..": a number and bytes.
fn numbered(text: &OsStr) -> Option<(u64, Secret)> {
    let (number, digits) = split(text.as_bytes())?;
    let digits = hex(digits).map(Secret).filter(|bytes| !bytes.is_empty())?;
    Some((decimal(number)?, digits))
}

/// A text before and after its first blank.
pub fn split(text: &[u8]) -> Option<(&[u8], &[u8])> {
    let at = text.iter().position(|byte| *byte == b' ')?;
    Some((text.get(..at)?, text.get(at + 1..)?))
}

/// The IVs of a list: a job, an edition and hex digits to a line, with comments from # on.
pub fn ivs(line: &Line) -> Result<Vec<(u32, u16, Vec<u8>)>, Fail> {
    let word = line.word(Thing::Ivs);
    let list = read_small(word, "the IVs ", 16 * MOST)?;
    if list.len() > 16 * MOST {
        return Err(Fail::files(format!("cannot read the IVs {}: no list is that long", input(word))));
    }
    let wrong = |at: usize, text: &OsStr| {
        let expected = "expected a job, an edition and an IV in hex digits, as 4711 1 000102030405060708090a0b";
        line.fault(&format!("{}, line {at}: {expected}, not \"{}\"", input(word), shown(text)))
    };
    let mut ivs = Vec::new();
    for (at, text) in lines(&list) {
        let said = text.as_bytes().split(|byte| *byte == b'#').next().unwrap_or_default();
        if trimmed(said).is_empty() {
            continue;
        }
        let words: Vec<&[u8]> = said.split(is_blank).filter(|word| !word.is_empty()).collect();
        let read = match words[..] {
            [job, edition, iv] => decimal(job).zip(decimal(edition)).zip(hex(iv)),
            _ => None,
        };
        let ((job, edition), iv) = read.ok_or_else(|| wrong(at, text))?;
        ivs.push((job, edition, iv));
    }
    Ok(ivs)
}

#[cfg(test)]
mod tests {
    use super::*;

    #[test]
    fn a_key_is_raw_bytes_or_hex_digits() {
        let key: Vec<u8> = (0..16).collect();
        let digits = b"000102030405060708090a0B0c0D0e0F";
        assert_eq!(*spelled(&key), key);
        assert_eq!(*spelled(digits), key);
        assert_eq!(*spelled(&[&digits[..], b"\r\n"].concat()), key);
        assert_eq!(spelled(&digits[1..]).len(), 31);
        assert_eq!(spelled(b"000102030405060708090a0b0c0d0e0g").len(), 32);
    }

    #[test]
    fn the_size_of_a_wrong_key_is_what_a_person_sees() {
        assert_eq!(size_of(b"", None), "0 bytes");
        assert_eq!(size_of(&[0; 15], None), "15 bytes");
        assert_eq!(size_of(&[b'a'; 31], None), "31 hex digits");
        assert_eq!(size_of(b"aaaaaaaaaaaaaaaaaaaaaaaaaaaaaaa\n", None), "31 hex digits");
        assert_eq!(size_of(&[0; 65_536], Some(307_200)), "307200 bytes");
        assert_eq!(size_of(&[0; 65_536], None), "more than 65535 bytes");
    }

    #[test]
    fn a_line_of_keys_has_a_number_and_digits() {
        let read = |text: &str| numbered(OsStr::new(text)).map(|(number, key)| (number, key.to_vec()));
        assert_eq!(read("07 00ff"), Some((7, vec![0, 255])));
        for wrong in ["7", "7 ", " 00", "7  00", "7 00 ", "7 0", "x 00", "7,00", ""] {
            assert_eq!(read(wrong), None, "{wrong}");
        }
    }
}
