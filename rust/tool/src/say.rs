//! Output: messages on standard error, and answers on standard output.

use crate::sys;
use luossavin::Refusal;
use std::ffi::OsStr;
use std::io::{self, Write};
use std::os::unix::ffi::OsStrExt;

/// The statuses beside 0 and the refusals' numbers.
pub const USAGE: u8 = 64;
pub const NONE: u8 = 65;
pub const FILES: u8 = 66;
pub const DIFFERS: u8 = 67;
pub const ANOTHER: u8 = 68;
pub const BROKE: u8 = 70;

/// Why a run ends with another status than 0, and what is said of it.
#[derive(Debug)]
pub struct Fail {
    pub status: u8,
    pub text: String,
    pub refusal: Option<Refusal>,
}

impl Fail {
    pub fn new(status: u8, text: String) -> Fail {
        Fail { status, text, refusal: None }
    }

    pub fn files(text: String) -> Fail {
        Fail::new(FILES, format!("luossavin: {text}"))
    }

    pub fn refused(refusal: Refusal, text: String) -> Fail {
        let status = u8::try_from(refusal.number()).unwrap_or(BROKE);
        Fail { status, text, refusal: Some(refusal) }
    }
}

/// "cannot read the key nowhere: No such file or directory"
pub fn cannot(act: &str, name: &str, error: &io::Error) -> Fail {
    Fail::files(format!("cannot {act} {name}: {}", why(error)))
}

/// The system's own words for an error.
pub fn why(error: &io::Error) -> String {
    let words = error.to_string();
    match words.find(" (os error") {
        Some(end) => words[..end].to_string(),
        None => words,
    }
}

/// Writes a line to standard error. Errors are ignored: there is nowhere to report them.
pub fn say(text: &str) {
    if !text.is_empty() {
        let _ = io::stderr().write_all(format!("{text}\n").as_bytes());
    }
}

/// Writes an answer to standard output; the status is 0 then.
pub fn answer(text: &str) -> Result<u8, Fail> {
    let written = sys::copy_of(1).and_then(|mut out| out.write_all(text.as_bytes()));
    written.map(|()| 0).map_err(|error| cannot("write", "standard output", &error))
}

/// Whether a character must be escaped: it could move the cursor or change the direction of text, or it is invisible
/// (Unicode: default ignorable).
pub fn does_harm(c: char) -> bool {
    c.is_control()
        || matches!(u32::from(c), 0xad | 0x34f | 0x61c | 0x115f..=0x1160 | 0x17b4..=0x17b5 | 0x180b..=0x180f)
        || matches!(u32::from(c), 0x200b..=0x200f | 0x2028..=0x202e | 0x2060..=0x206f | 0x3164 | 0xfe00..=0xfe0f)
        || matches!(u32::from(c), 0xfeff | 0xffa0 | 0xfff0..=0xfffb | 0x1bca0..=0x1bca3 | 0x1d173..=0x1d17a)
        || matches!(u32::from(c), 0xe0000..=0xe0fff)
}

/// A name as it is shown: dangerous characters, and bytes that are not UTF-8, are escaped.
pub fn shown(name: &OsStr) -> String {
    let mut text = String::new();
    let mut rest = name.as_bytes();
    while !rest.is_empty() {
        let (good, bad) = match std::str::from_utf8(rest) {
            Ok(good) => (good, 0),
            Err(error) => {
                let (good, behind) = rest.split_at(error.valid_up_to());
                (std::str::from_utf8(good).unwrap_or_default(), error.error_len().unwrap_or(behind.len()))
            }
        };
        for c in good.chars() {
            if does_harm(c) || c == '"' || c == '\\' {
                c.encode_utf8(&mut [0; 4]).bytes().for_each(|byte| text += &format!("\\x{byte:02x}"));
            } else {
                text.push(c);
            }
        }
        let (bad, behind) = rest.split_at(good.len()).1.split_at(bad);
        bad.iter().for_each(|byte| text += &format!("\\x{byte:02x}"));
        rest = behind;
    }
    text
}

/// A file that is read, as it is shown.
pub fn input(name: &OsStr) -> String {
    if name == "-" {
        "standard input".to_string()
    } else {
        shown(name)
    }
}

/// A string of JSON. Bytes that are no UTF-8 become U+FFFD.
pub fn json(name: &OsStr) -> String {
    let mut text = String::from("\"");
    for c in name.to_string_lossy().chars() {
        if does_harm(c) || c == '"' || c == '\\' {
            c.encode_utf16(&mut [0; 2]).iter().for_each(|unit| text += &format!("\\u{unit:04x}"));
        } else {
            text.push(c);
        }
    }
    text + "\""
}

/// "1 byte", "2 bytes"
pub fn bytes(n: impl Into<u64>) -> String {
    match n.into() {
        1 => "1 byte".to_string(),
        n => format!("{n} bytes"),
    }
}

/// The sentence of a refusal, with facts about the file instead of its general words.
pub fn told(refusal: Refusal, facts: &[(&str, String)]) -> String {
    let general = refusal.to_string();
    facts.iter().fold(general, |text, (words, fact)| text.replacen(words, fact, 1))
}

/// A word as a shell reads it.
pub fn quoted(word: &str) -> String {
    let is_plain = |c: char| c.is_ascii_alphanumeric() || "_./+:,@%-".contains(c);
    if !word.is_empty() && word.chars().all(is_plain) {
        word.to_string()
    } else {
        format!("'{}'", word.replace('\'', "'\\''"))
    }
}

#[cfg(test)]
mod tests {
    use super::*;

    fn shown_bytes(bytes: &[u8]) -> String {
        shown(OsStr::from_bytes(bytes))
    }

    #[test]
    fn what_could_do_harm_is_spelled_out() {
        assert_eq!(shown_bytes(b"a\x1b[31m\nb\"\\c"), "a\\x1b[31m\\x0ab\\x22\\x5cc");
        assert_eq!(shown_bytes("ä€😀".as_bytes()), "ä€😀");
        assert_eq!(shown_bytes("a\u{202e}b".as_bytes()), "a\\xe2\\x80\\xaeb");
        assert_eq!(shown_bytes("\u{9b}\u{feff}\u{2066}\u{200f}".as_bytes()).matches("\\x").count(), 11);
        let unseen = ['\u{34f}', '\u{3164}', '\u{fe0f}', '\u{ffa0}', '\u{1d173}', '\u{e01ef}'];
        assert!(unseen.iter().all(|c| shown_bytes(c.to_string().as_bytes()).is_ascii()));
        assert_eq!(shown_bytes(b"\xff\xc3"), "\\xff\\xc3");
        assert_eq!(shown_bytes(b"x\xe2\x82y"), "x\\xe2\\x82y");
    }

    #[test]
    fn json_is_json() {
        let json = |bytes| json(OsStr::from_bytes(bytes));
        assert_eq!(json(b"a\"\\\n\x7f"), "\"a\\u0022\\u005c\\u000a\\u007f\"");
        assert_eq!(json("ä\u{202e}\u{e0001}".as_bytes()), "\"ä\\u202e\\udb40\\udc01\"");
        assert_eq!(json(b"\xff"), "\"\u{fffd}\"");
    }

    #[test]
    fn a_shell_reads_a_quoted_word() {
        assert_eq!(quoted("./luossavin"), "./luossavin");
        assert_eq!(quoted("the tool's"), "'the tool'\\''s'");
        assert_eq!(quoted(""), "''");
    }

    #[test]
    fn facts_take_the_place_of_general_words() {
        let facts = [("this message", "this file".to_string()), ("this label", "job 1, edition 2".to_string())];
        let text = told(Refusal::InvalidTag, &facts);
        assert!(text.starts_with("4 InvalidTag: this file was not sealed under job 1, edition 2, with this key and IV"));
    }
}
