//! Help, the version, and the demo.

use crate::files::random;
use crate::message::Asked;
use crate::say::{answer, cannot, does_harm, quoted, shown, Fail, BROKE, USAGE};
use crate::words::{hex, listed, Line, COMMANDS};
use luossavin::editions::{label, which};
use luossavin::sm4::cipher_mode::{CipherMode, Sm4CipherMode};
use luossavin::{Direction, Key, Refusal};
use std::ffi::{OsStr, OsString};

macro_rules! pages {
    ($($name:literal)*) => { [$(($name, include_str!(concat!("../help/", $name, ".txt")))),*] };
}

/// The pages of help, the first of which is about all of it.
const PAGES: [(&str, &str); 11] =
    pages!["luossavin" "seal" "open" "opens" "which" "encrypt" "decrypt" "plan" "range" "shelf" "replay"];

/// There is no such command.
pub fn no_command(word: &OsStr, called: &str) -> Fail {
    let pages = PAGES.iter().map(|page| page.0).filter(|name| *name != "luossavin");
    let expected = listed(&pages.chain(["demo", "help"]).collect::<Vec<_>>(), "or");
    let text = format!("luossavin: expected {expected}, not \"{}\"\nFor an example: {called} help", shown(word));
    Fail::new(USAGE, text)
}

/// A page, with the tool's name as it was called.
pub fn page(word: Option<&OsString>, called: &str) -> Result<String, Fail> {
    let name = word.map_or(OsStr::new("luossavin"), OsString::as_os_str);
    let name = if name == "help" || name == "demo" { OsStr::new("luossavin") } else { name };
    let page = PAGES.iter().find(|page| name == page.0).ok_or_else(|| no_command(name, called))?;
    Ok(page.1.replace("{tool}", called))
}

/// The version, and what the build added to it (kit, commit, gate).
pub fn version() -> String {
    let about = option_env!("LUOSSAVIN_ABOUT").unwrap_or("").trim_end();
    let more = if about.is_empty() { String::new() } else { format!("{about}\n") };
    format!("luossavin {}\n{more}", env!("CARGO_PKG_VERSION"))
}

const TEXT: &[u8] = include_bytes!("../../../sample/rough.txt");
const KEY: &str = include_str!("../../../sample/key");

/// Seals the sample, opens it again, and shows that the final's label is refused on the rough, which edition it is, and
/// that a retired key opens and does not seal. All of it is in memory, so that nothing is left behind.
pub fn demo(called: &str) -> Result<u8, Fail> {
    let broke = |what: &str| Fail::new(BROKE, format!("luossavin demo: {what}"));
    let refused = |refusal: Refusal| Fail::refused(refusal, format!("luossavin demo: {refusal}"));
    let digits = random(16).map_err(|error| cannot("read", "/dev/urandom", &error))?;
    let spelled = |digits: &str| hex(digits.trim().as_bytes()).unwrap_or_default();
    let (iv, bytes) = (spelled(&digits), spelled(KEY));
    let key = || Key::new(&bytes, 1).map_err(refused);
    let cipher = Sm4CipherMode::with_key(key()?, CipherMode::Gcm);

    let words = |command: &str, words: &str| format!("{command} --key key --iv {digits} --job 4711 {words}");
    let show =
        |why: &str, command: &str, more: &str| answer(&format!("\n{why}\n\n  {called} {}\n", words(command, more)));
    // a refusal, as the command that is shown would say it
    let refuse = |command: &str, more: &str, refusal: Refusal| -> Result<u8, Fail> {
        let words: Vec<OsString> = words(command, more).split(' ').skip(1).map(OsString::from).collect();
        let command = COMMANDS.iter().find(|known| known.name == command).ok_or_else(|| broke("no such command"))?;
        let line = Line::read(command, &words, called)?;
        answer(&format!("{}\n", Asked::read(&line, Direction::Decrypt)?.refuse(refusal, 0).text))
    };

    let why = "The rough of job 4711 is its edition 1. It is sealed as that, under an IV that was made for it:";
    show(why, "seal", "--edition 1 rough.txt rough.sealed")?;
    let sealed = cipher.encrypt(&label(4711, 1), TEXT, &iv).map_err(refused)?;
    let (before, after) = (TEXT.len(), sealed.len());
    answer(&format!("\nDone: {before} bytes of text are {after} bytes that cannot be read without the key.\n"))?;
    show("Opened as edition 1, it is the same text again:", "open", "--edition 1 rough.sealed -")?;
    if cipher.decrypt(&label(4711, 1), &sealed, &iv).map_err(refused)? != TEXT {
        return Err(broke("the text is another"));
    }
    let part: Vec<&str> = std::str::from_utf8(TEXT).unwrap_or_default().lines().skip(17).take(6).collect();
    answer(&format!("{}\n", part.join("\n")))?;

    let question = "--edition 2 rough.sealed";
    show("The final of job 4711 will be edition 2. Is this the final?", "opens", question)?;
    match cipher.decrypt(&label(4711, 2), &sealed, &iv) {
        Err(refusal @ Refusal::InvalidTag) => refuse("opens", question, refusal)?,
        _ => return Err(broke("the rough opened as the final")),
    };
    let why = "It is not: the final's label is refused on the rough. Which edition is it?";
    show(why, "which", "--editions 1-2 --edition 2 rough.sealed")?;
    if which(cipher.key(), &sealed, &iv, &[label(4711, 1), label(4711, 2)]).map_err(refused)? != Some(0) {
        return Err(broke("it is another edition"));
    }
    let found = "opens under job 4711, edition 1: the edition you asked for, 2, is not in this file";
    answer(&format!("rough.sealed {found}\n"))?;

    let why = "Next quarter there is a new key, and this one is retired. What it sealed still opens with it:";
    show(why, "opens", "--retired --edition 1 rough.sealed")?;
    let retired = Sm4CipherMode::with_key(key()?.retire(), CipherMode::Gcm);
    retired.decrypt(&label(4711, 1), &sealed, &iv).map_err(refused)?;
    answer("rough.sealed opens under job 4711, edition 1\n")?;
    let words = "--retired --edition 2 final.txt final.sealed";
    show("And nothing new is sealed under it:", "seal", words)?;
    match retired.encrypt(&label(4711, 2), TEXT, &iv) {
        Err(refusal @ Refusal::Retired) => refuse("seal", words, refusal)?,
        _ => return Err(broke("a retired key sealed")),
    };
    answer(&format!("\nNothing was left behind. {called} help says how to use it on files of your own.\n"))
}

/// The tool as it was called, for a person to paste.
pub fn called(word: Option<&OsString>) -> String {
    let launcher = std::env::var_os("LUOSSAVIN_CALLED");
    let word = launcher.as_ref().or(word).and_then(|word| word.to_str()).unwrap_or("luossavin");
    let is_plain = !word.chars().any(does_harm);
    quoted(if is_plain { word } else { "luossavin" })
}

#[cfg(test)]
mod tests {
    use super::*;

    #[test]
    fn every_command_has_its_page_and_every_option_stands_in_it() {
        for command in &COMMANDS {
            let name = command.name.split(' ').next().unwrap();
            let (_, text) = PAGES.iter().find(|page| page.0 == name).expect("a page");
            for option in command.options() {
                assert!(text.contains(&format!("\n  {option} ")), "help {name} does not say what {option} is");
            }
        }
    }

    #[test]
    fn every_refusal_stands_in_the_table_of_statuses() {
        for number in 1..=26 {
            let name = Refusal::with_number(number).expect("a refusal").name();
            let row = format!("\n{number:>4}  {name} ");
            assert!(PAGES[0].1.contains(&row), "help does not say what {number} {name} is");
        }
        assert_eq!(Refusal::with_number(27), None);
    }

    #[test]
    fn the_version_is_the_checkouts() {
        assert_eq!(version().lines().next(), Some(&*format!("luossavin {}", include_str!("../../../VERSION").trim())));
    }
}
