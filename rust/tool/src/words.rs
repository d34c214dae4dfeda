//! The command line: one table of commands, one of options, and what a line of words says by them.

use crate::files::Secret;
use crate::say::{json, shown, Fail, USAGE};
use crate::{message, replay, shelf, which};
use luossavin::Refusal;
use std::ffi::{OsStr, OsString};
use std::os::unix::ffi::OsStrExt;

/// What a word can say.
#[rustfmt::skip]
#[derive(Clone, Copy, Debug, PartialEq, Eq)]
pub enum Thing {
    Mode, Key, Number, Retired, Iv, IvFile, Job, Edition, Editions, Candidates, Workers, Offset, Decrypt, Keys, Ivs, Wait,
    Unchecked, Reference, Plain, Json, Force, Length, Shelf, In, Out,
}

use Thing::*;

/// The options, with what is expected of the value; those without one are said alone.
const OPTIONS: [(Thing, &str, &str); 21] = [
    (Mode, "--mode", "cfb, ofb, ctr or cbc"),
    (Key, "--key", "a file of 16 raw bytes or 32 hex digits"),
    (Number, "--number", "a whole number from 1 to 65535"),
    (Retired, "--retired", ""),
    (Iv, "--iv", "hex digits, two to a byte"),
    (IvFile, "--iv-file", "a file of hex digits, two to a byte"),
    (Job, "--job", "a whole number from 0 to 4294967295"),
    (Edition, "--edition", "a whole number from 0 to 65535"),
    (Editions, "--editions", "a range as 1-3, of whole numbers from 0 to 65535, or one number"),
    (Candidates, "--candidates", "a file that has a job and an edition to a line"),
    (Workers, "--workers", "a whole number from 1 to 64"),
    (Offset, "--offset", "a whole number, the place in the text where IN begins"),
    (Decrypt, "--decrypt", ""),
    (Keys, "--keys", "a file that has a key's number and the key to a line"),
    (Ivs, "--ivs", "a file that has a job, an edition and an IV to a line"),
    (Wait, "--wait", "a whole number of seconds"),
    (Unchecked, "--unchecked", ""),
    (Reference, "--reference", ""),
    (Plain, "--plain", ""),
    (Json, "--json", ""),
    (Force, "--force", ""),
];

/// The words that are no options, in the order in which they are said.
const OTHERS: [(Thing, &str, &str); 4] = [
    (Length, "LENGTH", "a whole number, how many bytes the text has"),
    (Shelf, "SHELF", "the file that is the shelf"),
    (In, "IN", "a file to read, or - for standard input"),
    (Out, "OUT", "a file to write, or - for standard output"),
];

/// Things that do not stand beside each other, and what is expected.
const NOT_BOTH: [(&[Thing], &[Thing], &str); 5] = [
    (&[Candidates], &[Job, Edition, Editions], "--candidates, or --job and --editions"),
    (&[Keys], &[Key, Number], "--keys, or --key and --number"),
    (&[Iv], &[IvFile], "--iv or --iv-file"),
    (&[Plain], &[Json], "--plain or --json"),
    (&[Unchecked], &[Key, Number, Retired, Iv, IvFile, Reference], "--unchecked, or --key and --iv"),
];

/// A command: its name, what it takes in the order in which it is told, and which of that may be left out.
pub struct Command {
    pub name: &'static str,
    takes: &'static [Thing],
    may_lack: &'static [Thing],
    pub run: fn(&Line) -> Result<u8, Fail>,
}

#[rustfmt::skip]
pub const COMMANDS: [Command; 15] = [
    Command { name: "seal", run: message::encrypt, may_lack: &[],
        takes: &[Key, Number, Retired, Iv, IvFile, Job, Edition, Force, In, Out] },
    Command { name: "open", run: message::decrypt, may_lack: &[],
        takes: &[Key, Number, Retired, Iv, IvFile, Job, Edition, In, Out] },
    Command { name: "opens", run: message::opens, may_lack: &[],
        takes: &[Key, Number, Retired, Iv, IvFile, Job, Edition, Json, In] },
    Command { name: "which", run: which::run, may_lack: &[Edition],
        takes: &[Key, Number, Retired, Iv, IvFile, Job, Editions, Edition, Candidates, Json, In] },
    Command { name: "encrypt", run: message::encrypt, may_lack: &[],
        takes: &[Mode, Key, Number, Retired, Iv, IvFile, Force, In, Out] },
    Command { name: "decrypt", run: message::decrypt, may_lack: &[],
        takes: &[Mode, Key, Number, Retired, Iv, IvFile, In, Out] },
    Command { name: "plan", run: message::plan, may_lack: &[], takes: &[Workers, Length] },
    Command { name: "range", run: message::range, may_lack: &[],
        takes: &[Key, Number, Retired, Iv, IvFile, Offset, Decrypt, Force, In, Out] },
    Command { name: "shelf put", run: shelf::put, may_lack: &[Key, Iv],
        takes: &[Key, Number, Retired, Iv, IvFile, Job, Edition, Unchecked, Reference, Wait, Shelf, In] },
    Command { name: "shelf find", run: shelf::find, may_lack: &[Out], takes: &[Job, Json, Force, Shelf, Out] },
    Command { name: "shelf open", run: shelf::open, may_lack: &[],
        takes: &[Job, Key, Number, Retired, Iv, IvFile, Shelf, Out] },
    Command { name: "shelf verify", run: shelf::verify, may_lack: &[], takes: &[Key, Number, Retired, Ivs, Shelf] },
    Command { name: "shelf collect", run: shelf::collect, may_lack: &[], takes: &[Wait, Shelf] },
    Command { name: "shelf list", run: shelf::list, may_lack: &[], takes: &[Json, Shelf] },
    Command { name: "replay", run: replay::run, may_lack: &[], takes: &[Keys, Key, Number, Plain, Json, In] },
];

/// What may always be left out.
const OPTIONAL: [Thing; 4] = [Number, IvFile, Candidates, Wait];

fn option(thing: Thing) -> Option<&'static (Thing, &'static str, &'static str)> {
    OPTIONS.iter().find(|row| row.0 == thing)
}

/// An option's name, or that of a word.
pub fn name(thing: Thing) -> &'static str {
    OPTIONS.iter().chain(&OTHERS).find(|row| row.0 == thing).map_or("", |row| row.1)
}

/// "--key, --number or --iv"
pub fn listed(names: &[&str], last: &str) -> String {
    match names.split_last() {
        None => String::new(),
        Some((only, [])) => only.to_string(),
        Some((end, front)) => format!("{} {last} {end}", front.join(", ")),
    }
}

/// What a line of words says.
pub struct Line<'a> {
    pub command: &'static Command,
    pub called: &'a str,
    said: Vec<(Thing, OsString)>,
}

impl Command {
    fn is_flag(thing: Thing) -> bool {
        option(thing).map_or(false, |row| row.2.is_empty())
    }

    /// The options, as a person types them.
    pub fn options(&self) -> Vec<&'static str> {
        self.takes.iter().filter_map(|thing| option(*thing)).map(|row| row.1).collect()
    }
}

impl<'a> Line<'a> {
    /// Reads the words behind a command.
    pub fn read(command: &'static Command, words: &[OsString], called: &'a str) -> Result<Line<'a>, Fail> {
        let mut line = Line { command, called, said: Vec::new() };
        let mut words = words.iter();
        let mut are_files = false;
        while let Some(word) = words.next() {
            let is_option = !are_files && word.len() > 1 && word.as_bytes().starts_with(b"-");
            if is_option && word == "--" {
                are_files = true;
            } else if is_option {
                line.read_option(word, &mut words)?;
            } else {
                let awaited = OTHERS.iter().find(|row| command.takes.contains(&row.0) && !line.says(row.0));
                let (thing, ..) = awaited.ok_or_else(|| line.unexpected("no further word, not", word))?;
                line.said.push((*thing, word.clone()));
            }
        }
        let lacking = command.takes.iter().find(|thing| line.lacks(**thing));
        lacking.map_or(Ok(()), |thing| Err(line.missing(*thing)))?;
        Ok(line)
    }

    fn read_option(&mut self, word: &OsStr, words: &mut std::slice::Iter<OsString>) -> Result<(), Fail> {
        let mut parts = word.as_bytes().splitn(2, |byte| *byte == b'=');
        let (front, value) = (parts.next().unwrap_or_default(), parts.next().map(OsStr::from_bytes));
        let row = OPTIONS.iter().find(|row| row.1.as_bytes() == front && self.command.takes.contains(&row.0));
        let thing = match row {
            Some(row) if !(row.2.is_empty() && value.is_some()) => row.0,
            _ => return Err(self.no_option(word)),
        };
        if self.says(thing) {
            return Err(self.unexpected("only once", word));
        }
        if let Some(either) = self.clash(thing) {
            return Err(self.unexpected(&format!("{either}, not both:"), word));
        }
        let value = match (Command::is_flag(thing), value) {
            (true, _) => OsStr::new(""),
            (false, Some(value)) => value,
            (false, None) => {
                let next = words.next().ok_or_else(|| self.missing(thing))?;
                if next.len() > 1 && next.as_bytes().starts_with(b"-") {
                    return Err(self.wrong(thing, next));
                }
                next
            }
        };
        self.said.push((thing, value.to_os_string()));
        Ok(())
    }

    /// What is expected where a thing cannot stand beside what has been said.
    fn clash(&self, thing: Thing) -> Option<&'static str> {
        let says = |things: &[Thing]| things.iter().any(|thing| self.says(*thing));
        let is_clash = |row: &&(&[Thing], &[Thing], &str)| {
            (row.0.contains(&thing) && says(row.1)) || (row.1.contains(&thing) && says(row.0))
        };
        NOT_BOTH.iter().find(is_clash).map(|row| row.2)
    }

    /// Whether the command wants a thing that no word has said, nor another in its place.
    fn lacks(&self, thing: Thing) -> bool {
        let is_optional = OPTIONAL.contains(&thing) || self.command.may_lack.contains(&thing);
        !(is_optional || Command::is_flag(thing) || self.says(thing) || self.clash(thing).is_some())
    }

    pub fn says(&self, thing: Thing) -> bool {
        self.value(thing).is_some()
    }

    pub fn value(&self, thing: Thing) -> Option<&OsStr> {
        self.said.iter().find(|said| said.0 == thing).map(|said| said.1.as_os_str())
    }

    /// The word of a thing that the line is known to say.
    pub fn word(&self, thing: Thing) -> &OsStr {
        self.value(thing).unwrap_or_default()
    }

    /// A value in digits that is not too large for its type.
    pub fn number<N: TryFrom<u64>>(&self, thing: Thing) -> Result<Option<N>, Fail> {
        let read = |word: &OsStr| decimal(word.as_bytes()).ok_or_else(|| self.wrong(thing, word));
        self.value(thing).map(read).transpose()
    }

    /// "luossavin shelf put: "
    pub fn start(&self) -> String {
        format!("luossavin {}: ", self.command.name)
    }

    /// "luossavin open: rough.sealed: "
    pub fn about(&self, name: &str) -> String {
        format!("luossavin {}: {name}: ", self.command.name)
    }

    /// An answer for a program: one object on one line, with these fields and then more.
    pub fn object(&self, status: u8, refusal: Option<Refusal>, more: &str) -> String {
        let file = json(self.value(Shelf).unwrap_or_else(|| self.word(In)));
        let refusal = refusal.map_or("null".to_string(), |refusal| format!("\"{}\"", refusal.name()));
        let command = self.command.name;
        format!("{{\"command\":\"{command}\",\"file\":{file},\"status\":{status},\"refusal\":{refusal}{more}}}\n")
    }

    /// A fault of the words.
    pub fn fault(&self, text: &str) -> Fail {
        let page = self.command.name.split(' ').next().unwrap_or_default();
        Fail::new(USAGE, format!("{}{text}\nFor an example: {} help {page}", self.start(), self.called))
    }

    fn unexpected(&self, what: &str, word: &OsStr) -> Fail {
        self.fault(&format!("expected {what} \"{}\"", shown(word)))
    }

    fn no_option(&self, word: &OsStr) -> Fail {
        let options = listed(&self.command.options(), "or");
        self.unexpected(&format!("{options}, not"), word)
    }

    fn expected(&self, thing: Thing) -> String {
        let other = OTHERS.iter().find(|row| row.0 == thing).map(|row| format!("expected {}, {}", row.1, row.2));
        let of_option = || option(thing).map(|row| format!("expected {} with {}", row.1, row.2));
        other.or_else(of_option).unwrap_or_default()
    }

    pub fn missing(&self, thing: Thing) -> Fail {
        self.fault(&format!("{}, which is missing", self.expected(thing)))
    }

    pub fn wrong(&self, thing: Thing, word: &OsStr) -> Fail {
        self.fault(&format!("{}, not \"{}\"", self.expected(thing), shown(word)))
    }
}

/// A whole number in digits, however many, where its type holds it; one of 2^64 or more is taken for the largest below.
pub fn decimal<N: TryFrom<u64>>(digits: &[u8]) -> Option<N> {
    let add = |n: u64, digit: &u8| n.saturating_mul(10).saturating_add(u64::from(digit - b'0'));
    let is_number = !digits.is_empty() && digits.iter().all(u8::is_ascii_digit);
    is_number.then(|| digits.iter().fold(0, add)).and_then(|n| N::try_from(n).ok())
}

/// The bytes that hex digits spell, two to a byte. They may be a key: no copy is left behind by growing, nor what was
/// read before a wrong digit.
pub fn hex(digits: &[u8]) -> Option<Vec<u8>> {
    let digit = |byte: u8| char::from(byte).to_digit(16);
    let mut bytes = Secret(Vec::with_capacity(digits.len() / 2 + 1));
    for pair in digits.chunks(2) {
        bytes.0.push(u8::try_from(digit(*pair.first()?)? * 16 + digit(*pair.get(1)?)?).ok()?);
    }
    Some(std::mem::take(&mut bytes.0))
}

#[cfg(test)]
mod tests {
    use super::*;

    fn read(words: &str) -> Result<Vec<(Thing, OsString)>, String> {
        let words: Vec<OsString> = words.split(' ').map(OsString::from).collect();
        let command = COMMANDS.iter().find(|command| command.name == words[0].to_str().unwrap()).unwrap();
        let read = Line::read(command, &words[1..], "luossavin");
        read.map(|line| line.said).map_err(|fail| fail.text.lines().next().unwrap_or_default().to_string())
    }

    #[test]
    fn options_stand_anywhere_and_in_two_forms() {
        let plain = read("opens --key k --iv 00 --job 1 --edition 2 in").unwrap();
        assert_eq!(plain.len(), 5);
        let mixed = read("opens in --edition=2 --job=1 --iv=00 --key=k").unwrap();
        assert!(plain.iter().all(|said| mixed.contains(said)));
        let files = read("open --key k --iv 00 --job 1 --edition 2 -- -in -out").unwrap();
        assert_eq!(files[4..], [(In, "-in".into()), (Out, "-out".into())]);
    }

    #[test]
    fn wrong_words_are_told() {
        let told = |words| read(words).unwrap_err();
        assert_eq!(told("plan --worker 1"), "luossavin plan: expected --workers, not \"--worker\"");
        assert_eq!(told("plan --workers 1 --workers 1"), "luossavin plan: expected only once \"--workers\"");
        assert!(told("seal --retired=1").contains("expected --key, --number, --retired, --iv, --iv-file, --job"));
        assert!(told("seal --iv 00 --iv-file f").contains("expected --iv or --iv-file, not both: \"--iv-file\""));
        assert!(told("seal --job --edition 1").ends_with("not \"--edition\""));
        assert!(told("seal --job").ends_with(", which is missing"));
        assert!(told("plan --workers 1 2 3").ends_with("expected no further word, not \"3\""));
        assert!(told("replay --number 7 j").contains("expected --key with"));
    }

    #[test]
    fn numbers_and_hex_are_read() {
        assert_eq!(["0012", "", "1x", "-1"].map(|word| decimal(word.as_bytes())), [Some(12u64), None, None, None]);
        assert_eq!(decimal(b"99999999999999999999999"), Some(u64::MAX));
        assert_eq!((decimal::<u16>(b"65535"), decimal::<u16>(b"65536")), (Some(65535), None));
        assert_eq!(hex(b"00fFa1"), Some(vec![0, 255, 161]));
        assert_eq!((hex(b""), hex(b"0"), hex(b"0g")), (Some(vec![]), None, None));
    }
}
