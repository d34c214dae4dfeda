//! The command line.

use crate::upstream::Upstream;
use std::ffi::OsString;
use std::path::PathBuf;

pub struct Options {
    pub listen: PathBuf,
    pub shelf: PathBuf,
    pub seen: PathBuf,
    pub keys: PathBuf,
    pub upstream: Upstream,
    /// `--check`: read keys and shelf, say what they are, and exit.
    pub is_check: bool,
}

const NAMES: [&str; 6] = ["--listen", "--shelf", "--seen", "--keys", "--cache", "--folder"];

impl Options {
    pub fn read(words: &[OsString]) -> Result<Options, String> {
        let mut said: [Option<PathBuf>; NAMES.len()] = Default::default();
        let mut is_check = false;
        let mut words = words.iter();
        while let Some(word) = words.next() {
            if word == "--check" {
                is_check = true;
                continue;
            }
            let at = NAMES.iter().position(|name| word == name);
            let at = at.ok_or_else(|| format!("there is no option {}", word.to_string_lossy()))?;
            let value = words.next().filter(|value| !value.is_empty());
            if said[at].replace(value.ok_or(format!("expected a value after {}", NAMES[at]))?.into()).is_some() {
                return Err(format!("{} is there twice", NAMES[at]));
            }
        }
        let [listen, shelf, seen, keys, cache, folder] = said;
        let upstream = match (cache, folder) {
            (Some(cache), None) => Upstream::Cache(cache),
            (None, Some(folder)) => Upstream::Folder(folder),
            _ => return Err("expected --cache SOCKET, or --folder FOLDER".to_string()),
        };
        Ok(Options {
            listen: listen.ok_or("expected --listen SOCKET")?,
            shelf: shelf.ok_or("expected --shelf FILE")?,
            seen: seen.ok_or("expected --seen FILE")?,
            keys: keys.ok_or("expected --keys FILE")?,
            upstream,
            is_check,
        })
    }
}

#[cfg(test)]
mod tests {
    use super::*;

    fn read(words: &str) -> Result<Options, String> {
        Options::read(&words.split_whitespace().map(OsString::from).collect::<Vec<OsString>>())
    }

    #[test]
    fn words_are_read_in_any_order() {
        let options = read("--check --keys d --cache e --listen a --shelf b --seen c").unwrap();
        assert!(options.is_check && matches!(options.upstream, Upstream::Cache(cache) if cache.as_os_str() == "e"));
        assert_eq!(
            [options.listen, options.shelf, options.seen, options.keys],
            ["a", "b", "c", "d"].map(PathBuf::from)
        );
    }

    #[test]
    fn wrong_words_are_told() {
        let wrong = |words: &str| read(words).err().unwrap_or_else(|| panic!("{words}"));
        assert_eq!(wrong("--keys"), "expected a value after --keys");
        assert_eq!(wrong("--key d"), "there is no option --key");
        assert_eq!(wrong("--keys d --keys d"), "--keys is there twice");
        assert_eq!(wrong("--cache e --listen a --shelf b --seen c"), "expected --keys FILE");
        for upstream in ["", "--cache e --folder f"] {
            let words = format!("--listen a --shelf b --seen c --keys d {upstream}");
            assert_eq!(wrong(&words), "expected --cache SOCKET, or --folder FOLDER");
        }
    }
}
