//! `luossavin`: seals transcripts under their job and edition, and opens them. Each command reads its inputs, makes one
//! call of the proved library, and writes the result.
//!
//! This program is not proved. `tool/test` tests what it says and which files it touches; the library computes the
//! bytes.

#![deny(unsafe_code)]
#![cfg_attr(not(test), no_main)]

mod files;
mod help;
mod keys;
mod message;
mod progress;
mod replay;
mod say;
mod shelf;
// a test starts by itself
#[allow(unsafe_code)]
#[cfg_attr(test, allow(dead_code, unused_imports))]
mod sys;
mod which;
mod words;

use say::{answer, say, Fail, BROKE, USAGE};
use std::ffi::OsString;
use words::{Line, Thing, COMMANDS};

/// Runs the tool on its arguments, and returns the exit status.
#[cfg_attr(test, allow(dead_code))]
fn run(words: &[OsString]) -> u8 {
    std::panic::set_hook(Box::new(|broken| {
        let place = broken.location().map_or(String::new(), |place| format!(" at {place}"));
        say(&format!("luossavin: the tool broke{place}: this is a fault of the tool, please report it"));
        std::process::exit(i32::from(BROKE));
    }));
    let called = help::called(words.first());
    dispatch(words.get(1..).unwrap_or_default(), &called).unwrap_or_else(|fail| {
        say(&fail.text);
        fail.status
    })
}

fn dispatch(words: &[OsString], called: &str) -> Result<u8, Fail> {
    let first = match words.first() {
        Some(first) => first,
        None => return Err(Fail::new(USAGE, help::page(None, called)?.trim_end().to_string())),
    };
    let rest = words.get(1..).unwrap_or_default();
    match first.to_str() {
        Some("help" | "--help" | "-h") => return answer(&help::page(rest.first(), called)?),
        Some("--version" | "demo") if !rest.is_empty() => {
            return Err(Fail::new(USAGE, format!("luossavin: expected no further word after {}", say::shown(first))));
        }
        Some("--version") => return answer(&help::version()),
        Some("demo") => return help::demo(called),
        _ => {}
    }
    if rest.iter().take_while(|word| *word != "--").any(|word| word == "--help" || word == "-h") {
        return answer(&help::page(Some(first), called)?);
    }
    let (name, rest) = match (first.to_str(), rest.split_first()) {
        (Some("shelf"), Some((second, rest))) => (format!("shelf {}", second.to_string_lossy()), rest),
        (Some(name), _) => (name.to_string(), rest),
        (None, _) => return Err(help::no_command(first, called)),
    };
    let command = COMMANDS.iter().find(|command| command.name == name).ok_or_else(|| match first.to_str() {
        Some("shelf") => {
            let names: Vec<&str> = COMMANDS.iter().filter_map(|command| command.name.strip_prefix("shelf ")).collect();
            let word = words.get(1).map_or(String::new(), |word| say::shown(word));
            let text = format!("luossavin shelf: expected {}, not \"{word}\"", words::listed(&names, "or"));
            Fail::new(USAGE, format!("{text}\nFor an example: {called} help shelf"))
        }
        _ => help::no_command(first, called),
    })?;
    let line = Line::read(command, rest, called)?;
    files::mind(&line)?;
    (command.run)(&line).map_err(|fail| told_as_json(&line, fail))
}

/// A refusal as an object too, where that was asked for.
fn told_as_json(line: &Line, fail: Fail) -> Fail {
    if fail.refusal.is_none() || !line.says(Thing::Json) {
        return fail;
    }
    let more = if line.says(Thing::Shelf) { "" } else { ",\"opens\":false" };
    answer(&line.object(fail.status, fail.refusal, more)).map_or_else(|unwritten| unwritten, |_| fail)
}
