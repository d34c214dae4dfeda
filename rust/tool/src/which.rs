//! Which edition does this file open under?

use crate::files::{lines, read_small};
use crate::keys;
use crate::message::{key_and_iv, opened, Asked};
use crate::say::{answer, input, shown, told, Fail, ANOTHER, NONE};
use crate::words::{decimal, Line, Thing};
use luossavin::editions::{label, which};
use luossavin::{Direction, Refusal};
use std::ffi::OsStr;
use std::os::unix::ffi::OsStrExt;

/// A list of candidates has fewer bytes than this.
const LIST: usize = 65_536;

/// The candidates, and how they are told where none opens: "none of editions 1 to 2 of job 4711".
type Candidates = (Vec<(u32, u16)>, String);

/// Says that there are too many candidates.
fn too_many(line: &Line, how_many: String) -> Fail {
    let words = told(Refusal::BadList, &[("there are more than 64 candidates", how_many)]);
    Fail::refused(Refusal::BadList, format!("{}{words}", line.about(&input(line.word(Thing::In)))))
}

/// A range of editions, as 1-3 or 2.
fn range(text: &OsStr) -> Option<(u16, u16)> {
    let mut ends = text.as_bytes().splitn(2, |byte| *byte == b'-');
    let first = decimal(ends.next()?)?;
    let last = ends.next().map_or(Some(first), decimal)?;
    (first <= last).then_some((first, last))
}

fn of_range(line: &Line) -> Result<Candidates, Fail> {
    let job = line.number(Thing::Job)?.unwrap_or(0);
    let word = line.word(Thing::Editions);
    let (first, last) = range(word).ok_or_else(|| line.wrong(Thing::Editions, word))?;
    if last - first >= 64 {
        return Err(too_many(line, format!("there are {} candidates", u32::from(last - first) + 1)));
    }
    let told = if first == last {
        format!("does not open under edition {first} of job {job}")
    } else {
        format!("opens under none of editions {first} to {last} of job {job}")
    };
    Ok(((first..=last).map(|edition| (job, edition)).collect(), told))
}

/// A line of a list: a job and an edition with one blank between.
fn candidate(text: &OsStr) -> Option<(u32, u16)> {
    let (job, edition) = keys::split(text.as_bytes())?;
    Some((decimal(job)?, decimal(edition)?))
}

fn of_list(line: &Line, word: &OsStr) -> Result<Candidates, Fail> {
    let name = input(word);
    let list = read_small(word, "the candidates ", LIST - 1)?;
    if list.len() >= LIST {
        return Err(too_many(line, format!("{name} has {LIST} bytes or more of candidates")));
    }
    let mut labels = Vec::new();
    for (at, text) in lines(&list).take(64).filter(|(_, text)| !text.is_empty()) {
        labels.push(candidate(text).ok_or_else(|| {
            let expected = "expected a job and an edition with a blank between, as 4711 1";
            line.fault(&format!("{name}, line {at}: {expected}, not \"{}\"", shown(text)))
        })?);
    }
    match lines(&list).count() {
        0..=64 => Ok((labels, format!("opens under none of the candidates in {name}"))),
        count => Err(too_many(line, format!("{name} has {count} lines"))),
    }
}

/// The command: status 0 where a candidate opens, 68 where that is another edition than the one asked for, 65 for none.
pub fn run(line: &Line) -> Result<u8, Fail> {
    keys::number(line)?;
    let (candidates, told) = match line.value(Thing::Candidates) {
        Some(word) => of_list(line, word)?,
        None => of_range(line)?,
    };
    let wanted = line.number(Thing::Edition)?;
    let asked = Asked::read(line, Direction::Decrypt)?;
    let held = asked.key()?;
    let sealed = asked.data()?;
    let labels: Vec<[u8; 6]> = candidates.iter().map(|(job, edition)| label(*job, *edition)).collect();
    let found = which(&held.key, &sealed, &asked.iv, &labels).map_err(|refusal| asked.refuse(refusal, sealed.len()))?;
    match found.and_then(|place| candidates.get(place)) {
        Some((job, edition)) => found_one(line, *job, *edition, wanted),
        None => found_none(line, &told),
    }
}

fn found_one(line: &Line, job: u32, edition: u16, wanted: Option<u16>) -> Result<u8, Fail> {
    let is_wanted = wanted.map_or(true, |wanted| wanted == edition);
    let status = if is_wanted { 0 } else { ANOTHER };
    let more = match (line.says(Thing::Json), wanted) {
        (true, wanted) => format!(",\"asked\":{}", wanted.map_or("null".to_string(), |wanted| wanted.to_string())),
        (false, None) => String::new(),
        (false, Some(_)) if is_wanted => ": the edition you asked for".to_string(),
        (false, Some(wanted)) => format!(": the edition you asked for, {wanted}, is not in this file"),
    };
    answer(&opened(line, status, job, edition, &more))?;
    Ok(status)
}

fn found_none(line: &Line, told: &str) -> Result<u8, Fail> {
    let next = "look for another key, another IV or another job, unless the file was changed since";
    answer(&match line.says(Thing::Json) {
        true => line.object(NONE, None, ",\"opens\":false"),
        false => format!("{} {told}, with {}: {next}\n", input(line.word(Thing::In)), key_and_iv(line)),
    })?;
    Ok(NONE)
}

#[cfg(test)]
mod tests {
    use super::*;

    #[test]
    fn ranges_and_candidates_are_read() {
        let range = |text: &str| super::range(OsStr::new(text));
        assert_eq!((range("1-3"), range("02"), range("0-65535")), (Some((1, 3)), Some((2, 2)), Some((0, 65535))));
        for wrong in ["3-1", "1-", "-3", "x", "1-2-3", "1 - 3", "65536", ""] {
            assert_eq!(range(wrong), None, "{wrong}");
        }
        let candidate = |text: &str| super::candidate(OsStr::new(text));
        assert_eq!(candidate("4294967295 65535"), Some((u32::MAX, u16::MAX)));
        for wrong in ["4711", "4711 ", " 1", "4711  1", "4711 1 ", "4711 65536", "4294967296 1", "-1 1", "# all"] {
            assert_eq!(candidate(wrong), None, "{wrong}");
        }
    }
}
