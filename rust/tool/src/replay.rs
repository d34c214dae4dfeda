//! Replays a journal: reads it once, in portions, and adds up their reports.

use crate::files::{Secret, Source};
use crate::keys;
use crate::progress::Progress;
use crate::say::{answer, bytes, input, told, Fail, DIFFERS};
use crate::words::{Line, Thing};
use luossavin::journal::{replay, Report};
use luossavin::{Key, Refusal};

/// How much of a journal is held at once; more than the longest record that can be replayed.
const WINDOW: usize = 1 << 20;

/// The longest record: 16,384 bytes of label, data and IV each, 16,400 of output, and 27 of head and lengths.
const LONGEST_RECORD: usize = 65_579;

const MODES: [&str; 6] = ["cfb", "ofb", "ctr", "cbc", "gcm", "unknown"];

/// What a record says: "encrypt with gcm under key 7", its answer and the length of its output.
#[derive(Debug, PartialEq, Eq)]
struct Recorded {
    call: String,
    key: u16,
    number: u8,
    length: u32,
    size: usize,
}

/// The four bytes at a place, as a length.
fn length_at(record: &[u8], at: usize) -> Option<u32> {
    let field: [u8; 4] = record.get(at..at.checked_add(4)?)?.try_into().ok()?;
    Some(u32::from_be_bytes(field))
}

fn recorded(record: &[u8]) -> Option<Recorded> {
    let head: [u8; 6] = record.get(..6)?.try_into().ok()?;
    let [_, _, direction, mode, high, low] = head;
    let mut at: usize = 6;
    for _ in 0..3 {
        let length = usize::try_from(length_at(record, at)?).ok()?;
        at = at.checked_add(4)?.checked_add(length)?;
    }
    let number = *record.get(at + 4)?;
    let length = length_at(record, at + 5)?;
    let mode = match MODES.get(usize::from(mode)).filter(|_| mode < 5) {
        Some(name) => name.to_string(),
        None => format!("mode {mode}"),
    };
    let key = u16::from_be_bytes([high, low]);
    let act = if direction == 0 { "encrypt" } else { "decrypt" };
    let size = at.checked_add(9)?.checked_add(usize::try_from(length).ok()?)?;
    Some(Recorded { call: format!("{act} with {mode} under key {key}"), key, number, length, size })
}

/// "4 InvalidTag with 0 bytes"
fn answered(number: usize, length: u64) -> String {
    format!("{} with {}", answer_name(number), bytes(length))
}

/// "0 done", "4 InvalidTag"
fn answer_name(number: usize) -> String {
    match u32::try_from(number).ok().and_then(Refusal::with_number) {
        Some(refusal) => format!("{number} {}", refusal.name()),
        None if number == 0 => "0 done".to_string(),
        None => number.to_string(),
    }
}

/// What has been added up of a journal.
struct Sum {
    report: Report,
    /// The first record that differs: which it is, where it begins, and what is different.
    first: Option<(u64, u64, String)>,
    /// The refusal of a record, where it begins, and whose key it has.
    stopped: Option<(Refusal, u64, u16)>,
}

impl Sum {
    /// Adds the report of a portion that begins at a place of the journal.
    fn add(&mut self, report: &Report, keys: &[&Key], portion: &[u8], place: u64) {
        let sum = &mut self.report;
        if let (None, Some(first)) = (&self.first, report.first_difference) {
            let told = portion.get(first.place..).map_or(String::new(), |record| different(keys, record));
            let record = sum.records.saturating_add(first.record).saturating_add(1);
            self.first = Some((record, place.saturating_add(first.place as u64), told));
        }
        let counts = [&mut sum.records, &mut sum.bytes_in, &mut sum.bytes_out].into_iter();
        let counts = counts.chain(&mut sum.by_mode).chain(&mut sum.by_answer);
        let more = [&report.records, &report.bytes_in, &report.bytes_out].into_iter();
        let more = more.chain(&report.by_mode).chain(&report.by_answer);
        counts.zip(more).for_each(|(to, n)| *to = to.saturating_add(*n));
    }
}

/// What was recorded, and what it is now.
fn different(keys: &[&Key], record: &[u8]) -> String {
    let was = match recorded(record) {
        Some(was) => was,
        None => return String::new(),
    };
    let now = record.get(..was.size).and_then(|record| replay(keys, record).ok());
    let (number, length) = now
        .map_or((0, 0), |report| (report.by_answer.iter().position(|count| *count > 0).unwrap_or(0), report.bytes_out));
    let then = answered(usize::from(was.number), u64::from(was.length));
    let is_alike = (usize::from(was.number), u64::from(was.length)) == (number, length);
    let now = if is_alike { "with other bytes".to_string() } else { answered(number, length) };
    format!("{} was answered {then}, and is now answered {now}", was.call)
}

/// A journal as it is read: a window on it, and where that stands.
struct Journal<'a> {
    source: Source,
    progress: Progress,
    window: Secret,
    filled: usize,
    /// Where the window begins in the journal.
    place: u64,
    is_at_end: bool,
    keys: &'a [&'a Key],
}

impl Journal<'_> {
    /// Fills the window up, as far as the journal goes.
    fn fill(&mut self) -> Result<(), Fail> {
        while !self.is_at_end && self.filled < self.window.len() {
            let n = self.source.some(self.window.get_mut(self.filled..).unwrap_or_default())?;
            self.is_at_end = n == 0;
            self.filled += n;
            self.progress.at(self.place.saturating_add(self.filled as u64));
        }
        Ok(())
    }

    /// Goes on to a place of the window, which becomes its front.
    fn go_on(&mut self, at: usize) {
        let at = at.min(self.filled);
        self.window.copy_within(at..self.filled, 0);
        self.filled -= at;
        self.place = self.place.saturating_add(at as u64);
    }

    /// The bytes of the window.
    fn held(&self) -> &[u8] {
        self.window.get(..self.filled).unwrap_or_default()
    }

    /// Replays all of it, and adds to the sum of nothing.
    fn run(&mut self, mut sum: Sum) -> Result<Sum, Fail> {
        loop {
            self.fill()?;
            let (report, at, refusal) = match replay(self.keys, self.held()) {
                Ok(report) => (report, self.filled, None),
                Err(stopped) => (*stopped.report, stopped.place, Some(stopped.refusal)),
            };
            sum.add(&report, self.keys, self.held(), self.place);
            self.go_on(at);
            let is_cut = refusal.map_or(true, |refusal| refusal == Refusal::BadRecord) && !self.is_at_end;
            let refusal = match refusal {
                _ if is_cut && self.filled < LONGEST_RECORD => continue,
                None => return Ok(sum),
                Some(refusal) => refusal,
            };
            let (place, key) = (self.place, recorded(self.held()).map_or(0, |record| record.key));
            // a record that is whole in no window is too long, if it is whole in the journal
            let is_long = is_cut && matches!(self.held().get(..3), Some(b"TR\0" | b"TR\x01")) && self.passes_over()?;
            sum.stopped = Some((if is_long { Refusal::PartTooLong } else { refusal }, place, key));
            return Ok(sum);
        }
    }

    /// Whether the record in front is whole, by the lengths that its parts state. It is passed over.
    fn passes_over(&mut self) -> Result<bool, Fail> {
        // what stands before each part's length
        for before in [6, 0, 0, 5] {
            let is_there = self.passes(before)?;
            self.fill()?;
            match length_at(self.held(), 0).filter(|_| is_there) {
                Some(length) if self.passes(4 + u64::from(length))? => {}
                _ => return Ok(false),
            }
        }
        Ok(true)
    }

    /// Goes on by so many bytes, and says whether there were as many.
    fn passes(&mut self, mut n: u64) -> Result<bool, Fail> {
        while n > 0 {
            self.fill()?;
            let step = usize::try_from(n).unwrap_or(usize::MAX).min(self.filled);
            if step == 0 {
                return Ok(false);
            }
            self.go_on(step);
            n -= step as u64;
        }
        Ok(true)
    }
}

pub fn run(line: &Line) -> Result<u8, Fail> {
    let word = line.word(Thing::In);
    let name = input(word);
    let keys = match line.value(Thing::Keys) {
        Some(_) => keys::listed(line, &name)?.into_iter().map(Into::into).collect(),
        None => vec![keys::read(line, &name)?.key],
    };
    let keys: Vec<&Key> = keys.iter().map(AsRef::as_ref).collect();
    let source = Source::open(word, "")?;
    let progress = Progress::new(line.start(), source.size(), true);
    let window = Secret(vec![0; WINDOW]);
    let mut journal = Journal { source, progress, window, filled: 0, place: 0, is_at_end: false, keys: &keys };
    // the report of no record, to which the others are added
    let none = replay(&[], &[]).map_err(|stopped| Fail::refused(stopped.refusal, stopped.to_string()))?;
    let sum = journal.run(Sum { report: none, first: None, stopped: None })?;
    drop(journal);
    let refused = sum.stopped.as_ref().map(|(refusal, place, key)| {
        let record = format!("record {}, which begins at byte {place},", sum.report.records + 1);
        let of_key = format!("{record} is of key {key}, which is not");
        let facts = [("a record is of a key that is not", of_key), ("a record", record)];
        Fail::refused(*refusal, format!("{}{}", line.about(&name), told(*refusal, &facts)))
    });
    let status = match (&refused, &sum.first) {
        (Some(fail), _) => fail.status,
        (None, Some(_)) => DIFFERS,
        (None, None) => 0,
    };
    answer(&if line.says(Thing::Json) {
        as_json(line, &sum, status)
    } else if line.says(Thing::Plain) {
        counts(&sum).iter().map(|(name, n)| format!("{name} {n}\n")).collect()
    } else {
        page(&sum, &name)
    })?;
    match refused {
        // the answer has it already
        Some(fail) => Err(Fail { refusal: None, ..fail }),
        None => Ok(status),
    }
}

/// All counts by their names, always all of them and in one order.
fn counts(sum: &Sum) -> Vec<(String, u64)> {
    let (refusal, place) = sum.stopped.as_ref().map_or((0, 0), |stopped| (stopped.0.number(), stopped.1));
    let (record, byte) = sum.first.as_ref().map_or((0, 0), |first| (first.0, first.1));
    let sum = &sum.report;
    let refused = if refusal == 0 { 0 } else { sum.records.saturating_add(1) };
    let mut counts = vec![("records".to_string(), sum.records)];
    counts.extend(MODES.iter().zip(sum.by_mode).map(|(name, n)| (format!("mode-{name}"), n)));
    // those that no refusal has yet are left out
    let known = (0..).zip(sum.by_answer).filter(|(number, _)| *number == 0 || Refusal::with_number(*number).is_some());
    counts.extend(known.map(|(number, n)| (format!("answer-{number}"), n)));
    let names = "bytes-in bytes-out different-record different-byte refusal refused-record refused-byte";
    let last = [sum.bytes_in, sum.bytes_out, record, byte, u64::from(refusal), refused, place];
    counts.extend(names.split(' ').map(String::from).zip(last));
    counts
}

/// The same as one object, whose names have _ for the dash.
fn as_json(line: &Line, sum: &Sum, status: u8) -> String {
    let field = |(name, n): &(String, u64)| format!(",\"{}\":{n}", name.replace('-', "_"));
    let fields: String = counts(sum).iter().filter(|count| count.0 != "refusal").map(field).collect();
    line.object(status, sum.stopped.as_ref().map(|stopped| stopped.0), &fields)
}

/// A number with a comma after each third digit from the right.
fn grouped(n: u64) -> String {
    let digits = n.to_string();
    let comma = |(at, digit): (usize, char)| {
        let is_after = at > 0 && (digits.len() - at) % 3 == 0;
        is_after.then_some(',').into_iter().chain([digit])
    };
    digits.chars().enumerate().flat_map(comma).collect()
}

/// A page for a person: a table, and whether the records agree.
fn page(Sum { report: sum, first, stopped }: &Sum, name: &str) -> String {
    let row = |n: u64, name: &str| format!("{:>16}  {name}\n", grouped(n));
    let mut page = format!("Replay of {name}\n\n{}\n", row(sum.records, "records"));
    page.extend(MODES.iter().zip(sum.by_mode).map(|(name, n)| row(n, name)));
    if sum.records > 0 {
        page.push('\n');
    }
    let answers = sum.by_answer.iter().enumerate().filter(|answer| *answer.1 > 0);
    page.extend(answers.map(|(number, n)| row(*n, &answer_name(number))));
    page += &format!("\n{}{}\n", row(sum.bytes_in, "bytes in"), row(sum.bytes_out, "bytes out"));
    let before = if stopped.is_some() { " before the one that was refused" } else { "" };
    page += &match (first, sum.records) {
        (Some((record, byte, told)), _) => {
            let counted = "records are counted from 1, and bytes from 0";
            format!("record {record}, at byte {byte}, is the first that differs: {told}\n{counted}\n")
        }
        (None, 0) => "no record was replayed\n".to_string(),
        (None, 1) => format!("the one record{before} agrees\n"),
        (None, n) => format!("all {n} records{before} agree\n"),
    };
    page
}

#[cfg(test)]
mod tests {
    use super::*;

    #[test]
    fn a_record_says_what_was_asked() {
        let record = b"TR\x01\x04\0\x07\0\0\0\x01a\0\0\0\x02bc\0\0\0\0\0\0\0\x10\x04\0\0\0\x03xyz";
        let read = recorded(record).unwrap();
        assert_eq!(read.call, "decrypt with gcm under key 7");
        assert_eq!((read.key, read.number, read.length, read.size), (7, 4, 3, record.len()));
        for cut in 0..record.len() - 3 {
            assert_eq!(recorded(&record[..cut]), None);
        }
        assert_eq!(recorded(b"TR\0\x02\0\x07\xff\xff\xff\xff"), None);
    }

    #[test]
    fn numbers_have_commas() {
        let all = [0, 999, 1_000, 1_234_567, 1_000_000].map(grouped);
        assert_eq!(all, ["0", "999", "1,000", "1,234,567", "1,000,000"]);
    }

    #[test]
    fn answers_have_names() {
        assert_eq!([0, 4, 21, 99].map(answer_name), ["0 done", "4 InvalidTag", "21 NoShelfRoom", "99"]);
    }
}
