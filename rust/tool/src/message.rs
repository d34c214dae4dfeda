//! The commands on one file: seal, open, opens, encrypt, decrypt, range and plan.

use crate::files::{Output, Secret, Source, PORTION};
use crate::keys::{self, Held};
use crate::progress::Progress;
use crate::say::{answer, bytes, input, say, shown, told, Fail};
use crate::words::{Line, Thing};
use luossavin::editions::label;
use luossavin::pieces::{Ctr, Seal};
use luossavin::ranges::{ctr_range, Plan};
use luossavin::sm4::cipher_mode::{CipherMode, Sm4CipherMode};
use luossavin::{Direction, Done, Key, Refusal, LONGEST_TEXT};
use std::sync::Arc;

/// A message that is asked for: everything but its bytes.
pub struct Asked<'a> {
    line: &'a Line<'a>,
    /// What refusals are about: the file's name.
    pub name: String,
    mode: CipherMode,
    direction: Direction,
    /// Job and edition, of Gcm.
    pub label: (u32, u16),
    pub iv: Vec<u8>,
    pub iv_file: Secret,
    offset: Option<u64>,
}

/// The key as answers name it: by its number where that was said.
pub fn key_named(line: &Line) -> Option<u16> {
    keys::number(line).ok().filter(|_| line.says(Thing::Number)).and_then(|number| u16::try_from(number).ok())
}

/// "this key and IV", or "key 7 and this IV"
pub fn key_and_iv(line: &Line) -> String {
    key_named(line).map_or("this key and IV".to_string(), |number| format!("key {number} and this IV"))
}

impl<'a> Asked<'a> {
    /// What a line asks for: a stretch in Ctr where it has an offset, the mode that it says, or else Gcm.
    pub fn read(line: &'a Line, direction: Direction) -> Result<Asked<'a>, Fail> {
        keys::number(line)?;
        let mode = match line.value(Thing::Mode).map(|word| (word, word.to_str())) {
            None if line.says(Thing::Offset) => CipherMode::Ctr,
            None => CipherMode::Gcm,
            Some((_, Some("cfb"))) => CipherMode::Cfb,
            Some((_, Some("ofb"))) => CipherMode::Ofb,
            Some((_, Some("ctr"))) => CipherMode::Ctr,
            Some((_, Some("cbc"))) => CipherMode::Cbc,
            Some((word, _)) => return Err(line.wrong(Thing::Mode, word)),
        };
        let label = (line.number(Thing::Job)?.unwrap_or(0), line.number(Thing::Edition)?.unwrap_or(0));
        let offset = line.number(Thing::Offset)?;
        let (iv, iv_file) = keys::iv(line)?;
        let name = line.value(Thing::In).map_or_else(|| shown(line.word(Thing::Shelf)), input);
        Ok(Asked { line, name, mode, direction, label, iv, iv_file, offset })
    }

    /// The label, of which the other modes take no notice.
    fn label_bytes(&self) -> [u8; 6] {
        label(self.label.0, self.label.1)
    }

    /// The most bytes that IN may have.
    fn most(&self) -> usize {
        match (self.mode, self.direction) {
            (CipherMode::Cbc | CipherMode::Gcm, Direction::Decrypt) => LONGEST_TEXT + 16,
            _ => LONGEST_TEXT,
        }
    }

    /// The one call.
    fn call(&self, key: &Arc<Key>, data: &[u8], out: &mut [u8]) -> Result<Done, Refusal> {
        let cipher = Sm4CipherMode::with_key(key.clone(), self.mode);
        match (self.offset, self.direction) {
            (Some(offset), direction) => {
                let offset = usize::try_from(offset).unwrap_or(usize::MAX);
                ctr_range(key, direction, &self.iv, offset, data, out)
            }
            (None, Direction::Encrypt) => cipher.encrypt_into(&self.label_bytes(), data, &self.iv, out),
            (None, Direction::Decrypt) => cipher.decrypt_into(&self.label_bytes(), data, &self.iv, out),
        }
    }

    /// Reads the key. A wrong key or IV is reported before IN is read.
    pub fn key(&self) -> Result<Held, Fail> {
        let held = keys::read(self.line, &self.name)?;
        keys::warn(self.line, &held, &self.iv);
        match self.call(&held.key, &[], &mut [0; 16]) {
            Err(refusal @ (Refusal::WrongIv | Refusal::Retired | Refusal::TooLong)) => Err(self.refuse(refusal, 0)),
            _ => Ok(held),
        }
    }

    /// The result of a message.
    pub fn work(&self, key: &Arc<Key>, data: &[u8]) -> Result<(Secret, Done), Fail> {
        let room = match self.direction {
            Direction::Encrypt => self.mode.room_to_encrypt(data.len()),
            Direction::Decrypt => self.mode.room_to_decrypt(data.len()),
        };
        let mut out = Secret(vec![0; room.min(LONGEST_TEXT + 16)]);
        let done = self.call(key, data, &mut out).map_err(|refusal| self.refuse(refusal, data.len()))?;
        out.shorten(done.length);
        Ok((out, done))
    }

    /// What a refusal says of a file of so many bytes.
    pub fn refuse(&self, refusal: Refusal, size: usize) -> Fail {
        let size = bytes(size as u64);
        let begins = format!("this file, which begins at byte {} of its text,", shown(self.line.word(Thing::Offset)));
        let too_long =
            format!("a text has at most {LONGEST_TEXT} bytes, and {begins} ends past that: look at --offset");
        let of_range = self.offset.map(|_| (Refusal::TooLong.sentence(), too_long));
        let retired = key_named(self.line).map_or("this key".to_string(), |number| format!("key {number}"));
        let facts = [
            ("a sealed message has at least 16 bytes", format!("this file has {size}; a sealed file has at least 16")),
            ("this message has another length", format!("this file has {size}")),
            of_range.unwrap_or(("this message, or its label,", "this file".to_string())),
            ("16777216", self.most().to_string()),
            ("this message", "this file".to_string()),
            ("this key is retired", format!("{retired} is retired")),
            ("this key and IV", key_and_iv(self.line)),
            ("this label", format!("job {}, edition {}", self.label.0, self.label.1)),
            keys::iv_size(&self.iv, self.mode == CipherMode::Gcm),
        ];
        Fail::refused(refusal, format!("{}{}", self.line.about(&self.name), told(refusal, &facts)))
    }

    /// Warns if the counter came round. The output is right all the same.
    pub fn warn(&self, done: Done) {
        let next = match (self.mode, self.direction) {
            (CipherMode::Gcm, Direction::Encrypt) => "seal the file anew",
            (CipherMode::Gcm, Direction::Decrypt) => "have the file sealed anew",
            (_, Direction::Encrypt) => "encrypt the file anew",
            (_, Direction::Decrypt) => "have the file encrypted anew",
        };
        if done.came_round {
            let what =
                "under this IV the counter came round to 0, where it may meet another file's; take another IV and";
            say(&format!("{}warning: {what} {next}", self.line.about(&self.name)));
        }
    }

    /// Does the work: reads IN, makes one call, and writes OUT if it is done. Only seal and Ctr stream, and only from a
    /// pipe to a pipe.
    fn run(&self) -> Result<u8, Fail> {
        let held = self.key()?;
        let mut source = Source::open(self.line.word(Thing::In), "")?;
        let is_text = self.direction == Direction::Decrypt;
        let output = Output::look(self.line, is_text, &[("key", &held.file), ("IV", &self.iv_file)])?;
        let mut progress = Progress::new(self.line.start(), source.size(), !(is_text && output.is_terminal));
        let has_pieces = self.offset.is_none()
            && matches!((self.mode, self.direction), (CipherMode::Ctr, _) | (CipherMode::Gcm, Direction::Encrypt));
        let done = if has_pieces && source.size().is_none() && output.is_straight() {
            self.stream(&held.key, &mut source, &output, &mut progress)?
        } else {
            let data = source.read(self.most(), &mut progress)?;
            drop(progress);
            let (out, done) = self.work(&held.key, &data)?;
            output.write(&out)?;
            done
        };
        self.warn(done);
        Ok(0)
    }

    /// Reads IN, all of it, and shows how far that is.
    pub fn data(&self) -> Result<Secret, Fail> {
        let mut source = Source::open(self.line.word(Thing::In), "")?;
        let mut progress = Progress::new(self.line.start(), source.size(), true);
        source.read(self.most(), &mut progress)
    }

    /// Asks whether IN opens, and hands its sealed bytes back. The text is made, and dropped.
    pub fn ask(&self, held: &Held) -> Result<Secret, Fail> {
        let sealed = self.data()?;
        let (_, done) = self.work(&held.key, &sealed)?;
        self.warn(done);
        Ok(sealed)
    }

    /// Streaming: each piece is written as it comes.
    fn stream(&self, key: &Key, source: &mut Source, output: &Output, progress: &mut Progress) -> Result<Done, Fail> {
        let mut pieces = match self.mode {
            CipherMode::Gcm => Seal::start(key, &self.label_bytes(), &self.iv).map(Pieces::Seal),
            _ => Ctr::start(key, self.direction, &self.iv).map(Pieces::Ctr),
        }
        .map_err(|refusal| self.refuse(refusal, 0))?;
        let mut to = output.straight()?;
        let (mut held, mut made) = (Secret(vec![0; PORTION]), Secret(vec![0; PORTION]));
        let mut total: u64 = 0;
        let mut step = || -> Result<usize, Fail> {
            let n = source.some(&mut held)?;
            let (data, out) = (held.get(..n).unwrap_or_default(), made.get_mut(..n).unwrap_or_default());
            match &mut pieces {
                Pieces::Seal(seal) => seal.piece(data, out),
                Pieces::Ctr(ctr) => ctr.piece(data, out),
            }
            .map_err(|refusal| self.refuse(refusal, 0))?;
            output.put(&mut to, out)?;
            Ok(n)
        };
        loop {
            match step() {
                Ok(0) => break,
                Ok(n) => total += n as u64,
                Err(fail) => return Err(if total > 0 { output.not_whole(fail) } else { fail }),
            }
            progress.at(total);
        }
        let ended = match pieces {
            Pieces::Seal(seal) => seal.end().map(|(tag, done)| (tag.to_vec(), done)),
            Pieces::Ctr(ctr) => ctr.end().map(|done| (Vec::new(), done)),
        };
        let (tag, done) = ended.map_err(|refusal| output.not_whole(self.refuse(refusal, 0)))?;
        output.put(&mut to, &tag).map(|()| done)
    }
}

enum Pieces {
    Seal(Seal),
    Ctr(Ctr),
}

/// The commands seal and encrypt.
pub fn encrypt(line: &Line) -> Result<u8, Fail> {
    Asked::read(line, Direction::Encrypt)?.run()
}

/// The commands open and decrypt.
pub fn decrypt(line: &Line) -> Result<u8, Fail> {
    Asked::read(line, Direction::Decrypt)?.run()
}

pub fn range(line: &Line) -> Result<u8, Fail> {
    let act = if line.says(Thing::Decrypt) { decrypt } else { encrypt };
    act(line)
}

/// Says whether IN opens.
pub fn opens(line: &Line) -> Result<u8, Fail> {
    let asked = Asked::read(line, Direction::Decrypt)?;
    let held = asked.key()?;
    asked.ask(&held)?;
    answer(&opened(line, 0, asked.label.0, asked.label.1, ""))
}

/// The answer that IN opens under a job and an edition, with more behind it.
pub fn opened(line: &Line, status: u8, job: u32, edition: u16, more: &str) -> String {
    let key = key_named(line);
    if line.says(Thing::Json) {
        let key = key.map_or("null".to_string(), |key| key.to_string());
        let more = format!(",\"opens\":true,\"job\":{job},\"edition\":{edition},\"key\":{key}{more}");
        return line.object(status, None, &more);
    }
    let with = key.map_or(String::new(), |key| format!(", with key {key}"));
    format!("{} opens under job {job}, edition {edition}{with}{more}\n", input(line.word(Thing::In)))
}

/// Prints a plan.
pub fn plan(line: &Line) -> Result<u8, Fail> {
    let (workers, length) = (line.number(Thing::Workers)?, line.number(Thing::Length)?);
    let plan = Plan::make(length.unwrap_or(0), workers.unwrap_or(0)).map_err(|refusal| {
        let length = format!("a text has at most {LONGEST_TEXT} bytes, not {}", shown(line.word(Thing::Length)));
        let workers = format!("64 workers, not {}", shown(line.word(Thing::Workers)));
        let facts = [(Refusal::TooLong.sentence(), length), ("64 workers", workers)];
        Fail::refused(refusal, format!("{}{}", line.start(), told(refusal, &facts)))
    })?;
    let piece = |piece: std::ops::Range<usize>| format!("{} {}\n", piece.start, piece.len());
    answer(&plan.pieces().map(piece).collect::<String>())
}

#[cfg(test)]
mod tests {
    use super::*;
    use crate::words::COMMANDS;

    fn refused(command: &str, words: &str, refusal: Refusal, size: usize) -> String {
        let command = COMMANDS.iter().find(|known| known.name == command).unwrap();
        let words: Vec<_> = words.split(' ').map(Into::into).collect();
        let line = Line::read(command, &words, "luossavin").map_err(|fail| fail.text).unwrap();
        Asked::read(&line, Direction::Decrypt).map_err(|fail| fail.text).unwrap().refuse(refusal, size).text
    }

    #[test]
    fn a_refusal_says_what_is_known_of_the_file() {
        let open = "--key k --iv 00 --job 4711 --edition 2 a.sealed a.txt";
        let told = |refusal, size| refused("open", open, refusal, size);
        assert_eq!(
            told(Refusal::InvalidTag, 99),
            "luossavin open: a.sealed: 4 InvalidTag: this file was not sealed under job 4711, edition 2, with this key \
             and IV, or it was changed since; `luossavin which` says which edition it is"
        );
        assert_eq!(
            told(Refusal::ShortGcm { missing: 1 }, 15),
            "luossavin open: a.sealed: 9 ShortGcm: this file has 15 bytes; a sealed file has at least 16, so 1 is \
             missing: was it cut off?"
        );
        assert!(told(Refusal::WrongIv, 0)
            .ends_with("10 WrongIv: the IV has 1 byte, not 12 or 16: it takes 24 or 32 hex digits"));
        assert!(told(Refusal::TooLong, 0).contains("this file is longer than the 16777232 bytes"));
        let decrypt = "--mode cbc --key k --number 7 --iv 00 a b";
        assert!(refused("decrypt", decrypt, Refusal::InvalidPadding, 32).ends_with("with cbc, key 7 and this IV"));
        assert!(refused("decrypt", decrypt, Refusal::ErrorDataLen, 17).contains("this file has 17 bytes, and cbc"));
        assert!(refused("decrypt", decrypt, Refusal::Retired, 0).contains("key 7 is retired: old files"));
        let range = refused("range", "--key k --iv 00 --offset 99999999999999999999 a b", Refusal::TooLong, 0);
        assert!(range.contains("begins at byte 99999999999999999999 of its text"), "{range}");
    }
}
