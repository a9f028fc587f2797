//! The words behind a command: files, options with a value, and flags.

use crate::help;
use crate::stop::Stop;
use std::ffi::{OsStr, OsString};
use std::os::unix::ffi::{OsStrExt, OsStringExt};
use std::path::PathBuf;

/// What a command takes: its options with a value, and its flags. Each has a long name; `-o` and `-f` are short ones.
pub struct Form {
    pub command: &'static str,
    pub options: &'static [&'static str],
    pub flags: &'static [&'static str],
}

pub struct Words {
    pub files: Vec<PathBuf>,
    options: Vec<(&'static str, OsString)>,
    flags: Vec<&'static str>,
}

impl Form {
    /// None where help was asked for, which is said then.
    pub fn read(&self, words: &[OsString]) -> Result<Option<Words>, Stop> {
        let mut read = Words { files: Vec::new(), options: Vec::new(), flags: Vec::new() };
        let mut left = words.iter();
        while let Some(word) = left.next() {
            match word.to_str() {
                Some("--help" | "-h") => return help::say_known(self.command).map(|()| None),
                Some("--") => read.files.extend(left.by_ref().map(PathBuf::from)),
                _ if word.as_bytes().starts_with(b"-") && word != "-" => self.option(word, &mut left, &mut read)?,
                _ => read.files.push(PathBuf::from(word)),
            }
        }
        Ok(Some(read))
    }

    /// An option with the value behind it, or a flag.
    fn option<'a>(
        &self,
        word: &OsStr,
        left: &mut impl Iterator<Item = &'a OsString>,
        read: &mut Words,
    ) -> Result<(), Stop> {
        let (name, value) = parts(word);
        let name = name.to_string_lossy().into_owned();
        if let Some(flag) = self.flags.iter().find(|flag| **flag == name) {
            return match value {
                None => Ok(read.flags.push(flag)),
                Some(_) => Err(Stop::wrong_use(&format!("{name} takes no value"))),
            };
        }
        let Some(option) = self.options.iter().find(|option| **option == name) else {
            return Err(Stop::wrong_use(&format!("{} has no option {name}", self.command)));
        };
        if read.options.iter().any(|(before, _)| before == option) {
            return Err(Stop::wrong_use(&format!("{name} stands there twice")));
        }
        match value.or_else(|| left.next().cloned()) {
            Some(value) => Ok(read.options.push((option, value))),
            None => Err(Stop::wrong_use(&format!("{name} needs a value"))),
        }
    }
}

/// An option's long name, and the value in the same word, where there is one: `--tail=9`, `-oFILE`.
fn parts(word: &OsStr) -> (OsString, Option<OsString>) {
    let bytes = word.as_bytes();
    if bytes.starts_with(b"--") {
        return match bytes.iter().position(|byte| *byte == b'=') {
            Some(at) => (OsString::from_vec(bytes[..at].to_vec()), Some(OsString::from_vec(bytes[at + 1..].to_vec()))),
            None => (word.to_owned(), None),
        };
    }
    let (short, rest) = bytes.split_at(bytes.len().min(2));
    let name = match short {
        b"-o" => b"--output".to_vec(),
        b"-f" => b"--force".to_vec(),
        _ => bytes.to_vec(),
    };
    let value = if name == bytes || rest.is_empty() { None } else { Some(OsString::from_vec(rest.to_vec())) };
    (OsString::from_vec(name), value)
}

impl Words {
    pub fn has(&self, flag: &str) -> bool {
        self.flags.contains(&flag)
    }

    pub fn value(&self, option: &str) -> Option<&OsStr> {
        self.options.iter().find(|(name, _)| *name == option).map(|(_, value)| value.as_os_str())
    }

    /// A file's name.
    pub fn path(&self, option: &str) -> Option<PathBuf> {
        self.value(option).map(PathBuf::from)
    }

    /// `--tail`: whole seconds, 30 unless it is said, at most an hour; in frames.
    pub fn tail(&self) -> Result<u32, Stop> {
        let Some(word) = self.value("--tail") else { return Ok(30 * 44_100) };
        match word.to_str().and_then(|word| word.parse::<u32>().ok()) {
            Some(seconds @ 0..=3_600) => Ok(seconds * 44_100),
            _ => Err(Stop::wrong_use("--tail is a whole number of seconds, 0 to 3,600")),
        }
    }

    /// `--gain`: 0 or below, in dB with one digit behind the point; as an attenuation in tenths of a dB.
    pub fn attenuation(&self) -> Result<u16, Stop> {
        let Some(word) = self.value("--gain") else { return Ok(0) };
        word.to_str().and_then(attenuation_of).ok_or_else(|| {
            Stop::wrong_use("--gain is 0 or below, down to -144, in dB with at most one digit behind the point")
        })
    }
}

/// `-7.5` is 75.
fn attenuation_of(word: &str) -> Option<u16> {
    let (below, size) = match word.strip_prefix('-') {
        Some(size) => (true, size),
        None => (false, word),
    };
    let (whole, tenth) = size.split_once('.').unwrap_or((size, "0"));
    let digits = |text: &str| !text.is_empty() && text.bytes().all(|byte| byte.is_ascii_digit());
    if !digits(whole) || !digits(tenth) || tenth.len() != 1 || whole.len() > 3 {
        return None;
    }
    let tenths = whole.parse::<u16>().ok()? * 10 + tenth.parse::<u16>().ok()?;
    (tenths == 0 || (below && tenths <= 1_440)).then_some(tenths)
}

#[cfg(test)]
mod tests {
    use super::*;

    #[test]
    fn gains() {
        for (word, tenths) in [("0", 0), ("-0", 0), ("0.0", 0), ("-7", 70), ("-7.5", 75), ("-0.1", 1), ("-144", 1_440)]
        {
            assert_eq!(attenuation_of(word), Some(tenths), "{word}");
        }
        for word in ["", "-", "7", "0.1", "-144.1", "-7.55", "-7.", "-.5", "-1e1", "- 7", "loud", "-99999"] {
            assert_eq!(attenuation_of(word), None, "{word}");
        }
    }

    #[test]
    fn words_of_options() {
        let form = Form { command: "render", options: &["--output", "--tail"], flags: &["--force"] };
        let words = |line: &str| line.split(' ').map(OsString::from).collect::<Vec<_>>();
        let read = form.read(&words("a.sf2 -o out.wav --tail=9 -f -- -b.mid")).unwrap().unwrap();
        assert_eq!(read.files, [PathBuf::from("a.sf2"), PathBuf::from("-b.mid")]);
        assert_eq!(read.path("--output"), Some(PathBuf::from("out.wav")));
        assert_eq!(read.tail().unwrap(), 9 * 44_100);
        assert!(read.has("--force"));
        for wrong in ["--loud", "--tail", "--force=yes", "-o a -o b", "-x"] {
            assert!(form.read(&words(wrong)).is_err(), "{wrong}");
        }
    }
}
