//! Why the command ends before it is done: one line, and the status that a shell sees.

use std::io::{Error, ErrorKind};
use std::process::ExitCode;

#[derive(Debug)]
pub enum Stop {
    /// The words on the command line are wrong: status 2.
    Use(String),
    /// A file is refused, or cannot be read or written: status 1.
    Refused(String),
    /// What is refused has been said already: status 1.
    Said,
    /// Whoever read the output has seen enough: status 0.
    Enough,
}

impl Stop {
    pub fn wrong_use(why: &str) -> Stop {
        Stop::Use(format!("{why} (thularek --help says how it is used)"))
    }

    /// What is wrong with a file.
    pub fn of(name: &str, why: &str) -> Stop {
        Stop::Refused(format!("{name}: {why}"))
    }

    /// What the system says of a file.
    pub fn system(name: &str, error: &Error) -> Stop {
        let words = match error.kind() {
            ErrorKind::NotFound => "there is no such file".to_string(),
            ErrorKind::PermissionDenied => "this may not be read or written".to_string(),
            ErrorKind::StorageFull => "the disk is full".to_string(),
            ErrorKind::OutOfMemory => "there is not enough memory for it".to_string(),
            ErrorKind::IsADirectory => "this is a folder".to_string(),
            _ => error.to_string(),
        };
        Stop::of(name, &words)
    }

    pub fn line(&self) -> Option<&str> {
        match self {
            Stop::Use(line) | Stop::Refused(line) => Some(line),
            Stop::Said | Stop::Enough => None,
        }
    }

    pub fn status(&self) -> ExitCode {
        ExitCode::from(match self {
            Stop::Use(_) => 2,
            Stop::Refused(_) | Stop::Said => 1,
            Stop::Enough => 0,
        })
    }
}

/// A number in groups of three digits.
pub fn grouped(number: u64) -> String {
    let digits = number.to_string();
    let mut groups: Vec<&str> = Vec::new();
    let mut rest = digits.as_str();
    while rest.len() > 3 {
        let (front, group) = rest.split_at(rest.len() - 3);
        groups.push(group);
        rest = front;
    }
    groups.push(rest);
    groups.reverse();
    groups.join(",")
}

/// So many things, in words: `one` where there is one of them.
pub fn counted(number: u64, one: &str, many: &str) -> String {
    format!("{} {}", grouped(number), if number == 1 { one } else { many })
}

/// Frames as seconds, rounded down to a thousandth.
pub fn seconds(frames: u64) -> String {
    let thousandths = frames * 10 / 441;
    format!("{}.{:03} seconds", grouped(thousandths / 1_000), thousandths % 1_000)
}

#[cfg(test)]
mod tests {
    use super::*;

    #[test]
    fn numbers_in_groups() {
        for (number, words) in
            [(0, "0"), (999, "999"), (1_000, "1,000"), (12_345, "12,345"), (4_294_967_295, "4,294,967,295")]
        {
            assert_eq!(grouped(number), words);
        }
    }

    #[test]
    fn frames_as_seconds() {
        assert_eq!(seconds(44_100), "1.000 seconds");
        assert_eq!(seconds(44_099), "0.999 seconds");
        assert_eq!(seconds(0), "0.000 seconds");
        assert_eq!(seconds(158_760_000), "3,600.000 seconds");
    }

    #[test]
    fn one_and_many() {
        assert_eq!(counted(1, "note", "notes"), "1 note");
        assert_eq!(counted(2_000, "note", "notes"), "2,000 notes");
    }
}
