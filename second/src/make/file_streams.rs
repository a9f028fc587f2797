//! Inputs of files behind their lengths that are themselves damaged, each by itself: `songs` and `fonts` read this form,
//! and `merges` with an output's length behind that of each file.

use super::song_builder::Named;
use crate::case::SONG_ROOM;

/// What the files of an input are called, what stands between a length and its file, a good file, one that is refused,
/// and a byte for those that only say a length.
pub struct Files {
    pub name: &'static str,
    pub between: Vec<u8>,
    pub good: Vec<u8>,
    pub refused: Vec<u8>,
    pub byte: u8,
}

impl Files {
    fn good(&self) -> Vec<u8> {
        self.file(&self.good)
    }

    /// A file as it stands in the input.
    fn file(&self, bytes: &[u8]) -> Vec<u8> {
        [self.front(bytes.len() as u32).as_slice(), bytes].concat()
    }

    /// What stands in front of a file of a length.
    fn front(&self, length: u32) -> Vec<u8> {
        [length.to_le_bytes().as_slice(), &self.between].concat()
    }

    /// A file that says a length, behind a good one; so many of its bytes are there.
    fn says(&self, length: u32, have: usize) -> Vec<u8> {
        [self.good(), self.front(length), vec![self.byte; have]].concat()
    }

    /// Inputs that end with `bad`, and those that just do not.
    pub fn damaged(&self) -> Vec<Named> {
        let (good, name, room) = (self.good(), self.name, SONG_ROOM as usize);
        let list = vec![
            ("empty".to_string(), vec![]),
            (format!("one-{name}"), good.clone()),
            (format!("empty-{name}"), self.file(&[])),
            (format!("no-{name}-behind-empty"), [self.file(&[]), vec![0]].concat()),
            ("most-length".to_string(), self.says(SONG_ROOM, room)),
            ("most-length-cut".to_string(), self.says(SONG_ROOM, room - 1)),
            ("large".to_string(), self.says(SONG_ROOM + 1, 0)),
            ("large-whole".to_string(), [self.says(SONG_ROOM + 1, room + 1), good.clone()].concat()),
            ("large-65536-more".to_string(), self.says(SONG_ROOM + 65_536, 100)),
            ("large-signed".to_string(), self.says(0x8000_0000, 100)),
            ("large-most".to_string(), self.says(u32::MAX, 100)),
            ("large-first".to_string(), [u32::MAX.to_le_bytes().to_vec(), good.clone()].concat()),
            ("nothing-behind".to_string(), [self.says(SONG_ROOM + 1, 0), good.clone(), good.clone()].concat()),
            ("refused-then-cut".to_string(), [self.file(&self.refused), good[..20].to_vec()].concat()),
        ];
        list.into_iter().chain(self.cut_off()).collect()
    }

    /// An input cut off in its first file and in its second: in the length, behind it and in the bytes.
    fn cut_off(&self) -> Vec<Named> {
        let (one, two) = (self.good(), [self.good(), self.good()].concat());
        let front = one.len() - self.good.len();
        let file = |length: usize| {
            let part = match length {
                0..=3 => format!("length-{length}"),
                _ if length < front => format!("room-{}", length - 4),
                _ => format!("{}-{}", self.name, length - front),
            };
            let second = two[..one.len() + length].to_vec();
            [(format!("cut-{part}"), one[..length].to_vec()), (format!("second-cut-{part}"), second)]
        };
        (1..=front + 1).chain([one.len() - 1]).flat_map(file).collect()
    }
}
