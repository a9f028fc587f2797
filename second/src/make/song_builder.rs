//! Writes Standard MIDI Files piece by piece, right or wrong.

/// A file with its name. The name is for whoever reads the maker; the form of songs has no room for it.
pub type Named = (String, Vec<u8>);

pub fn named(name: &str, file: Vec<u8>) -> Named {
    (name.to_string(), file)
}

// Chunks

pub fn chunk(name: &[u8; 4], body: &[u8]) -> Vec<u8> {
    chunk_that_says(name, body.len() as u32, body)
}

/// A chunk whose length field need not be its body's length.
pub fn chunk_that_says(name: &[u8; 4], length: u32, body: &[u8]) -> Vec<u8> {
    [name, length.to_be_bytes().as_slice(), body].concat()
}

/// The six bytes of a head.
pub fn head_fields(format: u16, tracks: u16, division: u16) -> Vec<u8> {
    [format, tracks, division].iter().flat_map(|field| field.to_be_bytes()).collect()
}

pub fn head(format: u16, tracks: u16, division: u16) -> Vec<u8> {
    chunk(b"MThd", &head_fields(format, tracks, division))
}

/// Where the track's first byte lies in a song.
pub const TRACK: usize = 22;

/// A file of a head and one track, of which all is right but perhaps the track's bytes.
pub fn song(division: u16, track: &[u8]) -> Vec<u8> {
    [head(0, 1, division), chunk(b"MTrk", track)].concat()
}

/// A file with another byte at a place.
pub fn with(mut file: Vec<u8>, place: usize, byte: u8) -> Vec<u8> {
    file[place] = byte;
    file
}

// Events

/// A variable-length quantity in as few bytes as it needs.
pub fn quantity(value: u32) -> Vec<u8> {
    let needed = (1..4).find(|bytes| value >> (7 * bytes) == 0).unwrap_or(4);
    quantity_in(value, needed)
}

/// The same in so many bytes; those in front have no value.
pub fn quantity_in(value: u32, bytes: usize) -> Vec<u8> {
    let seven = |byte: usize| (value as u64 >> (7 * byte)) as u8 & 0x7f;
    (0..bytes).rev().map(|byte| seven(byte) | if byte > 0 { 0x80 } else { 0 }).collect()
}

pub const LARGEST_QUANTITY: u32 = 0x0fff_ffff;

pub const NOTE: [u8; 3] = [0x90, 60, 64];
pub const END: [u8; 3] = [0xff, 0x2f, 0];

/// An end of track with its delta time, which is 0.
pub const END_NOW: [u8; 4] = [0, 0xff, 0x2f, 0];

pub fn meta(kind: u8, said: &[u8]) -> Vec<u8> {
    [&[0xff, kind], quantity(said.len() as u32).as_slice(), said].concat()
}

pub fn tempo(micros: u32) -> Vec<u8> {
    meta(0x51, &micros.to_be_bytes()[1..])
}

/// A system exclusive event, or the other kind that begins with F7.
pub fn exclusive(status: u8, said: &[u8]) -> Vec<u8> {
    [&[status], quantity(said.len() as u32).as_slice(), said].concat()
}

/// The bytes of a track, event by event.
#[derive(Clone, Default)]
pub struct Piece {
    pub bytes: Vec<u8>,
}

impl Piece {
    /// An event so many ticks behind the one before it.
    pub fn then(self, delta: u32, event: &[u8]) -> Piece {
        self.raw(&quantity(delta)).raw(event)
    }

    /// Bytes as they are.
    pub fn raw(mut self, bytes: &[u8]) -> Piece {
        self.bytes.extend_from_slice(bytes);
        self
    }

    /// So many ticks without a sound, by empty texts where one delta time cannot say them all. They end running status.
    pub fn wait(mut self, mut ticks: u64) -> Piece {
        while ticks > 0 {
            let delta = ticks.min(LARGEST_QUANTITY as u64);
            self = self.then(delta as u32, &meta(1, b""));
            ticks -= delta;
        }
        self
    }

    /// A song of 96 ticks a beat, ended behind these events.
    pub fn song(self) -> Vec<u8> {
        self.song_of(96)
    }

    pub fn song_of(self, division: u16) -> Vec<u8> {
        song(division, &self.then(0, &END).bytes)
    }
}
