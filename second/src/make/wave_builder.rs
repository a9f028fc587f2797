//! Writes commands of waves, the binary32 numbers that they have, and WAVE files field by field, right or wrong.

/// A command with its name. The name is for whoever reads the maker; the form of waves has no room for it.
pub type Named = (String, Vec<u8>);

// Commands

/// W: numbers by their bits, and the room for the file in bytes.
pub fn write_command(numbers: &[u32], room: u32) -> Vec<u8> {
    let numbers_with_count = [numbers.len() as u32].into_iter().chain(numbers.iter().copied());
    let fields = numbers_with_count.chain([room]).flat_map(u32::to_le_bytes);
    [b'W'].into_iter().chain(fields).collect()
}

/// R: a file, and the room for 16-bit numbers.
pub fn read_command(file: &[u8], room: u32) -> Vec<u8> {
    [b"R", (file.len() as u32).to_le_bytes().as_slice(), file, &room.to_le_bytes()].concat()
}

// Numbers

/// The bits of k/2^23.
pub fn whole(k: i32) -> u32 {
    halves(2 * k)
}

/// The bits of k/2^24, which is no output number where k is odd.
pub fn halves(k: i32) -> u32 {
    (k as f32 / 16_777_216.0).to_bits()
}

/// The bits of a number with the other sign.
pub fn negative(bits: u32) -> u32 {
    bits ^ 0x8000_0000
}

/// So many output numbers, all different and of both signs.
pub fn ramp(count: usize) -> Vec<u32> {
    (0..count as i32).map(|n| whole((n * 7_919 + 300) % 8_388_608 * if n % 2 == 0 { 1 } else { -1 })).collect()
}

/// The room that so many numbers need, an odd one as if its frame were whole.
pub fn room_for(numbers: usize) -> u32 {
    44 + 4 * numbers.div_ceil(2) as u32
}

// Files

/// The fields of a heading.
#[derive(Clone, Copy)]
pub struct Heading {
    pub riff: [u8; 4],
    pub behind: u32,
    pub wave: [u8; 4],
    pub fmt: [u8; 4],
    pub fmt_size: u32,
    pub format: u16,
    pub channels: u16,
    pub rate: u32,
    pub bytes_a_second: u32,
    pub block: u16,
    pub bits: u16,
    pub data: [u8; 4],
    pub size: u32,
}

impl Heading {
    /// The right one for so many bytes of data.
    pub fn of(data: u32) -> Heading {
        Heading {
            riff: *b"RIFF",
            behind: 36 + data,
            wave: *b"WAVE",
            fmt: *b"fmt ",
            fmt_size: 16,
            format: 1,
            channels: 2,
            rate: 44_100,
            bytes_a_second: 176_400,
            block: 4,
            bits: 16,
            data: *b"data",
            size: data,
        }
    }

    pub fn bytes(&self) -> Vec<u8> {
        [
            self.riff.as_slice(),
            &self.behind.to_le_bytes(),
            &self.wave,
            &self.fmt,
            &self.fmt_size.to_le_bytes(),
            &self.format.to_le_bytes(),
            &self.channels.to_le_bytes(),
            &self.rate.to_le_bytes(),
            &self.bytes_a_second.to_le_bytes(),
            &self.block.to_le_bytes(),
            &self.bits.to_le_bytes(),
            &self.data,
            &self.size.to_le_bytes(),
        ]
        .concat()
    }
}

/// A file with these bytes behind a heading that names their length.
pub fn file_of(data: &[u8]) -> Vec<u8> {
    [Heading::of(data.len() as u32).bytes(), data.to_vec()].concat()
}

/// A file of so many frames, no two bytes near each other alike.
pub fn file(frames: usize) -> Vec<u8> {
    file_of(&(0..4 * frames).map(|n| (n * 37 + n / 256 + 1) as u8).collect::<Vec<u8>>())
}
