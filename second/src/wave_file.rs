//! Change request M-107, a recording to send by mail: a render's numbers as a WAVE file, and a reader of such files.
//!
//! A number is looked at as a fraction: a binary32 times 2^23 is exact in binary64, so that whole and in range are
//! questions of that product alone. A file is known by its length: there is one heading for it, and it has it or not.

/// The numbers of a refusal.
pub const NO_OUTPUT_NUMBERS: u8 = 13;
pub const TOO_MANY_FRAMES: u8 = 14;
pub const OUTPUT_TOO_SHORT: u8 = 15;
pub const NO_SUCH_FILE: u8 = 28;

pub const HEADING: usize = 44;
pub const MOST_FRAMES: u64 = 1_073_741_814;

const CHANNELS: u16 = 2;
const BYTES_A_FRAME: u16 = 4;
const FRAMES_A_SECOND: u32 = 44_100;

/// The bytes of a file of these numbers, or why there is none. The room is the output's, in bytes.
pub fn write(numbers: &[f32], room: usize) -> Result<Vec<u8>, u8> {
    let levels: Option<Vec<i16>> = numbers.iter().map(|number| level(*number)).collect();
    if let Some(number) = refusal(numbers.len(), levels.is_none(), room) {
        return Err(number);
    }
    let frames = numbers.len() as u64 / 2;
    let data = levels.unwrap_or_default().into_iter().flat_map(i16::to_le_bytes);
    Ok(heading(frames).into_iter().chain(data).collect())
}

/// The 16-bit numbers of a file, two for each frame, or why there are none. The room is in 16-bit numbers.
pub fn read(file: &[u8], room: usize) -> Result<Vec<i16>, u8> {
    let frames = frames_in(file.len()).ok_or(NO_SUCH_FILE)?;
    let (front, data) = file.split_at(HEADING);
    if front != heading(frames) {
        return Err(NO_SUCH_FILE);
    }
    if (room as u64) < 2 * frames {
        return Err(OUTPUT_TOO_SHORT);
    }
    Ok(data.chunks_exact(2).map(|pair| i16::from_le_bytes([pair[0], pair[1]])).collect())
}

/// Why a writer refuses so many numbers, of which one may be no output number, and a room in bytes.
pub fn refusal(count: usize, one_is_none: bool, room: usize) -> Option<u8> {
    let (count, room) = (count as u64, room as u64);
    if count % 2 == 1 || one_is_none {
        return Some(NO_OUTPUT_NUMBERS);
    }
    if count / 2 > MOST_FRAMES {
        return Some(TOO_MANY_FRAMES);
    }
    (room < HEADING as u64 + 4 * (count / 2)).then_some(OUTPUT_TOO_SHORT)
}

/// The 16-bit number of an output number k/2^23: k/256 rounded down, and not above 32,767. Nothing where k is not whole
/// or the number lies outside -1..1; a number that is none is outside as well.
pub fn level(number: f32) -> Option<i16> {
    let k = f64::from(number) * 8_388_608.0;
    let whole = k == k.floor() && (-8_388_608.0..=8_388_608.0).contains(&k);
    whole.then(|| (k / 256.0).floor().min(32_767.0) as i16)
}

/// How many frames a file of this length has, where there is such a length.
pub fn frames_in(length: usize) -> Option<u64> {
    let data = (length as u64).checked_sub(HEADING as u64)?;
    (data % 4 == 0 && data / 4 <= MOST_FRAMES).then_some(data / 4)
}

/// The 44 bytes in front of so many frames, at most the most there may be; little-endian.
pub fn heading(frames: u64) -> Vec<u8> {
    let data = (frames * BYTES_A_FRAME as u64) as u32;
    let bytes_a_second = FRAMES_A_SECOND * BYTES_A_FRAME as u32;
    let format = [
        1u16.to_le_bytes().as_slice(),
        &CHANNELS.to_le_bytes(),
        &FRAMES_A_SECOND.to_le_bytes(),
        &bytes_a_second.to_le_bytes(),
        &BYTES_A_FRAME.to_le_bytes(),
        &16u16.to_le_bytes(),
    ]
    .concat();
    let behind = [b"WAVE", chunk(b"fmt ", format.len() as u32).as_slice(), &format, &chunk(b"data", data)].concat();
    [chunk(b"RIFF", behind.len() as u32 + data), behind].concat()
}

/// A chunk's name and length.
fn chunk(name: &[u8; 4], length: u32) -> Vec<u8> {
    [*name, length.to_le_bytes()].concat()
}
