//! What the command records is what drive's stored cases say: each song that one of them starts on a bank and samples is
//! recorded by the command, and the second program plays it frame by frame.

use second::bank_admission::admit;
use second::midi_file;
use second::player::Player;
use second::slots_keys_clock::Lent;
use second::tables_and_steps::tables;
use second::wave_file;
use std::collections::BTreeSet;
use std::fs;
use std::path::{Path, PathBuf};
use std::process::Command;

const TAIL: usize = 2;
const RATE: usize = 44_100;

/// A bank, its samples and a song.
#[derive(Clone, Default, PartialEq, Eq, PartialOrd, Ord)]
struct Piece {
    bank: Vec<u8>,
    ram: Vec<i16>,
    song: Vec<u8>,
}

/// The pieces of a case file whose songs are started; a bank with a ROM is none that a SoundFont file has.
fn pieces(case: &[u8]) -> BTreeSet<Piece> {
    let (mut found, mut piece, mut ram, mut rom) = (BTreeSet::new(), Piece::default(), Vec::new(), 0);
    let mut rest = case;
    while let Some((letter, behind)) = rest.split_first() {
        let number =
            behind.get(..4).map_or(0, |four| u32::from_le_bytes([four[0], four[1], four[2], four[3]]) as usize);
        let size = match letter {
            b'B' | b'L' => 4 + number,
            b'M' | b'O' => 4 + 2 * number,
            b't' => 1 + usize::from(behind[0]),
            b'r' | b'V' => 8,
            b'm' | b'x' | b'F' | b'l' | b'j' | b'h' => 4,
            b'n' | b'c' | b'b' => 3,
            b'o' | b'p' => 2,
            b's' => 1,
            b'a' | b'i' | b'd' | b'u' | b'G' | b'H' | b'E' => 0,
            _ => panic!("an unknown letter {letter}"),
        };
        let (body, next) = behind.split_at(size);
        match letter {
            b'B' => piece.bank = body[4..].to_vec(),
            b'L' => piece.song = body[4..].to_vec(),
            b'M' => ram = body[4..].chunks_exact(2).map(|two| i16::from_le_bytes([two[0], two[1]])).collect(),
            b'O' => rom = number,
            b'm' => ram.truncate(number),
            b'G' if rom == 0 => {
                piece.ram = ram.clone();
                found.insert(piece.clone());
            }
            _ => {}
        }
        rest = next;
    }
    found
}

/// Where a song's last event stands, if it can be played and is no longer than ten seconds.
fn last_frame(song: &[u8]) -> Option<usize> {
    let events = midi_file::read(song).ok()?;
    let last = events.last().map_or(0, |event| event.0 as usize);
    (last < 10 * RATE).then_some(last)
}

/// The numbers of a song up to its tail's end, and how many frames there are up to its end: it is over and no voice sounds.
/// Whether a voice that gives nothing sounds on in front of frame `last` cannot be seen from outside.
fn played(piece: &Piece, last: usize) -> (Vec<f32>, Vec<usize>) {
    let bank = admit(&piece.bank);
    let lent = Lent { bank: &bank, ram: &piece.ram, rom: &[] };
    let mut player = Player::fresh(0);
    player.start(tables(), &piece.song).expect("a song that was read");
    let (mut numbers, mut ends) = (Vec::new(), Vec::new());
    while numbers.len() / 2 < last + TAIL * RATE {
        let mut frame = [0.0; 2];
        let clock = player.engine.clock + 1;
        player.render(tables(), &lent, &piece.song, clock, &mut frame).expect("a frame");
        numbers.extend(frame);
        if numbers.len() / 2 > last && player.engine.word() == 0 {
            ends.push(numbers.len() / 2);
            if ends.len() > 1 {
                break;
            }
        }
    }
    let first = ends.first().copied().unwrap_or(last + TAIL * RATE);
    let ends = if first == last + 1 { vec![last, first] } else { vec![first] };
    (numbers, ends)
}

/// A chunk of a RIFF file.
fn chunk(name: &[u8; 4], body: &[u8]) -> Vec<u8> {
    [name.as_slice(), &(body.len() as u32).to_le_bytes(), body, &[0][..body.len() % 2]].concat()
}

fn font(piece: &Piece) -> Vec<u8> {
    let samples: Vec<u8> = piece.ram.iter().flat_map(|sample| sample.to_le_bytes()).collect();
    let list = |kind: &[u8; 4], body: &[u8]| chunk(b"LIST", &[kind.as_slice(), body].concat());
    let lists = [list(b"sdta", &chunk(b"smpl", &samples)), list(b"pdta", &piece.bank)].concat();
    chunk(b"RIFF", &[b"sfbk".as_slice(), &lists].concat())
}

/// Has the command record a piece; the recording's bytes.
fn recorded(room: &Path, piece: &Piece, words: &[&str]) -> Vec<u8> {
    let [bank, song, wave] = ["piece.sf2", "piece.mid", "piece.wav"].map(|name| room.join(name));
    fs::write(&bank, font(piece)).unwrap();
    fs::write(&song, &piece.song).unwrap();
    let tail = TAIL.to_string();
    let done = Command::new(env!("CARGO_BIN_EXE_thularek"))
        .args(["render", "--force", "--tail", &tail, "-o"])
        .args([&wave, &bank, &song])
        .args(words)
        .output()
        .unwrap();
    assert!(done.status.success(), "{}", String::from_utf8_lossy(&done.stderr));
    fs::read(&wave).unwrap()
}

/// A number of the sum lowered by a gain in 2^-24, as 16 bits.
fn lowered(number: f32, gain: i64) -> i16 {
    let sum = (number * 8_388_608.0) as i64;
    let low = (sum * gain).div_euclid(1 << 24);
    low.div_euclid(256).min(32_767) as i16
}

fn room(name: &str) -> PathBuf {
    let room = std::env::temp_dir().join(format!("thularek-{name}-{}", std::process::id()));
    fs::create_dir_all(&room).unwrap();
    room
}

#[test]
fn recordings_are_what_the_cases_say() {
    let case = fs::read(concat!(env!("CARGO_MANIFEST_DIR"), "/../crates/drive/stdin")).unwrap();
    let room = room("cases");
    let (mut count, mut sounding) = (0, 0);
    for piece in pieces(&case) {
        let (Some(last), Ok(_)) = (last_frame(&piece.song), admit(&piece.bank)) else { continue };
        let (numbers, ends) = played(&piece, last);
        let file = recorded(&room, &piece, &[]);
        let frames = (file.len() - 44) / 4;
        assert!(ends.contains(&frames), "{frames} frames and not {ends:?}");
        assert!(file == wave_file::write(&numbers[..2 * frames], usize::MAX).unwrap(), "another recording");
        let soft = recorded(&room, &piece, &["--gain", "-7.5"]);
        if numbers.iter().all(|number| number.abs() < 1.0) {
            let gain = tables().gain(75);
            let low: Vec<u8> = numbers[..2 * frames].iter().flat_map(|n| lowered(*n, gain).to_le_bytes()).collect();
            assert!(soft[44..] == low, "another recording by a gain");
        }
        (count, sounding) = (count + 1, sounding + usize::from(numbers.iter().any(|number| *number != 0.0)));
    }
    fs::remove_dir_all(&room).unwrap();
    println!("{count} pieces, {sounding} of them with sound");
    assert!(sounding > 20, "{count} pieces, {sounding} of them with sound");
}
