//! Cases of the player in which another file is lent while a song plays: its cursor goes on in whatever is lent.

use super::player_cases::{begin, ended, in_frames};
use super::script::Script;
use super::song_builder::*;
use crate::case::SONG_ROOM;

pub fn write(s: &mut Script) {
    cut_at_every_byte(s);
    short_for_a_while(s);
    longer_tracks(s);
    other_events(s);
    not_well_formed(s);
    other_running_status(s);
    by_turns(s);
    other_heads(s);
    too_late(s);
    over_for_good(s);
    longest_files(s);
}

/// Strikes of these keys, each four frames behind the one before it and four bytes long: the first is in bytes 29 to 32
/// of the file, and the end of track in the four behind the last.
fn strikes(keys: &[u8]) -> Vec<u8> {
    ended(keys.iter().fold(in_frames(), |piece, key| piece.then(4, &[0x90, *key, 100])))
}

const FIRST: usize = 29;

/// The song that is started here: four strikes.
fn four() -> Vec<u8> {
    strikes(&[60, 62, 64, 65])
}

/// The place of a strike in it, or of the end of track behind the last.
fn place_of(strike: usize) -> usize {
    FIRST + 4 * strike
}

/// The song with other bytes from a place on, as long as before.
fn with(place: usize, bytes: &[u8]) -> Vec<u8> {
    let mut file = four();
    file[place..place + bytes.len()].copy_from_slice(bytes);
    file
}

/// The four strikes start; behind the first one another file is lent, and the player renders on to where all would be
/// over. The second was read ahead, and acts.
fn lent_behind_the_first(s: &mut Script, file: &[u8]) {
    s.start();
    s.play(5);
    s.song(file);
    s.over();
    for n in [3, 1, 4, 4, 4] {
        s.play(n);
        s.over();
    }
    s.stop();
}

fn lent(s: &mut Script, name: &str, file: &[u8]) {
    begin(s, &format!("player: another file, {name}"), &four());
    lent_behind_the_first(s, file);
}

/// Empty, cut in front of the cursor, in each byte of the events behind it, and in the end of track.
fn cut_at_every_byte(s: &mut Script) {
    let file = four();
    begin(s, "player: another file, cut at every byte", &file);
    for length in [0, 1, 22, place_of(1)].into_iter().chain(place_of(2) - 1..=file.len()) {
        s.song(&file);
        s.fresh(0);
        lent_behind_the_first(s, &file[..length]);
    }
}

/// A file that ends right behind the event that is read from it; the whole one is lent again before the next is read.
fn short_for_a_while(s: &mut Script) {
    let file = four();
    begin(s, "player: another file, short for a while", &file);
    s.start();
    for (length, n) in [(place_of(2), 5), (place_of(3), 4), (file.len(), 4), (place_of(3), 1), (file.len(), 6)] {
        s.song(&file[..length]);
        s.play(n);
        s.over();
    }
}

/// Longer files: the track still ends where the started one did, between two events and inside one.
fn longer_tracks(s: &mut Script) {
    lent(s, "more strikes", &strikes(&[60, 62, 64, 65, 67, 69, 71]));
    let straddling = in_frames().then(4, &[0x90, 60, 1]).then(4, &[0x90, 62, 1]).then(4, &[0x90, 64, 1]);
    let inside = straddling.then(200, &[0x90, 65, 1]).then(300, &[0x90, 67, 1]);
    lent(s, "an event over the track's end", &ended(inside));
    let mut behind = four();
    behind.extend([0; 40]);
    lent(s, "bytes behind the track", &behind);
    let short = strikes(&[60]);
    begin(s, "player: another file, longer than a song that ends soon", &short);
    s.start();
    s.song(&four());
    s.play(5);
    s.over();
}

/// Other events at the cursor's place: strikes, programs, tempos, texts, and an end of track.
fn other_events(s: &mut Script) {
    let at = place_of(2);
    let files: [(&str, Vec<u8>); 8] = [
        ("other keys", strikes(&[70, 72, 74, 76])),
        ("a program and a strike", with(at, &[1, 0xc0, 1, 1, 0x90, 70, 100, 0])),
        ("running status", with(at, &[1, 70, 90, 1, 71, 90, 1, 70])),
        ("another time", with(at, &[1])),
        ("a tempo", with(at, &[0, 0xff, 0x51, 3, 0, 0x4e, 0x20, 2, 0x90, 70, 100, 0])),
        ("a text", with(at, &[0, 0xff, 1, 4, 0x90, 0x90, 0x90, 0x90, 1, 0x90, 70, 100])),
        ("an end of track", with(at, &[9, 0xff, 0x2f, 0])),
        ("an end of track with bytes", with(at, &[0, 0xff, 0x2f, 2, 0, 0x90])),
    ];
    for (name, file) in files {
        lent(s, name, &file);
    }
}

/// Bytes at the cursor that are no event.
fn not_well_formed(s: &mut Script) {
    let at = place_of(2);
    let files: [(&str, &[u8]); 9] = [
        ("a quantity of five bytes", &[0x81, 0x80, 0x80, 0x80, 0x00]),
        ("a status that no file has", &[4, 0xf4]),
        ("a clock's byte", &[4, 0xf8]),
        ("a status for a key", &[4, 0x90, 0x80]),
        ("a status for a velocity", &[4, 0x90, 64, 0x80]),
        ("a meta type above 7f", &[0, 0xff, 0x80, 0]),
        ("a tempo of two bytes", &[0, 0xff, 0x51, 2, 1, 1]),
        ("a text past the track's end", &[0, 0xff, 1, 9]),
        ("a length of five bytes", &[0, 0xf0, 0x80, 0x80, 0x80, 0x80, 0]),
    ];
    for (name, bytes) in files {
        lent(s, name, &with(at, bytes));
    }
    lent(s, "a fault behind the next event", &with(place_of(3), &[4, 0xf4]));
    lent(s, "a fault in front of the cursor", &with(place_of(1), &[0xff; 4]));
}

/// The status that runs is the one of the event that was read, in whatever file that was; a text ends it.
fn other_running_status(s: &mut Script) {
    let running = |status: u8| {
        let front = in_frames().then(2, &[status, 60, 100]);
        ended((1..6).fold(front, |piece, n| piece.then(2, &[60 + n, 100])))
    };
    begin(s, "player: another file, another status that runs", &running(0x90));
    s.start();
    s.song(&running(0xb0));
    s.play(5);
    s.over();
    s.song(&running(0x91));
    s.play(20);
    s.over();
    begin(s, "player: another file, no status that runs", &running(0x90));
    s.start();
    s.play(3);
    let text = in_frames().then(2, &[0x90, 60, 100]).then(2, &[61, 100]).then(0, &meta(1, b""));
    s.song(&ended(text.then(1, &[62, 100])));
    s.play(20);
    s.over();
}

/// Two files by turns, each event from the one that is lent when it is read.
fn by_turns(s: &mut Script) {
    let files = [strikes(&[60, 61, 62, 63, 64, 65]), strikes(&[80, 81, 82, 83, 84, 85])];
    begin(s, "player: two files by turns", &files[0]);
    s.start();
    for n in 0..7 {
        s.song(&files[(n + 1) % 2]);
        s.play(4);
    }
    s.over();
}

/// The cursor has its division and its place: what the lent file's head and chunks say counts only for a start.
fn other_heads(s: &mut Script) {
    let track = four()[14..].to_vec();
    lent(s, "another division", &[head(0, 1, 96), track.clone()].concat());
    lent(s, "format 1 and no division", &[head(1, 7, 0), track].concat());
    let mut no_head = four();
    no_head[..22].fill(0xff);
    lent(s, "no head at all", &no_head);
    let mut moved = four();
    moved.insert(14, 0);
    lent(s, "a byte more in front of the track", &moved);
}

/// U at its limit in the file that is lent, and one above, for a strike and for a text in front of one. Where it is not
/// too late the next strike is an hour away. The song has a division of 1, and so 7,200 ticks of 500,000.
fn too_late(s: &mut Script) {
    let song = |delta: u32, last: &[u8]| {
        let front = Piece::default().then(0, &tempo(500_000)).then(0, &NOTE).then(0, &[0x90, 62, 64]);
        front.raw(&quantity_in(delta, 2)).raw(last).then(0, &[0x90, 66, 64]).song_of(1)
    };
    let text = meta(1, b"");
    for (name, event) in [("strike", &NOTE[..]), ("text", &text)] {
        for delta in [7_200, 7_201] {
            begin(s, &format!("player: another file, a {name} {delta} ticks away"), &song(0, event));
            s.start();
            s.song(&song(delta, event));
            for n in [1, 40] {
                s.play(n);
                s.over();
            }
        }
    }
}

/// Once no event is left, the song is over whatever is lent; a start begins it again.
fn over_for_good(s: &mut Script) {
    begin(s, "player: another file, and the right one again", &four());
    s.start();
    s.play(2);
    s.song(&[]);
    s.over();
    s.play(3);
    s.over();
    s.song(&four());
    s.over();
    s.play(20);
    s.over();
    s.start();
    s.play(9);
    s.over();
}

/// The longest song that starts, and the longest file that can be lent, which no start admits.
fn longest_files(s: &mut Script) {
    let mut longest = four();
    longest.resize(65_536, 0x5a);
    begin(s, "player: the longest files", &longest);
    s.start();
    s.play(5);
    let mut lent = strikes(&[80, 81, 82, 83]);
    lent.resize(SONG_ROOM as usize, 0xa5);
    s.song(&lent);
    s.start();
    s.play(13);
    s.over();
    s.play(4);
    s.over();
}
