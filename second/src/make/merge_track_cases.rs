//! Merges by what is in a track: faults in each of several tracks, the ends of chunks, running status.

use super::merge_builder::*;
use super::song_builder::*;

pub fn all() -> Vec<Named> {
    [faults_in_each_track(), chunks_that_hold_less(), running_status(), every_status()].concat()
}

/// Tracks with a fault of each kind.
const BROKEN: [&[u8]; 26] = [
    &[],
    &[0x81],
    &[0xff, 0xff, 0xff],
    &[0],
    &[0x80, 0x80, 0x80, 0x80, 0],
    &[0xff, 0xff, 0xff, 0xff, 0x7f, 0x90, 60, 64],
    &[0, 60, 64],
    &[0, 0xf1],
    &[0, 0xf6, 0],
    &[0, 0xf8],
    &[0, 0xfe],
    &[0, 0x90],
    &[0, 0x90, 60],
    &[0, 0x90, 0x80, 64],
    &[0, 0x90, 60, 0x80],
    &[0, 0xc0, 0x80],
    &[0, 0xd0],
    &[0, 0xf0, 2, 1],
    &[0, 0xf7, 0x80, 0x80, 0x80, 0x80, 0],
    &[0, 0xff],
    &[0, 0xff, 0x80, 0],
    &[0, 0xff, 0x01, 4, 1, 2, 3],
    &[0, 0xff, 0x51, 2, 1, 2],
    &[0, 0xff, 0x2f],
    &[0, 0xff, 0x2f, 1],
    &[0, 0x90, 60, 64],
];

/// Each fault in the first, the middle and the last of three tracks, at once and behind an event; and with the last track
/// broken too.
fn faults_in_each_track() -> Vec<Named> {
    let right = then(5, &NOTE).then(7, &[61, 64]).then(0, &END).bytes;
    let mut list = Vec::new();
    for broken in BROKEN {
        for at in 0..3 {
            for front in [Piece::default(), then(9, &[0xc1, 5])] {
                let mut bodies = [right.clone(), right.clone(), right.clone()];
                bodies[at] = front.raw(broken).bytes;
                list.push(roomy(format!("{broken:02x?} in track {at}"), tracks_of(&bodies)));
                if at < 2 {
                    bodies[2] = vec![0, 0xf1];
                    list.push(roomy(format!("{broken:02x?} in track {at}, and the last"), tracks_of(&bodies)));
                }
            }
        }
    }
    list
}

/// Chunks that hold fewer bytes than their tracks have, with all of these behind them, and more.
fn chunks_that_hold_less() -> Vec<Named> {
    let one = then(3, &NOTE).then(4, &[61, 64]).then(0, &tempo(400_000)).then(1, &END).bytes;
    let two = then(0, &[0xc0, 1]).then(200, &exclusive(0xf0, &[1, 0xf7])).then(0, &END).bytes;
    let mut list = Vec::new();
    for length in 0..=one.len() {
        let file = [head(1, 2, 96), chunk_that_says(b"MTrk", length as u32, &one), chunk(b"MTrk", &two)].concat();
        list.push(roomy(format!("a first chunk of {length}"), file));
        let file = tracks(&[&one[..length], &two]);
        list.push(roomy(format!("a first track of {length}"), file));
    }
    for length in 0..=two.len() {
        let file = [head(1, 2, 96), chunk(b"MTrk", &one), chunk_that_says(b"MTrk", length as u32, &two)].concat();
        list.push(roomy(format!("a second chunk of {length}"), file));
    }
    list
}

/// A status is in force in one track when another begins, or ends what runs in it.
fn running_status() -> Vec<Named> {
    let one = then(0, &NOTE).then(10, &[61, 64]);
    let enders: [&[u8]; 5] = [&[0xff, 1, 0], &[0xff, 0x51, 3, 7, 0xa1, 0x20], &[0xf0, 0], &[0xf7, 0], &[0xff, 0x7f, 0]];
    let mut list = vec![
        roomy("none at a second track's start", ended(&[one.clone(), then(20, &[61, 64])])),
        roomy("none at a track's start, and the other's comes later", ended(&[then(0, &[61, 64]), one.clone()])),
        roomy("one data byte and two", ended(&[one.clone(), then(5, &[0xc1, 7]).then(0, &[8]).then(10, &[9])])),
        roomy("the same status in both", ended(&[one.clone(), then(5, &[0x90, 7, 7]).then(0, &[8, 8])])),
    ];
    for ender in enders {
        let ended_in_own = then(1, &NOTE).then(1, ender).then(1, &[61, 64]);
        let given_again = then(1, &NOTE).then(1, ender).then(1, &NOTE);
        list.extend([
            roomy("ended in the first track", ended(&[ended_in_own.clone(), one.clone()])),
            roomy("ended in the second track", ended(&[one.clone(), ended_in_own])),
            roomy("not ended by the other track", ended(&[one.clone(), then(5, ender)])),
            roomy("not ended by the other track at the same tick", ended(&[one.clone(), then(10, ender)])),
            roomy("given again", ended(&[one.clone(), given_again])),
        ]);
    }
    list
}

/// Every status in both of two tracks, running in one of them, and the next status behind it.
fn every_status() -> Vec<Named> {
    let event = |status: u8| if matches!(status, 0xc0..=0xdf) { vec![status, 1] } else { vec![status, 1, 2] };
    let of = |status: u8| {
        let next = if status == 0xef { 0x80 } else { status + 1 };
        let one = then(1, &event(status)).then(1, &event(status)[1..]).then(1, &event(next));
        roomy(format!("status {status:02x}"), ended(&[one, then(2, &event(status)).then(1, &event(next))]))
    };
    (0x80..=0xef).map(of).collect()
}
