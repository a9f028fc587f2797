//! Merges by time: the hour in each track, tempos of other tracks, and which fault is the first.

use super::merge_builder::*;
use super::song_builder::*;

pub fn all() -> Vec<Named> {
    [
        hours(),
        limits(),
        tempos_of_other_tracks(),
        several_late(),
        late_and_broken(),
        tempos_and_faults(),
        far_past_the_limit(),
    ]
    .concat()
}

/// The events of each kind.
const EVENTS: [&[u8]; 8] =
    [&NOTE, &[0xc0, 1], &[0xff, 1, 0], &[0xff, 0x51, 3, 0, 0, 1], &[0xf0, 0], &[0xf7, 0], &[0xff, 0x7f, 0], &END];

/// An event of each kind at the hour, a tick before and a tick behind, in the first and in the second track.
fn hours() -> Vec<Named> {
    let mut list = Vec::new();
    for event in EVENTS {
        for tick in [HOUR - 1, HOUR, HOUR + 1] {
            let piece = then(3, &NOTE).then(tick - 3, event);
            let name = format!("{event:02x?} at {tick}");
            list.push(roomy(&name, ended(&[piece.clone(), then(1, &NOTE)])));
            list.push(roomy(&name, ended(&[then(1, &NOTE), piece])));
        }
    }
    let behind = then(0, &NOTE).then(0, &END).then(HOUR + 1, &NOTE);
    list.push(roomy("behind an end of track", ended(&[then(1, &NOTE), behind])));
    list
}

/// Songs of other divisions and tempos whose last event is just at the limit, and one tick or one microsecond past it.
fn limits() -> Vec<Named> {
    let mut list = Vec::new();
    for division in [1u16, 2, 96, 32_767] {
        for micros in [1, 3_600, 500_000, 3_600_000, 16_777_215] {
            let ticks = 3_600_000_000 * division as u64 / micros as u64;
            if ticks > 20 * LARGEST_QUANTITY as u64 {
                continue;
            }
            for ticks in [ticks, ticks + 1] {
                let bodies =
                    [then(0, &tempo(micros)).then(0, &END).bytes, Piece::default().wait(ticks).then(0, &END).bytes];
                let file = [head(1, 2, division), chunks(&[&bodies[0], &bodies[1]])].concat();
                list.push(roomy(format!("{ticks} ticks of {micros} at {division}"), file));
            }
        }
    }
    list
}

/// A tempo of any track counts for all from its tick on; at one tick the last in the sequence stays.
fn tempos_of_other_tracks() -> Vec<Named> {
    let mut list = Vec::new();
    for micros in [0, 1, 499_999, 500_000, 500_001, 16_777_215] {
        for tick in [HOUR - 1, HOUR, HOUR + 1] {
            let (note, change) = (then(HOUR, &NOTE), then(tick, &tempo(micros)));
            let name = format!("tempo {micros} at {tick}");
            list.push(roomy(&name, ended(&[note.clone(), change.clone()])));
            list.push(roomy(&name, ended(&[change, note])));
        }
    }
    let slow = |micros: u32| then(96, &tempo(micros));
    let note = then(HOUR / 2, &NOTE);
    for (a, b) in [(1, 1_100_000), (1_100_000, 1), (0, 16_777_215), (16_777_215, 0), (1_000_000, 1_000_000)] {
        let name = format!("tempos {a} and {b} at one tick");
        list.push(roomy(&name, ended(&[slow(a), slow(b), note.clone()])));
        list.push(roomy(&name, ended(&[note.clone(), slow(a), slow(b)])));
        list.push(roomy(&name, ended(&[slow(a).then(0, &tempo(b)), note.clone()])));
    }
    list
}

/// Several events that are too late: of all of them the first in the file counts, wherever it is in the sequence.
fn several_late() -> Vec<Named> {
    let right = then(1, &NOTE);
    let late = |more: u32| then(2, &NOTE).then(HOUR + more, &NOTE).then(3, &NOTE);
    let mut list = Vec::new();
    for (a, b, c) in [(1, 5, 9), (1, 9, 5), (5, 1, 9), (5, 9, 1), (9, 1, 5), (9, 5, 1), (5, 5, 5)] {
        list.push(roomy(format!("late by {a}, {b}, {c}"), ended(&[late(a), late(b), late(c)])));
        list.push(roomy(format!("late by {a}, {b}"), ended(&[right.clone(), late(a), late(b)])));
        list.push(roomy(format!("late by {a}, {c}"), ended(&[late(a), right.clone(), late(c)])));
    }
    let end_late = then(1, &NOTE).then(HOUR + 9, &END);
    list.push(roomy("an end late, and a note in the next track", ended(&[end_late.clone(), late(1)])));
    list.push(roomy("a note late, and an end in the next track", ended(&[late(1), end_late])));
    let stops = then(2, &NOTE).then(HOUR + 1, &tempo(0));
    list.push(roomy("a tempo of 0 behind the hour", ended(&[then(HOUR + 9, &NOTE), stops.clone()])));
    list.push(roomy("a tempo of 0 behind the hour, first", ended(&[stops, then(HOUR + 9, &NOTE)])));
    list
}

/// What is too late in front of a fault goes before it, and what is behind has no part.
fn late_and_broken() -> Vec<Named> {
    let late = then(HOUR + 1, &NOTE).then(0, &END).bytes;
    let in_time = then(HOUR - 1, &NOTE).then(0, &END).bytes;
    let broken: [&[u8]; 5] = [&[], &[0, 0xf1], &[0, 60, 64], &[0, 0x90, 60, 0x80], &[0xff]];
    let mut list = Vec::new();
    for bytes in broken {
        for tracks_of in [
            [&late[..], bytes, &END_NOW],
            [bytes, &late, &END_NOW],
            [&END_NOW, &late, bytes],
            [&END_NOW, bytes, &late],
            [&in_time, &late, bytes],
            [&late, &in_time, bytes],
            [&in_time, bytes, &late],
        ] {
            list.push(roomy(format!("late and {bytes:02x?}"), tracks(&tracks_of)));
        }
        let same = [then(3, &NOTE).then(HOUR + 1, &NOTE).raw(bytes).bytes, then(HOUR + 1, &NOTE).raw(bytes).bytes];
        list.push(roomy(format!("late, then {bytes:02x?} in one track"), tracks(&[&same[0], &END_NOW])));
        list.push(roomy(format!("late, then {bytes:02x?} in the last"), tracks(&[&END_NOW, &same[1]])));
    }
    let at_once = then(HOUR + 1, &[0x90, 60, 0x80]).bytes;
    list.push(roomy("not well formed and late", tracks(&[&END_NOW, &at_once])));
    let file = tracks(&[&late, &END_NOW]);
    list.extend((TRACK..file.len()).map(|cut| roomy(format!("late, cut at {cut}"), file[..cut].to_vec())));
    let missing = [head(1, 3, 96), chunks(&[&END_NOW, &late]), chunk(b"XFIH", b"xyz")].concat();
    list.push(roomy("late, and no third track", missing));
    list
}

/// A tempo counts where it lies in front of the fault, and not where it lies behind.
fn tempos_and_faults() -> Vec<Named> {
    let bad = [0, 0xf1];
    let mut list = Vec::new();
    for (tick, micros) in
        [(HOUR + 96, 1), (HOUR + 96, 16_777_215), (HOUR - 1, 1), (HOUR - 1, 16_777_215), (HOUR - 1, 0)]
    {
        let note = then(tick, &NOTE).then(0, &END).bytes;
        let change = then(0, &tempo(micros)).bytes;
        let name = format!("a note at {tick}, a tempo of {micros}");
        let [front, behind] = [[&change[..], &bad].concat(), [&bad, &change[..]].concat()];
        list.push(roomy(&name, tracks(&[&note, &front])));
        list.push(roomy(&name, tracks(&[&note, &behind])));
        list.push(roomy(&name, tracks(&[&front, &note])));
        list.push(roomy(&name, tracks(&[&[&change[..], &END_NOW].concat(), &note, &bad])));
        list.push(roomy(&name, tracks(&[&note, &bad, &[&change[..], &END_NOW].concat()])));
    }
    list
}

/// Ticks past 32 bits and U past 64: what is past the limit stays past it, and a tempo of 0 has no end of ticks.
fn far_past_the_limit() -> Vec<Named> {
    let largest = LARGEST_QUANTITY as u64;
    let slow = then(0, &tempo(16_777_215));
    let still = then(0, &tempo(0));
    let end_bytes = Piece::default().wait(largest * 4_200).bytes;
    vec![
        roomy("U past 64 bits", ended(&[slow.clone(), then(1, &NOTE).raw(&end_bytes)])),
        roomy("U past 64 bits at the last", ended(&[slow, Piece::default().wait(largest * 17).then(0, &NOTE)])),
        roomy("ticks past 32 bits", ended(&[still.clone(), Piece::default().wait(largest * 17).then(0, &NOTE)])),
        roomy(
            "ticks past 32 bits in two tracks",
            ended(&[
                still.clone().wait(largest * 17 + 3).then(0, &[0x90, 1, 1]),
                Piece::default().wait(largest * 17 + 2).then(0, &[0x90, 2, 2]).then(1, &[3, 3]).then(1, &[4, 4]),
            ]),
        ),
        roomy(
            "a tempo behind many ticks",
            ended(&[still.clone().wait(largest * 9).then(5, &tempo(500_000)).then(HOUR, &NOTE)]),
        ),
        roomy(
            "late behind many ticks",
            ended(&[still.wait(largest * 9).then(5, &tempo(500_000)).then(HOUR + 1, &NOTE)]),
        ),
    ]
}
