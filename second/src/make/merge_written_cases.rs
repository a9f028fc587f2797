//! Merges by what is written: the order of events, what is left out, delta times, bridges, running status, the end; and
//! merged songs that are merged again.

use super::merge_builder::*;
use super::song_builder::*;
use crate::merge_file::merge;
use crate::merges::with_room;
use crate::waves::FILE_ROOM;

pub fn all() -> Vec<Named> {
    let once = [equal_ticks(), left_out(), running(), tempos(), deltas(), ends(), gaps(), gaps_in_parts()].concat();
    let again = once.iter().filter_map(merged_again).collect();
    [once, again].concat()
}

/// The merged song of a case as a file of its own, with just the room that it needs.
fn merged_again((name, input): &Named) -> Option<Named> {
    let song = merge(&input[8..], FILE_ROOM as usize).ok()?;
    Some((format!("{name}, merged again"), with_room(&song, song.len() as u32)))
}

/// A note that tells its track and its place in it.
fn mark(track: u8, at: u8) -> [u8; 3] {
    [0x90 | track, at, 64]
}

/// A track of marks at these ticks.
fn marks(track: u8, ticks: &[u32]) -> Piece {
    let deltas = ticks.iter().scan(0, |last, tick| Some(tick - std::mem::replace(last, *tick)));
    deltas.enumerate().fold(Piece::default(), |piece, (at, delta)| piece.then(delta, &mark(track, at as u8)))
}

/// Events of several tracks at one tick: by track, then in the track's own order.
fn equal_ticks() -> Vec<Named> {
    let ticks: [&[&[u32]]; 12] = [
        &[&[0, 0, 0], &[0, 0, 0]],
        &[&[5], &[5], &[5], &[5]],
        &[&[5, 5], &[4, 5], &[5, 6]],
        &[&[6, 6], &[5, 6], &[4, 6]],
        &[&[1, 2, 2], &[0, 1, 2], &[2]],
        &[&[3, 3, 9], &[3, 9, 9], &[0, 3, 9], &[9]],
        &[&[7], &[7, 7, 7, 7, 7], &[7]],
        &[&[], &[1, 1], &[], &[1, 1]],
        &[&[10], &[9], &[8], &[7], &[6], &[5], &[4], &[3], &[2], &[1], &[0]],
        &[&[0], &[1], &[2], &[3], &[4], &[5], &[6], &[7], &[8], &[9], &[10]],
        &[&[200, 200], &[100, 200, 300], &[200, 300]],
        &[&[0, 300, 300], &[300, 300, 600], &[600, 600]],
    ];
    let of = |ticks: &&[&[u32]]| {
        let pieces: Vec<Piece> = ticks.iter().enumerate().map(|(track, ticks)| marks(track as u8, ticks)).collect();
        let same: Vec<Piece> = ticks.iter().map(|ticks| marks(0, ticks)).collect();
        [roomy(format!("{ticks:?}"), ended(&pieces)), roomy(format!("{ticks:?} of one status"), ended(&same))]
    };
    ticks.iter().flat_map(of).collect()
}

/// Texts, system exclusive events and ends of other tracks, whose ticks go to the next event.
fn left_out() -> Vec<Named> {
    let mut list = Vec::new();
    for event in
        [meta(3, b"Treble"), meta(1, b""), exclusive(0xf0, &[1, 0xf7]), exclusive(0xf7, &[]), meta(0x7f, &[0x80])]
    {
        let between = then(3, &event).then(4, &NOTE).then(5, &event).then(6, &NOTE).then(7, &event);
        let other = then(1, &event).then(8, &[0x80, 60, 64]).then(2, &event);
        list.push(roomy("left out in both", ended(&[between.clone(), other.clone()])));
        list.push(roomy("left out in one", ended(&[between, then(7, &NOTE)])));
        list.push(roomy("left out in the other", ended(&[then(1, &NOTE).then(5, &NOTE), other])));
        list.push(roomy("left out, and nothing else", ended(&[then(5, &event), then(200, &event)])));
    }
    list
}

/// What is between two events of one status.
fn running() -> Vec<Named> {
    let one = then(0, &NOTE).then(2, &NOTE).then(1, &[60, 0]);
    let between: [&[u8]; 8] = [
        &[0x91, 60, 64],
        &[0x80, 60, 64],
        &[0x90, 61, 64],
        &[0xc0, 5],
        &[0xff, 0x51, 3, 7, 0xa1, 0x20],
        &[0xff, 0x51, 5, 1, 2, 3, 4, 5],
        &[0xff, 1, 1, 0x90],
        &[0xf0, 1, 0xf7],
    ];
    let of = |event: &&[u8]| {
        let at = |tick: u32| roomy(format!("{event:02x?} at {tick}"), ended(&[one.clone(), then(tick, event)]));
        [at(0), at(1), at(2), at(3), at(4), roomy("first", ended(&[then(2, event), one.clone()]))]
    };
    between.iter().flat_map(of).collect()
}

/// Tempos of all sizes, of three bytes and more, such as change nothing, and several at one tick.
fn tempos() -> Vec<Named> {
    let mut list = Vec::new();
    for micros in [0u32, 1, 127, 128, 255, 256, 65_535, 65_536, 500_000, 0xff_ffff] {
        for more in [0, 1, 2, 130] {
            let said = [&micros.to_be_bytes()[1..], &vec![0x99; more]].concat();
            let change = meta(0x51, &said);
            let file = ended(&[then(1, &NOTE).then(1, &NOTE), then(1, &change).then(0, &change)]);
            list.push(roomy(format!("a tempo of {micros} and {more} bytes"), file));
        }
    }
    list.push(roomy("a tempo of two bytes", ended(&[then(1, &NOTE), then(1, &meta(0x51, &[1, 2]))])));
    let both = [then(5, &tempo(1)).then(0, &tempo(2)), then(5, &tempo(3)), then(4, &tempo(4)).then(1, &tempo(4))];
    list.push(roomy("tempos of three tracks", ended(&both)));
    list
}

/// The values at the edges of one to four bytes.
const EDGES: [u32; 9] = [0, 1, 0x7f, 0x80, 0x3fff, 0x4000, 0x1f_ffff, 0x20_0000, LARGEST_QUANTITY];

/// Delta times at these edges: given in four bytes, as the sum of what is left out, and as what is between two tracks.
fn deltas() -> Vec<Named> {
    let mut list = Vec::new();
    for ticks in EDGES {
        let fast = then(0, &tempo(1));
        let (half, rest) = (ticks / 2, ticks - ticks / 2);
        let files = [
            ended(&[fast.clone().raw(&quantity_in(ticks, 4)).raw(&NOTE)]),
            ended(&[fast.clone().then(half, &meta(1, b"")).then(rest, &NOTE)]),
            ended(&[fast.clone().then(half, &NOTE), then(half, &meta(1, b"")).then(rest, &[0xc0, 1])]),
            ended(&[fast.clone().then(ticks, &tempo(2))]),
            ended(&[fast.then(7, &NOTE), then(7, &meta(1, b"")).then(ticks, &NOTE)]),
        ];
        list.extend(files.map(|file| roomy(format!("a delta of {ticks}"), file)));
    }
    list
}

/// Tracks that end at different ticks, with and without events in front.
fn ends() -> Vec<Named> {
    let end_at = |tick: u32| then(tick, &END).bytes;
    let fast = |tick: u32| then(0, &tempo(1)).then(tick, &END).bytes;
    let note = then(3, &NOTE).then(2, &END).bytes;
    let mut list = Vec::new();
    for (a, b, c) in [(0, 0, 0), (7, 200, 9), (200, 9, 7), (7, 9, 200), (5, 5, 5), (0, 127, 128), (128, 0, 127)] {
        list.push(roomy(format!("ends at {a}, {b}, {c}"), tracks(&[&end_at(a), &end_at(b), &end_at(c)])));
    }
    for tick in [0, 2, 3, 4, 5, 6, 130, 131] {
        list.push(roomy(format!("an end at 5 and one at {tick}"), tracks(&[&note, &end_at(tick)])));
        list.push(roomy(format!("an end at {tick} and one at 5"), tracks(&[&end_at(tick), &note])));
    }
    list.extend(EDGES.map(|tick| roomy(format!("an end at {tick}"), tracks(&[&fast(tick), &end_at(tick / 2)]))));
    let said = then(9, &[0xff, 0x2f, 2, 1, 2]).bytes;
    list.push(roomy("an end that says something", tracks(&[&said, &end_at(4)])));
    list
}

/// Gaps at the longest delta time and its multiples, and one more, in front of a note, a tempo and the end.
fn gaps() -> Vec<Named> {
    let largest = LARGEST_QUANTITY as u64;
    let lengths =
        [largest - 1, largest, largest + 1, 2 * largest, 2 * largest + 1, 3 * largest + 127, 5 * largest + 200];
    let mut list = Vec::new();
    for micros in [0, 1, 258] {
        let first = then(0, &tempo(micros)).then(0, &NOTE);
        for gap in lengths {
            for event in [&NOTE[..], &[0xc0, 1], &[0xff, 0x51, 3, 0, 0, 3], &END] {
                let file = ended(&[first.clone(), Piece::default().wait(gap).then(0, event)]);
                list.push(roomy(format!("{gap} ticks of {micros} to {event:02x?}"), file));
            }
        }
    }
    let long = ended(&[then(0, &tempo(0)), Piece::default().wait(100 * largest + 1).then(0, &NOTE)]);
    list.push(("a hundred bridges".to_string(), with_room(&long, 1_200)));
    list
}

/// Gaps that other tracks take apart, and what comes behind a bridge.
fn gaps_in_parts() -> Vec<Named> {
    let largest = LARGEST_QUANTITY as u64;
    let wait = |ticks: u64| Piece::default().wait(ticks);
    let still = then(0, &tempo(0)).then(0, &NOTE);
    let mut list = Vec::new();
    for at in [1, 2, largest - 1, largest, largest + 1, largest + 2] {
        for event in [&NOTE[..], &[0x91, 1, 1], &[0xff, 0x51, 3, 0, 0, 1], &[0xff, 0x51, 4, 0, 0, 1, 9], &[0xff, 1, 0]]
        {
            let far = still.clone().wait(2 * largest + 2).then(0, &NOTE).then(0, &[61, 64]).then(1, &[62, 64]);
            let file = ended(&[far, wait(at).then(0, event)]);
            list.push(roomy(format!("{event:02x?} at {at} in a gap"), file));
        }
    }
    for ends_at in [largest, largest + 1, 2 * largest + 1] {
        let ends = [still.clone().wait(largest), wait(ends_at)];
        list.push(roomy(format!("an end at {ends_at}"), ended(&ends)));
    }
    list
}
