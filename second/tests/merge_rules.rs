//! The rules for songs of several tracks, each at both sides of its edge: what is refused with which number and where,
//! and the bytes of what is written.

mod common;

use common::songs::{fault_of, frames_of};
use second::make::merge_builder::*;
use second::make::song_builder::*;
use second::merge_file::{merge, song as merged_song};
use second::midi_file::Fault;
use std::io::Write;
use std::process::{Command, Output, Stdio};

const ROOM: usize = 1 << 20;

/// The number and place of a refused file.
fn refused(file: &[u8]) -> (u32, usize) {
    fault_of(merge(file, ROOM))
}

/// The frames of the events of what is written.
fn frames(file: &[u8]) -> Vec<u128> {
    frames_of(&merge(file, ROOM).expect("the file is to be merged"))
}

/// The one track of what is written.
fn track_of(file: &[u8]) -> Vec<u8> {
    merge(file, ROOM).expect("the file is to be merged")[TRACK..].to_vec()
}

const TWO: [u128; 2] = [22_050, 44_100];

// The file and its head

#[test]
fn a_file_is_at_most_16777216_bytes_long_and_this_is_tested_first() {
    let long = |length: usize| {
        let mut file = two_notes();
        file.resize(length, 0);
        file
    };
    assert_eq!(frames(&long(16_777_216)), TWO);
    assert_eq!(refused(&long(16_777_217)), (9, 16_777_216));
    assert_eq!(refused(&with(long(16_777_217), 0, b'm')), (9, 16_777_216));
    assert_eq!(refused(&with(long(16_777_216), 0, b'm')), (9, 0));
}

#[test]
fn a_head_has_its_name_and_a_length_of_six_or_more_in_the_file() {
    for place in 0..4 {
        assert_eq!(refused(&with(two_notes(), place, b'x')), (9, 0));
        assert_eq!(refused(&two_notes()[..place]), (9, 0));
    }
    (4..14).for_each(|length| assert_eq!(refused(&two_notes()[..length]), (9, 4)));
    let says =
        |length: u32| [chunk_that_says(b"MThd", length, &head_fields(1, 2, 96)), two_notes()[14..].to_vec()].concat();
    assert_eq!(refused(&says(5)), (9, 4));
    assert_eq!(frames(&says(6)), TWO);
    let rest = two_notes().len() as u32 - 8;
    assert_eq!(refused(&says(rest)), (9, two_notes().len()), "the head is the whole file, and no chunk behind it");
    assert_eq!(refused(&says(rest + 1)), (9, 4));
    assert_eq!(refused(&says(u32::MAX)), (9, 4));
    let longer = [chunk(b"MThd", &[head_fields(1, 2, 96), vec![0xff; 5]].concat()), two_notes()[14..].to_vec()];
    assert_eq!(merge(&longer.concat(), ROOM), merge(&two_notes(), ROOM), "a longer head is stepped over");
}

#[test]
fn format_tracks_and_division_are_tested_in_this_order() {
    let file = |format, tracks, division| [head(format, tracks, division), two_notes()[14..].to_vec()].concat();
    for format in [2, 3, 256, 257, 65_535] {
        assert_eq!(refused(&file(format, 0, 0)), (10, 8));
        assert_eq!(refused(&file(format, 1, 96)), (10, 8));
    }
    for division in [0, 96, 0x8000] {
        for tracks in [0, 2, 256, 257, 65_535] {
            assert_eq!(refused(&file(0, tracks, division)), (9, 10));
        }
        assert_eq!(refused(&file(1, 0, division)), (9, 10));
        for tracks in [257, 512, 65_535] {
            assert_eq!(refused(&file(1, tracks, division)), (44, 10));
        }
    }
    for (format, tracks) in [(0, 1), (1, 1), (1, 2), (1, 256)] {
        assert_eq!(refused(&file(format, tracks, 0)), (9, 12));
        assert_eq!(refused(&file(format, tracks, 32_768)), (10, 12));
        assert_eq!(refused(&file(format, tracks, 0xe728)), (10, 12));
    }
    assert_eq!(frames(&file(0, 1, 96)), TWO[..1]);
    assert_eq!(frames(&file(1, 1, 96)), TWO[..1]);
    assert_eq!(frames(&file(1, 2, 1)), [96 * 22_050, 192 * 22_050]);
    assert_eq!(frames(&file(1, 2, 32_767)), [64, 129]);
}

#[test]
fn there_may_be_256_tracks() {
    let track = then(96, &NOTE).then(0, &END).bytes;
    assert_eq!(frames(&tracks(&[track.as_slice(); 256])), [22_050; 256]);
    assert_eq!(refused(&tracks(&[track.as_slice(); 257])), (44, 10));
}

// Chunks and tracks

#[test]
fn chunks_of_other_names_are_stepped_over_in_front_of_each_track() {
    let (head, bodies) = (head(1, 2, 96), [then(96, &NOTE).then(0, &END).bytes, then(192, &NOTE).then(0, &END).bytes]);
    let [one, two] = bodies.map(|body| chunk(b"MTrk", &body));
    for (name, body) in [(b"XFIH", &b""[..]), (b"mtrk", b"odd"), (b"MThd", b"\0\x01"), (b"MTrK", b"MTrk\0\0\0\0")] {
        let alien = chunk(name, body);
        let alien = alien.as_slice();
        assert_eq!(frames(&[&head, alien, &one, alien, alien, &two].concat()), TWO);
        let none = [head.as_slice(), &one, alien].concat();
        assert_eq!(refused(&none), (9, none.len()), "no second track");
    }
}

#[test]
fn a_name_is_at_fault_where_it_would_begin_and_a_length_at_its_field() {
    let first = [head(1, 2, 96), chunk(b"MTrk", &END_NOW)].concat();
    for front in [head(1, 2, 96), first.clone(), [first, chunk(b"XFIH", b"xyz")].concat()] {
        let at = front.len();
        let cut = |length: usize| [front.as_slice(), &b"MTrk\0\0\0\x01"[..length]].concat();
        (0..4).for_each(|length| assert_eq!(refused(&cut(length)), (9, at)));
        (4..9).for_each(|length| assert_eq!(refused(&cut(length)), (9, at + 4)));
        for name in [b"MTrk", b"XFIH"] {
            for length in [5, 0x8000_0000, 0xffff_fff8 - at as u32, u32::MAX] {
                let past = [front.clone(), chunk_that_says(name, length, &END_NOW)].concat();
                assert_eq!(refused(&past), (9, at + 4));
            }
        }
    }
}

#[test]
fn what_is_behind_the_last_wanted_track_is_not_looked_at() {
    let file = two_notes();
    let merged = merge(&file, ROOM);
    for behind in [&b"MT"[..], b"MTrk\xff\xff\xff\xff", b"XFIH\0\0\0\x09", &file[14..], &[0xff; 40]] {
        assert_eq!(merge(&[&file, behind].concat(), ROOM), merged);
    }
    let none = [0, 0x90, 60];
    assert_eq!(frames(&[head(1, 1, 96), two_notes()[14..].to_vec(), chunk(b"MTrk", &none)].concat()), TWO[..1]);
}

#[test]
fn bytes_behind_an_end_of_track_are_ignored_up_to_the_end_of_the_chunk() {
    let one = then(96, &NOTE).then(0, &END).raw(&[0xf4, 0xff, 0x4d, 0x54, 0x72, 0x6b]).bytes;
    let two = then(192, &NOTE).then(0, &END).raw(&[0x80]).bytes;
    assert_eq!(merge(&tracks(&[&one, &two]), ROOM), merge(&two_notes(), ROOM));
}

#[test]
fn an_event_ends_in_its_own_chunk() {
    let second = TRACK + 1 + 8;
    assert_eq!(refused(&tracks(&[&[], &END_NOW])), (9, TRACK), "no end of track, and not the next one's");
    assert_eq!(refused(&tracks(&[&[0x81], &END_NOW])), (9, TRACK));
    assert_eq!(refused(&tracks(&[&[0], &END_NOW])), (9, TRACK + 1));
    assert_eq!(refused(&tracks(&[&[0, 0xff, 0x2f], &END_NOW])), (9, TRACK + 1));
    assert_eq!(refused(&tracks(&[&[0, 0xff, 0x2f, 1], &END_NOW])), (9, TRACK + 1));
    assert_eq!(refused(&tracks(&[&[0, 0x90, 60], &END_NOW])), (9, TRACK + 1));
    assert_eq!(refused(&tracks(&[&[0, 0x90, 60, 64], &END_NOW])), (9, TRACK + 4));
    assert_eq!(refused(&tracks(&[&END_NOW, &[0, 0xff, 0x01, 4, 1, 2, 3]])), (9, second + 4));
    assert_eq!(refused(&tracks(&[&END_NOW, &[0x80, 0x80, 0x80, 0x80, 0]])), (9, second + 3));
}

#[test]
fn running_status_is_each_tracks_own() {
    let one = then(0, &NOTE).then(10, &[61, 64]).then(0, &END).bytes;
    let two = then(5, &[0xc1, 7]).then(0, &[8]).then(10, &[9]).then(0, &END).bytes;
    let merged = [0, 0x90, 60, 64, 5, 0xc1, 7, 0, 8, 5, 0x90, 61, 64, 5, 0xc1, 9, 0, 0xff, 0x2f, 0];
    assert_eq!(track_of(&tracks(&[&one, &two])), merged);
    let none = then(20, &[61, 64]).then(0, &END).bytes;
    assert_eq!(refused(&tracks(&[&one, &none])), (9, TRACK + one.len() + 8 + 1), "it begins with none");
}

// The first fault

#[test]
fn every_event_of_every_track_is_within_the_hour() {
    let other = then(1, &NOTE);
    for event in [&NOTE[..], &[0xc0, 1], &[0xff, 1, 0], &[0xff, 0x51, 3, 0, 0, 1], &[0xf0, 0], &[0xf7, 0], &END] {
        let late = |delta: u32| then(3, &NOTE).then(delta - 3, event);
        let [first, second] =
            [|late: Piece, other: Piece| ended(&[late, other]), |late: Piece, other: Piece| ended(&[other, late])];
        assert!(merge(&first(late(HOUR), other.clone()), ROOM).is_ok());
        assert!(merge(&second(late(HOUR), other.clone()), ROOM).is_ok());
        assert_eq!(refused(&first(late(HOUR + 1), other.clone())), (11, TRACK + 7));
        assert_eq!(refused(&second(late(HOUR + 1), other.clone())), (11, TRACK + 8 + 8 + 7));
    }
    let behind = then(0, &NOTE).then(0, &END).then(HOUR + 1, &NOTE);
    assert!(merge(&ended(&[other, behind]), ROOM).is_ok(), "but not behind an end of track");
}

#[test]
fn a_tempo_of_any_track_counts_for_all() {
    let song = |micros: u32| ended(&[then(HOUR, &NOTE), then(HOUR - 1, &tempo(micros))]);
    assert_eq!(frames(&song(500_000)), [158_760_000]);
    assert_eq!(refused(&song(500_001)), (11, TRACK + 3), "the last tick is a little longer");
    let slow = ended(&[then(96, &NOTE).then(96, &NOTE), then(96, &tempo(1_000_000)).then(96, &NOTE)]);
    assert_eq!(frames(&slow), [22_050, 66_150, 66_150]);
    let twice = ended(&[then(96, &tempo(1)), then(96, &tempo(1_000_000)), then(192, &NOTE)]);
    assert_eq!(frames(&twice), [66_150], "at one tick the later track's is the one that stays");
}

#[test]
fn of_events_that_are_too_late_the_first_in_the_file_counts() {
    let (early, late) = (then(HOUR + 1, &NOTE), then(HOUR + 5, &NOTE));
    assert_eq!(refused(&ended(&[then(1, &NOTE), late.clone(), early.clone()])), (11, TRACK + 8 + 8 + 3));
    assert_eq!(refused(&ended(&[then(1, &NOTE), early, late])), (11, TRACK + 8 + 8 + 3));
}

#[test]
fn what_is_too_late_in_front_of_a_fault_goes_before_it() {
    let late = then(HOUR + 1, &NOTE).then(0, &END).bytes;
    let second = TRACK + late.len() + 8;
    let broken: [&[u8]; 4] = [&[], &[0, 0xf1], &[0, 60, 64], &[0, 0x90, 60, 0x80]];
    for bytes in broken {
        assert_eq!(refused(&tracks(&[&late, bytes])), (11, TRACK + 3));
        assert_eq!(refused(&tracks(&[bytes, &late])), (9, TRACK + bytes.len().min(1)), "the fault is in front");
        assert_eq!(refused(&tracks(&[&END_NOW, &late, bytes])), (11, TRACK + 4 + 8 + 3));
        assert_eq!(refused(&tracks(&[&END_NOW, bytes, &late])), (9, TRACK + 4 + 8 + bytes.len().min(1)));
    }
    let file = tracks(&[&late, &END_NOW]);
    (second - 8..file.len()).for_each(|cut| assert_eq!(refused(&file[..cut]), (11, TRACK + 3), "a chunk at fault"));
    let at_once = then(HOUR + 1, &[0x90, 60, 0x80]).bytes;
    assert_eq!(refused(&tracks(&[&END_NOW, &at_once])), (9, TRACK + 4 + 8 + 3), "not well formed and late");
}

#[test]
fn a_tempo_counts_only_where_it_lies_in_front_of_the_fault() {
    let note = then(96, &NOTE).then(HOUR, &NOTE).then(0, &END).bytes;
    let second = TRACK + note.len() + 8;
    let (fast, slow) = (then(0, &tempo(1)).bytes, then(0, &tempo(16_777_215)).bytes);
    let bad = [0, 0xf1];
    // The last note is in time only by the fast tempo, which the other track has.
    assert_eq!(refused(&tracks(&[&note, &[&fast[..], &bad].concat()])), (9, second + fast.len() + 1));
    assert_eq!(refused(&tracks(&[&note, &[&bad, &fast[..]].concat()])), (11, TRACK + 7));
    // A note after less than an hour is late only by the slow one.
    let note = then(HOUR - 1, &NOTE).then(0, &END).bytes;
    let second = TRACK + note.len() + 8;
    assert_eq!(refused(&tracks(&[&note, &[&slow[..], &bad].concat()])), (11, TRACK + 3));
    assert_eq!(refused(&tracks(&[&note, &[&bad, &slow[..]].concat()])), (9, second + 1));
}

// What is written

#[test]
fn a_merged_song_has_a_head_of_six_bytes_and_the_same_division() {
    for division in [1, 96, 0x1234, 32_767] {
        let file = [head(1, 1, division), chunk(b"XFIH", b"xyz"), chunk(b"MTrk", &END_NOW)].concat();
        assert_eq!(merge(&file, ROOM), Ok(song(division, &END_NOW)));
    }
}

#[test]
fn events_go_by_tick_then_by_track_then_in_their_own_order() {
    let one = then(1, &[0x90, 1, 1]).then(1, &[2, 2]).then(0, &[0x80, 3, 3]);
    let two = then(0, &[0x90, 4, 4]).then(1, &[5, 5]).then(1, &[0x80, 6, 6]);
    let three = then(2, &[0x90, 7, 7]);
    let merged =
        [&[0, 0x90, 4, 4, 1, 1, 1, 0, 5, 5, 1, 2, 2][..], &[0, 0x80, 3, 3, 0, 6, 6, 0, 0x90, 7, 7, 0, 0xff, 0x2f, 0]];
    assert_eq!(track_of(&ended(&[one, two, three])), merged.concat());
}

#[test]
fn only_channel_events_tempos_and_an_end_are_written() {
    let one = then(3, &meta(3, b"Treble")).then(4, &NOTE).then(5, &exclusive(0xf0, &[1, 0xf7])).then(6, &NOTE);
    let two = then(1, &exclusive(0xf7, &[1])).then(30, &meta(0x51, &[1, 2, 3, 4, 5])).then(7, &meta(0x7f, b""));
    let merged = [7, 0x90, 60, 64, 11, 60, 64, 13, 0xff, 0x51, 3, 1, 2, 3, 7, 0xff, 0x2f, 0];
    assert_eq!(track_of(&ended(&[one, two])), merged, "what is left out adds its ticks, and ends no running status");
}

#[test]
fn a_tempo_ends_running_status_and_another_status_takes_its_place() {
    let one = then(0, &NOTE).then(2, &NOTE).then(1, &NOTE);
    let merged = |two: Piece| track_of(&ended(&[one.clone(), two]));
    let front = |middle: &[u8]| [&[0, 0x90, 60, 64, 1], middle, &[1, 0x90, 60, 64, 1, 60, 64], &END_NOW].concat();
    assert_eq!(
        merged(then(1, &tempo(500_000))),
        front(&[0xff, 0x51, 3, 7, 0xa1, 0x20]),
        "also one that changes nothing"
    );
    assert_eq!(merged(then(1, &[0x91, 60, 64])), front(&[0x91, 60, 64]));
    assert_eq!(merged(then(1, &[0x80, 60, 64])), front(&[0x80, 60, 64]));
}

#[test]
fn delta_times_are_as_short_as_can_be() {
    for (ticks, bytes) in [
        (0x7f, &[0x7f][..]),
        (0x80, &[0x81, 0x00]),
        (0x3fff, &[0xff, 0x7f]),
        (0x4000, &[0x81, 0x80, 0x00]),
        (0x1f_ffff, &[0xff, 0xff, 0x7f]),
        (0x20_0000, &[0x81, 0x80, 0x80, 0x00]),
        (LARGEST_QUANTITY, &[0xff, 0xff, 0xff, 0x7f]),
    ] {
        let file = ended(&[then(0, &tempo(1)).raw(&quantity_in(ticks, 4)).raw(&NOTE)]);
        assert_eq!(track_of(&file), [&[0, 0xff, 0x51, 3, 0, 0, 1], bytes, &NOTE, &END_NOW].concat());
    }
    let long = ended(&[Piece::default().raw(&quantity_in(5, 4)).raw(&NOTE), then(4, &NOTE)]);
    assert_eq!(track_of(&long), [4, 0x90, 60, 64, 1, 60, 64, 0, 0xff, 0x2f, 0]);
}

#[test]
fn a_song_ends_at_the_last_end_of_track() {
    let end_at = |tick: u32| then(tick, &END).bytes;
    assert_eq!(track_of(&tracks(&[&end_at(7), &end_at(200), &end_at(9)])), [0x81, 0x48, 0xff, 0x2f, 0]);
    let note = then(3, &NOTE).then(2, &END).bytes;
    assert_eq!(track_of(&tracks(&[&note, &end_at(4)])), [3, 0x90, 60, 64, 2, 0xff, 0x2f, 0]);
    assert_eq!(track_of(&tracks(&[&note, &end_at(6)])), [3, 0x90, 60, 64, 3, 0xff, 0x2f, 0]);
    assert_eq!(merged_song(&tracks(&[&note, &end_at(6)])).expect("a right song").end(), 6);
}

#[test]
fn a_gap_that_no_delta_time_can_say_is_bridged_by_the_tempo_in_force() {
    let longest = quantity(LARGEST_QUANTITY);
    for micros in [0u8, 1, 2] {
        let same = [0xff, 0x51, 3, 0, 0, micros];
        let bridge = [longest.as_slice(), &same].concat();
        let largest = LARGEST_QUANTITY as u64;
        for (gap, bridges, rest) in [
            (largest, 0, largest),
            (largest + 1, 1, 1),
            (2 * largest, 1, largest),
            (2 * largest + 1, 2, 1),
            (5 * largest + 200, 5, 200),
        ] {
            let tempo = then(0, &same);
            let rest = quantity(rest as u32);
            let note = [&[0][..], &same, &bridge.repeat(bridges), &rest, &NOTE, &END_NOW].concat();
            assert_eq!(track_of(&ended(&[tempo.clone(), Piece::default().wait(gap).then(0, &NOTE)])), note);
            let change =
                [&[0][..], &same, &bridge.repeat(bridges), &rest, &[0xff, 0x51, 3, 9, 9, 9], &END_NOW].concat();
            let new = Piece::default().wait(gap).then(0, &[0xff, 0x51, 3, 9, 9, 9]);
            assert_eq!(track_of(&ended(&[tempo.clone(), new])), change);
            let end = [&[0][..], &same, &bridge.repeat(bridges), &rest, &END].concat();
            assert_eq!(track_of(&ended(&[tempo, Piece::default().wait(gap)])), end);
        }
    }
}

#[test]
fn a_bridge_ends_running_status() {
    let gap = Piece::default().wait(LARGEST_QUANTITY as u64 + 1);
    let file = ended(&[then(0, &tempo(0)).then(0, &NOTE).raw(&gap.bytes).then(0, &NOTE)]);
    let bridge = [&quantity(LARGEST_QUANTITY)[..], &tempo(0)].concat();
    let merged = [&[0][..], &tempo(0), &[0], &NOTE, &bridge, &[1], &NOTE, &END_NOW].concat();
    assert_eq!(track_of(&file), merged);
}

#[test]
fn the_merged_song_has_to_fit_and_this_is_tested_last() {
    let file = two_notes();
    let merged = merge(&file, ROOM).expect("a right song");
    let no_room = Err(Fault { number: 43, place: 0 });
    assert_eq!(merge(&file, merged.len()), Ok(merged.clone()));
    assert_eq!(merge(&file, merged.len() - 1), no_room);
    assert_eq!(merge(&file, 0), no_room);
    let late = ended(&[then(HOUR + 1, &NOTE)]);
    let bad = tracks(&[&END_NOW, &[0, 0xf1]]);
    for (file, number, place) in
        [(&late, 11, TRACK + 3), (&bad, 9, TRACK + 4 + 8 + 1), (&with(late.clone(), 9, 2), 10, 8)]
    {
        assert_eq!(merge(file, 0), Err(Fault { number, place }));
    }
}

/// Two tracks that alternate have no status that runs when they are one.
#[test]
fn a_merged_song_can_be_longer_than_its_file() {
    let notes = |status: u8| (0..40).fold(then(1, &[status, 60, 64]), |piece, _| piece.then(2, &[60, 64]));
    let file = ended(&[notes(0x90), notes(0x91)]);
    let merged = merge(&file, ROOM).expect("a right song");
    assert!(merged.len() > file.len());
    assert_eq!(merge(&file, file.len()), Err(Fault { number: 43, place: 0 }));
}

// The command

fn command(file: &[u8]) -> Output {
    let mut command = Command::new(env!("CARGO_BIN_EXE_second"));
    let piped = command.arg("merge").stdin(Stdio::piped()).stdout(Stdio::piped()).stderr(Stdio::piped());
    let mut running = piped.spawn().expect("the program is built");
    running.stdin.take().expect("it is piped").write_all(file).expect("it is read to its end");
    running.wait_with_output().expect("it ends")
}

#[test]
fn the_command_writes_the_merged_file_or_says_why_not() {
    let done = command(&two_notes());
    assert!(done.status.success() && done.stderr.is_empty());
    assert_eq!(Ok(done.stdout), merge(&two_notes(), ROOM));
    let late = ended(&[then(HOUR + 1, &NOTE)]);
    for (file, line) in [
        (&b""[..], "merge: refused with 9 at place 0: not well formed, or longer than 16,777,216 bytes\n"),
        (
            &with(two_notes(), 9, 2),
            "merge: refused with 10 at place 8: a format other than 0 and 1, or a division in SMPTE frames\n",
        ),
        (&with(two_notes(), 10, 2), "merge: refused with 44 at place 10: more than 256 tracks\n"),
        (&late, "merge: refused with 11 at place 25: an event later than an hour\n"),
    ] {
        let done = command(file);
        assert_eq!((done.status.code(), done.stdout.len()), (Some(1), 0));
        assert_eq!(String::from_utf8_lossy(&done.stderr), line);
    }
}
