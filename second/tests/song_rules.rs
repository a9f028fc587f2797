//! The rules of M-101 for Standard MIDI Files, each at both sides of its edge: what is refused with which number and
//! where, and the frames of what is played.

mod common;

use common::songs::{fault_of, frames_of as frames};
use second::make::song_builder::*;
use second::midi_file::read;

/// The number and place of a refused file.
fn refused(file: &[u8]) -> (u32, usize) {
    fault_of(read(file))
}

/// The bytes of the events of a track, at once ended behind them.
fn played(track: &[u8]) -> Vec<Vec<u8>> {
    let events = read(&song(96, &[track, &END_NOW].concat())).expect("the track is to be played");
    events.into_iter().map(|(_, bytes)| bytes).collect()
}

/// The number of a refused track, and the place counted from the track's first byte.
fn refused_track(track: &[u8]) -> (u32, usize) {
    let (number, place) = refused(&song(96, track));
    (number, place - TRACK)
}

/// A song of one note after a beat.
fn one_note() -> Vec<u8> {
    Piece::default().then(96, &NOTE).song()
}

// The file and its head

#[test]
fn a_file_is_at_most_65536_bytes_long_and_this_is_tested_first() {
    let long = |length: usize| {
        let mut file = one_note();
        file.resize(length, 0);
        file
    };
    assert_eq!(frames(&long(65_536)), [22_050]);
    assert_eq!(refused(&long(65_537)), (9, 65_536));
    assert_eq!(refused(&with(long(65_537), 0, b'm')), (9, 65_536));
    assert_eq!(refused(&with(long(65_536), 0, b'm')), (9, 0));
}

#[test]
fn a_head_has_its_name_and_a_length_of_six_or_more_in_the_file() {
    for place in 0..4 {
        assert_eq!(refused(&with(one_note(), place, b'x')), (9, 0));
        assert_eq!(refused(&one_note()[..place]), (9, 0));
    }
    for length in 4..14 {
        assert_eq!(refused(&one_note()[..length]), (9, 4));
    }
    let says =
        |length: u32| [chunk_that_says(b"MThd", length, &head_fields(0, 1, 96)), one_note()[14..].to_vec()].concat();
    assert_eq!(refused(&says(5)), (9, 4));
    assert_eq!(frames(&says(6)), [22_050]);
    let rest = one_note().len() as u32 - 8;
    assert_eq!(refused(&says(rest)), (9, one_note().len()), "the head is the whole file, and no chunk behind it");
    assert_eq!(refused(&says(rest + 1)), (9, 4));
    assert_eq!(refused(&says(u32::MAX)), (9, 4));
}

#[test]
fn a_longer_head_is_stepped_over() {
    for more in 1..20 {
        let fields = [head_fields(0, 1, 96), vec![0xff; more]].concat();
        let file = [chunk(b"MThd", &fields), one_note()[14..].to_vec()].concat();
        assert_eq!(frames(&file), [22_050]);
    }
}

#[test]
fn format_tracks_and_division_are_tested_in_this_order() {
    let file = |format, tracks, division| [head(format, tracks, division), one_note()[14..].to_vec()].concat();
    for format in [1, 2, 256, 65_535] {
        assert_eq!(refused(&file(format, 2, 0)), (10, 8));
    }
    for tracks in [0, 2, 256, 257, 65_535] {
        assert_eq!(refused(&file(0, tracks, 0)), (9, 10));
        assert_eq!(refused(&file(0, tracks, 0x8000)), (9, 10));
    }
    assert_eq!(refused(&file(0, 1, 0)), (9, 12));
    assert_eq!(frames(&file(0, 1, 1)), [96 * 22_050]);
    assert_eq!(frames(&file(0, 1, 32_767)), [64]);
    assert_eq!(refused(&file(0, 1, 32_768)), (10, 12));
    assert_eq!(refused(&file(0, 1, 0xe728)), (10, 12));
}

// Chunks

#[test]
fn chunks_of_other_names_in_front_of_the_track_are_stepped_over() {
    let head = head(0, 1, 96);
    let track = &one_note()[14..];
    for (name, body) in [(b"XFIH", &b""[..]), (b"mtrk", b"odd"), (b"MThd", b"\0\x01"), (b"MTrK", b"MTrk\0\0\0\0")] {
        let alien = chunk(name, body);
        assert_eq!(frames(&[&head, alien.as_slice(), track].concat()), [22_050]);
        assert_eq!(frames(&[&head, alien.as_slice(), &alien, track].concat()), [22_050]);
        assert_eq!(refused(&[head.as_slice(), &alien].concat()), (9, 22 + body.len()), "no track");
    }
}

#[test]
fn a_name_is_at_fault_where_it_would_begin_and_a_length_at_its_field() {
    for front in [head(0, 1, 96), [head(0, 1, 96), chunk(b"XFIH", b"xyz")].concat()] {
        let at = front.len();
        let cut = |length: usize| [front.as_slice(), &b"MTrk\0\0\0\x01"[..length]].concat();
        (0..4).for_each(|length| assert_eq!(refused(&cut(length)), (9, at)));
        (4..9).for_each(|length| assert_eq!(refused(&cut(length)), (9, at + 4)));
        for name in [b"MTrk", b"XFIH"] {
            for length in [5, 0x8000_0000, 0xffff_fff8 - at as u32, u32::MAX] {
                let past = [front.clone(), chunk_that_says(name, length, &END_NOW)].concat();
                assert_eq!(refused(&past), (9, at + 4));
            }
        }
    }
}

#[test]
fn the_first_track_counts_and_what_is_behind_its_end_does_not() {
    let track = &one_note()[14..];
    assert_eq!(frames(&[one_note().as_slice(), track].concat()), [22_050]);
    assert_eq!(frames(&[one_note().as_slice(), b"MTrk\xff\xff\xff\xff"].concat()), [22_050]);
    let empty = [head(0, 1, 96), chunk(b"MTrk", b"")].concat();
    assert_eq!(refused(&[empty.as_slice(), track].concat()), (9, TRACK));
    assert_eq!(played(&[0, 0x90, 1, 2, 0, 0xff, 0x2f, 0, 0xf4, 0xff]), [[0x90, 1, 2]]);
}

// Delta times and events

#[test]
fn a_delta_time_has_one_to_four_bytes() {
    let late = |delta: &[u8]| song(96, &[&[0, 0xff, 0x51, 3, 0, 0, 96], delta, &NOTE, &END_NOW].concat());
    let micros = |ticks: u128| ticks * 44_100 / 1_000_000;
    assert_eq!(frames(&late(&[0x7f])), [micros(127)]);
    assert_eq!(frames(&late(&[0x81, 0x00])), [micros(128)]);
    assert_eq!(frames(&late(&[0xff, 0x7f])), [micros(16_383)]);
    assert_eq!(frames(&late(&[0x81, 0x80, 0x00])), [micros(16_384)]);
    assert_eq!(frames(&late(&[0xff, 0xff, 0x7f])), [micros(2_097_151)]);
    assert_eq!(frames(&late(&[0x81, 0x80, 0x80, 0x00])), [micros(2_097_152)]);
    assert_eq!(frames(&late(&[0xff, 0xff, 0xff, 0x7f])), [micros(268_435_455)]);
    assert_eq!(frames(&late(&[0x80, 0x80, 0x80, 0x05])), [micros(5)]);
    assert_eq!(refused(&late(&[0x80, 0x80, 0x80, 0x80, 0x05])), (9, TRACK + 7));
}

#[test]
fn a_delta_time_is_at_fault_at_its_first_byte_and_an_event_behind_it() {
    assert_eq!(refused_track(&[]), (9, 0), "no byte left");
    assert_eq!(refused_track(&[0x81]), (9, 0), "a delta time cut off");
    assert_eq!(refused_track(&[0x81, 0x00]), (9, 2), "no event");
    assert_eq!(refused_track(&[0x81, 0x00, 0x90, 60]), (9, 2), "an event cut off");
    assert_eq!(refused_track(&[0x81, 0x00, 0x90, 60, 64]), (9, 5), "no end of track");
    assert_eq!(refused_track(&[0x81, 0x00, 0x90, 60, 64, 0x83]), (9, 5));
    assert_eq!(refused_track(&[0x81, 0x00, 0x90, 60, 64, 0x83, 0x03]), (9, 7));
}

#[test]
fn each_kind_of_channel_event_has_its_data_bytes() {
    for status in 0x80..=0xefu8 {
        let count = if status >> 4 == 0xc || status >> 4 == 0xd { 1 } else { 2 };
        let data = &[0x7f, 0][..count];
        let event = [&[status], data].concat();
        assert_eq!(played(&[&[0], event.as_slice(), &[0], data].concat()), [event.as_slice(), &event]);
        for place in 1..=count {
            let track = [&[0], with(event.clone(), place, 0x80).as_slice(), &END_NOW].concat();
            assert_eq!(refused_track(&track), (9, 1));
            assert_eq!(refused_track(&[&[0], &event[..place]].concat()), (9, 1));
        }
    }
}

#[test]
fn other_statuses_begin_no_event() {
    for status in (0xf1..=0xf6).chain(0xf8..=0xfe) {
        assert_eq!(refused_track(&[&[0, status, 0], END_NOW.as_slice()].concat()), (9, 1));
        assert_eq!(refused_track(&[&[0, 0x90, 1, 2, 0, status], END_NOW.as_slice()].concat()), (9, 5));
        assert_eq!(refused_track(&[&[0, 0x90, 1, status], END_NOW.as_slice()].concat()), (9, 1));
        assert!(played(&[0, 0xf0, 1, status, 0, 0xf7, 1, status, 0, 0xff, 1, 1, status]).is_empty());
    }
}

#[test]
fn meta_and_system_exclusive_events_end_running_status() {
    assert_eq!(refused_track(&[&[0, 60, 64], END_NOW.as_slice()].concat()), (9, 1), "there was no status");
    for other in [&[0xff, 1, 1, 0x90][..], &[0xff, 0x51, 3, 1, 2, 3], &[0xf0, 1, 0xf7], &[0xf7, 0]] {
        let front = [&[0, 0x90, 1, 2, 0, 3, 4, 0], other, &[0]].concat();
        let at = front.len();
        assert_eq!(refused_track(&[front.as_slice(), &[5, 6], &END_NOW].concat()), (9, at));
        let status = [front.as_slice(), &[0x91, 5, 6, 0, 7, 8]].concat();
        assert_eq!(played(&status), [[0x90, 1, 2], [0x90, 3, 4], [0x91, 5, 6], [0x91, 7, 8]]);
    }
}

#[test]
fn lengths_in_events_have_one_to_four_bytes_and_end_in_the_track() {
    for front in [&[0xff, 0x01][..], &[0xff, 0x2f], &[0xff, 0x51], &[0xf0], &[0xf7]] {
        let event = |length: &[u8]| [&[0], front, length, &[1, 2, 3, 4]].concat();
        let behind = |length: &[u8]| [event(length), END_NOW.to_vec()].concat();
        for bytes in 1..=4 {
            assert!(read(&song(96, &behind(&quantity_in(4, bytes)))).is_ok());
        }
        assert_eq!(refused_track(&behind(&quantity_in(4, 5))), (9, 1));
        let on = |file: Vec<u8>| [file, vec![0; 9]].concat();
        assert_eq!(refused(&on(song(96, &event(&[5])))), (9, TRACK + 1), "past the track, and not past the file");
        assert_eq!(refused_track(&event(&quantity(LARGEST_QUANTITY))), (9, 1));
        assert_eq!(refused_track(&[&[0], front].concat()), (9, 1));
        assert_eq!(refused_track(&[&[0], front, &[0x80]].concat()), (9, 1));
    }
}

#[test]
fn meta_types_are_below_80() {
    for kind in 0..=255u8 {
        let track = [&[0, 0xff, kind, 3, 1, 2, 3, 0, 0x90, 60, 64], END_NOW.as_slice()].concat();
        match kind {
            0x2f => assert_eq!(read(&song(96, &track)), Ok(vec![])),
            0..=0x7f => assert_eq!(frames(&song(96, &track)), [0]),
            _ => assert_eq!(refused_track(&track), (9, 1)),
        }
    }
}

#[test]
fn a_tempo_has_three_bytes_or_more_and_an_end_of_track_any_number() {
    for length in 0..9u8 {
        let said = &[0x0f, 0x42, 0x40, 9, 9, 9, 9, 9, 9][..length as usize];
        let file = song(96, &[&[0, 0xff, 0x51, length], said, &[96], &NOTE, &END_NOW].concat());
        match length {
            0..=2 => assert_eq!(refused(&file), (9, TRACK + 1)),
            _ => assert_eq!(frames(&file), [44_100]),
        }
        let ended = song(96, &[&[96], NOTE.as_slice(), &[0, 0xff, 0x2f, length], said, &[0xff]].concat());
        assert_eq!(frames(&ended), [22_050]);
    }
}

// Time

#[test]
fn a_tempo_counts_from_behind_its_event_on() {
    let file = Piece::default().then(96, &tempo(1_000_000)).then(96, &NOTE).then(0, &tempo(0)).then(500, &NOTE).song();
    assert_eq!(frames(&file), [22_050 + 44_100, 22_050 + 44_100]);
    let file = Piece::default().then(0, &tempo(3)).then(0, &tempo(16_777_215)).then(96, &NOTE).song();
    assert_eq!(frames(&file), [739_875], "floor(16.777215 * 44,100) = floor(739,875.18..)");
}

#[test]
fn frames_are_rounded_down_and_no_rounding_is_carried() {
    // A tick is a third of a frame and a little less: 44,100 * 755 / (100 * 1,000,000) = 0.332955.
    let thirds = (0..9).fold(Piece::default().then(0, &tempo(755)), |piece, _| piece.then(1, &NOTE));
    assert_eq!(frames(&thirds.song_of(100)), [0, 0, 0, 1, 1, 1, 2, 2, 2]);
    // 1,000,000 ticks of a microsecond are a second at division 1; frame 441 begins just at tick 10,000.
    let edge = Piece::default().then(0, &tempo(1)).then(9_999, &NOTE).then(1, &NOTE).then(22, &NOTE).then(1, &NOTE);
    assert_eq!(frames(&edge.song_of(1)), [440, 441, 441, 442]);
}

#[test]
fn every_event_is_within_the_hour() {
    let hour = 7_200 * 96;
    for event in [&NOTE[..], &[0xc0, 1], &[0xff, 1, 0], &[0xff, 0x51, 3, 0, 0, 1], &[0xf0, 0], &[0xf7, 0], &END] {
        let track = |delta: u32| Piece::default().then(3, &NOTE).then(delta - 3, event);
        assert!(read(&track(hour).song()).is_ok());
        assert_eq!(refused(&track(hour + 1).song()), (11, TRACK + 7));
        // The last tick is as long as the tempo says: at the limit, and one microsecond-tick above it.
        let last = |micros: u32| Piece::default().then(hour - 1, &tempo(micros)).then(1, event).song();
        assert!(read(&last(500_000)).is_ok());
        assert_eq!(refused(&last(500_001)), (11, TRACK + 10));
    }
    assert_eq!(frames(&Piece::default().then(hour, &NOTE).song()), [158_760_000]);
    let behind = Piece::default().then(0, &NOTE).then(0, &END).then(hour + 1, &NOTE).song();
    assert_eq!(frames(&behind), [0], "but not behind the end of track");
}

#[test]
fn the_first_fault_counts_and_at_one_place_9_goes_before_11() {
    let late = quantity(LARGEST_QUANTITY);
    let track = |events: &[&[u8]]| refused_track(&events.concat());
    assert_eq!(track(&[&late, &[0x90, 60, 0x80], &END_NOW]), (9, 4), "not well formed and late");
    assert_eq!(track(&[&late, &[60, 64], &END_NOW]), (9, 4));
    assert_eq!(track(&[&late]), (9, 4), "late, and no event");
    assert_eq!(track(&[&late, &NOTE, &[0, 0xf1]]), (11, 4), "late, then not well formed");
    assert_eq!(track(&[&late, &NOTE, &[0x80]]), (11, 4));
    assert_eq!(track(&[&late, &NOTE]), (11, 4), "late, and no end of track");
    assert_eq!(track(&[&[0, 0xf1], &late, &NOTE]), (9, 1), "not well formed, then late");
    assert_eq!(track(&[&[0x80, 0x80, 0x80, 0x80, 0], &late, &NOTE]), (9, 0));
}
