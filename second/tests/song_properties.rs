//! Properties of the reading of songs, over songs by chance: frames, running status, cuts, what is behind the end.

mod common;

use common::songs::tempo_of;
use second::make::chance::Chance;
use second::make::merge_chance::{self, planned_event, Kind, Planned};
use second::make::song_builder::*;
use second::make::song_chance::songs;
use second::make::song_damage::damaged;
use second::midi_file::{read, Fault, Struck};
use second::real;

/// A plan that ends with the end of track, and its division. It takes less than an hour.
fn plan(c: &mut Chance) -> (u16, Vec<Planned>) {
    let division = c.pick(&[24, 96, 480, 32_767]);
    let mut events = Vec::new();
    for _ in 0..c.from(0, 60) {
        let most = c.pick(&[0, 1, 20, 127, 128, 400]);
        events.push((c.from(0, most) as u32, planned_event(c, Kind::Ordinary)));
    }
    events.push((c.from(0, 300) as u32, END.to_vec()));
    (division, events)
}

/// The track of a plan. A status that runs is left out where `leave_out` says so.
fn track(events: &[Planned], mut leave_out: impl FnMut() -> bool) -> Vec<u8> {
    merge_chance::track(events, |delta| (quantity(delta), leave_out())).0
}

/// U at each channel event of a plan, and its bytes: the ticks under each tempo times that tempo, summed up afresh.
fn times(events: &[Planned]) -> Vec<(u128, Vec<u8>)> {
    let u_at = |last: usize| {
        let (mut u, mut tempo) = (0, 500_000);
        for (delta, event) in &events[..=last] {
            u += *delta as u128 * tempo;
            tempo = tempo_of(event).unwrap_or(tempo);
        }
        u
    };
    let channel = (0..events.len()).filter(|at| events[*at].1[0] < 0xf0);
    channel.map(|at| (u_at(at), events[at].1.clone())).collect()
}

#[test]
fn every_channel_event_is_given_once_in_order_with_its_frame() {
    let c = &mut Chance::new(61);
    let mut count = 0;
    for _ in 0..300 {
        let (division, events) = plan(c);
        let found = read(&song(division, &track(&events, || c.once_in(2)))).expect("a right song");
        let times = times(&events);
        assert_eq!(found.len(), times.len());
        for ((frame, bytes), (u, planned)) in found.iter().zip(&times) {
            let second = division as u128 * 1_000_000;
            assert_eq!(bytes, planned);
            assert!(frame * second <= u * 44_100 && u * 44_100 < (frame + 1) * second);
        }
        count += found.len();
    }
    assert!(count > 4_000, "{count} events");
}

#[test]
fn running_status_changes_nothing() {
    let c = &mut Chance::new(62);
    let mut shorter = 0;
    for _ in 0..300 {
        let (division, events) = plan(c);
        let [written, left_out] = [track(&events, || false), track(&events, || true)];
        let mixed = track(&events, || c.once_in(2));
        shorter += written.len() - left_out.len();
        let whole = read(&song(division, &written));
        assert!(whole.is_ok());
        assert_eq!(read(&song(division, &left_out)), whole);
        assert_eq!(read(&song(division, &mixed)), whole);
    }
    assert!(shorter > 1_000, "statuses were left out: {shorter}");
}

#[test]
fn what_is_behind_the_end_of_track_changes_nothing() {
    let c = &mut Chance::new(63);
    for _ in 0..300 {
        let (division, events) = plan(c);
        let track = track(&events, || true);
        let whole = read(&song(division, &track));
        let mut any = || -> Vec<u8> { (0..c.from(0, 40)).map(|_| c.number() as u8).collect() };
        let longer = [song(division, &[track, any()].concat()), any()].concat();
        assert_eq!(read(&longer), whole);
    }
}

#[test]
fn chunks_and_head_bytes_in_front_change_nothing_but_places() {
    let c = &mut Chance::new(64);
    for file in songs(64, 60) {
        let file = if c.once_in(2) { damaged(c, &file) } else { file };
        if !file.starts_with(b"MThd\0\0\0\x06") || file.len() < 14 {
            continue;
        }
        let (more, alien) = (vec![0x80; c.from(0, 9) as usize], chunk(b"XFIH", &vec![0xff; c.from(0, 9) as usize]));
        let shift = more.len() + alien.len();
        let other = [chunk(b"MThd", &[&file[8..14], more.as_slice()].concat()), alien, file[14..].to_vec()].concat();
        let moved = |fault: Fault| Fault { place: fault.place + if fault.place < 14 { 0 } else { shift }, ..fault };
        assert_eq!(read(&other), read(&file).map_err(moved));
    }
}

/// The places where delta times and events begin in a track, in order.
fn begins(events: &[Planned]) -> Vec<usize> {
    let mut list = vec![0];
    for (delta, event) in events {
        let event_at = list[list.len() - 1] + quantity(*delta).len();
        list.extend([event_at, event_at + event.len()]);
    }
    list
}

#[test]
fn a_track_that_is_cut_off_is_at_fault_where_the_cut_part_begins() {
    let c = &mut Chance::new(65);
    for _ in 0..40 {
        let (division, events) = plan(c);
        let (track, begins) = (track(&events, || false), begins(&events));
        for cut in 0..track.len() {
            let part = begins.iter().rev().find(|begin| **begin <= cut).expect("0 is one of them");
            let fault = Fault { number: 9, place: TRACK + part };
            assert_eq!(read(&song(division, &track[..cut])), Err(fault));
        }
    }
}

/// Whatever is cut off, the first chunk that is no longer whole is at fault.
#[test]
fn a_file_that_is_cut_off_is_at_fault_at_a_name_or_a_length() {
    let c = &mut Chance::new(68);
    let (division, events) = plan(c);
    let file = song(division, &track(&events, || true));
    for cut in 0..file.len() {
        let place = match cut {
            0..=3 => 0,
            4..=13 => 4,
            14..=17 => 14,
            _ => 18,
        };
        assert_eq!(read(&file[..cut]), Err(Fault { number: 9, place }));
    }
    assert!(read(&file).is_ok());
}

fn never_falls(events: &[Struck]) -> bool {
    events.windows(2).all(|pair| pair[0].0 <= pair[1].0)
}

/// Songs and damaged songs: frames never fall and stay within the hour, events are whole, a fault lies in the file or at
/// its end.
#[test]
fn whatever_is_read_is_in_order_and_within_the_hour() {
    let c = &mut Chance::new(66);
    let (mut played, mut refused) = (0, 0);
    for file in songs(66, 200) {
        assert!(read(&file).is_ok());
        for file in [file.clone(), damaged(c, &file), damaged(c, &file)] {
            match read(&file) {
                Ok(events) => {
                    assert!(never_falls(&events));
                    assert!(events.iter().all(|(frame, _)| *frame <= 158_760_000));
                    assert!(events.iter().all(|(_, bytes)| bytes[0] >= 0x80 && bytes[1..].iter().all(|b| *b < 0x80)));
                    played += 1;
                }
                Err(fault) => {
                    assert!((9..=11).contains(&fault.number) && fault.place <= file.len());
                    refused += 1;
                }
            }
        }
    }
    assert!(played >= 220 && refused >= 100, "{played} played, {refused} refused");
}

/// The tool for real files reads them by other code; what both read has the same messages.
#[test]
fn the_reader_of_real_files_finds_the_same_messages() {
    let c = &mut Chance::new(67);
    for _ in 0..100 {
        let (division, events) = plan(c);
        let file = song(division, &track(&events, || true));
        let events = read(&file).expect("a right song");
        let messages = real::midi(&file).expect("a right song");
        assert_eq!(events.len(), messages.len());
        assert!(events.iter().zip(&messages).all(|((_, event), (_, message))| event == message));
    }
}
