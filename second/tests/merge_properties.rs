//! Properties of the merging of tracks, over songs by chance: what is written, what M-101 reads in it, and the first
//! fault of songs that are broken at a known place.

mod common;

use common::songs::tempo_of;
use second::make::chance::Chance;
use second::make::merge_chance::{file, plan, put_late, Kind, Plan, Planned, HOUR_OF_24};
use second::make::song_builder::*;
use second::make::song_chance::songs;
use second::make::song_damage::damaged;
use second::merge_file::{merge, song as merged_song};
use second::midi_file::{read, Fault, Struck};

const ROOM: usize = 1 << 24;

/// A plan of which every event is in time.
fn plan_in_time(c: &mut Chance, kind: Kind) -> Plan {
    std::iter::repeat_with(|| plan(c, kind))
        .find(|plan| late(plan, &in_one(&plan.tracks)).is_empty())
        .expect("some plan")
}

/// An event in the one sequence: its tick, its track, and which of its track's events it is.
type InOne = (u128, usize, usize);

/// The one sequence, step by step: of the tracks' next events the earliest, of these the first track's.
fn in_one(tracks: &[Vec<Planned>]) -> Vec<InOne> {
    let (mut taken, mut ticks) = (vec![0; tracks.len()], vec![0; tracks.len()]);
    let mut list = Vec::new();
    loop {
        let left = (0..tracks.len()).filter(|track| taken[*track] < tracks[*track].len());
        let next = left.map(|track| (ticks[track] + tracks[track][taken[track]].0 as u128, track)).min();
        let Some((tick, track)) = next else { return list };
        list.push((tick, track, taken[track]));
        taken[track] += 1;
        ticks[track] = tick;
    }
}

fn event<'a>(plan: &'a Plan, (_, track, at): &InOne) -> &'a [u8] {
    &plan.tracks[*track][*at].1
}

/// U at each event of the sequence.
fn times(plan: &Plan, sequence: &[InOne]) -> Vec<u128> {
    let (mut u, mut tick, mut tempo) = (0, 0, 500_000);
    let mut list = Vec::new();
    for one in sequence {
        u += (one.0 - tick) * tempo;
        tick = one.0;
        tempo = tempo_of(event(plan, one)).unwrap_or(tempo);
        list.push(u);
    }
    list
}

fn late(plan: &Plan, sequence: &[InOne]) -> Vec<InOne> {
    let limit = 3_600_000_000 * plan.division as u128;
    let timed = times(plan, sequence).into_iter().zip(sequence);
    timed.filter(|(u, _)| *u > limit).map(|(_, one)| *one).collect()
}

fn struck(plan: &Plan, sequence: &[InOne]) -> Vec<Struck> {
    let frame = |u: u128| u * 44_100 / (plan.division as u128 * 1_000_000);
    let timed = times(plan, sequence).into_iter().zip(sequence).map(|(u, one)| (frame(u), event(plan, one).to_vec()));
    timed.filter(|(_, event)| event[0] < 0xf0).collect()
}

/// The file that is to be written, and how many gaps in it are bridged.
fn written(plan: &Plan, sequence: &[InOne]) -> (Vec<u8>, usize) {
    let (mut piece, mut last, mut in_force, mut running, mut bridges) = (Piece::default(), 0, 500_000, 0, 0);
    let end = sequence.iter().filter(|one| event(plan, one)[..2] == [0xff, 0x2f]).map(|one| one.0).max();
    let kept = sequence.iter().map(|one| (one.0, event(plan, one)));
    let kept = kept.filter(|(_, event)| event[0] < 0xf0 || tempo_of(event).is_some());
    for (tick, event) in kept.chain([(end.expect("every track has one"), &END[..])]) {
        while tick - last > LARGEST_QUANTITY as u128 {
            piece = piece.then(LARGEST_QUANTITY, &tempo(in_force));
            (last, running, bridges) = (last + LARGEST_QUANTITY as u128, 0, bridges + 1);
        }
        let bytes = match tempo_of(event) {
            Some(micros) => tempo(micros as u32),
            None => event[if event[0] == running { 1 } else { 0 }..].to_vec(),
        };
        piece = piece.then((tick - last) as u32, &bytes);
        in_force = tempo_of(event).map_or(in_force, |micros| micros as u32);
        (last, running) = (tick, if event[0] < 0xf0 { event[0] } else { 0 });
    }
    (song(plan.division, &piece.bytes), bridges)
}

/// What is written is known byte by byte, M-101 reads in it what the plan has, and merging it again changes no byte.
#[test]
fn what_is_written_has_every_event_at_its_frame() {
    let c = &mut Chance::new(71);
    let (mut events, mut bridges) = (0, 0);
    for round in 0..600 {
        let plan = plan_in_time(c, if round % 3 == 0 { Kind::Still } else { Kind::Ordinary });
        let (file, _) = file(c, &plan);
        let sequence = in_one(&plan.tracks);
        let merged = merge(&file, ROOM).expect("a right song");
        let (bytes, bridged) = written(&plan, &sequence);
        assert_eq!(merged, bytes);
        let struck = struck(&plan, &sequence);
        assert_eq!(read(&merged).as_ref(), Ok(&struck));
        assert_eq!(merged_song(&file).expect("a right song").struck(), struck);
        assert_eq!(merge(&merged, merged.len()), Ok(merged));
        (events, bridges) = (events + struck.len(), bridges + bridged);
    }
    assert!(events > 15_000 && bridges > 300, "{events} events, {bridges} bridges");
}

/// A song of one track says the same in both formats, and is read and refused as by M-101.
#[test]
fn a_song_of_one_track_is_read_as_by_m_101() {
    let c = &mut Chance::new(72);
    let (mut played, mut refused) = (0, 0);
    for file in songs(72, 300) {
        for file in [file.clone(), damaged(c, &file), damaged(c, &file), damaged(c, &file)] {
            let merged = merge(&file, ROOM);
            if file.get(8..10).is_some_and(|format| format == [0, 0]) {
                assert_eq!(merged_song(&file).map(|song| song.struck()), read(&file));
                assert_eq!(merged.as_ref().map(|merged| read(merged)).map_err(|fault| *fault), read(&file).map(Ok));
                played += merged.is_ok() as u32;
                refused += merged.is_err() as u32;
            }
            if merged.is_ok() {
                let mut other = file.clone();
                other[9] = 1;
                assert_eq!(merge(&other, ROOM), merged);
            }
        }
    }
    assert!(played > 400 && refused > 300, "{played} played, {refused} refused");
}

/// The first fault by its rule: in front of the broken event lie all events of the tracks before its own, and those of
/// its own track before it.
fn first_fault(plan: &Plan, places: &[Vec<usize>], track: usize, at: usize) -> Fault {
    let mut front = plan.tracks[..=track].to_vec();
    front[track].truncate(at);
    let late = late(plan, &in_one(&front));
    match late.iter().map(|(_, track, at)| places[*track][*at]).min() {
        Some(place) => Fault { number: 11, place },
        None => Fault { number: 9, place: places[track][at] },
    }
}

#[test]
fn a_broken_event_is_at_fault_unless_one_in_front_of_it_is_too_late() {
    let c = &mut Chance::new(73);
    let mut found = [0; 2];
    for round in 0..900 {
        let mut plan = plan(c, if round % 3 == 0 { Kind::Still } else { Kind::Ordinary });
        if c.once_in(2) {
            put_late(c, &mut plan);
        }
        let (mut file, places) = file(c, &plan);
        let track = c.from(0, plan.tracks.len() as i64 - 1) as usize;
        let at = c.from(0, plan.tracks[track].len() as i64 - 1) as usize;
        file[places[track][at]] = 0xf1;
        let fault = first_fault(&plan, &places, track, at);
        assert_eq!(merge(&file, ROOM), Err(fault));
        found[(fault.number == 11) as usize] += 1;
    }
    assert!(found[0] > 300 && found[1] > 100, "{found:?}");
}

#[test]
fn a_whole_song_is_refused_only_where_an_event_is_too_late() {
    let c = &mut Chance::new(74);
    let (mut merged, mut refused) = (0, 0);
    for _ in 0..300 {
        let mut plan = plan(c, Kind::Ordinary);
        plan.tracks[0].insert(0, (c.pick(&[0, HOUR_OF_24, 4 * HOUR_OF_24, 30 * HOUR_OF_24]), NOTE.to_vec()));
        let (file, places) = file(c, &plan);
        let sequence = in_one(&plan.tracks);
        let first = late(&plan, &sequence).iter().map(|(_, track, at)| places[*track][*at]).min();
        match first {
            Some(place) => assert_eq!(merge(&file, ROOM), Err(Fault { number: 11, place })),
            None => assert_eq!(merge(&file, ROOM), Ok(written(&plan, &sequence).0)),
        }
        merged += first.is_none() as u32;
        refused += first.is_some() as u32;
    }
    assert!(merged > 60 && refused > 60, "{merged} merged, {refused} refused");
}

/// Whatever is done to a file it is answered, and what is written can be read and merged again.
#[test]
fn damaged_songs_are_answered() {
    let c = &mut Chance::new(75);
    let (mut merged, mut refused) = (0, 0);
    for _ in 0..300 {
        let plan = plan_in_time(c, Kind::Ordinary);
        let (whole, _) = file(c, &plan);
        for _ in 0..8 {
            let file = damaged(c, &whole);
            match merge(&file, ROOM) {
                Ok(written) => {
                    let struck = merged_song(&file).expect("it was merged").struck();
                    assert_eq!(read(&written), Ok(struck));
                    assert_eq!(merge(&written, ROOM).as_ref(), Ok(&written));
                    merged += 1;
                }
                Err(fault) => {
                    assert!([9, 10, 11, 44].contains(&fault.number) && fault.place <= file.len());
                    refused += 1;
                }
            }
        }
    }
    assert!(merged > 200 && refused > 1_000, "{merged} merged, {refused} refused");
}

#[test]
fn a_file_that_is_cut_off_is_refused_up_to_its_last_track() {
    let c = &mut Chance::new(76);
    for _ in 0..20 {
        let plan = plan_in_time(c, Kind::Ordinary);
        let (file, _) = file(c, &plan);
        for cut in 0..file.len() {
            let Err(Fault { number: 9 | 11, place }) = merge(&file[..cut], ROOM) else { panic!("cut at {cut}") };
            assert!(place <= cut);
        }
        assert!(merge(&file, ROOM).is_ok());
    }
}
