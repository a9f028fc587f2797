//! The player's rules, each at both sides of its edge: what starts and stops do, which events are due before a frame,
//! what a render answers, and how the cursor goes on in another file.

mod common;

use common::Rig;
use second::bank_admission::admit;
use second::make::bank_builder::{one_zone, quick, sample, zone_to};
use second::make::chance::Chance;
use second::make::player_cases::{ended, in_frames, tower, MEMORY};
use second::make::player_chance;
use second::make::script::noise;
use second::make::song_builder::*;
use second::make::song_streams;
use second::midi_file::{read, Cursor, Fault};
use second::player::{Applied, Player};
use second::slots_keys_clock::{Channel, Engine, Lent};
use second::tables_and_steps::tables;

/// A player with what is lent to it.
struct Stand {
    player: Player,
    rig: Rig,
    file: Vec<u8>,
}

const ON: [u8; 3] = [0x90, 60, 100];
const OFF: [u8; 3] = [0x80, 60, 0];

impl Stand {
    fn new(file: Vec<u8>) -> Stand {
        Stand { player: Player::fresh(0), rig: Rig::new(&tower(), &noise(MEMORY, 7)), file }
    }

    /// With the song started.
    fn playing(file: Vec<u8>) -> Stand {
        let mut stand = Stand::new(file);
        stand.start().expect("a song that starts");
        stand
    }

    fn start(&mut self) -> Result<(), Fault> {
        self.player.start(tables(), &self.file)
    }

    fn engine(&mut self) -> &mut Engine {
        &mut self.player.engine
    }

    fn lent(&self) -> Lent<'_> {
        Lent { bank: &self.rig.bank, ram: &self.rig.ram, rom: &self.rig.rom }
    }

    fn on(&mut self, channel: u8, key: u8) {
        let lent = Lent { bank: &self.rig.bank, ram: &self.rig.ram, rom: &self.rig.rom };
        assert!(self.player.engine.note_on(tables(), &lent, channel, key, 100).is_ok());
    }

    fn render_to(&mut self, clock: u32, output: &mut [f32]) -> Result<Applied, u32> {
        let lent = Lent { bank: &self.rig.bank, ram: &self.rig.ram, rom: &self.rig.rom };
        self.player.render(tables(), &lent, &self.file, clock, output)
    }

    /// The next n frames: how many events they applied and how many of these were refused, and the numbers.
    fn render(&mut self, n: u32) -> ((u32, u32), Vec<f32>) {
        let mut output = vec![7.0; 2 * n as usize];
        let target = self.player.engine.clock.wrapping_add(n);
        let applied = self.render_to(target, &mut output).expect("a render that is done");
        ((applied.events, applied.refused), output)
    }

    fn play(&mut self, n: u32) -> (u32, u32) {
        self.render(n).0
    }

    fn voices(&self) -> usize {
        self.player.engine.slots.iter().flatten().count()
    }
}

/// Strikes at these frames.
fn strikes(frames: &[u32]) -> Vec<u8> {
    let (piece, _) = frames.iter().fold((in_frames(), 0), |(piece, at), frame| (piece.then(frame - at, &ON), *frame));
    ended(piece)
}

// Starts and stops

#[test]
fn a_fresh_player_has_no_song_and_renders_as_the_engine_does() {
    let mut stand = Stand::new(strikes(&[0]));
    assert!(stand.player.over());
    stand.on(0, 60);
    let mut engine = stand.player.engine.clone();
    let mut output = vec![7.0; 80];
    assert_eq!(engine.render(tables(), &stand.lent(), 40, &mut output), Ok(0));
    assert_eq!(stand.render(40), ((0, 0), output));
    assert!(stand.player.over() && stand.player.engine == engine);
}

/// What every start meets: keys held, marked and released, pedals down and all settings changed, on several channels.
fn unsettled(file: Vec<u8>) -> Stand {
    let mut stand = Stand::playing(file);
    for channel in [0, 3, 9, 15] {
        stand.on(channel, 60);
        stand.on(channel, 61);
        let engine = stand.engine();
        for (control, value) in [(64, 127), (7, 3), (11, 4)] {
            assert_eq!(engine.control(tables(), channel, control, value), Ok(0));
        }
        assert_eq!(engine.note_off(tables(), channel, 61), Ok(1));
        assert_eq!(engine.bend(channel, 5), Ok(0));
        assert_eq!(engine.control(tables(), channel, 0, 5), Ok(0));
        assert_eq!(engine.program(channel, 2), Ok(0));
        assert_eq!(engine.control(tables(), channel, 0, 9), Ok(0));
    }
    stand.play(2);
    stand
}

#[test]
fn a_refused_start_changes_nothing() {
    let song = strikes(&[5, 9]);
    let late = Piece::default().then(LARGEST_QUANTITY, &ON).song();
    let mut long = song.clone();
    long.resize(65_537, 0);
    let files = [
        (vec![], 9, 0),
        (song[..song.len() - 1].to_vec(), 9, 18),
        ([head(1, 1, 441), song[14..].to_vec()].concat(), 10, 8),
        ([head(0, 1, 0xe728), song[14..].to_vec()].concat(), 10, 12),
        (late, 11, TRACK + 4),
        (long, 9, 65_536),
    ];
    for (file, number, place) in files {
        let mut stand = unsettled(song.clone());
        let before = stand.player.clone();
        stand.file = file;
        assert_eq!(stand.start(), Err(Fault { number, place }));
        assert!(stand.player == before);
        stand.file = song.clone();
        assert_eq!((stand.play(20), stand.player.over()), ((2, 2), true), "it plays on, where there is no preset");
    }
}

/// The calls that a stop is, on channels 0 to 15 in order.
fn let_go(engine: &mut Engine) {
    for channel in 0..16 {
        assert_eq!(engine.control(tables(), channel, 64, 0), Ok(0));
        assert_eq!(engine.control(tables(), channel, 123, 0), Ok(0));
    }
}

#[test]
fn a_stop_is_these_calls_and_leaves_no_event() {
    for playing in [true, false] {
        let mut stand = unsettled(strikes(if playing { &[5] } else { &[] }));
        assert_eq!(stand.player.over(), !playing);
        let mut engine = stand.player.engine.clone();
        let_go(&mut engine);
        stand.player.stop(tables());
        assert!(stand.player.engine == engine && stand.player.over());
        assert!(engine.slots.iter().flatten().all(|voice| voice.released()));
        assert_eq!(stand.play(20), (0, 0));
    }
}

#[test]
fn a_start_is_a_stop_and_fresh_channels() {
    for playing in [true, false] {
        let mut stand = unsettled(strikes(if playing { &[5] } else { &[] }));
        let mut engine = stand.player.engine.clone();
        let_go(&mut engine);
        engine.channels = vec![Channel::fresh(); 16];
        stand.file = strikes(&[3]);
        assert_eq!(stand.start(), Ok(()));
        assert!(stand.player.engine == engine && !stand.player.over());
        assert_eq!((stand.play(3), stand.play(1)), ((0, 0), (1, 0)), "it begins at the clock of the start");
    }
}

#[test]
fn a_song_without_channel_events_is_over_at_once() {
    let text = in_frames().then(7, &meta(1, b"text")).then(0, &exclusive(0xf0, &[1]));
    for file in [Piece::default().song(), ended(text)] {
        assert!(Stand::playing(file).player.over());
    }
    assert!(!Stand::playing(ended(in_frames().then(0, &[0xd0, 1]))).player.over());
}

#[test]
fn a_song_starts_again_from_its_first_event() {
    let mut stand = Stand::playing(strikes(&[2, 4, 6]));
    assert_eq!(stand.play(5), (2, 0));
    assert_eq!(stand.start(), Ok(()));
    assert_eq!((stand.play(2), stand.play(5), stand.player.over()), ((0, 0), (3, 0), true));
    assert_eq!(stand.start(), Ok(()));
    assert!(!stand.player.over());
}

// Which events are due

#[test]
fn an_event_acts_before_the_frame_it_is_named_for() {
    for frame in [0, 1, 2, 63, 64, 4_095] {
        let mut stand = Stand::playing(strikes(&[frame]));
        assert_eq!(stand.play(frame), (0, 0), "the clock value that is reached");
        assert_eq!((stand.play(0), stand.voices(), stand.player.over()), ((0, 0), 0, false), "no frame");
        assert_eq!((stand.play(1), stand.voices(), stand.player.over()), ((1, 0), 1, true));
        let mut whole = Stand::playing(strikes(&[frame]));
        assert_eq!(whole.play(frame + 1), (1, 0), "the last frame of a render");
        assert!(whole.player == stand.player);
    }
}

#[test]
fn events_of_one_frame_act_in_their_order() {
    let programs = (0..300).fold(in_frames().then(2, &ON), |piece, n| piece.then(0, &[0xc0, (n % 128) as u8]));
    let mut stand = Stand::playing(ended(programs));
    assert_eq!((stand.play(2), stand.play(1)), ((0, 0), (301, 0)));
    assert_eq!(stand.player.engine.channels[0].program, 43, "299 modulo 128");
}

#[test]
fn missed_events_act_before_the_next_frame_of_the_player() {
    for (frames, missed) in [(4, 0), (5, 1), (6, 1), (9, 2), (40, 3)] {
        let mut stand = Stand::playing(strikes(&[5, 9, 10]));
        let mut output = vec![0.0; 80];
        let lent = Lent { bank: &stand.rig.bank, ram: &stand.rig.ram, rom: &stand.rig.rom };
        assert_eq!(stand.player.engine.render(tables(), &lent, frames, &mut output), Ok(0));
        assert_eq!((stand.voices(), stand.play(0), stand.play(1)), (0, (0, 0), (missed, 0)));
    }
}

#[test]
fn songs_go_over_the_end_of_the_clock() {
    let mut plain = Stand::playing(strikes(&[0, 3, 7]));
    let heard = plain.render(12);
    for clock in [u32::MAX - 9, u32::MAX - 7, u32::MAX - 3, u32::MAX - 2, u32::MAX, 0, 0x8000_0000] {
        let mut stand = Stand::new(strikes(&[0, 3, 7]));
        stand.player = Player::fresh(clock);
        assert_eq!(stand.start(), Ok(()));
        assert_eq!(stand.render(12), heard);
        assert_eq!(stand.player.engine.clock, clock.wrapping_add(12));
    }
}

// What a render answers

#[test]
fn a_refused_render_changes_nothing_while_events_are_due() {
    let asks =
        [(1 << 31, 9_000, 5), (u32::MAX, 9_000, 5), ((1 << 31) - 1, 0, 6), (4_097, 9_000, 6), (3, 5, 7), (1, 0, 7)];
    for (distance, length, number) in asks {
        let mut stand = Stand::playing(strikes(&[0, 1]));
        assert_eq!(stand.play(1), (1, 0));
        let before = stand.player.clone();
        let mut output = vec![7.0; length];
        assert_eq!(stand.render_to(1u32.wrapping_add(distance), &mut output), Err(number));
        assert!(stand.player == before && output.iter().all(|number| *number == 7.0));
    }
    let mut stand = Stand::playing(strikes(&[0, 1]));
    let mut output = vec![7.0; 8_193];
    assert_eq!(stand.render_to(4_096, &mut output), Ok(Applied { events: 2, refused: 0 }));
    assert_eq!(output[8_192], 7.0, "what is behind the frames stays");
}

#[test]
fn a_memory_that_is_too_short_refuses_the_strike_and_then_the_render() {
    let mut stand = Stand::playing(strikes(&[0, 1, 2]));
    stand.rig.ram.truncate(15);
    assert_eq!((stand.play(1), stand.voices()), ((1, 1), 0), "the strike needs 16 samples");
    stand.rig.ram = noise(16, 7);
    assert_eq!((stand.play(1), stand.voices()), ((1, 0), 1));
    stand.rig.ram.truncate(15);
    let before = stand.player.clone();
    assert_eq!((stand.render_to(3, &mut [0.0; 2]), stand.render_to(2, &mut [])), (Err(8), Err(8)));
    assert!(stand.player == before);
    stand.rig.ram = noise(16, 7);
    assert_eq!((stand.play(1), stand.voices()), ((1, 0), 2));
}

#[test]
fn strikes_that_the_engine_refuses_are_counted() {
    let mut stand = Stand::playing(ended(in_frames().then(0, &ON).then(0, &OFF).then(0, &[0x90, 60, 0]).then(1, &ON)));
    stand.rig.bank = admit(b"phdr");
    assert_eq!(stand.play(1), (3, 1), "1, and note-offs need no bank");
    stand.rig.bank = admit(&tower().bytes());
    assert_eq!(stand.play(1), (1, 0));
    let mut stand = Stand::playing(ended(in_frames().then(0, &[0xc0, 9]).then(0, &ON).then(0, &[0x99, 60, 1])));
    assert_eq!((stand.play(1), stand.voices()), ((3, 1), 1), "3, and a drum");
    let mut crowd = one_zone(&quick(&[(54, 1)]), sample(0, 16));
    crowd.instruments[0] = vec![zone_to(&quick(&[(54, 1)]), 53, 0); 33];
    let mut stand = Stand::playing(strikes(&[0]));
    stand.rig = Rig::new(&crowd, &noise(16, 8));
    assert_eq!((stand.play(1), stand.voices(), stand.player.over()), ((1, 1), 0, true), "4");
}

// Events and the calls they stand for

/// A player that plays these events at once, and an engine with the calls made directly, behind one frame each.
fn compare(events: &[&[u8]], calls: fn(&mut Engine, &Lent)) {
    let piece = events.iter().fold(in_frames(), |piece, event| piece.then(0, event));
    let mut stand = Stand::playing(ended(piece));
    let mut engine = stand.player.engine.clone();
    assert_eq!(stand.play(1), (events.len() as u32, 0));
    calls(&mut engine, &stand.lent());
    assert_eq!(engine.render(tables(), &stand.lent(), 1, &mut [0.0; 2]), Ok(0));
    assert!(stand.player.engine == engine && stand.player.over());
}

#[test]
fn each_kind_of_event_is_its_call() {
    let strike = |engine: &mut Engine, lent: &Lent| assert_eq!(engine.note_on(tables(), lent, 3, 60, 90), Ok(1));
    compare(&[&[0x93, 60, 90]], strike);
    for velocity in [0, 1, 127] {
        let events: [&[u8]; 3] = [&[0x93, 60, 90], &[0xb3, 64, 127], &[0x83, 60, velocity]];
        compare(&events, |engine, lent| {
            assert_eq!(engine.note_on(tables(), lent, 3, 60, 90), Ok(1));
            assert_eq!(engine.control(tables(), 3, 64, 127), Ok(0));
            assert_eq!(engine.note_off(tables(), 3, 60), Ok(1));
        });
    }
    compare(&[&[0x93, 60, 90], &[0x93, 60, 0]], |engine, lent| {
        assert_eq!(engine.note_on(tables(), lent, 3, 60, 90), Ok(1));
        assert_eq!(engine.note_off(tables(), 3, 60), Ok(1));
    });
    compare(&[&[0xbf, 7, 5], &[0xbf, 0, 5], &[0xcf, 4]], |engine, _| {
        let channel = Channel { volume: 5, stored_bank: 5, bank: 5, program: 4, ..Channel::fresh() };
        engine.channels[15] = channel;
    });
    compare(&[&[0xe0, 0x7f, 0x7f], &[0xe1, 0, 0], &[0xe2, 1, 0], &[0xe3, 0, 1], &[0xe4, 0, 0x40]], |engine, _| {
        for (channel, bend) in [(0, 16_383), (1, 0), (2, 1), (3, 128), (4, 8_192)] {
            assert_eq!(engine.bend(channel, bend), Ok(0));
        }
    });
}

#[test]
fn pressures_are_applied_and_do_nothing() {
    compare(&[&[0xa0, 60, 127], &[0xd0, 127], &[0xa9, 0, 0], &[0xdf, 0]], |_, _| {});
    let mut stand = Stand::playing(ended(in_frames().then(0, &ON).then(1, &[0xa0, 60, 1]).then(0, &[0xd0, 1])));
    let mut plain = Stand::playing(strikes(&[0]));
    assert_eq!(stand.render(9).1, plain.render(9).1);
    assert_eq!(stand.player.engine, plain.player.engine);
}

#[test]
fn direct_calls_act_on_the_songs_voices_and_the_song_on_theirs() {
    let mut stand = Stand::playing(ended(in_frames().then(0, &ON).then(4, &OFF).then(1, &ON)));
    stand.play(2);
    stand.on(0, 60);
    stand.on(1, 60);
    stand.play(3);
    let released: Vec<bool> = stand.player.engine.slots.iter().flatten().map(|voice| voice.released()).collect();
    assert_eq!(released, [true, true, false]);
    stand.play(1);
    assert_eq!(stand.engine().note_off(tables(), 0, 60), Ok(1));
}

/// Songs by chance: the player's render against the host's, which makes the calls of each frame and renders it.
#[test]
fn a_render_is_the_calls_of_its_events_at_their_frames() {
    for seed in 0..40 {
        let c = &mut Chance::new(70_000 + seed);
        let mut stand = Stand::playing(player_chance::song(c));
        let mut engine = stand.player.engine.clone();
        let mut heard = Vec::new();
        let events = read(&stand.file).expect("a song");
        for frame in 0..300 {
            for (_, event) in events.iter().filter(|(at, _)| *at == frame) {
                let _ = direct(&mut engine, &stand.lent(), event);
            }
            let mut output = [0.0; 2];
            assert_eq!(engine.render(tables(), &stand.lent(), frame as u32 + 1, &mut output), Ok(0));
            heard.extend(output);
        }
        let applied = events.iter().filter(|(at, _)| *at < 300).count() as u32;
        let ((count, _), output) = stand.render(300);
        assert!((count, &output) == (applied, &heard) && stand.player.engine == engine, "seed {seed}");
    }
}

fn direct(engine: &mut Engine, lent: &Lent, event: &[u8]) -> Result<u32, u32> {
    let channel = event[0] % 16;
    match event[0] / 16 {
        8 => engine.note_off(tables(), channel, event[1]),
        9 => engine.note_on(tables(), lent, channel, event[1], event[2]),
        11 => engine.control(tables(), channel, event[1], event[2]),
        12 => engine.program(channel, event[1]),
        14 => engine.bend(channel, event[1] as u16 | (event[2] as u16) << 7),
        _ => Ok(0),
    }
}

#[test]
fn a_cut_at_any_frame_changes_nothing() {
    const LENGTH: u32 = 60;
    for seed in 0..12 {
        let song = player_chance::song(&mut Chance::new(71_000 + seed));
        let mut whole = Stand::playing(song.clone());
        let ((events, refused), output) = whole.render(LENGTH);
        for cut in 0..=LENGTH {
            let mut parts = Stand::playing(song.clone());
            let (first, front) = parts.render(cut);
            assert_eq!(parts.play(0), (0, 0));
            let (second, behind) = parts.render(LENGTH - cut);
            assert_eq!((first.0 + second.0, first.1 + second.1), (events, refused));
            assert!([front, behind].concat() == output && parts.player == whole.player, "cut at {cut}");
        }
    }
}

// The cursor in another file

/// Strikes of keys, four bytes each: the first begins behind the tempo, which is seven bytes.
fn keys(keys: &[u8]) -> Vec<u8> {
    ended(keys.iter().fold(in_frames(), |piece, key| piece.then(1, &[0x90, *key, 100])))
}

const FIRST: usize = TRACK + 7;

/// How many more events act where this file is lent before the first acts, and whether the song is then over. The first
/// was read ahead, and is not counted.
fn behind_the_first(file: Vec<u8>) -> (u32, bool) {
    let mut stand = Stand::playing(keys(&[60, 61, 62, 63]));
    stand.file = file;
    let (events, _) = stand.play(100);
    (events - 1, stand.player.over())
}

#[test]
fn the_cursor_gives_the_events_that_read_gives() {
    let mut whole = 0;
    for (name, file) in song_streams::all() {
        let Ok(events) = read(&file) else { continue };
        let mut cursor = Cursor::at_start(&file).expect("a song");
        let found: Vec<_> = std::iter::from_fn(|| cursor.next(&file)).collect();
        assert!(found == events, "{name}");
        whole += 1;
    }
    assert!(whole > 500);
}

#[test]
fn a_file_ends_the_track_where_it_is_shorter() {
    let song = keys(&[60, 61, 62, 63]);
    for length in 0..=song.len() {
        let events = (length.max(FIRST + 4) - FIRST - 4) / 4;
        assert_eq!(behind_the_first(song[..length].to_vec()), (events.min(3) as u32, true), "{length} bytes");
    }
}

#[test]
fn a_file_that_is_short_for_a_while_does_not_end_the_song() {
    let song = keys(&[60, 61, 62, 63]);
    let mut stand = Stand::playing(song.clone());
    stand.file.truncate(FIRST + 8);
    assert_eq!((stand.play(2), stand.player.over()), ((1, 0), false));
    stand.file = song;
    assert_eq!((stand.play(3), stand.player.over()), ((3, 0), true));
}

#[test]
fn the_track_ends_where_it_did_in_a_longer_file() {
    assert_eq!(behind_the_first(keys(&[70, 71, 72, 73, 74, 75, 76])), (4, true), "the end of track was four bytes");
    let mut behind = keys(&[60, 61, 62, 63]);
    behind.resize(66_000, 0x90);
    assert_eq!(behind_the_first(behind), (3, true));
}

#[test]
fn what_is_not_well_formed_at_the_cursor_ends_the_song() {
    let song = keys(&[60, 61, 62, 63]);
    let faults: [&[u8]; 7] = [
        &[0, 0xf4],
        &[0, 0x90, 0x80],
        &[0, 0x90, 1, 0x80],
        &[0xff; 5],
        &[0, 0xff, 0x80],
        &[0, 0xff, 0x2f, 0],
        &[0, 0xf0, 99],
    ];
    for fault in faults {
        for (place, events) in [(0, 3), (4, 0), (8, 1), (12, 2)] {
            let mut file = song.clone();
            file[FIRST + place..][..fault.len()].copy_from_slice(fault);
            let spilled = place == 0 && fault.len() > 4;
            assert_eq!(behind_the_first(file).0, if spilled { 0 } else { events }, "{fault:?} at {place}");
        }
    }
    let mut head = song.clone();
    head[..TRACK].fill(0);
    assert_eq!(behind_the_first(head), (3, true), "a head counts only for a start");
}

/// A division of 1 and a tempo of 500,000: 7,200 ticks are the hour.
#[test]
fn an_event_past_the_hour_in_another_file_ends_the_song() {
    let song = |delta: u32, event: &[u8]| {
        let piece = Piece::default().then(0, &ON).raw(&quantity_in(delta, 2)).raw(event);
        piece.then(0, &ON).song_of(1)
    };
    for event in [&ON[..], &meta(1, b""), &tempo(0)] {
        for (delta, over) in [(7_199, false), (7_200, false), (7_201, true), (16_000, true)] {
            let mut stand = Stand::playing(song(0, event));
            stand.file = song(delta, event);
            assert_eq!((stand.play(10), stand.player.over()), ((1, 0), over), "{event:?} {delta} ticks away");
        }
    }
}

#[test]
fn a_status_that_runs_and_a_tempo_go_on_in_another_file() {
    let song = in_frames().then(0, &ON).then(2, &[61, 100]).then(2, &[62, 100]);
    let mut stand = Stand::playing(ended(song));
    stand.file = ended(in_frames().then(0, &[0xb1, 0, 0]).then(2, &[7, 9]).then(2, &[11, 9]));
    assert_eq!((stand.play(5), stand.voices()), ((3, 0), 3), "they are strikes");
    let song = in_frames().then(0, &ON).then(2, &[0x90, 61, 100]);
    let mut stand = Stand::playing(ended(song));
    stand.file = ended(Piece::default().then(0, &tempo(20_000)).then(0, &ON).then(2, &[0x90, 61, 100]));
    assert_eq!((stand.play(2), stand.play(1)), ((1, 0), (1, 0)), "the other file's tempo lies in front of the cursor");
}

#[test]
fn a_song_that_is_over_stays_over() {
    let mut stand = Stand::playing(keys(&[60, 61, 62]));
    stand.file.clear();
    assert_eq!((stand.play(2), stand.player.over()), ((1, 0), true), "the one that was read ahead");
    stand.file = keys(&[60, 61, 62]);
    assert_eq!((stand.play(50), stand.player.over()), ((0, 0), true));
    assert_eq!((stand.start(), stand.play(50)), (Ok(()), (3, 0)));
}
