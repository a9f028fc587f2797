//! Cases of the player: songs from their start to their end, every kind of event, many events on a frame, the edges of a
//! render, starts and stops, the clock's wrap, refusals, and direct calls while a song plays.

use super::bank_builder::*;
use super::script::{noise, Script};
use super::song_builder::*;

pub fn write(s: &mut Script) {
    no_song(s);
    plain_songs(s);
    kinds_of_events(s);
    running_status(s);
    many_on_one_frame(s);
    edges_of_renders(s);
    cut_everywhere(s);
    started_over_another(s);
    started_again(s);
    stopped(s);
    refused_starts(s);
    no_event(s);
    clock_wrap(s);
    refused_renders(s);
    refused_events(s);
    memories_too_short(s);
    direct_calls(s);
    missed_events(s);
    fresh_channels(s);
    held_keys(s);
    tempos(s);
    another_player(s);
    far_events(s);
}

/// A song whose ticks are frames: 441 a beat of 10,000 microseconds.
pub fn in_frames() -> Piece {
    Piece::default().then(0, &tempo(10_000))
}

/// The end of such a song.
pub fn ended(piece: Piece) -> Vec<u8> {
    piece.song_of(441)
}

/// How many samples the bells need.
pub const MEMORY: usize = 24;

/// Programs 0 to 3: a bell that stays until it is let go, two layers that decay, one that ends with its window, one that
/// needs more memory than the others. Program 0 of bank 5 is an octave up, and channel 9 has a class that cuts.
pub fn tower() -> BankPlan {
    let mut plan =
        BankPlan { samples: vec![sample(0, 16), sample(4, 12), sample(0, MEMORY as u32)], ..Default::default() };
    let stays = quick(&[(38, -9_000), (54, 1)]);
    let decays = quick(&[(36, -6_000), (37, 900), (38, -9_000), (54, 3)]);
    plan.strike_plan(0, &[], vec![zone_to(&stays, 53, 0)]);
    plan.strike_plan(1, &[], vec![zone_to(&decays, 53, 0), zone_to(&decays, 53, 1)]);
    plan.strike_plan(2, &[], vec![zone_to(&quick(&[]), 53, 0)]);
    plan.strike_plan(3, &[], vec![zone_to(&stays, 53, 2)]);
    plan.strike_plan(0, &[(51, 12)], vec![zone_to(&stays, 53, 1)]);
    plan.strike_plan(0, &[(57, 3)], vec![zone_to(&quick(&[(54, 1), (57, 3)]), 53, 1)]);
    plan.presets[4].bank = 5;
    plan.presets[5].bank = 128;
    plan
}

/// A case in the tower with a song lent.
pub fn begin(s: &mut Script, name: &str, song: &[u8]) {
    s.begin_plan(name, &tower(), &noise(MEMORY, 900));
    s.song(song);
}

fn on(key: u8) -> [u8; 3] {
    [0x90, key, 100]
}

fn off(key: u8) -> [u8; 3] {
    [0x80, key, 64]
}

/// Two bells over each other, four frames apart; the second rings alone for four more.
fn two_bells() -> Piece {
    in_frames().then(2, &on(60)).then(4, &on(64)).then(4, &off(60)).then(4, &off(64))
}

// Songs from their start to their end

/// Nothing is lent yet, and then nothing is started: renders are the engine's own.
fn no_song(s: &mut Script) {
    s.begin_plan("player: no song", &tower(), &noise(MEMORY, 901));
    s.over();
    s.on(0, 60, 100);
    s.play(5);
    s.start();
    s.play(5);
    s.song(&ended(two_bells()));
    s.over();
    s.play(20);
    s.go(20);
    s.over();
    s.stop();
    s.play(20);
}

/// Asked before, at every step and behind, until the last voice has ended.
fn plain_songs(s: &mut Script) {
    begin(s, "player: a song from start to end", &ended(two_bells()));
    s.over();
    s.start();
    s.over();
    for n in [2, 1, 3, 1, 4, 3, 1] {
        s.play(n);
        s.over();
    }
    for _ in 0..6 {
        s.play(60);
        s.over();
    }
    let at_beats = Piece::default().then(1, &on(60)).then(2, &on(62)).then(3, &on(60)).then(1, &off(60)).song();
    begin(s, "player: a song that counts in beats", &at_beats);
    s.start();
    for n in [229, 1, 459, 1, 688, 1, 229, 1, 400] {
        s.play(n);
        s.over();
    }
    let by_itself = in_frames().then(3, &[0xc0, 2]).then(1, &on(60)).then(2, &on(72)).then(90, &END);
    begin(s, "player: voices that end by themselves", &ended(by_itself));
    s.start();
    for n in [5, 2, 6, 4, 4] {
        s.play(n);
        s.over();
    }
}

/// An event of every kind, key and channel pressure too, on channel 0.
const KINDS: [&[u8]; 20] = [
    &[0xc0, 1],
    &[0xb0, 7, 127],
    &[0x90, 60, 90],
    &[0xa0, 60, 127],
    &[0xd0, 127],
    &[0x90, 61, 80],
    &[0xe0, 0x7f, 0x7f],
    &[0xe0, 1, 0x40],
    &[0xc0, 0],
    &[0x90, 62, 1],
    &[0xb0, 11, 40],
    &[0xb0, 64, 64],
    &[0x80, 62, 0],
    &[0x90, 60, 0],
    &[0xe0, 0, 0],
    &[0xb0, 64, 63],
    &[0x90, 64, 127],
    &[0xb0, 123, 0],
    &[0x90, 65, 127],
    &[0xb0, 120, 0],
];

/// Every kind on the first channel, on the drums and on the last; and strikes on all channels.
fn kinds_of_events(s: &mut Script) {
    for channel in [0, 9, 15] {
        let played = KINDS.iter().fold(in_frames(), |piece, event| {
            let on_channel = [&[event[0] | channel], &event[1..]].concat();
            piece.then(2, &on_channel)
        });
        begin(s, &format!("player: every kind of event on channel {channel}"), &ended(played));
        s.start();
        for _ in 0..KINDS.len() + 1 {
            s.play(2);
        }
        s.over();
    }
    let all = (0..16u8).fold(in_frames(), |piece, channel| {
        let program = [0xc0 | channel, channel % 4];
        piece.then(1, &program).then(0, &[0xe0 | channel, 0, 4 * channel]).then(0, &[0x90 | channel, 60, 100])
    });
    begin(s, "player: all channels", &ended(all));
    s.start();
    s.play(8);
    s.play(9);
    s.over();
}

/// A status that runs over several kinds, and is ended by meta and system exclusive events.
fn running_status(s: &mut Script) {
    let played = in_frames()
        .then(1, &on(60))
        .then(1, &[61, 90])
        .then(0, &[60, 0])
        .then(1, &[0xb0, 7, 64])
        .then(1, &[7, 127])
        .then(0, &[11, 90])
        .then(2, &meta(1, b"a text"))
        .then(1, &[0xe0, 0, 80])
        .then(1, &[0, 64])
        .then(1, &exclusive(0xf0, &[1, 2, 3, 0xf7]))
        .then(0, &exclusive(0xf7, &[0x90, 60]))
        .then(1, &[0xc0, 1])
        .then(1, &[2])
        .then(0, &[0xd0, 5])
        .then(1, &[6])
        .then(1, &[0xa0, 61, 5])
        .then(1, &[61, 6])
        .then(1, &[0x80, 61, 1]);
    begin(s, "player: running status, and what is stepped over", &ended(played));
    s.start();
    for n in [2, 1, 1, 3, 1, 4, 1, 2, 3, 5] {
        s.play(n);
        s.over();
    }
}

/// Hundreds of events on one frame: of each kind, and more strikes than there are slots.
fn many_on_one_frame(s: &mut Script) {
    let many = |count: u32, event: &dyn Fn(u32) -> Vec<u8>| {
        let front = in_frames().then(3, &on(50));
        ended((0..count).fold(front, |piece, n| piece.then(0, &event(n))).then(1, &off(50)))
    };
    let songs = [
        ("600 programs", many(600, &|n| vec![0xc0, (n % 3) as u8])),
        ("600 controls", many(600, &|n| vec![0xb0, [7, 11, 0, 64][n as usize % 4], (n % 128) as u8])),
        ("600 bends", many(600, &|n| vec![0xe0, (n % 128) as u8, (n % 100) as u8])),
        ("600 strikes", many(600, &|n| vec![0x90, (n % 90) as u8, 1 + (n * 37 % 127) as u8])),
        ("300 strikes, each let go", many(600, &|n| vec![0x90, (n / 2 % 128) as u8, (1 - n % 2) as u8 * 99])),
        ("600 pressures", many(600, &|n| vec![0xa0, (n % 128) as u8, 1])),
        ("2,000 strikes", many(2_000, &|n| vec![0x90, 60, 1 + (n % 127) as u8])),
    ];
    for (name, song) in songs {
        begin(s, &format!("player: {name} on one frame"), &song);
        s.start();
        for n in [3, 1, 1, 4] {
            s.play(n);
        }
        s.over();
        s.stop();
        s.play(2);
    }
}

// Renders

/// Events on the first frame of a render, on its last, on the clock value that is reached, and one behind; that one
/// waits for the next render with a frame.
fn edges_of_renders(s: &mut Script) {
    for n in [1, 2, 7, 64] {
        let last = in_frames().then(0, &on(60)).then(n - 1, &on(62)).then(1, &on(64)).then(1, &off(60));
        begin(s, &format!("player: edges of a render, {n} long"), &ended(last));
        s.start();
        s.play(0);
        s.play_into(n, 2 * n + 5);
        s.over();
        s.play(0);
        s.over();
        s.play(1);
        s.play(0);
        s.over();
        s.play(n);
        s.over();
    }
    let longest = in_frames().then(0, &on(60)).then(4_095, &off(60)).then(1, &on(62));
    begin(s, "player: edges of the longest render", &ended(longest));
    s.start();
    s.play(4_096);
    s.over();
    s.play(1);
    s.over();
}

/// A song of four bells, with a bend, a pedal and a level that change.
fn dense() -> Vec<u8> {
    let pedal = |value| [0xb0, 64, value];
    let played = in_frames()
        .then(0, &[0xc0, 1])
        .then(1, &on(60))
        .then(2, &[0xe0, 5, 70])
        .then(1, &pedal(100))
        .then(0, &off(60))
        .then(3, &[0x91, 55, 90])
        .then(0, &on(67))
        .then(4, &[0xb0, 11, 70])
        .then(1, &pedal(0))
        .then(2, &[0x91, 55, 0])
        .then(4, &off(67));
    ended(played)
}

/// The song whole, and then cut once at every frame of it, with a render of no frame between; and in single frames.
fn cut_everywhere(s: &mut Script) {
    const LENGTH: u32 = 20;
    for clock in [0, u32::MAX - 10] {
        begin(s, &format!("player: a song cut at every frame, from clock {clock}"), &dense());
        let again = |s: &mut Script| {
            s.fresh(clock);
            s.start();
        };
        again(s);
        s.play(LENGTH);
        for cut in 0..=LENGTH {
            again(s);
            s.play(cut);
            s.play(0);
            s.play(LENGTH - cut);
        }
        again(s);
        (0..LENGTH).for_each(|_| s.play(1));
    }
}

// Starts and stops

/// Keys held and pedals down on several channels, by a song and by hand; all are let go where the next song begins.
fn started_over_another(s: &mut Script) {
    let held = in_frames()
        .then(0, &on(60))
        .then(0, &[0xb1, 64, 127])
        .then(0, &[0x91, 61, 90])
        .then(2, &[0x81, 61, 0])
        .then(1, &[0x9f, 62, 80])
        .then(0, &[0xbf, 64, 100])
        .then(50, &on(63));
    begin(s, "player: a song over a song", &ended(held));
    s.start();
    s.on(2, 70, 100);
    s.play(10);
    s.song(&ended(two_bells()));
    s.start();
    s.over();
    for n in [3, 5, 60, 300] {
        s.play(n);
        s.over();
    }
}

fn started_again(s: &mut Script) {
    begin(s, "player: started again at once, in the middle and behind the end", &ended(two_bells()));
    s.start();
    s.start();
    s.play(7);
    s.start();
    s.over();
    s.play(7);
    s.go(1);
    s.start();
    s.play(20);
    s.over();
    s.start();
    s.play(3);
    s.over();
}

fn stopped(s: &mut Script) {
    let pedal =
        in_frames().then(1, &[0xb0, 64, 127]).then(0, &on(60)).then(3, &off(60)).then(1, &on(64)).then(9, &on(67));
    begin(s, "player: stopped with the pedal down", &ended(pedal));
    s.start();
    s.play(8);
    s.stop();
    s.over();
    s.on(0, 60, 100);
    s.off(0, 60);
    for n in [1, 20, 300] {
        s.play(n);
        s.over();
    }
    s.stop();
    s.play(20);
    begin(s, "player: stopped where nothing plays", &ended(two_bells()));
    s.stop();
    s.over();
    s.control(3, 64, 127);
    s.control(3, 7, 20);
    for channel in [0, 3, 9] {
        s.on(channel, 60, 100);
    }
    s.off(3, 60);
    s.go(1);
    s.stop();
    s.over();
    s.go(1);
    s.stop();
    s.go(1);
    s.on(3, 61, 100);
    s.off(3, 61);
    s.play(2);
}

/// A refused file of each number while another song plays: it plays on. Where it needs no event from the refused file it
/// does not see it; where it does, it goes on in it as in any other.
fn refused_starts(s: &mut Script) {
    let song = ended(two_bells());
    let with = |place: usize, byte: u8| {
        let mut file = song.clone();
        file[place] = byte;
        file
    };
    let late = in_frames().then(3_600_000, &tempo(16_777_215)).then(LARGEST_QUANTITY, &on(60));
    let files = [
        ("no file", vec![]),
        ("another name", with(0, b'm')),
        ("two tracks", with(11, 2)),
        ("division 0", [&song[..12], &[0, 0], &song[14..]].concat()),
        ("a track cut off", song[..song.len() - 1].to_vec()),
        ("no end of track", with(song.len() - 2, 1)),
        ("format 1", with(9, 1)),
        ("SMPTE", with(12, 0xe7)),
        ("too late", ended(late)),
    ];
    for (name, file) in files {
        begin(s, &format!("player: a start that is refused, {name}"), &song);
        s.control(5, 7, 99);
        s.start();
        s.play(3);
        s.control(0, 64, 127);
        s.song(&file);
        s.start();
        s.over();
        s.play(2);
        s.song(&song);
        s.play(3);
        s.over();
        s.song(&file);
        for n in [3, 4, 5] {
            s.play(n);
            s.over();
        }
    }
}

/// Songs with no channel event are over at once; what sounded before them is let go.
fn no_event(s: &mut Script) {
    let texts = in_frames().then(5, &meta(1, b"nothing")).then(0, &exclusive(0xf0, &[1, 0xf7]));
    for (name, song) in [("of its end alone", Piece::default().song()), ("of texts", ended(texts))] {
        begin(s, &format!("player: a song {name}"), &song);
        s.control(0, 64, 127);
        s.on(0, 60, 100);
        s.off(0, 60);
        s.on(1, 61, 100);
        s.play(2);
        s.start();
        s.over();
        s.play(2);
        s.over();
    }
}

/// Songs that begin in front of the clock's wrap, right at it, and behind it.
fn clock_wrap(s: &mut Script) {
    for clock in [u32::MAX - 8, u32::MAX - 5, u32::MAX - 1, u32::MAX, 0, 1] {
        begin(s, &format!("player: a song from clock {clock:x}"), &ended(two_bells()));
        s.fresh(clock);
        s.start();
        for n in [2, 1, 3, 5, 2, 7] {
            s.play(n);
            s.over();
        }
    }
    begin(s, "player: a song that begins where the clock wraps", &ended(two_bells()));
    s.fresh(u32::MAX - 4);
    s.play(5);
    s.start();
    s.play(11);
    s.go(1);
    s.play(6);
    s.over();
}

// Refusals

/// 5, 6, 7 and 8, with what just is not refused behind each, while events are due.
fn refused_renders(s: &mut Script) {
    let due = in_frames().then(0, &on(60)).then(0, &on(64)).then(1, &off(60));
    let asks: [(&str, u32, u32); 8] = [
        ("2^31 away", 1 << 31, 8_448),
        ("just not so far", (1 << 31) - 1, 8_448),
        ("one back", u32::MAX, 8_448),
        ("4,097 frames", 4_097, 8_448),
        ("no output", 1, 0),
        ("half a frame", 1, 1),
        ("one number short", 3, 5),
        ("the longest, one number short", 4_096, 8_191),
    ];
    for (name, distance, length) in asks {
        begin(s, &format!("player: a render that is refused, {name}"), &ended(due.clone()));
        s.start();
        s.ask_player(distance, length);
        s.over();
        s.play(1);
        s.ask_player(distance, length);
        s.play_into(3, 6);
        s.over();
    }
    begin(s, "player: a render of 4,096 frames", &ended(due));
    s.start();
    s.play_into(4_096, 8_192);
    s.over();
}

/// What the engine refuses is counted: a bank that is not admitted, no preset, 33 layers. The song goes on.
fn refused_events(s: &mut Script) {
    let strikes = |channel: u8| {
        let strike = [0x90 | channel, 60, 100];
        let let_go = [0x80 | channel, 60, 0];
        in_frames()
            .then(1, &strike)
            .then(0, &strike)
            .then(0, &[0x90 | channel, 60, 0])
            .then(2, &let_go)
            .then(2, &strike)
    };
    begin(s, "player: a bank that is not admitted", &ended(strikes(0)));
    s.bank(b"phdr");
    s.start();
    s.play(4);
    s.bank(&tower().bytes());
    s.play(3);
    s.over();
    let no_preset = in_frames().then(0, &[0xc0, 9]).then(0, &on(60)).then(1, &[0xc0, 0]).then(0, &on(61));
    begin(s, "player: a channel without preset", &ended(no_preset));
    s.start();
    s.play(1);
    s.play(1);
    s.over();
    let mut crowd = one_zone(&quick(&[(54, 1)]), sample(0, 16));
    for layers in [32, 33] {
        crowd.strike_plan(layers, &[], vec![zone_to(&quick(&[(54, 1)]), 53, 0); layers as usize]);
    }
    s.begin_plan("player: 32 and 33 layers", &crowd, &noise(16, 902));
    s.song(&ended([32, 33, 0].iter().fold(in_frames(), |piece, p| piece.then(0, &[0xc0, *p]).then(0, &on(60)))));
    s.start();
    s.play(1);
    s.over();
}

/// A memory that is too short for the strike, for the render, and just long enough for both.
fn memories_too_short(s: &mut Script) {
    let played = in_frames().then(1, &on(60)).then(0, &[0xc0, 3]).then(1, &on(61)).then(2, &on(62)).then(1, &on(63));
    begin(s, "player: a memory too short at the event, and for the render", &ended(played));
    s.start();
    s.cut_ram(15);
    s.play(2);
    s.cut_ram(MEMORY as u32 - 1);
    s.play(1);
    s.over();
    s.cut_ram(MEMORY as u32);
    s.play(2);
    s.cut_ram(MEMORY as u32 - 1);
    s.ask_player(2, 4);
    s.ask_player(0, 0);
    s.over();
    s.cut_ram(MEMORY as u32);
    s.play(2);
    s.over();
    let short_first = in_frames().then(0, &on(60)).then(0, &[0xc0, 3]).then(0, &on(61)).then(1, &on(62));
    begin(s, "player: one strike fits into the memory, the other does not", &ended(short_first));
    s.cut_ram(16);
    s.start();
    s.play(1);
    s.cut_ram(15);
    s.ask_player(1, 2);
    s.cut_ram(16);
    s.play(1);
    s.over();
}

// The host's own calls

/// A verger strikes bells over the song: the song's note-off reaches them too, and theirs the song's.
fn direct_calls(s: &mut Script) {
    begin(s, "player: bells struck over a song", &ended(two_bells()));
    s.start();
    s.play(4);
    s.on(0, 60, 50);
    s.on(1, 60, 50);
    s.play(3);
    s.off(0, 64);
    s.play(4);
    s.control(0, 120, 0);
    s.on(0, 64, 20);
    s.play(5);
    s.over();
    let levels = in_frames().then(1, &on(60)).then(4, &on(62)).then(4, &[0xb0, 7, 50]).then(4, &off(60));
    begin(s, "player: programs, controls and bends by hand while a song plays", &ended(levels));
    s.start();
    s.program(0, 1);
    s.play(2);
    s.bend(0, 10_000);
    s.control(0, 7, 127);
    s.play(2);
    s.control(0, 0, 5);
    s.program(0, 0);
    s.play(3);
    s.control(0, 64, 127);
    s.play(10);
    s.control(0, 64, 0);
    s.panel(0);
    s.in_use();
    s.admission();
    s.play(2);
    s.over();
}

/// The engine's own render moves the clock to an event, past one, past all: they act before the player's next frame.
fn missed_events(s: &mut Script) {
    for n in [1, 2, 3, 6, 7, 10, 11, 14, 15, 40] {
        begin(s, &format!("player: the engine's own render, {n} long"), &ended(two_bells()));
        s.start();
        s.go(n);
        s.over();
        s.play(0);
        s.play(1);
        s.over();
        s.go(2);
        s.play(14);
        s.over();
    }
    begin(s, "player: songs and the engine's own renders by turns", &dense());
    s.start();
    for n in [1, 2, 1, 1, 3, 2, 4, 1, 2, 3, 1] {
        s.play(n % 3);
        s.go(n);
    }
    s.play(1);
    s.over();
}

/// Program, banks, bend, 7 and 11 of one song are not those of the next, whatever channel they were set on.
fn fresh_channels(s: &mut Script) {
    let strike_all = |s: &mut Script| {
        for channel in [0, 3, 15] {
            s.on(channel, 60, 100);
            s.go(2);
            s.silence(channel);
        }
    };
    let set = [0u8, 3, 15].iter().fold(in_frames(), |piece, channel| {
        let of = |kind: u8| kind | channel;
        piece
            .then(0, &[of(0xb0), 0, 5])
            .then(0, &[of(0xc0), 0])
            .then(0, &[of(0xe0), 3, 90])
            .then(0, &[of(0xb0), 7, 30])
            .then(0, &[of(0xb0), 11, 60])
            .then(0, &[of(0xb0), 0, 7])
    });
    begin(s, "player: channels are fresh where a song starts", &ended(set.then(9, &on(60))));
    s.start();
    s.play(1);
    strike_all(s);
    s.stop();
    strike_all(s);
    s.song(&ended(two_bells()));
    s.start();
    strike_all(s);
    s.program(3, 0);
    strike_all(s);
    s.play(9);
    s.over();
}

/// A song that ends while its keys are held: they sound on until they are let go.
fn held_keys(s: &mut Script) {
    begin(s, "player: a song whose keys stay held", &ended(in_frames().then(1, &on(60)).then(1, &[0x93, 62, 90])));
    s.start();
    s.play(3);
    s.over();
    s.play(200);
    s.over();
    s.stop();
    s.over();
    for _ in 0..4 {
        s.play(100);
        s.over();
    }
}

/// Tempos inside a song, 0 and the slowest among them, and several at one tick.
fn tempos(s: &mut Script) {
    let changed = in_frames()
        .then(2, &on(60))
        .then(1, &tempo(20_000))
        .then(1, &off(60))
        .then(1, &on(62))
        .then(0, &tempo(0))
        .then(9, &on(64))
        .then(9, &tempo(5_000))
        .then(4, &off(62))
        .then(0, &tempo(16_777_215))
        .then(0, &tempo(10_000))
        .then(3, &off(64))
        .then(0, &tempo(7_777))
        .then(3, &on(65))
        .then(3, &off(65));
    begin(s, "player: tempos", &ended(changed));
    s.start();
    for _ in 0..20 {
        s.play(1);
    }
    s.over();
    for division in [1, 96, 32_767] {
        let quick =
            (0..12).fold(Piece::default().then(0, &tempo(300 * division)), |piece, n| piece.then(1, &on(50 + n)));
        begin(s, &format!("player: a division of {division}"), &quick.song_of(division as u16));
        s.start();
        for n in [13, 1, 13, 60, 80] {
            s.play(n);
            s.over();
        }
    }
}

/// F in the middle of a song makes a player without one; the song stays lent.
fn another_player(s: &mut Script) {
    begin(s, "player: a fresh player in the middle of a song", &ended(two_bells()));
    s.start();
    s.play(4);
    s.fresh(7);
    s.over();
    s.play(9);
    s.over();
    s.start();
    s.play(9);
    s.over();
}

/// Events more than a render away, and one an hour away.
fn far_events(s: &mut Script) {
    let far = in_frames().then(5_000, &on(60)).then(4_096, &off(60));
    begin(s, "player: events more than a render away", &ended(far));
    s.start();
    for n in [4_096, 904, 1, 4_095, 1] {
        s.play(n);
        s.over();
    }
    begin(s, "player: an event at the hour", &Piece::default().then(7_200, &on(60)).song_of(1));
    s.start();
    s.play(50);
    s.over();
    s.stop();
    s.over();
    begin(s, "player: an event behind the hour", &Piece::default().then(7_201, &on(60)).song_of(1));
    s.start();
    s.play(50);
    s.over();
}
