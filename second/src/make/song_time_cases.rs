//! Songs by their time: tempos, frames at the edge of rounding, and U at its limit.

use super::song_builder::*;

pub fn all() -> Vec<Named> {
    [
        tempos(),
        lengths_of_tempos(),
        tempos_at_one_tick(),
        edges_of_frames(),
        rounding_is_not_carried(),
        limits(),
        far_past_the_limit(),
        at_the_limit_for_long(),
    ]
    .concat()
}

fn piece() -> Piece {
    Piece::default()
}

// Tempos

const TEMPOS: [u32; 16] =
    [0, 1, 2, 127, 128, 255, 256, 32_767, 32_768, 65_535, 65_536, 499_999, 500_001, 8_388_607, 8_388_608, 16_777_215];

/// Each tempo from behind its event on: the delta time in front of it is by the tempo before.
fn tempos() -> Vec<Named> {
    let file = |micros: u32| {
        let song = |division| {
            piece().then(60, &NOTE).then(60, &tempo(micros)).then(60, &NOTE).then(61, &[62, 0]).song_of(division)
        };
        [1, 96, 32_767].map(|division| (format!("tempo {micros}, division {division}"), song(division)))
    };
    let back = piece().then(9, &tempo(0)).then(LARGEST_QUANTITY, &NOTE).then(9, &tempo(600_000)).then(96, &NOTE);
    TEMPOS.into_iter().flat_map(file).chain([named("tempo 0 and back", back.song())]).collect()
}

/// Tempos of too few bytes, and of more than three, of which the first three count.
fn lengths_of_tempos() -> Vec<Named> {
    let file = |length: usize| {
        let said: Vec<u8> = [3, 2, 1].into_iter().chain(4..).take(length).collect();
        let event = [&[0xff, 0x51], quantity(length as u32).as_slice(), said.as_slice()].concat();
        let short = song(96, &piece().then(5, &event).bytes);
        [
            (format!("a tempo of {length} bytes"), piece().then(5, &event).then(96, &NOTE).song()),
            (format!("a tempo of {length} bytes at the track's end"), short),
        ]
    };
    [0, 1, 2, 3, 4, 5, 127, 128, 200].into_iter().flat_map(file).collect()
}

/// Tempos one behind the other, and between events at one tick: the last counts, from behind it on.
fn tempos_at_one_tick() -> Vec<Named> {
    let [slow, fast] = [2_000_000, 300_000].map(tempo);
    vec![
        named("two tempos", piece().then(96, &slow).then(0, &fast).then(96, &NOTE).song()),
        named("two tempos the other way", piece().then(96, &fast).then(0, &slow).then(96, &NOTE).song()),
        named(
            "tempos between notes at one tick",
            piece()
                .then(10, &NOTE)
                .then(0, &slow)
                .then(0, &NOTE)
                .then(0, &fast)
                .then(0, &NOTE)
                .then(10, &NOTE)
                .then(10, &slow)
                .then(0, &NOTE)
                .then(10, &NOTE)
                .song(),
        ),
        named("a tempo in front of the end alone", piece().then(10, &NOTE).then(10, &slow).song()),
        named(
            "a tempo for each note",
            (1..300).fold(piece(), |p, n| p.then(n, &tempo(n * 7_919)).then(n % 5, &NOTE)).song_of(480),
        ),
    ]
}

// Rounding

/// At one microsecond a beat U is the number of ticks: notes one below, at and above the first U of a frame.
fn edges_of_frames() -> Vec<Named> {
    let first_of = |frame: u64, division: u64| (frame * division * 1_000_000).div_ceil(44_100);
    let file = |division: u64| {
        let (mut song, mut u) = (piece().then(0, &tempo(1)), 0);
        for frame in [1, 2, 3, 10, 440, 441, 442, 882, 4_410, 44_099, 44_100, 44_101] {
            let ticks = first_of(frame, division) - 1 - u;
            song = song.wait(ticks).then(0, &NOTE).then(1, &[61, 64]).then(1, &[62, 64]);
            u += ticks + 2;
        }
        (format!("the edges of frames, division {division}"), song.song_of(division as u16))
    };
    [1, 2, 7, 24, 96, 100, 441, 480, 960, 9_999, 32_767].map(file).to_vec()
}

/// Many events, each of a part of a frame; and a beat that is a microsecond shorter or longer than a second.
fn rounding_is_not_carried() -> Vec<Named> {
    let run = |micros: u32, division: u16, delta: u32| {
        let first = piece().then(0, &tempo(micros)).then(delta, &NOTE);
        let song = (0..500).fold(first, |p, n| p.then(delta, &[60, n as u8 % 2]));
        (format!("500 steps of {delta} at {micros}, division {division}"), song.song_of(division))
    };
    let beat = |micros: u32| {
        let song = piece().then(0, &tempo(micros)).then(96, &NOTE).then(96, &[60, 0]).then(480, &[61, 1]);
        (format!("beats of {micros}"), song.song())
    };
    let mut list =
        vec![run(2_177, 96, 1), run(22_675, 1, 1), run(22_676, 1, 1), run(500_001, 32_767, 1), run(333_333, 480, 7)];
    list.extend([999_999, 1_000_000, 1_000_001].map(beat));
    list
}

// The limit of U

/// The limit holds for every event.
fn event_kinds() -> [(&'static str, Vec<u8>); 8] {
    [
        ("a note", NOTE.to_vec()),
        ("a program", vec![0xc0, 1]),
        ("a text", meta(1, b"late")),
        ("a tempo", tempo(1)),
        ("a tempo of 0", tempo(0)),
        ("F0", exclusive(0xf0, b"late\xf7")),
        ("F7", exclusive(0xf7, b"")),
        ("the end of track", END.to_vec()),
    ]
}

/// U at 3,600,000,000 times the division, one below and one above, by the last delta time and by the last tempo, for each
/// kind of event.
fn limits() -> Vec<Named> {
    let near = |division: u16, event: &(&str, Vec<u8>)| [-1, 0, 1].map(|more| near_the_limit(division, event, more));
    let of = |division| event_kinds().into_iter().flat_map(move |event| near(division, &event).concat());
    [1, 2, 96, 1_000, 32_767].into_iter().flat_map(of).collect()
}

/// At 500,000 an hour has 7,200 beats; the last tick of them is played at another tempo.
fn near_the_limit(division: u16, (name, event): &(&str, Vec<u8>), more: i32) -> [Named; 2] {
    let last = (500_000 + more) as u32;
    let near = |micros: u32| piece().then(50, &NOTE).then(7_200 * division as u32 - 51, &tempo(micros));
    let by_delta = near(1).then(last, event).then(0, &NOTE);
    let by_tempo = near(last).then(1, event).then(0, &NOTE);
    [
        (format!("{name} {more} by delta, division {division}"), by_delta.song_of(division)),
        (format!("{name} {more} by tempo, division {division}"), by_tempo.song_of(division)),
    ]
}

fn far_past_the_limit() -> Vec<Named> {
    let most = LARGEST_QUANTITY;
    vec![
        named("the longest delta at the start", piece().then(most, &NOTE).song()),
        named("the longest delta at the slowest tempo", piece().then(0, &tempo(0xff_ffff)).then(most, &NOTE).song()),
        named("the same, division 1", piece().then(0, &tempo(0xff_ffff)).then(most, &NOTE).song_of(1)),
        named("the same, division 32767", piece().then(0, &tempo(0xff_ffff)).then(most, &NOTE).song_of(32_767)),
        named("the longest delta in front of a tempo of 0", piece().then(most, &tempo(0)).then(0, &NOTE).song()),
        named("a tick past the hour in running status", piece().then(691_200, &NOTE).then(1, &[60, 0]).song()),
        named("a late end of track alone", song(96, &piece().then(0, &NOTE).then(691_201, &END).bytes)),
        named("an end of track at the hour", song(96, &piece().then(0, &NOTE).then(691_200, &END).bytes)),
        named("a late event behind the end of track", piece().then(0, &NOTE).then(9, &END).then(most, &NOTE).song()),
        named(
            "past the hour in many steps",
            (0..120).fold(piece().then(0, &NOTE), |p, _| p.then(5_761, &[60, 1])).song(),
        ),
        named(
            "to the hour in many steps",
            (0..120).fold(piece().then(0, &NOTE), |p, _| p.then(5_760, &[60, 1])).song(),
        ),
    ]
}

/// At the limit U may stand for any number of events and ticks of no length.
fn at_the_limit_for_long() -> Vec<Named> {
    let there = piece().then(691_200, &NOTE).then(0, &[61, 1]);
    let stays = there.clone().then(0, &tempo(0)).then(LARGEST_QUANTITY, &NOTE).then(LARGEST_QUANTITY, &[62, 2]);
    vec![
        named("notes at the hour", there.clone().then(0, &[63, 1]).then(0, &meta(1, b"twelve")).song()),
        named("a tempo of 0 at the hour", stays.clone().song()),
        named("a tempo of 1 at the hour, and a tick", there.then(0, &tempo(1)).then(1, &NOTE).song()),
        named("tempo 0 for long, then a tick", stays.then(0, &tempo(1)).then(1, &NOTE).song()),
    ]
}
