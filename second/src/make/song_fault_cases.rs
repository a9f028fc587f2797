//! Songs with faults in their track: each alone, two at once, with U past its limit, behind a longer head, and songs cut
//! off at every byte.

use super::song_builder::*;

pub fn all() -> Vec<Named> {
    let mut list = alone();
    list.extend(two_at_once());
    list.extend(head_and_track());
    list.extend(not_well_formed_and_late());
    list.extend(cut_at_every_byte());
    list
}

/// An event that is at fault whatever stands behind it, with what is right in front of it.
struct EventAtFault {
    name: &'static str,
    front: Piece,
    event: Vec<u8>,
}

fn events_at_fault() -> Vec<EventAtFault> {
    let status = Piece::default().then(1, &NOTE);
    let none = status.clone().then(1, &meta(1, b"no status"));
    let (five, past) = ([0x80, 0x80, 0x80, 0x80, 0], [0xff, 0xff, 0xff, 0x7f]);
    let with = |front: &[u8], length: &[u8]| [front, length].concat();
    let events = [
        ("data with no status", vec![60, 64]),
        ("F1", vec![0xf1]),
        ("F6", vec![0xf6]),
        ("F8", vec![0xf8]),
        ("FE", vec![0xfe]),
        ("first data byte", vec![0x90, 0x80, 64]),
        ("second data byte", vec![0x90, 60, 0x80]),
        ("second data byte in running status", vec![60, 0xff]),
        ("data byte of a program", vec![0xc0, 0x80]),
        ("data byte of a pressure", vec![0xd0, 0xff]),
        ("meta type", vec![0xff, 0x80, 0]),
        ("tempo of two bytes", vec![0xff, 0x51, 2, 7, 0]),
        ("tempo of no byte", vec![0xff, 0x51, 0]),
        ("length of a text", with(&[0xff, 1], &five)),
        ("length of F0", with(&[0xf0], &five)),
        ("length of F7", with(&[0xf7], &five)),
        ("text past the end", with(&[0xff, 1], &past)),
        ("F0 past the end", with(&[0xf0], &past)),
        ("end of track past the end", with(&[0xff, 0x2f], &past)),
        ("tempo past the end", with(&[0xff, 0x51], &past)),
    ];
    let fronts = [none].into_iter().chain(std::iter::repeat(status));
    events.into_iter().zip(fronts).map(|((name, event), front)| EventAtFault { name, front, event }).collect()
}

/// All faults of a track that are there whatever stands behind them, with what is right in front of them.
fn all_faults() -> Vec<(&'static str, Piece)> {
    let note = Piece::default().then(1, &NOTE);
    let events = events_at_fault().into_iter().map(|fault| (fault.name, fault.front.then(2, &fault.event)));
    events
        .chain([
            ("delta of five bytes", note.clone().raw(&[0x80, 0x80, 0x80, 0x80, 0]).raw(&NOTE)),
            ("too late", note.then(LARGEST_QUANTITY, &NOTE)),
        ])
        .collect()
}

/// Each fault alone, at the track's first places and later, behind a longer head and alien chunks, and as the last bytes
/// of the track.
fn alone() -> Vec<Named> {
    let file = |(name, fault): (&str, Piece)| {
        let track = fault.clone().then(0, &END).bytes;
        let long_head = chunk(b"MThd", &[head_fields(0, 1, 480), vec![0xff; 3]].concat());
        let later = (0..9).fold(Piece::default(), |p, n| p.then(3 * n, &NOTE)).raw(&fault.bytes);
        let shifted = [long_head, chunk(b"XFIH", b"MTrk?"), chunk(b"MTrk", &track)].concat();
        [
            (format!("{name}, alone"), song(96, &track)),
            (format!("{name}, later"), later.song()),
            (format!("{name}, behind more chunks"), shifted),
            (format!("{name}, last"), song(96, &fault.bytes)),
        ]
    };
    all_faults().into_iter().flat_map(file).collect()
}

/// Each fault with each other behind it.
fn two_at_once() -> Vec<Named> {
    let both = |first: &(&str, Piece), second: &(&str, Piece)| {
        let track = first.1.clone().raw(&second.1.bytes);
        (format!("{}, then {}", first.0, second.0), track.song())
    };
    let all = all_faults();
    all.iter().flat_map(|first| all.iter().map(move |second| both(first, second))).collect()
}

/// Each fault of a track behind a fault of the head or of the track's length.
fn head_and_track() -> Vec<Named> {
    let changes = [("name", 3, b'D'), ("length", 7, 5), ("format", 9, 1), ("tracks", 11, 0), ("division", 13, 0)];
    let more = [("SMPTE division", 12, 0xe8), ("track's length", 20, 1)];
    let both = |(front, place, byte): (&str, usize, u8), (name, fault): &(&str, Piece)| {
        let mut file = fault.clone().song();
        file[place] = byte;
        (format!("{front}, then {name}"), file)
    };
    let all = all_faults();
    changes.into_iter().chain(more).flat_map(|change| all.iter().map(move |fault| both(change, fault))).collect()
}

/// An event that is not well formed, at a time past the limit, just at it, and behind a late event; a bad delta time that
/// would be too late.
fn not_well_formed_and_late() -> Vec<Named> {
    let late = |EventAtFault { name, event, .. }: EventAtFault| {
        let front = Piece::default().then(0, &tempo(5_000_000));
        let at = |delta: u32| front.clone().then(3, &meta(1, b"")).then(delta, &event);
        [
            (format!("{name} at the limit"), at(69_117).song()),
            (format!("{name} past the limit"), at(69_118).song()),
            (format!("{name} far past the limit"), at(LARGEST_QUANTITY).song()),
            (format!("{name} behind a late text"), front.then(69_121, &meta(1, b"")).then(0, &event).song()),
        ]
    };
    let front = Piece::default().then(0, &tempo(0xff_ffff)).then(9, &NOTE);
    let mut list: Vec<Named> = events_at_fault().into_iter().flat_map(late).collect();
    list.extend([
        named("a late delta of five bytes", front.clone().raw(&[0xff, 0xff, 0xff, 0xff, 0x7f]).raw(&NOTE).song()),
        named("a late delta, and no event", song(96, &front.clone().raw(&quantity(LARGEST_QUANTITY)).bytes)),
        named("a late delta that is cut off", song(96, &front.raw(&[0xff, 0xff, 0xff]).bytes)),
    ]);
    list
}

/// A short song with every kind of event in it.
pub fn every_kind() -> Vec<u8> {
    Piece::default()
        .then(0, &meta(3, b"Bells"))
        .then(0, &tempo(450_000))
        .then(0, &exclusive(0xf0, &[0x7e, 0x7f, 9, 1, 0xf7]))
        .then(0, &[0xc0, 14])
        .then(0, &[0xb0, 7, 100])
        .then(200, &NOTE)
        .then(0, &[64, 90])
        .then(40_000, &[0xa0, 60, 5])
        .then(3, &[0xd0, 6])
        .then(0, &[7])
        .then(1, &[0xe0, 0, 64])
        .then(2, &exclusive(0xf7, &[0xf8]))
        .then(0, &[0x80, 60, 64])
        .then(0, &meta(0x7f, &[0; 130]))
        .then(2_100_000, &[0x90, 60, 0])
        .song_of(480)
}

/// A song with all kinds of events, cut off at every byte: the file alone, with its track's length made right, and with
/// the track's length made right and the rest of the bytes behind it.
fn cut_at_every_byte() -> Vec<Named> {
    let whole = every_kind();
    let cut = |length: usize| {
        let file = named(&format!("the first {length} bytes"), whole[..length].to_vec());
        if length < TRACK {
            return vec![file];
        }
        let says = ((length - TRACK) as u32).to_be_bytes();
        let mut shorter = whole.clone();
        shorter[TRACK - 4..TRACK].copy_from_slice(&says);
        let alone = shorter[..length].to_vec();
        vec![
            file,
            (format!("a track of the first {length} bytes"), alone),
            (format!("a track of the first {length} bytes, the others behind it"), shorter),
        ]
    };
    (0..=whole.len()).flat_map(cut).collect()
}
