//! Songs by their track's events: quantities, channel events, running status, meta and system exclusive events, the end of
//! track; each edge from both sides.

use super::song_builder::*;

pub fn all() -> Vec<Named> {
    [
        delta_times(),
        delta_times_cut_off(),
        lengths_in_events(),
        channel_events(),
        data_bytes(),
        data_bytes_missing(),
        statuses_of_no_event(),
        running_status(),
        running_status_ended(),
        meta_types(),
        exclusive_bytes(),
        ends_of_track(),
    ]
    .concat()
}

fn piece() -> Piece {
    Piece::default()
}

// Quantities

/// Values at the edges of one to four bytes, and values in more bytes than they need.
const QUANTITIES: [(u32, usize); 18] = [
    (0, 1),
    (1, 1),
    (0x7f, 1),
    (0x80, 2),
    (0x3fff, 2),
    (0x4000, 3),
    (0x1f_ffff, 3),
    (0x20_0000, 4),
    (LARGEST_QUANTITY, 4),
    (0, 2),
    (0, 3),
    (0, 4),
    (0, 5),
    (0x7f, 4),
    (0x7f, 5),
    (0x3fff, 5),
    (LARGEST_QUANTITY, 5),
    (1, 6),
];

/// Each as the first delta time and as a later one, at a tempo at which the longest is not too late.
fn delta_times() -> Vec<Named> {
    let file = |(value, bytes): (u32, usize)| {
        let delta = quantity_in(value, bytes);
        let slow = piece().then(0, &tempo(1_000));
        let first = piece().raw(&delta).raw(&tempo(1)).then(1, &NOTE);
        let later = slow.clone().then(3, &NOTE).raw(&delta).raw(&[61, 64]).then(5, &[62, 64]);
        let last = slow.then(3, &NOTE).raw(&delta).raw(&END);
        [
            (format!("first delta {value} in {bytes}"), first.song()),
            (format!("later delta {value} in {bytes}"), later.song()),
            (format!("last delta {value} in {bytes}"), song(96, &last.bytes)),
        ]
    };
    QUANTITIES.into_iter().flat_map(file).collect()
}

/// Delta times that the track's end cuts off, with the file's end there or with bytes that would go on.
fn delta_times_cut_off() -> Vec<Named> {
    let file = |bytes: usize| {
        let cut = piece().then(9, &NOTE).raw(&vec![0x81; bytes]).bytes;
        let behind = [song(96, &cut), vec![0, 0xff, 0x2f, 0]].concat();
        [
            (format!("{bytes} bytes of a delta time"), song(96, &cut)),
            (format!("{bytes} bytes of a first delta time"), song(96, &cut[4..])),
            (format!("{bytes} bytes of a delta time, the file goes on"), behind),
        ]
    };
    (0..=5).flat_map(file).collect()
}

/// The first bytes of meta and system exclusive events, behind which a length stands.
const FRONTS: [&[u8]; 6] = [&[0xff, 0x01], &[0xff, 0x51], &[0xff, 0x7f], &[0xff, 0x2f], &[0xf0], &[0xf7]];

/// Meta and system exclusive lengths: as large as the bytes that are there, one larger, in one to five bytes, cut off.
fn lengths_in_events() -> Vec<Named> {
    let files = |front: &&[u8]| [lengths_that_fit(front), lengths_past_the_end(front), lengths_cut_off(front)].concat();
    let nothing = named("FF and nothing behind it", song(96, &[3, 0xff]));
    FRONTS.iter().flat_map(files).chain([nothing]).collect()
}

/// An event with a length and so many bytes behind it.
fn event_with(front: &[u8], length: &[u8], said: u32) -> Piece {
    piece().raw(&[3]).raw(front).raw(length).raw(&vec![0x11; said as usize])
}

fn lengths_that_fit(front: &[u8]) -> Vec<Named> {
    let file = |(said, bytes): (u32, usize)| {
        let song = event_with(front, &quantity_in(said, bytes), said).then(2, &NOTE).song();
        (format!("{front:x?} with {said} bytes, the length in {bytes}"), song)
    };
    [(0, 1), (5, 1), (5, 2), (5, 3), (5, 4), (5, 5), (127, 1), (128, 2), (300, 4), (300, 5)].map(file).to_vec()
}

fn lengths_past_the_end(front: &[u8]) -> Vec<Named> {
    let file = |said: u32| {
        let file = song(96, &event_with(front, &quantity(said), 5).bytes);
        let longer = [file.as_slice(), &[0; 9]].concat();
        [
            (format!("{front:x?} says {said} bytes, and 5 are left in the track"), file),
            (format!("{front:x?} says {said} bytes, and the file goes on"), longer),
        ]
    };
    [4, 5, 6, 1_000, LARGEST_QUANTITY].into_iter().flat_map(file).collect()
}

fn lengths_cut_off(front: &[u8]) -> Vec<Named> {
    let file = |bytes: usize| {
        let song = song(96, &event_with(front, &vec![0x80; bytes], 0).bytes);
        (format!("{front:x?} with {bytes} bytes of a length"), song)
    };
    (0..=4).map(file).collect()
}

// Channel events

/// Each kind with its number of data bytes.
const KINDS: [(u8, usize); 7] = [(0x80, 2), (0x90, 2), (0xa0, 2), (0xb0, 2), (0xc0, 1), (0xd0, 1), (0xe0, 2)];

/// Each kind on the first and last channel, written out and in running status, at the least and largest data; all
/// channels.
fn channel_events() -> Vec<Named> {
    let kind = |(status, count): (u8, usize)| {
        let [least, most] = [0, 0x7f].map(|data| vec![data; count]);
        let out = |piece: Piece, channel: u8, data: &[u8]| piece.then(40, &[&[status | channel], data].concat());
        let written = out(out(out(piece(), 0, &least), 0, &most), 15, &least);
        let running = out(piece(), 15, &most).then(40, &least).then(0, &most).then(200, &least);
        [
            (format!("kind {status:x} written out"), written.song()),
            (format!("kind {status:x} in running status"), running.song()),
        ]
    };
    let all = (0x80..=0xefu8).fold(piece(), |so_far, status| {
        let data = [1, 2];
        so_far.then(1, &[status]).raw(&data[..if status & 0xe0 == 0xc0 { 1 } else { 2 }])
    });
    KINDS.into_iter().flat_map(kind).chain([named("every status", all.song())]).collect()
}

/// An event of a kind, written out.
fn event_of(status: u8, data: &[u8]) -> Vec<u8> {
    [&[status], data].concat()
}

/// A data byte at 80 hex and above in each of its places, and at 7F.
fn data_bytes() -> Vec<Named> {
    let bytes = [(0, 0x7f), (0, 0x80), (0, 0xff), (1, 0x7f), (1, 0x80), (1, 0xf8), (1, 0xff)];
    let file = |(status, count): (u8, usize), (place, byte): (usize, u8)| {
        let right = vec![5; count];
        let mut data = right.clone();
        data[place] = byte;
        let written = piece().then(7, &event_of(status, &data)).then(1, &data);
        let running = piece().then(7, &event_of(status, &right)).then(9, &data);
        [
            (format!("{status:x}, data {place} is {byte:x}"), written.song()),
            (format!("{status:x}, data {place} is {byte:x} in running status"), running.song()),
        ]
    };
    let files = |kind: (u8, usize)| {
        let there = bytes.into_iter().filter(move |(place, _)| *place < kind.1);
        there.flat_map(move |byte| file(kind, byte))
    };
    KINDS.into_iter().flat_map(files).collect()
}

/// Data bytes past the track's end, written out and in running status, with the file's end there or not.
fn data_bytes_missing() -> Vec<Named> {
    let files = |(status, count)| (0..=count).flat_map(move |have| data_bytes_had(status, count, have));
    KINDS.into_iter().flat_map(files).collect()
}

fn data_bytes_had(status: u8, count: usize, have: usize) -> [Named; 4] {
    let data = vec![5; count];
    let written = piece().then(7, &event_of(status, &data[..have]));
    let running = piece().then(7, &event_of(status, &data)).then(9, &data[..have]);
    let [written, running] = [written, running].map(|track| song(96, &track.bytes));
    let on = |file: &Vec<u8>| [file.as_slice(), &[6; 3]].concat();
    let name = format!("{status:x} with {have} bytes");
    [
        (format!("{name}, the file goes on"), on(&written)),
        (format!("{name} in running status, the file goes on"), on(&running)),
        (format!("{name} in running status"), running),
        (name, written),
    ]
}

/// F1 to F6 and F8 to FE as the first event, as a later one, behind a status, and where they are bytes like all others.
fn statuses_of_no_event() -> Vec<Named> {
    let file = |status: u8| {
        [
            (format!("{status:x} as the first event"), piece().then(7, &[status, 0, 0]).song()),
            (format!("{status:x} as a later event"), piece().then(7, &NOTE).then(200, &[status]).song()),
            (format!("{status:x} at the track's end"), song(96, &piece().then(7, &[status]).bytes)),
            (format!("{status:x} for data"), piece().then(7, &[0x90, 60, status]).song()),
            (format!("{status:x} behind a status"), piece().then(7, &[0x90, status, 60]).song()),
            (format!("{status:x} in a text"), piece().then(7, &meta(1, &[status])).then(2, &NOTE).song()),
            (format!("{status:x} in F0"), piece().then(7, &exclusive(0xf0, &[status])).then(2, &NOTE).song()),
        ]
    };
    (0xf1..=0xfe).filter(|status| *status != 0xf7).flat_map(file).collect()
}

// Running status

fn running_status() -> Vec<Named> {
    let over = |status: u8| piece().then(0, &NOTE).then(4, &[61, 0]).then(4, &[status, 62]);
    vec![
        named("data with no status before", piece().then(0, &[60, 64]).song()),
        named("data 00 with no status before", piece().then(200, &[0, 0]).song()),
        named("data 7F with no status before", piece().then(0, &[0x7f]).song()),
        named("from two bytes of data to one", over(0xc3).then(1, &[63]).then(1, &[64]).song()),
        named("from one byte of data to two", over(0xd0).then(1, &[0x83, 1, 2]).then(1, &[3, 4]).song()),
        named("to another channel", over(0xdf).then(1, &[0xd1, 7]).then(0, &[8]).song()),
        named(
            "the status again and again",
            piece().then(0, &NOTE).then(1, &NOTE).then(1, &[1, 2]).then(1, &NOTE).song(),
        ),
        named("a long run", (0..200).fold(piece().then(0, &NOTE), |p, n| p.then(n, &[n as u8 % 128, 1])).song()),
        named("delta times that look like status", piece().then(0x90, &NOTE).then(0x3fff, &[1, 2]).song()),
    ]
}

/// Meta and system exclusive events end running status: data behind them is refused, a status goes on.
fn running_status_ended() -> Vec<Named> {
    let between = [
        ("a text", meta(1, b"x")),
        ("an empty text", meta(1, b"")),
        ("a tempo", tempo(400_000)),
        ("a meta event of type 7F", meta(0x7f, &[0x90, 60, 64])),
        ("F0", exclusive(0xf0, &[1, 2, 0xf7])),
        ("an empty F0", exclusive(0xf0, &[])),
        ("F7", exclusive(0xf7, &[0x90])),
        ("an empty F7", exclusive(0xf7, &[])),
    ];
    let file = |(name, event): (&str, Vec<u8>)| {
        let front = piece().then(0, &NOTE).then(10, &[61, 64]).then(10, &event);
        [
            (format!("running status over {name}"), front.clone().then(10, &[62, 64]).song()),
            (format!("running status over {name} twice"), front.clone().then(0, &event).then(10, &[62, 64]).song()),
            (format!("a status behind {name}"), front.clone().then(10, &[0x90, 62, 64]).then(1, &[63, 64]).song()),
            (format!("data behind {name} that comes first"), piece().then(0, &event).then(10, &[62, 64]).song()),
        ]
    };
    between.into_iter().flat_map(file).collect()
}

// Meta and system exclusive events

/// Every type of a meta event, empty and with three bytes, and types of 80 hex and above.
fn meta_types() -> Vec<Named> {
    let file = |kind: u8| {
        let event = |said: &[u8]| [&[0xff, kind, said.len() as u8], said].concat();
        [
            (format!("meta type {kind:x}"), piece().then(9, &event(&[6, 0, 0])).then(96, &NOTE).song()),
            (format!("meta type {kind:x}, empty"), piece().then(9, &event(&[])).then(96, &NOTE).song()),
        ]
    };
    let cut = named("meta type 80 and nothing behind it", song(96, &[0, 0xff, 0x80]));
    (0..=0x82).chain([0xaf, 0xd1, 0xfe, 0xff]).flat_map(file).chain([cut]).collect()
}

/// System exclusive events with every byte in them, one behind the other, and with no F7 at their end.
fn exclusive_bytes() -> Vec<Named> {
    let every: Vec<u8> = (0..=255).collect();
    let front = |status: u8| piece().then(3, &exclusive(status, &every));
    let pieces = piece().then(1, &exclusive(0xf0, &[0x43, 0x12])).then(200, &exclusive(0xf7, &[0x43, 0xf7]));
    vec![
        named("every byte in F0", front(0xf0).then(5, &NOTE).song()),
        named("every byte in F7", front(0xf7).then(5, &NOTE).song()),
        named("F0 and its parts in F7", pieces.then(5, &NOTE).song()),
        named("an end of track in F0", piece().then(3, &exclusive(0xf0, &END)).then(5, &NOTE).song()),
        named("an end of track in a text", piece().then(3, &meta(1, &END)).then(5, &NOTE).song()),
    ]
}

/// The end of track early, late, missing, with bytes of its own, and cut off.
fn ends_of_track() -> Vec<Named> {
    let note = piece().then(50, &NOTE);
    let ended = |said: &[u8]| song(96, &note.clone().then(7, &meta(0x2f, said)).raw(&[0, 61, 64]).bytes);
    let mut list = vec![
        named("the end of track at once", song(96, &piece().then(0, &END).then(0, &NOTE).bytes)),
        named("the end of track between notes", note.clone().then(9, &END).then(9, &NOTE).song()),
        named("the end of track late", song(96, &note.clone().then(100_000, &END).bytes)),
        named("no end of track", song(96, &note.bytes)),
        named("no end of track behind a text", song(96, &note.clone().then(0, &meta(1, b"the end")).bytes)),
        named("an end of track with FF for its length", song(96, &note.clone().raw(&[0, 0xff, 0x2f, 0xff]).bytes)),
    ];
    list.extend(
        [1, 2, 3, 127, 128, 200].map(|bytes| (format!("an end of track of {bytes} bytes"), ended(&vec![9; bytes]))),
    );
    let whole = note.then(300, &meta(0x2f, b"end")).bytes;
    list.extend(
        (4..whole.len()).map(|length| (format!("{length} bytes, the end cut off"), song(96, &whole[..length]))),
    );
    list
}
