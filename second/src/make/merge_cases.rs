//! Merges around the tracks: the head's fields, chunks, how many tracks there are, the room; each edge from both sides.

use super::merge_builder::*;
use super::song_builder::*;
use crate::merge_file::merge;
use crate::merges::with_room;
use crate::waves::FILE_ROOM;

pub fn all() -> Vec<Named> {
    [
        cut_at_every_byte(),
        lengths_of_heads(),
        fields_of_heads(),
        letters_of_names(),
        chunks_between(),
        chunks_past_the_end(),
        tracks_missing(),
        behind_the_tracks(),
        numbers_of_tracks(),
        long_files(),
        rooms(),
        rooms_of_refused(),
    ]
    .concat()
}

// The head

fn cut_at_every_byte() -> Vec<Named> {
    let file = two_notes();
    (0..=file.len()).map(|cut| roomy(format!("cut at {cut}"), file[..cut].to_vec())).collect()
}

/// Two notes behind a head that says a length and has so many bytes more than six.
fn head_that_says(length: u32, more: usize) -> Vec<u8> {
    let body = [head_fields(1, 2, 96), vec![0x4d; more]].concat();
    [chunk_that_says(b"MThd", length, &body), two_notes()[14..].to_vec()].concat()
}

fn lengths_of_heads() -> Vec<Named> {
    let rest = two_notes().len() as u32 - 8;
    let says = [0, 1, 5, 6, 7, 8, 22, rest - 1, rest, rest + 1, 256, 0x0100_0006, 0x8000_0000, 0xffff_fff8, u32::MAX];
    let wrong = says.map(|length| roomy(format!("a head that says {length}"), head_that_says(length, 0)));
    let longer = [1, 2, 5, 8, 255].map(|more| roomy(format!("{more} more"), head_that_says(6 + more, more as usize)));
    [wrong.to_vec(), longer.to_vec()].concat()
}

/// Every format with every number of tracks and every division, so that each of two or three faults is the first.
fn fields_of_heads() -> Vec<Named> {
    let mut list = Vec::new();
    for format in [0, 1, 2, 255, 256, 257, 65_535] {
        for tracks in [0, 1, 2, 3, 255, 256, 257, 512, 65_535] {
            for division in [0, 1, 96, 32_767, 32_768, 0xe728, 65_535] {
                let file = [head(format, tracks, division), two_notes()[14..].to_vec()].concat();
                list.push(roomy(format!("format {format}, {tracks} tracks, division {division}"), file));
            }
        }
    }
    list
}

fn letters_of_names() -> Vec<Named> {
    let second = TRACK + 8;
    let places = [0, 1, 2, 3, 14, 15, 16, 17, second, second + 1, second + 2, second + 3];
    places.map(|place| roomy(format!("another letter at {place}"), with(two_notes(), place, b'x'))).to_vec()
}

// Chunks

/// The chunks of two notes.
fn two_chunks() -> [Vec<u8>; 2] {
    [then(96, &NOTE), then(192, &NOTE)].map(|piece| chunk(b"MTrk", &piece.then(0, &END).bytes))
}

/// Chunks behind a head that wants two tracks.
fn behind_head(chunks: &[&[u8]]) -> Vec<u8> {
    [head(1, 2, 96), chunks.concat()].concat()
}

/// Chunks of other names in front of the first track, between the two, behind both, and everywhere.
fn chunks_between() -> Vec<Named> {
    let [one, two] = two_chunks();
    let others: [(&[u8; 4], &[u8]); 7] = [
        (b"XFIH", b""),
        (b"XFIH", b"x"),
        (b"mtrk", b"odd"),
        (b"MThd", b"\0\x01\0\x01\0\x60"),
        (b"MTrK", b"MTrk\0\0\0\0"),
        (b"MTr\0", b"\0\xff\x2f\0"),
        (b"\xff\xff\xff\xff", b"12345678"),
    ];
    let of = |(name, body): (&[u8; 4], &[u8])| {
        let alien = chunk(name, body);
        let orders: [&[&[u8]]; 4] = [
            &[&alien, &one, &two],
            &[&one, &alien, &two],
            &[&one, &two, &alien],
            &[&alien, &alien, &one, &alien, &alien, &two, &alien],
        ];
        orders.map(|chunks| roomy(format!("other chunks {name:?}"), behind_head(chunks)))
    };
    others.into_iter().flat_map(of).collect()
}

/// Chunks of each kind as the first, the second and the third, that end at the file's end or past it.
fn chunks_past_the_end() -> Vec<Named> {
    let [one, _] = two_chunks();
    let alien = chunk(b"XFIH", b"xyz");
    let fronts: [&[&[u8]]; 4] = [&[], &[&one], &[&one, &alien], &[&alien, &one]];
    let mut list = Vec::new();
    for front in fronts {
        for name in [b"MTrk", b"XFIH"] {
            for length in [0, 3, 4, 5, 0x100, 0x8000_0000, 0xffff_ffe0, 0xffff_fff8, u32::MAX] {
                let last = chunk_that_says(name, length, &END_NOW);
                let file = behind_head(&[&front.concat(), &last]);
                list.push(roomy(format!("a chunk that says {length} behind {}", front.len()), file));
            }
        }
    }
    list
}

/// Fewer tracks than the head says, with other chunks in their places.
fn tracks_missing() -> Vec<Named> {
    let [one, two] = two_chunks();
    let alien = chunk(b"XFIH", b"xyz");
    let kinds: [&[&[u8]]; 6] =
        [&[], &[&alien], &[&one], &[&one, &alien], &[&alien, &two, &alien, &alien], &[&alien, &alien]];
    kinds.map(|chunks| roomy("a track is missing", behind_head(chunks))).to_vec()
}

/// What is behind the end of track in each chunk, and behind the last wanted chunk.
fn behind_the_tracks() -> Vec<Named> {
    let behind: [&[u8]; 7] = [&[0x80], &[0, 60, 64], &END_NOW, &[0xff; 6], &[0, 0xf4], b"MT", b"MTrk\xff\xff\xff\xff"];
    let [one, two] = [then(96, &NOTE), then(192, &NOTE)].map(|piece| piece.then(0, &END));
    let of = |bytes: &[u8]| {
        let [longer_one, longer_two] = [&one, &two].map(|piece| piece.clone().raw(bytes));
        [
            roomy("behind the first end", tracks(&[&longer_one.bytes, &two.bytes])),
            roomy("behind the last end", tracks(&[&one.bytes, &longer_two.bytes])),
            roomy("behind the last track", [tracks(&[&one.bytes, &two.bytes]).as_slice(), bytes].concat()),
        ]
    };
    let mut list: Vec<Named> = behind.into_iter().flat_map(of).collect();
    let bodies = [one.bytes.as_slice(), &two.bytes, &[0, 0xf1]];
    for wanted in [1, 2, 3] {
        list.push(roomy(format!("{wanted} of three tracks"), [head(1, wanted, 96), chunks(&bodies)].concat()));
    }
    list.push(roomy("one of three tracks in format 0", [head(0, 1, 96), chunks(&bodies)].concat()));
    list
}

// How many tracks

/// A note in each of so many tracks, and the number that the head says.
fn many(says: u16, tracks: usize) -> Vec<u8> {
    let body = |n: usize| then((n * 7 % 5) as u32, &[0x90 | (n % 16) as u8, (n % 128) as u8, 64]).then(0, &END).bytes;
    [head(1, says, 96), (0..tracks).flat_map(|n| chunk(b"MTrk", &body(n))).collect()].concat()
}

fn numbers_of_tracks() -> Vec<Named> {
    let mut list = Vec::new();
    for (says, there) in [(255, 255), (255, 256), (256, 255), (256, 256), (256, 257), (257, 256), (257, 257)] {
        list.push(roomy(format!("{there} tracks of {says}"), many(says, there)));
    }
    let whole = many(256, 256);
    let last = whole.len() - 7;
    list.push(roomy("no event in the last of 256 tracks", with(whole.clone(), last, 0xf1)));
    list.push(roomy("a fault in the first of 256 tracks", with(whole.clone(), TRACK + 1, 0xf1)));
    list.push(roomy("a cut in the last of 256 tracks", whole[..whole.len() - 1].to_vec()));
    let ends = [head(1, 256, 96), chunks(&[&END_NOW[..]; 256])].concat();
    list.push(roomy("256 tracks of their ends alone", ends));
    list
}

// Lengths

/// Files nearly as long as there is room for: one of texts, which are left out, and one of notes.
fn long_files() -> Vec<Named> {
    let text = meta(1, &vec![0x80; 33_000 - 40]);
    let texts = ended(&[then(1, &text).then(1, &NOTE), then(0, &text).then(1, &NOTE)]);
    let notes = |status: u8| {
        let events = (0..7_310).flat_map(|n: u32| [(n % 3) as u8, (n % 128) as u8, (n / 7 % 128) as u8]);
        then(0, &[status, 60, 64]).raw(&events.collect::<Vec<u8>>())
    };
    let same = ended(&[notes(0x90), notes(0x90), notes(0x90)]);
    vec![("texts".to_string(), with_room(&texts, 60)), ("notes".to_string(), with_room(&same, FILE_ROOM))]
}

/// Rooms around what the merged song needs, around its head, and none.
fn rooms() -> Vec<Named> {
    let silent = tracks(&[&END_NOW, &END_NOW]);
    let bridged = ended(&[then(0, &tempo(0)).wait(3 * LARGEST_QUANTITY as u64).then(1, &NOTE)]);
    let notes = |status: u8| (0..40).fold(then(1, &[status, 60, 64]), |piece, _| piece.then(2, &[60, 64]));
    let longer = ended(&[notes(0x90), notes(0x91)]);
    let mut list = Vec::new();
    for file in [silent, two_notes(), bridged, longer] {
        let need = merge(&file, FILE_ROOM as usize).expect("a right song").len() as u32;
        let near = [need - 3, need - 2, need - 1, need, need + 1, need + 2, 2 * need, file.len() as u32];
        for room in near.into_iter().chain([0, 1, 13, 14, 21, 22, 23]) {
            list.push((format!("a room of {room} for {need}"), with_room(&file, room)));
        }
    }
    list.push(named("the largest room", with_room(&two_notes(), FILE_ROOM)));
    list
}

/// Each refusal with no room and with room: the room is tested last, and stays as it is.
fn rooms_of_refused() -> Vec<Named> {
    let late = ended(&[then(HOUR + 1, &NOTE)]);
    let files = [
        vec![],
        with(two_notes(), 9, 2),
        with(two_notes(), 10, 2),
        with(two_notes(), 12, 0x80),
        with(late.clone(), 9, 2),
        late,
        tracks(&[&END_NOW, &[0, 0xf1]]),
        two_notes()[..TRACK].to_vec(),
    ];
    let of = |file: Vec<u8>| [0, 1, 22, 100].map(|room| (format!("refused, {room}"), with_room(&file, room)));
    files.into_iter().flat_map(of).collect()
}
