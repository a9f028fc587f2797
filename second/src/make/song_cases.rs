//! Songs around the track: the file's length, the head's fields, chunks; each edge from both sides.

use super::song_builder::*;

pub fn all() -> Vec<Named> {
    [
        lengths_of_files(),
        heads_cut_off(),
        lengths_of_heads(),
        fields_of_heads(),
        order_of_fields(),
        chunks_in_front(),
        chunks_past_the_end(),
        chunks_cut_off(),
        names_of_chunks(),
        lengths_of_tracks(),
        behind_the_track(),
    ]
    .concat()
}

/// A note after a beat, the end of track after another.
fn tune() -> Vec<u8> {
    Piece::default().then(96, &NOTE).then(96, &END).bytes
}

/// The tune as a track, to be put behind a head.
fn track() -> Vec<u8> {
    chunk(b"MTrk", &tune())
}

fn right_head() -> Vec<u8> {
    head(0, 1, 96)
}

// The file's length

/// A song of notes in running status that is just so long; the last note is a tick or more before the end of track.
fn full(length: usize) -> Vec<u8> {
    let room = length - TRACK - NOTE.len() - 1 - END.len() - 1;
    let notes = (0..room / 3).flat_map(|n| [1, (n % 128) as u8, (n / 7 % 128) as u8]);
    let mut piece = Piece::default().then(0, &NOTE).raw(&notes.collect::<Vec<u8>>());
    let last = quantity_in(5, 1 + room % 3);
    piece = piece.raw(&last).raw(&END);
    song(960, &piece.bytes)
}

/// A song with bytes behind its track up to a length.
fn filled(length: usize) -> Vec<u8> {
    let mut file = song(96, &tune());
    file.resize(length, 0x5a);
    file
}

fn lengths_of_files() -> Vec<Named> {
    let text = meta(1, &vec![0x80; 65_536 - TRACK - tune().len() - 6]);
    let one_text = song(96, &[vec![0], text, tune()].concat());
    let mut not_ended = full(65_536);
    not_ended[65_536 - 2] = 1;
    let mut other_format = filled(65_537);
    other_format[9] = 1;
    vec![
        named("no byte", vec![]),
        named("65536 bytes of notes", full(65_536)),
        named("65536 bytes, the last event is a text and not the end", not_ended),
        named("65536 bytes, nearly all in one text", one_text),
        named("65537 bytes of notes", full(65_537)),
        named("65537 bytes, behind the track", filled(65_537)),
        named("65537 bytes, and another format", other_format),
        named("65537 bytes of nothing", vec![0; 65_537]),
        named("66000 bytes, behind the track", filled(66_000)),
    ]
}

// The head

/// A file cut off in the head or right behind it.
fn heads_cut_off() -> Vec<Named> {
    (0..14).map(|length| (format!("a head of {length} bytes"), right_head()[..length].to_vec())).collect()
}

/// A head that says a length and has so many bytes more than six.
fn head_that_says(length: u32, more: usize) -> Vec<u8> {
    let body = [head_fields(0, 1, 96), vec![0x4d; more]].concat();
    [chunk_that_says(b"MThd", length, &body), track()].concat()
}

fn lengths_of_heads() -> Vec<Named> {
    let rest = 6 + track().len() as u32;
    let says = [0, 1, 5, 7, 8, rest - 1, rest, rest + 1, 256, 0x0100_0006, 0x8000_0000, 0xffff_fff8, u32::MAX];
    let wrong = says.map(|length| (format!("a head that says {length}"), head_that_says(length, 0)));
    let longer =
        [0, 1, 2, 8, 255, 1_000].map(|more| (format!("{more} bytes more"), head_that_says(6 + more, more as usize)));
    [wrong.to_vec(), longer.to_vec()].concat()
}

fn fields_of_heads() -> Vec<Named> {
    let formats = [0, 1, 2, 255, 256, 0x8000, 65_535].map(|format| (format, 1, 96));
    let tracks = [0, 2, 16, 255, 256, 257, 0x8001, 65_535].map(|tracks| (0, tracks, 96));
    let divisions = [0, 1, 2, 24, 127, 128, 255, 256, 480, 32_767, 32_768, 32_769, 0xe250, 0xe728, 65_535];
    let divisions = divisions.map(|division| (0, 1, division));
    let all = [formats.to_vec(), tracks.to_vec(), divisions.to_vec()].concat();
    let file = |(f, t, d)| (format!("format {f}, {t} tracks, division {d}"), [head(f, t, d), track()].concat());
    all.into_iter().map(file).collect()
}

/// Each fault of the head with those behind it: the first in the file counts.
fn order_of_fields() -> Vec<Named> {
    let name = (0, b'm');
    let (length, format, tracks, division, smpte) = ((7, 5), (9, 1), (11, 2), (13, 0), (12, 0xe2));
    let past = (6, 1);
    let groups: [&[(usize, u8)]; 16] = [
        &[name, length],
        &[name, format],
        &[length, format],
        &[past, format, division],
        &[length, smpte],
        &[format, tracks],
        &[format, division],
        &[format, smpte],
        &[tracks, division],
        &[tracks, smpte],
        &[name, length, format, tracks, division],
        &[past, tracks],
        &[division, (14, b'm')],
        &[smpte, (21, 0xff)],
        &[tracks, (18, 1)],
        &[format, (18, 1)],
    ];
    let file = |changes: &&[(usize, u8)]| {
        let mut file = song(96, &tune());
        changes.iter().for_each(|(place, byte)| file[*place] = *byte);
        (format!("faults of the head {changes:?}"), file)
    };
    groups.iter().map(file).collect()
}

// Chunks

fn behind_head(chunks: &[Vec<u8>]) -> Vec<u8> {
    [right_head(), chunks.concat()].concat()
}

fn chunks_in_front() -> Vec<Named> {
    let alien = |length: usize| chunk(b"XFIH", &vec![0xff; length]);
    let with_track = chunk(b"XFKM", &track());
    let other_head = head(1, 9, 0);
    let mut list: Vec<Named> = [0, 1, 2, 3, 7, 8, 127, 128, 300]
        .map(|length| (format!("an alien chunk of {length} bytes"), behind_head(&[alien(length), track()])))
        .to_vec();
    list.extend([
        named("alien chunks one behind the other", behind_head(&[alien(0), alien(3), alien(0), alien(1), track()])),
        named("a track in an alien chunk, and one behind it", behind_head(&[with_track.clone(), track()])),
        named("a track in an alien chunk alone", behind_head(&[with_track])),
        named("a second head as an alien chunk", behind_head(&[other_head, track()])),
        named("a longer head and an alien chunk", [head_that_says(9, 3)[..17].to_vec(), alien(5), track()].concat()),
        named("alien chunks alone", behind_head(&[alien(0), alien(4)])),
        named("many alien chunks of no byte", behind_head(&[vec![alien(0); 500].concat(), track()])),
    ]);
    list
}

/// Chunks of each kind that end at the file's end, and past it; lengths that come round in 32 bits.
fn chunks_past_the_end() -> Vec<Named> {
    let rest = track().len() as u32;
    let says = [rest - 1, rest, rest + 1, 0x100, 0x8000_0000, 0xffff_ffe0, 0xffff_ffea, 0xffff_fff8, u32::MAX];
    let alien = says.map(|length| {
        let file = behind_head(&[chunk_that_says(b"XFIH", length, b""), track()]);
        (format!("an alien chunk that says {length}"), file)
    });
    let whole = tune().len() as u32;
    let says = [whole - 1, whole, whole + 1, 256, 65_536, 0x8000_0000, 0xffff_fff8, u32::MAX];
    let tracks = says.map(|length| {
        let file = behind_head(&[chunk_that_says(b"MTrk", length, &tune())]);
        (format!("a track that says {length}"), file)
    });
    [alien.to_vec(), tracks.to_vec()].concat()
}

/// A name or a length cut off by the file's end, behind the head and behind an alien chunk.
fn chunks_cut_off() -> Vec<Named> {
    let cut = |front: &[u8], length: usize| {
        let file = [front, &track()[..length]].concat();
        (format!("{length} bytes of a chunk behind {} bytes", front.len()), file)
    };
    let (near, far) = (right_head(), behind_head(&[chunk(b"XFIH", b"odd")]));
    (0..=8).flat_map(|length| [cut(&near, length), cut(&far, length)]).collect()
}

/// Names that are nearly right.
fn names_of_chunks() -> Vec<Named> {
    let tracks = [b"mtrk", b"MTRK", b"MTrK", b"MTr ", b"krTM", b"MThd", b"\0\0\0\0", b"\xff\xff\xff\xff"].map(|name| {
        [
            (format!("a track named {name:?} alone"), behind_head(&[chunk(name, &tune())])),
            (format!("a track named {name:?}, and a right one"), behind_head(&[chunk(name, b"\0"), track()])),
        ]
    });
    let heads = [(0, b'm'), (1, b't'), (2, b'H'), (3, b'D')].map(|(place, letter)| {
        let mut file = song(96, &tune());
        file[place] = letter;
        (format!("another letter at place {place}"), file)
    });
    [tracks.concat(), heads.to_vec()].concat()
}

/// Tracks that hold fewer bytes than their events, with the others behind them, and more.
fn lengths_of_tracks() -> Vec<Named> {
    let tune = tune();
    let held = |length: usize| {
        let file = behind_head(&[chunk_that_says(b"MTrk", length as u32, &tune)]);
        (format!("a track that holds {length} bytes of {}", tune.len()), file)
    };
    let mut list: Vec<Named> = (0..=tune.len()).map(held).collect();
    let end_only = Piece::default().then(0, &END).bytes;
    list.extend([
        named("an empty track and the file's end", song(96, &[])),
        named("an empty track, and a right one", behind_head(&[chunk(b"MTrk", &[]), track()])),
        named("a track without an end, and a right one", behind_head(&[chunk(b"MTrk", &tune[..4]), track()])),
        named("a track of its end alone", song(96, &end_only)),
    ]);
    list
}

/// What is behind the end of track changes nothing, in the track and behind it.
fn behind_the_track() -> Vec<Named> {
    let behind: [(&str, &[u8]); 7] = [
        ("a byte", &[0x80]),
        ("notes", &[0, 0x90, 60, 64, 0, 61, 64]),
        ("another end of track", &[0, 0xff, 0x2f, 0]),
        ("a quantity of five bytes", &[0xff, 0xff, 0xff, 0xff, 0x7f]),
        ("a status that no file has", &[0, 0xf4]),
        ("half a chunk", b"MTrk\0\0"),
        ("a chunk past the end", b"MTrk\xff\xff\xff\xff"),
    ];
    let file = |(name, bytes): (&str, &[u8])| {
        let inside = song(96, &[tune().as_slice(), bytes].concat());
        let outside = [song(96, &tune()).as_slice(), bytes].concat();
        [(format!("{name} in the track"), inside), (format!("{name} behind the track"), outside)]
    };
    let mut list: Vec<Named> = behind.into_iter().flat_map(file).collect();
    list.push(named("a second track", [song(96, &tune()), track()].concat()));
    list.push(named("alien chunks behind", [song(96, &tune()), chunk(b"XFIH", b"odd"), chunk(b"XFKM", b"")].concat()));
    list
}
