//! Fonts: the form, sizes and pad bytes, chunks and lists in their orders, faults; each edge from both sides.

use super::font_builder::*;

pub fn all() -> Vec<Named> {
    [
        beginnings(),
        sizes_of_forms(),
        behind_the_form(),
        chunks_cut_off(),
        sizes_of_chunks(),
        sizes_of_lists(),
        pad_bytes(),
        orders(),
        others_stepped_over(),
        names_in_other_places(),
        several_of_a_kind(),
        what_is_not_walked(),
        missing_parts(),
        several_faults(),
        sizes_of_parts(),
        cut_at_every_byte(),
        one_byte_off(),
    ]
    .concat()
}

// The form

/// Files of fewer bytes than a beginning has, and beginnings with a wrong letter.
fn beginnings() -> Vec<Named> {
    let short = (0..=12).map(|length| (format!("the first {length} bytes"), font()[..length].to_vec()));
    let letters = [(0, b'r'), (1, b'i'), (2, b'f'), (3, b'X'), (8, b'S'), (9, b'F'), (10, b'B'), (11, b' ')];
    let wrong = letters.map(|(place, letter)| {
        let mut file = font();
        file[place] = letter;
        (format!("another letter at place {place}"), file)
    });
    let mut both = font();
    both[0] = 0;
    both[8] = 0;
    let other = [
        named("both names wrong", both),
        named("a wave file", bare(b"RIFF", &[b"WAVE".as_slice(), &chunk(b"smpl", &body(4))].concat())),
        named("another type, and past the end", chunk_that_says(b"RIFF", 99, b"WAVE")),
        named("another name, and past the end", chunk_that_says(b"RIFX", 99, b"sfbk")),
        named("a list of the type sfbk", bare(b"LIST", b"sfbk")),
    ];
    short.chain(wrong).chain(other).collect()
}

fn sizes_of_forms() -> Vec<Named> {
    let parts = [info(), data(6), bank(10)];
    let near: Vec<Named> =
        (-20..=3).map(|more| (format!("a form that says {more} more"), form_that_says(more, &parts))).collect();
    let says = [0, 1, 2, 3, 4, 5, 11, 12, 0x7fff_ffff, 0x8000_0000, 0xffff_fff7, 0xffff_fff8, u32::MAX];
    let other = says.map(|size| {
        let mut file = font();
        file[4..8].copy_from_slice(&size.to_le_bytes());
        (format!("a form that says {size}"), file)
    });
    let empty =
        [0, 3, 4, 5].map(|size| (format!("nothing, and it says {size}"), chunk_that_says(b"RIFF", size, b"sfbk")));
    [near, other.to_vec(), empty.to_vec()].concat()
}

/// What stands behind the form changes nothing.
fn behind_the_form() -> Vec<Named> {
    let more: [&[u8]; 6] = [b"\0", b"LIST", b"LIST\xff\xff\xff\xff", b"junk\0\0\0\0", &bank(4), &font()];
    let file = |bytes: &[u8]| {
        let short = form(&[info(), data(6)]);
        [
            (format!("{} bytes behind", bytes.len()), [font().as_slice(), bytes].concat()),
            (format!("{} bytes behind a form without a bank", bytes.len()), [short.as_slice(), bytes].concat()),
        ]
    };
    more.into_iter().flat_map(file).collect()
}

// Sizes

/// A head cut off by the end of what holds it: behind both parts, and in front of the bank; in the form and in a list.
fn chunks_cut_off() -> Vec<Named> {
    let rest = |length: usize| chunk(b"JUNK", b"")[..length].to_vec();
    let file = |length: usize| {
        let inside = |kind| list(kind, &[chunk(b"smpl", &body(4)), rest(length)].concat());
        [
            (format!("{length} bytes of a head at the form's end"), form(&[data(4), bank(4), rest(length)])),
            (format!("{length} bytes of a head in sdta"), form(&[inside(b"sdta"), bank(4)])),
            (format!("{length} bytes of a head in sdta, at the form's end"), form(&[bank(4), inside(b"sdta")])),
            (format!("{length} bytes of a head in another list"), form(&[inside(b"INFO"), data(4), bank(4)])),
        ]
    };
    (0..=8).flat_map(file).collect()
}

/// Chunks that say more than there is in front of the end of what holds them, and just not.
fn sizes_of_chunks() -> Vec<Named> {
    let says = |size: u32| {
        let junk = chunk_that_says(b"JUNK", size, &body(8));
        let smpl = chunk_that_says(b"smpl", size, &body(8));
        [
            (format!("a last chunk of 8 that says {size}"), form(&[data(4), bank(4), junk.clone()])),
            (format!("a first chunk of 8 that says {size}"), form(&[junk.clone(), data(4), bank(4)])),
            (format!("samples of 8 that say {size}"), form(&[list(b"sdta", &smpl), bank(4)])),
            (format!("samples of 8 behind all else that say {size}"), form(&[bank(4), list(b"sdta", &smpl)])),
            (format!("a chunk behind samples that says {size}"), {
                let both = [chunk(b"smpl", &body(4)), junk];
                form(&[list(b"sdta", &both.concat()), bank(4)])
            }),
        ]
    };
    let sizes =
        [0, 1, 6, 7, 8, 9, 10, 16, 24, 25, 0x7fff_ffff, 0x8000_0000, 0xffff_ffd0, 0xffff_fff0, 0xffff_fff8, u32::MAX];
    sizes.into_iter().flat_map(says).collect()
}

/// Lists that say too much, and lists that have no room for their type.
fn sizes_of_lists() -> Vec<Named> {
    let says = |size: u32| {
        let of =
            |kind: &[u8; 4]| chunk_that_says(b"LIST", size, &[kind.as_slice(), &chunk(b"smpl", &body(4))].concat());
        [
            (format!("a bank of 16 that says {size}"), form(&[data(4), of(b"pdta")])),
            (format!("a data list of 16 that says {size}"), form(&[bank(4), of(b"sdta")])),
            (format!("a data list in front that says {size}"), form(&[of(b"sdta"), bank(4)])),
            (format!("another list that says {size}"), form(&[of(b"INFO"), data(4), bank(4)])),
        ]
    };
    let mut all: Vec<Named> = [0, 1, 3, 4, 5, 11, 12, 14, 15, 16, 17, 18, 0x8000_0000, 0xffff_fff8, u32::MAX]
        .into_iter()
        .flat_map(says)
        .collect();
    for length in 0..=5 {
        let short = chunk(b"LIST", &b"INFO\0"[..length]);
        let in_data = list(b"sdta", &[short.clone(), chunk(b"smpl", &body(4))].concat());
        let behind_data = list(b"sdta", &[chunk(b"smpl", &body(4)), short.clone()].concat());
        all.extend([
            (format!("a list of {length} bytes in front"), form(&[short.clone(), data(4), bank(4)])),
            (format!("a list of {length} bytes at the end"), form(&[data(4), bank(4), short])),
            (format!("a list of {length} bytes in sdta"), form(&[in_data, bank(4)])),
            (format!("a list of {length} bytes behind smpl"), form(&[behind_data, bank(4)])),
        ]);
    }
    all
}

/// Chunks of odd sizes, with and without their pad byte, at the end of what holds them and not.
fn pad_bytes() -> Vec<Named> {
    let odd = |length: usize| {
        let unpadded = |name, kind: &[u8]| bare(name, &[kind, &body(length)].concat());
        let smpl = bare(b"smpl", &body(length));
        let data_of = |chunks: &[Vec<u8>]| list(b"sdta", &chunks.concat());
        vec![
            (format!("samples of {length}, padded"), form(&[data(length), bank(4)])),
            (format!("samples of {length}, no pad at the list's end"), form(&[data_of(&[smpl.clone()]), bank(4)])),
            (format!("samples of {length}, no pad in the midst"), {
                form(&[data_of(&[smpl.clone(), chunk(b"sm24", &body(2))]), bank(4)])
            }),
            (format!("samples of {length}, padded in the midst"), {
                form(&[data_of(&[chunk(b"smpl", &body(length)), chunk(b"sm24", &body(2))]), bank(4)])
            }),
            (format!("samples of {length}, no pad in the list nor the form"), {
                form(&[bank(4), unpadded(b"LIST", &[b"sdta".as_slice(), &smpl].concat())])
            }),
            (format!("a bank of {length}, padded"), form(&[data(4), bank(length)])),
            (format!("a bank of {length}, no pad at the form's end"), form(&[data(4), unpadded(b"LIST", b"pdta")])),
            (format!("a bank of {length}, no pad in the midst"), form(&[unpadded(b"LIST", b"pdta"), data(4)])),
            (format!("junk of {length}, no pad in the midst"), form(&[unpadded(b"JUNK", b""), data(4), bank(4)])),
            (format!("junk of {length}, no pad at the form's end"), form(&[data(4), bank(4), unpadded(b"JUNK", b"")])),
            (format!("junk of {length}, two pads"), form(&[chunk(b"JUNK", &body(length)), vec![0], data(4), bank(4)])),
            (format!("junk of {length}, another pad"), {
                let pad = vec![0xff; length % 2];
                form(&[unpadded(b"JUNK", b""), pad, data(4), bank(4)])
            }),
            (format!("a pad behind the form, bank of {length}"), {
                [form(&[data(4), unpadded(b"LIST", b"pdta")]), vec![0]].concat()
            }),
        ]
    };
    [0, 1, 2, 3, 4, 5, 255, 256].into_iter().flat_map(odd).collect()
}

// Chunks and lists

fn orders() -> Vec<Named> {
    let (i, d, b) = (info(), data(6), bank(10));
    let all: [[&Vec<u8>; 3]; 6] = [[&i, &d, &b], [&i, &b, &d], [&d, &i, &b], [&d, &b, &i], [&b, &i, &d], [&b, &d, &i]];
    let file = |(n, parts): (usize, [&Vec<u8>; 3])| (format!("order {n}"), form(&parts.map(Vec::clone)));
    all.into_iter().enumerate().map(file).collect()
}

/// Chunks and lists of other names, in every place between the parts and in the data list.
fn others_stepped_over() -> Vec<Named> {
    let sm24 = chunk(b"sm24", &body(3));
    let others = [
        chunk(b"JUNK", b""),
        chunk(b"JUNK", &body(9)),
        chunk(b"\0\0\0\0", &body(2)),
        chunk(b"list", &data(4)),
        list(b"INFO", b""),
        list(b"adtl", &body(7)),
        info(),
        bare(b"RIFF", b"sfbk"),
        vec![chunk(b"PAD ", b""); 200].concat(),
    ];
    let places = |(n, other): (usize, Vec<u8>)| {
        let (d, b) = (data(6), bank(10));
        let inside = |first: &[u8], last: &[u8]| list(b"sdta", &[first, &chunk(b"smpl", &body(6)), last].concat());
        [
            (format!("other {n} in front"), form(&[other.clone(), d.clone(), b.clone()])),
            (format!("other {n} between"), form(&[d.clone(), other.clone(), b.clone()])),
            (format!("other {n} behind"), form(&[d, b.clone(), other.clone()])),
            (format!("other {n} in front of the samples"), form(&[inside(&other, &sm24), b.clone()])),
            (format!("other {n} behind the samples"), form(&[inside(&sm24, &other), b])),
        ]
    };
    let mut all: Vec<Named> = others.into_iter().enumerate().flat_map(places).collect();
    all.push(named("8000 chunks", form(&[vec![chunk(b"PAD ", b""); 8_000].concat(), data(6), bank(10)])));
    all
}

/// The right names where they do not count, alone and in front of the right ones.
fn names_in_other_places() -> Vec<Named> {
    let wrong = [
        ("a chunk pdta", chunk(b"pdta", &body(10))),
        ("a chunk sdta", chunk(b"sdta", &chunk(b"smpl", &body(4)))),
        ("a chunk smpl in the form", chunk(b"smpl", &body(4))),
        ("smpl in INFO", list(b"INFO", &chunk(b"smpl", &body(4)))),
        ("a list smpl in the form", list(b"smpl", &body(4))),
        ("lists in a list", list(b"INFO", &[data(4), bank(4)].concat())),
        ("a list smpl in sdta", list(b"sdta", &list(b"smpl", &body(4)))),
        ("pdta in sdta", list(b"sdta", &bank(4))),
        ("LIST as a type", list(b"LIST", b"pdta")),
        ("names in other letters", [list(b"PDTA", b""), list(b"Sdta", &chunk(b"SMPL", b""))].concat()),
        ("names the other way round", [list(b"atdp", b""), list(b"atds", &chunk(b"lpms", b""))].concat()),
        ("a form in the form", font()),
    ];
    let file = |(name, other): (&str, Vec<u8>)| {
        [
            (format!("{name} alone"), form(&[other.clone()])),
            (format!("{name}, and the right ones"), form(&[other.clone(), data(6), bank(10)])),
            (format!("{name}, and a bank"), form(&[other.clone(), bank(10)])),
            (format!("{name}, and samples"), form(&[data(6), other])),
        ]
    };
    wrong.into_iter().flat_map(file).collect()
}

/// The first of each kind counts, also where it is the worse.
fn several_of_a_kind() -> Vec<Named> {
    let two = |a: usize, b: usize| list(b"sdta", &[chunk(b"smpl", &body(a)), chunk(b"smpl", &body(b))].concat());
    let silent = || list(b"sdta", &chunk(b"sm24", &body(4)));
    let list_first = list(b"sdta", &[list(b"smpl", &body(4)), chunk(b"smpl", &body(6))].concat());
    vec![
        named("two banks", form(&[bank(4), data(6), bank(8)])),
        named("two banks, the first empty", form(&[bank(0), data(6), bank(8)])),
        named("two data lists", form(&[data(4), data(6), bank(8)])),
        named("two data lists, the first silent", form(&[silent(), data(6), bank(8)])),
        named("two data lists, the first empty", form(&[list(b"sdta", b""), data(6), bank(8)])),
        named("two data lists, the second silent", form(&[data(6), silent(), bank(8)])),
        named("two smpl", form(&[two(4, 6), bank(8)])),
        named("two smpl, the first empty", form(&[two(0, 6), bank(8)])),
        named("a list smpl, and a chunk smpl", form(&[list_first, bank(8)])),
    ]
}

/// Faults inside of what is not walked are none.
fn what_is_not_walked() -> Vec<Named> {
    let broken = b"smpl\xff\xff\xff\xff";
    let not_walked = [
        ("INFO", list(b"INFO", broken)),
        ("pdta", list(b"pdta", broken)),
        ("a second sdta", [data(4), list(b"sdta", broken)].concat()),
        ("a chunk", chunk(b"sdta", broken)),
        ("a list in sdta", list(b"sdta", &[list(b"INFO", broken), chunk(b"smpl", &body(2))].concat())),
        ("the samples", list(b"sdta", &chunk(b"smpl", broken))),
        ("the first sdta", list(b"sdta", broken)),
    ];
    let file = |(name, part): (&str, Vec<u8>)| (format!("a fault in {name}"), form(&[part, data(6), bank(10)]));
    not_walked.into_iter().map(file).collect()
}

// Faults

fn missing_parts() -> Vec<Named> {
    let silent = || list(b"sdta", &chunk(b"sm24", &body(4)));
    let empty = || list(b"sdta", b"");
    vec![
        named("nothing", form(&[])),
        named("INFO alone", form(&[info()])),
        named("no bank", form(&[info(), data(6)])),
        named("no data list", form(&[info(), bank(10)])),
        named("an empty data list", form(&[empty(), bank(10)])),
        named("an empty data list at the end", form(&[bank(10), empty()])),
        named("a silent data list", form(&[silent(), bank(10)])),
        named("a silent data list at the end", form(&[bank(10), silent()])),
        named("a silent data list and no bank", form(&[silent(), info()])),
        named("an empty data list and no bank", form(&[info(), empty()])),
        named("an odd silent data list", form(&[list(b"sdta", &bare(b"sm24", &body(3))), info()])),
    ]
}

/// Faults of the form, of the data list and of missing parts together.
fn several_faults() -> Vec<Named> {
    let past = || chunk_that_says(b"JUNK", 999, b"");
    let in_data = || list(b"sdta", &[chunk(b"smpl", &body(4)), past()].concat());
    let silent = || list(b"sdta", &past());
    vec![
        named("past, then a fault in sdta", form(&[past(), in_data(), bank(4)])),
        named("a fault in sdta, then past", form(&[in_data(), past(), bank(4)])),
        named("a bank, a fault in sdta, then past", form(&[bank(4), in_data(), past()])),
        named("a fault in sdta, no bank", form(&[in_data()])),
        named("a fault in sdta, no samples", form(&[silent(), bank(4)])),
        named("a fault in sdta, no samples, no bank, then past", form(&[silent(), past()])),
        named("past, and nothing else", form(&[past()])),
        named("past behind a silent data list", form(&[list(b"sdta", b""), past()])),
        named("past behind a bank", form(&[bank(4), past()])),
        named("two past", form(&[data(4), past(), past()])),
        named("a sound sdta, then a faulty one, then past", form(&[data(4), in_data(), bank(4), past()])),
        named("a list past the form and within the file", {
            let file = form_that_says(-4, &[data(4), bank(8)]);
            [file, body(40)].concat()
        }),
        named("a chunk past sdta and within the form", {
            form(&[list(b"sdta", &chunk_that_says(b"smpl", 20, &body(8))), bank(40)])
        }),
        named("a head past sdta and within the form", form(&[list(b"sdta", b"smpl"), bank(40)])),
    ]
}

/// Parts of no byte and of many. A bank above 65,536 bytes is found.
fn sizes_of_parts() -> Vec<Named> {
    let file = |samples: usize, bytes: usize| {
        (format!("samples of {samples}, a bank of {bytes}"), form(&[data(samples), bank(bytes)]))
    };
    let sizes =
        [(0, 0), (0, 2), (2, 0), (1, 1), (4, 65_535), (4, 65_536), (4, 65_537), (65_534, 4), (65_535, 4), (65_536, 4)];
    sizes.into_iter().map(|(samples, bytes)| file(samples, bytes)).collect()
}

/// A font cut off at every byte, with the form's size as it was and as it then is.
fn cut_at_every_byte() -> Vec<Named> {
    let whole = form(&[data(3), chunk(b"JUNK", &body(5)), bank(7)]);
    let file = |length: usize| {
        let cut = whole[..length].to_vec();
        let mut mended = cut.clone();
        mended[4..8].copy_from_slice(&(length as u32 - 8).to_le_bytes());
        [(format!("cut off behind {length}"), cut), (format!("ended behind {length}"), mended)]
    };
    (12..=whole.len()).flat_map(file).collect()
}

/// A font with one byte one higher, at every place.
fn one_byte_off() -> Vec<Named> {
    let whole = form(&[bank(7), data(3), info()]);
    let file = |place: usize| {
        let mut file = whole.clone();
        file[place] = file[place].wrapping_add(1);
        (format!("one more at {place}"), file)
    };
    (0..whole.len()).map(file).collect()
}
