//! Each rule of SoundFont files at both sides of its edge; and the form of fonts: lines, damaged inputs, the maker's bytes.

use second::fonts::{line, play};
use second::make::font_builder::*;
use second::make::font_streams;
use second::riff_file::{read, Fault, Parts, MISSING, NO_FORM, PAST_ITS_HOLDER};
use second::songs::with_length;

fn fault(number: u32, place: usize) -> Result<Parts, Fault> {
    Err(Fault { number, place })
}

fn parts(bank: (usize, usize), samples: (usize, usize)) -> Result<Parts, Fault> {
    Ok(Parts { bank: bank.0..bank.0 + bank.1, samples: samples.0..samples.0 + samples.1 })
}

fn output(input: &[u8]) -> String {
    let mut output = Vec::new();
    play(input, &mut output).expect("memory can be written");
    String::from_utf8(output).expect("lines of text")
}

// The form

#[test]
fn a_file_begins_with_riff_and_its_type() {
    let file = font();
    for length in 0..12 {
        assert_eq!(read(&file[..length]), fault(NO_FORM, if length < 4 { 0 } else { 8 }), "{length}");
    }
    assert_eq!(read(&file[..12]), fault(PAST_ITS_HOLDER, 0));
    for place in [0, 1, 2, 3, 8, 9, 10, 11] {
        let mut other = file.clone();
        other[place] ^= 0x20;
        assert_eq!(read(&other), fault(NO_FORM, if place < 4 { 0 } else { 8 }), "{place}");
    }
}

#[test]
fn a_form_lies_in_its_file_and_has_room_for_its_type() {
    let says = |size: u32| read(&chunk_that_says(b"RIFF", size, b"sfbk"));
    assert_eq!(says(3), fault(PAST_ITS_HOLDER, 0));
    assert_eq!(says(4), fault(MISSING, 12), "an empty form");
    assert_eq!(says(5), fault(PAST_ITS_HOLDER, 0));
    assert_eq!(says(u32::MAX), fault(PAST_ITS_HOLDER, 0));
    let found = parts((34, 2), (56, 2));
    assert_eq!(read(&form(&[info(), bank(2), data(2)])), parts((62, 2), (84, 2)));
    assert_eq!(read(&form(&[chunk(b"JUNK", b"ab"), bank(2), data(2)])), found);
    assert_eq!(read(&form_that_says(1, &[chunk(b"JUNK", b"ab"), bank(2), data(2)])), fault(PAST_ITS_HOLDER, 0));
    assert_eq!(read(&form_that_says(-1, &[chunk(b"JUNK", b"ab"), bank(2), data(2)])), fault(PAST_ITS_HOLDER, 36));
}

#[test]
fn what_is_behind_the_form_has_no_part_in_it() {
    let short = form(&[data(2)]);
    let behind = [short.clone(), bank(2)].concat();
    assert_eq!(read(&behind), fault(MISSING, short.len()));
    assert_eq!(read(&[font(), b"LIST\xff\xff\xff\xff".to_vec()].concat()), read(&font()));
}

// Chunks

#[test]
fn a_chunk_ends_in_front_of_the_end_of_what_holds_it() {
    let junk = |size: u32| chunk_that_says(b"JUNK", size, &body(8));
    let at_end = |size: u32| read(&form(&[bank(2), data(2), junk(size)]));
    assert_eq!(at_end(8), parts((24, 2), (46, 2)));
    assert_eq!(at_end(9), fault(PAST_ITS_HOLDER, 48));
    let in_list = |size: u32| read(&form(&[list(b"sdta", &chunk_that_says(b"smpl", size, &body(8))), bank(40)]));
    assert_eq!(in_list(8), parts((52, 40), (32, 8)));
    assert_eq!(in_list(9), fault(PAST_ITS_HOLDER, 24), "past the list, and within the form");
    assert_eq!(in_list(u32::MAX), fault(PAST_ITS_HOLDER, 24));
}

#[test]
fn a_head_of_fewer_than_eight_bytes_is_cut_off() {
    for length in 1..8 {
        let cut = chunk(b"JUNK", b"")[..length].to_vec();
        assert_eq!(read(&form(&[bank(2), data(2), cut.clone()])), fault(PAST_ITS_HOLDER, 48), "{length}");
        let inner = [chunk(b"smpl", &body(2)), cut].concat();
        assert_eq!(read(&form(&[list(b"sdta", &inner), bank(2)])), fault(PAST_ITS_HOLDER, 34), "{length}");
    }
}

#[test]
fn a_list_has_room_for_its_type() {
    let file = |length: usize| read(&form(&[chunk(b"LIST", &b"INFO"[..length]), bank(2), data(2)]));
    assert_eq!(file(3), fault(PAST_ITS_HOLDER, 12));
    assert_eq!(file(4), parts((36, 2), (58, 2)));
    let inner = |length: usize| [chunk(b"smpl", b""), chunk(b"LIST", &b"INFO"[..length])].concat();
    let file = |length: usize| read(&form(&[list(b"sdta", &inner(length)), bank(2)]));
    assert_eq!(file(3), fault(PAST_ITS_HOLDER, 32));
    assert_eq!(file(4), parts((56, 2), (32, 0)));
}

#[test]
fn an_odd_size_has_a_pad_byte_that_is_forgiven_at_the_end() {
    assert_eq!(read(&form(&[bank(3), data(3)])), parts((24, 3), (48, 3)));
    let smpl = bare(b"smpl", &body(3));
    assert_eq!(read(&form(&[bank(3), list(b"sdta", &smpl)])), parts((24, 3), (48, 3)), "none in the list");
    let bare_data = bare(b"LIST", &[b"sdta".as_slice(), &smpl].concat());
    assert_eq!(read(&form(&[bank(3), bare_data])), parts((24, 3), (48, 3)), "none in the list nor in the form");
    let bare_bank = bare(b"LIST", b"pdta123");
    assert_eq!(read(&form(&[bare_bank.clone(), vec![0xff], data(3)])), parts((24, 3), (48, 3)), "any pad byte");
    assert_eq!(read(&form(&[bare_bank, data(3)])), fault(PAST_ITS_HOLDER, 28), "none in the midst");
}

// Parts

#[test]
fn parts_stand_in_any_order_among_others() {
    assert_eq!(read(&font()), parts((88, 10), (70, 6)));
    assert_eq!(read(&form(&[bank(10), data(6), info()])), parts((24, 10), (54, 6)));
    let others = [chunk(b"JUNK", b"1"), list(b"adtl", b"")].concat();
    assert_eq!(read(&form(&[others.clone(), bank(0), others.clone(), data(0), others])), parts((46, 0), (88, 0)));
}

#[test]
fn names_count_in_their_places_alone() {
    let names = [chunk(b"pdta", b""), chunk(b"sdta", b""), chunk(b"smpl", b""), list(b"smpl", b"")].concat();
    let nested = list(b"INFO", &[bank(2), data(2)].concat());
    let file = form(&[names.clone(), nested.clone()]);
    assert_eq!(read(&file), fault(MISSING, file.len()));
    let inner = [list(b"smpl", b""), bank(2), chunk(b"sm24", b"")].concat();
    let file = form(&[list(b"sdta", &inner), bank(2)]);
    assert_eq!(read(&file), fault(MISSING, 24 + inner.len()));
}

#[test]
fn the_first_of_each_kind_counts() {
    assert_eq!(read(&form(&[bank(2), bank(4), data(2), data(4)])), parts((24, 2), (62, 2)));
    let two = [chunk(b"smpl", b""), chunk(b"smpl", b"12")].concat();
    assert_eq!(read(&form(&[list(b"sdta", &two), bank(2)])), parts((54, 2), (32, 0)));
    let empty = list(b"sdta", b"");
    assert_eq!(read(&form(&[empty, data(2), bank(2)])), fault(MISSING, 24), "the first sdta list has none");
}

#[test]
fn a_long_bank_is_found() {
    assert_eq!(read(&form(&[data(0), bank(65_537)])), parts((44, 65_537), (32, 0)));
}

#[test]
fn lists_that_are_not_walked_have_no_faults() {
    let broken = b"smpl\xff\xff\xff\xff";
    assert!(read(&form(&[list(b"INFO", broken), data(2), bank(2)])).is_ok());
    assert!(read(&form(&[list(b"pdta", broken), data(2)])).is_ok());
    assert!(read(&form(&[data(2), list(b"sdta", broken), bank(2)])).is_ok());
    assert_eq!(read(&form(&[list(b"sdta", broken), data(2), bank(2)])), fault(PAST_ITS_HOLDER, 24));
}

// The order of faults

#[test]
fn chunks_that_are_not_whole_go_before_missing_ones_and_in_file_order() {
    let past = || chunk_that_says(b"JUNK", 99, b"");
    let faulty = || list(b"sdta", &past());
    assert_eq!(read(&form(&[faulty(), past()])), fault(PAST_ITS_HOLDER, 24));
    assert_eq!(read(&form(&[past(), faulty()])), fault(PAST_ITS_HOLDER, 12));
    assert_eq!(read(&form(&[list(b"sdta", b""), past()])), fault(PAST_ITS_HOLDER, 24));
    let neither = form(&[list(b"sdta", b""), info()]);
    assert_eq!(read(&neither), fault(MISSING, 24), "samples are missing in front of the bank");
    let bankless = form(&[data(2), info()]);
    assert_eq!(read(&bankless), fault(MISSING, bankless.len()));
}

// The form of fonts

#[test]
fn lines_of_each_answer() {
    let files = [font(), vec![], form(&[]), font()[..40].to_vec()];
    let lines: String = files.iter().map(|file| line(file)).collect();
    assert_eq!(lines, "0 88 10 70 6\n40 0\n42 12\n41 0\n");
    let input: Vec<u8> = files.iter().flat_map(|file| with_length(file)).collect();
    assert_eq!(output(&input), lines);
}

/// The input may end between two files and nowhere else.
#[test]
fn an_input_that_is_cut_off_ends_with_bad() {
    let one = with_length(&font());
    let input = [one.clone(), with_length(&[]), one.clone()].concat();
    let ends = [0, one.len(), one.len() + 4, input.len()];
    let lines = [line(&font()), line(&[]), line(&font())];
    for length in 0..=input.len() {
        let whole = ends[1..].iter().filter(|end| length >= **end).count();
        let end = if ends.contains(&length) { "" } else { "bad\n" };
        assert_eq!(output(&input[..length]), lines[..whole].concat() + end);
    }
    let long = |length: usize| [with_length(&vec![0; length]), with_length(&font())].concat();
    assert_eq!(output(&long(66_000)), format!("40 0\n{}", line(&font())));
    assert_eq!(output(&long(66_001)), "bad\n");
}

/// The maker's bytes are the same each time, there is a line for each, and each number is among them, 0 with many parts.
#[test]
fn the_stored_fonts_reach_each_number() {
    let stream = font_streams::stream();
    assert!(stream == font_streams::stream());
    assert!(stream.len() < 1_000_000, "{} bytes", stream.len());
    let lines = output(&stream);
    assert_eq!(lines.lines().count(), font_streams::all().len());
    for number in ["0 ", "40 0", "40 8", "41 0", "41 12", "41 24", "42 12", "42 24"] {
        assert!(lines.lines().filter(|line| line.starts_with(number)).count() >= 3, "{number}");
    }
}
