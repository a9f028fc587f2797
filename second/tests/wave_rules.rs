//! The rules of M-107 for WAVE files, each at both sides of its edge: the heading, the 16-bit numbers, what is refused
//! with which number, and that what was written is read.

use second::make::chance::Chance;
use second::wave_file::{frames_in, heading, level, read, refusal, write};

/// Room for anything here.
const ROOM: usize = 100_000;

/// The file of two frames: a quarter, minus a quarter, one, minus one.
#[rustfmt::skip]
const TWO_FRAMES: [u8; 52] = [
    0x52, 0x49, 0x46, 0x46, 44, 0, 0, 0, 0x57, 0x41, 0x56, 0x45,
    0x66, 0x6d, 0x74, 0x20, 16, 0, 0, 0, 1, 0, 2, 0,
    0x44, 0xac, 0, 0, 0x10, 0xb1, 2, 0, 4, 0, 16, 0,
    0x64, 0x61, 0x74, 0x61, 8, 0, 0, 0,
    0, 0x20, 0, 0xe0, 0xff, 0x7f, 0, 0x80,
];

/// The level of k/2^23.
fn of(k: i32) -> Option<i16> {
    level(k as f32 / 8_388_608.0)
}

fn with(place: usize, byte: u8) -> Vec<u8> {
    let mut file = TWO_FRAMES.to_vec();
    file[place] = byte;
    file
}

// What is written

#[test]
fn a_file_is_its_heading_and_its_numbers() {
    assert_eq!(write(&[0.25, -0.25, 1.0, -1.0], 52), Ok(TWO_FRAMES.to_vec()));
    assert_eq!(read(&TWO_FRAMES, 4), Ok(vec![8_192, -8_192, 32_767, -32_768]));
}

#[test]
fn a_file_of_no_frame_is_its_heading() {
    let mut none = TWO_FRAMES[..44].to_vec();
    (none[4], none[40]) = (36, 0);
    assert_eq!(write(&[], 44), Ok(none.clone()));
    assert_eq!(read(&none, 0), Ok(vec![]));
}

#[test]
fn a_level_is_k_over_256_rounded_down() {
    let pairs = [(0, 0), (1, 0), (255, 0), (256, 1), (257, 1), (511, 1), (512, 2), (8_388_351, 32_766)];
    pairs.iter().for_each(|(k, right)| assert_eq!(of(*k), Some(*right), "{k}"));
    let below = [(-1, -1), (-255, -1), (-256, -1), (-257, -2), (-512, -2), (-513, -3), (-8_388_352, -32_767)];
    below.iter().for_each(|(k, right)| assert_eq!(of(*k), Some(*right), "{k}"));
    assert_eq!([-8_388_353, -8_388_607, -8_388_608].map(of), [Some(-32_768); 3]);
}

#[test]
fn a_level_is_at_most_32767() {
    assert_eq!([8_388_352, 8_388_353, 8_388_607, 8_388_608].map(of), [Some(32_767); 4]);
}

#[test]
fn every_whole_k_has_a_level_and_none_between_has() {
    for k in -8_388_608..8_388_608 {
        assert_eq!(of(k), Some((k >> 8) as i16), "{k}");
        assert_eq!(level((2 * k + 1) as f32 / 16_777_216.0), None, "{k} and a half");
    }
}

/// Below 1 the binary32 numbers lie at most half a step apart.
#[test]
fn neighbours_of_whole_numbers_have_none() {
    for power in 0..23 {
        for k in [1 << power, (1 << power) + 1, 3 << power >> 1] {
            let bits = (k as f32 / 8_388_608.0).to_bits();
            assert!(level(f32::from_bits(bits)).is_some());
            for other in [bits + 1, bits - 1, (bits + 1) | 0x8000_0000, (bits - 1) | 0x8000_0000] {
                assert_eq!(level(f32::from_bits(other)), None, "{other:08x}");
            }
        }
    }
}

#[test]
fn minus_zero_is_zero() {
    assert_eq!(level(-0.0), Some(0));
    assert_eq!(write(&[-0.0, 0.0], 48), write(&[0.0, -0.0], 48));
}

// What is refused

/// No number, the infinities, the smallest numbers, those with a digit below 2^-23, and those outside -1..1.
const BAD: [u32; 20] = [
    0x7fc0_0000,
    0xffc0_0000,
    0x7f80_0001,
    0xff80_0001,
    0xffff_ffff,
    0x7f80_0000,
    0xff80_0000,
    0x0000_0001,
    0x8000_0001,
    0x007f_ffff,
    0x0080_0000,
    0x3380_0000,
    0xb380_0000,
    0x3440_0000,
    0x3f7f_ffff,
    0x3f80_0001,
    0xbf80_0001,
    0x4000_0000,
    0x7f7f_ffff,
    0xff7f_ffff,
];

#[test]
fn thirteen_for_a_number_that_is_none_in_any_place() {
    for bits in BAD {
        for place in 0..4 {
            let mut numbers = [0.5; 4];
            numbers[place] = f32::from_bits(bits);
            assert_eq!([0, 51, 52, ROOM].map(|room| write(&numbers, room)), [const { Err(13) }; 4], "{bits:08x}");
        }
    }
}

#[test]
fn thirteen_for_an_odd_count() {
    for count in [1, 3, 5, 101] {
        assert_eq!(write(&vec![0.0; count], ROOM), Err(13));
        assert_eq!(write(&vec![0.0; count], 0), Err(13));
        assert!(write(&vec![0.0; count + 1], ROOM).is_ok());
    }
}

#[test]
fn fifteen_for_a_room_that_is_too_short() {
    for frames in [0, 1, 2, 300] {
        let numbers = vec![-1.0; 2 * frames];
        let need = 44 + 4 * frames;
        for room in [0, 43, need - 4, need - 1] {
            assert_eq!(write(&numbers, room), Err(15), "{frames} frames into {room}");
        }
        for room in [need, need + 1, ROOM] {
            assert_eq!(write(&numbers, room).map(|file| file.len()), Ok(need));
        }
    }
}

/// The limit, by counts alone: no list is so long here. The room that is needed there is 4,294,967,300 bytes.
#[test]
fn fourteen_for_more_than_1073741814_frames_behind_thirteen_and_before_fifteen() {
    let [most, more] = [2 * 1_073_741_814, 2 * 1_073_741_815];
    assert_eq!(refusal(most, false, 4_294_967_300), None);
    assert_eq!(refusal(most, false, 4_294_967_299), Some(15));
    assert_eq!(refusal(more, false, 4_294_967_304), Some(14));
    assert_eq!([0, 44, 4_294_967_303].map(|room| refusal(more, false, room)), [Some(14); 3]);
    assert_eq!(refusal(usize::MAX - 1, false, usize::MAX), Some(14));
    assert_eq!([most - 1, most + 1, more - 1, more + 1].map(|count| refusal(count, false, 0)), [Some(13); 4]);
    assert_eq!([most, more].map(|count| refusal(count, true, 0)), [Some(13); 2]);
}

#[test]
fn the_longest_heading_has_its_lengths() {
    let longest = heading(1_073_741_814);
    assert_eq!(longest[4..8], [0xfc, 0xff, 0xff, 0xff], "4,294,967,292");
    assert_eq!(longest[40..], [0xd8, 0xff, 0xff, 0xff], "4,294,967,256");
    assert_eq!(longest[8..40], TWO_FRAMES[8..40]);
}

// What is read

#[test]
fn twenty_eight_for_a_heading_that_is_wrong_in_any_byte() {
    for place in 0..44 {
        for byte in (0..=255).filter(|byte| *byte != TWO_FRAMES[place]) {
            assert_eq!(read(&with(place, byte), 4), Err(28), "byte {place} is {byte}");
        }
    }
}

#[test]
fn twenty_eight_for_any_other_length() {
    for length in 0..52 {
        assert_eq!(read(&TWO_FRAMES[..length], 4), Err(28), "{length} bytes");
    }
    for more in 1..9 {
        assert_eq!(read(&[&TWO_FRAMES[..], &vec![0; more]].concat(), ROOM), Err(28), "{more} bytes more");
    }
}

/// Data of one to three bytes behind the last frame, and the heading names them.
#[test]
fn twenty_eight_for_a_part_of_a_frame() {
    for more in 1..4u8 {
        let mut file = [&TWO_FRAMES[..], &vec![0; more as usize]].concat();
        (file[4], file[40]) = (44 + more, 8 + more);
        assert_eq!(read(&file, ROOM), Err(28));
    }
}

#[test]
fn a_file_has_a_length_of_44_and_fours_up_to_the_longest() {
    assert_eq!([0, 43, 45, 46, 47].map(frames_in), [None; 5]);
    assert_eq!([44, 48, 52].map(frames_in), [Some(0), Some(1), Some(2)]);
    assert_eq!(frames_in(4_294_967_300), Some(1_073_741_814));
    assert_eq!([4_294_967_299, 4_294_967_301, 4_294_967_304, usize::MAX].map(frames_in), [None; 4]);
}

#[test]
fn fifteen_for_a_reader_that_has_too_little_room_and_only_where_it_is_such_a_file() {
    assert_eq!([0, 1, 2, 3].map(|room| read(&TWO_FRAMES, room)), [const { Err(15) }; 4]);
    assert_eq!([4, 5, ROOM].map(|room| read(&TWO_FRAMES, room).map(|heard| heard.len())), [Ok(4); 3]);
    for place in 0..44 {
        assert_eq!(read(&with(place, TWO_FRAMES[place] ^ 1), 0), Err(28));
    }
}

#[test]
fn any_data_is_read_the_low_byte_first() {
    let data = [(0x00, 0x80, -32_768), (0xff, 0x7f, 32_767), (0xff, 0xff, -1), (1, 0, 1), (0, 1, 256)];
    for (low, high, number) in data {
        let mut file = with(44, low);
        file[45] = high;
        assert_eq!(read(&file, 4), Ok(vec![number, -8_192, 32_767, -32_768]));
    }
}

// Both

/// Numbers by chance: reading gives the levels, and writing these again gives the same file.
#[test]
fn what_was_written_is_read_and_written_again() {
    let c = &mut Chance::new(71);
    for _ in 0..300 {
        let ks: Vec<i32> = (0..2 * c.from(0, 200)).map(|_| c.from(-8_388_608, 8_388_608) as i32).collect();
        let numbers: Vec<f32> = ks.iter().map(|k| *k as f32 / 8_388_608.0).collect();
        let file = write(&numbers, ROOM).expect("whole numbers");
        let heard = read(&file, ks.len()).expect("a file that was written");
        let levels: Vec<i16> = ks.iter().map(|k| (k >> 8).min(32_767) as i16).collect();
        assert_eq!(heard, levels);
        let again: Vec<f32> = heard.iter().map(|level| *level as f32 / 32_768.0).collect();
        assert_eq!(write(&again, ROOM), Ok(file));
    }
}
