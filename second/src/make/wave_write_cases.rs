//! Waves that are written: counts, rooms, whole numbers, numbers that are none, and the order of the refusals.

use super::wave_builder::*;
use crate::waves::{FILE_ROOM, NUMBER_ROOM};
use std::collections::BTreeSet;

pub fn all() -> Vec<Named> {
    [
        counts(),
        rooms(),
        whole_numbers(),
        steps_of_levels(),
        other_numbers(),
        one_bit_off(),
        several_faults(),
        most_numbers(),
    ]
    .concat()
}

/// Even and odd counts from none on, with room for more than all of them and with none.
fn counts() -> Vec<Named> {
    let counts = (0..=9).chain([15, 16, 17, 127, 128, 129, 255, 256, 257]);
    let of = |count: usize| [0, 1_000].map(|room| (format!("{count} into {room}"), write_command(&ramp(count), room)));
    counts.flat_map(of).collect()
}

/// Rooms around what a file needs, and around its heading.
fn rooms() -> Vec<Named> {
    let of = |frames: usize| {
        let need = room_for(2 * frames);
        let near: BTreeSet<u32> =
            [0, 1, 4, 43, 44, 45, need - 5, need - 4, need - 3, need - 2, need - 1, need, need + 1, need + 4].into();
        let command = move |room| (format!("{frames} frames into {room}"), write_command(&ramp(2 * frames), room));
        near.into_iter().map(command)
    };
    [0, 1, 2, 3, 52, 53, 54, 63, 64, 65].into_iter().flat_map(of).collect()
}

/// Each k that is worth a look: every power of two and its neighbours, the edges of 256 and of the range.
fn ks() -> BTreeSet<i32> {
    let powers = (0..=23).map(|n| 1 << n);
    let edges = [0, 3 * 256, 255 * 256, 32_767 * 256, 32_766 * 256, 21_845 * 256, 8_388_607, 5_592_405];
    let near = powers.chain(edges).flat_map(|k| [k - 1, k, k + 1]);
    near.flat_map(|k| [k, -k]).filter(|k| (-8_388_608..=8_388_608).contains(k)).collect()
}

/// Each of them alone, on the left, on the right, and all in one file.
fn whole_numbers() -> Vec<Named> {
    let alone = |k: i32| {
        let left = write_command(&[whole(k), whole(0)], 48);
        [(format!("{k} on the left"), left), (format!("{k} on the right"), write_command(&[whole(0), whole(k)], 48))]
    };
    let minus_zero = negative(whole(0));
    let zeros = [[minus_zero, whole(0)], [whole(0), minus_zero], [minus_zero, minus_zero]];
    let mut all: Vec<u32> = ks().into_iter().map(whole).collect();
    all.resize(all.len().next_multiple_of(2), minus_zero);
    let mut list: Vec<Named> = ks().into_iter().flat_map(alone).collect();
    list.extend(zeros.map(|pair| ("zeros of both signs".to_string(), write_command(&pair, 48))));
    list.push(("all of them".to_string(), write_command(&all, room_for(all.len()))));
    list
}

/// The first and the last k of levels over the whole range.
fn steps_of_levels() -> Vec<Named> {
    let levels: Vec<i32> = (-32_768..=32_767).step_by(61).collect();
    let numbers: Vec<u32> = levels.iter().flat_map(|level| [whole(256 * level), whole(256 * level + 255)]).collect();
    vec![("steps of levels".to_string(), write_command(&numbers, room_for(numbers.len())))]
}

// Numbers that are none

/// Binary32 numbers that are no output numbers, by their bits; each stands for both signs.
fn strange() -> BTreeSet<u32> {
    let not_a_number = [0x7fc0_0000, 0x7f80_0001, 0x7fff_ffff, 0x7fbf_ffff, 0x7fa5_a5a5];
    let endless = [0x7f80_0000];
    let subnormal = [0x0000_0001, 0x0000_0002, 0x0040_0000, 0x007f_ffff];
    let small = [0x0080_0000, 0x0080_0001, 0x3300_0000, 0x337f_ffff, 0x3380_0000, 0x33ff_ffff, 0x3400_0001];
    let below_one = [0x3eff_ffff, 0x3eff_fffe, 0x3eff_fffd, 0x3f00_0001, 0x3f7f_ffff, 0x3f7f_fffd];
    let past_one = [0x3f80_0001, 0x3f80_0002, 0x3fc0_0000, 0x3fff_ffff, 0x4000_0000, 0x4040_0000, 0x4700_0000];
    let huge = [0x4b00_0000, 0x4b80_0000, 0x4f00_0000, 0x4f80_0000, 0x5f00_0000, 0x5f80_0000, 0x7f7f_ffff];
    [&not_a_number[..], &endless, &subnormal, &small, &below_one, &past_one, &huge].concat().into_iter().collect()
}

/// Each in front, in the middle and at the end, with room and with none.
fn in_each_place(bits: u32) -> Vec<Named> {
    let command = |place: usize, room: u32| {
        let mut numbers = ramp(6);
        numbers[place] = bits;
        (format!("{bits:08x} at {place} into {room}"), write_command(&numbers, room))
    };
    [0, 1, 2, 3, 4, 5].into_iter().map(|place| command(place, 56)).chain([command(0, 0), command(5, 55)]).collect()
}

/// The strange ones, and those that lie half a step above a whole one.
fn other_numbers() -> Vec<Named> {
    let strange = strange().into_iter().flat_map(|bits| [bits, negative(bits)]).flat_map(in_each_place);
    let halfway = |k: i32| {
        let pair = [halves(2 * k + 1), whole(k)];
        (format!("{k} and a half"), write_command(&pair, 48))
    };
    let between = ks().into_iter().filter(|k| (-8_388_608..8_388_608).contains(k));
    strange.chain(between.map(halfway)).collect()
}

/// Good numbers with one of their bits changed: some of these are good as well.
fn one_bit_off() -> Vec<Named> {
    let of = |k: i32| {
        let command = move |bit: u32| {
            (format!("{k} with bit {bit} changed"), write_command(&[whole(1), whole(k) ^ (1 << bit)], 48))
        };
        (0..32).map(command)
    };
    [0, 1, -1, 256, -4_194_304, 8_388_351, 8_388_607, 8_388_608, -8_388_608].into_iter().flat_map(of).collect()
}

// The order of the refusals

/// 13 for the count or for a number, and 15 for the room: 13 goes first, wherever the number stands.
fn several_faults() -> Vec<Named> {
    let bad = 0x7fc0_0000;
    let lists = [
        vec![bad],
        vec![bad; 2],
        vec![bad; 3],
        [ramp(2), vec![bad]].concat(),
        [vec![bad], ramp(2)].concat(),
        [ramp(99), vec![bad]].concat(),
        [ramp(100), vec![bad]].concat(),
        [vec![bad], ramp(99)].concat(),
        [vec![bad], ramp(98), vec![bad]].concat(),
        ramp(99),
    ];
    let of = |numbers: Vec<u32>| {
        let need = room_for(numbers.len());
        let command =
            move |room| (format!("{} numbers at fault into {room}", numbers.len()), write_command(&numbers, room));
        [0, 43, 44, need - 4, need - 1, need, need + 100].into_iter().map(command)
    };
    lists.into_iter().flat_map(of).collect()
}

/// As many numbers as a command may have, and the largest room.
fn most_numbers() -> Vec<Named> {
    let most = NUMBER_ROOM as usize;
    let need = room_for(most);
    let mut last_bad = ramp(most);
    last_bad[most - 1] = 0x3f80_0001;
    vec![
        ("the most numbers".to_string(), write_command(&ramp(most), need)),
        ("the most numbers, one byte short".to_string(), write_command(&ramp(most), need - 1)),
        ("the most numbers into the largest room".to_string(), write_command(&ramp(most), FILE_ROOM)),
        ("the most numbers, the last bad".to_string(), write_command(&last_bad, 0)),
        ("the most odd numbers".to_string(), write_command(&ramp(most - 1), FILE_ROOM)),
        ("no number into the largest room".to_string(), write_command(&[], FILE_ROOM)),
    ]
}
