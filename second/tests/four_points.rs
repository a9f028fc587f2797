//! The reading of four points (M-100): the quotient, what it is held to, and which samples the points are at each edge of
//! a window and a loop.

mod common;

use common::Rig;
use second::make::bank_builder::{one_zone, quick, sample, Gen, SamplePlan};
use second::make::chance::Chance;
use second::voice::between;

const ENDS: [i64; 5] = [-32_768, -1, 0, 1, 32_767];

/// Four points by chance, one in four of them at an end of the range.
fn points(chance: &mut Chance) -> [i64; 4] {
    [(); 4].map(|()| if chance.once_in(4) { chance.pick(&ENDS) } else { chance.from(-32_768, 32_767) })
}

// The quotient

#[test]
fn at_the_place_of_a_sample_it_is_that_sample() {
    let chance = &mut Chance::new(100);
    for _ in 0..1_000 {
        let points = points(chance);
        assert_eq!(between(points, 0), points[1], "{points:?}");
    }
}

#[test]
fn four_equal_points_are_read_as_they_are() {
    for x in ENDS {
        (0..4_096).for_each(|q| assert_eq!(between([x; 4], q), x, "{x} at {q}"));
    }
}

#[test]
fn four_points_on_a_line_are_read_on_it() {
    for (x1, slope) in [(0, 1), (0, -1), (7, -3), (-7, 3), (-5_000, 9_999), (10_000, -10_000), (-1, 1), (1, -1)] {
        let line = [-1, 0, 1, 2].map(|i| x1 + i * slope);
        for q in 0..4_096 {
            assert_eq!(between(line, q), x1 + (slope * q).div_euclid(4_096), "{line:?} at {q}");
        }
    }
}

/// (9·x1 + 9·x2 - x0 - x3)/16.
fn halfway([x0, x1, x2, x3]: [i64; 4]) -> i64 {
    (9 * x1 + 9 * x2 - x0 - x3).div_euclid(16).clamp(-32_768, 32_767)
}

#[test]
fn halfway_by_its_own_sum() {
    let chance = &mut Chance::new(101);
    for _ in 0..1_000 {
        let points = points(chance);
        assert_eq!(between(points, 2_048), halfway(points), "{points:?}");
    }
}

/// One point of 32,767 and three of 0: its part by itself, worked out by hand.
#[test]
fn each_point_has_its_own_part() {
    let of = |place: usize, q| {
        let mut points = [0; 4];
        points[place] = 32_767;
        between(points, q)
    };
    // q = 1: -1/8,192 and little more; nearly 1; 1/8,192 and little more; nearly 0, and below it.
    assert_eq!([0, 1, 2, 3].map(|place| of(place, 1)), [-4, 32_766, 4, -1]);
    // q = 4,095 is the same from the other side.
    assert_eq!([0, 1, 2, 3].map(|place| of(place, 4_095)), [-1, 4, 32_766, -4]);
    // q = 1,024: -9/128, 111/128, 29/128 and -3/128.
    assert_eq!([0, 1, 2, 3].map(|place| of(place, 1_024)), [-2_304, 28_415, 7_423, -768]);
}

#[test]
fn held_to_both_ends() {
    let (low, high) = (-32_768, 32_767);
    assert_eq!(between([low, high, high, low], 2_048), high, "40,958 and more");
    assert_eq!(between([high, low, low, high], 2_048), low, "-40,960 and less");
    // (9·a - b)/8 halfway in b a a b.
    assert_eq!([32_760, 32_759].map(|b| between([b, high, high, b], 2_048)), [high; 2], "32,767 7/8 and 32,768");
    assert_eq!([-32_768, -32_767].map(|b| between([b, low, low, b], 2_048)), [low; 2], "-32,768 and -32,768 1/8");
    assert_eq!(between([-32_752, -32_767, -32_767, -32_752], 2_048), low, "-32,768 7/8");
    assert_eq!(between([-32_759, -32_767, -32_767, -32_759], 2_048), low, "just -32,768");
    assert_eq!(between([-32_760, -32_767, -32_767, -32_760], 2_048), low, "-32,767 7/8");
}

#[test]
fn rounded_down_below_zero() {
    assert_eq!(between([0, 0, -1, 0], 2_048), -1, "-9/16");
    assert_eq!(between([0, -1, 0, 0], 4_095), -1, "nearly 0");
    assert_eq!(between([0, 0, -1, 0], 1), -1, "nearly 0");
    assert_eq!(between([1, 0, 0, 1], 2_048), -1, "-2/16");
    assert_eq!(between([0, -1, -2, -3], 2_048), -2, "-1 1/2");
    assert_eq!(between([0, -1, -1, 0], 2_048), -2, "-1 1/8");
    assert_eq!(between([0, 1, 1, 0], 2_048), 1, "1 1/8");
}

// The points

/// The readings of so many frames: left is half of 256 times the reading.
fn readings(rig: &mut Rig, frames: usize) -> Vec<i64> {
    (0..frames).map(|_| rig.sums().0 / 128).collect()
}

/// A window struck an octave below its root: half a sample a frame.
fn struck(gens: &[Gen], window: SamplePlan, ram: &[i16]) -> Rig {
    let mut rig = Rig::new(&one_zone(&quick(gens), window), ram).at_full();
    assert_eq!(rig.on(0, 48, 127), Ok(1));
    rig
}

/// The windows begin at place 2 and end at place 10 or before; the loud samples about them are not to be read.
const RAM: [i16; 12] = [30_000, -30_000, 100, 2_000, -700, 5_000, -11_000, 900, 4_000, -300, -32_000, 32_000];

/// Where 0 stands and no sample.
const ZERO: usize = 12;

/// Each x1 and the reading halfway behind it, where a row has the places of the four points.
fn expected(rows: &[[usize; 4]]) -> Vec<i64> {
    let sample = |place: usize| RAM.get(place).map_or(0, |&sample| sample as i64);
    rows.iter().map(|row| row.map(sample)).flat_map(|points| [points[1], halfway(points)]).collect()
}

#[test]
fn zeros_around_a_window() {
    for (end, rows) in [
        (3, &[[ZERO, 2, ZERO, ZERO]][..]),
        (4, &[[ZERO, 2, 3, ZERO], [2, 3, ZERO, ZERO]]),
        (5, &[[ZERO, 2, 3, 4], [2, 3, 4, ZERO], [3, 4, ZERO, ZERO]]),
        (6, &[[ZERO, 2, 3, 4], [2, 3, 4, 5], [3, 4, 5, ZERO], [4, 5, ZERO, ZERO]]),
    ] {
        let mut rig = struck(&[], sample(2, end), &RAM);
        assert_eq!(readings(&mut rig, 2 * rows.len()), expected(rows), "up to {end}");
        assert_eq!(rig.engine.word(), 0);
    }
}

/// There is no sample in front of place 0, and none behind the last.
#[test]
fn a_window_that_is_the_whole_memory() {
    let mut rig = struck(&[], sample(0, 3), &RAM[2..5]);
    assert_eq!(readings(&mut rig, 6), expected(&[[ZERO, 2, 3, 4], [2, 3, 4, ZERO], [3, 4, ZERO, ZERO]]));
    let mut rig = struck(&[(54, 1)], sample(0, 3), &RAM[2..5]);
    let turn = [[ZERO, 2, 3, 4], [2, 3, 4, 2], [3, 4, 2, 3]];
    assert_eq!(readings(&mut rig, 12), expected(&[turn, turn].concat()));
}

/// x0 does not run back through the loop, x2 and x3 run on through it; in front of the loop too.
#[test]
fn around_a_loops_seam() {
    for (loop_end, front, turn) in [
        (5, [2, 3, 4, 4], &[[3, 4, 4, 4]][..]),
        (6, [2, 3, 4, 5], &[[3, 4, 5, 4], [4, 5, 4, 5]]),
        (7, [2, 3, 4, 5], &[[3, 4, 5, 6], [4, 5, 6, 4], [5, 6, 4, 5]]),
        (8, [2, 3, 4, 5], &[[3, 4, 5, 6], [4, 5, 6, 7], [5, 6, 7, 4], [6, 7, 4, 5]]),
    ] {
        let window = SamplePlan { loop_start: 4, loop_end, ..sample(2, 10) };
        let rows = [&[[ZERO, 2, 3, 4], front], turn, turn, turn].concat();
        for mode in [1, 3] {
            let mut rig = struck(&[(54, mode)], window, &RAM);
            assert_eq!(readings(&mut rig, 2 * rows.len()), expected(&rows), "mode {mode}, up to {loop_end}");
        }
    }
}

/// A loop that begins at the window's start: x0 is 0 there after each fold.
#[test]
fn loops_from_the_windows_start() {
    for (loop_end, turn) in [
        (3, &[[ZERO, 2, 2, 2]][..]),
        (4, &[[ZERO, 2, 3, 2], [2, 3, 2, 3]]),
        (5, &[[ZERO, 2, 3, 4], [2, 3, 4, 2], [3, 4, 2, 3]]),
    ] {
        let window = SamplePlan { loop_end, ..sample(2, 10) };
        let rows = [turn, turn, turn].concat();
        let mut rig = struck(&[(54, 1)], window, &RAM);
        assert_eq!(readings(&mut rig, 2 * rows.len()), expected(&rows), "up to {loop_end}");
    }
}

/// Mode 3 after its release reads on behind the loop, into zeros at the window's end; mode 1 goes on with its loop. The
/// release takes so long that nothing is lost in these frames.
#[test]
fn after_a_release() {
    let window = SamplePlan { loop_start: 3, loop_end: 6, ..sample(2, 10) };
    let turn = [[2, 3, 4, 5], [3, 4, 5, 3], [4, 5, 3, 4]];
    let straight = [[4, 5, 6, 7], [5, 6, 7, 8], [6, 7, 8, 9], [7, 8, 9, ZERO], [8, 9, ZERO, ZERO]];
    for (mode, after) in [(3, &straight[..]), (1, &[turn[2], turn[0], turn[1]])] {
        let mut rig = struck(&[(54, mode), (38, 8_000)], window, &RAM);
        assert_eq!(readings(&mut rig, 12), expected(&[&[[ZERO, 2, 3, 4]], &turn[..], &turn[..2]].concat()));
        assert_eq!(rig.off(0, 48), Ok(1));
        assert_eq!(readings(&mut rig, 2 * after.len()), expected(after), "mode {mode}");
        assert_eq!(rig.engine.word(), u32::from(mode == 1));
    }
}

/// Of the fraction only the top 12 bits count, rounded down: at 594 units a frame q is 0 in frames 0 to 6, 1 in frames 7
/// to 13, and then 2.
#[test]
fn the_top_twelve_bits() {
    let window = SamplePlan { rate: 400, ..sample(0, 3) };
    let mut rig = Rig::new(&one_zone(&quick(&[(51, -96)]), window), &[0, 32_767, 0]).at_full();
    assert_eq!(rig.on(0, 60, 127), Ok(1));
    assert_eq!(readings(&mut rig, 15), [[0; 7], [4; 7]].concat().into_iter().chain([8]).collect::<Vec<_>>());
}
