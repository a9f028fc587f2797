//! Cases of "Slots, keys and the clock": taking in every order, classes, note-off, pedal, 120 and 123, October night.

use super::bank_builder::*;
use super::chance::Chance;
use super::script::{noise, Script};

pub fn write(s: &mut Script) {
    lowest_free_slots(s);
    taking_by_velocity(s);
    taking_by_age(s);
    taking_released(s);
    taking_more_layers_than_released(s);
    taking_never_its_own(s);
    taking_marked(s);
    taking_by_chance(s);
    faded_voices_stand(s);
    classes(s);
    class_refusals(s);
    note_off(s);
    one_key_many_voices(s);
    pedal(s);
    pedal_crossing(s);
    all_notes_off(s);
    all_sound_off(s);
    other_controls(s);
    october_night(s);
    october_night_full(s);
}

/// Program n - 1 has n layers that sound on, for n from 1 to 32. They stand in hold, which keeps the traces short.
fn chords() -> BankPlan {
    let held = quick(&[(35, 5_000), (54, 1), (38, -6_000)]);
    let mut plan = BankPlan { samples: vec![sample(0, 16)], ..BankPlan::default() };
    let layer = zone_to(&[], 53, 0);
    plan.instruments = vec![vec![zone(&held), layer.clone()], [vec![zone(&held)], vec![layer; 4]].concat()];
    for n in 1..=32 {
        let fours = vec![zone_to(&[], 41, 1); n / 4];
        let ones = vec![zone_to(&[], 41, 0); n % 4];
        plan.presets.push(PresetPlan { program: n as u16 - 1, bank: 0, zones: [fours, ones].concat() });
    }
    plan
}

/// A case over the bank of chords.
pub fn begin(s: &mut Script, name: &str) {
    s.begin_plan(name, &chords(), &noise(16, 80));
}

/// A strike of so many layers.
pub fn chord(s: &mut Script, layers: u8, channel: u8, key: u8, velocity: u8) {
    s.need_program(channel, layers - 1);
    s.on(channel, key, velocity);
}

/// 32 single voices, key k with the velocity that is given for it, and one frame.
fn fill(s: &mut Script, velocity: impl Fn(u8) -> u8) {
    s.program(0, 0);
    for key in 0..32 {
        s.on(0, key, velocity(key));
    }
    s.go(1);
}

fn lowest_free_slots(s: &mut Script) {
    begin(s, "slots: the lowest free ones");
    fill(s, |_| 100);
    s.program(1, 0);
    for key in [31, 0, 7, 8, 20] {
        s.off(0, key);
    }
    s.control(0, 7, 50);
    s.go(1_400);
    chord(s, 3, 1, 60, 90);
    s.go(1);
    chord(s, 2, 1, 61, 90);
    s.go(1);
    chord(s, 1, 1, 62, 90);
    s.go(1);
    s.silence(0);
    chord(s, 5, 0, 63, 90);
    s.go(1);
    chord(s, 32, 0, 64, 90);
    s.go(1);
}

/// Lower struck velocity first, whatever the order of striking.
fn taking_by_velocity(s: &mut Script) {
    for (name, step) in [("rising", 3u32), ("falling", 125), ("mixed", 37)] {
        begin(s, &format!("taking: velocities {name}"));
        fill(s, |key| 1 + ((key as u32 + 1) * step % 127) as u8);
        for key in 40..46 {
            chord(s, 1, 0, key, 64);
            s.go(1);
        }
        chord(s, 4, 0, 50, 1);
        s.go(1);
        chord(s, 2, 0, 51, 127);
        s.go(1);
    }
}

/// Of equal velocities the older; slots that were taken again make age and slot number differ.
fn taking_by_age(s: &mut Script) {
    begin(s, "taking: age");
    fill(s, |_| 80);
    for round in 0..3 {
        for key in 40..51 {
            chord(s, 1 + key % 3, 0, key + round, 80);
            s.go(1);
        }
    }
    begin(s, "taking: age across channels and freed slots");
    fill(s, |_| 80);
    for channel in 1..5 {
        s.off(0, 8 * channel - 1);
        s.go(1);
        s.go(1_400);
        chord(s, 2, channel, 60, 80);
        s.go(1);
    }
    s.silence(2);
    for key in 70..80 {
        chord(s, 2, 8, key, 80);
        chord(s, 2, 3, key, 80);
        s.go(1);
    }
}

/// Released voices first, also of higher velocity and younger; among them lower velocity, then older.
fn taking_released(s: &mut Script) {
    begin(s, "taking: released first");
    fill(s, |key| 40 + (key * 5) % 32);
    for key in [30, 3, 17, 22, 9] {
        s.off(0, key);
        s.go(1);
    }
    for key in 60..68 {
        chord(s, 1, 0, key, 20);
        s.go(1);
    }
    begin(s, "taking: among released ones of equal velocity");
    fill(s, |_| 90);
    for key in [25, 2, 14, 9] {
        s.off(0, key);
        s.go(1);
    }
    for key in 60..66 {
        chord(s, 1, 0, key, 90);
        s.go(1);
    }
}

fn taking_more_layers_than_released(s: &mut Script) {
    for layers in [2, 4, 5, 32] {
        begin(s, &format!("taking: {layers} layers, three released"));
        fill(s, |key| 30 + (key * 7) % 50);
        for key in [28, 11, 5] {
            s.off(0, key);
            s.go(1);
        }
        chord(s, layers, 0, 60, 33);
        s.go(1);
        chord(s, layers, 1, 61, 32);
        s.go(1);
    }
}

/// "Never one of the same note-on": the softest voices are those just started, and none of them is taken.
fn taking_never_its_own(s: &mut Script) {
    for layers in [2, 16, 31, 32] {
        begin(s, &format!("taking: never its own, {layers} layers"));
        fill(s, |_| 127);
        chord(s, layers, 0, 60, 1);
        s.go(1);
        chord(s, layers, 0, 61, 1);
        s.go(1);
    }
    begin(s, "taking: never its own, some slots free");
    chord(s, 20, 0, 60, 100);
    s.go(1);
    chord(s, 20, 0, 61, 5);
    s.go(1);
    chord(s, 20, 0, 62, 5);
    s.go(1);
    s.off(0, 62);
    chord(s, 30, 0, 63, 4);
    s.go(1);
}

/// A pedal-marked voice is not released: it is taken by velocity like a held one.
fn taking_marked(s: &mut Script) {
    begin(s, "taking: pedal-marked voices are not released");
    s.control(0, 64, 127);
    fill(s, |key| if key < 16 { 90 } else { 50 });
    for key in 0..16 {
        s.off(0, key);
    }
    for key in 60..64 {
        chord(s, 1, 0, key, 60);
        s.go(1);
    }
    s.control(0, 64, 0);
    for key in 70..74 {
        chord(s, 2, 0, key, 60);
        s.go(1);
    }
}

/// Strikes of 1 to 32 layers with few velocities, releases between: all three orders meet.
fn taking_by_chance(s: &mut Script) {
    for seed in 0..4 {
        let mut chance = Chance::new(800 + seed);
        begin(s, &format!("taking by chance {seed}"));
        for _ in 0..40 {
            let (channel, key) = (chance.pick(&[0, 1, 9]), chance.from(60, 65) as u8);
            if chance.once_in(3) {
                s.off(channel, key);
            } else {
                let most = chance.pick(&[1, 2, 4, 8, 32]);
                let layers = chance.from(1, most) as u8;
                let velocity = chance.pick(&[20, 21, 100]);
                chord(s, layers, channel % 9, key, velocity);
            }
            if chance.once_in(2) {
                s.go(1);
            }
        }
    }
}

/// A voice whose envelope stands at 1,000 is in its slot until the next frame: in the word, to be cut or taken.
fn faded_voices_stand(s: &mut Script) {
    let mut plan = one_zone(&quick(&[(54, 1), (38, -32_768), (57, 3)]), sample(0, 16));
    plan.strike_plan(1, &[], vec![zone_to(&quick(&[(54, 1)]), 53, 0)]);
    plan.strike_plan(2, &[], vec![zone_to(&quick(&[(54, 1), (37, 1_000), (36, -12_000)]), 53, 0)]);
    s.begin_plan("faded voices stand until the next frame", &plan, &noise(16, 81));
    s.on(0, 60, 100);
    s.on(1, 60, 100);
    s.go(1);
    s.off(0, 60);
    s.off(1, 60);
    s.go(0);
    s.panel(0);
    s.program(0, 1);
    s.on(0, 61, 100);
    s.program(0, 0);
    s.on(0, 62, 100);
    s.go(1);
    s.panel(0);
    s.panel(1);
    s.program(3, 2);
    s.on(3, 60, 100);
    s.go(42);
    s.go(1);
    s.panel(0);
    s.off(3, 60);
    s.panel(0);
    s.go(1);
}

/// Classes cut within a channel, before slots are taken, in any stage; not across channels, and not class 0.
fn classes(s: &mut Script) {
    let mut plan = BankPlan { samples: vec![sample(0, 16)], ..BankPlan::default() };
    let groups: [&[i32]; 10] = [&[0], &[1], &[2], &[1, 1], &[1, 2], &[0, 1], &[-1], &[-32_768], &[256], &[1, 0, 2, 1]];
    for (program, group) in groups.into_iter().enumerate() {
        let zones = group.iter().map(|&class| zone_to(&quick(&[(54, 1), (57, class)]), 53, 0));
        plan.strike_plan(program as u16, &[], zones.collect());
    }
    s.begin_plan("classes", &plan, &noise(16, 82));
    for channel in [0, 1] {
        for program in 0..10 {
            s.program(channel, program);
            s.on(channel, 60 + program, 100);
            s.go(1);
        }
    }
    for program in [4, 1, 3, 0, 9, 6, 2, 7, 8, 5] {
        s.program(0, program);
        s.off(0, 61);
        s.on(0, 61, 30);
        s.go(1);
    }
    s.control(0, 64, 127);
    for program in [1, 2, 4, 1] {
        s.program(0, program);
        s.on(0, 61, 30);
        s.off(0, 61);
        s.go(2);
    }
    full_with_classes(s, &plan);
}

/// With all slots taken, a cut makes room first, and what is cut is the channel's own.
fn full_with_classes(s: &mut Script, plan: &BankPlan) {
    s.begin_plan("classes with all slots taken", plan, &noise(16, 83));
    for i in 0..32 {
        s.program(i % 3, 1 + i % 2);
        s.on(i % 3, i, 40 + i);
        s.program(i % 3, 0);
        s.on(i % 3, i, 40 + i);
    }
    s.go(1);
    for (channel, program) in [(0, 9), (1, 3), (2, 4), (0, 9), (5, 9), (0, 1)] {
        s.program(channel, program);
        s.on(channel, 60, 20);
        s.go(1);
    }
}

/// A refused note-on cuts nothing; a strike without layers cuts nothing.
fn class_refusals(s: &mut Script) {
    let ranged = [(43, 0x3c3c)];
    let mut plan = BankPlan { samples: vec![sample(0, 16), sample(0, 20)], ..BankPlan::default() };
    let cutting = quick(&[(54, 1), (57, 4)]);
    plan.strike_plan(0, &[], vec![zone_to(&cutting, 53, 0)]);
    plan.strike_plan(1, &[], vec![zone_to(&cutting, 53, 0), zone_to(&cutting, 53, 1)]);
    plan.strike_plan(2, &ranged, vec![zone_to(&cutting, 53, 0)]);
    plan.strike_plan(3, &[], vec![zone_to(&cutting, 53, 0); 33]);
    s.begin_plan("classes and refusals", &plan, &noise(16, 84));
    s.on(0, 60, 100);
    s.go(1);
    for program in [1, 3, 9] {
        s.program(0, program);
        s.on(0, 60, 100);
    }
    s.program(0, 2);
    s.on(0, 61, 100);
    s.on(0, 60, 128);
    s.go(1);
    s.on(0, 60, 100);
    s.go(1);
}

/// Every held voice of channel and struck key, and no other; a second note-off finds none.
fn note_off(s: &mut Script) {
    begin(s, "note-off");
    chord(s, 3, 0, 60, 100);
    chord(s, 2, 0, 61, 100);
    chord(s, 2, 1, 60, 100);
    chord(s, 1, 0, 60, 50);
    s.go(3);
    for (channel, key) in [(0, 59), (2, 60), (0, 60), (0, 60), (1, 61), (1, 60)] {
        s.off(channel, key);
        s.go(1);
    }
    s.on(0, 60, 100);
    s.off(0, 60);
    s.on(0, 61, 0);
    s.go(3);
    s.fresh(0);
    for i in 0..40 {
        chord(s, 1, i % 16, 60, 100);
    }
    for channel in 0..16 {
        s.off(channel, 60);
    }
    s.go(1);
}

/// The same key struck again and again: each strike is a voice of its own, and one note-off reaches them all.
fn one_key_many_voices(s: &mut Script) {
    begin(s, "one key, many voices");
    for velocity in [100, 90, 110, 100, 1, 127] {
        chord(s, 2, 0, 60, velocity);
        s.go(2);
    }
    s.off(0, 60);
    s.go(1);
    chord(s, 2, 0, 60, 64);
    s.off(0, 60);
    s.off(0, 60);
    s.go(1_400);
}

/// Note-offs under the pedal mark; lifting releases the marked; voices struck under the pedal stay held.
fn pedal(s: &mut Script) {
    begin(s, "pedal");
    chord(s, 2, 0, 60, 100);
    chord(s, 1, 0, 61, 100);
    chord(s, 1, 1, 60, 100);
    s.go(2);
    s.control(0, 64, 127);
    s.off(0, 60);
    s.off(0, 60);
    s.off(1, 60);
    s.go(2);
    chord(s, 1, 0, 60, 90);
    s.off(0, 60);
    chord(s, 3, 0, 60, 80);
    s.on(0, 61, 0);
    s.go(2);
    s.control(0, 64, 0);
    s.go(2);
    s.off(0, 60);
    s.go(2);
    s.control(0, 64, 100);
    s.control(0, 64, 0);
    s.control(0, 64, 0);
    s.go(2);
}

/// 63 and 64; each value below 64 releases what is marked, and values from 64 up keep it.
fn pedal_crossing(s: &mut Script) {
    begin(s, "pedal: crossing 64");
    for value in [64, 65, 127, 63, 0, 62, 64] {
        chord(s, 1, 0, 60, 100);
        s.control(0, 64, value);
        s.off(0, 60);
        s.go(1);
        s.control(0, 64, 64);
        s.go(1);
        s.control(0, 64, 127);
        s.go(1);
        s.control(1, 64, 0);
        s.control(0, 66, 0);
        s.go(1);
        s.control(0, 64, 63);
        s.go(1);
        s.silence(0);
    }
}

/// 123 is a note-off for all keys: it releases, and marks under the pedal; the value is not looked at.
fn all_notes_off(s: &mut Script) {
    begin(s, "control 123");
    for (down, value) in [(false, 0), (false, 127), (true, 0), (true, 5)] {
        chord(s, 2, 0, 60, 100);
        chord(s, 1, 0, 72, 100);
        chord(s, 1, 1, 60, 100);
        s.go(2);
        s.control(0, 64, if down { 127 } else { 0 });
        s.off(0, 72);
        s.control(0, 123, value);
        s.go(2);
        s.off(0, 60);
        s.control(0, 123, value);
        s.go(2);
        s.control(0, 64, 0);
        s.go(2);
        s.silence(0);
        s.silence(1);
    }
}

/// 120 frees the channel's voices at once, marked ones too, and leaves the pedal's value.
fn all_sound_off(s: &mut Script) {
    begin(s, "control 120");
    for value in [0, 127] {
        chord(s, 3, 0, 60, 100);
        chord(s, 2, 1, 60, 100);
        s.control(0, 64, 127);
        s.off(0, 60);
        chord(s, 1, 0, 61, 100);
        s.go(2);
        s.control(0, 120, value);
        s.go(2);
        chord(s, 1, 0, 62, 100);
        s.off(0, 62);
        s.go(2);
        s.control(0, 64, 0);
        s.go(2);
        s.control(1, 120, value);
    }
}

/// Every other control does nothing, 121 and 124 to 127 too.
fn other_controls(s: &mut Script) {
    begin(s, "other controls");
    chord(s, 2, 0, 60, 100);
    s.control(0, 64, 100);
    s.off(0, 60);
    chord(s, 1, 0, 61, 100);
    s.go(1);
    let without = (1..7).chain(8..11).chain(12..64).chain(65..120).chain([121, 122]).chain(124..128);
    for control in without {
        s.control(0, control, if control % 2 == 0 { 0 } else { 127 });
    }
    s.go(4);
    s.off(0, 61);
    s.control(0, 64, 0);
    s.go(4);
}

/// The October night, scaled down: a drone sounds through the hour that comes twice, and its piece is played over itself,
/// so that each key is struck again while it sounds and let go only then. At the end no voice is left.
fn october_night(s: &mut Script) {
    let drone = [(33, -32_768), (34, -9_000), (35, -32_768), (36, -8_000), (37, 200), (38, -9_000), (54, 1)];
    s.begin_plan("October night: a drone over itself", &one_zone(&drone, sample(0, 16)), &noise(16, 85));
    s.fresh(0xffff_e000);
    s.on(0, 36, 70);
    s.go_far(8_000);
    s.on(0, 36, 70);
    s.go_far(5_000);
    s.off(0, 36);
    s.go_far(200);
    s.off(0, 36);
    s.go_far(300);
    s.on(0, 36, 0);
    s.go(1);
}

/// The same with a chord of drones, strokes above it that take voices, and both ends of the piece.
fn october_night_full(s: &mut Script) {
    begin(s, "October night: drones and strokes over themselves");
    let keys = [36, 43, 48];
    for _ in 0..2 {
        for key in keys {
            chord(s, 2, 0, key, 60);
        }
        s.go(300);
        for stroke in 0..12 {
            chord(s, 2, 1, 60 + stroke % 4, 110 - stroke);
            s.go(40);
            if stroke % 2 == 1 {
                s.off(1, 60 + stroke % 4);
            }
        }
    }
    for _ in 0..2 {
        for key in keys {
            s.off(0, key);
            s.go(20);
        }
        s.control(1, 123, 0);
        s.go(100);
    }
    s.go(1_400);
}
