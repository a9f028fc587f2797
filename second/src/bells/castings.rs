//! The three castings: for each a strike, and a hum that is looped. Their bells differ in pitch alone.

/// A tone of the strike: its ratio to the prime in 1/10,000; its strength, with the sign of the first swing; the
/// milliseconds in which it falls by 60 dB.
pub type Partial = (i64, i64, i64);

pub struct Casting {
    pub name: &'static str,
    pub lowest: u8,
    pub highest: u8,
    pub root: u8,
    /// Cycles of the prime in 1,024 samples of the strike, and of the hum in 4,096 of its loop, which is read an octave
    /// higher: so the hum stands an octave below the prime.
    pub cycles: i64,
    pub rate: u32,
    pub strike_length: usize,
    /// The samples in which the strike grows from nothing.
    pub rise: usize,
    pub partials: &'static [Partial],
    pub loop_length: usize,
    /// The tones of the hum: their cycles in the loop, and their strength.
    pub hum: &'static [(i64, i64)],
    /// In timecents, for 1,000 centibels: one centibel is 5 half cycles of the hum, in the high casting 8. There all
    /// tones of the loop cross zero, so that a step of the envelope makes no noise.
    pub decay: i32,
    /// In centibels.
    pub strike_attenuation: i32,
    pub hum_attenuation: i32,
}

pub const CASTINGS: [Casting; 3] = [
    Casting {
        name: "low",
        lowest: 48,
        highest: 59,
        root: 51,
        cycles: 5,
        rate: 32_000,
        strike_length: 112_000,
        rise: 72,
        partials: &LOW,
        loop_length: 4_096,
        hum: &[(5, 600), (10, 280), (12, 330), (20, 70)],
        decay: 5_108,
        strike_attenuation: 0,
        hum_attenuation: 120,
    },
    Casting {
        name: "mid",
        lowest: 60,
        highest: 71,
        root: 63,
        cycles: 10,
        rate: 32_000,
        strike_length: 80_000,
        rise: 48,
        partials: &MID,
        loop_length: 2_048,
        hum: &[(5, 650), (10, 260), (12, 250), (20, 40)],
        decay: 5_108,
        strike_attenuation: 5,
        hum_attenuation: 130,
    },
    Casting {
        name: "high",
        lowest: 72,
        highest: 84,
        root: 75,
        cycles: 20,
        rate: 32_013,
        strike_length: 48_000,
        rise: 28,
        partials: &HIGH,
        loop_length: 8_192,
        hum: &[(40, 750), (80, 260), (95, 150)],
        decay: 5_921,
        strike_attenuation: 10,
        hum_attenuation: 140,
    },
];

const LOW: [Partial; 20] = [
    (10_000, 200, 5_200),
    (11_975, 300, 5_000),
    (15_060, -120, 3_200),
    (20_000, 480, 4_600),
    (20_070, 170, 4_000),
    (25_140, 200, 2_400),
    (26_620, 170, 2_600),
    (30_110, 520, 3_800),
    (30_200, 160, 3_000),
    (33_200, -120, 1_700),
    (41_660, 500, 2_900),
    (54_330, 480, 2_200),
    (67_960, -430, 1_700),
    (82_150, 370, 1_250),
    (97_000, 300, 900),
    (112_300, 240, 680),
    (128_000, -190, 500),
    (144_000, 150, 380),
    (160_500, 115, 280),
    (177_000, -85, 210),
];

const MID: [Partial; 16] = [
    (10_000, 230, 3_600),
    (11_985, 290, 3_400),
    (15_060, -110, 2_200),
    (20_000, 520, 3_000),
    (20_050, 150, 2_600),
    (25_140, -190, 1_500),
    (26_620, 150, 1_600),
    (30_110, -500, 2_500),
    (30_170, -130, 2_000),
    (41_660, -540, 1_800),
    (54_330, -480, 1_300),
    (67_960, 390, 950),
    (82_150, -300, 700),
    (97_000, -230, 500),
    (112_300, 140, 370),
    (128_000, -100, 270),
];

const HIGH: [Partial; 13] = [
    (10_000, 290, 2_300),
    (11_862, 260, 2_100),
    (15_060, 90, 1_300),
    (20_000, 560, 1_800),
    (20_035, 120, 1_600),
    (25_140, 150, 900),
    (26_620, -110, 900),
    (30_110, -430, 1_600),
    (41_660, 460, 1_100),
    (54_330, -360, 750),
    (67_960, 260, 420),
    (82_150, -180, 300),
    (97_000, 110, 210),
];
